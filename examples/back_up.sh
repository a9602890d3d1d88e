#!/usr/bin/env bash
# Copies a book into a folder, as one file, and prints its path:
#
#     back_up.sh BOOK FOLDER [SERVICE]
#
# BOOK and its log BOOK-wal are one book, which one program has at a time. The stock shell `sqlite3` copies both into one file while
# it holds the book: whoever opens it meanwhile is refused with 90, and asks again. Where another program has the book, as a server
# has it all the time, `sqlite3` is refused, and nothing is copied. So a server is named as its SERVICE of systemd, which is stopped
# before and started again after; whoever asks it meanwhile finds nobody there, and asks again. A copy is read whole, by `sqlite3`
# and by `rosterbook`, before it gets its name: the one on the PATH, or else `./rosterbook` beside the folder of this script.
#
# Before a new version of the program is installed, make a copy while the earlier `rosterbook` is still on the PATH: a newer one may
# bring what it reads to a newer version, also the copy, and then the earlier one can't open it any more (42).
#
# To put a copy back: stop the service, move BOOK and BOOK-wal away, run "install -o rosterbook -g rosterbook -m 600 COPY BOOK" (where the
# user of the service is rosterbook), start the service, and hand in again, in their order and under their numbers, the lines and schedules
# that were accepted since. So keep all that you send.
set -eu
if [ $# -lt 2 ] || [ $# -gt 3 ]; then
    echo "usage: ${0##*/} BOOK FOLDER [SERVICE]" >&2
    exit 2
fi
book=$1
service=${3:-}
name=$(basename "$book" .db)-$(date -u +%Y%m%dT%H%M%SZ).db
copy=$2/$name
part=$2/.$name.part
program=$(command -v rosterbook) || program=$(dirname "$(dirname "$(readlink -f "$0")")")/rosterbook

finish() {
    rm -f "$part"*
    [ -z "$service" ] || systemctl start "$service"
}

[ -f "$book" ] || { echo "${0##*/}: there is no book $book" >&2; exit 1; }
[ ! -e "$copy" ] || { echo "${0##*/}: there is a copy $copy" >&2; exit 1; }
for needed in sqlite3 "$program"; do
    command -v "$needed" >/dev/null || { echo "${0##*/}: there is no $needed" >&2; exit 1; }
done
"$program" --version >/dev/null
trap finish EXIT
[ -z "$service" ] || systemctl stop "$service"
(umask 077 && sqlite3 -bail "$book" ".backup '$part'") || {
    [ -n "$service" ] || echo "${0##*/}: if a server has the book, name the server's service as SERVICE" >&2
    exit 1
}
[ "$(sqlite3 "$part" 'PRAGMA integrity_check')" = ok ]
"$program" exceedances "$part" >/dev/null
sync "$part"
mv "$part" "$copy"
echo "$copy"
