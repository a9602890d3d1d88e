#!/usr/bin/env bash
# Times the same commands and reports on the book of one year and of ten years, by one program or by several, beside plain Python:
#
#     bench/years.sh [-m MEMBERS] [-y YEARS] [-c COUNT] [PROGRAM..]
#
# A PROGRAM is a path, such as those of before and after a change; without one it is the program that is built. The book is the year of
# airline.py, as often as YEARS says ('1 10', if nothing does), with 60 members or as many as MEMBERS says: in ten years each holds 3,000
# pairings. Each kind of command is asked COUNT times or twice that, 30 if nothing is said. `-m 4 -y '1 3' -c 4` is a try.
#
# All programs serve a copy of the book side by side, and are asked each command in turn, as plain.py is; all have to answer the same. What
# one takes is told by the time that its process runs on a processor (/proc/PID/schedstat), so other work on the machine counts little, and
# the disk not at all. The table of the medians is printed as bench/README.md has it. Ten years take 40 seconds of a processor to be
# filled, and 300 MB of the temporary folder, then 135 MB for each PROGRAM and for plain.py besides.
set -eu
top=$(cd "$(dirname "$(readlink -f "${BASH_SOURCE[0]}")")/.." && pwd)
members=60 years='1 10' count=30
while getopts m:y:c: option; do
    case $option in
    m) members=$OPTARG ;;
    y) years=$OPTARG ;;
    c) count=$OPTARG ;;
    *) exit 2 ;;
    esac
done
shift $((OPTIND - 1))
if [ $# -eq 0 ]; then
    "$top/rosterbook" --version >/dev/null
    set -- "$top/crates/rosterbook_main/out/rosterbook_main"
fi
room=$(mktemp -d)
trap 'rm -rf "$room"' EXIT

for of in $years; do
    begin=$SECONDS
    mkdir "$room/$of"
    "$1" init "$room/$of/book.db" EST5EDT,M3.2.0,M11.1.0 >/dev/null
    "$top/bench/years.py" fill "$room/$of" "$members" "$of" "$count"
    echo "bench/years.sh: years $of, filled in $((SECONDS - begin)) seconds, $(du -m "$room/$of/book.db" | cut -f 1) MB" >&2
done
"$top/bench/years.py" "time" "$room" "$years" "$@"
