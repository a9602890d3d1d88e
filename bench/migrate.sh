#!/usr/bin/env bash
# Times the opening of the book of 10,000 pairings and 50,000 requests (long_book.sql) in a file of version 1, which is made one of
# version 2 by that, and in one of version 2:
#
#     bench/migrate.sh [OLDER]
#
# OLDER is a program of version 1, which is timed too over the file of version 1. Each opening is of a new copy, in turn with the
# others, and is that of a command that is refused; the least time of seven is printed. The file of version 1 has the rows of the other
# in the tables of tests/tables/version_1.sql.
set -eu
top=$(cd "$(dirname "$(readlink -f "${BASH_SOURCE[0]}")")/.." && pwd)
older=${1:+$(readlink -f "$1")}
"$top/rosterbook" --version >/dev/null
program=$top/crates/rosterbook_main/out/rosterbook_main
room=$(mktemp -d)
trap 'rm -rf "$room"' EXIT
cd "$room"
refused='{"number":900000,"do":"cancel-pairing","pairing":"Q1"}'
declare -A least

# opened WHAT PROGRAM FILE: times a refusal over a copy of the file.
opened() {
    local begin now
    rm -f copy.db*
    cp "$3" copy.db
    sync copy.db
    begin=$(date +%s%N)
    "$2" "do" copy.db <<<"$refused" >answer || true
    now=$(($(date +%s%N) - begin))
    grep -q NoSuchPairing answer || { echo "bench/migrate.sh: $1: $(cat answer)" >&2; exit 1; }
    [ "${least[$1]:-$now}" -lt "$now" ] || least[$1]=$now
}

"$program" init second.db UTC0 >/dev/null
sqlite3 second.db <"$top/bench/long_book.sql"
sqlite3 second.db 'PRAGMA wal_checkpoint(TRUNCATE)' >/dev/null
{
    sed '/^INSERT/,$d' "$top/tests/tables/version_1.sql"
    echo "ATTACH 'second.db' AS second;"
    for table in book crew pairing period segment seat ground exceedance request; do
        echo "INSERT INTO $table SELECT * FROM second.$table;"
    done
    echo "UPDATE book SET version = 1;"
} | sqlite3 first.db

for ((turn = 0; turn < 7; turn++)); do
    opened 'version 2' "$program" second.db
    opened 'version 1, which becomes version 2' "$program" first.db
    [ "$(sqlite3 copy.db 'SELECT version FROM book')" = 2 ]
    [ -z "$older" ] || opened 'version 1, by its own program' "$older" first.db
done
for what in "${!least[@]}"; do
    awk -v what="$what" -v took="${least[$what]}" -v second="${least[version 2]}" \
        'BEGIN { printf "%-40s %7.1f ms, %.2f of that of version 2\n", what, took / 1000000, took / second }'
done | sort
