#!/usr/bin/env bash
# Times the program over a book of 10,000 pairings and 50,000 requests (long_book.sql): opening it, a command, and a schedule of
# 1,000 pairings, each a command that is on the disk before its line is printed; and the same schedule into an empty book. Beside
# it the stock shell `sqlite3` makes the changes of the schedule in as many transactions, on a copy of the same file.
set -eu
top=$(cd "$(dirname "$(readlink -f "${BASH_SOURCE[0]}")")/.." && pwd)
"$top/rosterbook" --version >/dev/null
room=$(mktemp -d)
trap 'rm -rf "$room"' EXIT
cd "$room"
pairings=1000

# schedule COUNT: this many pairings of one segment.
schedule() {
    echo pairing,period,report,release,flight,from,out,to,in
    for ((n = 1; n <= $1; n++)); do
        day=$(printf '20%02d-%02d-%02d' $((25 + n / 336 % 50)) $((1 + n / 28 % 12)) $((1 + n % 28)))
        echo "Q$n,1,${day}T11:00Z,${day}T20:00Z,RB1,BOS,${day}T12:00Z,IAD,${day}T19:30Z"
    done
}

# The changes of that schedule as SQL.
changes() {
    echo 'PRAGMA journal_mode = WAL; PRAGMA synchronous = FULL;'
    for ((n = 1; n <= pairings; n++)); do
        echo "BEGIN; INSERT INTO pairing (id) VALUES ('Q$n'); INSERT INTO period (pairing, number, report_at, release_at) VALUES ('Q$n', 1, $n, $((n + 540)));"
        echo "INSERT INTO segment (pairing, period, number, flight, origin, destination, out_at, in_at) VALUES ('Q$n', 1, 1, 'RB1', 'BOS', 'IAD', $((n + 60)), $((n + 510)));"
        echo "INSERT INTO request (number, part, command, reply) VALUES (900001, $n, '$(printf '{"do":"add-pairing","pairing":"Q%d","periods":[{"release":"2025-06-10T20:00Z","report":"2025-06-10T11:00Z","segments":[{"flight":"RB1","from":"BOS","in":"2025-06-10T19:30Z","out":"2025-06-10T12:00Z","to":"IAD"}]}]}' "$n")', '{\"exceedances\":[],\"result\":\"accepted\"}'); COMMIT;"
    done
}

# timed WHAT COMMAND..: seconds and the most memory that was held.
timed() {
    printf '%-44s ' "$1"
    shift
    { /usr/bin/time -f '%e s, %M kB' "$@" || true; } 2>&1 >/dev/null | tail -n 1
}

schedule $pairings >more.csv
schedule 13000 | head -c 1048570 >torn.csv
changes >stock.sql
"$top/rosterbook" init empty.db UTC0 >/dev/null
"$top/rosterbook" init roster.db UTC0 >/dev/null
sqlite3 roster.db <"$top/bench/long_book.sql"
sqlite3 roster.db 'PRAGMA wal_checkpoint(TRUNCATE)' >/dev/null
cp roster.db stock.db
printf '%-44s %s bytes\n' "the file" "$(stat -c %s roster.db)"
timed "a torn schedule of $(stat -c %s torn.csv) bytes" "$top/rosterbook" import empty.db 900001 <torn.csv
timed "$pairings pairings into an empty book" "$top/rosterbook" import empty.db 900001 <more.csv
timed "opening the long book, and a refusal" "$top/rosterbook" do roster.db <<<'{"number":900000,"do":"cancel-pairing","pairing":"Q1"}'
timed "a new member" "$top/rosterbook" do roster.db <<<'{"number":900002,"do":"add-crew","crew":"C1","seat":"captain","name":"Ada Ray"}'
timed "$pairings pairings into the long book" "$top/rosterbook" import roster.db 900001 <more.csv
timed "the same again" "$top/rosterbook" import roster.db 900001 <more.csv
timed "sqlite3, the same changes" sqlite3 stock.db '.read stock.sql'
