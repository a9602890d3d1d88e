#!/usr/bin/env bash
# Times what the book reads by key for one command: for an assignment to a captain who holds 120 pairings, which all are read; for one of
# a seat that is held, and for a release, for which none of them is. All are refused, so that nothing is committed, on the book of 10,000
# pairings and 50,000 requests (long_book.sql) and on one ten times that.
# They are asked of a server in turn; what HTTP costs, as a path that names nothing shows it, is taken off.
set -eu
top=$(cd "$(dirname "$(readlink -f "${BASH_SOURCE[0]}")")/.." && pwd)
"$top/rosterbook" --version >/dev/null
room=$(mktemp -d)
server=
trap '[ -z "$server" ] || kill "$server"; rm -rf "$room"' EXIT
cd "$room"
port=${1:-8117}
held=120

# filled COUNT: the SQL of the long book with this many pairings; the days of a century are used again after 36,000.
filled() {
    sed -e "s/n < 49999/n < $((5 * $1 - 1))/" -e "s/n < 10000/n < $1/" -e "s/n < 200/n < $(($1 / 50))/" \
        -e 's/n \* 1440/n % 36000 * 1440/g' "$top/bench/long_book.sql"
}

# period PAIRING DAY: a period of two segments.
period() {
    echo "$1,1,${2}T12:00Z,${2}T17:50Z,RB1,BOS,${2}T12:20Z,IAD,${2}T14:30Z"
    echo "$1,1,${2}T12:00Z,${2}T17:50Z,RB2,IAD,${2}T15:20Z,BOS,${2}T17:30Z"
}

# schedule: the pairings of the captain, one every third day, one more, and O1, which overlaps the first.
schedule() {
    echo pairing,period,report,release,flight,from,out,to,in
    for ((n = 1; n <= held + 1; n++)); do
        period "C$n" "$(date -u -d "2025-01-01 + $((3 * n)) days" +%F)"
    done
    period O1 2025-01-04
}

# asked WORDS..: milliseconds of a request, by ask.py.
asked() {
    python3 "$top/bench/ask.py" "$port" "$@"
}

# listen FILE: starts a server, and waits for its first line.
listen() {
    : >listening
    "$top/rosterbook" serve "$1" "$port" --connections 1000000 >listening &
    server=$!
    until grep -q . listening; do sleep 0.1; done
}

# reported WHAT MILLISECONDS LESS
reported() {
    awk -v what="$1" -v all="$2" -v less="$3" 'BEGIN { printf "%-60s %8.3f ms\n", what, all - less }'
}

for count in 10000 100000; do
    rm -f book.db*
    "$top/rosterbook" init book.db UTC0 >/dev/null
    filled "$count" | sqlite3 book.db
    sqlite3 book.db 'PRAGMA wal_checkpoint(TRUNCATE)' >/dev/null
    "$top/rosterbook" "do" book.db <<<'{"number":9000000,"do":"add-crew","crew":"C1","seat":"captain","name":"Ada Ray"}' >/dev/null
    schedule | "$top/rosterbook" import book.db 9000001 >/dev/null
    listen book.db
    asked $held 200 /requests '{"number":91000%d,"do":"assign","pairing":"C%d","crew":"C1"}' >/dev/null
    http=$(asked 2000 404 /nothing)
    reported "$count pairings: an assignment, $held pairings held" "$(asked 300 409 /requests '{"number":92000%d,"do":"assign","pairing":"O1","crew":"C1"}')" "$http"
    reported "$count pairings: an assignment of a seat that is held" "$(asked 2000 409 /requests '{"number":94000%d,"do":"assign","pairing":"C1","crew":"C1"}')" "$http"
    reported "$count pairings: a release" "$(asked 2000 409 /requests "{\"number\":93000%d,\"do\":\"release\",\"pairing\":\"C$((held + 1))\",\"crew\":\"C1\"}")" "$http"
    kill "$server"
    wait "$server" 2>/dev/null || true
    server=
done
