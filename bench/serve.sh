#!/usr/bin/env bash
# Times requests of HTTP, on an empty book and on one of 10,000 pairings and 50,000 requests (long_book.sql): each is a connection of
# its own to a server of that book, one after the other. Beside it the same is asked of a copy of the book without HTTP: parts of a
# schedule in one run of `import`, and a report in one of `roster`, less what it takes to open the book. A path that names nothing is
# answered without the book, and so takes what HTTP costs. In the end stands what a request takes of a processor, and what memory open
# connections take (costs.py), beside another program, as that of before a change:
#
#     bench/serve.sh [PORT [OTHER]]
set -eu
top=$(cd "$(dirname "$(readlink -f "${BASH_SOURCE[0]}")")/.." && pwd)
"$top/rosterbook" --version >/dev/null
room=$(mktemp -d)
server=
trap '[ -z "$server" ] || kill "$server"; rm -rf "$room"' EXIT
port=${1:-8117}
other=${2:+$(readlink -f "$2")}
cd "$room"
plan='{"number":80000%d,"do":"add-pairing","pairing":"Q%d","periods":[{"report":"2025-06-10T11:00Z","release":"2025-06-10T20:00Z","segments":[{"flight":"RB1","from":"BOS","out":"2025-06-10T12:00Z","to":"IAD","in":"2025-06-10T19:30Z"}]}]}'

# schedule COUNT: the same pairings, with other ids.
schedule() {
    echo pairing,period,report,release,flight,from,out,to,in
    for ((n = 1; n <= $1; n++)); do
        echo "R$n,1,2025-06-10T11:00Z,2025-06-10T20:00Z,RB1,BOS,2025-06-10T12:00Z,IAD,2025-06-10T19:30Z"
    done
}

# reported WHAT MILLISECONDS [COUNT [LESS]]: how long one of this many takes, less what they take beside.
reported() {
    awk -v what="$1" -v all="$2" -v count="${3:-1}" -v less="${4:-0}" 'BEGIN {
        one = (all - less) / count
        if (one > 0) printf "%-46s %9.3f ms, %7.0f a second\n", what, one, 1000 / one
        else printf "%-46s too little to measure\n", what
    }'
}

# asked WHAT WORDS..: how long a request takes, by ask.py.
asked() {
    local one
    one=$(python3 "$top/bench/ask.py" "$port" "${@:2}")
    reported "$1" "$one"
}

# took RUNS COMMAND..: its milliseconds, the least of this many runs.
took() {
    local runs=$1 begin now least=
    shift
    while ((runs-- > 0)); do
        begin=$(date +%s%N)
        "$@" >/dev/null <"${input:-/dev/null}" || true
        now=$(($(date +%s%N) - begin))
        [ -n "$least" ] && [ "$least" -le "$now" ] || least=$now
    done
    printf '%d.%06d\n' $((least / 1000000)) $((least % 1000000))
}

# listen FILE: starts a server, and waits for its first line.
listen() {
    : >listening
    "$top/rosterbook" serve "$1" "$port" --connections 1000000 >listening &
    server=$!
    until grep -q . listening; do sleep 0.1; done
}

# hush: stops it, after printing what memory it held at most.
hush() {
    sed -n 's/^VmHWM:\s*/the most memory of the server: /p' "/proc/$server/status"
    kill "$server"
    wait "$server" 2>/dev/null || true
    server=
}

# alone FILE CREW COUNT: what the book takes without HTTP, with this many pairings accepted and then refused.
alone() {
    local opening
    schedule 0 >none.csv
    schedule "$3" >more.csv
    opening=$(input=none.csv took 3 "$top/rosterbook" import "$1" 900001)
    reported "to open the book" "$opening"
    reported "a roster, alone" "$(took 3 "$top/rosterbook" roster "$1" "$2")" 1 "$opening"
    reported "an accepted part of an import, alone" "$(input=more.csv took 1 "$top/rosterbook" import "$1" 900002)" "$3" "$opening"
    reported "a refused one, alone" "$(input=more.csv took 3 "$top/rosterbook" import "$1" 900003)" "$3" "$opening"
}

# measured FILE CREW COUNT: all of it, on a book that has this member.
measured() {
    cp "$1" alone.db
    alone alone.db "$2" "$3"
    listen "$1"
    asked "GET /nothing, which names nothing" 10000 404 /nothing
    asked "GET /crew/$2" "$3" 200 "/crew/$2"
    asked "a refused command" 1000 409 /requests '{"number":%d,"do":"cancel-pairing","pairing":"NOBODY"}'
    asked "an accepted command" "$3" 200 /requests "$plan"
    hush
}

"$top/rosterbook" init empty.db UTC0 >/dev/null
"$top/rosterbook" "do" empty.db <<<'{"number":900000,"do":"add-crew","crew":"C1","seat":"captain","name":"Ada Ray"}' >/dev/null
echo "an empty book"
measured empty.db C1 1000
"$top/rosterbook" init long.db UTC0 >/dev/null
sqlite3 long.db <"$top/bench/long_book.sql"
sqlite3 long.db 'PRAGMA wal_checkpoint(TRUNCATE)' >/dev/null
echo "the long book"
measured long.db M1000000 100
python3 "$top/bench/costs.py" "$port" "$top/crates/rosterbook_main/out/rosterbook_main" ${other:+"$other"}
