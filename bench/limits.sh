#!/usr/bin/env bash
# Times the limits of a captain, which say how near the captain is to each of them, beside the captain's roster:
#
#     bench/limits.sh [PORT [COUNT]]
#
# The captain holds 120 pairings of a year, one every third day, each of one flight duty period with this many segments. The limits are asked
# without a pairing, and with one that nobody holds. Each is asked of a server COUNT times, 300 if none is given; what HTTP costs, as a
# path that names nothing shows it, is taken off. The last column is by how much limits without a pairing take longer than the roster.
set -eu
top=$(cd "$(dirname "$(readlink -f "${BASH_SOURCE[0]}")")/.." && pwd)
"$top/rosterbook" --version >/dev/null
room=$(mktemp -d)
server=
trap '[ -z "$server" ] || kill "$server"; rm -rf "$room"' EXIT
cd "$room"
port=${1:-8117}
count=${2:-300}
held=120

# schedule SEGMENTS: the pairings that are held, and one more, of segments of twenty minutes.
schedule() {
    echo pairing,period,report,release,flight,from,out,to,in
    for ((n = 1; n <= held + 1; n++)); do
        day=$(date -u -d "2025-01-01 + $((3 * n)) days" +%F)
        for ((of = 0; of < $1; of++)); do
            if ((of % 2 == 0)); then from=BOS to=IAD; else from=IAD to=BOS; fi
            out=$(printf '%02d:%02d' $((13 + of / 2)) $((of % 2 * 30)))
            in=$(printf '%02d:%02d' $((13 + of / 2)) $((of % 2 * 30 + 20)))
            echo "P$n,1,${day}T12:00Z,${day}T20:00Z,RB$of,$from,${day}T$out""Z,$to,${day}T$in""Z"
        done
    done
}

# asked WORDS..: milliseconds of a request, by ask.py.
asked() {
    python3 "$top/bench/ask.py" "$port" "$@"
}

# listen FILE: starts a server, and waits for its first line.
listen() {
    : >listening
    "$top/rosterbook" serve "$1" "$port" --connections 1000000 >listening &
    server=$!
    until grep -q . listening; do sleep 0.1; done
}

# reported SEGMENTS HTTP ROSTER LIMITS WITH: a line of the table.
reported() {
    awk -v segments="$1" -v http="$2" -v roster="$3" -v limits="$4" -v with="$5" 'BEGIN {
        printf "| %d | %.3f ms | %.3f ms | %.3f ms | %.3f ms |\n", segments, roster - http, limits - http, with - http, limits - roster
    }'
}

echo '| Segments of a period | roster | limits | limits with a pairing | longer by |'
echo '|---|---|---|---|---|'
for segments in 1 2 6; do
    rm -f roster.db*
    "$top/rosterbook" init roster.db EST5EDT,M3.2.0,M11.1.0 >/dev/null
    "$top/rosterbook" "do" roster.db <<<'{"number":1,"do":"add-crew","crew":"C1","seat":"captain","name":"Ada Ray"}' >/dev/null
    schedule $segments | "$top/rosterbook" import roster.db 2 >/dev/null
    listen roster.db
    asked $held 200 /requests '{"number":1000%d,"do":"assign","pairing":"P%d","crew":"C1"}' >/dev/null
    http=$(asked "$count" 404 /nothing)
    reported $segments "$http" "$(asked "$count" 200 /crew/C1)" "$(asked "$count" 200 /reports/limits/C1)" \
        "$(asked "$count" 200 /reports/limits/C1/P$((held + 1)))"
    kill "$server"
    wait "$server" 2>/dev/null || true
    server=
done
