#!/usr/bin/env bash
# Times the program over an assignment that is judged against a year: a captain takes 120 pairings, one every third day, each of
# one flight duty period with this many segments. The last assignment is judged by all eight limits in every window of the others.
set -eu
top=$(cd "$(dirname "$(readlink -f "${BASH_SOURCE[0]}")")/.." && pwd)
"$top/rosterbook" --version >/dev/null
room=$(mktemp -d)
trap 'rm -rf "$room"' EXIT
cd "$room"
pairings=120

# schedule SEGMENTS: the pairings, of segments of twenty minutes.
schedule() {
    echo pairing,period,report,release,flight,from,out,to,in
    for ((n = 1; n <= pairings; n++)); do
        day=$(date -u -d "2025-01-01 + $((3 * n)) days" +%F)
        for ((of = 0; of < $1; of++)); do
            if ((of % 2 == 0)); then from=BOS to=IAD; else from=IAD to=BOS; fi
            out=$(printf '%02d:%02d' $((13 + of / 2)) $((of % 2 * 30)))
            in=$(printf '%02d:%02d' $((13 + of / 2)) $((of % 2 * 30 + 20)))
            echo "P$n,1,${day}T12:00Z,${day}T20:00Z,RB$of,$from,${day}T$out""Z,$to,${day}T$in""Z"
        done
    done
}

# took COMMAND: its milliseconds, and what it answers.
took() {
    local begin said
    begin=$(date +%s%N)
    said=$("$top/rosterbook" do roster.db <<<"$1") || true
    printf '%6d ms  %s\n' $((($(date +%s%N) - begin) / 1000000)) "$said"
}

for segments in 1 2 6; do
    rm -f roster.db*
    "$top/rosterbook" init roster.db EST5EDT,M3.2.0,M11.1.0 >/dev/null
    "$top/rosterbook" do roster.db <<<'{"number":1,"do":"add-crew","crew":"C1","seat":"captain","name":"Ada Ray"}' >/dev/null
    schedule $segments | "$top/rosterbook" import roster.db 2 >/dev/null
    for ((n = 1; n < pairings; n++)); do
        "$top/rosterbook" do roster.db <<<"{\"number\":$((n + 2)),\"do\":\"assign\",\"pairing\":\"P$n\",\"crew\":\"C1\"}" >/dev/null
    done
    printf '%d segments, opening the book and a refusal ' $segments
    took '{"number":5000,"do":"assign","pairing":"P1","crew":"C1"}'
    printf '%d segments, the last assignment            ' $segments
    took "{\"number\":6000,\"do\":\"assign\",\"pairing\":\"P$pairings\",\"crew\":\"C1\"}"
done
