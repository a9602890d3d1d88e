#!/usr/bin/env bash
# Times the same commands through the program, through C SQLite alone and through a roster book in plain Python, on three books:
#
#     bench/compare.sh [COUNT [TIMES..]]
#
# COUNT is how many pairings are added and assigned, 300 if none is given. TIMES are the books: 0 is an empty one, 1 has the year of a
# small airline (60 members, 10,000 pairings, 50,000 requests) and 10 that of ten. All three have the same tables and commit each command
# to the disk before the next. The program is asked by HTTP, one connection each, and that is part of its time. C SQLite alone
# (rows.py) writes the rows that the commands leave, without judging them. The plain program (plain.py) judges and answers as the
# program does. Its answers are compared with those of the program, and in the end the rows of all three. The tables of times and
# ratios are printed as bench/README.md has them.
set -eu
top=$(cd "$(dirname "$(readlink -f "${BASH_SOURCE[0]}")")/.." && pwd)
"$top/rosterbook" --version >/dev/null
rosterbook=$top/crates/rosterbook_main/out/rosterbook_main
count=${1:-300}
[ $# -eq 0 ] || shift
books=("${@:-0}")
[ $# -gt 0 ] || books=(0 1 10)
room=$(mktemp -d)
server=
trap '[ -z "$server" ] || kill "$server"; rm -rf "$room"' EXIT
cd "$room"
port=8118

# taken COMMAND..: what it says of its milliseconds on standard error, while it prints the answers.
taken() {
    { "$@" >answers; } 2>&1
}

# reported WHAT PROGRAM ROWS PLAIN: a line of the table, with how many times as long the program took as each of the others.
reported() {
    awk -v what="$1" -v program="$2" -v rows="$3" -v plain="$4" '
        function ratio(other) { return other + 0 > 0 ? sprintf("%.1f", program / other) : "" }
        BEGIN { printf "| %s | %s | %s | %s | %s | %s |\n", what, program, rows == "-" ? "" : rows, plain, ratio(rows), ratio(plain) }'
}

# listen FILE: starts a server, and waits for its first line.
listen() {
    : >listening
    "$rosterbook" serve "$1" $port --connections 1000000 >listening &
    server=$!
    until grep -q . listening; do
        kill -0 "$server" 2>/dev/null || { echo "bench/compare.sh: the server did not start on port $port" >&2; exit 1; }
        sleep 0.001
    done
}

hush() {
    kill "$server"
    wait "$server" 2>/dev/null || true
    server=
}

# compared TIMES: the table of one book.
compared() {
    local begin program rows plain file
    rm -rf ./*.db* lines
    "$rosterbook" init program.db EST5EDT,M3.2.0,M11.1.0 >/dev/null
    [ "$1" = 0 ] || "$top/bench/airline.py" fill program.db "$1"
    mkdir lines
    "$top/bench/airline.py" ask lines "$1" "$count"
    cp program.db rows.db
    cp program.db plain.db
    : >none
    echo
    echo "| $(describe program.db) | program | C SQLite alone | plain Python | program : SQLite | program : Python |"
    echo '|---|---|---|---|---|---|'
    begin=$(date +%s%N)
    listen program.db
    program=$(awk -v nanoseconds=$(($(date +%s%N) - begin)) 'BEGIN { printf "%.3f", nanoseconds / 1000000 }')
    reported 'opening the book' "$program" "$(taken "$top/bench/rows.py" rows.db none none)" "$(taken "$top/bench/plain.py" plain.db <none)"
    reported 'a request that names nothing, by HTTP' "$(python3 "$top/bench/ask.py" $port 1000 404 /nothing)" - ''
    for file in lines/*; do
        program=$(taken "$top/bench/lines.py" $port "$file")
        cp answers wanted
        plain=$(taken "$top/bench/plain.py" plain.db <"$file")
        cmp wanted answers
        rows=$(taken "$top/bench/rows.py" rows.db "$file" wanted)
        reported "${file#* }, $(wc -l <"$file") of them" "$program" "$rows" "$plain"
    done
    hush
    "$top/bench/airline.py" same program.db rows.db
    "$top/bench/airline.py" same program.db plain.db
}

# describe FILE: what the book holds.
describe() {
    python3 - "$1" <<'END'
import sqlite3
import sys
book = sqlite3.connect(sys.argv[1])
members, pairings, requests = (book.execute(f"SELECT count(*) FROM {it}").fetchone()[0] for it in ("crew", "pairing", "request"))
print(f"{members:,} members, {pairings:,} pairings, {requests:,} requests; milliseconds of one")
END
}

for times in "${books[@]}"; do
    compared "$times"
done
