#!/usr/bin/env bash
# Runs the transcripts of tests/transcripts, those of the README (each of its blocks of `console`), of docs/REFUSALS.md and of the
# manual page (each of its blocks between .EX and .EE): what a user types, what the program writes, and how it ends. Each runs in an
# empty folder of its own, with the program and examples/ at hand; the program is on the PATH too. A line is
#
#     $ ..    a command of the shell
#     ! ..    a line that it writes to standard error
#     [N]     its exit status, where that isn't 0
#     # ..    a remark
#
# and any other a line that the command writes to standard output. The port 8117 stands for one on which nobody listens. Says on
# standard error what differs; the last line of standard output is 'N passed, M failed'. One that calls the shell `sqlite3`, or
# `curl`, is passed over where there is none on the PATH. So is a single command that calls `jq`, which changes nothing.
set -u
cd "$(dirname "$(readlink -f "${BASH_SOURCE[0]}")")/.." || exit 2
top=$PWD
room=$(mktemp -d) || exit 2
trap 'rm -rf "$room"' EXIT
export no_proxy=127.0.0.1

# free_port: a port of 127.0.0.1 on which nobody listens.
free_port() {
    local port=$((20000 + RANDOM % 10000))
    while (: <"/dev/tcp/127.0.0.1/$port") 2>/dev/null; do
        port=$((port + 1))
    done
    echo "$port"
}

# ran COMMAND: the lines that a transcript has of it after the command.
ran() {
    local status
    (cd "$room/folder" && PATH=$room/bin:$PATH bash -c "${1//8117/$port}") >"$room/out" 2>"$room/err" </dev/null
    status=$?
    sed "s/^listening $port$/listening 8117/" "$room/out"
    sed 's/^/! /' "$room/err"
    [ "$status" -eq 0 ] || echo "[$status]"
}

# played FILE: the transcript with what its commands give now.
played() {
    local line
    rm -rf "$room/folder"
    mkdir "$room/folder" && ln -s "$top/rosterbook" "$top/examples" "$room/folder" || exit 2
    while IFS= read -r line; do
        case $line in
            '# '*) echo "$line" ;;
            '$ '*) echo "$line" && ran "${line#\$ }" ;;
        esac
    done <"$1"
}

./rosterbook --version >/dev/null || exit 3
mkdir "$room/bin" && ln -s "$top/rosterbook" "$room/bin" || exit 2
for page in README.md docs/REFUSALS.md; do
    awk -v start="$room/$(basename $page .md)-" '/^```console$/ { blocks += 1; file = start blocks ".txt" } /^```$/ { file = "" }
        !/^```/ && file { print >file }' $page
done
sed 's/\\-/-/g; s/\\(aq/'"'"'/g; s/\\e/\\/g' share/man/man1/rosterbook.1 |
    awk -v start="$room/manual-" '$0 == ".EE" { file = "" } file { print >file } $0 == ".EX" { blocks += 1; file = start blocks ".txt" }'
port=$(free_port)
passed=0
failed=0
for file in "$room"/{README,REFUSALS,manual}-*.txt tests/transcripts/*.txt; do
    for tool in sqlite3 curl; do
        if grep -q '^\$ .*\b'"$tool " "$file" && ! command -v $tool >/dev/null; then
            echo "tests/transcripts.sh: $(basename "$file"): skipped, since no $tool is on the PATH" >&2
            continue 2
        fi
    done
    if ! command -v jq >/dev/null; then
        awk '/^\$ / { passed = / jq / } !passed' "$file" >"$room/without_jq" && file=$room/without_jq
    fi
    if difference=$(diff "$file" <(played "$file")); then
        passed=$((passed + 1))
    else
        failed=$((failed + 1))
        printf 'tests/transcripts.sh: %s: wanted <, and got >\n%s\n' "$(basename "$file")" "$difference" >&2
    fi
done
echo "$passed passed, $failed failed"
