#!/usr/bin/env bash
# Times the making of a year's history, and judgements against it, by the program judge.txt, which is built in a folder of its own, over
# copies of the crates below it as checks have left them.
set -eu
top=$(cd "$(dirname "$(readlink -f "${BASH_SOURCE[0]}")")/.." && pwd)
room=$(mktemp -d)
trap 'rm -rf "$room"' EXIT
mkdir -p "$room/crates/timing/src"
for crate in values time117 duty limits; do
    cp -a "$top/crates/$crate" "$room/crates/$crate"
done
grep -E '^(values|time117|duty|limits):' "$top/crates.txt" >"$room/crates.txt"
echo 'timing: values time117 duty limits' >>"$room/crates.txt"
cp "$top/bench/judge.txt" "$room/crates/timing/src/main.rt"
cd "$room/crates/timing"
rt run
