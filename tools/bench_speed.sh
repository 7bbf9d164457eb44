#!/usr/bin/env bash
# The seconds that `bench` takes for a million records of steady traffic, the best of three runs. `rt run` in crates/bench, or `rt ci`, makes its program.
set -eu
cd "$(dirname "$0")/.."
records=$(mktemp)
trap 'rm -f "$records"' EXIT
python3 tools bench steady 1000000 > "$records"
TIMEFORMAT=%R
for _ in 1 2 3; do
    { time crates/bench/out/bench < "$records" > /dev/null; } 2>&1
done | sort -n | head -n 1
