#!/usr/bin/env bash
# Times a million calls each of decimal arithmetic, beside plain i128 arithmetic.
# Needs rustc for the second column; build the program first by `rt run` in crates/decimal_bench.
set -eu
cd "$(dirname "$0")/.."
count=${1:-1000000}
program=crates/decimal_bench/out/decimal_bench
floor=$(mktemp)
trap 'rm -f "$floor"' EXIT
rustc -O -o "$floor" bench/decimal_floor.rs

# The seconds that a command takes, at best of five runs.
seconds() {
    for _ in 1 2 3 4 5; do
        /usr/bin/env bash -c "TIMEFORMAT=%U; time \"\$@\" >/dev/null" _ "$@" 2>&1
    done | sort -n | head -1
}

echo "| Call | inv_decimal | i128 |"
echo "|---|---|---|"
for call in add mul div read print; do
    echo "| $call | $(seconds "$program" "$call" "$count") | $(seconds "$floor" "$call" "$count") |"
done
