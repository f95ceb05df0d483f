#!/usr/bin/env bash
# What a turn of the turn table costs, compared with a lock of std around the same state: a line for each case.
# Usage: bench/turns.sh [ROUNDS [RUNS]], after `rt run` in crates/turn_bench has built the program.
# A figure is the median of RUNS runs (1 if left out), each of which measures turns and then locks.
set -eu
top=$(cd "$(dirname "$0")/.." && pwd)
program=$top/crates/turn_bench/out/turn_bench
rounds=${1:-2000000}
runs=${2:-1}
if [ ! -x "$program" ]; then
    (cd "$top/crates/turn_bench" && rt run >/dev/null)
fi
median() {
    sort -n | awk '{ a[NR] = $1 } END { print a[int((NR + 1) / 2)] }'
}
printf '%-14s %8s %8s %6s\n' case turn lock ratio
for case in 'small 1' 'small 1000' 'small 16384' 'large 1' 'large 1000' 'large 16384' \
    'two apart' 'two spread' 'two together' 'four apart' 'four spread' 'four together'; do
    # shellcheck disable=SC2086
    figures=$(for _ in $(seq "$runs"); do "$program" $case "$rounds"; done)
    turn=$(awk '{ print $2 }' <<<"$figures" | median)
    lock=$(awk '{ print $5 }' <<<"$figures" | median)
    awk -v c="$case" -v t="$turn" -v l="$lock" 'BEGIN { printf "%-14s %5d ns %5d ns %6.1f\n", c, t, l, (l > 0) ? t / l : 0 }'
done
