#!/usr/bin/env bash
# What a packet of a replayed script costs: a script of one plain call and many packets, less the same script with its packets
# as comments. Usage, after the program has been built:
#
#     bench/replay.sh [PACKETS [RUNS]]           times; each is the median of RUNS runs (40000 packets, 5 runs)
#     bench/replay.sh --instructions [PACKETS]   instructions a packet (2000 packets), plain and to SRTP, which valgrind counts
#
# RTPENGINE names another program than crates/rtpengine/out/rtpengine.
set -euo pipefail
top=$(cd "$(dirname "$0")/.." && pwd)
program=${RTPENGINE:-$top/crates/rtpengine/out/rtpengine}
work=$(mktemp -d)
trap 'rm -r "$work"' EXIT

# The instructions of one run of a script.
count() {
    valgrind --tool=callgrind --callgrind-out-file="$work/callgrind" "$program" replay <"$1" 2>"$work/counted" >"$work/out"
    if [ "$(grep -c '^sent ' "$work/out" || true)" -ne "$2" ]; then
        echo "bench/replay.sh: not every packet was sent" >&2
        exit 1
    fi
    sed -n 's/.*Collected : *\([0-9]*\).*/\1/p' "$work/counted"
}

if [ "${1:-}" = --instructions ]; then
    packets=${2:-2000}
    for kind in plain secure; do
        words=()
        [ $kind = plain ] || words=(--secure)
        python3 "$top/bench/scripts.py" "$packets" "${words[@]}" >"$work/packets.script"
        python3 "$top/bench/scripts.py" "$packets" "${words[@]}" --skipped >"$work/skipped.script"
        full=$(count "$work/packets.script" "$packets")
        bare=$(count "$work/skipped.script" 0)
        echo "$kind: $(((full - bare) / packets)) instructions a packet ($packets packets)"
    done
    exit 0
fi

packets=${1:-40000}
runs=${2:-5}
python3 "$top/bench/scripts.py" "$packets" >"$work/packets.script"
python3 "$top/bench/scripts.py" "$packets" --skipped >"$work/skipped.script"

# Milliseconds of one run; what it prints is counted, and each line of a packet must be one that was sent.
run() {
    local began ended
    began=$(date +%s%N)
    "$program" replay <"$work/$1.script" >"$work/$1.out"
    ended=$(date +%s%N)
    if [ "$(grep -c '^sent ' "$work/$1.out" || true)" -ne "$2" ]; then
        echo "bench/replay.sh: not every packet was sent" >&2
        exit 1
    fi
    echo $(((ended - began) / 1000000))
}

# The median of the runs.
times() {
    for _ in $(seq "$runs"); do run "$1" "$2"; done | sort -n | awk '{ a[NR] = $1 } END { print a[int((NR + 1) / 2)] }'
}

full=$(times packets "$packets")
bare=$(times skipped 0)
awk -v n="$packets" -v f="$full" -v b="$bare" 'BEGIN {
    printf "%d packets: %d ms, as comments %d ms, %d packets/s\n", n, f, b, (f > b) ? n * 1000 / (f - b) : 0 }'
