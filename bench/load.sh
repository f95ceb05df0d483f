#!/usr/bin/env bash
# What the relay does with generated calls, without a socket: packets a second, and processor time a packet, with 1, 2 and 4 lanes, by
# turns in one run. Half of the calls are protected towards one side. What the calls themselves take, their set-up, the sweeps of one
# packet a side and their end, is measured by a run with one packet a side, and left out. Usage, after the program has been built:
#
#     bench/load.sh [CALLS [PACKETS [ROUNDS]]]     (1000 calls, 500 packets a side, 3 rounds; each figure is the median)
#
# RTPENGINE names another program than crates/rtpengine/out/rtpengine.
set -euo pipefail
top=$(cd "$(dirname "$0")/.." && pwd)
program=${RTPENGINE:-$top/crates/rtpengine/out/rtpengine}
calls=${1:-1000}
packets=${2:-500}
rounds=${3:-3}
work=$(mktemp -d)
trap 'rm -r "$work"' EXIT

# Seconds of wall and of processor of one run with this many packets a side and lanes; its line must tell that each packet was sent.
run() {
    local TIMEFORMAT='%R %U %S'
    { time "$program" load --calls="$calls" --packets="$1" --lanes="$2" >"$work/out"; } 2>"$work/time"
    if [ "$(cat "$work/out")" != "calls $calls sent $((2 * calls * $1)) refused 0 lost 0" ]; then
        echo "bench/load.sh: $(cat "$work/out")" >&2
        exit 1
    fi
    tail -n 1 "$work/time"
}

for _ in $(seq "$rounds"); do
    for lanes in 1 2 4; do
        echo "$lanes $(run 1 $lanes) $(run "$packets" $lanes)" >>"$work/runs"
    done
done
awk -v packets=$((2 * calls * (packets - 1))) '
    { n[$1]++; wall[$1, n[$1]] = $5 - $2; cpu[$1, n[$1]] = $6 + $7 - $3 - $4 }
    function median(of, lanes,   i, j, m, t, a) {
        m = n[lanes]
        for (i = 1; i <= m; i++) a[i] = of[lanes, i]
        for (i = 2; i <= m; i++) for (j = i; j > 1 && a[j] < a[j - 1]; j--) { t = a[j]; a[j] = a[j - 1]; a[j - 1] = t }
        return a[int((m + 1) / 2)]
    }
    END {
        one = median(wall, 1)
        printf "%5s %18s %22s %22s\n", "lanes", "packets a second", "processor us a packet", "against one lane"
        for (lanes = 1; lanes <= 4; lanes *= 2) {
            w = median(wall, lanes); c = median(cpu, lanes)
            printf "%5d %18d %22.2f %22.2f\n", lanes, packets / w, 1000000 * c / packets, one / w
        }
    }' "$work/runs"
