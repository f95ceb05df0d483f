#!/usr/bin/env bash
# What a call costs from its offer to its delete: over devices in memory, and over UDP on the loopback, there beside 0, 500 and 2,000
# other live calls, with an empty and a full store of kept replies, deleting the newest call or the oldest; and over UDP in bencode and in
# JSON, by turns.
# Usage: bench/calls.sh [CALLS], after `rt run` in crates/call_bench and crates/rtpengine has built the programs.
set -eu
top=$(cd "$(dirname "$0")/.." && pwd)
calls=${1:-1000}
printf 'memory: '
"$top/crates/call_bench/out/call_bench" "$calls"
# A server of its own, and calls to it: OTHERS KEPT DIALECT DELETED.
measure() {
    # media ports below those that the system gives to clients, as calls.py is one
    "$top/crates/rtpengine/out/rtpengine" serve --interface=127.0.0.1 --listen-ng=127.0.0.1:22230 --port-min=10000 --port-max=20000 \
        --max-sessions=2048 >/dev/null &
    server=$!
    trap 'kill "$server"' EXIT
    sleep 1
    printf 'UDP, %s other calls, %s replies kept, %s, the %s deleted: ' "$1" "$2" "$3" "$4"
    python3 "$top/bench/calls.py" 22230 "$calls" "$1" "$2" "$3" "$4"
    kill "$server"
    wait "$server" || :
    trap - EXIT
}
for others in 0 500 2000; do
    for kept in 0 4096; do
        measure "$others" "$kept" bencode newest
    done
done
for others in 500 2000; do
    measure "$others" 4096 bencode oldest
done
for round in 1 2 3; do
    for dialect in bencode json; do
        measure 0 0 "$dialect" newest
    done
done
