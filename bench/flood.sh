#!/usr/bin/env bash
# Floods the program on 127.0.0.1 with what it is to refuse, while 100 calls have media and new calls come, and tells whether they go on.
set -eu
usage() {
    cat <<'END'
usage: bench/flood.sh [SECONDS]

Each case takes SECONDS (10). 100 calls with the flag `strict source` whose answerers speak SRTP have a packet each way every 20 ms, one call after
the other is offered, answered and deleted, and a ping is sent each 10 ms. At the same time, in turn: nothing, garbage at the control port from one process, floods
at the ports of the calls (50 packets at once at each: no RTP, RTP from a wrong source, RTP with wrong tags), datagrams of each length
from 0 to 65,507 to a media port and to the control port, garbage again, and nothing. A line a case: what was sent, calls set up a second, packets of the calls that were
lost, pings, and the program's processor time and resident memory. What the words mean is told at the top of bench/media.c and
bench/flood.c. Variables, with what they are where they are not set:

  RTPENGINE   the program (crates/rtpengine/out/rtpengine of this clone)
  THREADS     --num-threads (1)
  ROUNDS      how often all cases are gone through, with one program (1)
  PROCESSORS  those that all of it runs on, as taskset has them (those that there are)
  CC          the C compiler (cc)

Status: 0, or 1 where the program ended, a call could not be set up, the pings stayed without answer or its memory grew by over 4 MiB after the
first garbage, 2 for wrong words, 3 where a program or the compiler can't be had.
END
}

top=$(cd "$(dirname "$0")/.." && pwd)
ours=${RTPENGINE:-$top/crates/rtpengine/out/rtpengine} threads=${THREADS:-1} seconds=${1:-10} control=22270 first=10000 last=19999 calls=100 rounds=${ROUNDS:-1}
tell() { echo "bench/flood.sh: $*" >&2; }
case $seconds in
-h | --help) usage && exit ;;
'' | *[!0-9]*) usage >&2 && exit 2 ;;
esac
[ -x "$ours" ] || { tell "there is no $ours: run tools/build-program, or name the program by RTPENGINE"; exit 3; }
[ -z "${PROCESSORS-}" ] || taskset -cp "$PROCESSORS" $$ >/dev/null
ulimit -n "$(ulimit -Hn)"

room=$(mktemp -d "${TMPDIR:-/tmp}/rtpengine-flood-XXXXXX") program=
trap '[ -z "$program" ] || kill -KILL "$program" 2>/dev/null || true; rm -rf "$room"' EXIT
trap 'exit 130' INT TERM HUP
for name in media flood; do
    "${CC:-cc}" -O2 -pthread -o "$room/$name" "$top"/bench/$name*.c || { tell "the load generators can't be built"; exit 3; }
done
mkfifo "$room/input"
exec 9<>"$room/input" # the program's standard input, which doesn't end
"$ours" serve --interface=127.0.0.1 --listen-ng=127.0.0.1:$control --port-min=$first --port-max=$last --num-threads="$threads" <&9 >"$room/log" 2>&1 &
program=$!
for _ in $(seq 50); do "$room/media" probe port=$control && break; sleep 0.1; done

memory() { sed -n 's/^VmRSS:[^0-9]*\([0-9]*\).*/\1/p' "/proc/$program/status"; }
bad=0 base=
# during CASE MODE WORD...: the calls and the pings, and once the calls have media a flood at the same time, where a mode is named. A flood at PORT is one
# at a port of the first call.
during() {
    local case=$1 media pings flood=none port
    shift
    "$room/media" setup port=$control calls=$calls secure=1 strict=1 tell=1 insist=50 seconds="$seconds" pid=$program >"$room/calls" 2>"$room/said" &
    media=$!
    for _ in $(seq 600); do grep -q ^media "$room/said" && break; kill -0 $media 2>/dev/null || break; sleep 0.1; done
    sed -n 's/^ports //p' "$room/said" >"$room/ports"
    read -r port _ <"$room/ports" || true
    "$room/flood" pings port=$control seconds="$seconds" >"$room/pings" &
    pings=$!
    [ $# = 0 ] || flood=$("$room/flood" "${@/PORT/$port}" seconds="$seconds" <"$room/ports")
    wait $media || { bad=1 && grep -v -e ^ports -e ^media "$room/said"; }
    wait $pings
    kill -0 $program 2>/dev/null || { tell "the program ended: $(tail -n 3 "$room/log")" && exit 1; }
    echo "$case: flood $flood | pings $(cat "$room/pings") | $(grep -o '\(sent\|received\|lost\|dropped\|setups\|setup_p50\|processor\)=[0-9.]*' "$room/calls" | tr '\n' ' ')| rss=$(memory)"
    grep -q 'answered=[1-9]' "$room/pings" || bad=1
    [ -z "$base" ] || [ "$(memory)" -le $((base + 4096)) ] || { bad=1 && tell "memory has grown from $base to $(memory) KiB"; }
}

echo "$(nproc) processors, load $(cut -d ' ' -f 1-3 /proc/loadavg), --num-threads=$threads"
for _ in $(seq "$rounds"); do
    during "no flood"
    during "garbage at the control port" garbage port=$control
    base=${base:-$(memory)} # with as many kept replies as there may be
    during "packets at the ports of the calls" packets
    during "each length at a media port" lengths port=PORT
    during "each length at the control port" lengths port=$control
    during "garbage again" garbage port=$control
    during "no flood"
done
exec 9>&-
{ kill -KILL "$program" && wait "$program"; } 2>/dev/null || true
program=
exit $bad
