#!/usr/bin/env bash
# Loads this program and a peer (Sipwise's rtpengine, in user space), or an earlier program of ours, with the same media on 127.0.0.1, in turn, and
# prints their ratios.
# shellcheck disable=SC2119,SC2120 # the modes take numbers where they are called by name
set -eu
usage() {
    cat <<'END'
usage: bench/media.sh MODE [NUMBER]...

  paced [CALLS [SECONDS]]      each call a packet each way every 20 ms; 1, 100 and 500 calls, 5 seconds
  flood [SECONDS [WINDOW]]     10 calls, as fast as packets come back, at most WINDOW on their way; 3 seconds, 32
  single [SECONDS [WINDOW]]    the same with one thread of each program
  families [SECONDS [WINDOW]]  a flood whose answerers are of IPv6, at ::1; 3 seconds, 32
  idle [SECONDS]               no calls, and 100 without media; 10 seconds
  setup [SECONDS]              calls offered, answered and deleted one after the other, while 100 others have media; 5 seconds
  lanes [SECONDS [WINDOW]]     a flood of this program with 0, 1, 2 and 4 threads, and of a bare relay; 3 seconds, 64
  neighbours [SECONDS [WINDOW]]
                               the same with 2 and 4 threads, with calls side by side, and with each 17th of 272; 3 seconds, 64
  soak [MINUTES [CALLS]]       one program alone, ours, a line each minute; 10 minutes, 200 calls
  trace                        what strace -c and perf tell of 100 paced calls, and of a flood with one thread, of plain RTP: which system
                               calls a packet takes, and where the time goes; as root
  all                          all but families, neighbours, soak and trace: some ten minutes

paced, flood, single and families have calls of plain RTP, and calls whose answerer speaks SRTP. Each program is started afresh for each measurement: ours,
peer, ours, peer. What the words of a line mean is told at the top of bench/media.c. `bench/media.sh all | bench/table --write -` keeps the
figures in bench/results and puts them into docs/PERFORMANCE.md. Variables, with what they are where they are not set:

  RTPENGINE   our program (crates/rtpengine/out/rtpengine of this clone)
  PEER        the peer (/usr/bin/rtpengine, of Debian's rtpengine-daemon); where it isn't there, ours is measured alone
  BEFORE      an earlier program of ours, measured where PROGRAMS names it; the cases of such a run end in "since"
  PROGRAMS    which are measured, in this order (ours peer); before is BEFORE, relay the bare relay, for plain calls
  KINDS       of calls (plain secure)
  ROUNDS      how often each program is measured (3)
  THREADS     --num-threads of both programs (4)
  SENDERS     threads of the load generator in a flood (2, or 1 where there are fewer than 4 processors)
  PRIORITY    of the programs and the generator, for nice (0)
  CC          the C compiler (cc)

Status: 0, or 2 for wrong words, 3 where a program or the compiler can't be had, 4 where a measurement fails.
END
}

top=$(cd "$(dirname "$0")/.." && pwd)
ours=${RTPENGINE:-$top/crates/rtpengine/out/rtpengine} peer=${PEER:-/usr/bin/rtpengine} before=${BEFORE:-}
programs=${PROGRAMS:-ours peer} kinds=${KINDS:-plain secure} rounds=${ROUNDS:-3} threads=${THREADS:-4} priority=${PRIORITY:-0}
senders=${SENDERS:-$(($(nproc) < 4 ? 1 : 2))}
control=22260 first=10000 last=19999 # below the ports that the system gives to clients

tell() { echo "bench/media.sh: $*" >&2; }
wrong() {
    tell "$*"
    usage >&2
    exit 2
}

# Ends the program that is measured, and no other.
running=
stop() {
    [ -n "$running" ] || return 0
    kill "$running" 2>/dev/null || true
    for _ in $(seq 50); do
        kill -0 "$running" 2>/dev/null || break
        sleep 0.1
    done
    kill -KILL "$running" 2>/dev/null || true
    wait "$running" 2>/dev/null || true
    running=
}

# start PROGRAM THREADS CALLS; both programs have an interface of IPv6 too where `six` is set
six=
start() {
    local program=$1 words=("--interface=127.0.0.1" "--listen-ng=127.0.0.1:$control" "--port-min=$first" "--port-max=$last" "--num-threads=$2")
    case $program in
    ours) set -- "$ours" serve ${six:+--interface6=$six} "${words[@]}" ;;
    before) set -- "$before" serve ${six:+--interface6=$six} "${words[@]}" ;;
    peer) set -- "$peer" --config-file=none --table=-1 --foreground --log-stderr --log-level=4 --delete-delay=0 "${words[@]}" ${six:+--interface=$six} ;;
    relay) set -- "$room/relay" "$first" "$3" ;;
    esac
    if "$room/media" probe port=$control; then
        tell "somebody answers at 127.0.0.1:$control already"
        exit 3
    fi
    nice -n "$priority" "$@" <&9 >"$room/log" 2>&1 &
    running=$!
    [ "$program" != relay ] || sleep 0.3
    for _ in $(seq 50); do
        kill -0 "$running" 2>/dev/null || break
        if [ "$program" = relay ] || "$room/media" probe port=$control; then return; fi
    done
    tail -n 5 "$room/log" >&2
    tell "$program doesn't start: $*"
    exit 3
}

# measure CASE PROGRAM THREADS CALLS MODE WORD...: starts the program, measures it, and keeps and prints the line.
measure() {
    local case=$1 program=$2 count=$3 calls=$4 link=port=$control line
    shift 4
    start "$program" "$count" "$calls"
    [ "$program" != relay ] || link=relay=$first
    if ! line=$(nice -n "$priority" "$room/media" "$@" $link calls="$calls" pid="$running"); then
        tail -n 5 "$room/log" >&2
        tell "$case of $program failed"
        exit 4
    fi
    stop
    printf '%-18s %-6s %s\n' "$case" "$program" "$line"
    printf '%s\t%s\t%s\n' "$case" "$program" "$line" >>"$room/lines"
}

# in_turn CASE CALLS MODE WORD...: the same load on each program, in turn.
in_turn() {
    local case=$1 calls=$2 program
    [[ $programs != *before* ]] || case+=" since"
    shift 2
    for _ in $(seq "$rounds"); do
        for program in $programs; do
            if [ "$program" = relay ] && [[ $case != *plain* ]]; then continue; fi
            measure "$case" "$program" "$threads" "$calls" "$@"
        done
    done
}

is_secure() { [ "$1" = plain ] && echo 0 || echo 1; }

paced() {
    local calls kind
    for calls in ${1:-1 100 500}; do
        for kind in $kinds; do in_turn "paced $calls $kind" "$calls" paced seconds="${2:-5}" secure="$(is_secure "$kind")"; done
    done
}

flood() {
    local kind
    for kind in $kinds; do
        in_turn "flood $kind" 10 flood seconds="${1:-3}" window="${2:-32}" threads="$senders" secure="$(is_secure "$kind")"
    done
}

single() {
    local kind threads=1
    for kind in $kinds; do
        in_turn "one-thread $kind" 10 flood seconds="${1:-3}" window="${2:-32}" threads="$senders" secure="$(is_secure "$kind")"
    done
}

families() {
    local kind six=::1
    for kind in $kinds; do
        in_turn "flood to IPv6 $kind" 10 flood seconds="${1:-3}" window="${2:-32}" threads="$senders" six=1 secure="$(is_secure "$kind")"
    done
}

idle() {
    local calls
    for calls in 0 100; do in_turn "idle $calls" "$calls" idle seconds="${1:-10}"; done
}

setup() { in_turn "setup" 100 setup seconds="${1:-5}"; }

lanes() {
    local count words=(flood seconds="${1:-3}" window="${2:-64}" threads="$senders")
    for _ in $(seq "$rounds"); do
        measure "lanes relay" relay 1 16 "${words[@]}"
        for count in 0 1 2 4; do measure "lanes $count threads" ours $count 16 "${words[@]}"; done
    done
}

# A range of as many pairs as 16 * 17 calls have, each a lane of its own. The lanes are handed to the threads in twos, a call's pairs at a time, and 17 is 1
# modulo 2 and 4: so each thread has as many of the calls where each 17th has packets as where the first 16 have.
neighbours() {
    local count last=$((first + 4 * 16 * 17 - 1)) words=(flood seconds="${1:-3}" window="${2:-64}" threads="$senders")
    for _ in $(seq "$rounds"); do
        for count in 2 4; do
            measure "lanes $count side by side" ours $count 16 "${words[@]}"
            measure "lanes $count apart" ours $count 16 "${words[@]}" step=17
        done
    done
}

soak() {
    local program=${programs%% *}
    start "$program" "$threads" "${2:-200}"
    if ! nice -n "$priority" "$room/media" soak port=$control calls="${2:-200}" minutes="${1:-10}" pid="$running"; then
        tail -n 5 "$room/log" >&2
        tell "the soak of $program failed"
        exit 4
    fi
    stop
}

# traced CASE PROGRAM THREADS CALLS MODE WORD...: the load on the program, and each tracer beside it for three seconds.
traced() {
    local case=$1 program=$2 count=$3 calls=$4 tracer load
    shift 4
    for tracer in strace perf; do
        start "$program" "$count" "$calls"
        "$room/media" "$@" port=$control calls="$calls" pid="$running" >"$room/load" &
        load=$!
        sleep 3
        printf '\n%s of %s, %s\n' "$tracer" "$program" "$case"
        if [ $tracer = strace ]; then
            timeout -s INT 3 strace -f -c -o "$room/calls" -p "$running" 2>/dev/null || true
            grep -v '^---' "$room/calls" || true
            awk '
            $NF == "epoll_wait" { waits = $4 }
            $NF ~ /^recv/ { receives += $4; if (NF == 6) empty += $5 }
            $NF ~ /^send/ { sends += $4 }
            END { if (sends) printf "a packet sent: %.2f waits, %.2f receives, of which %.2f failed\n", waits / sends, receives / sends, empty / sends }' "$room/calls"
        else
            perf record -q -F 4999 -o "$room/perf" -p "$running" -- sleep 3 >/dev/null 2>&1 || true
            perf report -i "$room/perf" --stdio --sort dso 2>/dev/null | awk '/^ +[0-9]/ && ++n <= 5'
            perf report -i "$room/perf" --stdio --sort symbol 2>/dev/null | awk '/^ +[0-9]/ && ++n <= 12'
        fi
        wait "$load" || { tell "the load on $program failed" && exit 4; }
        stop
    done
}

trace() {
    local program
    for program in $programs; do traced "100 paced calls, $threads threads" "$program" "$threads" 100 paced seconds=8 secure=0; done
    for program in $programs; do traced "a flood of 10 calls, 1 thread" "$program" 1 10 flood seconds=8 window=32 threads="$senders" secure=0; done
}

# The median of each figure over the rounds, and the ratio of the programs'.
table() {
    awk -F '\t' '
    function median(name, program, figure,    n, i, k, x, sorted) {
        n = rounds[name, program]
        for (i = 1; i <= n; i++) {
            x = value[name, program, figure, i] + 0
            for (k = i; k > 1 && sorted[k - 1] > x; k--) sorted[k] = sorted[k - 1]
            sorted[k] = x
        }
        return n ? (sorted[int((n + 1) / 2)] + sorted[int(n / 2) + 1]) / 2 : 0
    }
    function shown(name, program, figure,    x) {
        if (!rounds[name, program]) return "-"
        x = median(name, program, figure)
        return sprintf(x >= 1000 ? "%.0f" : x >= 10 ? "%.1f" : "%.3f", x)
    }
    function row(name, figure, text,    a, b, c) {
        a = median(name, "ours", figure); b = median(name, "peer", figure); c = median(name, "before", figure)
        printf "%-18s %-30s %10s %10s %10s", name, text, shown(name, "ours", figure), shown(name, "peer", figure), (a > 0 && b > 0) ? sprintf("%.2f", a / b) : "-"
        if (before) printf " %10s %11s", shown(name, "before", figure), (c > 0 && a > 0) ? sprintf("%.2f", a / c) : "-"
        printf relay ? " %10s\n" : "\n", shown(name, "relay", figure)
    }
    {
        if (!($1 in seen)) { seen[$1] = 1; if ($1 ~ /^lanes/) lanes[++lane_count] = $1; else names[++count] = $1 }
        rounds[$1, $2]++
        if ($1 !~ /^lanes/ && $2 == "relay") relay = 1
        if ($2 == "before") before = 1
        words = split($3, word, " ")
        for (i = 1; i <= words; i++) { split(word[i], pair, "="); value[$1, $2, pair[1], rounds[$1, $2]] = pair[2] }
    }
    END {
        if (count) printf "\n%-18s %-30s %10s %10s %10s%s%s\n", "", "", "ours", "peer", "ours/peer", before ? "     before ours/before" : "", relay ? "      relay" : ""
        for (k = 1; k <= count; k++) {
            name = names[k]
            if (name ~ /^setup/) { row(name, "setups", "set-ups a second"); row(name, "setup_p50", "set-up, p50, us"); row(name, "setup_p99", "set-up, p99, us") }
            if (name ~ /^(flood|one-thread)/) row(name, "rate", "packets a second")
            if (name !~ /^idle/) { row(name, "lost", "packets lost"); row(name, "p50", "delay, p50, us"); row(name, "p99", "delay, p99, us") }
            if (name ~ /^(paced|flood|one-thread)/) row(name, "us", "processor time a packet, us")
            row(name, "processor", "processor time, % of one")
            row(name, "rss", "resident memory, KiB")
            if (name ~ /^(flood|one-thread)/) row(name, "generator", "generator, % of one processor")
            if (name ~ /^(paced|setup)/) row(name, "latest", "generator late, at most, us")
        }
        if (lane_count) printf "\n%-18s %10s %10s %10s %10s %10s %10s %10s\n", "lanes", "packets/s", "to relay", "us/packet", "own %", "lost", "p50, us", "p99, us"
        for (k = 1; k <= lane_count; k++) {
            name = lanes[k]; p = name ~ /relay/ ? "relay" : "ours"
            to_relay = rounds["lanes relay", "relay"] ? sprintf("%.2f", median(name, p, "rate") / median("lanes relay", "relay", "rate")) : "-"
            printf "%-18s %10.0f %10s %10.2f %10.0f %10.1f %10.0f %10.0f\n", p == "relay" ? p : substr(name, 7), median(name, p, "rate"), to_relay,
                median(name, p, "us"), median(name, p, "own"), median(name, p, "lost"), median(name, p, "p50"), median(name, p, "p99")
        }
    }' "$room/lines"
}

mode=${1-}
case $mode in
paced | flood | single | families | lanes | neighbours | soak) most=2 ;;
idle | setup) most=1 ;;
trace)
    most=0
    for tracer in strace perf; do
        command -v $tracer >/dev/null || { tell "there is no $tracer" && exit 3; }
    done
    ;;
all) most=0 ;;
-h | --help | help) usage; exit ;;
*) wrong "${mode:-nothing} is no mode" ;;
esac
shift
[ $# -le $most ] || wrong "$mode takes at most $most numbers"
for word in "$@" "$rounds" "$senders"; do [[ $word =~ ^[1-9][0-9]{0,3}$ ]] || wrong "$word is no number"; done

# An open port takes two descriptors in our program: eight a call.
ulimit -n "$(ulimit -Hn)"
[ "$(ulimit -n)" = unlimited ] || [ "$(ulimit -n)" -ge 4500 ] || tell "only $(ulimit -n) files may be open (ulimit -Hn): 500 calls need 4500"

if [[ $programs == *peer* ]] && [ ! -x "$peer" ]; then
    tell "there is no $peer (Debian: apt-get install rtpengine-daemon): ours is measured alone"
    programs=${programs/peer/}
fi
if [[ $programs == *before* ]] && [ ! -x "$before" ]; then
    tell "there is no earlier program: name it by BEFORE"
    exit 3
fi
if [[ $programs == *ours* || $mode == lanes || $mode == neighbours ]] && [ ! -x "$ours" ]; then
    tell "there is no $ours: run tools/build-program, or name the program by RTPENGINE"
    exit 3
fi

room=$(mktemp -d "${TMPDIR:-/tmp}/rtpengine-media-XXXXXX")
trap 'stop; rm -rf "$room"' EXIT
trap 'exit 130' INT TERM HUP
mkfifo "$room/input"
exec 9<>"$room/input" # the programs' standard input, which doesn't end
if ! "${CC:-cc}" -O2 -pthread -o "$room/media" "$top"/bench/media*.c || ! "${CC:-cc}" -O2 -o "$room/relay" "$top/bench/relay.c"; then
    tell "the load generator can't be built"
    exit 3
fi
echo "bench/media.sh $mode${*:+ $*}: $(nproc) processors, load $(cut -d ' ' -f 1-3 /proc/loadavg), --num-threads=$threads, $rounds rounds"
if [ "$mode" = all ]; then
    paced
    flood
    single
    idle
    setup
    [[ $programs != *ours* ]] || lanes
else
    "$mode" "$@"
fi
[ ! -e "$room/lines" ] || table
