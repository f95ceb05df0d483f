#!/usr/bin/env bash
# Runs each test of some crates again and again, each time with another allocation that fails, and tells how each run ended.
set -eu
usage() {
    cat <<'END'
usage: bench/memory.sh [CRATE]...

Without words it takes the crates whose tests run the whole relay, the turns of the board, and lanes: tests_server tests_threads tests_turns
tests_media. Each needs its test program in crates/CRATE/out, where rt test leaves it. A line tells how many allocations a test makes and
how many of them were made to fail, each in a run of its own; the lines below it tell how these ended, with the numbers of the allocations:

  passed         the test got what it wants all the same
  stopped at     an assertion failed there, as one does that wants an answer and gets that there is no memory
  failed         the test handed on the error that it was handed
  crashed        the program was ended by another signal, or with a status that no test has
  hung           it took more than SECONDS_A_RUN

The last line counts them all. Of a test with more allocations than MOST the first half of MOST are tried, a quarter evenly among those
after them, and the last quarter. Variables, with what they are where they are not set: MOST (400), SECONDS_A_RUN (20), CC (cc).

Status: 0, or 1 where a run crashed or hung, 2 for wrong words, 3 where a program can't be had.
END
}

top=$(cd "$(dirname "$0")/.." && pwd)
most=${MOST:-400} seconds=${SECONDS_A_RUN:-20}
tell() { echo "bench/memory.sh: $*" >&2; }
case ${1-} in
-*)
    usage
    [[ $1 = -h || $1 = --help ]] && exit
    exit 2
    ;;
esac
[ $# -gt 0 ] || set -- tests_server tests_threads tests_turns tests_media
for crate; do
    [ -x "$top/crates/$crate/out/${crate}_tests" ] || { tell "there is no crates/$crate/out/${crate}_tests: run rt test in crates/$crate"; exit 3; }
done

room=$(mktemp -d "${TMPDIR:-/tmp}/rtpengine-memory-XXXXXX")
trap 'rm -rf "$room"' EXIT
trap 'exit 130' INT TERM HUP
"${CC:-cc}" -O2 -shared -fPIC -o "$room/failing.so" "$top/bench/failing.c" -ldl || { tell "the allocator can't be built"; exit 3; }
cd "$room"
ulimit -c 0

# run PROGRAM TEST [NUMBER]: what the test says goes to the file said; its status.
run() {
    local status=0
    { env ${3:+FAIL_AT=$3} LD_PRELOAD="$room/failing.so" timeout -k 1 "$seconds" "$1" "$2" >said 2>&1 </dev/null || status=$?; } 2>/dev/null
    return $status
}

# The numbers of the allocations that are tried, of a count.
numbers() {
    awk -v count="$1" -v most="$most" 'BEGIN {
        early = int(most / 2); late = int(most / 4); between = most - early - late
        for (n = 1; n <= count; n++) {
            if (count <= most || n <= early || n > count - late) { print n; continue }
            k = int((n - early) * between / (count - late - early))
            if (k > last) print n
            last = k
        }
    }'
}

# How the last run ended, which had this status.
ending() {
    case $1 in
    0) echo passed ;;
    101) echo "failed by an error that it was handed" ;;
    124 | 137) echo hung ;;
    *)
        if grep -q '^test stopped at ' said; then
            echo "stopped at $(sed -n 's/^test stopped at //p' said | head -n 1)$(grep -v -e '^test stopped' -e '^$' said | head -n 1 | sed 's/^/: /')"
        else
            echo "crashed with status $1"
        fi
        ;;
    esac
}

# The endings of a test's runs, each with its numbers.
told() {
    awk -F '\t' '
    function range(a, b) { return a == b ? a : a " to " b }
    {
        if (!($2 in from)) { order[++count] = $2; text[$2] = "" }
        else if (at[$2] != NR - 1) { text[$2] = text[$2] range(from[$2], to[$2]) ", " }
        if (!($2 in from) || at[$2] != NR - 1) from[$2] = $1
        to[$2] = $1; at[$2] = NR; runs[$2]++
    }
    END {
        for (k = 1; k <= count; k++) {
            name = order[k]; line = text[name] range(from[name], to[name])
            if (length(line) > 160) line = substr(line, 1, 150) " .. " to[name]
            printf "    %s: %d (%s)\n", name, runs[name], line
        }
    }' "$1"
}

tests=0
: >all
for crate; do
    program=$top/crates/$crate/out/${crate}_tests
    for name in $("$program" --list | sed -n 's/: test$//p'); do
        if ! run "$program" "$name"; then
            tail -n 5 said >&2
            tell "$crate $name fails by itself"
            exit 3
        fi
        count=$(sed -n 's/^allocations //p' said)
        [ "${count:-0}" -gt 0 ] || continue
        tests=$((tests + 1))
        : >ends
        for number in $(numbers "$count"); do
            status=0
            run "$program" "$name" "$number" || status=$?
            printf '%s\t%s\n' "$number" "$(ending $status)" >>ends
        done
        echo "$crate $name: $count allocations, $(wc -l <ends) made to fail"
        told ends
        cut -f 2 ends | sed 's/ .*//' >>all
    done
done
awk -v tests=$tests '{ runs[$1]++ } END {
    bad = runs["crashed"] + runs["hung"]
    printf "%s: %d runs of %d tests, each with a failing allocation: %d passed, %d stopped at an assertion, %d failed, %d crashed, %d hung\n",
        bad ? "BAD" : "ok", NR, tests, runs["passed"], runs["stopped"], runs["failed"], runs["crashed"], runs["hung"]
    exit bad > 0
}' all
