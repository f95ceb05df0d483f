#!/usr/bin/env bash
# What it costs to protect and to open a packet of SRTP, by this program's contexts, by libsrtp2 and by OpenSSL's ciphers alone, in turn:
# nanoseconds of processor time, and what the other costs as a multiple of ours. The last two columns are what our cipher and our code take.
# Usage: bench/srtp.sh [SIZE ..], after `rt run` in crates/srtp_bench has built the program; without sizes 20, 60, 172 and 1,200 bytes.
# A figure is the least of RUNS runs (25) of ROUNDS rounds (100) of 64 packets: other work on the processors makes a run longer, never shorter. CC is the C compiler (cc). The C program is built with
# OpenSSL and with Debian's libsrtp2 (apt-get install libsrtp2-dev libssl-dev), which enciphers by NSS; with LIBSRTP=DIR by the sources of
# libsrtp in DIR, after `./configure && make libsrtp2.a` there, which encipher by libsrtp's own C.
set -eu
top=$(cd "$(dirname "$0")/.." && pwd)
ours=$top/crates/srtp_bench/out/srtp_bench
runs=${RUNS:-25} rounds=${ROUNDS:-100}
if [ ! -x "$ours" ]; then
    (cd "$top/crates/srtp_bench" && rt run >/dev/null)
fi
work=$(mktemp -d)
trap 'rm -rf "$work"' EXIT
if [ -n "${LIBSRTP:-}" ]; then
    mkdir "$work/srtp2"
    ln -s "$LIBSRTP"/include/*.h "$LIBSRTP"/crypto/include/*.h "$work/srtp2/"
    library=("-I$work" "$LIBSRTP/libsrtp2.a")
else
    library=(-lsrtp2)
fi
"${CC:-cc}" -O2 -Wno-deprecated-declarations -o "$work/others" "$top/bench/srtp.c" "${library[@]}" -lcrypto
# The least of a word of the lines of a file.
least() {
    awk -v n="$2" '{ print $n }' "$work/$1" | sort -n | head -n 1
}
printf '%5s %-8s %8s %8s %6s %8s %6s %8s %8s\n' size case ours libsrtp2 times OpenSSL times cipher code
[ $# -gt 0 ] || set -- 20 60 172 1200
for size in "$@"; do
    rm -f "$work"/{ours,libsrtp,openssl,cipher,code}
    for _ in $(seq "$runs"); do
        "$ours" packets "$size" "$rounds" >>"$work/ours"
        "$work/others" libsrtp "$size" "$rounds" >>"$work/libsrtp"
        "$work/others" openssl "$size" "$rounds" >>"$work/openssl"
        "$ours" ciphers "$((size - 12))" "$rounds" >>"$work/cipher"
        "$ours" ciphers "$size" "$rounds" >>"$work/code"
    done
    for case in protect:2 open:5; do
        word=${case#*:}
        awk -v s="$size" -v c="${case%:*}" -v o="$(least ours "$word")" -v l="$(least libsrtp "$word")" -v e="$(least openssl "$word")" \
            -v k="$(least cipher 2)" -v h="$(least code 5)" \
            'BEGIN { printf "%5d %-8s %5d ns %5d ns %6.2f %5d ns %6.2f %5d ns %5d ns\n", s, c, o, l, l / o, e, e / o, k, h }'
    done
done
