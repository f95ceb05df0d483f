#!/usr/bin/env bash
# Starts the proxy and Kamailio, makes one call with media both ways, shows what each side got, and ends both.
#
#     examples/kamailio/run.sh          Debian: apt-get install kamailio python3
#
# Needs the UDP ports 2223 and 5070 of 127.0.0.1. The status is 0 if each side got at least 90 of 100 packets. The proxy is the one that RTPENGINE
# names, or that of this clone, or else the installed one.
set -eu
PATH=$PATH:/usr/sbin
command -v kamailio >/dev/null || { echo "run.sh: there is no kamailio" >&2; exit 1; }
here=$(cd "$(dirname "$0")" && pwd)
rtpengine=${RTPENGINE:-$here/../../rtpengine}
[ -x "$rtpengine" ] || rtpengine=rtpengine
room=$(mktemp -d)
proxy= sip=
end() {
    for pid in $sip $proxy; do kill "$pid" 2>/dev/null && wait "$pid" 2>/dev/null || true; done
    rm -rf "$room"
}
trap end EXIT
trap 'exit 130' INT TERM

"$rtpengine" serve --interface=127.0.0.1 --listen-ng=127.0.0.1:2223 --port-min=30000 --port-max=30099 >"$room/totals" &
proxy=$!
until python3 "$here/call.py" ping; do
    kill -0 "$proxy" 2>/dev/null || { echo "run.sh: the proxy did not start" >&2; exit 1; }
done

kamailio -DD -E -f "$here/kamailio.cfg" -P "$room/pid" -Y "$room" -w "$room" >"$room/log" 2>&1 &
sip=$!
for _ in $(seq 50); do grep -q 'rtpengine instance.*found' "$room/log" && break; sleep 0.1; done

status=0
python3 "$here/call.py" || status=1
grep -E 'ERROR|WARNING|rtpengine' "$room/log" | sed 's/^/kamailio: /' || true
kill "$sip" && wait "$sip" || true
sip=
# Stopped by a signal to its launcher, it ends its calls and prints its totals.
kill "$proxy" && wait "$proxy" || true
proxy=
echo "proxy: $(cat "$room/totals")"
exit $status
