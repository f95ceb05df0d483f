"""Offers, answers and deletes calls over UDP, waiting for each reply, and prints nanoseconds a call: the mean, the median, and what the
fastest tenth took at most, which other work on the machine disturbs least.

Usage: bench/calls.py PORT CALLS [OTHERS] [KEPT] [bencode | json] [newest | oldest]. Before, it offers and answers that many other calls,
and sends that many pings, so that their replies are kept. After each call's answer it deletes that call, so that the others stay, or the
oldest of all. The datagrams are made before the time begins.
"""
import json
import socket
import sys
import time

port, calls, others, kept = (int(word) for word in [*sys.argv[1:5], "0", "0"][:4])
in_json = sys.argv[5:6] == ["json"]
oldest = sys.argv[6:] == ["oldest"]
link = socket.socket(socket.AF_INET, socket.SOCK_DGRAM)
link.settimeout(5)
link.connect(("127.0.0.1", port))
offer = ("v=0\r\no=alice 1 1 IN IP4 192.0.2.10\r\ns=-\r\nc=IN IP4 192.0.2.10\r\nt=0 0\r\n"
         "m=audio 6000 RTP/AVP 0 8\r\na=rtpmap:0 PCMU/8000\r\na=sendrecv\r\n")
answer = ("v=0\r\no=bob 2 2 IN IP4 198.51.100.20\r\ns=-\r\nc=IN IP4 198.51.100.20\r\nt=0 0\r\n"
          "m=audio 7000 RTP/AVP 0\r\n")
run = str(time.time_ns())
succeeded = (b'"result":"ok"', b'"result":"pong"') if in_json else (b"6:result2:ok", b"6:result4:pong")


def datagram(letter, call, **command):
    """A command as a datagram, in the dialect that was asked for."""
    pairs = {"call-id": f"{call:06}", **{key.replace("_", "-"): text for key, text in command.items()}}
    body = json.dumps(pairs) if in_json else "d" + "".join(f"{len(it)}:{it}" for pair in pairs.items() for it in pair) + "e"
    return f"{letter}{run}{call} {body}".encode()


def set_up(call):
    return [datagram("o", call, command="offer", from_tag="alice", sdp=offer),
            datagram("a", call, command="answer", from_tag="alice", sdp=answer, to_tag="bob")]


def end(call):
    return [datagram("d", call, command="delete")]


def ask(datagrams):
    for it in datagrams:
        link.send(it)
        reply = link.recv(65535)
        if not any(text in reply for text in succeeded):
            sys.exit(f"{it!r}: {reply!r}")


first_other = 900_000
other_calls = range(first_other, first_other + others)
for other in other_calls:
    ask(set_up(other))
ask(datagram("p", ping, command="ping") for ping in range(kept))
# each call is ended, the others first where the oldest goes
ends = [*other_calls, *range(calls)] if oldest else [*range(calls), *other_calls]
measured = [set_up(call) + end(ends[call]) for call in range(calls)]
times = []
for datagrams in measured:
    start = time.perf_counter_ns()
    ask(datagrams)
    times.append(time.perf_counter_ns() - start)
for call in ends[calls:]:
    ask(end(call))
times.sort()
print(sum(times) // calls, "ns a call,", times[calls // 2], "the median,", times[calls // 10], "the fastest tenth at most")
