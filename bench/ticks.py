"""What a tick costs with CALLS live calls: processor time a second of the thread that replies to commands, with and without them.

Usage: bench/ticks.py [CALLS [SECONDS]], 2,000 calls and 10 seconds if left out; as root for as many calls, since each has eight file
descriptors. RTPENGINE names the program (crates/rtpengine/out/rtpengine of this clone). It starts the program with one thread for media,
lets it stand without a call, then offers and answers the calls, whose packets never come, lets it stand again, asks for a list of them and
for a query of the last one, and prints the time that the thread took a second, which makes one tick, and the difference.
"""
import os
import pathlib
import resource
import socket
import subprocess
import sys
import time

calls, seconds = (int(word) for word in (sys.argv[1:] + ["2000", "10"][len(sys.argv) - 1:])[:2])
top = pathlib.Path(__file__).resolve().parent.parent
program = os.environ.get("RTPENGINE", str(top / "crates/rtpengine/out/rtpengine"))
control, first = 22270, 10_000
last = first + 4 * calls - 1
offer = "v=0\r\no=- 1 1 IN IP4 192.0.2.10\r\ns=-\r\nc=IN IP4 192.0.2.10\r\nt=0 0\r\nm=audio 6000 RTP/AVP 0\r\n"
answer = offer.replace("192.0.2.10", "198.51.100.20")

wanted = 8 * calls + 500
if resource.getrlimit(resource.RLIMIT_NOFILE)[0] < wanted:
    resource.setrlimit(resource.RLIMIT_NOFILE, (wanted, max(wanted, resource.getrlimit(resource.RLIMIT_NOFILE)[1])))
server = subprocess.Popen(
    [program, "serve", "--interface=127.0.0.1", f"--listen-ng=127.0.0.1:{control}", f"--port-min={first}", f"--port-max={last}",
     "--num-threads=1", "--timeout=86400"], stdin=subprocess.PIPE, stdout=subprocess.DEVNULL, stderr=subprocess.PIPE)
server.stderr.readline()  # that it listens
link = socket.socket(socket.AF_INET, socket.SOCK_DGRAM)
link.settimeout(5)
link.connect(("127.0.0.1", control))
sent = 0


def ask(body):
    """The reply to a command, and the microseconds until it came."""
    global sent
    sent += 1
    began = time.perf_counter_ns()
    link.send(f"{sent} {body}".encode())
    reply = link.recv(65_535)
    took = (time.perf_counter_ns() - began) / 1_000
    if b"6:result" not in reply or b"5:error" in reply:
        sys.exit(f"bench/ticks.py: {body!r} got {reply!r}")
    return reply, took


def times():
    """Nanoseconds that each thread of the server has run, by its number."""
    tasks = pathlib.Path(f"/proc/{server.pid}/task")
    return {it.name: int((it / "schedstat").read_text().split()[0]) for it in tasks.iterdir()}


def stand(answers):
    """Microseconds a second of the thread that answers commands, which is the one that a ping costs something."""
    before = times()
    time.sleep(seconds)
    return (times()[answers] - before[answers]) / seconds / 1_000


try:
    ask("d7:command4:pinge")
    before = times()
    for _ in range(2_000):
        ask("d7:command4:pinge")
    after = times()
    answers = max(after, key=lambda task: after[task] - before.get(task, 0))
    time.sleep(2)
    bare = stand(answers)
    for call in range(calls):
        name = f"7:call-id6:{call:06}"
        ask(f"d{name}7:command5:offer8:from-tag1:a3:sdp{len(offer)}:{offer}e")
        ask(f"d{name}7:command6:answer8:from-tag1:a3:sdp{len(answer)}:{answer}6:to-tag1:be")
    time.sleep(2)
    full = stand(answers)
    listed, list_took = ask("d7:command4:list5:limiti200ee")
    if listed.count(b"6:") < min(calls, 200):
        sys.exit("bench/ticks.py: calls are missing")
    _, query_took = ask(f"d7:call-id6:{calls - 1:06}7:command5:querye")
    print(f"a second: {bare:.0f} us without a call, {full:.0f} us with {calls}; a tick of {calls} calls: {full - bare:.0f} us")
    print(f"a list of {min(calls, 200)}: {list_took:.0f} us, a query of the last call: {query_took:.0f} us")
finally:
    server.kill()
