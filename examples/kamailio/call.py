#!/usr/bin/env python3
"""One call from 127.0.0.2 to 127.0.0.3 through a SIP proxy on 127.0.0.1:5070, with two seconds of RTP each way. Then the caller sends another INVITE
within the call, which the callee refuses with 488, and both send for two more seconds: the call goes on as it was.

    call.py         makes the call, prints how many packets each side got and from where; status 1 unless both got 90 of each 100
    call.py ping    asks a media proxy on 127.0.0.1:2223 whether it is there; status 0 if it is
"""
import re
import socket
import sys
import threading
import time
import uuid

PROXY = ("127.0.0.1", 5070)
PACKETS = 100


def udp(host, port):
    sock = socket.socket(socket.AF_INET, socket.SOCK_DGRAM)
    sock.bind((host, port))
    sock.settimeout(10)
    return sock


def description(host, port):
    return (f"v=0\r\no=- 1 1 IN IP4 {host}\r\ns=-\r\nc=IN IP4 {host}\r\nt=0 0\r\n"
            f"m=audio {port} RTP/AVP 0\r\na=rtpmap:0 PCMU/8000\r\n")


def media_address(message):
    """The address and port that a message's description names for its audio: a `c=` of the section comes before that of the session."""
    session, section = re.search(r"(.*?)^m=audio (.*)", message, re.M | re.S).groups()
    return re.findall(r"^c=IN IP4 (\S+)", section + "\n" + session, re.M)[0], int(section.split()[0])


def message(first, headers, body=""):
    kind = ["Content-Type: application/sdp"] if body else []
    return "\r\n".join([first, *headers, *kind, f"Content-Length: {len(body)}", "", body]).encode()


def headers_of(text, *names):
    return [line for line in text.split("\r\n\r\n")[0].split("\r\n") if line.split(":")[0].lower() in names]


def receive(sock, wanted):
    """The next message whose first line has this in it."""
    while True:
        text = sock.recv(65535).decode()
        first = text.split("\r\n")[0]
        if wanted in first:
            return text
        if first.startswith("SIP/2.0 ") and int(first.split()[1]) >= 300:
            sys.exit(f"call.py: the call was refused: {first}")


class Side:
    """A telephone's media: sends PACKETS packets to a target, one each 20 ms, and counts what comes."""

    def __init__(self, name, host, port):
        self.name, self.mark, self.sock = name, name.encode().ljust(160, b"."), udp(host, port)
        self.got, self.sources, self.worst = 0, set(), PACKETS

    def talk(self, target, when):
        self.got, self.sources, begun = 0, set(), time.monotonic()
        for number in range(PACKETS + 25):  # the last 25 are for what is still under way
            if number < PACKETS:
                head = bytes([0x80, 0]) + number.to_bytes(2, "big") + (160 * number).to_bytes(4, "big") + self.mark[:4]
                self.sock.sendto(head + self.mark, target)
            while (left := begun + 0.02 * (number + 1) - time.monotonic()) > 0:
                self.sock.settimeout(left)
                try:
                    packet, source = self.sock.recvfrom(2048)
                except socket.timeout:
                    break
                if len(packet) == 172 and packet[12:] != self.mark:
                    self.got += 1
                    self.sources.add("%s:%d" % source)
        self.worst = min(self.worst, self.got)
        print(f"{self.name} got {self.got} of {PACKETS} packets{when}, from {', '.join(sorted(self.sources)) or 'nowhere'}")


def answer(sock, side):
    """The callee: answers one call, talks, refuses the next INVITE, talks again, and waits for the end."""
    invite = receive(sock, "INVITE")
    target = media_address(invite)
    print(f"callee was offered media at {target[0]}:{target[1]}")
    copied = headers_of(invite, "via", "record-route", "from", "call-id", "cseq")
    copied += [headers_of(invite, "to")[0] + ";tag=callee", "Contact: <sip:callee@127.0.0.3:5070>"]
    sock.sendto(message("SIP/2.0 200 OK", copied, description(*side.sock.getsockname())), PROXY)
    receive(sock, "ACK")
    side.talk(target, "")
    again = receive(sock, "INVITE")
    sock.sendto(message("SIP/2.0 488 Not Acceptable Here", headers_of(again, "via", "from", "to", "call-id", "cseq")), PROXY)
    receive(sock, "ACK")
    side.talk(target, " after the refused INVITE")
    bye = receive(sock, "BYE")
    sock.sendto(message("SIP/2.0 200 OK", headers_of(bye, "via", "from", "to", "call-id", "cseq")), PROXY)


def call(sock, side):
    """The caller: calls, talks, sends an INVITE that is refused, talks again, hangs up."""
    name, ident = "sip:callee@127.0.0.3:5070", uuid.uuid4().hex

    def request(method, number, to, extra=(), body="", branch=None):
        branch = branch or uuid.uuid4().hex
        return message(f"{method} {name} SIP/2.0", [
            f"Via: SIP/2.0/UDP 127.0.0.2:5070;branch=z9hG4bK{branch}", "Max-Forwards: 70",
            "From: <sip:caller@127.0.0.2>;tag=caller", to, f"Call-ID: {ident}", f"CSeq: {number} {method}",
            "Contact: <sip:caller@127.0.0.2:5070>", *extra], body)

    own = description(*side.sock.getsockname())
    sock.sendto(request("INVITE", 1, "To: <sip:callee@127.0.0.3>", body=own), PROXY)
    accepted = receive(sock, " 200 ")
    target = media_address(accepted)
    print(f"caller was answered media at {target[0]}:{target[1]}")
    to = headers_of(accepted, "to")[0]
    routes = [line.replace("Record-Route", "Route") for line in reversed(headers_of(accepted, "record-route"))]
    sock.sendto(request("ACK", 1, to, routes), PROXY)
    side.talk(target, "")
    branch = uuid.uuid4().hex
    sock.sendto(request("INVITE", 2, to, routes, own, branch), PROXY)
    print("callee refused another INVITE:", receive(sock, " 488 ").split("\r\n")[0])
    sock.sendto(request("ACK", 2, to, routes, branch=branch), PROXY)
    side.talk(target, " after the refused INVITE")
    sock.sendto(request("BYE", 3, to, routes), PROXY)
    receive(sock, " 200 ")


def ping():
    link = udp("127.0.0.1", 0)
    link.settimeout(0.5)
    link.sendto(b"ping d7:command4:pinge", ("127.0.0.1", 2223))
    try:
        return b"pong" in link.recv(2048)
    except OSError:
        return False


def main():
    if sys.argv[1:] == ["ping"]:
        sys.exit(not ping())
    caller, callee = Side("caller", "127.0.0.2", 6000), Side("callee", "127.0.0.3", 7000)
    other = threading.Thread(target=answer, args=(udp("127.0.0.3", 5070), callee), daemon=True)
    other.start()
    call(udp("127.0.0.2", 5070), caller)
    other.join(10)
    sys.exit(min(caller.worst, callee.worst) < 0.9 * PACKETS)


if __name__ == "__main__":
    main()
