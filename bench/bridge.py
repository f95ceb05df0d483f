"""Bridges a plain telephone and an SRTP one over the built program, by an SRTP of its own (srtp.py).

Usage: bench/bridge.py [PACKETS [PLAIN SECURE]]. PLAIN and SECURE are the families of the two telephones, IP4 or IP6. It starts the program on the loopback, offers and answers a call with RTP/AVP on one side and
RTP/SAVP on the other, sends PACKETS packets each way, one at a time, and compares each; then a packet with a wrong tag and a
replay, which must not come through. Variable: RTPENGINE, the program.
"""
import base64
import os
import re
import socket
import struct
import subprocess
import sys
import time

from srtp import Srtp

TOP = os.path.dirname(os.path.dirname(os.path.abspath(__file__)))
PACKETS = int(sys.argv[1]) if len(sys.argv) > 1 else 100
FAMILIES = {"IP4": (socket.AF_INET, "127.0.0.1"), "IP6": (socket.AF_INET6, "::1")}
PLAIN, SECURE = (sys.argv[2:4] + ["IP4", "IP4"])[:2]


def bound(family, port):
    end = socket.socket(FAMILIES[family][0], socket.SOCK_DGRAM)
    end.bind((FAMILIES[family][1], port))
    end.settimeout(1)
    return end


def description(family, port, protocol, more=""):
    host = f"IN {family} {FAMILIES[family][1]}"
    return (f"v=0\r\no=- 1 1 {host}\r\ns=-\r\nc={host}\r\nt=0 0\r\n"
            f"m=audio {port} {protocol} 0\r\n{more}")


def packet(number):
    return bytes([0x80, 0]) + struct.pack(">HII", number, number * 160, 0x11223344) + bytes([number & 255]) * 160


def ask(command):
    link.send(command.encode())
    reply = link.recv(65535).decode()
    if "6:result2:ok" not in reply:
        sys.exit(reply)
    return reply


def comes_through(datagram):
    secure.sendto(datagram, (FAMILIES[SECURE][1], secure_port))
    try:
        return plain.recvfrom(3000)[0]
    except socket.timeout:
        return None


server = subprocess.Popen([os.environ.get("RTPENGINE") or f"{TOP}/crates/rtpengine/out/rtpengine", "serve", "--interface=127.0.0.1", "--interface6=::1",
                           "--listen-ng=127.0.0.1:22347", "--port-min=31000", "--port-max=31099"],
                          stdout=subprocess.DEVNULL)
try:
    time.sleep(0.5)
    link = socket.socket(socket.AF_INET, socket.SOCK_DGRAM)
    link.settimeout(3)
    link.connect(("127.0.0.1", 22347))
    plain, secure = bound(PLAIN, 6100), bound(SECURE, 7100)
    offer = description(PLAIN, 6100, "RTP/AVP")
    reply = ask(f"1 d14:address family3:{SECURE}7:call-id2:c17:command5:offer8:from-tag1:a3:sdp{len(offer)}:{offer}18:transport protocol8:RTP/SAVPe")
    secure_port = int(re.search(r"m=audio (\d+)", reply).group(1))
    drawn = base64.b64decode(re.search(r"crypto:1 AES_CM_128_HMAC_SHA1_80 inline:(\S{40})", reply).group(1))
    own = os.urandom(30)
    line = f"a=crypto:1 AES_CM_128_HMAC_SHA1_80 inline:{base64.b64encode(own).decode()}\r\n"
    answer = description(SECURE, 7100, "RTP/SAVP", line)
    reply = ask(f"2 d7:call-id2:c17:command6:answer8:from-tag1:a3:sdp{len(answer)}:{answer}6:to-tag1:be")
    plain_port = int(re.search(r"m=audio (\d+)", reply).group(1))
    into, out_of = Srtp(own), Srtp(drawn)
    began = time.time()
    for number in range(PACKETS):
        plain.sendto(packet(number), (FAMILIES[PLAIN][1], plain_port))
        datagram, source = secure.recvfrom(3000)
        assert source[:2] == (FAMILIES[SECURE][1], secure_port) and out_of.unprotect(datagram) == packet(number), number
        assert comes_through(into.protect(packet(number))) == packet(number), number
    print(f"{PACKETS} packets each way in {time.time() - began:.2f} s")
    last = into.protect(packet(PACKETS))
    assert comes_through(last[:-1] + bytes([last[-1] ^ 1])) is None, "a wrong tag came through"
    assert comes_through(last) == packet(PACKETS), "the true packet was lost"
    assert comes_through(last) is None, "a replay came through"
    print("a wrong tag and a replay were dropped")
    ask("3 d7:call-id2:c17:command6:deletee")
finally:
    server.kill()
