"""Writes a script of one call and packets through it to standard output: a plain call with packets each way in turn, or one whose
answerer speaks SRTP, with packets to it.

Usage: bench/scripts.py [PACKETS] [--secure] [--skipped]. PACKETS is 40,000 if left out; a script has at most 50,000 lines. With
`--skipped` the lines of packets are comments of the same length, so that they are read and nothing is done for them.
"""
import base64
import sys

words = sys.argv[1:]
skipped, secure = "--skipped" in words, "--secure" in words
numbers = [word for word in words if not word.startswith("--")]
packets = int(numbers[0]) if numbers else 40_000


def description(name, version, address, port, media="RTP/AVP 0\\r\\n"):
    return (f"v=0\\r\\no={name} {version} {version} IN IP4 {address}\\r\\ns=-\\r\\nc=IN IP4 {address}\\r\\nt=0 0\\r\\n"
            f"m=audio {port} {media}")


def sized(text):
    """A byte string of bencode, of a text with two escapes a line."""
    length = len(text) - text.count("\\r") - text.count("\\n")
    return f"{length}:{text}"


def packet(number):
    """A packet of 20 ms of G.711, from each side in turn."""
    port, source, ssrc = ((30_002, "192.0.2.10:6000", 1), (30_000, "198.51.100.20:7000", 2))[0 if secure else number % 2]
    turn = number if secure else number // 2
    head = bytes([0x80, 0]) + (turn % 65_536).to_bytes(2, "big") + (turn * 160).to_bytes(4, "big") + ssrc.to_bytes(4, "big")
    line = f"packet {port} {source} x:{(head + bytes([turn % 256]) * 160).hex()}"
    return "#" + line[1:] if skipped else line


offer = sized(description("alice", 1, "192.0.2.10", 6000))
key = base64.b64encode(bytes([7]) * 30).decode()
answer = sized(description("bob", 2, "198.51.100.20", 7000, f"RTP/SAVP 0\\r\\na=crypto:1 AES_CM_128_HMAC_SHA1_80 inline:{key}\\r\\n") if secure
               else description("bob", 2, "198.51.100.20", 7000))
profile = "18:transport protocol8:RTP/SAVP" if secure else ""
print(f"ng 192.0.2.9:5060 t:1 d7:call-id2:c17:command5:offer8:from-tag1:a3:sdp{offer}{profile}e")
print(f"ng 192.0.2.9:5060 t:2 d7:call-id2:c17:command6:answer8:from-tag1:a3:sdp{answer}6:to-tag1:be")
for number in range(packets):
    print(packet(number))
