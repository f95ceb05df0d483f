"""SRTP and SRTCP (RFC 3711) of one master key, for telephones of trials: AES_CM_128_HMAC_SHA1_80 by Python's cryptography and hmac."""
import hashlib
import hmac
import struct

from cryptography.hazmat.primitives.ciphers import Cipher, algorithms, modes


def keystream(key, counter, length):
    """AES-128 in counter mode (RFC 3711 section 4.1.1)."""
    encryptor = Cipher(algorithms.AES(key), modes.CTR(counter.to_bytes(16, "big"))).encryptor()
    return encryptor.update(bytes(length))


class Keys:
    """The session keys of SRTP (labels from 0) or of SRTCP (from 3), at rate 0 (RFC 3711 section 4.3)."""

    def __init__(self, master, first):
        key, salt = master[:16], int.from_bytes(master[16:30], "big")
        self.cipher, self.mac, salt = (keystream(key, (salt ^ ((first + label) << 48)) << 16, length) for label, length in ((0, 16), (1, 20), (2, 14)))
        self.salt = int.from_bytes(salt, "big")

    def crypt(self, packet, head, ssrc, index):
        stream = keystream(self.cipher, (self.salt << 16) ^ (ssrc << 64) ^ (index << 16), len(packet) - head)
        return packet[:head] + bytes(a ^ b for a, b in zip(packet[head:], stream))

    def tag(self, text):
        return hmac.new(self.mac, text, hashlib.sha1).digest()[:10]


class Srtp:
    """One way of a call: RTP without contributing sources, whose roll-over counter is 0, and RTCP."""

    def __init__(self, master):
        self.rtp, self.rtcp, self.sent = Keys(master, 0), Keys(master, 3), 0

    def crypt(self, packet):
        number, ssrc = struct.unpack(">2xH4xI", packet[:12])
        return self.rtp.crypt(packet, 12, ssrc, number)

    def protect(self, packet):
        sealed = self.crypt(packet)
        return sealed + self.rtp.tag(sealed + bytes(4))

    def unprotect(self, datagram):
        assert self.rtp.tag(datagram[:-10] + bytes(4)) == datagram[-10:], "tag"
        return self.crypt(datagram[:-10])

    def protect_rtcp(self, packet):
        """The next packet of this way: its index is the number of those before it."""
        index, self.sent = self.sent, self.sent + 1
        sealed = self.rtcp.crypt(packet, 8, struct.unpack(">4xI", packet[:8])[0], index) + struct.pack(">I", index | 1 << 31)
        return sealed + self.rtcp.tag(sealed)

    def unprotect_rtcp(self, datagram):
        assert self.rtcp.tag(datagram[:-10]) == datagram[-10:], "tag of SRTCP"
        index = struct.unpack(">I", datagram[-14:-10])[0]
        assert index >> 31, "SRTCP in the clear"
        return self.rtcp.crypt(datagram[:-14], 8, struct.unpack(">4xI", datagram[:8])[0], index & 0x7FFFFFFF)
