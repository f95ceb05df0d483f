"""Offers a call to a server on 127.0.0.1:2223 and deletes it, printing both replies. Usage: bench/offer.py"""
import socket

link = socket.socket(socket.AF_INET, socket.SOCK_DGRAM)
link.settimeout(2)
sdp = "v=0\r\no=- 1 1 IN IP4 192.0.2.10\r\ns=-\r\nc=IN IP4 192.0.2.10\r\nt=0 0\r\nm=audio 6000 RTP/AVP 0\r\n"
offer = f"1 d7:call-id2:c17:command5:offer8:from-tag1:a3:sdp{len(sdp)}:{sdp}e"
for datagram in (offer, "2 d7:call-id2:c17:command6:deletee"):
    link.sendto(datagram.encode(), ("127.0.0.1", 2223))
    print(link.recv(65535).decode())
