/* The load generator of media.sh: what its files share. */
#ifndef MEDIA_H
#define MEDIA_H

#include <netinet/in.h>
#include <stdbool.h>
#include <stddef.h>
#include <stdint.h>

#define PLAIN_LENGTH 172 /* RTP: a head of 12 bytes and 20 ms of G.711 */
#define TAG_LENGTH 10
#define SECURE_LENGTH (PLAIN_LENGTH + TAG_LENGTH)
#define MASTER_LENGTH 30 /* a master key of 16 bytes and a salt of 14 */

/* Ends the program with status 2 and this text. */
_Noreturn void fail(const char *format, ...) __attribute__((format(printf, 1, 2)));

/* Nanoseconds of a clock. */
uint64_t clock_ns(int clock);

/* media_srtp.c: the authentication tags of AES_CM_128_HMAC_SHA1_80 (RFC 3711), as two states of SHA-1. */
struct srtp_key {
    uint32_t inner[5], outer[5];
};
void srtp_key_of(struct srtp_key *key, const uint8_t master[MASTER_LENGTH]);
/* Writes the tag of a packet, whose roll-over counter is given, after it. */
void srtp_tag(const struct srtp_key *key, uint32_t roll_over, uint8_t *packet, size_t length);

/* An address of either family: the port stands at the same place in both. */
union address {
    struct sockaddr any;
    struct sockaddr_in four;
    struct sockaddr_in6 six;
};

/* media_calls.c: calls over the ng protocol. Side a is plain and of IPv4; side b is plain or SRTP, of IPv4 or IPv6. */
struct call {
    unsigned number;
    bool secure, strict, six;
    union address a, b;          /* where the telephones are */
    uint16_t port_to_a, port_to_b; /* the proxy's ports that face them */
    struct srtp_key b_key;       /* what b's packets are tagged by */
};
/* The link to the proxy's control port of 127.0.0.1. */
void link_open(uint16_t port);
/* From here on a command is sent again after this many milliseconds without a reply, for 30 seconds: for a port that others flood. */
void link_insist(int milliseconds);
/* Whether a ping is answered in a tenth of a second. */
bool link_is_answered(void);
/* Offers and answers the call, and ends it. */
void call_open(struct call *call);
void call_close(const struct call *call);

/* media_traffic.c: threads that send and receive the packets of calls. */
#define LONGEST_DELAY 65535 /* microseconds; all that are longer count as this */
struct counts {
    uint64_t sent, received;
    uint64_t strange; /* that no packet sent is expected to become, or that came twice */
    uint64_t dropped; /* by the receiving sockets of this program, for want of room */
    uint64_t latest;  /* microseconds by which a paced packet was sent too late, the greatest */
    uint64_t elapsed; /* nanoseconds of sending */
    uint32_t delays[LONGEST_DELAY + 1]; /* how many packets took this many microseconds */
};
/* Makes threads with sockets, and places the calls on them: the addresses of their telephones. */
void traffic_open(unsigned threads, struct call *calls, unsigned count);
/* What the packets of the calls look like and where they go, once the calls are open. */
void traffic_ready(void);
/* Sends for this many nanoseconds: with a window of 0 each way of a call a packet every 20 ms, else as fast as packets come back, with at
 * most `window` on their way. */
void traffic_begin(uint64_t nanoseconds, unsigned window);
void traffic_end(struct counts *counts);
/* The delay in microseconds below which this share of the packets lies. */
unsigned delay_at(const struct counts *counts, double share);

#endif
