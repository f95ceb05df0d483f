/* Floods one media proxy on 127.0.0.1 with what it is to refuse, from one thread, and tells how it did; flood.sh builds and runs this. Usage:
 * flood MODE WORD=NUMBER.... The line that it prints is of NAME=NUMBER words.
 *
 *   garbage    control datagrams as fast as they go: random bytes, frames around faulty bencode, faulty commands and descriptions, each under
 *              a cookie of its own. sent=, replies= (those that were read)
 *   packets    media datagrams to the ports on standard input (of each call that of the plain side for RTP, and that of SRTP), and to the next
 *              ports, 50 at once to each: without a head of RTP, on the plain side RTP too, on the other RTP with a wrong tag, all from one
 *              source that no description names. sent=
 *   lengths    a datagram of each length from 0 to 65,507 to the port, 20 at once. sent=
 *   pings      one ping each 10 ms, under a cookie of its own: sent=, answered=, p50=, p99=, longest= (microseconds) */
#include <arpa/inet.h>
#include <errno.h>
#include <poll.h>
#include <stdarg.h>
#include <stdbool.h>
#include <stdint.h>
#include <stdio.h>
#include <stdlib.h>
#include <string.h>
#include <sys/socket.h>
#include <time.h>
#include <unistd.h>

#define LONGEST 65507
#define AT_ONCE 50
#define MOST_CALLS 2048

static long port = 2223, seconds = 5;
static uint64_t dice = 88172645463325252ULL;

static _Noreturn void fail(const char *what) {
    fprintf(stderr, "flood: %s: %s\n", what, strerror(errno));
    exit(2);
}

static uint64_t now_us(void) {
    struct timespec at;
    clock_gettime(CLOCK_MONOTONIC, &at);
    return (uint64_t)at.tv_sec * 1000000 + (uint64_t)at.tv_nsec / 1000;
}

static uint64_t roll(void) {
    dice ^= dice << 13, dice ^= dice >> 7, dice ^= dice << 17;
    return dice;
}

static void random_bytes(uint8_t *bytes, size_t length) {
    for (size_t i = 0; i < length; i++) bytes[i] = (uint8_t)roll();
}

static int open_socket(void) {
    int socket_ = socket(AF_INET, SOCK_DGRAM, 0), room = 1 << 20;
    if (socket_ < 0) fail("socket");
    setsockopt(socket_, SOL_SOCKET, SO_SNDBUF, &room, sizeof room);
    return socket_;
}

static void send_to(int from, long to, const void *bytes, size_t length) {
    struct sockaddr_in at = {.sin_family = AF_INET, .sin_port = htons((uint16_t)to), .sin_addr.s_addr = htonl(INADDR_LOOPBACK)};
    if (sendto(from, bytes, length, 0, (struct sockaddr *)&at, sizeof at) < 0 && errno != ECONNREFUSED && errno != ENOBUFS) fail("send");
}

/* What a frame may hold that is answered with an error, or warned of. */
static const char *const bodies[] = {
    "", "x", "5", "de", "i5", "4:abc", "i-0e", "d1:ae", "d7:command3:fooe", "d7:commandi1ee", "d7:command5:offere", "99999999999999999999:x",
    "d1:xllllllllllllllllleeeeeeeeeeeeeeeeee", "d7:call-id4:none7:command6:delete8:from-tag1:ae", "d7:call-id4:none7:command5:querye",
    "d7:call-id4:none7:command6:answer8:from-tag1:a3:sdp3:v=06:to-tag1:be",
    "d7:call-id4:none7:command5:offer8:from-tag1:a3:sdp31:v=0\r\nm=audio 6000 RTP/AVP 0\r\n\r\ne",
    "d7:call-id4:none7:command5:offer8:from-tag1:a3:sdp48:v=0\r\nc=IN IP4 300.0.0.1\r\nm=audio 6000 RTP/AVP 0\r\ne",
    "d7:call-id4:none7:command5:offer8:from-tag1:a3:sdp48:v=0\r\nc=IN IP4 127.0.0.1\r\nm=audio 6000 RTP/SAVP 0e",
    "d3:ICE5:force7:call-id4:none7:command5:offer8:from-tag1:a3:sdp3:v=0e",
};

static size_t garbage_datagram(uint8_t *datagram, unsigned long number) {
    uint64_t kind = roll() % 32;
    if (kind < 2) {
        size_t length = roll() % 1400;
        random_bytes(datagram, length);
        return length;
    }
    size_t length = (size_t)sprintf((char *)datagram, "g%lx ", number);
    if (kind < 4) {
        size_t more = roll() % 200;
        random_bytes(datagram + length, more);
        return length + more;
    }
    if (kind == 4) {
        memset(datagram + length, 'l', 16000);
        return length + 16000;
    }
    const char *body = bodies[roll() % (sizeof bodies / sizeof *bodies)];
    return length + (size_t)sprintf((char *)datagram + length, "%s", body);
}

static void garbage(uint64_t end) {
    static uint8_t datagram[LONGEST], reply[LONGEST];
    unsigned long sent = 0, replies = 0;
    int from = open_socket();
    while (now_us() < end) {
        for (int i = 0; i < AT_ONCE; i++, sent++) send_to(from, port, datagram, garbage_datagram(datagram, sent));
        while (recv(from, reply, sizeof reply, MSG_DONTWAIT) >= 0) replies++;
    }
    printf("sent=%lu replies=%lu\n", sent, replies);
}

static void burst(int from, long to, bool heads) {
    static uint8_t packet[LONGEST];
    for (int i = 0; i < AT_ONCE; i++) {
        size_t length = i % 10 ? 182 : roll() % 2100;
        random_bytes(packet, length < 32 ? length : 32);
        packet[0] = heads && i % 2 ? 0x80 : packet[0] & 0x3f;
        send_to(from, to, packet, length);
    }
}

static void packets(uint64_t end) {
    static long plain[MOST_CALLS], secure[MOST_CALLS];
    unsigned long sent = 0;
    size_t count = 0;
    int from = open_socket();
    while (count < MOST_CALLS && scanf("%ld %ld", &plain[count], &secure[count]) == 2) count++;
    while (count && now_us() < end) {
        for (size_t i = 0; i < count && now_us() < end; i++, sent += 4 * AT_ONCE) {
            /* (nobody sends RTCP, so a head there would be the first packet, from which a source is learned) */
            burst(from, plain[i], true), burst(from, plain[i] + 1, false);
            burst(from, secure[i], true), burst(from, secure[i] + 1, true);
        }
    }
    printf("sent=%lu\n", sent);
}

static void lengths(void) {
    static uint8_t bytes[LONGEST];
    unsigned long sent = 0;
    int from = open_socket();
    random_bytes(bytes, sizeof bytes);
    bytes[0] &= 0x3f;
    for (size_t length = 0; length <= LONGEST; length++, sent++) {
        send_to(from, port, bytes, length);
        if (length % 20 == 0) usleep(1000);
    }
    printf("sent=%lu\n", sent);
}

static int by_size(const void *left, const void *right) {
    uint32_t one = *(const uint32_t *)left, other = *(const uint32_t *)right;
    return (one > other) - (one < other);
}

static void pings(uint64_t end) {
    unsigned long sent = 0, answered = 0;
    uint32_t *times = calloc((size_t)seconds * 200 + 1, sizeof *times);
    int from = open_socket();
    while (now_us() < end && sent < (unsigned long)seconds * 200) {
        char datagram[64], reply[512];
        int length = sprintf(datagram, "p%lx d7:command4:pinge", ++sent);
        uint64_t begun = now_us();
        send_to(from, port, datagram, (size_t)length);
        struct pollfd ready = {.fd = from, .events = POLLIN};
        while (now_us() < begun + 500000 && poll(&ready, 1, 500) > 0) {
            ssize_t got = recv(from, reply, sizeof reply - 1, 0);
            if (got < 0 || strncmp(reply, datagram, strcspn(datagram, " ") + 1)) continue;
            times[answered++] = (uint32_t)(now_us() - begun);
            break;
        }
        usleep(10000);
    }
    qsort(times, answered, sizeof *times, by_size);
    printf("sent=%lu answered=%lu p50=%u p99=%u longest=%u\n", sent, answered, answered ? times[answered / 2] : 0, answered ? times[answered * 99 / 100] : 0,
           answered ? times[answered - 1] : 0);
}

int main(int count, char **words) {
    for (int i = 2; i < count; i++) {
        char *value = strchr(words[i], '=');
        long *number = !value ? NULL : !strncmp(words[i], "port=", 5) ? &port : !strncmp(words[i], "seconds=", 8) ? &seconds : NULL;
        if (!number) return fprintf(stderr, "flood: %s is no word of mine\n", words[i]), 2;
        *number = strtol(value + 1, NULL, 10);
    }
    uint64_t end = now_us() + (uint64_t)seconds * 1000000;
    const char *mode = count > 1 ? words[1] : "";
    if (!strcmp(mode, "garbage")) garbage(end);
    else if (!strcmp(mode, "packets")) packets(end);
    else if (!strcmp(mode, "lengths")) lengths();
    else if (!strcmp(mode, "pings")) pings(end);
    else return fprintf(stderr, "flood: %s is no mode of mine\n", mode), 2;
    return 0;
}
