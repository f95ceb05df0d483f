/* Calls over the ng protocol: a cookie, a space and a bencoded dictionary, each command waiting for its reply. */
#include <arpa/inet.h>
#include <errno.h>
#include <poll.h>
#include <stdio.h>
#include <stdlib.h>
#include <string.h>
#include <sys/random.h>
#include <sys/socket.h>
#include <time.h>
#include <unistd.h>

#include "media.h"

#define SUITE "AES_CM_128_HMAC_SHA1_80"

static int control;
static unsigned long run, cookies;
static int patience = 1000, tries = 5; /* milliseconds for a reply, and how often a command is sent */
static char reply[65536];

void link_open(uint16_t port) {
    struct sockaddr_in to = {.sin_family = AF_INET, .sin_port = htons(port), .sin_addr.s_addr = htonl(INADDR_LOOPBACK)};
    control = socket(AF_INET, SOCK_DGRAM | SOCK_NONBLOCK, 0);
    if (control < 0 || connect(control, (struct sockaddr *)&to, sizeof to)) fail("the control link: %s", strerror(errno));
    run = clock_ns(CLOCK_REALTIME) / 1000;
}

void link_insist(int milliseconds) {
    patience = milliseconds;
    tries = 30000 / milliseconds;
}

/* Sends a body once under the cookie, and takes its reply, if it comes within this many milliseconds. */
static bool try(unsigned long cookie, const char *body, int milliseconds) {
    char datagram[4096], head[64];
    int length = snprintf(datagram, sizeof datagram, "%lx_%lx %s", run, cookie, body);
    size_t head_length = (size_t)snprintf(head, sizeof head, "%lx_%lx ", run, cookie);
    struct pollfd ready = {.fd = control, .events = POLLIN};
    if (send(control, datagram, (size_t)length, 0) < 0 && errno != ECONNREFUSED) fail("the control link: %s", strerror(errno));
    while (poll(&ready, 1, milliseconds) > 0) {
        ssize_t got = recv(control, reply, sizeof reply - 1, 0);
        if (got < 0) return false; /* nobody is at the port yet */
        reply[got] = 0;
        if (!strncmp(reply, head, head_length)) return true;
    }
    return false;
}

bool link_is_answered(void) {
    uint64_t end = clock_ns(CLOCK_MONOTONIC) + 100000000;
    do {
        if (try(++cookies, "d7:command4:pinge", 100)) return strstr(reply, "4:pong") != NULL;
        usleep(20000);
    } while (clock_ns(CLOCK_MONOTONIC) < end);
    return false;
}

static void ask(const char *body) {
    unsigned long cookie = ++cookies;
    for (int i = 0; i < tries; i++) {
        if (!try(cookie, body, patience)) continue;
        if (!strstr(reply, "6:result2:ok")) fail("to %s the proxy replied %s", body, reply);
        return;
    }
    fail("no reply to %s", body);
}

/* The port of the reply's description. */
static uint16_t port_in_reply(void) {
    const char *line = strstr(reply, "m=audio ");
    int port = line ? atoi(line + 8) : 0;
    if (port <= 0 || port > 65535) fail("no port in %s", reply);
    return (uint16_t)port;
}

static void base64_of(const uint8_t *bytes, size_t length, char *text) {
    static const char digits[] = "ABCDEFGHIJKLMNOPQRSTUVWXYZabcdefghijklmnopqrstuvwxyz0123456789+/";
    for (size_t i = 0; i < length; i += 3, text += 4) {
        unsigned three = (unsigned)bytes[i] << 16 | (unsigned)bytes[i + 1] << 8 | bytes[i + 2];
        for (int k = 0; k < 4; k++) text[k] = digits[three >> (18 - 6 * k) & 63];
    }
    *text = 0;
}

/* A crypto line for b with a new key, under the number that the offered line of its suite has. */
static void crypto_line(struct call *call, char *line, size_t size) {
    uint8_t master[MASTER_LENGTH];
    char text[MASTER_LENGTH / 3 * 4 + 1];
    const char *suite = strstr(reply, " " SUITE " inline:"), *number = suite;
    if (!suite) fail("no crypto line in %s", reply);
    while (number[-1] >= '0' && number[-1] <= '9') number--;
    if (getrandom(master, sizeof master, 0) != sizeof master) fail("no random bytes");
    srtp_key_of(&call->b_key, master);
    base64_of(master, sizeof master, text);
    snprintf(line, size, "a=crypto:%d " SUITE " inline:%s\r\n", atoi(number), text);
}

static void describe(char *text, size_t size, const union address *where, const char *protocol, const char *more) {
    const char *host = where->any.sa_family == AF_INET6 ? "IN IP6 ::1" : "IN IP4 127.0.0.1";
    snprintf(text, size, "v=0\r\no=- 1 1 %s\r\ns=-\r\nc=%s\r\nt=0 0\r\nm=audio %d %s 0\r\n%s", host, host, ntohs(where->four.sin_port), protocol, more);
}

void call_open(struct call *call) {
    const char *protocol = call->secure ? "RTP/SAVP" : "RTP/AVP", *flags = call->strict ? "5:flagsl13:strict sourcee" : "";
    const char *family = call->six ? "14:address family3:IP6" : "";
    char name[64], sdp[1024], body[2048], crypto[128] = "";
    int length = snprintf(name, sizeof name, "%lx-%u", run, call->number);
    describe(sdp, sizeof sdp, &call->a, "RTP/AVP", "");
    snprintf(body, sizeof body, "d4:DTLS3:off3:ICE6:remove%s7:call-id%d:%s7:command5:offer%s8:from-tag1:a3:sdp%zu:%s18:transport protocol%zu:%se", family, length, name,
             flags, strlen(sdp), sdp, strlen(protocol), protocol);
    ask(body);
    call->port_to_b = port_in_reply();
    if (call->secure) crypto_line(call, crypto, sizeof crypto);
    describe(sdp, sizeof sdp, &call->b, protocol, crypto);
    snprintf(body, sizeof body, "d4:DTLS3:off3:ICE6:remove7:call-id%d:%s7:command6:answer%s8:from-tag1:a3:sdp%zu:%s6:to-tag1:be", length, name, flags, strlen(sdp), sdp);
    ask(body);
    call->port_to_a = port_in_reply();
}

void call_close(const struct call *call) {
    char name[64], body[256];
    int length = snprintf(name, sizeof name, "%lx-%u", run, call->number);
    snprintf(body, sizeof body, "d7:call-id%d:%s7:command6:delete8:from-tag1:ae", length, name);
    ask(body);
}
