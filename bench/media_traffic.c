/* Threads that send the packets of calls and receive what the proxy relays. Each has calls and sockets of its own; calls of a thread share
 * at most 16 pairs of sockets, one of a pair for the a telephones and one for the b's, so that few wake-ups take many packets. A delay
 * is from just before the send to the moment at which the system had the relayed packet for the receiving socket. */
#define _GNU_SOURCE
#include <arpa/inet.h>
#include <errno.h>
#include <linux/sock_diag.h>
#include <pthread.h>
#include <stdlib.h>
#include <string.h>
#include <sys/epoll.h>
#include <sys/prctl.h>
#include <sys/socket.h>
#include <time.h>

#include "media.h"

#define PAIRS 16
#define THREADS 8
#define REMEMBERED 256          /* packets of a stream whose moments of sending are kept */
#define PENDING 65536           /* packets on their way, of a thread that sends all it can */
#define BATCH 32                /* packets that are received at once */
#define PERIOD 20000000         /* nanoseconds between two packets of a stream */
#define TICK 250000             /* a paced thread sleeps so long at least where nothing comes */
#define GIVEN_UP 100000000      /* a packet that is so late counts no more as on its way */
#define LAST_WAIT 200000000     /* for packets that are on their way at the end */

/* One way of a call. */
struct stream {
    union address to;
    int from_socket, to_socket;
    bool tagged;
    struct srtp_key key;
    size_t length, length_relayed;
    uint32_t index; /* of the next packet; its low half is the sequence number */
    uint8_t packet[SECURE_LENGTH];
    struct {
        uint32_t index;
        bool given_up; /* it doesn't count as on its way any more */
        uint64_t at;   /* 0 where the packet is not awaited */
    } sent[REMEMBERED];
};

struct worker {
    pthread_t thread;
    int poll;
    int sockets[2 * PAIRS];
    unsigned pairs, streams;
    struct stream *stream;
    uint64_t nanoseconds;
    unsigned window;
    unsigned on_way; /* in a run with a window: sent, not received and not given up */
    struct {
        uint32_t stream, index;
    } pending[PENDING];
    uint32_t first_pending, end_pending;
    uint64_t dropped_before;
    struct counts counts;
};

static struct worker *workers[THREADS];
static unsigned worker_count, call_count;
static struct call *calls;
static struct stream *by_port[2][65536]; /* by the proxy's address that a relayed packet comes from: whether of IPv6, and the port */

uint64_t clock_ns(int clock) {
    struct timespec now;
    clock_gettime(clock, &now);
    return (uint64_t)now.tv_sec * 1000000000 + (uint64_t)now.tv_nsec;
}

static union address loopback(bool six, uint16_t port) {
    if (six) return (union address){.six = {.sin6_family = AF_INET6, .sin6_port = htons(port), .sin6_addr = IN6ADDR_LOOPBACK_INIT}};
    return (union address){.four = {.sin_family = AF_INET, .sin_port = htons(port), .sin_addr.s_addr = htonl(INADDR_LOOPBACK)}};
}

static int open_socket(struct worker *worker, bool six) {
    union address here = loopback(six, 0);
    int one = 1, room = 8 << 20, opened = socket(here.any.sa_family, SOCK_DGRAM | SOCK_NONBLOCK, 0);
    if (opened < 0 || bind(opened, &here.any, six ? sizeof here.six : sizeof here.four)) fail("a socket: %s", strerror(errno));
    if (setsockopt(opened, SOL_SOCKET, SO_RCVBUFFORCE, &room, sizeof room)) setsockopt(opened, SOL_SOCKET, SO_RCVBUF, &room, sizeof room);
    setsockopt(opened, SOL_SOCKET, SO_TIMESTAMPNS, &one, sizeof one);
    struct epoll_event event = {.events = EPOLLIN, .data.fd = opened};
    epoll_ctl(worker->poll, EPOLL_CTL_ADD, opened, &event);
    return opened;
}

static union address address_of(int opened) {
    union address here;
    socklen_t size = sizeof here;
    getsockname(opened, &here.any, &size);
    return here;
}

void traffic_open(unsigned threads, struct call *all, unsigned count) {
    calls = all, call_count = count, worker_count = threads < count ? threads : count;
    if (worker_count > THREADS) fail("at most %d threads", THREADS);
    for (unsigned i = 0; i < worker_count; i++) {
        struct worker *worker = workers[i] = calloc(1, sizeof *worker);
        unsigned own = (count + worker_count - 1 - i) / worker_count;
        worker->poll = epoll_create1(0);
        worker->pairs = own < PAIRS ? own : PAIRS;
        worker->stream = calloc(2 * own, sizeof *worker->stream);
        for (unsigned k = 0; k < 2 * worker->pairs; k++) worker->sockets[k] = open_socket(worker, k % 2 && all[0].six);
    }
    for (unsigned i = 0; i < count; i++) {
        struct worker *worker = workers[i % worker_count];
        unsigned pair = i / worker_count % worker->pairs;
        all[i].a = address_of(worker->sockets[2 * pair]);
        all[i].b = address_of(worker->sockets[2 * pair + 1]);
    }
}

static void ready_stream(struct worker *worker, const struct call *call, unsigned pair, bool from_a) {
    struct stream *stream = &worker->stream[worker->streams++];
    stream->to = loopback(!from_a && call->six, from_a ? call->port_to_a : call->port_to_b);
    stream->from_socket = worker->sockets[2 * pair + !from_a];
    stream->to_socket = worker->sockets[2 * pair + from_a];
    stream->tagged = call->secure && !from_a;
    stream->key = call->b_key;
    stream->length = stream->tagged ? SECURE_LENGTH : PLAIN_LENGTH;
    stream->length_relayed = call->secure && from_a ? SECURE_LENGTH : PLAIN_LENGTH;
    memset(stream->packet, (int)call->number, sizeof stream->packet);
    uint32_t source = htonl(2 * call->number + from_a + 1);
    memcpy(stream->packet + 8, &source, 4);
    stream->packet[0] = 0x80, stream->packet[1] = 0;
    by_port[from_a && call->six][from_a ? call->port_to_b : call->port_to_a] = stream;
}

void traffic_ready(void) {
    for (unsigned i = 0; i < call_count; i++) {
        struct worker *worker = workers[i % worker_count];
        unsigned pair = i / worker_count % worker->pairs;
        ready_stream(worker, &calls[i], pair, true);
        ready_stream(worker, &calls[i], pair, false);
    }
}

static void send_packet(struct worker *worker, unsigned number) {
    struct stream *stream = &worker->stream[number];
    uint32_t index = stream->index++, stamp = htonl(index * 160);
    uint16_t sequence = htons((uint16_t)index);
    memcpy(stream->packet + 2, &sequence, 2);
    memcpy(stream->packet + 4, &stamp, 4);
    if (stream->tagged) srtp_tag(&stream->key, index >> 16, stream->packet, PLAIN_LENGTH);
    unsigned place = index % REMEMBERED;
    if (stream->sent[place].at && !stream->sent[place].given_up && worker->window) worker->on_way--; /* an older one, which never came */
    stream->sent[place].index = index;
    stream->sent[place].given_up = false;
    stream->sent[place].at = clock_ns(CLOCK_REALTIME);
    socklen_t size = stream->to.any.sa_family == AF_INET6 ? sizeof stream->to.six : sizeof stream->to.four;
    while (sendto(stream->from_socket, stream->packet, stream->length, 0, &stream->to.any, size) < 0) {
        if (errno != EAGAIN && errno != EINTR && errno != ENOBUFS) fail("sending: %s", strerror(errno));
    }
    worker->counts.sent++;
    if (worker->window) {
        worker->pending[worker->end_pending % PENDING].stream = number;
        worker->pending[worker->end_pending++ % PENDING].index = index;
        worker->on_way++;
    }
}

/* A relayed packet, and when the system had it. */
static void note_packet(struct worker *worker, int socket, const union address *source, const uint8_t *packet, size_t length, uint64_t at) {
    struct stream *stream = by_port[source->any.sa_family == AF_INET6][ntohs(source->four.sin_port)];
    uint16_t sequence = (uint16_t)(packet[2] << 8 | packet[3]);
    unsigned place = sequence % REMEMBERED;
    if (!stream || stream->to_socket != socket || length != stream->length_relayed || (uint16_t)stream->sent[place].index != sequence ||
        !stream->sent[place].at || (length == stream->length && memcmp(packet + 8, stream->packet + 8, length - 8))) {
        worker->counts.strange++;
        return;
    }
    uint64_t delay = at > stream->sent[place].at ? (at - stream->sent[place].at) / 1000 : 0;
    stream->sent[place].at = 0;
    worker->counts.received++;
    worker->counts.delays[delay < LONGEST_DELAY ? delay : LONGEST_DELAY]++;
    if (worker->window && !stream->sent[place].given_up) worker->on_way--;
}

static void receive_packets(struct worker *worker, int socket) {
    static _Thread_local struct mmsghdr messages[BATCH];
    static _Thread_local struct iovec rooms[BATCH];
    static _Thread_local union address sources[BATCH];
    static _Thread_local uint8_t packets[BATCH][2048];
    static _Thread_local union {
        struct cmsghdr head;
        char room[CMSG_SPACE(sizeof(struct timespec))];
    } stamps[BATCH];
    int got;
    do {
        for (unsigned i = 0; i < BATCH; i++) {
            rooms[i] = (struct iovec){packets[i], sizeof packets[i]};
            messages[i].msg_hdr = (struct msghdr){.msg_name = &sources[i], .msg_namelen = sizeof sources[i], .msg_iov = &rooms[i], .msg_iovlen = 1,
                                                  .msg_control = &stamps[i], .msg_controllen = sizeof stamps[i]};
        }
        got = recvmmsg(socket, messages, BATCH, MSG_DONTWAIT, NULL);
        for (int i = 0; i < got; i++) {
            struct cmsghdr *head = CMSG_FIRSTHDR(&messages[i].msg_hdr);
            struct timespec stamp;
            if (!head || head->cmsg_type != SCM_TIMESTAMPNS) fail("the system stamps no packets");
            memcpy(&stamp, CMSG_DATA(head), sizeof stamp);
            note_packet(worker, socket, &sources[i], packets[i], messages[i].msg_len,
                        (uint64_t)stamp.tv_sec * 1000000000 + (uint64_t)stamp.tv_nsec);
        }
    } while (got == BATCH);
}

/* Receives what is there, or waits for it so long at most. */
static void wait_packets(struct worker *worker, uint64_t nanoseconds) {
    struct epoll_event events[2 * PAIRS];
    struct timespec limit = {(time_t)(nanoseconds / 1000000000), (long)(nanoseconds % 1000000000)};
    int ready = epoll_pwait2(worker->poll, events, 2 * PAIRS, &limit, NULL);
    for (int i = 0; i < ready; i++) receive_packets(worker, events[i].data.fd);
}

/* One packet of each stream in each period, the streams evenly apart. */
static void send_paced(struct worker *worker) {
    uint64_t start = clock_ns(CLOCK_MONOTONIC), now = start, end = start + worker->nanoseconds, apart = PERIOD / worker->streams;
    for (uint64_t turn = 0, due = start; now < end; now = clock_ns(CLOCK_MONOTONIC)) {
        while (due <= now) {
            if ((now - due) / 1000 > worker->counts.latest) worker->counts.latest = (now - due) / 1000;
            send_packet(worker, (unsigned)(turn % worker->streams));
            turn++;
            due = start + turn / worker->streams * PERIOD + turn % worker->streams * apart;
        }
        uint64_t tick = start + ((due > now ? due : now) - start + TICK - 1) / TICK * TICK;
        now = clock_ns(CLOCK_MONOTONIC);
        wait_packets(worker, tick > now ? tick - now : 0);
    }
}

/* Packets that were received or were replaced are passed over, and those that are late are given up. */
static void give_up_late(struct worker *worker) {
    uint64_t now = clock_ns(CLOCK_REALTIME);
    for (; worker->first_pending != worker->end_pending; worker->first_pending++) {
        struct stream *stream = &worker->stream[worker->pending[worker->first_pending % PENDING].stream];
        uint32_t index = worker->pending[worker->first_pending % PENDING].index, place = index % REMEMBERED;
        if (stream->sent[place].index != index || !stream->sent[place].at) continue;
        if (now < stream->sent[place].at + GIVEN_UP) return;
        stream->sent[place].given_up = true;
        worker->on_way--;
    }
}

static void send_all(struct worker *worker) {
    uint64_t end = clock_ns(CLOCK_MONOTONIC) + worker->nanoseconds;
    for (unsigned next = 0; clock_ns(CLOCK_MONOTONIC) < end; give_up_late(worker)) {
        while (worker->on_way < worker->window && worker->end_pending - worker->first_pending < PENDING) {
            send_packet(worker, next);
            next = next + 1 < worker->streams ? next + 1 : 0;
        }
        wait_packets(worker, 1000000);
    }
}

static uint64_t dropped(const struct worker *worker) {
    uint64_t sum = 0;
    for (unsigned k = 0; k < 2 * worker->pairs; k++) {
        uint32_t info[SK_MEMINFO_VARS] = {0};
        socklen_t size = sizeof info;
        getsockopt(worker->sockets[k], SOL_SOCKET, SO_MEMINFO, info, &size);
        sum += info[SK_MEMINFO_DROPS];
    }
    return sum;
}

static void *work(void *given) {
    struct worker *worker = given;
    uint64_t start = clock_ns(CLOCK_MONOTONIC), end;
    prctl(PR_SET_TIMERSLACK, 1);
    if (worker->window) {
        send_all(worker);
    } else {
        send_paced(worker);
    }
    end = clock_ns(CLOCK_MONOTONIC);
    worker->counts.elapsed = end - start;
    while (worker->counts.received < worker->counts.sent && clock_ns(CLOCK_MONOTONIC) < end + LAST_WAIT) wait_packets(worker, 10000000);
    return NULL;
}

void traffic_begin(uint64_t nanoseconds, unsigned window) {
    for (unsigned i = 0; i < worker_count; i++) {
        struct worker *worker = workers[i];
        memset(&worker->counts, 0, sizeof worker->counts);
        for (unsigned k = 0; k < worker->streams; k++) memset(worker->stream[k].sent, 0, sizeof worker->stream[k].sent);
        worker->nanoseconds = nanoseconds;
        worker->window = (window + worker_count - 1 - i) / worker_count;
        worker->on_way = worker->first_pending = worker->end_pending = 0;
        worker->dropped_before = dropped(worker);
        if (pthread_create(&worker->thread, NULL, work, worker)) fail("no thread");
    }
}

void traffic_end(struct counts *counts) {
    memset(counts, 0, sizeof *counts);
    for (unsigned i = 0; i < worker_count; i++) {
        const struct counts *own = &workers[i]->counts;
        pthread_join(workers[i]->thread, NULL);
        counts->sent += own->sent, counts->received += own->received, counts->strange += own->strange;
        counts->dropped += dropped(workers[i]) - workers[i]->dropped_before;
        if (own->latest > counts->latest) counts->latest = own->latest;
        if (own->elapsed > counts->elapsed) counts->elapsed = own->elapsed;
        for (unsigned k = 0; k <= LONGEST_DELAY; k++) counts->delays[k] += own->delays[k];
    }
}

unsigned delay_at(const struct counts *counts, double share) {
    uint64_t below = 0, wanted = (uint64_t)((double)counts->received * share);
    for (unsigned k = 0; k <= LONGEST_DELAY; k++) {
        below += counts->delays[k];
        if (below > wanted) return k;
    }
    return counts->received ? LONGEST_DELAY : 0;
}
