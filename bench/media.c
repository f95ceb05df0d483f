/* Loads one media proxy on 127.0.0.1 and measures it; media.sh builds and runs this. Usage: media MODE WORD=NUMBER..., with the modes
 * of main and the words of struct asked. A measurement is a line of NAME=NUMBER words:
 *
 *   sent, received, lost   packets: lost is sent less received
 *   strange                packets that came back changed, or twice
 *   dropped                packets that the generator's own sockets had no room for
 *   rate                   packets relayed a second
 *   p50, p99               microseconds from the send of a packet to the arrival of what it became, median and 99th percentile
 *   latest                 microseconds by which the generator sent a paced packet too late, the greatest: thousands tell a busy machine
 *   setups                 calls offered, answered and deleted a second; setup_p50, setup_p99: microseconds of one
 *   processor              the program's processor time, of all its threads, user and system, in % of one processor
 *   us                     the same in microseconds a packet relayed
 *   own                    how many % of it were the program's own code; the rest is the system's (exact to 10 ms in all)
 *   rss                    KiB of the program's resident memory at the end
 *   generator, generator_us  the generator's own processor time, in % of one processor and in microseconds a packet */
#include <arpa/inet.h>
#include <errno.h>
#include <stdarg.h>
#include <stdio.h>
#include <stdlib.h>
#include <string.h>
#include <time.h>
#include <unistd.h>

#include "media.h"

#define WARM_UP 500000000 /* nanoseconds of traffic before a measurement */

static struct {
    long port;    /* the control port */
    long relay;   /* in its place: the first port of a relay without control, which has two for each call */
    long pid;     /* the program that is measured */
    long calls;
    long secure;  /* 1: the answerer speaks SRTP */
    long six;     /* 1: the answerer is of IPv6, at ::1 */
    long seconds; /* of a measurement */
    long minutes; /* of a soak */
    long window;  /* packets on their way in a flood */
    long threads; /* of this program, for packets */
    long insist;  /* milliseconds after which a command is sent again, for 30 seconds; 0: five times, a second each */
    long step;    /* how many calls are opened for each that has packets; the others are closed before: so its ports lie apart */
    long strict;  /* 1: the calls have the flag `strict source` */
    long tell;    /* 1: once they have media, the ports of the calls go to standard error: a line a call, that of a and that of b */
} asked = {.port = 2223, .calls = 1, .seconds = 5, .minutes = 10, .window = 32, .threads = 1, .step = 1};

static struct call *calls;
static struct counts counts;

void fail(const char *format, ...) {
    va_list rest;
    va_start(rest, format);
    fputs("media: ", stderr);
    vfprintf(stderr, format, rest);
    fputc('\n', stderr);
    va_end(rest);
    exit(2);
}

/* Nanoseconds of processor time that the measured program has used, with all its threads. */
static uint64_t program_time(void) {
    clockid_t clock;
    if (!asked.pid) return 0;
    if (clock_getcpuclockid((pid_t)asked.pid, &clock)) fail("there is no process %ld", asked.pid);
    return clock_ns(clock);
}

/* The hundredths of a second that it has used in its own code and in the system. */
static void program_ticks(uint64_t *own, uint64_t *system) {
    char path[64], text[1024] = "";
    snprintf(path, sizeof path, "/proc/%ld/stat", asked.pid);
    FILE *file = fopen(path, "r");
    unsigned long long first = 0, second = 0;
    if (file) {
        const char *end = fgets(text, sizeof text, file) ? strrchr(text, ')') : NULL;
        if (end) sscanf(end, ") %*c %*d %*d %*d %*d %*d %*u %*u %*u %*u %*u %llu %llu", &first, &second);
        fclose(file);
    }
    *own = first, *system = second;
}

/* Kibibytes of its resident memory. */
static long program_memory(void) {
    char path[64], line[256];
    long memory = 0;
    snprintf(path, sizeof path, "/proc/%ld/status", asked.pid);
    FILE *file = fopen(path, "r");
    if (!file) return 0;
    while (fgets(line, sizeof line, file)) sscanf(line, "VmRSS: %ld", &memory);
    fclose(file);
    return memory;
}

/* What was used at a moment. */
struct used {
    uint64_t at, program, self, own_ticks, system_ticks;
};

static struct used used_now(void) {
    struct used used = {clock_ns(CLOCK_MONOTONIC), program_time(), clock_ns(CLOCK_PROCESS_CPUTIME_ID), 0, 0};
    program_ticks(&used.own_ticks, &used.system_ticks);
    return used;
}

static double per(double number, double of) { return of > 0 ? number / of : 0; }

static void print_used(struct used before) {
    struct used after = used_now();
    double elapsed = (double)(after.at - before.at), program = (double)(after.program - before.program), self = (double)(after.self - before.self);
    double own = (double)(after.own_ticks - before.own_ticks), system = (double)(after.system_ticks - before.system_ticks);
    printf(" processor=%.3f own=%.0f rss=%ld generator=%.1f", per(100 * program, elapsed), per(100 * own, own + system), program_memory(),
           per(100 * self, elapsed));
    if (counts.received) {
        printf(" us=%.2f generator_us=%.2f", program / 1000 / (double)counts.received, self / 1000 / (double)counts.received);
    }
}

static void print_traffic(void) {
    printf("sent=%llu received=%llu lost=%llu strange=%llu dropped=%llu rate=%.0f p50=%u p99=%u latest=%llu", (unsigned long long)counts.sent,
           (unsigned long long)counts.received, (unsigned long long)(counts.sent - counts.received), (unsigned long long)counts.strange,
           (unsigned long long)counts.dropped, per((double)counts.received * 1e9, (double)counts.elapsed), delay_at(&counts, 0.5),
           delay_at(&counts, 0.99), (unsigned long long)counts.latest);
}

/* The calls between those that have packets. */
static struct call call_between(long number) {
    struct call call = calls[number / asked.step];
    call.number = (unsigned)number;
    return call;
}

static void open_calls(void) {
    calls = calloc((size_t)asked.calls + 1, sizeof *calls);
    for (long i = 0; i < asked.calls; i++) calls[i].six = asked.six;
    traffic_open((unsigned)asked.threads, calls, (unsigned)asked.calls);
    for (long i = 0; i < asked.calls; i++) {
        calls[i].number = (unsigned)(i * asked.step), calls[i].secure = asked.secure, calls[i].strict = asked.strict;
        if (asked.relay) {
            calls[i].port_to_a = (uint16_t)(asked.relay + 2 * i);
            calls[i].port_to_b = (uint16_t)(asked.relay + 2 * i + 1);
        } else {
            call_open(&calls[i]);
            for (long k = 1; k < asked.step; k++) {
                struct call between = call_between(i * asked.step + k);
                call_open(&between);
            }
        }
    }
    for (long k = 0; k < asked.calls * asked.step && !asked.relay; k++) {
        struct call between = call_between(k);
        if (k % asked.step) call_close(&between);
    }
    traffic_ready();
}

static void close_calls(void) {
    for (long i = 0; i < asked.calls && !asked.relay; i++) call_close(&calls[i]);
}

static void run_traffic(uint64_t nanoseconds, long window) {
    traffic_begin(nanoseconds, (unsigned)window);
    traffic_end(&counts);
}

static void measure_traffic(long window) {
    open_calls();
    run_traffic(WARM_UP, window);
    struct used before = used_now();
    run_traffic((uint64_t)asked.seconds * 1000000000, window);
    print_traffic();
    print_used(before);
    putchar('\n');
    close_calls();
}

static void measure_idle(void) {
    open_calls();
    sleep(1);
    struct used before = used_now();
    sleep((unsigned)asked.seconds);
    printf("calls=%ld", asked.calls);
    print_used(before);
    putchar('\n');
    close_calls();
}

static int by_size(const void *left, const void *right) {
    uint32_t first = *(const uint32_t *)left, second = *(const uint32_t *)right;
    return (first > second) - (first < second);
}

static void tell_ports(void) {
    for (long i = 0; i < asked.calls; i++) fprintf(stderr, "ports %u %u\n", calls[i].port_to_a, calls[i].port_to_b);
    fputs("media\n", stderr);
}

/* Sets calls up and ends them, one after the other, while the others have media. */
static void measure_set_up(void) {
    size_t set_up = 0, most = (size_t)asked.seconds * 100000;
    uint32_t *times = calloc(most, sizeof *times);
    open_calls();
    run_traffic(WARM_UP, 0);
    if (asked.tell) tell_ports();
    struct used before = used_now();
    uint64_t start = clock_ns(CLOCK_MONOTONIC), now = start, end = start + (uint64_t)asked.seconds * 1000000000;
    traffic_begin((uint64_t)asked.seconds * 1000000000, 0);
    while (now < end && set_up < most) {
        struct call call = calls[0];
        call.number = (unsigned)(asked.calls * asked.step) + (unsigned)set_up;
        call_open(&call);
        call_close(&call);
        uint64_t began = now;
        now = clock_ns(CLOCK_MONOTONIC);
        times[set_up++] = (uint32_t)((now - began) / 1000);
    }
    traffic_end(&counts);
    print_traffic();
    qsort(times, set_up, sizeof *times, by_size);
    printf(" setups=%.0f setup_p50=%u setup_p99=%u", per((double)set_up * 1e9, (double)(now - start)), times[set_up / 2], times[set_up * 99 / 100]);
    free(times);
    print_used(before);
    putchar('\n');
    close_calls();
}

static void soak(void) {
    open_calls();
    run_traffic(WARM_UP, 0);
    for (long minute = 1; minute <= asked.minutes; minute++) {
        struct used before = used_now();
        run_traffic(59800000000, 0); /* and a fifth of a second at most for the last ones */
        printf("minute=%ld ", minute);
        print_traffic();
        print_used(before);
        putchar('\n');
        fflush(stdout);
    }
    close_calls();
}

static void read_words(char **words) {
    static const struct {
        const char *name;
        long *number, least, most;
    } known[] = {{"port", &asked.port, 1, 65535},   {"relay", &asked.relay, 1, 65535},     {"pid", &asked.pid, 1, 1 << 30},
                 {"calls", &asked.calls, 0, 2048},  {"secure", &asked.secure, 0, 1},       {"seconds", &asked.seconds, 1, 600},
                 {"minutes", &asked.minutes, 1, 1440}, {"window", &asked.window, 1, 1024}, {"threads", &asked.threads, 1, 8},
                 {"step", &asked.step, 1, 64},      {"insist", &asked.insist, 0, 1000},    {"strict", &asked.strict, 0, 1},
                 {"tell", &asked.tell, 0, 1},       {"six", &asked.six, 0, 1}};
    for (; *words; words++) {
        size_t i = 0, length = strcspn(*words, "=");
        char *end = NULL;
        while (i < sizeof known / sizeof *known && (strncmp(*words, known[i].name, length) || known[i].name[length])) i++;
        if (i == sizeof known / sizeof *known || !(*words)[length]) fail("%s is no word of mine", *words);
        *known[i].number = strtol(*words + length + 1, &end, 10);
        if (*end || *known[i].number < known[i].least || *known[i].number > known[i].most) fail("%s is out of range", *words);
    }
}

int main(int count, char **words) {
    if (count < 2) fail("a mode is missing");
    read_words(words + 2);
    if (!asked.relay) link_open((uint16_t)asked.port);
    if (asked.insist) link_insist((int)asked.insist);
    if (asked.window < asked.threads) asked.window = asked.threads;
    const char *mode = words[1];
    if (!strcmp(mode, "probe")) return link_is_answered() ? 0 : 1;
    if (!asked.calls && strcmp(mode, "idle")) fail("no calls");
    if (!strcmp(mode, "paced")) measure_traffic(0);
    else if (!strcmp(mode, "flood")) measure_traffic(asked.window);
    else if (!strcmp(mode, "idle")) measure_idle();
    else if (!strcmp(mode, "setup")) measure_set_up();
    else if (!strcmp(mode, "soak")) soak();
    else fail("%s is no mode of mine", mode);
    return 0;
}
