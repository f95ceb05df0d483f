/* The yardstick of media.sh: the least that a relay can do. One thread that sleeps until packets come, receives one and sends it on from
 * the opposite port. Usage: relay PORT CALLS: call N has the ports PORT + 2N and PORT + 2N + 1 of 127.0.0.1; a packet that arrives at
 * one leaves from the other, to where that one's last packet came from. It ends by a signal. */
#include <arpa/inet.h>
#include <stdio.h>
#include <stdlib.h>
#include <sys/epoll.h>
#include <sys/socket.h>
#include <unistd.h>

struct end {
    int socket;
    struct sockaddr_in peer;
    struct end *opposite;
};

int main(int count, char **words) {
    int first = count == 3 ? atoi(words[1]) : 0, ports = count == 3 ? 2 * atoi(words[2]) : 0, poll = epoll_create1(0);
    struct end *ends = calloc((size_t)ports + 1, sizeof *ends);
    struct epoll_event events[64];
    char packet[2048];
    if (first < 1 || ports < 2 || first + ports > 65536) return fputs("usage: relay PORT CALLS\n", stderr), 2;
    for (int i = 0; i < ports; i++) {
        struct sockaddr_in here = {.sin_family = AF_INET, .sin_port = htons((in_port_t)(first + i)), .sin_addr.s_addr = htonl(INADDR_LOOPBACK)};
        struct epoll_event event = {.events = EPOLLIN, .data.ptr = &ends[i]};
        ends[i].socket = socket(AF_INET, SOCK_DGRAM | SOCK_NONBLOCK, 0);
        ends[i].opposite = &ends[i ^ 1];
        if (bind(ends[i].socket, (struct sockaddr *)&here, sizeof here)) return perror("relay"), 3;
        epoll_ctl(poll, EPOLL_CTL_ADD, ends[i].socket, &event);
    }
    for (;;) {
        int ready = epoll_wait(poll, events, 64, -1);
        for (int i = 0; i < ready; i++) {
            struct end *end = events[i].data.ptr, *to = end->opposite;
            socklen_t size = sizeof end->peer;
            ssize_t length = recvfrom(end->socket, packet, sizeof packet, 0, (struct sockaddr *)&end->peer, &size);
            if (length < 0 || !to->peer.sin_port) continue;
            sendto(to->socket, packet, (size_t)length, 0, (struct sockaddr *)&to->peer, sizeof to->peer);
        }
    }
}
