/* The example sender against a receiver made with the library, over loopback:
 *
 *     loopback SEND FILE L D KBITS [staggered]
 *
 * Takes three free ports of 127.0.0.1, starts SEND to them, drops a burst of L media packets and every 31st, and offers the rest. The
 * payloads of the window, one after the other, must be the file, which has at most 400 datagrams. Prints how many were dropped; exits 1
 * where a byte is missing or wrong. */
#define _POSIX_C_SOURCE 200112L
#include "congaveil_desk.h"
#include <arpa/inet.h>
#include <errno.h>
#include <netinet/in.h>
#include <poll.h>
#include <stdio.h>
#include <stdlib.h>
#include <string.h>
#include <sys/socket.h>
#include <sys/types.h>
#include <sys/wait.h>
#include <unistd.h>

enum { P = 1316, N = CGV_POSITIONS_MAX, K = CGV_RECORDS_MAX, BURST = 103, PATIENCE = 500, LIMIT = 60 };

static uint8_t media[N * P], marks[N], parity[K * P], file[N * P + 1];
static uint32_t timestamps[N];
static uint16_t lengths[N];
static struct cgv_record records[K];
static struct cgv_receiver card = {CGV_NO_WINDOW, CGV_STORE_OF_ARRAYS(media, timestamps, lengths, marks, parity, records)};
static struct cgv_desk desk;
static size_t dropped;

static void stop(const char *what, const char *why)
{
    fprintf(stderr, "loopback: %s%s%s\n", what, why ? ": " : "", why ? why : "");
    exit(1);
}

static int bound(uint16_t port)
{
    struct sockaddr_in to;
    int s = socket(AF_INET, SOCK_DGRAM, 0), room = 1 << 20;
    if (s < 0)
        stop("socket", strerror(errno));
    setsockopt(s, SOL_SOCKET, SO_RCVBUF, &room, sizeof room);
    memset(&to, 0, sizeof to);
    to.sin_family = AF_INET;
    to.sin_port = htons(port);
    to.sin_addr.s_addr = htonl(INADDR_LOOPBACK);
    if (bind(s, (struct sockaddr *)(void *)&to, sizeof to) == 0)
        return s;
    close(s);
    return -1;
}

/* Binds three ports, two apart: the first of them. */
static uint16_t three_ports(struct pollfd *ports)
{
    int i, j;
    for (i = 0; i < 100; i++) {
        struct sockaddr_in is;
        socklen_t len = sizeof is;
        uint16_t port = 0;
        ports[0].fd = bound(0);
        if (ports[0].fd >= 0 && getsockname(ports[0].fd, (struct sockaddr *)(void *)&is, &len) == 0)
            port = ntohs(is.sin_port);
        ports[1].fd = port && port < 65532 ? bound((uint16_t)(port + 2)) : -1;
        ports[2].fd = ports[1].fd >= 0 ? bound((uint16_t)(port + 4)) : -1;
        if (ports[2].fd >= 0)
            return port;
        for (j = 0; j < 2; j++)
            if (ports[j].fd >= 0)
                close(ports[j].fd);
    }
    stop("no three free ports", NULL);
    return 0;
}

/* Starts the sender, with what this program was given. */
static pid_t started(char **argv, uint16_t port)
{
    char text[16];
    char *const with[] = {argv[1], argv[2], (char[]){"127.0.0.1"}, text, argv[3], argv[4], argv[5], argv[6], NULL};
    pid_t child;
    snprintf(text, sizeof text, "%u", (unsigned)port);
    child = fork();
    if (child < 0)
        stop("fork", strerror(errno));
    if (child == 0) {
        execv(argv[1], with);
        _exit(127);
    }
    return child;
}

static int lost(size_t position) { return (position >= BURST && position < BURST + card.window.l) || position % 31 == 7; }

/* A datagram of a port: the first of the media opens the window, some of the media are dropped, all else is offered. */
static void arrive(int port, const uint8_t *g, size_t len, size_t l, size_t d)
{
    uint16_t number;
    struct cgv_answer a;
    if (port == 0 && !card.window.n && cgv_media_number(g, len, &number)) {
        if (cgv_receiver_open(&card, number, l, d, P, N, K, 0).number)
            stop("no window", NULL);
        cgv_desk_begin(&desk, &card);
    }
    if (port == 0 && cgv_media_number(g, len, &number) && lost(cgv_position(&card.window, number))) {
        dropped++;
        return;
    }
    a = port == 0 ? cgv_desk_media(&desk, &card, g, len) : port == 1 ? cgv_desk_column(&desk, &card, g, len) : cgv_desk_row(&desk, &card, g, len);
    if ((a.number && a.number != CGV_REPEAT) || a.spoilt)
        stop("a datagram is refused, or spoilt", cgv_message(a.number));
}

/* Everything that comes, until the sender has ended and nothing comes any more; how the sender ended. */
static int receive_all(struct pollfd *ports, pid_t child, size_t l, size_t d)
{
    int status = -1, i;
    alarm(LIMIT);
    for (;;) {
        uint8_t g[2048];
        int ready = poll(ports, 3, PATIENCE);
        if (!ready && status >= 0)
            return status;
        if (status < 0 && waitpid(child, &i, WNOHANG) == child)
            status = i;
        for (i = 0; i < 3 && ready > 0; i++)
            if (ports[i].revents & POLLIN) {
                ssize_t len = recv(ports[i].fd, g, sizeof g, 0);
                if (len > 0)
                    arrive(i, g, (size_t)len, l, d);
            }
    }
}

/* Holds the payloads of the window to the file: how many packets it took. */
static size_t compare(const char *name)
{
    FILE *f = fopen(name, "rb");
    size_t len = f ? fread(file, 1, sizeof file, f) : 0, at = 0, i, one = 0;
    if (!f || ferror(f) || !len || len > N * P)
        stop(name, "is not there, or empty, or too long");
    fclose(f);
    for (i = 0; at < len; i++, at += one) {
        uint16_t number = cgv_number(&card.window, i);
        const uint8_t *payload = cgv_receiver_payload(&card, number);
        one = cgv_receiver_length(&card, number);
        if (!payload || one > len - at || memcmp(payload, file + at, one))
            stop("a packet is missing, or not the one sent", NULL);
    }
    return i;
}

int main(int argc, char **argv)
{
    struct pollfd ports[3];
    size_t l, d, packets;
    uint16_t port;
    int i, status;
    if (argc < 6 || argc > 7)
        stop("usage: loopback SEND FILE L D KBITS [staggered]", NULL);
    l = (size_t)strtoul(argv[3], NULL, 10), d = (size_t)strtoul(argv[4], NULL, 10);
    port = three_ports(ports);
    for (i = 0; i < 3; i++)
        ports[i].events = POLLIN, ports[i].revents = 0;
    fflush(stdout);
    status = receive_all(ports, started(argv, port), l, d);
    if (!WIFEXITED(status) || WEXITSTATUS(status))
        stop("the sender failed", NULL);
    packets = compare(argv[2]);
    if (!dropped || card.window.present != packets || cgv_recovered(&desk.counters) != dropped)
        stop("not all that was dropped was rebuilt, or more than that", NULL);
    printf("%zu x %zu%s%s: of %zu media packets %zu dropped, all rebuilt; the file is as it was sent\n", l, d, argc > 6 ? " " : "",
           argc > 6 ? argv[6] : "", packets, dropped);
    return 0;
}
