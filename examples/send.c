/* Sends a transport stream as RTP over UDP, with row and column parity beside it.
 *
 *     send FILE HOST PORT [L D [KBITS [staggered]]]
 *
 * Media go to PORT, column parity to PORT + 2 and row parity to PORT + 4. A datagram has seven transport packets of 188 bytes, the last
 * one what is left. L and D are 10 and 10 where they are not given. KBITS is the rate of the file in kbit/s, 5000 where it is not given;
 * with 0 the file goes out as fast as the socket takes it. Columns are aligned, or staggered where that word is there.
 * Columns that are not out when the file ends do not go out. Prints how many packets were sent. Exits with 1 where the file or the line
 * is at fault, with 2 where the arguments are. */
#define _POSIX_C_SOURCE 200112L
#include <congaveil.h>
#include <errno.h>
#include <netdb.h>
#include <stdarg.h>
#include <stdio.h>
#include <stdlib.h>
#include <string.h>
#include <sys/socket.h>
#include <sys/types.h>
#include <time.h>
#include <unistd.h>

enum { TRANSPORT = 188, PAYLOAD = 7 * TRANSPORT, SYNC = 0x47, COLUMN = 2, ROW = 4 };

static uint8_t payloads[CGV_ROOM_MAX * PAYLOAD], row[CGV_PARITY_HEADER + PAYLOAD], column[CGV_PARITY_HEADER + PAYLOAD];
static uint32_t timestamps[CGV_ROOM_MAX];
static uint16_t lengths[CGV_ROOM_MAX], longest[CGV_ROOM_MAX];
static struct cgv_stream stream = {CGV_NO_SENDER, CGV_ROOM_OF_ARRAYS(payloads, timestamps, lengths, longest),
                                   CGV_OUTPUTS_OF_ARRAYS(row, column), CGV_NO_OUTER, CGV_NO_OUTER};

/* What the arguments say. */
struct order {
    const char *file, *host, *port;
    unsigned long media_port, l, d, kbits;
    uint8_t arrangement;
};

/* Where datagrams go: a socket, and the address of each of the three ports. */
struct line {
    int socket;
    struct addrinfo *to[ROW + 1];
};

/* Ends the program, with what is wrong. */
static void stop(int code, const char *what, ...)
{
    va_list values;
    fputs("send: ", stderr);
    va_start(values, what);
    vfprintf(stderr, what, values);
    va_end(values);
    fputc('\n', stderr);
    exit(code);
}

/* A decimal number from least to most, or the program ends. */
static unsigned long number(const char *name, const char *text, unsigned long least, unsigned long most)
{
    char *end;
    unsigned long value;
    errno = 0;
    value = strtoul(text, &end, 10);
    if (*text < '0' || *text > '9' || *end || errno || value < least || value > most)
        stop(2, "%s is %s: it has to be a number from %lu to %lu", name, text, least, most);
    return value;
}

static struct order read_arguments(int argc, char **argv)
{
    struct order o = {NULL, NULL, NULL, 0, 10, 10, 5000, CGV_ALIGNED};
    if (argc < 4 || argc == 5 || argc > 8)
        stop(2, "usage: send FILE HOST PORT [L D [KBITS [staggered]]]");
    o.file = argv[1], o.host = argv[2], o.port = argv[3];
    o.media_port = number("PORT", o.port, 1, 65535 - ROW);
    if (argc > 5) {
        o.l = number("L", argv[4], 1, CGV_L_MAX);
        o.d = number("D", argv[5], CGV_D_MIN, CGV_D_MAX);
    }
    if (argc > 6)
        o.kbits = number("KBITS", argv[6], 0, 1000000);
    if (argc > 7 && strcmp(argv[7], "staggered"))
        stop(2, "the last argument is %s: it has to be the word staggered, or not to be there", argv[7]);
    o.arrangement = argc > 7 ? CGV_STAGGERED : CGV_ALIGNED;
    return o;
}

/* The socket, and the addresses of the media port and of those two and four above. */
static struct line connect_line(const struct order *o)
{
    struct line line = {-1, {NULL, NULL, NULL, NULL, NULL}};
    struct addrinfo hints;
    char port[16];
    int i, wrong;
    memset(&hints, 0, sizeof hints);
    hints.ai_socktype = SOCK_DGRAM;
    for (i = 0; i <= ROW; i += 2) {
        snprintf(port, sizeof port, "%lu", o->media_port + (unsigned long)i);
        wrong = getaddrinfo(o->host, port, &hints, &line.to[i]);
        if (wrong)
            stop(1, "%s: %s", o->host, gai_strerror(wrong));
        hints.ai_family = line.to[0]->ai_family; /* one host has one kind of address for all three */
    }
    line.socket = socket(line.to[0]->ai_family, SOCK_DGRAM, 0);
    if (line.socket < 0)
        stop(1, "%s: %s", o->host, strerror(errno));
    return line;
}

static void put(const struct line *line, int above, const uint8_t *datagram, size_t len)
{
    const struct addrinfo *to = line->to[above];
    ssize_t sent;
    do
        sent = sendto(line->socket, datagram, len, 0, to->ai_addr, to->ai_addrlen);
    while (sent < 0 && (errno == EINTR || errno == ENOBUFS));
    if (sent < 0)
        stop(1, "a datagram of %zu bytes: %s", len, strerror(errno));
}

/* Microseconds of a clock that only goes on. */
static uint64_t now(void)
{
    struct timespec t;
    clock_gettime(CLOCK_MONOTONIC, &t);
    return (uint64_t)t.tv_sec * 1000000u + (uint64_t)t.tv_nsec / 1000u;
}

/* Waits until so many bytes are due, and gives the microseconds since the start that they stand for. */
static uint64_t wait_for(uint64_t start, uint64_t bytes, unsigned long kbits)
{
    uint64_t due, here = now() - start;
    struct timespec pause;
    if (!kbits)
        return here;
    due = bytes * 8000u / kbits;
    for (; here < due; here = now() - start) {
        pause.tv_sec = (time_t)((due - here) / 1000000u);
        pause.tv_nsec = (long)((due - here) % 1000000u * 1000u);
        nanosleep(&pause, NULL);
    }
    return due;
}

/* First numbers and SSRC are to be random (RFC 3550). Here they come from the clock and the process, so that streams differ. */
static uint32_t any(void)
{
    static uint64_t state;
    struct timespec t;
    clock_gettime(CLOCK_REALTIME, &t);
    state = (state ^ (uint64_t)t.tv_sec << 30 ^ (uint64_t)t.tv_nsec ^ (uint64_t)getpid() << 40) * 0x9e3779b97f4a7c15u;
    return (uint32_t)(state >> 32);
}

static void put32(uint8_t *g, uint32_t value)
{
    g[0] = (uint8_t)(value >> 24), g[1] = (uint8_t)(value >> 16), g[2] = (uint8_t)(value >> 8), g[3] = (uint8_t)value;
}

/* The next payload of the file: its bytes, in whole transport packets, or 0 at the end. */
static size_t next_payload(FILE *f, const char *name, uint8_t *payload)
{
    size_t len = fread(payload, 1, PAYLOAD, f), i;
    if (ferror(f))
        stop(1, "%s: %s", name, strerror(errno));
    if (len % TRANSPORT)
        fprintf(stderr, "send: %s: the last %zu bytes are no whole transport packet, and do not go out\n", name, len % TRANSPORT);
    len -= len % TRANSPORT;
    for (i = 0; i < len; i += TRANSPORT)
        if (payload[i] != SYNC)
            stop(1, "%s: not a transport stream of packets of 188 bytes: one of them does not start with 47 hex", name);
    return len;
}

/* The whole file: media, and with each packet the parity that is due. */
static void send_file(const struct order *o, const struct line *line, FILE *f)
{
    uint8_t g[CGV_MEDIA_HEADER + PAYLOAD];
    uint64_t start = now(), bytes = 0;
    uint32_t ssrc = any(), first_stamp = any();
    unsigned long media = 0, rows = 0, columns = 0;
    size_t len;
    while ((len = next_payload(f, o->file, g + CGV_MEDIA_HEADER)) > 0) {
        uint32_t stamp = first_stamp + (uint32_t)(wait_for(start, bytes, o->kbits) * 9u / 100u); /* 90 kHz */
        struct cgv_sent sent;
        put32(g, 0x80210000u | cgv_sender_next(&stream.sender));
        put32(g + 4, stamp);
        put32(g + 8, ssrc);
        sent = cgv_stream_media(&stream, g, CGV_MEDIA_HEADER + len, stamp);
        if (sent.number)
            stop(1, "media packet %lu: %s", media, cgv_message(sent.number));
        put(line, 0, g, CGV_MEDIA_HEADER + len);
        if (sent.column)
            put(line, COLUMN, column, sent.column);
        if (sent.row)
            put(line, ROW, row, sent.row);
        bytes += len, media++, columns += sent.column > 0, rows += sent.row > 0;
    }
    if (!media)
        stop(1, "%s: no transport packet in it", o->file);
    printf("sent %lu media packets, %llu bytes of the file, with %lu columns and %lu rows\n", media, (unsigned long long)bytes, columns, rows);
}

int main(int argc, char **argv)
{
    struct order o = read_arguments(argc, argv);
    struct line line;
    struct cgv_sent sent;
    FILE *f;
    int i;
    stream.row.ssrc = any(), stream.column.ssrc = any();
    stream.row.sequence = (uint16_t)any(), stream.column.sequence = (uint16_t)any();
    sent = cgv_stream_open(&stream, (uint16_t)any(), o.arrangement, o.l, o.d, PAYLOAD);
    if (sent.number)
        stop(2, "no sender for L %lu, D %lu: %s", o.l, o.d, cgv_message(sent.number));
    f = fopen(o.file, "rb");
    if (!f)
        stop(1, "%s: %s", o.file, strerror(errno));
    line = connect_line(&o);
    send_file(&o, &line, f);
    fclose(f);
    close(line.socket);
    for (i = 0; i <= ROW; i += 2)
        freeaddrinfo(line.to[i]);
    if (fflush(stdout))
        stop(1, "%s", strerror(errno));
    return 0;
}
