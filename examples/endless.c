/* A card for an endless stream: one window that moves with it. What leaves the window is sent on, or given up where it is missing.
 *
 * The stream is made here, with the library's sender: 200,000 packets in 10 x 10 matrices, payloads of 188 bytes, 2 % of all datagrams
 * lost, joined in mid-matrix. Prints what was lost on the line and what of it was given up, for several ways to move; the last two show
 * what to avoid: too few positions for the columns to come in time, and a window that does not move for parity ahead of it. */
#include <congaveil.h>
#include <stdio.h>
#include <string.h>

enum { L = 10, D = 10, P = 188, N = 300, K = 60, PACKETS = 200000, JOIN = 57, FIRST = 65000 };

static uint8_t media[N * P], marks[N], parity[K * P];
static uint32_t timestamps[N];
static uint16_t lengths[N];
static struct cgv_record records[K];

static uint8_t out[CGV_MOVE_ROOM(L * D, P)];
static uint16_t sizes[L * D];

/* How a window moves: by so many positions, of so many, from the place at which it is joined. */
struct way {
    size_t by, n, join;
    int for_parity; /* whether also for parity that is ahead of it */
};

struct card {
    struct cgv_receiver r;
    struct way way;
    unsigned long next, sent_on, given_up, wrong, alarms, spoilt, refused; /* next: the place of the window's base */
};

static uint8_t byte_of(unsigned long place) { return (uint8_t)(place * 31 + place / 7); }

static void start(struct card *c, struct way way)
{
    static const struct cgv_receiver none = {
        CGV_NO_WINDOW, CGV_STORE_OF_ARRAYS(media, timestamps, lengths, marks, parity, records)};
    memset(c, 0, sizeof *c);
    c->r = none;
    c->way = way;
    c->next = way.join;
    c->refused += cgv_receiver_open(&c->r, (uint16_t)(FIRST + way.join), L, D, P, way.n, way.n / (L * D) * (L + D), 1).number != CGV_DONE;
}

/* Moves the window on: each packet that leaves it is sent on, if it is there, and compared here with the one that was sent. */
static int move_on(struct card *c)
{
    size_t i;
    if (cgv_receiver_move(&c->r, c->way.by, out, sizeof out, sizes, L * D).number != CGV_DONE) {
        c->refused++;
        return 0;
    }
    for (i = 0; i < c->way.by; i++, c->next++) {
        struct cgv_left left = cgv_receiver_left(&c->r, c->way.by, i, out, sizeof out, sizes, L * D);
        c->sent_on += left.datagram != NULL;
        c->given_up += left.datagram == NULL;
        c->wrong += left.number != (uint16_t)(FIRST + c->next) ||
                    (left.datagram && (left.len != CGV_MEDIA_HEADER + P || left.datagram[12] != byte_of(c->next) ||
                                       left.datagram[left.len - 1] != byte_of(c->next)));
    }
    return 1;
}

/* A datagram from the line. */
static void arrive(struct card *c, uint8_t port, const uint8_t *datagram, size_t len)
{
    struct cgv_answer a;
    while ((c->way.for_parity || port == CGV_PORT_MEDIA) && cgv_receiver_ahead(&c->r, port, datagram, len) && move_on(c))
        ;
    a = port == CGV_PORT_MEDIA    ? cgv_receiver_media(&c->r, datagram, len)
        : port == CGV_PORT_COLUMN ? cgv_receiver_column(&c->r, datagram, len)
                                  : cgv_receiver_row(&c->r, datagram, len);
    c->alarms += port == CGV_PORT_MEDIA && a.number == CGV_DIFFERS;
    c->spoilt += a.spoilt;
    c->refused += a.number != CGV_DONE && a.number != CGV_OUTSIDE && a.number != CGV_REPEAT;
}

/* ---- the stream, and the line that loses 2 % of it */

static uint64_t state;

static int lost(void)
{
    uint64_t z = state += 0x9e3779b97f4a7c15u;
    z = (z ^ z >> 30) * 0xbf58476d1ce4e5b9u;
    z = (z ^ z >> 27) * 0x94d049bb133111ebu;
    return (z ^ z >> 31) % 100 < 2;
}

static uint8_t payloads[CGV_ROOM(L) * P], row[CGV_PARITY_HEADER + P], column[CGV_PARITY_HEADER + P];
static uint32_t stamps[CGV_ROOM(L)];
static uint16_t lens[CGV_ROOM(L)], longest[CGV_ROOM(L)];
static struct cgv_stream sender = {CGV_NO_SENDER, CGV_ROOM_OF_ARRAYS(payloads, stamps, lens, longest), CGV_OUTPUTS_OF_ARRAYS(row, column),
                                   CGV_NO_OUTER, CGV_NO_OUTER};
static uint8_t gone[PACKETS]; /* which media packets were lost on the line */

/* The media packet of a place, 12 + P bytes. */
static void make_media(uint8_t *g, unsigned long place)
{
    uint16_t number = (uint16_t)(FIRST + place);
    memset(g, 0, CGV_MEDIA_HEADER);
    g[0] = 0x80, g[1] = 33, g[2] = (uint8_t)(number >> 8), g[3] = (uint8_t)number;
    memset(g + CGV_MEDIA_HEADER, byte_of(place), P);
}

/* The whole stream; how many of the media packets that left the window were lost on the line. */
static unsigned long run(struct card *c, struct way way)
{
    unsigned long place, count = 0;
    state = 1;
    start(c, way);
    cgv_stream_open(&sender, FIRST, CGV_ALIGNED, L, D, P);
    for (place = 0; place < PACKETS; place++) {
        uint8_t g[CGV_MEDIA_HEADER + P];
        struct cgv_sent sent;
        make_media(g, place);
        sent = cgv_stream_media(&sender, g, sizeof g, 0);
        c->refused += sent.number != CGV_DONE;
        gone[place] = (uint8_t)lost();
        if (place >= way.join && !gone[place])
            arrive(c, CGV_PORT_MEDIA, g, sizeof g);
        if (sent.column && !lost() && place >= way.join)
            arrive(c, CGV_PORT_COLUMN, column, sent.column);
        if (sent.row && !lost() && place >= way.join)
            arrive(c, CGV_PORT_ROW, row, sent.row);
    }
    for (place = way.join; place < c->next; place++)
        count += gone[place];
    return count;
}

int main(void)
{
    static const struct way ways[] = {{L * D, 3 * L * D, JOIN, 1}, {1, 2 * L * D, JOIN, 1}, {L * D, 2 * L * D, 0, 1},
                                      {L * D, 2 * L * D, JOIN, 1}, {1, 2 * L * D, JOIN, 0}};
    size_t i;
    for (i = 0; i < sizeof ways / sizeof ways[0]; i++) {
        static struct card c;
        unsigned long count = run(&c, ways[i]);
        printf("by %zu of %zu positions, from place %zu of a matrix%s: %lu lost on the line; sent on %lu, given up %lu, wrong %lu, alarms %lu, "
               "spoilt %lu, refused otherwise %lu\n",
               ways[i].by, ways[i].n, ways[i].join, ways[i].for_parity ? "" : ", for media alone", count, c.sent_on, c.given_up, c.wrong, c.alarms,
               c.spoilt, c.refused);
    }
    return 0;
}
