/* The yardstick for a sender: running parity as FFmpeg 5.1 keeps it (libavformat/prompeg.c), written anew from what that does, in aligned
 * columns. A media packet becomes one string, 8 bytes of header fields and the payload; the string is xored, 8 bytes at a time, into the
 * running string of its row and into that of its column, and a group's first one is copied there. A row goes out with the first packet of
 * the next, a column every D packets while the next matrix goes by. FFmpeg is built with -O3 -fno-tree-vectorize; the bench measures this
 * so, and once more with -O3 alone, under other names, where gcc makes vector code of it. For the bench alone: no part of the library. */
#define _POSIX_C_SOURCE 200112L
#include <stdint.h>
#include <stdlib.h>
#include <string.h>

#ifndef NAMED
#define NAMED(name) prompeg_##name
#endif

enum { MOST = 1428, COLUMNS = 20, FIELDS = 8, ALIGN = 64, STRIDE = (FIELDS + MOST + ALIGN - 1) / ALIGN * ALIGN };

/* A running group: where it starts, its first timestamp, and its string. */
struct group {
    uint8_t start[2], stamp[4];
    uint8_t *string;
};

static struct group row, columns[2][COLUMNS]; /* of each column the cycle that goes out and the one that takes packets */
static uint8_t packets[2][28 + MOST];         /* the last column packet and the last row packet */
static uint16_t numbers[2];
static size_t l, d, p, place;
static int taking, matrices;

/* Header fields and payload of a packet as one string. */
void NAMED(bitstring)(const uint8_t *datagram, uint8_t *string)
{
    string[0] = datagram[0] & 63;
    string[1] = datagram[1];
    memcpy(string + 2, datagram + 4, 4);
    string[6] = (uint8_t)(p >> 8);
    string[7] = (uint8_t)p;
    memcpy(string + FIELDS, datagram + 12, p);
}

static void add(uint8_t *sum, const uint8_t *string, size_t n)
{
    size_t i;
    for (i = 0; i + 8 <= n; i += 8) {
        uint64_t a, b;
        memcpy(&a, sum + i, 8);
        memcpy(&b, string + i, 8);
        a ^= b;
        memcpy(sum + i, &a, 8);
    }
    for (; i < n; i++)
        sum[i] ^= string[i];
}

static void join(struct group *g, int begins, const uint8_t *datagram, const uint8_t *string)
{
    if (begins) {
        memcpy(g->start, datagram + 2, 2);
        memcpy(g->stamp, datagram + 4, 4);
        memcpy(g->string, string, FIELDS + p);
    } else
        add(g->string, string, FIELDS + p);
}

static void put(const struct group *g, int is_row)
{
    uint8_t *to = packets[is_row];
    uint16_t number = ++numbers[is_row];
    const uint8_t rtp[4] = {128, 96, (uint8_t)(number >> 8), (uint8_t)number};
    const uint8_t profile[4] = {(uint8_t)(is_row ? 64 : 0), (uint8_t)(is_row ? 1 : l), (uint8_t)(is_row ? l : d), 0};
    memset(to, 0, 28);
    memcpy(to, rtp, 4);
    memcpy(to + 4, g->stamp, 4);
    memcpy(to + 12, g->start, 2);
    memcpy(to + 14, g->string + 6, 2);
    to[16] = 128 | g->string[1];
    memcpy(to + 20, g->string + 2, 4);
    memcpy(to + 24, profile, 4);
    memcpy(to + 28, g->string + FIELDS, p);
}

/* A packet and its string into its row and its column; with writes, the parity packets that go out with it. Which those are: 1 a column,
 * 2 a row, 3 both, 0 none. */
int NAMED(xor)(const uint8_t *datagram, const uint8_t *string, int writes)
{
    size_t column = place % l;
    int sent = 0;
    if (writes && column == 0 && (matrices || place)) {
        put(&row, 1);
        sent |= 2;
    }
    join(&row, column == 0, datagram, string);
    if (place == 0)
        taking = !taking;
    join(&columns[taking][column], place < l, datagram, string);
    if (writes && matrices && place % d == 0) {
        put(&columns[!taking][place / d], 0);
        sent |= 1;
    }
    if (++place == l * d)
        place = 0, matrices = 1;
    return sent;
}

/* A whole packet, in a string that is allocated for it, as FFmpeg does. */
int NAMED(write)(const uint8_t *datagram)
{
    void *string;
    int sent;
    if (posix_memalign(&string, ALIGN, FIELDS + p))
        return -1;
    NAMED(bitstring)(datagram, string);
    sent = NAMED(xor)(datagram, string, 1);
    free(string);
    return sent;
}

/* From now on parity of L x D over payloads of P bytes. */
void NAMED(open)(int of_columns, int of_rows, int payload)
{
    static uint8_t strings[2 * COLUMNS + 1][STRIDE] __attribute__((aligned(64)));
    int i;
    if (of_columns > COLUMNS || payload > MOST)
        abort();
    l = (size_t)of_columns, d = (size_t)of_rows, p = (size_t)payload, place = 0, taking = 0, matrices = 0;
    row.string = strings[0];
    for (i = 0; i < 2 * COLUMNS; i++)
        columns[i / COLUMNS][i % COLUMNS].string = strings[i + 1];
    numbers[0] = numbers[1] = 0;
}

/* The last column packet, or the last row packet, of 28 + P bytes. */
const uint8_t *NAMED(packet)(int is_row) { return packets[is_row]; }
