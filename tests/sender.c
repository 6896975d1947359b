/* The C face of a sender: over every profile and both arrangements the parity packets that go out, each with which media packet, are
 * those of a plain definition; every refusal is reached and changes nothing that was lent; nothing is touched past a buffer's need. The
 * buffers come from malloc with not a byte to spare, or with spare elements that are watched; under valgrind a step past either is an
 * error. Prints how many calls were made; exits 1 at the first difference. */
#include "congaveil.h"
#include <stdio.h>
#include <stdlib.h>
#include <string.h>

enum { UNIT = 188, P = 3 * UNIT, L = 4, D = 5, FIRST = 65400, SPARE = 5, OLD = 0xA5 };

static size_t calls, spare;
static int reached[CGV_NUMBERS];

static void broken(const char *what)
{
    fprintf(stderr, "sender: not as it must be: %s, after %zu calls\n", what, calls);
    exit(1);
}

/* ---- a stream, and beside it what was lent before a call */

struct bench {
    struct cgv_stream s;
    struct cgv_room room;
    struct cgv_outputs out;
};

static void *make(size_t bytes)
{
    void *p = malloc(bytes ? bytes : 1);
    if (!p)
        exit(2);
    memset(p, OLD, bytes);
    return p;
}

static struct cgv_room new_room(size_t l, size_t p)
{
    struct cgv_room m;
    m.payloads_len = CGV_ROOM(l) * p + spare;
    m.timestamps_len = m.lengths_len = m.longest_len = CGV_ROOM(l) + spare;
    m.payloads = make(m.payloads_len);
    m.timestamps = make(m.timestamps_len * sizeof *m.timestamps);
    m.lengths = make(m.lengths_len * sizeof *m.lengths);
    m.longest = make(m.longest_len * sizeof *m.longest);
    return m;
}

static struct cgv_outputs new_outputs(size_t p)
{
    struct cgv_outputs o;
    o.row_len = o.column_len = CGV_PARITY_HEADER + p + spare;
    o.row = make(o.row_len);
    o.column = make(o.column_len);
    return o;
}

static struct bench new_bench(size_t l, size_t p)
{
    static const struct cgv_sender none = CGV_NO_SENDER;
    struct bench b;
    b.s.sender = none;
    b.s.room = new_room(l, p);
    b.s.out = new_outputs(p);
    b.room = new_room(l, p);
    b.out = new_outputs(p);
    b.s.row.sequence = 65534, b.s.row.timestamp = 0, b.s.row.ssrc = 8;
    b.s.column.sequence = 65535, b.s.column.timestamp = 0, b.s.column.ssrc = 0x01020304;
    return b;
}

static void free_parts(struct cgv_room m, struct cgv_outputs o)
{
    free(m.payloads);
    free(m.timestamps);
    free(m.lengths);
    free(m.longest);
    free(o.row);
    free(o.column);
}

static void end_bench(struct bench *b)
{
    free_parts(b->s.room, b->s.out);
    free_parts(b->room, b->out);
}

static void keep(struct bench *b)
{
    const struct cgv_room *m = &b->s.room;
    memcpy(b->room.payloads, m->payloads, m->payloads_len);
    memcpy(b->room.timestamps, m->timestamps, m->timestamps_len * sizeof *m->timestamps);
    memcpy(b->room.lengths, m->lengths, m->lengths_len * sizeof *m->lengths);
    memcpy(b->room.longest, m->longest, m->longest_len * sizeof *m->longest);
    memcpy(b->out.row, b->s.out.row, b->s.out.row_len);
    memcpy(b->out.column, b->s.out.column, b->s.out.column_len);
}

/* What must be as it was: the room from so many elements on, each output from so many bytes on. */
static void same_from(const struct bench *b, size_t elements, size_t p, size_t row, size_t column)
{
    const struct cgv_room *m = &b->s.room, *old = &b->room;
    size_t n = elements;
    if (memcmp(m->payloads + n * p, old->payloads + n * p, m->payloads_len - n * p) ||
        memcmp(m->timestamps + n, old->timestamps + n, (m->timestamps_len - n) * sizeof *m->timestamps) ||
        memcmp(m->lengths + n, old->lengths + n, (m->lengths_len - n) * sizeof *m->lengths) ||
        memcmp(m->longest + n, old->longest + n, (m->longest_len - n) * sizeof *m->longest))
        broken("the room was touched where it must not be");
    if (memcmp(b->s.out.row + row, b->out.row + row, b->s.out.row_len - row) ||
        memcmp(b->s.out.column + column, b->out.column + column, b->s.out.column_len - column))
        broken("an output was touched where it must not be");
}

static int same_sender(struct cgv_sender a, struct cgv_sender b)
{
    return a.first == b.first && a.taken == b.taken && a.arrangement == b.arrangement && a.l == b.l && a.d == b.d && a.p == b.p &&
           a.at == b.at;
}

static int same_outer(struct cgv_outer a, struct cgv_outer b)
{
    return a.sequence == b.sequence && a.timestamp == b.timestamp && a.ssrc == b.ssrc;
}

static void answered(const char *what, struct cgv_sent sent, uint32_t number)
{
    calls++;
    if (sent.number != number || (number && (sent.row || sent.column))) {
        fprintf(stderr, "sender: %s: answered %u, row %zu, column %zu\n", what, (unsigned)sent.number, sent.row, sent.column);
        exit(1);
    }
    reached[number] = 1;
}

/* Opens; a refused opening gives zeros, and the stream stays as it is. */
static void opens(const char *what, struct bench *b, uint16_t first, uint8_t arrangement, size_t l, size_t d, size_t p, uint32_t number)
{
    static const struct cgv_sender none = CGV_NO_SENDER;
    struct cgv_sender before = b->s.sender, must = {0, 0, 0, 0, 0, 0, 0};
    struct cgv_sent sent;
    size_t i;
    keep(b);
    sent = cgv_stream_open(&b->s, first, arrangement, l, d, p);
    answered(what, sent, number);
    if (number && (!same_sender(sent.sender, none) || !same_sender(b->s.sender, before)))
        broken("a refused opening");
    same_from(b, number ? 0 : CGV_ROOM(l), p, 0, 0);
    if (number)
        return;
    must.first = first, must.arrangement = arrangement, must.l = l, must.d = d, must.p = p;
    if (!same_sender(sent.sender, must) || !same_sender(b->s.sender, must) || cgv_sender_next(&b->s.sender) != first || sent.row || sent.column)
        broken("the value of an opening");
    for (i = 0; i < CGV_ROOM(l) * p; i++)
        if (b->s.room.payloads[i])
            broken("payloads after an opening");
    for (i = 0; i < CGV_ROOM(l); i++)
        if (b->s.room.timestamps[i] || b->s.room.lengths[i] || b->s.room.longest[i])
            broken("numbers after an opening");
}

/* Offers a datagram of exactly its length; what a refusal leaves, and what is past the need, is as it was. */
static struct cgv_sent offers(const char *what, struct bench *b, const uint8_t *datagram, size_t len, uint32_t time, uint32_t number)
{
    struct cgv_stream before = b->s;
    uint8_t *exact = make(len);
    struct cgv_sent sent;
    memcpy(exact, datagram, len);
    memset(b->s.out.row, OLD, b->s.out.row_len);
    memset(b->s.out.column, OLD, b->s.out.column_len);
    keep(b);
    sent = cgv_stream_media(&b->s, exact, len, time);
    answered(what, sent, number);
    if (memcmp(exact, datagram, len))
        broken("the datagram was changed");
    free(exact);
    same_from(b, number ? 0 : CGV_ROOM(before.sender.l), before.sender.p, sent.row, sent.column);
    if (!same_sender(b->s.sender, sent.sender))
        broken("the next value is not kept");
    if (number && (!same_sender(sent.sender, before.sender) || !same_outer(b->s.row, before.row) || !same_outer(b->s.column, before.column)))
        broken("a refusal changed the stream");
    return sent;
}

/* ---- the media: what the packet of a place, counted from the first, has */

static uint32_t stamp(size_t place) { return 3003u * (uint32_t)place + 0xFFFF0000u; }
static size_t length_of(size_t place, size_t p) { return UNIT * (1 + place / 4 % (p / UNIT)); }
static uint8_t byte_of(size_t place, size_t i) { return (uint8_t)(place * 31 + i * 7 + place * i / 64); }

static void put16(uint8_t *g, size_t value) { g[0] = (uint8_t)(value >> 8), g[1] = (uint8_t)value; }
static void put32(uint8_t *g, uint32_t value) { put16(g, value >> 16), put16(g + 2, value); }

static size_t media(uint8_t *g, uint16_t first, size_t place, size_t p)
{
    size_t i, length = length_of(place, p);
    memset(g, 0, CGV_MEDIA_HEADER);
    g[0] = 0x80, g[1] = 33;
    put16(g + 2, first + place);
    put32(g + 4, stamp(place));
    for (i = 0; i < length; i++)
        g[CGV_MEDIA_HEADER + i] = byte_of(place, i);
    return CGV_MEDIA_HEADER + length;
}

/* The parity packet of a group that starts at a place. */
static size_t parity(uint8_t *g, struct cgv_sender s, int row, size_t start, struct cgv_outer outer)
{
    size_t offset = row ? 1 : s.l, na = row ? s.l : s.d, j, i, length = 0, longest = 0;
    uint32_t time = 0;
    memset(g, 0, CGV_PARITY_HEADER + s.p);
    for (j = 0; j < na; j++) {
        size_t place = start + j * offset, one = length_of(place, s.p);
        time ^= stamp(place);
        length ^= one;
        longest = one > longest ? one : longest;
        for (i = 0; i < one; i++)
            g[CGV_PARITY_HEADER + i] ^= byte_of(place, i);
    }
    g[0] = 0x80, g[1] = 96;
    put16(g + 2, outer.sequence);
    put32(g + 4, outer.timestamp);
    put32(g + 8, outer.ssrc);
    put16(g + 12, s.first + start);
    put16(g + 14, length);
    g[16] = (uint8_t)(0x80 | (na % 2 ? 33 : 0));
    put32(g + 20, time);
    g[24] = row ? 0x40 : 0, g[25] = (uint8_t)offset, g[26] = (uint8_t)na;
    return CGV_PARITY_HEADER + longest;
}

/* Which column goes out with the packet of a place: 1 and where it starts, or 0. Each start of the arrangement is looked at. */
static int column_due(struct cgv_sender s, size_t place, size_t *start)
{
    size_t matrix = s.l * s.d, m, k;
    for (m = place / matrix >= 2 ? place / matrix - 2 : 0; m <= place / matrix; m++)
        for (k = 0; k < s.l; k++) {
            size_t out;
            *start = m * matrix + k + (s.arrangement ? s.l * (k % s.d) : 0);
            out = s.arrangement ? *start + (s.d - 1) * s.l + s.l : (m + 1) * matrix + k * s.d;
            if (out == place)
                return 1;
        }
    return 0;
}

/* Offers the packet of a place, and holds what goes out to the definition. */
static void sends(struct bench *b, size_t place)
{
    uint8_t g[CGV_MEDIA_HEADER + P], must[CGV_PARITY_HEADER + P];
    struct cgv_sender s = b->s.sender;
    struct cgv_outer row = b->s.row, column = b->s.column;
    size_t len = media(g, s.first, place, s.p), start, bytes;
    struct cgv_sent sent = offers("media", b, g, len, 90u + (uint32_t)place, 0);
    row.timestamp = column.timestamp = 90u + (uint32_t)place;
    bytes = s.l >= 4 && place % s.l == s.l - 1 ? parity(must, s, 1, place + 1 - s.l, row) : 0;
    if (sent.row != bytes || (bytes && memcmp(b->s.out.row, must, bytes)))
        broken("the row that goes out");
    if (b->s.row.sequence != (uint16_t)(row.sequence + (bytes > 0)))
        broken("the sequence number of the rows");
    bytes = column_due(s, place, &start) ? parity(must, s, 0, start, column) : 0;
    if (sent.column != bytes || (bytes && memcmp(b->s.out.column, must, bytes)))
        broken("the column that goes out");
    if (b->s.column.sequence != (uint16_t)(column.sequence + (bytes > 0)))
        broken("the sequence number of the columns");
    if (cgv_sender_next(&b->s.sender) != (uint16_t)(s.first + place + 1))
        broken("the next number");
}

/* ---- the cases */

/* Three matrices and a row more, so that every column place was used twice, of each profile. */
static void profiles(void)
{
    size_t l, d, i, count = 0;
    for (l = 1; l <= CGV_L_MAX; l++)
        for (d = CGV_D_MIN; d <= CGV_D_MAX && l * d <= CGV_MATRIX_MAX; d++) {
            struct bench b = new_bench(l, UNIT * (1 + d % 3));
            opens("aligned", &b, (uint16_t)(FIRST + count), CGV_ALIGNED, l, d, UNIT * (1 + d % 3), 0);
            for (i = 0; i < 3 * l * d + l; i++)
                sends(&b, i);
            opens("staggered", &b, (uint16_t)(FIRST + count), (uint8_t)(d % 2 ? CGV_STAGGERED : 255), l, d, UNIT * (1 + d % 3), 0);
            for (i = 0; i < 3 * l * d + l; i++)
                sends(&b, i);
            count++;
            end_bench(&b);
        }
    if (count != 166)
        broken("the number of profiles");
}

/* More packets than there are numbers: where a matrix starts is not to be had from a number, since 15 does not divide 65,536. */
static void past_the_wrap(void)
{
    struct bench b = new_bench(3, UNIT);
    size_t i;
    opens("opens", &b, 3, CGV_STAGGERED, 3, 5, UNIT, 0);
    for (i = 0; i < 70000; i++)
        sends(&b, i);
    if (b.s.sender.taken != 70000 - 65536 || b.s.sender.at >= 45)
        broken("where a sender stands");
    end_bench(&b);
}

static void openings(void)
{
    struct bench b = new_bench(L, P);
    uint8_t g[CGV_MEDIA_HEADER + P];
    struct cgv_room whole;
    opens("L 21", &b, FIRST, 0, 21, 4, P, 1);
    offers("a sender value of zeros", &b, g, media(g, FIRST, 0, P), 0, 1);
    opens("L 0", &b, FIRST, 0, 0, 4, P, 1);
    opens("D 3", &b, FIRST, 0, L, 3, P, 1);
    opens("D 21", &b, FIRST, 0, 1, 21, P, 1);
    opens("L x D 105", &b, FIRST, 0, 5, 21, P, 1);
    opens("20 x 6", &b, FIRST, 0, 20, 6, P, 1);
    opens("the highest L and D", &b, FIRST, 0, SIZE_MAX, SIZE_MAX, P, 1);
    opens("P 187", &b, FIRST, 0, L, D, 187, 2);
    opens("P 0", &b, FIRST, 0, L, D, 0, 2);
    opens("the highest P", &b, FIRST, 0, L, D, SIZE_MAX, 2);
    opens("a larger P", &b, FIRST, 0, L, D, P + UNIT, 4);
    opens("a larger L", &b, FIRST, 0, L + 1, D, P, 4);
    whole = b.s.room;
    b.s.room.payloads_len = CGV_ROOM(L) * P - 1;
    opens("payloads a byte short", &b, FIRST, 0, L, D, P, 4);
    b.s.room = whole, b.s.room.timestamps_len = CGV_ROOM(L) - 1;
    opens("a timestamp short", &b, FIRST, 0, L, D, P, 4);
    b.s.room = whole, b.s.room.lengths_len = CGV_ROOM(L) - 1;
    opens("a length short", &b, FIRST, 0, L, D, P, 4);
    b.s.room = whole, b.s.room.longest_len = CGV_ROOM(L) - 1;
    opens("a longest length short", &b, FIRST, 0, L, D, P, 4);
    b.s.room = whole;
    opens("opens", &b, FIRST, 0, L, D, P, 0);
    sends(&b, 0);
    opens("refused while a stream is open", &b, 5, 0, L, 3, P, 1);
    sends(&b, 1);
    end_bench(&b);
}

/* A stream of L x D that has taken so many packets. */
static struct bench running(size_t packets)
{
    struct bench b = new_bench(L, P);
    size_t i;
    opens("opens", &b, FIRST, CGV_ALIGNED, L, D, P, 0);
    for (i = 0; i < packets; i++)
        sends(&b, i);
    return b;
}

static void bad_datagrams(void)
{
    struct bench b = running(35); /* with the next one a row and a column go out */
    uint8_t g[CGV_MEDIA_HEADER + P + UNIT];
    size_t len = media(g, FIRST, 35, P);
    memset(g + len, 0, sizeof g - len);
    offers("no byte", &b, g, 0, 0, 6);
    offers("11 bytes", &b, g, 11, 0, 6);
    g[0] = 0x40;
    offers("version 1", &b, g, len, 0, 7);
    g[0] = 0x90;
    offers("an extension", &b, g, len, 0, 7);
    g[0] = 0x80, g[1] = 0x80 | 33;
    offers("a marker", &b, g, len, 0, 7);
    g[1] = 96;
    offers("type 96", &b, g, len, 0, 8);
    offers("type 96, and a byte short", &b, g, len - 1, 0, 8);
    g[1] = 33;
    offers("no payload", &b, g, 12, 0, 9);
    offers("a byte short", &b, g, len - 1, 0, 9);
    offers("a byte long", &b, g, len + 1, 0, 9);
    offers("longer than P", &b, g, 12 + P + UNIT, 0, 9);
    media(g, FIRST, 34, P);
    offers("the last one again", &b, g, len, 0, 13);
    offers("the last one again, a byte short", &b, g, len - 1, 0, 9);
    offers("one left out", &b, g, media(g, FIRST, 36, P), 0, 13);
    media(g, FIRST, 35, P), g[2] ^= 0x80;
    offers("half the numbers ahead", &b, g, len, 0, 13);
    sends(&b, 35);
    end_bench(&b);
}

/* A buffer that is too short, at a call that writes to both outputs and at one that writes to none. */
static void short_buffers(void)
{
    static const size_t packets[] = {35, 36};
    size_t i, j;
    for (i = 0; i < 2; i++) {
        struct bench b = running(packets[i]);
        uint8_t g[CGV_MEDIA_HEADER + P];
        size_t len = media(g, FIRST, packets[i], P);
        struct cgv_stream whole = b.s;
        for (j = 0; j < 6; j++) {
            size_t *part[6];
            part[0] = &b.s.room.payloads_len, part[1] = &b.s.room.timestamps_len, part[2] = &b.s.room.lengths_len;
            part[3] = &b.s.room.longest_len, part[4] = &b.s.out.row_len, part[5] = &b.s.out.column_len;
            *part[j] = (j == 0 ? CGV_ROOM(L) * P : j < 4 ? CGV_ROOM(L) : CGV_PARITY_HEADER + P) - 1;
            offers("a part one short", &b, g, len, 0, 4);
            offers("a part one short, and a datagram of 11 bytes", &b, g, 11, 0, 4);
            b.s = whole;
        }
        sends(&b, packets[i]);
        end_bench(&b);
    }
}

/* Sender values that were made up, and longest lengths past P: in the room each is looked at, past it none. */
static void disorder(void)
{
    struct bench b = running(35);
    struct cgv_sender good = b.s.sender;
    uint8_t g[CGV_MEDIA_HEADER + P];
    size_t len = media(g, FIRST, 35, P), i;
    uint16_t old;
    b.s.sender.at = 3 * L * D;
    offers("past the profile", &b, g, len, 0, 5);
    offers("past the profile, and a datagram of 11 bytes", &b, g, 11, 0, 5);
    b.s.sender.at = SIZE_MAX;
    offers("the highest place", &b, g, len, 0, 5);
    b.s.sender = good, b.s.sender.d = SIZE_MAX;
    offers("the highest D", &b, g, len, 0, 1);
    b.s.sender = good, b.s.sender.p = UNIT;
    offers("a smaller P than the longest lengths", &b, g, len, 0, 5);
    b.s.sender = good, b.s.sender.p = SIZE_MAX;
    offers("the highest P", &b, g, len, 0, 2);
    b.s.sender = good, b.s.sender.taken++;
    offers("one more taken", &b, g, len, 0, 13);
    b.s.sender = good;
    for (i = 0; i < CGV_ROOM(L); i++) {
        old = b.s.room.longest[i];
        b.s.room.longest[i] = P + 1;
        offers("a longest length past P", &b, g, len, 0, 5);
        b.s.room.longest[i] = old;
    }
    for (i = CGV_ROOM(L); i < b.s.room.longest_len; i++)
        b.s.room.longest[i] = 65535;
    sends(&b, 35);
    end_bench(&b);
}

/* After a gap a stream is opened again; the parity streams number on. And through the call itself, each output has its own fields. */
static void a_gap(void)
{
    struct bench b = running(35);
    struct cgv_outer row = b.s.row, column = b.s.column;
    uint8_t g[CGV_MEDIA_HEADER + P], must[CGV_PARITY_HEADER + P];
    struct cgv_sent sent;
    size_t len = media(g, FIRST, 35, P);
    row.timestamp = 0xFEDCBA98u, column.timestamp = 1, column.ssrc = 0xFFFFFFFFu;
    sent = cgv_sender_media(b.s.sender, g, len, row, column, CGV_ROOM_ARGUMENTS(b.s.room), b.s.out.row, b.s.out.row_len, b.s.out.column,
                            b.s.out.column_len);
    answered("both go out", sent, 0);
    if (sent.row != parity(must, b.s.sender, 1, 32, row) || memcmp(b.s.out.row, must, sent.row))
        broken("a row with its own fields");
    if (sent.column != parity(must, b.s.sender, 0, 3, column) || memcmp(b.s.out.column, must, sent.column))
        broken("a column with its own fields");
    b.s.sender = sent.sender;
    offers("a gap", &b, g, media(g, FIRST, 40, P), 0, 13);
    opens("again", &b, (uint16_t)(FIRST + 40), CGV_STAGGERED, L, D, P, 0);
    if (b.s.row.sequence != row.sequence || b.s.column.sequence != column.sequence)
        broken("an opening changed the numbers of the parity streams");
    for (len = 0; len < 70; len++)
        sends(&b, len);
    end_bench(&b);
}

/* Transport packets of 204 bytes: other lengths are refused. */
static void units_of_204(void)
{
    static const size_t bad[] = {0, 188, 203, 205, 376, 407, 409, 816};
    struct bench b = new_bench(L, 612);
    uint8_t g[12 + 816];
    struct cgv_sent sent;
    size_t i;
    memset(g, 9, sizeof g);
    opens("opens", &b, 0, CGV_ALIGNED, L, D, 612, 0);
    for (i = 0; i < 4; i++) {
        size_t j;
        media(g, 0, i, UNIT);
        for (j = 0; j < sizeof bad / sizeof bad[0]; j++)
            offers("no whole units of 204", &b, g, 12 + bad[j], 0, 9);
        sent = offers("whole units of 204", &b, g, 12 + 204 * (1 + i % 2), 0, 0);
    }
    if (sent.row != 28 + 408 || b.s.out.row[14] || b.s.out.row[15])
        broken("a row of 204 and 408 bytes twice");
    end_bench(&b);
}

int main(void)
{
    static const int numbers[] = {0, 1, 2, 4, 5, 6, 7, 8, 9, 13};
    size_t i;
    for (spare = 0; spare <= SPARE; spare += SPARE) {
        openings();
        bad_datagrams();
        short_buffers();
        disorder();
        a_gap();
        units_of_204();
    }
    spare = 0;
    profiles();
    past_the_wrap();
    for (i = 0; i < sizeof numbers / sizeof numbers[0]; i++)
        if (!reached[numbers[i]])
            broken("a number was not reached");
    printf("C face of a sender: %zu calls, every number of it, all profiles, ok\n", calls);
    return 0;
}
