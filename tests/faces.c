/* The C face: every number of document 01 is reached through it, and 21 and 22, a refusal changes nothing that was lent, and nothing
 * is touched past a buffer's need. The buffers come from malloc with not a byte to spare, or with spare elements that are
 * watched; under valgrind a step past either is an error. Prints how many calls were made; exits 1 at the first difference. */
#include "congaveil.h"
#include <stdio.h>
#include <stdlib.h>
#include <string.h>

enum { L = 4, D = 4, P = 188, N = 16, K = 8, BASE = 65530, SPARE = 5, LONGEST = 3 * P, LARGEST = 4 * P };

static size_t calls, spare, spoilt; /* spoilt: what the next answer must say; then 0 again */
static int reached[CGV_NUMBERS];

struct bench {
    struct cgv_receiver r;
    struct cgv_store before;
};

static void *room(size_t bytes)
{
    void *p = malloc(bytes ? bytes : 1);
    if (!p)
        exit(2);
    memset(p, 0xA5, bytes);
    return p;
}

static struct cgv_store new_store(size_t n, size_t p, size_t k)
{
    struct cgv_store s;
    s.media_len = n * p + spare;
    s.timestamps_len = n + spare;
    s.lengths_len = n + spare;
    s.marks_len = n + spare;
    s.parity_len = k * p + spare;
    s.records_len = k + spare;
    s.media = room(s.media_len);
    s.timestamps = room(s.timestamps_len * sizeof *s.timestamps);
    s.lengths = room(s.lengths_len * sizeof *s.lengths);
    s.marks = room(s.marks_len);
    s.parity = room(s.parity_len);
    s.records = room(s.records_len * sizeof *s.records);
    return s;
}

static void copy_store(struct cgv_store *to, const struct cgv_store *from)
{
    memcpy(to->media, from->media, from->media_len);
    memcpy(to->timestamps, from->timestamps, from->timestamps_len * sizeof *from->timestamps);
    memcpy(to->lengths, from->lengths, from->lengths_len * sizeof *from->lengths);
    memcpy(to->marks, from->marks, from->marks_len);
    memcpy(to->parity, from->parity, from->parity_len);
    memcpy(to->records, from->records, from->records_len * sizeof *from->records);
}

static int same_record(const struct cgv_record *a, const struct cgv_record *b)
{
    return a->stream == b->stream && a->snbase == b->snbase && a->in_use == b->in_use &&
           a->timestamp_recovery == b->timestamp_recovery && a->length_recovery == b->length_recovery &&
           a->payload_length == b->payload_length;
}

static int same_from(const struct cgv_store *a, const struct cgv_store *b, size_t n, size_t p, size_t k)
{
    size_t i;
    for (i = k; i < a->records_len; i++)
        if (!same_record(&a->records[i], &b->records[i]))
            return 0;
    return !memcmp(a->media + n * p, b->media + n * p, a->media_len - n * p) &&
           !memcmp(a->timestamps + n, b->timestamps + n, (a->timestamps_len - n) * sizeof *a->timestamps) &&
           !memcmp(a->lengths + n, b->lengths + n, (a->lengths_len - n) * sizeof *a->lengths) &&
           !memcmp(a->marks + n, b->marks + n, a->marks_len - n) &&
           !memcmp(a->parity + k * p, b->parity + k * p, a->parity_len - k * p);
}

static int same_window(struct cgv_window a, struct cgv_window b)
{
    return a.base == b.base && a.ssrc == b.ssrc && a.l == b.l && a.d == b.d && a.p == b.p && a.n == b.n && a.k == b.k &&
           a.present == b.present && a.in_use == b.in_use;
}

static void free_store(struct cgv_store s)
{
    free(s.media);
    free(s.timestamps);
    free(s.lengths);
    free(s.marks);
    free(s.parity);
    free(s.records);
}

static struct bench new_bench(size_t n, size_t p, size_t k)
{
    struct bench b;
    memset(&b, 0, sizeof b);
    b.r.store = new_store(n, p, k);
    b.before = new_store(n, p, k);
    return b;
}

static void end_bench(struct bench *b)
{
    free_store(b->r.store);
    free_store(b->before);
}

static void fail(const char *what, struct cgv_answer a)
{
    fprintf(stderr, "%s: answered %u, count %zu, spoilt %zu\n", what, (unsigned)a.number, a.count, a.spoilt);
    exit(1);
}

static void broken(const char *what)
{
    fprintf(stderr, "not as it must be: %s\n", what);
    exit(1);
}

/* What must hold of every answer; w is the window value that went in, and only an accepted call that changes the store may
 * do so, and only within its need. */
static void check(const char *what, struct bench *b, struct cgv_window w, struct cgv_answer a, uint32_t number, size_t count,
                  int changes)
{
    int all = number || !changes;
    calls++;
    if (a.number != number || a.count != count || a.spoilt != spoilt)
        fail(what, a);
    spoilt = 0;
    reached[number] = 1;
    if (number && !same_window(a.window, w))
        fail("a refusal changed the window value", a);
    if (!same_from(&b->r.store, &b->before, all ? 0 : w.n, w.p, all ? 0 : w.k))
        fail("something was touched that is not to be", a);
}

/* What an opening leaves. */
static void all_zeros(const struct cgv_store *s, size_t n, size_t p, size_t k)
{
    static const struct cgv_record none;
    size_t i;
    for (i = 0; i < n * p; i++)
        if (s->media[i])
            broken("media after an opening");
    for (i = 0; i < n; i++)
        if (s->timestamps[i] || s->lengths[i] || s->marks[i])
            broken("positions after an opening");
    for (i = 0; i < k * p; i++)
        if (s->parity[i])
            broken("parity after an opening");
    for (i = 0; i < k; i++)
        if (!same_record(&s->records[i], &none))
            broken("records after an opening");
}

static void opens(const char *what, struct bench *b, size_t l, size_t d, size_t p, size_t n, size_t k, uint32_t number)
{
    struct cgv_window zeros;
    struct cgv_answer a;
    memset(&zeros, 0, sizeof zeros);
    copy_store(&b->before, &b->r.store);
    a = cgv_receiver_open(&b->r, BASE, l, d, p, n, k, 7);
    if (!number)
        zeros.n = n, zeros.p = p, zeros.k = k;
    check(what, b, zeros, a, number, 0, 1);
    if (!number)
        all_zeros(&b->r.store, n, p, k);
}

typedef struct cgv_answer (*offer_fn)(struct cgv_receiver *, const uint8_t *, size_t);

static void offers(const char *what, struct bench *b, offer_fn offer, const uint8_t *datagram, size_t len, uint32_t number, size_t count)
{
    struct cgv_window w = b->r.window;
    uint8_t *exact = room(len);
    memcpy(exact, datagram, len);
    copy_store(&b->before, &b->r.store);
    check(what, b, w, offer(&b->r, exact, len), number, count, 1);
    if (memcmp(exact, datagram, len)) {
        fprintf(stderr, "%s: the datagram was changed\n", what);
        exit(1);
    }
    free(exact);
}

/* ---- datagrams of a stretch whose packet of a number has this timestamp and these bytes */

static uint32_t stamp(uint16_t number) { return 3000u * number + 5; }
static uint8_t byte_of(uint16_t number, size_t i) { return (uint8_t)(number * 31u + i * 7u + (number >> 5)); }

static size_t rtp(uint8_t *g, uint8_t type, uint16_t number, uint32_t time)
{
    memset(g, 0, CGV_MEDIA_HEADER);
    g[0] = 0x80;
    g[1] = type;
    g[2] = (uint8_t)(number >> 8);
    g[3] = (uint8_t)number;
    g[4] = (uint8_t)(time >> 24);
    g[5] = (uint8_t)(time >> 16);
    g[6] = (uint8_t)(time >> 8);
    g[7] = (uint8_t)time;
    return CGV_MEDIA_HEADER;
}

/* In a window of the largest size packets have one to three transport packets, the rows of the first matrix 1 2 3 1, 3 1 2 3,
 * 2 3 1 2 and 1 2 3 1, so that every group has a longest one of three, which is less than P; else one. */
static size_t largest = P;

static size_t length_of(uint16_t number)
{
    size_t i = (uint16_t)(number - BASE);
    return largest == P ? P : P * (1 + (i + i / L) % 3);
}

static size_t media(uint8_t *g, uint16_t number)
{
    size_t i;
    rtp(g, 33, number, stamp(number));
    for (i = 0; i < length_of(number); i++)
        g[12 + i] = byte_of(number, i);
    return 12 + length_of(number);
}

static size_t parity(uint8_t *g, int row, uint16_t start)
{
    uint16_t offset = row ? 1 : L, na = row ? L : D, j;
    uint32_t t = 0;
    size_t i, length = 0, longest = 0;
    rtp(g, 96, 1, 2);
    memset(g + 12, 0, 16 + largest);
    for (j = 0; j < na; j++) {
        uint16_t number = (uint16_t)(start + j * offset);
        t ^= stamp(number);
        length ^= length_of(number);
        longest = length_of(number) > longest ? length_of(number) : longest;
        for (i = 0; i < length_of(number); i++)
            g[28 + i] ^= byte_of(number, i);
    }
    g[12] = (uint8_t)(start >> 8);
    g[13] = (uint8_t)start;
    g[14] = (uint8_t)(length >> 8);
    g[15] = (uint8_t)length;
    g[16] = 0x80;
    g[20] = (uint8_t)(t >> 24);
    g[21] = (uint8_t)(t >> 16);
    g[22] = (uint8_t)(t >> 8);
    g[23] = (uint8_t)t;
    g[24] = row ? 0x40 : 0;
    g[25] = (uint8_t)offset;
    g[26] = (uint8_t)na;
    return 28 + longest;
}

/* ---- the cases */

static void set_ups(void)
{
    struct bench b = new_bench(N, P, K);
    uint8_t g[28 + P];
    opens("L 21", &b, 21, 4, P, N, K, 1);
    offers("a window value of zeros", &b, cgv_receiver_media, g, media(g, BASE), 1, 0);
    opens("P 187", &b, L, D, 187, N, K, 2);
    opens("n 15", &b, L, D, P, 15, K, 3);
    opens("K 0", &b, L, D, P, N, 0, 3);
    opens("n 400", &b, L, D, P, 400, K, 4);
    b.r.store.records_len = K - 1;
    opens("K - 1 records", &b, L, D, P, N, K, 4);
    b.r.store.records_len = K + spare;
    b.r.store.lengths_len = N - 1;
    opens("n - 1 lengths", &b, L, D, P, N, K, 4);
    b.r.store.lengths_len = N + spare;
    opens("opens", &b, L, D, P, N, K, 0);
    offers("taken", &b, cgv_receiver_media, g, media(g, BASE), 0, 0);
    opens("refused while a window is open", &b, L, 3, P, N, K, 1);
    offers("the window is still open", &b, cgv_receiver_media, g, media(g, BASE), 14, 0);
    end_bench(&b);
}

/* The limits of the header are those that opening keeps to. */
static void limits(void)
{
    static const struct {
        size_t l, d, p, n, k;
        uint32_t number;
    } cases[] = {
        {CGV_L_MAX, CGV_MATRIX_MAX / CGV_L_MAX, CGV_PAYLOAD_MAX, CGV_POSITIONS_MAX, CGV_RECORDS_MAX, 0},
        {1, CGV_D_MIN, P, CGV_D_MIN, 1, 0},
        {1, CGV_D_MAX, P, CGV_D_MAX, 1, 0},
        {CGV_L_MAX + 1, CGV_D_MIN, P, CGV_POSITIONS_MAX, 1, 1},
        {1, CGV_D_MIN - 1, P, CGV_POSITIONS_MAX, 1, 1},
        {1, CGV_D_MAX + 1, P, CGV_POSITIONS_MAX, 1, 1},
        {CGV_MATRIX_MAX / CGV_D_MAX + 1, CGV_D_MAX, P, CGV_POSITIONS_MAX, 1, 1},
        {4, 4, CGV_PAYLOAD_MAX + 204, CGV_POSITIONS_MAX, 1, 2},
        {4, 4, P, CGV_POSITIONS_MAX + 1, 1, 3},
        {4, 4, P, CGV_POSITIONS_MAX, CGV_RECORDS_MAX + 1, 3}};
    struct cgv_receiver r;
    size_t i;
    memset(&r, 0, sizeof r);
    r.store = new_store(CGV_POSITIONS_MAX, CGV_PAYLOAD_MAX, CGV_RECORDS_MAX);
    for (i = 0; i < sizeof cases / sizeof cases[0]; i++) {
        calls++;
        if (cgv_receiver_open(&r, BASE, cases[i].l, cases[i].d, cases[i].p, cases[i].n, cases[i].k, 7).number != cases[i].number)
            broken("a limit of the header");
    }
    free_store(r.store);
}

/* The helpers that take no call: numbers of a datagram, positions, the payload where it lies. */
static void helpers(void)
{
    struct bench b = new_bench(N, P, K);
    uint8_t g[28 + P];
    uint16_t number = 1;
    char version[32];
    snprintf(version, sizeof version, "%d.%d.%d", CGV_VERSION_MAJOR, CGV_VERSION_MINOR, CGV_VERSION_PATCH);
    if (strcmp(version, CGV_VERSION))
        broken("CGV_VERSION");
    if (strcmp(cgv_message(9), "payload not whole transport packets up to the window's size") ||
        strcmp(cgv_message(11), "payload type recovery not the profile's") || strcmp(cgv_message(19), "not a number of this library") || !strcmp(cgv_message(17), cgv_message(19)) ||
        strcmp(cgv_message(18), "parity contradicts its group, all of which is present") ||
        strcmp(cgv_message(21), "not a proper capture file") || strcmp(cgv_message(22), "window moved by no position, or by more than it has") ||
        strcmp(cgv_message(CGV_NUMBERS), cgv_message(19)))
        broken("a number in words");
    opens("opens", &b, L, D, P, N, K, 0);
    offers("taken", &b, cgv_receiver_media, g, media(g, 2), 0, 0);
    if (cgv_media_number(g, 11, &number) || number != 1 || !cgv_media_number(g, 12, &number) || number != 2)
        broken("the number of a media datagram");
    if (cgv_position(&b.r.window, 2) != 8 || cgv_position(&b.r.window, BASE - 1) != 65535 || cgv_number(&b.r.window, 8) != 2 ||
        cgv_number(&b.r.window, 0) != BASE)
        broken("position and number");
    if (cgv_receiver_payload(&b.r, 2) != b.r.store.media + 8 * P || memcmp(cgv_receiver_payload(&b.r, 2), g + 12, P) ||
        cgv_receiver_payload(&b.r, 3) || cgv_receiver_payload(&b.r, BASE - 1))
        broken("the payload where it lies");
    b.r.store.lengths[9] = P; /* of a missing packet: it means nothing */
    if (cgv_receiver_length(&b.r, 2) != P || cgv_receiver_length(&b.r, 3) || cgv_receiver_length(&b.r, BASE - 1))
        broken("the length of a payload");
    b.r.store.lengths[8] = P + 1;
    if (cgv_receiver_length(&b.r, 2) != P)
        broken("a length above P");
    b.r.store.lengths[8] = P - 1;
    if (cgv_receiver_length(&b.r, 2) != P - 1)
        broken("a length below P");
    b.r.store.lengths_len = 8;
    if (cgv_receiver_length(&b.r, 2))
        broken("a length past the end of the part");
    b.r.store.lengths_len = N + spare;
    parity(g, 0, 0x1234);
    if (cgv_parity_snbase(g, 27, &number) || number != 2 || !cgv_parity_snbase(g, 28, &number) || number != 0x1234)
        broken("the SNBase of a parity datagram");
    b.r.store.media_len = 9 * P - 1;
    if (cgv_receiver_payload(&b.r, 2))
        broken("a payload past the end of the media part");
    b.r.window.p = 0;
    if (cgv_receiver_payload(&b.r, 2))
        broken("a payload of a window with P 0");
    b.r.window.p = SIZE_MAX;
    if (cgv_receiver_payload(&b.r, 2))
        broken("a payload of a window with the largest P");
    end_bench(&b);
}

static void media_offers(void)
{
    struct bench b = new_bench(N, P, K);
    uint8_t g[28 + P];
    size_t len = 12 + P;
    opens("opens", &b, L, D, P, N, K, 0);
    media(g, BASE);
    b.r.store.marks_len = N - 1;
    offers("n - 1 marks", &b, cgv_receiver_media, g, len, 4, 0);
    b.r.store.marks_len = N + spare;
    b.r.store.marks[3] = 2;
    offers("a mark of 2", &b, cgv_receiver_media, g, len, 5, 0);
    b.r.store.marks[3] = 0;
    b.r.store.lengths_len = N - 1;
    offers("n - 1 lengths", &b, cgv_receiver_media, g, len, 4, 0);
    b.r.store.lengths_len = N + spare;
    offers("11 bytes", &b, cgv_receiver_media, g, 11, 6, 0);
    g[0] = 0x40;
    offers("version 1", &b, cgv_receiver_media, g, len, 7, 0);
    g[0] = 0x80;
    g[1] = 96;
    offers("type 96", &b, cgv_receiver_media, g, len, 8, 0);
    g[1] = 33;
    offers("a byte short", &b, cgv_receiver_media, g, len - 1, 9, 0);
    offers("no payload", &b, cgv_receiver_media, g, 12, 9, 0);
    media(g, BASE - 1);
    offers("before the base", &b, cgv_receiver_media, g, len, 13, 0);
    media(g, BASE);
    offers("taken", &b, cgv_receiver_media, g, len, 0, 0);
    offers("again", &b, cgv_receiver_media, g, len, 14, 0);
    g[12 + P - 1] ^= 1;
    offers("and different", &b, cgv_receiver_media, g, len, 15, 0);
    end_bench(&b);
}

static void parity_offers(void)
{
    struct bench b = new_bench(N, P, K);
    uint8_t g[28 + P];
    size_t len = 28 + P;
    opens("opens", &b, L, D, P, N, 1, 0);
    parity(g, 0, BASE);
    offers("27 bytes", &b, cgv_receiver_column, g, 27, 6, 0);
    g[16] = 0;
    offers("E 0", &b, cgv_receiver_column, g, len, 10, 0);
    g[16] = 0x80 | 33;
    offers("PT recovery 33", &b, cgv_receiver_column, g, len, 11, 0);
    g[16] = 0x80;
    offers("no payload", &b, cgv_receiver_column, g, 28, 9, 0);
    offers("a column on the row port", &b, cgv_receiver_row, g, len, 12, 0);
    g[26] = 5, g[16] = 0x80 | 33;
    offers("NA 5 and the PT recovery that fits it", &b, cgv_receiver_column, g, len, 11, 0);
    g[16] = 0x80;
    offers("NA 5", &b, cgv_receiver_column, g, len, 12, 0);
    parity(g, 0, (uint16_t)(BASE + 4));
    offers("a member outside", &b, cgv_receiver_column, g, len, 13, 0);
    parity(g, 1, BASE);
    offers("held", &b, cgv_receiver_row, g, len, 0, 0);
    offers("again", &b, cgv_receiver_row, g, len, 14, 0);
    g[20] ^= 1;
    offers("and different", &b, cgv_receiver_row, g, len, 15, 0);
    g[20] ^= 1, g[15] ^= 1;
    offers("of another length recovery", &b, cgv_receiver_row, g, len, 15, 0);
    parity(g, 0, BASE);
    offers("no record free", &b, cgv_receiver_column, g, len, 16, 0);
    end_bench(&b);
}

/* What a parity packet whose group is present meets with a bit turned over, by the byte that the bit is in; of the SNBase of another
 * group the answer is that group's. */
static uint32_t told(const uint8_t *g, size_t bit, int row)
{
    uint8_t top = bit % 8 == 7;
    size_t start = (uint16_t)((g[12] << 8 | g[13]) - BASE);
    switch (bit / 8) {
    case 0: return CGV_BAD_RTP_HEADER;
    case 1: return top ? CGV_BAD_RTP_HEADER : CGV_BAD_PAYLOAD_TYPE;
    case 12:
    case 13: return start < (row ? N - L + 1 : L) ? CGV_CONTRADICTS : CGV_OUTSIDE;
    case 16: return top ? CGV_BAD_FEC_HEADER : CGV_BAD_RECOVERY;
    case 17:
    case 18:
    case 19:
    case 27: return CGV_BAD_FEC_HEADER;
    case 24: return bit % 8 == 6 ? CGV_BAD_SHAPE : CGV_BAD_FEC_HEADER;
    case 25:
    case 26: return CGV_BAD_SHAPE;
    default: return bit / 8 < 12 ? CGV_DONE : CGV_CONTRADICTS;
    }
}

/* A parity packet that finds its whole group present, with each of its bits turned over in turn, a transport packet longer and one shorter. */
static void lies(int row)
{
    struct bench b = new_bench(N, largest, K);
    offer_fn port = row ? cgv_receiver_row : cgv_receiver_column;
    uint8_t g[28 + LARGEST];
    size_t i, len;
    opens("opens", &b, L, D, largest, N, K, 0);
    for (i = 0; i < N; i++)
        offers("media", &b, cgv_receiver_media, g, media(g, (uint16_t)(BASE + i)), 0, 0);
    len = parity(g, row, (uint16_t)(BASE + 1));
    offers("as its group has it", &b, port, g, len, 0, 0);
    for (i = 0; i < 8 * len; i++) {
        g[i / 8] ^= (uint8_t)(1 << i % 8);
        offers("a bit turned over", &b, port, g, len, told(g, i, row), 0);
        g[i / 8] ^= (uint8_t)(1 << i % 8);
    }
    if (len < 28 + largest)
        offers("a transport packet longer, of zeros", &b, port, g, len + P, CGV_CONTRADICTS, 0);
    if (len > 28 + P)
        offers("a transport packet shorter", &b, port, g, len - P, CGV_CONTRADICTS, 0);
    offers("still as its group has it", &b, port, g, len, 0, 0);
    end_bench(&b);
}

/* With every record in use a lie meets 18 and not 16; where one is missing it is not seen, and rebuilds; then true parity meets 18, and the
 * true packet 15. */
static void lies_in_time(void)
{
    struct bench b = new_bench(N, P, K);
    uint8_t g[28 + P];
    size_t i, len = 28 + P;
    opens("opens", &b, L, D, P, N, 1, 0);
    for (i = 1; i < N; i++)
        if (i != 2 && i != 5 && i != 6)
            offers("media", &b, cgv_receiver_media, g, media(g, (uint16_t)(BASE + i)), 0, 0);
    parity(g, 0, (uint16_t)(BASE + 2));
    offers("held", &b, cgv_receiver_column, g, len, 0, 0);
    parity(g, 1, (uint16_t)(BASE + 4));
    offers("no record free", &b, cgv_receiver_row, g, len, CGV_FULL, 0);
    parity(g, 0, (uint16_t)(BASE + 3));
    g[28] ^= 1;
    offers("a lie, and no record free", &b, cgv_receiver_column, g, len, CGV_CONTRADICTS, 0);
    parity(g, 0, BASE);
    g[28] ^= 1;
    offers("a lie that rebuilds", &b, cgv_receiver_column, g, len, 0, 1);
    offers("media", &b, cgv_receiver_media, g, media(g, (uint16_t)(BASE + 2)), 0, 1);
    parity(g, 1, BASE);
    offers("true parity over a wrong packet", &b, cgv_receiver_row, g, len, CGV_CONTRADICTS, 0);
    offers("the true packet", &b, cgv_receiver_media, g, media(g, BASE), CGV_DIFFERS, 0);
    end_bench(&b);
}

/* The night: a column across the wrap, one packet lost; then case 11 of the bench, three rebuilt at a stroke. */
static void rebuilds(void)
{
    struct bench b = new_bench(N, largest, K);
    uint8_t g[28 + LARGEST], out[28 + LARGEST + 1], again[28 + LARGEST];
    struct cgv_answer a;
    size_t i, len;
    opens("opens", &b, L, D, largest, N, K, 0);
    for (i = 0; i < N; i++) {
        if (i == 0 || i == 1 || i == 4 || i == 5)
            continue;
        offers("media", &b, cgv_receiver_media, g, media(g, (uint16_t)(BASE + i)), 0, 0);
    }
    for (i = 0; i < 2; i++) {
        offers("column", &b, cgv_receiver_column, g, parity(g, 0, (uint16_t)(BASE + i)), 0, 0);
        offers("row", &b, cgv_receiver_row, g, parity(g, 1, (uint16_t)(BASE + 4 * i)), 0, 0);
    }
    copy_store(&b.before, &b.r.store);
    memset(out, 0xA5, sizeof out);
    a = cgv_receiver_read(&b.r, BASE, out, 12 + largest);
    check("reading a missing packet", &b, b.r.window, a, 17, 0, 0);
    a = cgv_receiver_write_column(&b.r, BASE, 7, 0, 0, out, 28 + largest);
    check("parity over a missing packet", &b, b.r.window, a, 17, 0, 0);
    a = cgv_receiver_read(&b.r, (uint16_t)(BASE + 2), out, 11 + largest);
    check("a short output", &b, b.r.window, a, 4, 0, 0);
    a = cgv_receiver_write_row(&b.r, (uint16_t)(BASE + 8), 7, 0, 0, out, 27 + largest);
    check("a short output for parity", &b, b.r.window, a, 4, 0, 0);
    for (i = 0; i < sizeof out; i++)
        if (out[i] != 0xA5)
            fail("a refusal wrote to the output", a);
    offers("case 11", &b, cgv_receiver_media, g, media(g, (uint16_t)(BASE + 5)), 0, 3);
    if (b.r.window.present != N || b.r.window.in_use != 0)
        fail("case 11: not all present", a);
    copy_store(&b.before, &b.r.store);
    for (i = 0; i < N; i++) {
        uint16_t number = (uint16_t)(BASE + i);
        memset(out, 0xA5, sizeof out);
        a = cgv_receiver_read(&b.r, number, out, sizeof out);
        len = media(again, number);
        check("reads", &b, b.r.window, a, 0, len, 0);
        again[11] = 7;
        if (memcmp(out, again, len) || out[len] != 0xA5 || out[sizeof out - 1] != 0xA5 || !cgv_receiver_has(&b.r, number) ||
            cgv_receiver_length(&b.r, number) != len - 12 || memcmp(cgv_receiver_payload(&b.r, number), again + 12, len - 12))
            fail("a packet read out is not the one sent", a);
        for (len -= 12; len < largest; len++)
            if (cgv_receiver_payload(&b.r, number)[len])
                fail("no zeros past a payload", a);
    }
    for (i = 0; i < 2; i++) {
        uint16_t start = (uint16_t)(BASE + 1);
        memset(out, 0xA5, sizeof out);
        a = i ? cgv_receiver_write_row(&b.r, start, 1, 2, 0, out, sizeof out) : cgv_receiver_write_column(&b.r, start, 1, 2, 0, out, sizeof out);
        len = parity(again, (int)i, start);
        check("writes", &b, b.r.window, a, 0, len, 0);
        if (memcmp(out, again, len) || out[len] != 0xA5 || out[sizeof out - 1] != 0xA5)
            fail("parity written is not that of the group", a);
    }
    end_bench(&b);
}

/* A window of the largest size in which all but position 0 is present, whose packet has one transport packet; the first four
 * positions have 1, 2, 3 and 1. */
static struct bench all_but_one(void)
{
    struct bench b = new_bench(N, largest, K);
    uint8_t g[28 + LARGEST];
    size_t i;
    opens("opens", &b, L, D, largest, N, K, 0);
    for (i = 1; i < N; i++)
        offers("media", &b, cgv_receiver_media, g, media(g, (uint16_t)(BASE + i)), 0, 0);
    return b;
}

static void xor_length(uint8_t *g, size_t by)
{
    g[14] ^= (uint8_t)(by >> 8);
    g[15] ^= (uint8_t)by;
}

/* Whether the bytes of a payload past a length are zeros up to the largest size. */
static int zeros_past(const uint8_t *payload, size_t length)
{
    for (; length < largest; length++)
        if (payload[length])
            return 0;
    return 1;
}

/* Parity that gives a packet which cannot be right, each way: taken in, not held, spoilt, and nothing of the store has changed. */
static void spoils(void)
{
    static const struct {
        const char *what;
        size_t length, longer, byte; /* the length that comes out; so much longer than its group; a byte that is another one, or 0 */
    } ways[] = {{"no bytes", 0, 0, 0},
                {"not whole transport packets", P + 1, 0, 0},
                {"a transport packet less a byte", P - 1, 0, 0},
                {"longer than the parity, and not than P", LONGEST + P, 0, 0},
                {"longer than P", LARGEST + P, P, 0},
                {"the highest length", 65535, 0, 0},
                {"the first byte past it", P, 0, P},
                {"the last byte of the parity", P, 0, LONGEST - 1},
                {"the last byte up to P", P, P, LARGEST - 1}};
    struct bench b = all_but_one();
    struct cgv_window w = b.r.window;
    uint8_t g[28 + LARGEST];
    size_t i, len;
    if (length_of(BASE) != P || length_of((uint16_t)(BASE + 2)) != LONGEST)
        broken("lengths of the test");
    b.r.store.timestamps[0] = 5, b.r.store.lengths[0] = 6;
    memset(b.r.store.media, 0x77, LARGEST);
    memset(b.r.store.parity, 0x77, K * LARGEST);
    b.r.store.records[0].snbase = 8; /* a free record, and what stands in it */
    for (i = 0; i < sizeof ways / sizeof ways[0]; i++) {
        len = parity(g, 1, BASE);
        xor_length(g, P ^ ways[i].length);
        if (ways[i].byte)
            g[28 + ways[i].byte] ^= 0x80;
        spoilt = 1;
        offers(ways[i].what, &b, cgv_receiver_row, g, len + ways[i].longer, 0, 0);
        if (!same_from(&b.r.store, &b.before, 0, 0, 0) || !same_window(b.r.window, w))
            broken("a spoilt offer changed the store");
    }
    len = parity(g, 1, BASE);
    xor_length(g, P);
    for (i = 0; i < P; i++)
        g[28 + i] ^= byte_of(BASE, i);
    spoilt = 1;
    offers("no bytes, and zeros past them", &b, cgv_receiver_row, g, len, 0, 0);
    len = parity(g, 1, BASE);
    spoilt = 1;
    offers("parity shorter than a packet of its group", &b, cgv_receiver_row, g, len - P, 0, 0);
    offers("longer than its group, by zeros", &b, cgv_receiver_row, g, len + P, 0, 1);
    if (cgv_receiver_length(&b.r, BASE) != P || b.r.store.media[0] != byte_of(BASE, 0) || !zeros_past(b.r.store.media, P))
        broken("the packet that was rebuilt");
    end_bench(&b);
}

/* In hand: a column that lies and a good row wait for the same packet; the column goes, and the row gives it. */
static void spoils_in_hand(void)
{
    struct bench b = new_bench(N, largest, K);
    uint8_t g[28 + LARGEST];
    size_t i, len;
    opens("opens", &b, L, D, largest, N, K, 0);
    memset(b.r.store.parity, 0x77, LARGEST);
    len = parity(g, 0, BASE);
    xor_length(g, 1);
    offers("a column that lies", &b, cgv_receiver_column, g, len, 0, 0);
    if (len != 28 + LONGEST || b.r.store.records[0].payload_length != LONGEST ||
        b.r.store.records[0].length_recovery != (g[14] << 8 | g[15]) || !zeros_past(b.r.store.parity, LONGEST))
        broken("the lengths of a record");
    memset(b.r.store.parity + LONGEST, 0x77, P);
    offers("again", &b, cgv_receiver_column, g, len, 14, 0);
    memset(g + len, 0, P);
    offers("again, and longer by zeros", &b, cgv_receiver_column, g, len + P, 15, 0);
    offers("a row", &b, cgv_receiver_row, g, parity(g, 1, BASE), 0, 0);
    for (i = 1; i < N; i++)
        if (i != 2 && i != 4)
            offers("media", &b, cgv_receiver_media, g, media(g, (uint16_t)(BASE + i)), 0, 0);
    spoilt = 1;
    offers("4: the column is spoilt", &b, cgv_receiver_media, g, media(g, (uint16_t)(BASE + 4)), 0, 0);
    if (b.r.window.in_use != 1 || b.r.store.records[0].payload_length || b.r.store.records[0].length_recovery || b.r.store.marks[0])
        broken("the column is released");
    if (!zeros_past(b.r.store.parity, 0))
        broken("the payload of the column is zeros");
    offers("2: the row rebuilds", &b, cgv_receiver_media, g, media(g, (uint16_t)(BASE + 2)), 0, 1);
    if (b.r.window.present != N || b.r.window.in_use != 0 || cgv_receiver_length(&b.r, BASE) != length_of(BASE))
        broken("the row gives the packet");
    end_bench(&b);
}

/* One media packet makes two ready at one position: the column comes first and is spoilt, and the search goes on with the row. */
static void spoils_and_rebuilds(void)
{
    struct bench b = new_bench(N, largest, K);
    uint8_t g[28 + LARGEST];
    size_t i, len;
    opens("opens", &b, L, D, largest, N, K, 0);
    for (i = 2; i < N; i++)
        if (i != 4)
            offers("media", &b, cgv_receiver_media, g, media(g, (uint16_t)(BASE + i)), 0, 0);
    len = parity(g, 0, BASE);
    xor_length(g, length_of(BASE + 4));
    offers("a column that lies", &b, cgv_receiver_column, g, len, 0, 0);
    offers("a row", &b, cgv_receiver_row, g, parity(g, 1, BASE), 0, 0);
    spoilt = 1;
    offers("0: one spoilt, one rebuilt", &b, cgv_receiver_media, g, media(g, BASE), 0, 1);
    if (b.r.window.present != N - 1 || b.r.window.in_use != 0 || cgv_receiver_has(&b.r, BASE + 4) || cgv_receiver_length(&b.r, BASE + 4) ||
        cgv_receiver_length(&b.r, BASE + 1) != length_of(BASE + 1))
        broken("4 stays missing, and 1 is rebuilt");
    end_bench(&b);
}

/* Kept lengths: of present positions and records in use they are good ones, of others they are not looked at; bytes past them
 * count as zero and stay. */
static void kept_lengths(void)
{
    static const uint16_t bad[] = {0, 1, P - 1, P + 1, 204, LARGEST + P, 65535};
    struct bench b = new_bench(N, largest, K);
    uint8_t g[28 + LARGEST], out[28 + LARGEST];
    struct cgv_answer a;
    size_t i, len;
    opens("opens", &b, L, D, largest, N, K, 0);
    offers("a column", &b, cgv_receiver_column, g, parity(g, 0, BASE), 0, 0);
    len = media(g, (uint16_t)(BASE + 3));
    memset(b.r.store.media + 3 * LARGEST, 0x77, LARGEST);
    offers("media", &b, cgv_receiver_media, g, len, 0, 0);
    if (b.r.store.lengths[3] != len - 12 || !zeros_past(b.r.store.media + 3 * LARGEST, len - 12))
        broken("a packet that is kept");
    for (i = 0; i < sizeof bad / sizeof bad[0]; i++) {
        b.r.store.lengths[3] = bad[i];
        offers("a length of a present position", &b, cgv_receiver_media, g, len, 5, 0);
        b.r.store.lengths[3] = (uint16_t)(len - 12);
        b.r.store.records[0].payload_length = bad[i];
        offers("a length of a record in use", &b, cgv_receiver_media, g, len, 5, 0);
        b.r.store.records[0].payload_length = LONGEST;
        b.r.store.lengths[4] = bad[i];
        b.r.store.records[1].payload_length = bad[i];
        b.r.store.records[0].length_recovery ^= bad[i];
        offers("other lengths", &b, cgv_receiver_media, g, len, 14, 0);
        b.r.store.records[0].length_recovery ^= bad[i];
    }
    memset(b.r.store.media + 3 * LARGEST + len - 12, 0xEE, LARGEST + 12 - len);
    offers("bytes past the length", &b, cgv_receiver_media, g, len, 14, 0);
    copy_store(&b.before, &b.r.store);
    a = cgv_receiver_read(&b.r, (uint16_t)(BASE + 3), out, sizeof out);
    check("reads", &b, b.r.window, a, 0, len, 0);
    memset(g + len, 0, P);
    if (len + P <= 12 + LARGEST)
        offers("longer by zeros", &b, cgv_receiver_media, g, len + P, 15, 0);
    else
        broken("lengths of the test");
    memset(b.r.store.parity + LONGEST, 0xEE, P);
    for (i = 4; i < N; i += 4) {
        offers("the column's others", &b, cgv_receiver_media, g, media(g, (uint16_t)(BASE + i)), 0, i == 12);
        memset(b.r.store.media + i * LARGEST + b.r.store.lengths[i], 0xEE, LARGEST - b.r.store.lengths[i]);
    }
    if (cgv_receiver_length(&b.r, BASE) != length_of(BASE) || !zeros_past(b.r.store.media, length_of(BASE)) ||
        b.r.store.media[4 * LARGEST + LARGEST - 1] != 0xEE)
        broken("a packet rebuilt from others with bytes past their lengths");
    for (i = 1; i < 3; i++)
        offers("the row's others", &b, cgv_receiver_media, g, media(g, (uint16_t)(BASE + i)), 0, 0);
    len = parity(g, 1, BASE);
    copy_store(&b.before, &b.r.store);
    a = cgv_receiver_write_row(&b.r, BASE, 1, 2, 0, out, sizeof out);
    check("writes", &b, b.r.window, a, 0, len, 0);
    if (memcmp(out, g, len))
        fail("parity over a packet with bytes past its length", a);
    end_bench(&b);
}

/* Of the other family, transport packets of 204 bytes: a row of 1, 2, 1 and 1 in a window of three, and its parity. */
static void units_of_204(void)
{
    static const size_t units[] = {1, 2, 1, 1}, bad[] = {0, 188, 203, 205, 376, 407, 409, 816};
    struct bench b = new_bench(N, 612, K);
    uint8_t g[12 + 816], row[28 + 612];
    size_t i;
    opens("opens", &b, L, D, 612, N, K, 0);
    memset(g, 9, sizeof g);
    for (i = 0; i < 4; i++) {
        rtp(g, 33, (uint16_t)(BASE + i), 0);
        offers("whole units of 204", &b, cgv_receiver_media, g, 12 + 204 * units[i], 0, 0);
        if (cgv_receiver_length(&b.r, (uint16_t)(BASE + i)) != 204 * units[i])
            broken("a length of the other family");
    }
    copy_store(&b.before, &b.r.store);
    check("the row", &b, b.r.window, cgv_receiver_write_row(&b.r, BASE, 1, 2, 3, row, sizeof row), 0, 28 + 408, 0);
    opens("opens again", &b, L, D, 612, N, K, 0);
    for (i = 1; i < 4; i++) {
        rtp(g, 33, (uint16_t)(BASE + i), 0);
        offers("the others", &b, cgv_receiver_media, g, 12 + 204 * units[i], 0, 0);
    }
    offers("the row", &b, cgv_receiver_row, row, 28 + 408, 0, 1);
    rtp(g, 33, BASE, 0);
    offers("the packet that it gave", &b, cgv_receiver_media, g, 12 + 204, 14, 0);
    for (i = 0; i < sizeof bad / sizeof bad[0]; i++)
        offers("no whole units of 204", &b, cgv_receiver_media, g, 12 + bad[i], 9, 0);
    end_bench(&b);
}

/* ---- moves */

static int zeros(const uint8_t *bytes, size_t len)
{
    while (len)
        if (bytes[--len])
            return 0;
    return 1;
}

/* What a move by so many positions must leave in the store, worked out from the one before: the window value after it. */
static struct cgv_window after_move(const struct bench *b, struct cgv_window w, size_t by)
{
    static const struct cgv_record none;
    const struct cgv_store *is = &b->r.store, *was = &b->before;
    size_t i, p = w.p;
    w.present = w.in_use = 0;
    for (i = 0; i < w.n; i++) {
        int stays = i + by < w.n;
        w.present += is->marks[i];
        if (stays ? memcmp(is->media + i * p, was->media + (i + by) * p, p) || is->timestamps[i] != was->timestamps[i + by] ||
                        is->lengths[i] != was->lengths[i + by] || is->marks[i] != was->marks[i + by]
                  : !zeros(is->media + i * p, p) || is->timestamps[i] || is->lengths[i] || is->marks[i])
            broken(stays ? "a position that moved down" : "a new position");
    }
    for (i = 0; i < w.k; i++) {
        const struct cgv_record *r = &was->records[i];
        int cut = r->in_use && (uint16_t)(r->snbase - w.base) < by; /* its first member is the one furthest back */
        w.in_use += is->records[i].in_use;
        if (!same_record(&is->records[i], cut ? &none : r) ||
            (cut ? !zeros(is->parity + i * p, p) : memcmp(is->parity + i * p, was->parity + i * p, p)))
            broken(cut ? "parity behind the new base" : "parity that stays in hand");
    }
    w.base = (uint16_t)(w.base + by);
    return w;
}

/* A move that is done, with so many packets written; what it wrote is what cgv_read gave of each before. */
static void moves(const char *what, struct bench *b, size_t by, size_t count)
{
    struct cgv_window w = b->r.window;
    size_t slot = CGV_MEDIA_HEADER + w.p, out_len = CGV_MOVE_ROOM(by, w.p) + spare, sizes_len = by + spare, i;
    uint8_t *out = room(out_len), *again = room(slot);
    uint16_t *sizes = room(sizes_len * sizeof *sizes);
    struct cgv_receiver old;
    copy_store(&b->before, &b->r.store);
    old.window = w;
    old.store = b->before;
    check(what, b, w, cgv_receiver_move(&b->r, by, out, out_len, sizes, sizes_len), 0, count, 1);
    for (i = 0; i < by; i++) {
        struct cgv_left left = cgv_receiver_left(&b->r, by, i, out, out_len, sizes, sizes_len);
        size_t len = cgv_receiver_read(&old, cgv_number(&w, i), again, slot).count;
        if (sizes[i] != len || memcmp(out + i * slot, again, len) || !zeros(out + i * slot + len, slot - len))
            broken("a packet that left");
        if (left.number != cgv_number(&w, i) || left.len != len || left.datagram != (len ? out + i * slot : NULL))
            broken("the walk over what left");
        count -= len != 0;
    }
    for (i = by * slot; i < out_len; i++)
        if (out[i] != 0xA5)
            broken("an output past the packets that left");
    for (i = by; i < sizes_len; i++)
        if (sizes[i] != 0xA5A5)
            broken("sizes past the packets that left");
    if (count || !same_window(b->r.window, after_move(b, w, by)))
        broken("the window value after a move");
    free(out);
    free(again);
    free(sizes);
}

/* A move that is refused, with outputs of these lengths; nothing of them is written. */
static void no_move(const char *what, struct bench *b, size_t by, size_t out_len, size_t sizes_len, uint32_t number)
{
    uint8_t *out = room(out_len);
    uint16_t *sizes = room(sizes_len * sizeof *sizes);
    struct cgv_window w = b->r.window;
    size_t i;
    copy_store(&b->before, &b->r.store);
    check(what, b, w, cgv_receiver_move(&b->r, by, out, out_len, sizes, sizes_len), number, 0, 1);
    for (i = 0; i < out_len; i++)
        if (out[i] != 0xA5)
            broken("a refused move wrote to the output");
    for (i = 0; i < sizes_len; i++)
        if (sizes[i] != 0xA5A5)
            broken("a refused move wrote sizes");
    free(out);
    free(sizes);
}

/* Two matrices with losses, and parity in hand in three records: a row at 0, a row at 20 and a column at 1. Missing positions have old
 * bytes. */
static struct bench two_matrices(void)
{
    struct bench b = new_bench(2 * N, largest, K);
    uint8_t g[28 + LARGEST];
    size_t i;
    opens("opens", &b, L, D, largest, 2 * N, K, 0);
    for (i = 0; i < 2 * N; i++)
        if (i != 0 && i != 1 && i != 5 && (i < 20 || i > 22))
            offers("media", &b, cgv_receiver_media, g, media(g, (uint16_t)(BASE + i)), 0, 0);
    offers("row 0", &b, cgv_receiver_row, g, parity(g, 1, BASE), 0, 0);
    offers("row 20", &b, cgv_receiver_row, g, parity(g, 1, (uint16_t)(BASE + 20)), 0, 0);
    offers("column 1", &b, cgv_receiver_column, g, parity(g, 0, (uint16_t)(BASE + 1)), 0, 0);
    memset(b.r.store.media + 5 * largest, 0x5A, largest);
    memset(b.r.store.media + 20 * largest, 0x5B, largest);
    b.r.store.timestamps[5] = 77, b.r.store.lengths[20] = 99;
    return b;
}

/* The stream goes on: parity is released when its first member is behind the base, and what stays in hand rebuilds later on. */
static void moving(void)
{
    struct bench b = two_matrices();
    uint8_t g[28 + LARGEST];
    moves("by 1, past a missing packet", &b, 1, 0);
    if (b.r.window.in_use != 2 || b.r.store.records[0].in_use || !b.r.store.records[1].in_use || !b.r.store.records[2].in_use)
        broken("the row at 0 is released, and no other");
    moves("by 1, past another", &b, 1, 0);
    if (b.r.window.in_use != 1 || b.r.store.records[2].in_use)
        broken("the column at 1 is released");
    moves("by 3", &b, 3, 3);
    offers("a packet behind the base", &b, cgv_receiver_media, g, media(g, (uint16_t)(BASE + 4)), 13, 0);
    offers("a row with a member there", &b, cgv_receiver_row, g, parity(g, 1, (uint16_t)(BASE + 4)), 13, 0);
    offers("a new position", &b, cgv_receiver_media, g, media(g, (uint16_t)(BASE + 36)), 0, 0);
    offers("past the new end", &b, cgv_receiver_media, g, media(g, (uint16_t)(BASE + 37)), 13, 0);
    offers("media", &b, cgv_receiver_media, g, media(g, (uint16_t)(BASE + 20)), 0, 0);
    offers("the row in hand rebuilds", &b, cgv_receiver_media, g, media(g, (uint16_t)(BASE + 21)), 0, 1);
    media(g, (uint16_t)(BASE + 22));
    if (cgv_receiver_length(&b.r, (uint16_t)(BASE + 22)) != length_of((uint16_t)(BASE + 22)) ||
        memcmp(cgv_receiver_payload(&b.r, (uint16_t)(BASE + 22)), g + 12, length_of((uint16_t)(BASE + 22))))
        broken("what was rebuilt after a move");
    moves("by n - 1", &b, 2 * N - 1, 26);
    moves("by n", &b, 2 * N, 1);
    all_zeros(&b.r.store, 2 * N, largest, K);
    moves("by n, of an empty window", &b, 2 * N, 0);
    offers("the window goes on", &b, cgv_receiver_media, g, media(g, (uint16_t)(BASE + 5 + 6 * N - 1)), 0, 0);
    end_bench(&b);
    b = two_matrices();
    moves("by n at once", &b, 2 * N, 2 * N - 6);
    all_zeros(&b.r.store, 2 * N, largest, K);
    end_bench(&b);
}

/* Each refusal of a move, and which of two comes first. */
static void refused_moves(void)
{
    struct bench b = two_matrices();
    const struct cgv_window w = b.r.window;
    const size_t most = CGV_MOVE_ROOM(2 * N, largest), few = CGV_MOVE_ROOM(3, largest);
    size_t *const parts[] = {&b.r.store.media_len, &b.r.store.timestamps_len, &b.r.store.lengths_len,
                             &b.r.store.marks_len, &b.r.store.parity_len, &b.r.store.records_len};
    size_t i;
    no_move("by 0", &b, 0, most, 2 * N, 22);
    no_move("by n + 1", &b, 2 * N + 1, most + 12 + largest, 2 * N + 1, 22);
    no_move("by the most", &b, SIZE_MAX, most, 2 * N, 22);
    no_move("22 before a short output", &b, 2 * N + 1, 0, 0, 22);
    no_move("a short output", &b, 3, few - 1, 3, 4);
    no_move("sizes too few", &b, 3, few, 2, 4);
    no_move("no output", &b, 1, 0, 0, 4);
    for (i = 0; i < sizeof parts / sizeof parts[0]; i++) {
        *parts[i] -= spare + 1;
        no_move("a short part", &b, 3, few, 3, 4);
        no_move("22 before a short part", &b, 0, few, 3, 22);
        *parts[i] += spare + 1;
    }
    b.r.store.marks[31] = 2;
    no_move("a mark of 2", &b, 3, few, 3, 5);
    no_move("a short output before disorder", &b, 3, few - 1, 3, 4);
    b.r.store.marks[31] = 1;
    b.r.window.present--;
    no_move("a wrong count", &b, 3, few, 3, 5);
    b.r.window = w;
    b.r.window.l = 0;
    no_move("1 before 22", &b, 0, few, 3, 1);
    b.r.window = w;
    b.r.window.p++;
    no_move("2 before 22", &b, 0, few, 3, 2);
    b.r.window = w;
    b.r.window.n = N - 1;
    no_move("3 before 22", &b, 0, few, 3, 3);
    b.r.window = w;
    moves("and then it moves", &b, 3, 1);
    end_bench(&b);
}

/* Which datagrams a window moves on for: those that are past its end by less than n, at their number or with the last of their group. */
static void ahead(void)
{
    static const struct {
        uint16_t position;
        int is;
    } cases[] = {{0, 0}, {N - 1, 0}, {N, 1}, {2 * N - 1, 1}, {2 * N, 0}, {65535, 0}};
    struct cgv_receiver r;
    uint8_t g[28 + P];
    size_t i, len;
    memset(&r, 0, sizeof r);
    media(g, BASE);
    if (cgv_receiver_ahead(&r, CGV_PORT_MEDIA, g, 12 + P))
        broken("no window is behind");
    r.window.base = BASE, r.window.l = L, r.window.d = D, r.window.n = N;
    for (i = 0; i < sizeof cases / sizeof cases[0]; i++) {
        uint16_t number = (uint16_t)(BASE + cases[i].position);
        len = media(g, number);
        if (cgv_receiver_ahead(&r, CGV_PORT_MEDIA, g, len) != cases[i].is || cgv_receiver_ahead(&r, CGV_PORT_ROW, g, len))
            broken("media ahead of the window");
        len = parity(g, 1, (uint16_t)(number - (L - 1)));
        if (cgv_receiver_ahead(&r, CGV_PORT_ROW, g, len) != cases[i].is || cgv_receiver_ahead(&r, CGV_PORT_MEDIA, g, len))
            broken("a row ahead of the window");
        len = parity(g, 0, (uint16_t)(number - (D - 1) * L));
        if (cgv_receiver_ahead(&r, CGV_PORT_COLUMN, g, len) != cases[i].is)
            broken("a column ahead of the window");
    }
    media(g, (uint16_t)(BASE + N));
    r.window.n = SIZE_MAX;
    if (cgv_receiver_ahead(&r, CGV_PORT_MEDIA, g, 12))
        broken("a window that was made up");
    r.window.n = N;
    if (!cgv_receiver_ahead(&r, CGV_PORT_MEDIA, g, 12) || cgv_receiver_ahead(&r, CGV_PORT_MEDIA, g, 11))
        broken("a media packet too short to be judged");
    parity(g, 1, (uint16_t)(BASE + N));
    if (!cgv_receiver_ahead(&r, CGV_PORT_ROW, g, 28) || cgv_receiver_ahead(&r, CGV_PORT_ROW, g, 27))
        broken("a parity packet too short to be judged");
    g[0] ^= 0x10;
    if (cgv_receiver_ahead(&r, CGV_PORT_ROW, g, 28))
        broken("another RTP header");
    g[0] ^= 0x10, g[1] ^= 0x80;
    if (cgv_receiver_ahead(&r, CGV_PORT_ROW, g, 28))
        broken("a marker");
}

/* The walk over what left gives nothing that is not there, whatever stands in the window value and the sizes. */
static void walks(void)
{
    static const struct cgv_receiver none;
    struct cgv_receiver r = none;
    uint8_t *out = room(3 * (12 + P));
    uint16_t sizes[3] = {12 + P, 13 + P, 0};
    struct cgv_left left;
    r.window.p = P;
    r.window.base = 1;
    left = cgv_receiver_left(&r, 3, 0, out, 3 * (12 + P), sizes, 3);
    if (left.number != 65534 || left.datagram != out || left.len != 12 + P)
        broken("the first that left, across the wrap");
    left = cgv_receiver_left(&r, 3, 1, out, 3 * (12 + P), sizes, 3);
    if (left.number != 65535 || left.datagram || left.len)
        broken("a size past the room of a packet");
    left = cgv_receiver_left(&r, 3, 2, out, 3 * (12 + P), sizes, 3);
    if (left.number != 0 || left.datagram || left.len)
        broken("one that was missing");
    sizes[2] = 12 + P;
    if (cgv_receiver_left(&r, 2, 2, out, 3 * (12 + P), sizes, 3).datagram || cgv_receiver_left(&r, 3, 2, out, 3 * (12 + P) - 1, sizes, 3).datagram ||
        cgv_receiver_left(&r, 3, 2, out, 3 * (12 + P), sizes, 2).datagram || cgv_receiver_left(&r, SIZE_MAX, SIZE_MAX - 1, out, 3 * (12 + P), sizes, 3).datagram)
        broken("one that did not leave, or is not in the output");
    r.window.p = CGV_PAYLOAD_MAX + 1;
    if (cgv_receiver_left(&r, 3, 0, out, SIZE_MAX, sizes, 3).datagram)
        broken("a payload size past the largest");
    r.window.p = SIZE_MAX - 11;
    if (cgv_receiver_left(&r, 3, 0, out, SIZE_MAX, sizes, 3).datagram)
        broken("a payload size that wraps");
    free(out);
}

/* ---- capture files */

/* The file of the request: one entry for the media port, of two bytes. */
static const uint8_t example[] = {0, 1, 4, 4, 0, 188, 0xFF, 0xFA, 0, 16, 0, 8, 1, 0, 0, 2, 0, 0, 0, 20, 0xAB, 0xCD};

/* What is to be written, as a caller lends it; the lengths in elements. */
struct content {
    uint16_t base;
    size_t l, d, p, n, k;
    uint8_t *ports;
    uint16_t *lengths;
    uint8_t *bodies;
    size_t ports_len, lengths_len, bodies_len;
};

/* So many entries of this length, with ports in turn, in buffers that have not a byte to spare. */
static struct content new_content(size_t entries, size_t length)
{
    struct content c = {BASE, L, D, P, N, K, NULL, NULL, NULL, 0, 0, 0};
    size_t i;
    c.ports_len = c.lengths_len = entries;
    c.bodies_len = entries * length;
    c.ports = room(entries);
    c.lengths = room(entries * sizeof *c.lengths);
    c.bodies = room(c.bodies_len);
    for (i = 0; i < entries; i++)
        c.ports[i] = (uint8_t)(1 + i % 3), c.lengths[i] = (uint16_t)length;
    for (i = 0; i < c.bodies_len; i++)
        c.bodies[i] = byte_of((uint16_t)length, i);
    return c;
}

static void end_content(struct content *c)
{
    free(c->ports);
    free(c->lengths);
    free(c->bodies);
}

static struct cgv_written writes_to(const struct content *c, uint8_t *out, size_t out_len)
{
    calls++;
    return cgv_capture_write(c->base, c->l, c->d, c->p, c->n, c->k, c->ports, c->ports_len, c->lengths, c->lengths_len, c->bodies,
                             c->bodies_len, out, out_len);
}

/* A content that is refused, with room for it and without. */
static void no_content(const char *what, const struct content *c)
{
    uint8_t out[64];
    size_t len, i;
    memset(out, 0xA5, sizeof out);
    for (len = 0; len <= sizeof out; len += sizeof out) {
        struct cgv_written w = writes_to(c, out, len);
        if (w.number != CGV_BAD_CAPTURE || w.count)
            broken(what);
    }
    for (i = 0; i < sizeof out; i++)
        if (out[i] != 0xA5)
            broken("a refusal wrote to the output");
    reached[CGV_BAD_CAPTURE] = 1;
}

/* The file of a content, with not a byte to spare; with one byte less it is refused, and bytes to spare stay as they are. */
static uint8_t *file_of(const struct content *c, size_t len)
{
    uint8_t *out = room(len + spare), *shorter = room(len);
    struct cgv_written w = writes_to(c, out, len + spare);
    size_t i;
    if (w.number != CGV_DONE || w.count != len)
        broken("a file is written");
    for (i = 0; i < spare; i++)
        if (out[len + i] != 0xA5)
            broken("the output past a file");
    w = writes_to(c, shorter, len - 1);
    if (w.number != CGV_SHORT_BUFFER || w.count)
        broken("an output that is a byte too short");
    for (i = 0; i < len; i++)
        if (shorter[i] != 0xA5)
            broken("a short output was written");
    free(shorter);
    return out;
}

/* The answer to a file that is read in pieces of this size, each in a buffer of its own. */
static uint32_t read_by(const uint8_t *file, size_t len, size_t size)
{
    struct cgv_reading a = {CGV_DONE, CGV_CAPTURE_START};
    size_t at = 0, piece;
    do {
        int refused = a.reader.stage == CGV_CAPTURE_REFUSED;
        piece = len - at < size ? len - at : size;
        {
            uint8_t *exact = room(piece);
            memcpy(exact, file + at, piece);
            a = cgv_capture_read(a.reader, exact, piece);
            free(exact);
        }
        at += piece;
        calls++;
        if (refused && (a.number != CGV_BAD_CAPTURE || a.reader.stage != CGV_CAPTURE_REFUSED))
            broken("a refused reading that goes on");
    } while (at < len);
    if (a.number == CGV_DONE && a.reader.stage == CGV_CAPTURE_REFUSED)
        broken("a whole file in a refused stage");
    return a.number;
}

/* A file is judged alike in one piece, byte by byte and in pieces of seven. */
static void judged(const char *what, const uint8_t *file, size_t len, uint32_t number)
{
    if (read_by(file, len, len) != number || read_by(file, len, 1) != number || read_by(file, len, 7) != number)
        broken(what);
}

/* An entry from a front of just so many bytes. */
static struct cgv_entry entry_of(const uint8_t *file, size_t len, size_t i)
{
    uint8_t *front = room(len);
    struct cgv_entry e;
    memcpy(front, file, len);
    e = cgv_capture_entry(front, len, i);
    free(front);
    calls++;
    return e;
}

static int no_header(struct cgv_capture h)
{
    return h.number == CGV_BAD_CAPTURE && !h.base && !h.count && !h.l && !h.d && !h.p && !h.n && !h.k;
}

static int no_entry(struct cgv_entry e) { return e.number == CGV_BAD_CAPTURE && !e.port && !e.start && !e.length; }

/* Every entry of a file is the content's: from a front that ends with its line, and from the whole file; a byte less is refused. */
static void walked(const struct content *c, const uint8_t *file, size_t len)
{
    struct cgv_capture h = cgv_capture_header(file, 12);
    size_t i, start = 0, line;
    calls++;
    if (h.number != CGV_DONE || h.count != c->ports_len || h.base != c->base || h.l != c->l || h.d != c->d || h.p != c->p || h.n != c->n ||
        h.k != c->k)
        broken("the header of a file");
    for (i = 0; i < c->ports_len; i++) {
        struct cgv_entry e = cgv_capture_entry(file, len, i);
        line = 12 + 8 * (i + 1);
        if (e.number != CGV_DONE || e.port != c->ports[i] || e.length != c->lengths[i] || e.start != 12 + 8 * c->ports_len + start)
            broken("an entry of a file");
        if (memcmp(cgv_capture_body(file, len, e), c->bodies + start, e.length))
            broken("the body of an entry");
        if (entry_of(file, line, i).start != e.start || !no_entry(entry_of(file, line - 1, i)))
            broken("an entry of the front of a file");
        start += e.length;
        calls++;
    }
    if (!no_entry(entry_of(file, len, i)) || !no_entry(entry_of(file, len, SIZE_MAX)) || !no_entry(entry_of(file, len, SIZE_MAX / 8 + 1)))
        broken("an entry past the last");
}

/* The request's example both ways, cut anywhere and with each byte another one. */
static void example_file(void)
{
    struct content c = new_content(1, 2);
    uint8_t *file, wrong[sizeof example + 1];
    size_t i;
    c.bodies[0] = 0xAB, c.bodies[1] = 0xCD;
    file = file_of(&c, sizeof example);
    if (memcmp(file, example, sizeof example))
        broken("the example of the request");
    walked(&c, file, sizeof example);
    for (i = 0; i < sizeof example; i++)
        judged("a file that is cut", example, i, CGV_BAD_CAPTURE);
    judged("the example", example, sizeof example, CGV_DONE);
    for (i = 0; i < sizeof example; i++) {
        int any = (i >= 2 && i < 12) || i >= 20 || i == 12; /* set-up and body may be anything, and the port is 2 */
        memcpy(wrong, example, sizeof example);
        wrong[i] ^= 3;
        judged("a byte that is another one", wrong, sizeof example, any ? CGV_DONE : CGV_BAD_CAPTURE);
    }
    memcpy(wrong, example, sizeof example);
    wrong[sizeof example] = 0;
    judged("a byte after the last body", wrong, sizeof wrong, CGV_BAD_CAPTURE);
    for (i = 0; i < 256; i++) {
        wrong[12] = (uint8_t)i;
        judged("a port", wrong, sizeof example, i >= 1 && i <= 3 ? CGV_DONE : CGV_BAD_CAPTURE);
    }
    free(file);
    end_content(&c);
}

/* What is not the content of a file: each limit from both sides. */
static void contents(void)
{
    struct content c = new_content(2, 3), good = c;
    size_t i, *sizes[] = {&c.l, &c.d, &c.p, &c.n, &c.k};
    for (i = 0; i < 5; i++) {
        size_t most = i < 2 ? 255 : 65535;
        uint8_t *file;
        *sizes[i] = most;
        file = file_of(&c, 34);
        walked(&c, file, 34);
        free(file);
        *sizes[i] = most + 1;
        no_content("a number that its field cannot hold", &c);
        *sizes[i] = SIZE_MAX;
        no_content("the highest number", &c);
        c = good;
    }
    c.ports[1] = 0;
    no_content("port 0", &c);
    c.ports[1] = 4;
    no_content("port 4", &c);
    c.ports[1] = 2;
    for (c.bodies_len = 3; c.bodies_len <= 6; c.bodies_len += 3) {
        c.ports_len = 1, c.lengths_len = 2;
        no_content("a port less than lengths", &c);
        c.ports_len = 2, c.lengths_len = 1;
        no_content("a length less than ports", &c);
    }
    c = good;
    c.lengths[1] = 4;
    no_content("bodies a byte too short", &c);
    c.lengths[1] = 2;
    no_content("bodies a byte too long", &c);
    end_content(&c);
}

/* Files of this many entries of this length: written and read back, or refused. */
static void sizes(size_t entries, size_t length, int good)
{
    struct content c = new_content(entries, length);
    size_t len = 12 + entries * (8 + length);
    if (good) {
        uint8_t *file = file_of(&c, len);
        if (read_by(file, len, len) || read_by(file, len, 4096))
            broken("a file that was written is whole");
        walked(&c, file, len);
        free(file);
    } else
        no_content("more entries, or a longer body, than a file has", &c);
    end_content(&c);
}

/* A file of so many empty entries, that nobody wrote. */
static void empty_entries(size_t entries, uint32_t number)
{
    size_t len = 12 + 8 * entries, i;
    uint8_t *file = room(len);
    struct cgv_capture h;
    memcpy(file, example, 12);
    file[0] = (uint8_t)(entries >> 8), file[1] = (uint8_t)entries;
    for (i = 0; i < entries; i++) {
        const uint8_t line[8] = {1, 0, 0, 0, 0, 0, (uint8_t)(len >> 8), (uint8_t)len};
        memcpy(file + 12 + 8 * i, line, sizeof line);
    }
    judged("a file of empty entries", file, len, number);
    h = cgv_capture_header(file, len);
    calls++;
    if (number ? !no_header(h) || !no_entry(entry_of(file, len, 0)) : h.count != entries || no_entry(entry_of(file, len, entries - 1)))
        broken("the header of empty entries");
    free(file);
}

/* A file of two entries, of this length and empty, whose second start is so many bytes off. */
static void second_start(const char *what, size_t length, int off, uint32_t number)
{
    uint8_t file[12 + 16 + CGV_BODY_MAX + 2];
    size_t start = 28 + length + (size_t)off;
    const uint8_t lines[16] = {1, 0, (uint8_t)(length >> 8), (uint8_t)length, 0, 0, 0, 28, 2, 0, 0, 0, 0, 0, (uint8_t)(start >> 8), (uint8_t)start};
    memset(file, 0, sizeof file);
    memcpy(file, example, 12);
    memcpy(file + 12, lines, sizeof lines);
    file[1] = 2;
    judged(what, file, 28 + length, number);
    judged(what, file, 28 + length + 1, CGV_BAD_CAPTURE);
}

/* Fronts that are too short for a header, and readers that no reading has. */
static void fronts_and_readers(void)
{
    struct cgv_reader r = CGV_CAPTURE_START;
    size_t i;
    for (i = 0; i < 12; i++) {
        uint8_t *front = room(i);
        memcpy(front, example, i);
        if (!no_header(cgv_capture_header(front, i)))
            broken("a front without a header");
        free(front);
        calls++;
    }
    for (i = 0; i < 2; i++) {
        r.stage = i ? UINT32_MAX : CGV_CAPTURE_REFUSED;
        if (cgv_capture_read(r, example, sizeof example).reader.stage != CGV_CAPTURE_REFUSED || cgv_capture_read(r, example, 0).number != CGV_BAD_CAPTURE)
            broken("a refused reader, or one of no stage");
        calls += 2;
    }
}

/* A body is given only where it lies within the file. */
static void bodies(void)
{
    struct cgv_entry e = {CGV_DONE, 1, 20, 2};
    if (cgv_capture_body(example, sizeof example, e) != example + 20 || cgv_capture_body(example, sizeof example - 1, e))
        broken("the body of an entry where it lies");
    e.length = 0, e.start = sizeof example;
    if (cgv_capture_body(example, sizeof example, e) != example + sizeof example || cgv_capture_body(example, sizeof example - 1, e))
        broken("an empty body at the end");
    e.length = SIZE_MAX, e.start = 20;
    if (cgv_capture_body(example, sizeof example, e))
        broken("a body of the highest length");
    e.start = SIZE_MAX, e.length = 20;
    if (cgv_capture_body(example, sizeof example, e))
        broken("a body from the highest start");
    e.start = 20, e.length = 2, e.number = CGV_BAD_CAPTURE;
    if (cgv_capture_body(example, sizeof example, e))
        broken("the body of a refused entry");
}

static void captures(void)
{
    if (CGV_CAPTURE_FRONT_MAX != 12 + 8 * CGV_ENTRIES_MAX || CGV_CAPTURE_MAX != CGV_CAPTURE_FRONT_MAX + CGV_ENTRIES_MAX * CGV_BODY_MAX)
        broken("the sizes of a capture file");
    example_file();
    contents();
    fronts_and_readers();
    bodies();
    empty_entries(CGV_ENTRIES_MAX, CGV_DONE);
    empty_entries(CGV_ENTRIES_MAX + 1, CGV_BAD_CAPTURE);
    second_start("a body of a byte", 1, 0, CGV_DONE);
    second_start("bodies that overlap", 1, -1, CGV_BAD_CAPTURE);
    second_start("bodies with a gap", 1, 1, CGV_BAD_CAPTURE);
    second_start("a start past a byte", 1, 256, CGV_BAD_CAPTURE);
    second_start("the longest body", CGV_BODY_MAX, 0, CGV_DONE);
    second_start("a body that is longer", CGV_BODY_MAX + 1, 0, CGV_BAD_CAPTURE);
    sizes(0, 0, 1);
    sizes(3, 0, 1);
    sizes(1, CGV_BODY_MAX, 1);
    sizes(1, CGV_BODY_MAX + 1, 0);
    sizes(1, 65535, 0);
    sizes(CGV_ENTRIES_MAX, 0, 1);
    sizes(CGV_ENTRIES_MAX + 1, 0, 0);
    sizes(CGV_ENTRIES_MAX, CGV_BODY_MAX, 1);
}

int main(void)
{
    uint32_t number;
    for (spare = 0; spare <= SPARE; spare += SPARE) {
        set_ups();
        limits();
        helpers();
        media_offers();
        parity_offers();
        lies(0);
        lies(1);
        lies_in_time();
        rebuilds();
        moving();
        refused_moves();
        walks();
        ahead();
        largest = LARGEST;
        lies(0);
        lies(1);
        rebuilds();
        moving();
        refused_moves();
        spoils();
        spoils_in_hand();
        spoils_and_rebuilds();
        kept_lengths();
        units_of_204();
        largest = P;
        captures();
    }
    for (number = 0; number < CGV_NUMBERS; number++)
        if (!reached[number] && (number <= CGV_CONTRADICTS || number >= CGV_BAD_CAPTURE)) {
            fprintf(stderr, "number %u was not reached: %s\n", (unsigned)number, cgv_message(number));
            return 1;
        }
    printf("C face: %zu calls as they must be, every number from 0 to 18, 21 and 22\n", calls);
    return 0;
}
