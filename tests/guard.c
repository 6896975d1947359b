/* An attack on the C face. Every buffer has exactly its size and lies against a page without access, at its end or at its start;
 * a call that must not write gets the store, and a refused one the output too, through a mapping that can only be read; the
 * datagram can always only be read. What the library reads or writes past a length, or writes where it must not, ends the run.
 * Some lengths claim more than there is: what is past the need must never be touched. Windows move, and what left is walked. Capture files are written, read in pieces and
 * walked in the same way, and senders are opened and fed; of a sender the output of which no packet goes out can only be read.
 *
 * Each call is made twice, over plain memory first: answer and every byte must be the same wherever the buffers lie. The second
 * one runs on a painted stack, so that the stack that a call needs is known.
 *
 *     guard                  1,000,000 calls, seed 1: part of the gate
 *     guard SECONDS SEED     for as long as one likes
 *
 * Compiled with -DFUZZ it is a target for libFuzzer, which draws the same attack from the bytes that it is given. */
#define _GNU_SOURCE
#include "congaveil_desk.h"
#include <signal.h>
#include <stdio.h>
#include <stdlib.h>
#include <string.h>
#include <sys/mman.h>
#include <time.h>
#include <ucontext.h>
#include <unistd.h>

enum { PAGE = 4096, MOST = 141 * PAGE, CLAIM = 1000, STACK = 64 * 1024, STACK_MAX = 8 * 1024 };
enum { OPEN, MEDIA, COLUMN, ROW, MOVE, READ, WRITE_COLUMN, WRITE_ROW, FILE_READ, FILE_HEADER, FILE_ENTRY, FILE_WRITE, SENDER_OPEN, SENDER_MEDIA, KINDS };
static const char *const names[KINDS] = {"cgv_open", "cgv_media", "cgv_column", "cgv_row", "cgv_move", "cgv_read", "cgv_write_column", "cgv_write_row",
                                         "cgv_capture_read", "cgv_capture_header", "cgv_capture_entry", "cgv_capture_write",
                                         "cgv_sender_open", "cgv_sender_media"};

static unsigned long long calls, windows, seed, numbers[CGV_NUMBERS], helpers, claims, spoilt;
static unsigned long long answers[KINDS][CGV_NUMBERS]; /* calls of capture files and senders, and moves */
static unsigned long long left_behind, released, aheads;     /* packets that moves wrote, parity that they released, datagrams ahead */
static unsigned long long senders, went_out[4];              /* media taken in: 1 with a row, 2 with a column, 3 with both, 0 with none */
static const char *doing = "setting up";

static void fail(const char *what)
{
    fprintf(stderr, "guard: %s, in %s, call %llu of seed %llu\n", what, doing, calls, seed);
    abort();
}

/* ---- where the attack is drawn from: seeded random numbers, or the fuzzer's bytes */

#ifdef FUZZ
static const uint8_t *bytes;
static size_t left;
__attribute__((section("__libfuzzer_extra_counters"))) static uint8_t met[KINDS * CGV_NUMBERS * 8];

static uint64_t draw(uint64_t below)
{
    uint64_t value = 0;
    int i;
    for (i = 0; i < (below > 256 ? 2 : 1) && left; i++, left--)
        value = value << 8 | *bytes++;
    return value % below;
}
#else
static uint64_t state;

static uint64_t draw(uint64_t below)
{
    uint64_t z = state += 0x9e3779b97f4a7c15u;
    z = (z ^ z >> 30) * 0xbf58476d1ce4e5b9u;
    z = (z ^ z >> 27) * 0x94d049bb133111ebu;
    return (z ^ z >> 31) % below;
}
#endif

static int one_in(uint64_t n) { return draw(n) == 0; }

/* ---- buffers between pages without access, each in two mappings of the same memory and once more in plain memory */

struct part {
    int fd;
    uint8_t *view[2], *at[2]; /* [0] can be written, [1] can only be read */
    uint8_t *plain;
    size_t size, slack;
    int at_end;
};

enum { P_MEDIA, P_TIMESTAMPS, P_LENGTHS, P_MARKS, P_PARITY, P_RECORDS, P_DATAGRAM, P_OUT, P_LONGEST, P_COLUMN, PARTS, STORE = 6 };
static struct part parts[PARTS];

static void make_parts(void)
{
    int i, v;
    for (i = 0; i < PARTS; i++) {
        parts[i].fd = memfd_create("guard", 0);
        parts[i].plain = malloc(MOST + CLAIM * sizeof(struct cgv_record));
        if (parts[i].fd < 0 || ftruncate(parts[i].fd, MOST) || !parts[i].plain)
            fail("no memory");
        for (v = 0; v < 2; v++) {
            parts[i].view[v] = mmap(NULL, MOST + 2 * PAGE, PROT_NONE, MAP_PRIVATE | MAP_ANONYMOUS, -1, 0);
            if (parts[i].view[v] == MAP_FAILED)
                fail("no memory");
        }
    }
}

/* Lays a buffer of this size against a page without access; old bytes stand in it. */
static void place(struct part *b, size_t size, int at_end)
{
    size_t pages = (size + PAGE - 1) / PAGE * PAGE;
    int v;
    for (v = 0; v < 2; v++) {
        uint8_t *first = b->view[v] + PAGE;
        if (pages == b->size + b->slack) { /* the same pages again */
            b->at[v] = at_end ? first + pages - size : first;
            continue;
        }
        if (mmap(b->view[v], MOST + 2 * PAGE, PROT_NONE, MAP_PRIVATE | MAP_ANONYMOUS | MAP_FIXED, -1, 0) == MAP_FAILED)
            fail("no memory");
        if (pages && mmap(first, pages, v ? PROT_READ : PROT_READ | PROT_WRITE, MAP_SHARED | MAP_FIXED, b->fd, 0) == MAP_FAILED)
            fail("no memory");
        b->at[v] = at_end ? first + pages - size : first;
    }
    b->size = size;
    b->slack = pages - size;
    b->at_end = at_end;
    if (pages)
        memset(b->view[0] + PAGE, 0xC3, pages);
    memset(b->at[0], 0xA5, size);
    memset(b->plain, 0xA5, size);
}

static void same_as_plain(const struct part *b)
{
    const uint8_t *slack = b->at_end ? b->view[0] + PAGE : b->at[0] + b->size;
    size_t i;
    if (memcmp(b->at[0], b->plain, b->size))
        fail("other bytes than in plain memory");
    for (i = 0; i < b->slack; i++)
        if (slack[i] != 0xC3)
            fail("a byte beside a buffer was written");
}

/* ---- a call, on a painted stack */

struct call {
    int kind;
    struct cgv_window w; /* or the set-up, for an opening or a capture file */
    struct cgv_store s;  /* to write a capture file: the ports are its marks, the bodies its media */
    const uint8_t *datagram; /* or a piece of a capture file, or its front */
    size_t len;
    uint16_t number; /* or the index of an entry */
    size_t by;       /* of a move */
    uint16_t *sizes;
    size_t sizes_len;
    struct cgv_reader reader;
    uint8_t *out;
    size_t out_len;
    struct cgv_answer a;
    uint64_t said[8]; /* the answer of a capture file: its number, and what else it says */
    struct cgv_sender sender; /* or the set-up, for an opening */
    struct cgv_room room;
    struct cgv_outputs outs;
    struct cgv_sent sent;
};

/* Apart, so that the other calls are measured without its frame. */
__attribute__((noinline)) static void make_of_file(struct call *c)
{
    struct cgv_window w = c->w;
    if (c->kind == FILE_READ) {
        struct cgv_reading a = cgv_capture_read(c->reader, c->datagram, c->len);
        uint64_t said[8] = {a.number, a.reader.stage, a.reader.left, a.reader.next, a.reader.sum, a.reader.at, a.reader.size, 0};
        c->reader = a.reader;
        memcpy(c->said, said, sizeof said);
    } else if (c->kind == FILE_HEADER) {
        struct cgv_capture a = cgv_capture_header(c->datagram, c->len);
        uint64_t said[8] = {a.number, a.base, a.count, a.l, a.d, a.p, a.n, a.k};
        memcpy(c->said, said, sizeof said);
    } else if (c->kind == FILE_ENTRY) {
        struct cgv_entry a = cgv_capture_entry(c->datagram, c->len, c->number);
        uint64_t said[8] = {a.number, a.port, a.start, a.length, 0, 0, 0, 0};
        memcpy(c->said, said, sizeof said);
    } else {
        struct cgv_written a = cgv_capture_write(w.base, w.l, w.d, w.p, w.n, w.k, c->s.marks, c->s.marks_len, c->s.lengths, c->s.lengths_len,
                                                 c->s.media, c->s.media_len, c->out, c->out_len);
        uint64_t said[8] = {a.number, a.count, 0, 0, 0, 0, 0, 0};
        memcpy(c->said, said, sizeof said);
    }
}

__attribute__((noinline)) static void make_of_sender(struct call *c)
{
    static const struct cgv_outer row = {1, 2, 3}, column = {65535, 4, 5};
    struct cgv_sender v = c->sender;
    if (c->kind == SENDER_OPEN)
        c->sent = cgv_sender_open(v.first, v.arrangement, v.l, v.d, v.p, CGV_ROOM_ARGUMENTS(c->room));
    else
        c->sent = cgv_sender_media(v, c->datagram, c->len, row, column, CGV_ROOM_ARGUMENTS(c->room), c->outs.row, c->outs.row_len,
                                   c->outs.column, c->outs.column_len);
}

static void make(struct call *c)
{
    struct cgv_window w = c->w;
    switch (c->kind) {
    case OPEN: c->a = cgv_open(w.base, w.l, w.d, w.p, w.n, w.k, w.ssrc, CGV_STORE_ARGUMENTS(c->s)); break;
    case MEDIA: c->a = cgv_media(w, c->datagram, c->len, CGV_STORE_ARGUMENTS(c->s)); break;
    case COLUMN: c->a = cgv_column(w, c->datagram, c->len, CGV_STORE_ARGUMENTS(c->s)); break;
    case ROW: c->a = cgv_row(w, c->datagram, c->len, CGV_STORE_ARGUMENTS(c->s)); break;
    case MOVE: c->a = cgv_move(w, c->by, CGV_STORE_ARGUMENTS(c->s), c->out, c->out_len, c->sizes, c->sizes_len); break;
    case READ: c->a = cgv_read(w, c->number, CGV_STORE_ARGUMENTS(c->s), c->out, c->out_len); break;
    case WRITE_COLUMN: c->a = cgv_write_column(w, c->number, 1, 2, 3, CGV_STORE_ARGUMENTS(c->s), c->out, c->out_len); break;
    case WRITE_ROW: c->a = cgv_write_row(w, c->number, 1, 2, 3, CGV_STORE_ARGUMENTS(c->s), c->out, c->out_len); break;
    case SENDER_OPEN:
    case SENDER_MEDIA: make_of_sender(c); break;
    default: make_of_file(c); break;
    }
}

#ifdef FUZZ
static void make_on_stack(struct call *c) { make(c); }
#else
static uint8_t stack[STACK] __attribute__((aligned(16)));
static ucontext_t here, there;
static struct call *current;
static uint8_t *top;

static void work(void)
{
    top = __builtin_frame_address(0);
    for (;;) {
        make(current);
        swapcontext(&there, &here);
    }
}

static void make_on_stack(struct call *c)
{
    current = c;
    swapcontext(&here, &there);
}

static void paint_stack(void)
{
    memset(stack, 0xB7, sizeof stack);
    if (getcontext(&there))
        fail("no context");
    there.uc_stack.ss_sp = stack;
    there.uc_stack.ss_size = sizeof stack;
    there.uc_link = NULL;
    makecontext(&there, work, 0);
}

static size_t stack_used(void)
{
    size_t i = 0;
    while (i < sizeof stack && stack[i] == 0xB7)
        i++;
    return (size_t)(top - (stack + i));
}

static void faulted(int signal, siginfo_t *info, void *context)
{
    (void)signal, (void)context;
    fprintf(stderr, "guard: touched %p, which it must not, in %s, call %llu of seed %llu\n", info->si_addr, doing, calls, seed);
    _exit(1);
}
#endif

/* ---- a window under attack */

static struct cgv_window w;
static struct cgv_desk desk;
static size_t lengths[PARTS], honest[PARTS]; /* as lent and as there are, in elements */

/* The store as it is lent, in a mapping (0 to write, 1 to read alone) or in plain memory (2). */
static struct cgv_store store_in(int view, const size_t *len)
{
    uint8_t *at[STORE];
    int i;
    for (i = 0; i < STORE; i++)
        at[i] = view == 2 ? parts[i].plain : parts[i].at[view];
    {
        struct cgv_store s = {at[P_MEDIA], len[P_MEDIA], (uint32_t *)(void *)at[P_TIMESTAMPS], len[P_TIMESTAMPS],
                              (uint16_t *)(void *)at[P_LENGTHS], len[P_LENGTHS], at[P_MARKS], len[P_MARKS], at[P_PARITY], len[P_PARITY],
                              (struct cgv_record *)(void *)at[P_RECORDS], len[P_RECORDS]};
        return s;
    }
}

static int same_window(struct cgv_window a, struct cgv_window b)
{
    return a.base == b.base && a.ssrc == b.ssrc && a.l == b.l && a.d == b.d && a.p == b.p && a.n == b.n && a.k == b.k &&
           a.present == b.present && a.in_use == b.in_use;
}

/* What a move that was done wrote, by the walk of the header: as many packets as the count says, all of them in the output. */
static void walk_left(const struct call *c, struct cgv_window before)
{
    struct cgv_receiver r;
    size_t i, count = 0;
    r.window = c->a.window;
    r.store = c->s;
    doing = "cgv_receiver_left";
    for (i = 0; i < c->by + 2; i++) {
        struct cgv_left one = cgv_receiver_left(&r, c->by, i, c->out, c->out_len, c->sizes, c->sizes_len);
        if (one.number != cgv_number(&before, i) || !one.datagram != !one.len)
            fail("a packet that left under another number, or without a length");
        if (one.datagram && (i >= c->by || one.datagram < c->out || one.datagram + one.len > c->out + c->out_len || one.len < 12 ||
                             one.datagram[2] != one.number >> 8 || one.datagram[3] != (one.number & 255)))
            fail("a packet that did not leave, is not in the output, or has another number");
        count += one.datagram != NULL;
        helpers++;
    }
    if (count != c->a.count || c->a.window.base != (uint16_t)(before.base + c->by))
        fail("another count than of the packets that left, or another base");
    left_behind += count;
    released += before.in_use - c->a.window.in_use;
}

/* A datagram that the window would move on for is refused by it: with 13, or before that for what a move does not judge. */
static void check_ahead(int kind, struct cgv_window value, uint32_t number)
{
    struct cgv_receiver r;
    memset(&r, 0, sizeof r);
    r.window = value;
    helpers++;
    if (!cgv_receiver_ahead(&r, (uint8_t)(kind - MEDIA + CGV_PORT_MEDIA), parts[P_DATAGRAM].at[1], parts[P_DATAGRAM].size))
        return;
    aheads++;
    if (number == CGV_DONE || (number > CGV_DISORDER && number < CGV_BAD_LENGTH) || number > CGV_OUTSIDE)
        fail("a datagram ahead of the window is taken in, or is none of its port");
}

/* Makes a call in plain memory and then between the pages; both must agree. A window value that was made up may need more than
 * there is, so it is lent no more than that. The sizes of a move lie in the place of a sender's longest lengths. */
static struct cgv_answer attack_by(int kind, struct cgv_window value, uint16_t number, size_t by, size_t out_len, size_t sizes_len)
{
    static const struct cgv_window zeros = CGV_NO_WINDOW;
    const size_t *len = same_window(value, w) ? lengths : honest;
    struct part *out = &parts[P_OUT], *sizes = &parts[P_LONGEST];
    struct call plain, c;
    memset(&plain, 0, sizeof plain);
    doing = names[kind];
    calls++;
    plain.kind = kind;
    plain.w = value;
    plain.number = number;
    plain.datagram = parts[P_DATAGRAM].plain;
    plain.len = parts[P_DATAGRAM].size;
    plain.out = out->plain;
    plain.out_len = len == honest && out_len > out->size ? out->size : out_len;
    plain.by = by;
    plain.sizes = (uint16_t *)(void *)sizes->plain;
    plain.sizes_len = len == honest && sizes_len > sizes->size / 2 ? sizes->size / 2 : sizes_len;
    plain.s = store_in(2, len);
    c = plain;
    make(&plain);
    if (kind > OPEN && kind < MOVE)
        check_ahead(kind, value, plain.a.number);
    c.datagram = parts[P_DATAGRAM].at[1];
    c.s = store_in(plain.a.number || kind >= READ, len);
    c.out = out->at[plain.a.number != 0];
    c.sizes = (uint16_t *)(void *)sizes->at[plain.a.number != 0];
    make_on_stack(&c);
    if (c.a.number != plain.a.number || c.a.count != plain.a.count || c.a.spoilt != plain.a.spoilt ||
        !same_window(c.a.window, plain.a.window))
        fail("another answer than in plain memory");
    if (c.a.number >= CGV_NUMBERS || (c.a.number && (c.a.count || !same_window(c.a.window, kind == OPEN ? zeros : value))))
        fail("a refusal with a count or another window value");
    if (c.a.spoilt && (c.a.number || kind == OPEN || kind >= MOVE))
        fail("spoilt by a refusal, or by a call that is no offer");
    numbers[c.a.number]++;
    spoilt += c.a.spoilt;
    if (kind >= MOVE && !c.a.number)
        same_as_plain(out);
    if (kind == MOVE) {
        answers[MOVE][c.a.number]++;
        if (!c.a.number) {
            same_as_plain(sizes);
            walk_left(&c, value);
        }
    }
#ifdef FUZZ
    met[(kind * CGV_NUMBERS + (int)c.a.number) * 8 + (int)(c.a.spoilt ? 7 : c.a.count < 6 ? c.a.count : 6)] = 1;
#endif
    return c.a;
}

static struct cgv_answer attack(int kind, struct cgv_window value, uint16_t number, size_t out_len)
{
    return attack_by(kind, value, number, 0, out_len, 0);
}

/* The helpers of the headers, over the mapping that can only be read: also where parts are shorter than the window claims. */
static void attack_helpers(struct cgv_window value)
{
    struct cgv_receiver r = {value, store_in(1, honest)};
    const uint8_t *payload;
    uint16_t number = 0;
    size_t i, end = value.n < 1000 ? value.n + 2 : 1000;
    struct cgv_desk other = desk;
    doing = "the helpers";
    for (i = 0; i < end; i++) {
        number = cgv_number(&value, i);
        payload = cgv_receiver_payload(&r, number);
        if (payload && (!cgv_receiver_has(&r, number) || payload < r.store.media || payload + value.p > r.store.media + r.store.media_len))
            fail("a payload that is not in the media part");
        if (cgv_receiver_length(&r, number) > value.p || (cgv_receiver_length(&r, number) && !cgv_receiver_has(&r, number)))
            fail("a length above P, or of a missing packet");
        helpers += 3;
    }
    cgv_desk_begin(&other, &r);
    other.untold = 3;
    while (cgv_desk_rebuilt(&other, &r, &number))
        fail("a packet told that was there before");
    helpers += 2;
}

static size_t pick(size_t least, size_t most) { return least + (size_t)draw(most - least + 1); }

/* A value for a field that is at an edge, or anything. */
static size_t edge(void)
{
    static const size_t edges[] = {0, 1, 3, 4, 5, 20, 21, 100, 101, 127, 128, 129, 187, 188, 204, 399, 400, 401, 1316, 1428, 65535, 65536,
                                   (size_t)1 << 32, (size_t)1 << 46, (size_t)1 << 63, SIZE_MAX - 12, SIZE_MAX};
    return one_in(4) ? (size_t)draw(70000) : edges[draw(sizeof edges / sizeof edges[0])];
}

static struct cgv_window made_up(struct cgv_window value)
{
    switch (draw(8)) {
    case 0: value.l = edge(); break;
    case 1: value.d = edge(); break;
    case 2: value.p = edge(); break;
    case 3: value.n = edge(); break;
    case 4: value.k = edge(); break;
    case 5: value.present = one_in(2) ? value.present + 1 : edge(); break;
    case 6: value.in_use = one_in(2) ? value.in_use + 1 : edge(); break;
    default: value.base = (uint16_t)draw(65536); break;
    }
    return value;
}

/* ---- datagrams */

static uint32_t stamp(uint16_t number) { return 3003u * (number / 7u); }

static void write_rtp(uint8_t *g, uint8_t type, uint16_t number, uint32_t time)
{
    const uint8_t header[12] = {0x80, type, (uint8_t)(number >> 8), (uint8_t)number,
                                (uint8_t)(time >> 24), (uint8_t)(time >> 16), (uint8_t)(time >> 8), (uint8_t)time, 1, 2, 3, 4};
    memcpy(g, header, sizeof header);
}

static size_t unit(void) { return w.p % 188 ? 204 : 188; }

/* The length of a packet, up to p: whole units, fewer in every other packet. */
static size_t length_of(uint16_t number, size_t p)
{
    size_t units = p / unit();
    return number % 2 || units < 2 ? p : unit() * (1 + number / 2 % units);
}

/* Adds the payload of a packet to what stands there, and gives its length. */
static size_t add_payload(uint8_t *g, uint16_t number, size_t p)
{
    size_t i, len = length_of(number, p);
    for (i = 0; i < len; i++)
        g[i] ^= (uint8_t)(number * 31u + i * 7u + (number >> 5));
    return len;
}

/* Lays the datagram of a kind in its place, right as the window has it or altered. */
static void write_datagram(int kind, uint16_t number)
{
    static uint8_t g[CGV_PARITY_DATAGRAM_MAX + 64];
    size_t header = kind == MEDIA ? 12 : 28, p = w.p <= CGV_PAYLOAD_MAX ? w.p : CGV_PAYLOAD_MAX, len = 0, length = 0, i, j;
    memset(g, 0, sizeof g);
    if (kind == MEDIA) {
        write_rtp(g, 33, number, stamp(number));
        len = 12 + add_payload(g + 12, number, p);
    } else {
        size_t offset = kind == ROW ? 1 : w.l, na = kind == ROW ? w.l : w.d;
        uint32_t time = 0;
        write_rtp(g, 96, (uint16_t)draw(65536), 5);
        for (j = 0; j < na && j < 20; j++) {
            time ^= stamp((uint16_t)(number + j * offset));
            i = add_payload(g + 28, (uint16_t)(number + j * offset), p);
            length ^= i;
            len = i > len ? i : len;
        }
        len += 28;
        g[12] = (uint8_t)(number >> 8), g[13] = (uint8_t)number;
        g[14] = (uint8_t)(length >> 8), g[15] = (uint8_t)length;
        g[16] = 0x80 | (na % 2 ? 33 : 0);
        g[20] = (uint8_t)(time >> 24), g[21] = (uint8_t)(time >> 16), g[22] = (uint8_t)(time >> 8), g[23] = (uint8_t)time;
        g[24] = kind == ROW ? 0x40 : 0, g[25] = (uint8_t)offset, g[26] = (uint8_t)na;
    }
    switch (draw(28)) {
    case 6:
        if (len >= 28)
            g[14 + draw(2)] ^= (uint8_t)(1u << draw(8)); /* of parity, the length recovery */
        break;
    case 7:
        if (len >= 28)
            g[14] ^= (uint8_t)(unit() >> 8), g[15] ^= (uint8_t)unit();
        break;
    case 8: len = len > header + unit() ? len - unit() : len; break;
    case 9: len = len + unit() <= header + p ? len + unit() : len; break;
    case 0: g[draw(header)] ^= (uint8_t)(1u << draw(8)); break;
    case 1: g[draw(len)] ^= (uint8_t)(1u << draw(8)); break;
    case 2: len = (size_t)draw(len + 1); break;
    case 3: len += (size_t)draw(64); break;
    case 4: len = (size_t)draw(30); break;
    case 5:
        for (i = 0; i < header; i++)
            g[i] = (uint8_t)draw(256);
        break;
    default: break;
    }
    place(&parts[P_DATAGRAM], len, one_in(2));
    memcpy(parts[P_DATAGRAM].at[0], g, len);
    memcpy(parts[P_DATAGRAM].plain, g, len);
}

/* ---- the attack */

static const size_t size_of[STORE] = {1, 4, 2, 1, 1, sizeof(struct cgv_record)}; /* an element, in bytes */

/* Lays the six parts: their need or a little less, lent at their length, or as more than there is. */
static void lay_store(void)
{
    size_t need[STORE], room = MOST, i;
    need[P_MEDIA] = w.n * w.p;
    need[P_TIMESTAMPS] = need[P_LENGTHS] = need[P_MARKS] = w.n;
    need[P_PARITY] = w.k * w.p;
    need[P_RECORDS] = w.k;
    for (i = 0; i < STORE; i++) {
        size_t elements = need[i];
        if (elements > room / size_of[i] || w.n > 1000 || w.p > 2000 || w.k > 1000)
            elements = (size_t)draw(2000);
        if (one_in(60))
            elements = one_in(2) ? elements - (elements > 0) : (size_t)draw(elements + 1);
        place(&parts[i], elements * size_of[i], one_in(2));
        lengths[i] = honest[i] = elements;
        if (elements >= need[i] && one_in(3)) {
            lengths[i] += (size_t)draw(CLAIM);
            claims++;
        }
    }
}

static void set_up(void)
{
    memset(&w, 0, sizeof w);
    w.base = (uint16_t)(one_in(2) ? 65536 - draw(300) : draw(65536));
    w.ssrc = (uint32_t)draw(65536);
    w.d = pick(4, 20);
    w.l = pick(1, 100 / w.d < 20 ? 100 / w.d : 20);
    w.p = (one_in(2) ? 188 : 204) * (one_in(2) ? pick(1, one_in(4) ? 7 : 3) : 1);
    w.n = pick(w.l * w.d, one_in(8) ? 400 : w.l * w.d * 2 < 400 ? w.l * w.d * 2 : 400);
    w.k = one_in(2) ? pick(1, 128) : pick(1, 6);
    if (one_in(16))
        w = made_up(w);
}

/* A byte of marks, lengths, records or payloads is changed from outside, in all three places, or changed back. */
static void change(size_t at, int part, uint8_t by)
{
    if (parts[part].size == 0)
        return;
    at %= parts[part].size;
    parts[part].at[0][at] ^= by;
    parts[part].plain[at] ^= by;
}

/* How far a move goes: a little as a rule, or anything. */
static size_t how_far(void)
{
    switch (draw(12)) {
    case 0: return w.n;
    case 1: return w.n + 1;
    case 2: return 0;
    case 3: return edge();
    case 4:
    case 5: return pick(1, w.n && w.n <= 400 ? w.n : 400);
    default: return pick(1, w.l && w.l <= 20 ? w.l : 20);
    }
}

/* Lays an output of a move: its need or a little less, lent at its length, or as more than there is. Gives the length that is lent. */
static size_t lay_for_move(int part, size_t need, size_t element)
{
    size_t elements = need > MOST / element ? (size_t)draw(2000) : need;
    if (one_in(16))
        elements = one_in(2) ? elements - (elements > 0) : (size_t)draw(elements + 1);
    place(&parts[part], elements * element, one_in(2));
    if (elements < need || !one_in(3))
        return elements;
    claims++;
    return elements + (size_t)draw(CLAIM);
}

/* A move; whether it was done. */
static int move_step(struct cgv_window value)
{
    size_t by = how_far(), p = w.p <= CGV_PAYLOAD_MAX ? w.p : CGV_PAYLOAD_MAX, out_len, sizes_len;
    struct cgv_answer a;
    out_len = lay_for_move(P_OUT, by <= 1000 ? CGV_MOVE_ROOM(by, p) : MOST + 1, 1);
    sizes_len = lay_for_move(P_LONGEST, by, 2);
    a = attack_by(MOVE, value, 0, by, out_len, sizes_len);
    if (!a.number)
        w = a.window;
    return !a.number;
}

static void step(void)
{
    int kind = (int)pick(MEDIA, WRITE_ROW), disorder = one_in(30), part = (int)pick(P_MEDIA, P_RECORDS);
    size_t at = (size_t)draw(part == P_MEDIA || part == P_PARITY ? MOST : 4096), output;
    uint8_t by = (uint8_t)(1u << draw(8));
    struct cgv_window value = one_in(20) ? made_up(w) : w;
    uint16_t number = (uint16_t)(w.base + (one_in(20) ? draw(65536) : draw(w.n && w.n < 65536 ? w.n : 400)));
    struct cgv_answer a;
    if (kind == COLUMN || (kind == ROW && one_in(2)))
        number = (uint16_t)(w.base + (w.l ? draw(w.l < 400 ? w.l : 400) : 0));
    if (kind == MOVE && !one_in(3))
        kind = MEDIA;
    if (kind == MOVE) {
        if (disorder)
            change(at, part, by);
        if (!move_step(value) && disorder)
            change(at, part, by);
        return;
    }
    if (kind >= READ) {
        size_t p = w.p <= CGV_PAYLOAD_MAX ? w.p : CGV_PAYLOAD_MAX;
        output = (kind == READ ? 12 : 28) + p;
        if (one_in(16))
            output = (size_t)draw(output + 1);
        place(&parts[P_OUT], output, one_in(2));
        if (output == (kind == READ ? 12 : 28) + p && one_in(3))
            output += (size_t)draw(CLAIM);
    } else {
        output = 0;
        write_datagram(one_in(30) ? (int)pick(MEDIA, ROW) : kind, number);
    }
    if (disorder)
        change(at, part, by);
    a = attack(kind, value, number, output);
    if (kind < READ && !a.number)
        w = a.window;
    if (disorder && !a.number)
        return; /* it was taken at its word; what comes now is as it comes */
    if (disorder)
        change(at, part, by);
}

/* ---- capture files */

static uint8_t file[MOST];
static size_t file_len;
static volatile uint8_t kept; /* what was read of bodies, so that it is read */

/* Makes a call of a capture file in plain memory and then between the pages; both must say the same. Nothing is written but the
 * output of one that is not refused. */
static void attack_file(struct call *c)
{
    struct cgv_reader reader = c->reader;
    struct part *out = &parts[P_OUT];
    uint64_t said[8];
    size_t i;
    doing = names[c->kind];
    calls++;
    c->datagram = parts[P_DATAGRAM].plain;
    c->s = store_in(2, honest);
    c->out = out->plain;
    make(c);
    memcpy(said, c->said, sizeof said);
    c->reader = reader;
    c->datagram = parts[P_DATAGRAM].at[1];
    c->s = store_in(1, honest);
    c->out = out->at[said[0] != CGV_DONE];
    make_on_stack(c);
    if (memcmp(c->said, said, sizeof said))
        fail("another answer than in plain memory");
    if (said[0] != CGV_DONE && said[0] != CGV_BAD_CAPTURE && (said[0] != CGV_SHORT_BUFFER || c->kind != FILE_WRITE))
        fail("a number that is none of a capture file");
    for (i = 1; i < 8 && said[0] && c->kind != FILE_READ; i++)
        if (said[i])
            fail("a refusal that says more");
    if (c->kind == FILE_WRITE)
        same_as_plain(out);
    answers[c->kind][said[0]]++;
#ifdef FUZZ
    met[(c->kind * CGV_NUMBERS + (said[0] != CGV_DONE)) * 8] = 1;
#endif
}

/* Lays bytes in the place of the datagram. */
static void lay_bytes(const uint8_t *from, size_t len)
{
    place(&parts[P_DATAGRAM], len, one_in(2));
    memcpy(parts[P_DATAGRAM].at[0], from, len);
    memcpy(parts[P_DATAGRAM].plain, from, len);
}

/* Lays ports, lengths and bodies, proper ones or with a fault; the bytes of the bodies together. */
static size_t lay_content(void)
{
    static const uint16_t edges[] = {0, 1, 1499, 1500};
    size_t entries = one_in(16) ? pick(511, 513) : (size_t)draw(12), sum = 0, i;
    size_t odd = one_in(4) ? (size_t)draw(entries + 1) : entries; /* the entry of any port and length, if there is one */
    uint16_t length;
    place(&parts[P_MARKS], honest[P_MARKS] = entries - (entries && one_in(16)), one_in(2));
    place(&parts[P_LENGTHS], 2 * entries, one_in(2));
    honest[P_LENGTHS] = entries;
    for (i = 0; i < entries; i++) {
        length = (uint16_t)(i == odd ? draw(65536) : one_in(4) ? edges[draw(4)] : draw(40));
        length = sum + length > MOST / 2 ? 0 : length;
        sum += length;
        memcpy(parts[P_LENGTHS].at[0] + 2 * i, &length, sizeof length);
        memcpy(parts[P_LENGTHS].plain + 2 * i, &length, sizeof length);
    }
    for (i = 0; i < honest[P_MARKS]; i++)
        parts[P_MARKS].at[0][i] = parts[P_MARKS].plain[i] = (uint8_t)(i == odd ? draw(256) : pick(1, 3));
    place(&parts[P_MEDIA], honest[P_MEDIA] = one_in(16) ? sum - (sum > 0) + 2 * draw(2) : sum, one_in(2));
    return 12 + 8 * entries + sum;
}

/* Writes a capture file into an output of its length, a shorter one, or one that claims more. What was written is the file from now
 * on, at times with a byte changed, cut, or with bytes after it; and where it was refused, a few bytes of any kind. Gives whether it
 * must be whole. */
static int write_file(void)
{
    struct call c;
    size_t need = lay_content(), given = one_in(8) ? (size_t)draw(need) : need, i;
    memset(&c, 0, sizeof c);
    c.kind = FILE_WRITE;
    c.w = one_in(8) ? made_up(w) : w;
    c.w.l &= 255, c.w.d &= 255;
    if (one_in(16))
        c.w.l = edge();
    place(&parts[P_OUT], given, one_in(2));
    c.out_len = given == need && one_in(3) ? given + (size_t)draw(CLAIM) : given;
    claims += c.out_len > given;
    attack_file(&c);
    if (c.said[0] == CGV_DONE && c.said[1] != need)
        fail("a file of another length");
    if (c.said[0] != CGV_DONE) {
        file_len = (size_t)draw(40);
        for (i = 0; i < file_len; i++)
            file[i] = (uint8_t)(one_in(2) ? draw(256) : draw(4));
        return 0;
    }
    file_len = need;
    memcpy(file, parts[P_OUT].plain, need);
    switch (draw(6)) {
    case 0: file[draw(one_in(2) ? 12 : need)] ^= (uint8_t)(1u << draw(8)); return 0;
    case 1: file_len = (size_t)draw(need); return 0;
    case 2: file[file_len++] = (uint8_t)draw(256); return 0;
    default: return 1;
    }
}

/* Reads the file in one piece and in pieces cut anywhere, at times from a reader that was made up. */
static void read_file(int whole)
{
    struct call one, c;
    size_t at = 0, piece = 1, before;
    memset(&one, 0, sizeof one);
    one.kind = FILE_READ;
    c = one;
    lay_bytes(file, one.len = file_len);
    attack_file(&one);
    if (whole && one.said[0] != CGV_DONE)
        fail("a file that was written is refused");
    while (at < file_len) {
        int refused = c.reader.stage == CGV_CAPTURE_REFUSED;
        before = piece;
        piece = one_in(3) ? (size_t)draw(9) : (size_t)draw(file_len);
        if (piece > file_len - at || (!piece && !before)) /* a fuzzer whose bytes have run out draws zeros for ever */
            piece = file_len - at;
        lay_bytes(file + at, c.len = piece);
        attack_file(&c);
        if (refused && c.reader.stage != CGV_CAPTURE_REFUSED)
            fail("a refused reading goes on");
        at += piece;
    }
    if (file_len && memcmp(one.said, c.said, sizeof c.said))
        fail("another answer in pieces");
    c.reader.stage = (uint32_t)draw(5);
    c.reader.left = (uint32_t)edge(), c.reader.next = (uint32_t)edge(), c.reader.sum = (uint32_t)edge();
    c.reader.at = (uint32_t)draw(14), c.reader.size = (uint32_t)edge();
    attack_file(&c);
}

/* Header and entries from a front of any length, which may claim more than there is where it has what is asked; and the bodies. */
static void walk_file(void)
{
    struct call c;
    size_t count, i;
    memset(&c, 0, sizeof c);
    c.kind = FILE_HEADER;
    lay_bytes(file, one_in(4) ? (size_t)draw(file_len < 20 ? file_len + 1 : 20) : file_len);
    c.len = parts[P_DATAGRAM].size + (parts[P_DATAGRAM].size >= 12 ? (size_t)draw(CLAIM) : 0);
    attack_file(&c);
    count = c.said[0] == CGV_DONE ? (size_t)c.said[2] : 1;
    for (i = 0; i < 4; i++) {
        struct cgv_entry e;
        const uint8_t *body;
        uint8_t sum = 0;
        c.kind = FILE_ENTRY;
        c.number = (uint16_t)(one_in(8) ? draw(65536) : draw(count + 1));
        c.len = one_in(2) ? file_len : 12 + 8 * ((size_t)c.number + one_in(2)) + (size_t)draw(9);
        c.len = c.len > file_len ? file_len : c.len;
        lay_bytes(file, c.len);
        c.len += c.len >= 20 + 8 * (size_t)c.number ? (size_t)draw(CLAIM) : 0;
        attack_file(&c);
        e.number = (uint32_t)c.said[0], e.port = (uint8_t)c.said[1], e.start = (size_t)c.said[2], e.length = (size_t)c.said[3];
        doing = "cgv_capture_body";
        body = cgv_capture_body(parts[P_DATAGRAM].at[1], parts[P_DATAGRAM].size, e);
        while (body && e.length)
            sum ^= body[--e.length];
        kept = sum;
        helpers++;
    }
}

/* ---- senders: the payloads of the room lie in the place of the media, rows go to the output and columns to one of their own */

static struct cgv_sender sender;

/* Room and outputs as they are lent. The room is in a mapping (0 to write, 1 to read alone) or in plain memory (2), and so is each
 * output. */
static void lend_to_sender(struct call *c, int view, int row, int column, const size_t *len)
{
    static const int from[6] = {P_MEDIA, P_TIMESTAMPS, P_LENGTHS, P_LONGEST, P_OUT, P_COLUMN};
    uint8_t *at[6];
    int i;
    for (i = 0; i < 6; i++) {
        int in = i < 4 ? view : i == 4 ? row : column;
        at[i] = in == 2 ? parts[from[i]].plain : parts[from[i]].at[in];
    }
    {
        struct cgv_room room = {at[0], len[P_MEDIA], (uint32_t *)(void *)at[1], len[P_TIMESTAMPS],
                                (uint16_t *)(void *)at[2], len[P_LENGTHS], (uint16_t *)(void *)at[3], len[P_LONGEST]};
        struct cgv_outputs outs = {at[4], len[P_OUT], at[5], len[P_COLUMN]};
        c->room = room;
        c->outs = outs;
    }
}

static int same_sender(struct cgv_sender a, struct cgv_sender b)
{
    return a.first == b.first && a.taken == b.taken && a.arrangement == b.arrangement && a.l == b.l && a.d == b.d && a.p == b.p &&
           a.at == b.at;
}

/* Makes a call of a sender in plain memory and then between the pages; both must agree. Nothing can be written of a refused one, and of
 * one that is not no output that is not used. A value that was made up is lent no more than there is. */
static struct cgv_sent attack_sender(int kind, struct cgv_sender value)
{
    static const struct cgv_sender zeros = CGV_NO_SENDER;
    const size_t *len = same_sender(value, sender) ? lengths : honest;
    struct cgv_sent plain;
    struct call c;
    memset(&c, 0, sizeof c);
    doing = names[kind];
    calls++;
    c.kind = kind;
    c.sender = value;
    c.datagram = parts[P_DATAGRAM].plain;
    c.len = parts[P_DATAGRAM].size;
    lend_to_sender(&c, 2, 2, 2, len);
    make(&c);
    plain = c.sent;
    c.datagram = parts[P_DATAGRAM].at[1];
    lend_to_sender(&c, plain.number != 0, plain.row == 0, plain.column == 0, len);
    make_on_stack(&c);
    if (c.sent.number != plain.number || c.sent.row != plain.row || c.sent.column != plain.column || !same_sender(c.sent.sender, plain.sender))
        fail("another answer than in plain memory");
    if (plain.number >= CGV_NUMBERS || (plain.number && (plain.row || plain.column || !same_sender(plain.sender, kind == SENDER_OPEN ? zeros : value))))
        fail("a refusal with bytes written or another sender value");
    if (!plain.number && kind == SENDER_MEDIA)
        went_out[(plain.row != 0) + 2 * (plain.column != 0)]++;
    same_as_plain(&parts[P_OUT]);
    same_as_plain(&parts[P_COLUMN]);
    answers[kind][plain.number]++;
#ifdef FUZZ
    met[(kind * CGV_NUMBERS + (int)plain.number) * 8 + (plain.row != 0) + 2 * (plain.column != 0)] = 1;
#endif
    return plain;
}

/* Lays a buffer of a sender: its need or a little less, lent at its length, or as more than there is. */
static void lay_for_sender(int part, size_t need, size_t element, uint64_t short_one_in)
{
    size_t elements = need > MOST / element ? (size_t)draw(2000) : need;
    if (one_in(short_one_in))
        elements = one_in(2) ? elements - (elements > 0) : (size_t)draw(elements + 1);
    place(&parts[part], elements * element, one_in(2));
    lengths[part] = honest[part] = elements;
    if (elements >= need && one_in(3)) {
        lengths[part] += (size_t)draw(CLAIM);
        claims++;
    }
}

/* The set-up of a window, as that of a sender; the room for it. */
static void set_up_sender(void)
{
    size_t n, p;
    set_up();
    memset(&sender, 0, sizeof sender);
    sender.first = w.base, sender.l = w.l, sender.d = w.d, sender.p = w.p;
    sender.arrangement = (uint8_t)(one_in(8) ? draw(256) : draw(2));
    n = CGV_ROOM(w.l <= 1000 ? w.l : 1000);
    p = w.p <= 2000 ? w.p : 2000;
    lay_for_sender(P_MEDIA, n * p, 1, 60);
    lay_for_sender(P_TIMESTAMPS, n, 4, 60);
    lay_for_sender(P_LENGTHS, n, 2, 60);
    lay_for_sender(P_LONGEST, n, 2, 60);
}

static struct cgv_sender made_up_sender(struct cgv_sender value)
{
    switch (draw(7)) {
    case 0: value.l = edge(); break;
    case 1: value.d = edge(); break;
    case 2: value.p = edge(); break;
    case 3: value.at = one_in(2) ? 3 * value.l * value.d - (size_t)draw(2) : edge(); break;
    case 4: value.taken = (uint16_t)draw(65536); break;
    case 5: value.arrangement = (uint8_t)draw(256); break;
    default: value.first = (uint16_t)draw(65536); break;
    }
    return value;
}

/* A media packet, the next one as a rule, to a sender that may be made up, with a room that may be changed. */
static void send_step(void)
{
    static const int room[4] = {P_MEDIA, P_TIMESTAMPS, P_LENGTHS, P_LONGEST};
    int disorder = one_in(30), part = one_in(2) ? P_LONGEST : room[draw(4)];
    size_t at = (size_t)draw(4096), p = w.p <= CGV_PAYLOAD_MAX ? w.p : CGV_PAYLOAD_MAX;
    uint8_t by = (uint8_t)(1u << draw(8));
    struct cgv_sender value = one_in(20) ? made_up_sender(sender) : sender;
    struct cgv_sent sent;
    write_datagram(MEDIA, (uint16_t)(cgv_sender_next(&sender) + (one_in(20) ? draw(65536) : 0)));
    lay_for_sender(P_OUT, CGV_PARITY_HEADER + p, 1, 40);
    lay_for_sender(P_COLUMN, CGV_PARITY_HEADER + p, 1, 40);
    if (disorder)
        change(at, part, by);
    sent = attack_sender(SENDER_MEDIA, value);
    if (!sent.number)
        sender = sent.sender;
    else if (disorder)
        change(at, part, by);
}

static void one_sender(void)
{
    static const int room[4] = {P_MEDIA, P_TIMESTAMPS, P_LENGTHS, P_LONGEST};
    size_t i, steps = pick(1, 400);
    struct cgv_sent sent;
    senders++;
    set_up_sender();
    place(&parts[P_OUT], 0, one_in(2));
    place(&parts[P_COLUMN], 0, one_in(2));
    lengths[P_OUT] = lengths[P_COLUMN] = honest[P_OUT] = honest[P_COLUMN] = 0;
    sent = attack_sender(SENDER_OPEN, sender);
    if (!sent.number)
        sender = sent.sender;
    else
        steps = 8;
    for (i = 0; i < steps; i++) {
#ifdef FUZZ
        if (!left)
            break;
#endif
        send_step();
    }
    for (i = 0; i < 4; i++)
        same_as_plain(&parts[room[i]]);
}

static void one_window(void)
{
    size_t i, steps = pick(1, 400);
    struct cgv_answer a;
    windows++;
    set_up();
    lay_store();
    place(&parts[P_OUT], 0, one_in(2));
    place(&parts[P_DATAGRAM], 0, one_in(2));
    a = attack(OPEN, w, 0, 0);
    if (!a.number)
        w = a.window;
    else
        steps = 8;
    for (i = 0; i < steps; i++) {
#ifdef FUZZ
        if (!left)
            break;
#endif
        step();
    }
    for (i = 0; i < STORE; i++)
        same_as_plain(&parts[i]);
    if (one_in(2)) { /* a part that is shorter than when the window was opened */
        i = pick(P_MEDIA, P_LENGTHS);
        honest[i] -= honest[i] ? 1 + draw(honest[i]) : 0;
        place(&parts[i], honest[i] * size_of[i], one_in(2));
    }
    attack_helpers(one_in(2) ? w : made_up(w));
    read_file(write_file());
    walk_file();
}

#ifdef FUZZ
static void tell(void) { fprintf(stderr, "guard: %llu calls over %llu windows, %llu helpers\n", calls, windows, helpers); }

int LLVMFuzzerTestOneInput(const uint8_t *data, size_t size)
{
    if (!parts[0].plain) {
        make_parts();
        atexit(tell);
    }
    bytes = data;
    left = size;
    while (left) {
        one_window();
        one_sender();
    }
    return 0;
}
#else
static unsigned long long refused_by_senders(void)
{
    unsigned long long sum = 0;
    size_t i;
    for (i = 1; i < CGV_NUMBERS; i++)
        sum += answers[SENDER_MEDIA][i];
    return sum;
}

/* Whether a number of a sender was not reached, or a kind of packet did not go out; it says which. */
static int senders_missed(void)
{
    size_t i;
    for (i = 0; i < CGV_NUMBERS; i++)
        if (!answers[SENDER_MEDIA][i] && (i < 3 || (i > 3 && i < 10) || i == CGV_OUTSIDE)) {
            fprintf(stderr, "guard: number %zu of a sender was not reached\n", i);
            return 1;
        }
    for (i = 0; i < 4; i++)
        if (!went_out[i]) {
            fprintf(stderr, "guard: a row, a column, both or none did not go out\n");
            return 1;
        }
    return 0;
}

/* Whether a number of a move was not reached, or nothing left or was released; it says so. */
static int moves_missed(void)
{
    static const uint32_t all[] = {CGV_DONE, CGV_BAD_PROFILE, CGV_BAD_PAYLOAD_SIZE, CGV_BAD_ROOM, CGV_BAD_MOVE, CGV_SHORT_BUFFER, CGV_DISORDER};
    size_t i;
    for (i = 0; i < sizeof all / sizeof all[0]; i++)
        if (!answers[MOVE][all[i]]) {
            fprintf(stderr, "guard: number %u of a move was not reached\n", (unsigned)all[i]);
            return 1;
        }
    if (!left_behind || !released || !aheads) {
        fprintf(stderr, "guard: no packet left in a move, no parity was released, or no datagram was ahead\n");
        return 1;
    }
    return 0;
}

/* Whether a call on a window has this answer. */
static int of_window(size_t number) { return number <= CGV_CONTRADICTS || number == CGV_BAD_MOVE; }

int main(int argc, char **argv)
{
    double seconds = argc > 1 ? strtod(argv[1], NULL) : 0;
    struct sigaction action;
    struct timespec start, now;
    stack_t other;
    size_t i, rarest = 0;
    seed = argc > 2 ? strtoull(argv[2], NULL, 10) : 1;
    state = seed;
    memset(&action, 0, sizeof action);
    memset(&other, 0, sizeof other);
    other.ss_size = STACK;
    other.ss_sp = malloc(other.ss_size);
    action.sa_sigaction = faulted;
    action.sa_flags = SA_SIGINFO | SA_ONSTACK;
    if (!other.ss_sp || sigaltstack(&other, NULL) || sigaction(SIGSEGV, &action, NULL) || sigaction(SIGBUS, &action, NULL))
        fail("no signal handler");
    make_parts();
    paint_stack();
    clock_gettime(CLOCK_MONOTONIC, &start);
    do {
        one_window();
        one_sender();
        clock_gettime(CLOCK_MONOTONIC, &now);
    } while (seconds > 0 ? (double)(now.tv_sec - start.tv_sec) < seconds : calls < 1000000);
    for (i = 0; i < CGV_NUMBERS; i++)
        rarest = of_window(i) && numbers[i] < numbers[rarest] ? i : rarest;
    for (i = FILE_READ; i <= FILE_WRITE; i++)
        if (!answers[i][CGV_DONE] || !answers[i][CGV_BAD_CAPTURE] || (i == FILE_WRITE && !answers[i][CGV_SHORT_BUFFER])) {
            fprintf(stderr, "guard: an answer of %s was not reached\n", names[i]);
            return 1;
        }
    if (senders_missed() || moves_missed())
        return 1;
    if (!spoilt) {
        fprintf(stderr, "guard: nothing was spoilt\n");
        return 1;
    }
    if (!numbers[rarest]) {
        fprintf(stderr, "guard: number %zu was not reached: %s\n", rarest, cgv_message((uint32_t)rarest));
        return 1;
    }
    if (stack_used() > STACK_MAX) {
        fprintf(stderr, "guard: a call needed %zu bytes of stack\n", stack_used());
        return 1;
    }
    printf("guard: %llu calls over %llu windows, %llu lengths that claimed more than there is, %llu helpers: nothing touched that must not be;\n"
           "  every number from 0 to 18 and 22, the rarest, %zu, %llu times; %llu moves left %llu packets behind and released %llu parity packets;\n"
           "  %llu parity packets spoilt; %llu capture files written, %llu readings not whole;\n"
           "  %llu senders took %llu media packets in, %llu of them with a row, %llu with a column, %llu with both, and refused %llu others;\n"
           "  a call needed %zu bytes of stack at most\n",
           calls, windows, claims, helpers, rarest, numbers[rarest], answers[MOVE][CGV_DONE], left_behind, released, spoilt, answers[FILE_WRITE][CGV_DONE], answers[FILE_READ][CGV_BAD_CAPTURE],
           senders, answers[SENDER_MEDIA][CGV_DONE], went_out[1], went_out[2], went_out[3], refused_by_senders(), stack_used());
    return 0;
}
#endif
