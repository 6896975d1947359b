/* A card in C: opens a window at the first media packet of a capture, feeds it the whole capture with losses, and moves the window on
 * with the stream, a matrix at a time. Prints of each L x D packets that leave how many were lost on the line, rebuilt and given up, then
 * the totals.
 *
 *     card [TIMES] FILE [FILE ..]       (a capture file, or the parts of a capture in their order; so many times over, one after the other)
 *
 * L, D and the largest payload are those of the file; the window has three matrices, wherever in one the capture starts. The captures
 * here have 136 to 1,056 media packets; TIMES plays one over and over, the numbers of packets and groups going on, so that thousands go
 * through one window. Lost here: of each 200 packets those from 8 to 12, of each 1,000 a burst of 16 from 40 on, and every 17th. Exits with
 * 1 where a file is at fault or the window cannot be opened, with 2 where the arguments are. */
#include <congaveil_desk.h>
#include <errno.h>
#include <stdarg.h>
#include <stdio.h>
#include <stdlib.h>
#include <string.h>

enum { POSITIONS = 3 * CGV_MATRIX_MAX, RECORDS = 75 }; /* K is 3 x (L + D), and L + D at most 25 */

static uint8_t media[POSITIONS * CGV_PAYLOAD_MAX], marks[POSITIONS], parity[RECORDS * CGV_PAYLOAD_MAX];
static uint32_t timestamps[POSITIONS];
static uint16_t lengths[POSITIONS];
static struct cgv_record records[RECORDS];

static struct cgv_receiver card = {CGV_NO_WINDOW, CGV_STORE_OF_ARRAYS(media, timestamps, lengths, marks, parity, records)};
static struct cgv_desk desk;

static uint8_t out[CGV_MOVE_ROOM(CGV_MATRIX_MAX, CGV_PAYLOAD_MAX)];
static uint16_t sizes[CGV_MATRIX_MAX];

/* Places are counted from the first media packet on: how many have left the window, and the end of what was sent. */
static unsigned long left_behind, end, rebuilt, given_up, bytes;

static uint8_t file[CGV_CAPTURE_MAX + 1]; /* with the byte at which a longer file is refused */

/* Ends the card, with the fault of a file. */
static void fault(const char *name, const char *what, ...)
{
    va_list values;
    fprintf(stderr, "card: %s: ", name);
    va_start(values, what);
    vfprintf(stderr, what, values);
    va_end(values);
    fputc('\n', stderr);
    exit(1);
}

/* Reads a file into memory: its length. */
static size_t load(const char *name)
{
    FILE *f = fopen(name, "rb");
    size_t len = f ? fread(file, 1, sizeof file, f) : 0;
    if (!f || ferror(f))
        fault(name, "%s", strerror(errno));
    fclose(f);
    return len;
}

/* Judges the file. Where it is refused, it is read once more, byte by byte, to say where. */
static void judge(const char *name, size_t len)
{
    struct cgv_reader r = CGV_CAPTURE_START;
    uint32_t number = cgv_capture_read(r, file, len).number;
    size_t at = 0;
    if (number == CGV_DONE)
        return;
    while (at < len && r.stage != CGV_CAPTURE_REFUSED)
        r = cgv_capture_read(r, file + at++, 1).reader;
    if (r.stage == CGV_CAPTURE_REFUSED)
        fault(name, "%s (%u): wrong at byte %zu", cgv_message(number), (unsigned)number, at - 1);
    fault(name, "%s (%u): cut short at byte %zu", cgv_message(number), (unsigned)number, at);
}

static int lost(unsigned long place)
{
    return (place % 200 >= 8 && place % 200 < 13) || (place % 1000 >= 40 && place % 1000 < 56) || place % 17 == 16;
}

/* Opens the window at a media packet's number. */
static void open_at(const char *name, uint16_t number, struct cgv_capture h)
{
    struct cgv_answer a = cgv_receiver_open(&card, number, h.l, h.d, h.p, 3 * h.l * h.d, 3 * (h.l + h.d), 1);
    if (a.number)
        fault(name, "no window for L %zu, D %zu, payload %zu: %s", h.l, h.d, h.p, cgv_message(a.number));
    cgv_desk_begin(&desk, &card);
    printf("a window of %zu positions from %u, which moves by %zu\n", card.window.n, (unsigned)number, h.l * h.d);
}

/* Moves the window on, and prints what became of the packets that leave it. */
static void move_on(const char *name, size_t by)
{
    size_t i, back = 0, gone = 0;
    unsigned first = card.window.base;
    struct cgv_answer a;
    for (i = 0; i < by; i++)
        back += cgv_desk_how(&desk, &card, cgv_number(&card.window, i)) == CGV_HOW_REBUILT;
    a = cgv_desk_move(&desk, &card, by, out, sizeof out, sizes, sizeof sizes / sizeof sizes[0]);
    if (a.number)
        fault(name, "the window does not move by %zu: %s", by, cgv_message(a.number));
    gone = by - a.count;
    printf("%u to %u: lost %zu, rebuilt %zu, given up %zu%s", first, (unsigned)(uint16_t)(card.window.base - 1), back + gone, back, gone, gone ? ":" : "");
    for (i = 0; i < by; i++) {
        struct cgv_left left = cgv_receiver_left(&card, by, i, out, sizeof out, sizes, sizeof sizes / sizeof sizes[0]);
        if (left.datagram)
            bytes += left.len; /* a card sends the packet on from here: left.len bytes at left.datagram */
        else
            printf(" %u", (unsigned)left.number);
    }
    putchar('\n');
    left_behind += by;
    rebuilt += back;
    given_up += gone;
}

/* Offers a datagram, by the port that it came in on; what is refused is counted by its number. */
static void offer(const char *name, uint8_t port, const uint8_t *datagram, size_t len)
{
    while (cgv_receiver_ahead(&card, port, datagram, len))
        move_on(name, card.window.l * card.window.d);
    if (port == CGV_PORT_MEDIA)
        cgv_desk_media(&desk, &card, datagram, len);
    else if (port == CGV_PORT_COLUMN)
        cgv_desk_column(&desk, &card, datagram, len);
    else
        cgv_desk_row(&desk, &card, datagram, len);
}

/* The datagram with its number, or the first number of its group, further on. It is too short for one, or has room for it. */
static const uint8_t *renumbered(uint8_t port, const uint8_t *datagram, size_t len, unsigned long further)
{
    static uint8_t copy[CGV_BODY_MAX];
    size_t at = port == CGV_PORT_MEDIA ? 2 : 12;
    memcpy(copy, datagram, len);
    if (len >= at + 2) {
        unsigned number = (unsigned)((copy[at] << 8 | copy[at + 1]) + further) & 65535u;
        copy[at] = (uint8_t)(number >> 8);
        copy[at + 1] = (uint8_t)number;
    }
    return copy;
}

/* Feeds the file, less what is lost, with numbers that are so much further on. There is no window before the first media packet. */
static void feed(const char *name, size_t len, unsigned long further)
{
    struct cgv_capture h = cgv_capture_header(file, len);
    size_t i;
    if (card.window.n && (h.l != card.window.l || h.d != card.window.d || h.p != card.window.p))
        fault(name, "L, D or P is not that of the parts before");
    for (i = 0; i < h.count; i++) {
        struct cgv_entry e = cgv_capture_entry(file, len, i);
        const uint8_t *datagram = renumbered(e.port, cgv_capture_body(file, len, e), e.length, further);
        uint16_t number = 0;
        int numbered = e.port == CGV_PORT_MEDIA && cgv_media_number(datagram, e.length, &number);
        if (!card.window.n && numbered)
            open_at(name, number, h);
        if (!card.window.n)
            continue;
        if (numbered && cgv_position(&card.window, number) < 2 * card.window.n) {
            unsigned long place = left_behind + cgv_position(&card.window, number);
            end = place + 1 > end ? place + 1 : end;
            if (lost(place))
                continue;
        }
        offer(name, e.port, datagram, e.length);
    }
}

/* How many times over, where the first of several arguments is a number; else 0. */
static unsigned long times_over(int argc, char **argv)
{
    char *rest = NULL;
    unsigned long times = argc > 2 && argv[1][0] >= '1' && argv[1][0] <= '9' ? strtoul(argv[1], &rest, 10) : 0;
    return rest && !*rest && times <= 1000 ? times : 0;
}

int main(int argc, char **argv)
{
    char line[CGV_COUNTERS_LINE];
    unsigned long times = times_over(argc, argv), turn;
    int first = times ? 2 : 1, i;
    if (argc < 2) {
        fprintf(stderr, "usage: card [TIMES] FILE [FILE ..]\n");
        return 2;
    }
    for (turn = 0; turn == 0 || turn < times; turn++) {
        unsigned long further = end;
        for (i = first; i < argc; i++) {
            size_t len = load(argv[i]);
            judge(argv[i], len);
            feed(argv[i], len, further);
        }
    }
    if (!card.window.n)
        fault(argv[first], "no media packet in it");
    while (left_behind < end) /* the stream is over: what is left of it leaves */
        move_on(argv[first], end - left_behind < card.window.l * card.window.d ? end - left_behind : card.window.l * card.window.d);
    cgv_counters_line(&desk.counters, line, sizeof line);
    printf("%lu packets sent: lost %lu, rebuilt %lu, given up %lu; %lu bytes handed out\n%s\n", end, rebuilt + given_up, rebuilt, given_up, bytes, line);
    if (fflush(stdout)) {
        fprintf(stderr, "card: %s\n", strerror(errno));
        return 1;
    }
    return 0;
}
