/* The desk: which packets were rebuilt, and the counters, over a capture of GStreamer without a loss and over packets made here.
 *
 *     desk CAPTURE MIXED      capture files of GStreamer, 4 x 4: payloads of 752, and of several lengths up to 1,316
 *
 * Exits 1 at the first difference. Buffers come from malloc with not a byte to spare; under valgrind a step past one is an error. */
#include "congaveil_desk.h"
#include <stdio.h>
#include <stdlib.h>
#include <string.h>

enum { L = 4, D = 4, N = 16, K = 8, BASE = 65530 };

static size_t checks;

static void must(int holds, const char *what)
{
    checks++;
    if (!holds) {
        fprintf(stderr, "desk: not as it must be: %s\n", what);
        exit(1);
    }
}

static struct cgv_receiver new_receiver(size_t n, size_t p, size_t k)
{
    struct cgv_receiver r = {CGV_NO_WINDOW, {NULL, n * p, NULL, n, NULL, n, NULL, n, NULL, k * p, NULL, k}};
    r.store.media = malloc(n * p);
    r.store.timestamps = malloc(n * sizeof(uint32_t));
    r.store.lengths = malloc(n * sizeof(uint16_t));
    r.store.marks = malloc(n);
    r.store.parity = malloc(k * p);
    r.store.records = malloc(k * sizeof(struct cgv_record));
    must(r.store.media && r.store.timestamps && r.store.lengths && r.store.marks && r.store.parity && r.store.records, "room");
    return r;
}

static void end_receiver(struct cgv_receiver *r)
{
    free(r->store.media);
    free(r->store.timestamps);
    free(r->store.lengths);
    free(r->store.marks);
    free(r->store.parity);
    free(r->store.records);
}

/* A packet whose payload is one byte over and over, so that parity is the exclusive-or of these. */
static size_t media(uint8_t *g, uint16_t number, uint8_t byte)
{
    memset(g, 0, 12);
    g[0] = 0x80, g[1] = 33, g[2] = (uint8_t)(number >> 8), g[3] = (uint8_t)number;
    memset(g + 12, byte, 188);
    return 200;
}

static uint8_t byte_of(uint16_t number) { return (uint8_t)(number * 7 + 1); }

static size_t parity(uint8_t *g, int row, uint16_t start)
{
    uint8_t sum = 0;
    int j;
    for (j = 0; j < 4; j++)
        sum ^= byte_of((uint16_t)(start + j * (row ? 1 : L)));
    memset(g, 0, 28);
    g[0] = 0x80, g[1] = 96, g[12] = (uint8_t)(start >> 8), g[13] = (uint8_t)start, g[16] = 0x80;
    g[24] = row ? 0x40 : 0, g[25] = row ? 1 : L, g[26] = row ? L : D;
    memset(g + 28, sum, 188);
    return 216;
}

static uint16_t at(int position) { return (uint16_t)(BASE + position); }

/* A capture file in memory, and its length. */
static const uint8_t *load(const char *name, size_t *len)
{
    static const struct cgv_reader start = CGV_CAPTURE_START;
    static uint8_t file[CGV_CAPTURE_MAX];
    FILE *f = fopen(name, "rb");
    must(f != NULL, "the capture opens");
    *len = fread(file, 1, sizeof file, f);
    fclose(f);
    must(cgv_capture_read(start, file, *len).number == CGV_DONE, "the capture is whole");
    return file;
}

/* GStreamer sends a row's parity before the row's last packet: nothing is lost, and still packets are rebuilt, each refused
 * with 14 when it arrives. None of them is recovered. */
static void without_a_loss(const char *name)
{
    static size_t sent[400]; /* payload bytes by position */
    size_t len, i, offered = 0, told = 0;
    const uint8_t *file = load(name, &len);
    struct cgv_capture h = cgv_capture_header(file, len);
    struct cgv_receiver r = new_receiver(400, h.p, 128);
    struct cgv_desk desk;
    uint16_t number;
    memset(&desk, 0, sizeof desk);
    must(cgv_receiver_open(&r, h.base, h.l, h.d, h.p, 400, 128, 1).number == 0, "opens");
    cgv_desk_begin(&desk, &r);
    for (i = 0; i < h.count; i++) {
        struct cgv_entry e = cgv_capture_entry(file, len, i);
        const uint8_t *g = cgv_capture_body(file, len, e);
        if (e.port == CGV_PORT_MEDIA) {
            must(cgv_media_number(g, e.length, &number) && cgv_position(&r.window, number) < 400, "media of the window");
            sent[cgv_position(&r.window, number)] = e.length - 12;
            offered++;
            cgv_desk_media(&desk, &r, g, e.length);
        } else if (e.port == CGV_PORT_COLUMN)
            cgv_desk_column(&desk, &r, g, e.length);
        else
            cgv_desk_row(&desk, &r, g, e.length);
        while (cgv_desk_rebuilt(&desk, &r, &number)) {
            must(cgv_receiver_payload(&r, number) != NULL, "what is told is present");
            told++;
        }
    }
    for (i = 0; i < offered; i++)
        must(cgv_receiver_length(&r, cgv_number(&r.window, i)) == sent[i] && sent[i] > 0, "the length of a packet");
    must(told > 0 && told == desk.counters.rebuilt, "packets are rebuilt, and each is told");
    must(desk.counters.late == told && cgv_recovered(&desk.counters) == 0, "each arrived afterwards: none is recovered");
    must(desk.counters.answers[CGV_REPEAT] == told && cgv_refused(&desk.counters) == told, "each was refused with 14, and nothing else was");
    must(desk.counters.received == offered && cgv_missing(&desk.counters) == 400 - offered, "received are all that were offered");
    must(r.window.present == offered && desk.counters.alarms == 0 && desk.counters.spoilt == 0, "present are all that were offered");
    end_receiver(&r);
}

/* Case 11 of the bench with a desk: four lost, three rebuilt at a stroke; then late ones, a repeat, and the alarm. */
static void at_a_stroke(void)
{
    struct cgv_receiver r = new_receiver(N, 188, K);
    struct cgv_desk desk;
    struct cgv_counters sum;
    uint8_t g[216];
    char line[CGV_COUNTERS_LINE], cut[10];
    uint16_t number = 0;
    int i;
    memset(&desk, 0, sizeof desk);
    memset(&sum, 0, sizeof sum);
    must(cgv_receiver_open(&r, BASE, L, D, 188, N, K, 7).number == 0, "opens");
    cgv_desk_begin(&desk, &r);
    for (i = 0; i < N; i++)
        if (i != 0 && i != 1 && i != 4 && i != 5)
            cgv_desk_media(&desk, &r, g, media(g, at(i), byte_of(at(i))));
    for (i = 0; i < 2; i++) {
        cgv_desk_column(&desk, &r, g, parity(g, 0, at(i)));
        cgv_desk_row(&desk, &r, g, parity(g, 1, at(4 * i)));
    }
    must(desk.counters.answers[0] == 16 && !cgv_desk_rebuilt(&desk, &r, &number), "sixteen taken in, nothing rebuilt");
    must(cgv_desk_media(&desk, &r, g, media(g, at(5), byte_of(at(5)))).count == 3, "three at a stroke");
    must(cgv_desk_how(&desk, &r, at(1)) == CGV_HOW_REBUILT, "rebuilt, though not told");
    must(cgv_desk_rebuilt(&desk, &r, &number) && number == at(0), "0 is told first");
    must(cgv_desk_media(&desk, &r, g, media(g, at(1), byte_of(at(1)))).number == CGV_REPEAT, "1 arrives before it is told");
    must(cgv_desk_rebuilt(&desk, &r, &number) && number == at(4), "then 4 is told");
    must(desk.untold == 0 && !cgv_desk_rebuilt(&desk, &r, &number), "and no other");
    must(desk.counters.rebuilt == 3 && desk.counters.late == 1 && cgv_recovered(&desk.counters) == 2, "two are recovered");
    cgv_desk_media(&desk, &r, g, media(g, at(1), byte_of(at(1))));
    must(desk.counters.late == 1 && desk.counters.received == 14, "a repeat of a late packet counts once");
    cgv_desk_media(&desk, &r, g, media(g, at(3), byte_of(at(3))));
    must(desk.counters.received == 14, "a repeat of a received packet counts once");
    must(cgv_desk_media(&desk, &r, g, media(g, at(0), 0)).number == CGV_DIFFERS, "another packet 0 arrives");
    must(desk.counters.alarms == 1 && desk.counters.late == 2, "the alarm; it did arrive");
    must(cgv_desk_media(&desk, &r, g, media(g, at(3), 0)).number == CGV_DIFFERS && desk.counters.alarms == 2, "another packet 3: the alarm");
    cgv_desk_column(&desk, &r, g, parity(g, 0, at(5)));
    cgv_desk_media(&desk, &r, g, 11);
    must(cgv_desk_how(&desk, &r, at(0)) == CGV_HOW_LATE && cgv_desk_how(&desk, &r, at(3)) == CGV_HOW_ARRIVED &&
             cgv_desk_how(&desk, &r, at(4)) == CGV_HOW_REBUILT && cgv_desk_how(&desk, &r, at(16)) == CGV_HOW_NONE, "how they came");
    must(desk.counters.received + cgv_recovered(&desk.counters) + cgv_missing(&desk.counters) == N, "received, recovered and missing are all");
    cgv_counters_line(&desk.counters, line, sizeof line);
    must(!strcmp(line, "received 15, recovered 1, late 2, missing 0, given up 0, alarms 2, spoilt 0, refused 7 (no. 6: 1, no. 13: 1, no. 14: 3, no. 15: 2)"), line);
    must(cgv_counters_line(&desk.counters, cut, sizeof cut) == strlen(line) && !strcmp(cut, "received "), "a line that is cut");
    must(cgv_counters_line(&desk.counters, NULL, 0) == strlen(line), "no room at all");
    cgv_counters_add(&sum, &desk.counters);
    cgv_counters_add(&sum, &desk.counters);
    must(sum.received == 30 && sum.positions == 32 && sum.rebuilt == 6 && sum.late == 4 && sum.alarms == 4 && sum.answers[14] == 6, "sums");
    /* The next window in the same store: what was rebuilt in the last one is forgotten, the counters go on. */
    must(cgv_receiver_open(&r, BASE, L, D, 188, N, K, 7).number == 0, "opens again");
    cgv_desk_begin(&desk, &r);
    must(!cgv_desk_rebuilt(&desk, &r, &number) && cgv_missing(&desk.counters) == 16, "sixteen more to come");
    memset(&desk.counters, 0xff, sizeof desk.counters);
    must(cgv_counters_line(&desk.counters, line, sizeof line) + 1 <= sizeof line, "the longest line has room");
    end_receiver(&r);
}

/* Parity that gives a packet which cannot be right, or contradicts its group: counted by the desk, and nothing is told. */
static void spoilt(void)
{
    struct cgv_receiver r = new_receiver(N, 188, K);
    struct cgv_desk desk;
    struct cgv_counters sum;
    uint8_t g[216];
    char line[CGV_COUNTERS_LINE];
    uint16_t number = 0;
    int i;
    memset(&desk, 0, sizeof desk);
    memset(&sum, 0, sizeof sum);
    must(cgv_receiver_open(&r, BASE, L, D, 188, N, K, 7).number == 0, "opens");
    cgv_desk_begin(&desk, &r);
    for (i = 1; i < N; i++)
        if (i != 4)
            cgv_desk_media(&desk, &r, g, media(g, at(i), byte_of(at(i))));
    parity(g, 1, at(0));
    g[15] = 1;
    must(cgv_desk_row(&desk, &r, g, 216).spoilt == 1 && desk.counters.spoilt == 1, "a row that lies of the length");
    parity(g, 0, at(0));
    g[15] = 1;
    must(cgv_desk_column(&desk, &r, g, 216).spoilt == 0, "a column of two that are missing is held");
    must(cgv_desk_media(&desk, &r, g, media(g, at(4), byte_of(at(4)))).spoilt == 1 && desk.counters.spoilt == 2, "and is spoilt in hand");
    must(desk.counters.rebuilt == 0 && !cgv_desk_rebuilt(&desk, &r, &number) && cgv_missing(&desk.counters) == 1, "nothing is rebuilt");
    parity(g, 1, at(4));
    must(cgv_desk_row(&desk, &r, g, 216).number == CGV_DONE, "a row over a whole group");
    g[215] ^= 1;
    must(cgv_desk_row(&desk, &r, g, 216).number == CGV_CONTRADICTS && desk.counters.answers[CGV_CONTRADICTS] == 1, "and one that contradicts it");
    cgv_counters_line(&desk.counters, line, sizeof line);
    must(!strcmp(line, "received 15, recovered 0, late 0, missing 1, given up 0, alarms 0, spoilt 2, refused 1 (no. 18: 1)"), line);
    cgv_counters_add(&sum, &desk.counters);
    cgv_counters_add(&sum, &desk.counters);
    must(sum.spoilt == 4, "sums");
    end_receiver(&r);
}

/* A window of two matrices that moves on: what left is handed out or given up, what was rebuilt and not told leaves untold, and how
 * the others came moves down with them. */
static void moved_on(void)
{
    struct cgv_receiver r = new_receiver(2 * N, 188, K);
    struct cgv_desk desk;
    struct cgv_counters sum;
    uint8_t g[216], *out = malloc(CGV_MOVE_ROOM(10, 188));
    uint16_t *sizes = malloc(10 * sizeof *sizes), number = 0;
    char line[CGV_COUNTERS_LINE];
    int i;
    must(out && sizes, "room");
    memset(&desk, 0, sizeof desk);
    memset(&sum, 0, sizeof sum);
    must(cgv_receiver_open(&r, BASE, L, D, 188, 2 * N, K, 7).number == 0, "opens");
    cgv_desk_begin(&desk, &r);
    for (i = 0; i < N; i++)
        if (i != 0 && i != 1 && i != 5 && i != 10 && i != 13)
            cgv_desk_media(&desk, &r, g, media(g, at(i), byte_of(at(i))));
    cgv_desk_row(&desk, &r, g, parity(g, 1, at(4)));
    cgv_desk_column(&desk, &r, g, parity(g, 0, at(0)));
    cgv_desk_row(&desk, &r, g, parity(g, 1, at(0)));
    cgv_desk_row(&desk, &r, g, parity(g, 1, at(12)));
    must(desk.counters.rebuilt == 4 && cgv_desk_rebuilt(&desk, &r, &number) && number == at(0), "0, 1, 5 and 13 are rebuilt, and 0 is told");
    must(cgv_desk_move(&desk, &r, 0, out, CGV_MOVE_ROOM(10, 188), sizes, 10).number == CGV_BAD_MOVE &&
             desk.counters.answers[CGV_BAD_MOVE] == 1 && desk.counters.positions == 2 * N, "a move by 0 is refused and counted");
    must(cgv_desk_move(&desk, &r, 2, out, CGV_MOVE_ROOM(10, 188), sizes, 10).count == 2, "0 and 1 leave");
    must(desk.counters.handed_out == 2 && desk.counters.given_up == 0 && desk.counters.positions == 2 * N + 2, "and are handed out");
    must(desk.untold == 2 && cgv_desk_how(&desk, &r, at(5)) == CGV_HOW_REBUILT && cgv_desk_how(&desk, &r, at(4)) == CGV_HOW_ARRIVED &&
             cgv_desk_how(&desk, &r, at(1)) == CGV_HOW_NONE, "1 left untold; how the others came");
    must(cgv_desk_media(&desk, &r, g, media(g, at(1), byte_of(at(1)))).number == CGV_OUTSIDE && desk.counters.late == 0, "1 arrives behind the base");
    must(cgv_desk_rebuilt(&desk, &r, &number) && number == at(5), "5 is told after the move");
    must(cgv_desk_media(&desk, &r, g, media(g, at(5), byte_of(at(5)))).number == CGV_REPEAT && desk.counters.late == 1, "5 arrives late");
    must(cgv_desk_move(&desk, &r, 10, out, CGV_MOVE_ROOM(10, 188), sizes, 10).count == 9 && desk.counters.handed_out == 11 &&
             desk.counters.given_up == 1, "10 is given up");
    must(desk.untold == 1 && cgv_desk_rebuilt(&desk, &r, &number) && number == at(13), "13 is told, which was not while 5 was the last");
    must(cgv_desk_move(&desk, &r, 4, out, CGV_MOVE_ROOM(10, 188), sizes, 10).count == 4 && desk.untold == 0, "four more leave");
    must(!cgv_desk_rebuilt(&desk, &r, &number) && cgv_missing(&desk.counters) == 2 * N, "a window of packets to come");
    for (i = 0; i < 2 * N; i++)
        must(cgv_desk_how(&desk, &r, cgv_number(&r.window, (size_t)i)) == CGV_HOW_NONE && desk.how[i] == CGV_HOW_NONE, "none of them came");
    must(cgv_desk_move(&desk, &r, 4, out, CGV_MOVE_ROOM(4, 188) - 1, sizes, 10).number == CGV_SHORT_BUFFER, "a short output");
    cgv_counters_line(&desk.counters, line, sizeof line);
    must(!strcmp(line, "received 12, recovered 3, late 1, missing 32, given up 1, alarms 0, spoilt 0, refused 4 (no. 4: 1, no. 13: 1, no. 14: 1, no. 22: 1)"), line);
    cgv_counters_add(&sum, &desk.counters);
    cgv_counters_add(&sum, &desk.counters);
    must(sum.handed_out == 30 && sum.given_up == 2 && sum.answers[CGV_BAD_MOVE] == 2, "sums");
    cgv_desk_media(&desk, &r, g, media(g, cgv_number(&r.window, 2 * N - 1), 1));
    must(desk.how[2 * N - 1] == CGV_HOW_ARRIVED && cgv_desk_move(&desk, &r, 4, out, CGV_MOVE_ROOM(10, 188), sizes, 10).count == 0, "four to come are given up");
    must(desk.how[2 * N - 5] == CGV_HOW_ARRIVED && desk.how[2 * N - 1] == CGV_HOW_NONE, "nothing is known of the new last one");
    free(out);
    free(sizes);
    end_receiver(&r);
}

/* Two neighbours rebuilt at once; and a desk that begins over a window with packets in it, which are none of its own. */
static void neighbours(void)
{
    struct cgv_receiver r = new_receiver(N, 188, K);
    struct cgv_desk desk;
    uint8_t g[216];
    uint16_t number = 0;
    int i;
    memset(&desk, 0, sizeof desk);
    must(cgv_receiver_open(&r, BASE, L, D, 188, N, K, 7).number == 0, "opens");
    for (i = 4; i < N; i++)
        if (i != 5)
            cgv_receiver_media(&r, g, media(g, at(i), byte_of(at(i))));
    cgv_desk_begin(&desk, &r);
    must(desk.counters.positions == 5 && cgv_missing(&desk.counters) == 5, "five are to come");
    must(cgv_desk_media(&desk, &r, g, media(g, at(4), byte_of(at(4)))).number == CGV_REPEAT && desk.counters.late == 0 &&
             desk.counters.received == 0, "what was there before is not late");
    for (i = 0; i < 4; i++)
        if (i != 1)
            cgv_desk_column(&desk, &r, g, parity(g, 0, at(i)));
    must(desk.counters.rebuilt == 3, "0, 2 and 3 are rebuilt");
    cgv_desk_row(&desk, &r, g, parity(g, 1, at(0)));
    cgv_desk_row(&desk, &r, g, parity(g, 1, at(4)));
    must(desk.counters.rebuilt == 5 && desk.untold == 5, "and 1 and 5 by their rows");
    for (i = 0; i < 4; i++)
        must(cgv_desk_rebuilt(&desk, &r, &number) && number == at(i), "told one after the other");
    must(cgv_desk_rebuilt(&desk, &r, &number) && number == at(5) && !cgv_desk_rebuilt(&desk, &r, &number), "5 is the last");
    must(cgv_missing(&desk.counters) == 0 && cgv_recovered(&desk.counters) == 5, "all five are recovered");
    end_receiver(&r);
}

/* A window that claims more positions than there can be, over a store that has them: no byte behind the desk's own is used. */
static void past_the_desk(void)
{
    struct cgv_receiver r = new_receiver(500, 188, K);
    struct cgv_desk *desk = malloc(sizeof *desk);
    uint16_t number;
    size_t told = 0;
    must(desk != NULL, "room");
    memset(desk, 0, sizeof *desk);
    memset(r.store.marks, 1, 500);
    r.window.n = 500;
    r.window.p = 188;
    desk->untold = 500;
    while (cgv_desk_rebuilt(desk, &r, &number))
        told++;
    must(told == CGV_POSITIONS_MAX && cgv_desk_how(desk, &r, 450) == CGV_HOW_NONE, "no more are told than a window can have");
    cgv_desk_begin(desk, &r);
    must(desk->counters.positions == 0, "they are present");
    free(desk);
    end_receiver(&r);
}

/* Windows that were made up: nothing past a length is read, and every walk ends. */
static void made_up(void)
{
    static const size_t sizes[] = {0, 1, 15, 16, 17, 399, 400, 401, 65536, SIZE_MAX};
    size_t i, j, count = sizeof sizes / sizeof sizes[0];
    uint8_t g[216];
    uint16_t number;
    for (i = 0; i < count; i++)
        for (j = 0; j < count; j++) {
            struct cgv_receiver r = new_receiver(N, 188, K);
            struct cgv_desk desk;
            memset(&desk, 0, sizeof desk);
            must(cgv_receiver_open(&r, BASE, L, D, 188, N, K, 7).number == 0, "opens");
            memset(r.store.marks, 1, N);
            r.window.n = sizes[i];
            r.window.p = sizes[j];
            cgv_desk_begin(&desk, &r);
            memset(desk.how, CGV_HOW_NONE, sizeof desk.how);
            desk.untold = SIZE_MAX;
            cgv_desk_media(&desk, &r, g, media(g, BASE, 1));
            must(cgv_desk_move(&desk, &r, sizes[i], g, sizeof g, &number, 1).number != CGV_DONE, "a move of a window that was made up");
            while (cgv_desk_rebuilt(&desk, &r, &number))
                must(cgv_receiver_has(&r, number) && cgv_desk_how(&desk, &r, number) == CGV_HOW_REBUILT, "what is told is marked");
            end_receiver(&r);
        }
}

int main(int argc, char **argv)
{
    must(argc == 3, "usage: desk CAPTURE MIXED");
    without_a_loss(argv[1]);
    without_a_loss(argv[2]);
    at_a_stroke();
    spoilt();
    moved_on();
    neighbours();
    past_the_desk();
    made_up();
    printf("desk: %zu checks as they must be\n", checks);
    return 0;
}
