/* Calls the card of tests/bare.rs: a packet taken in, an opening and a made-up window value refused, the line of its counters; a
 * window that moves on; a capture file, read and written again, whole and cut; and a sender that gives a row, is refused, and takes a made-up value. */
#include "congaveil.h"
#include <stdbool.h>
#include <stdio.h>
#include <string.h>

struct card {
    uint8_t media[16 * 188];
    uint32_t timestamps[16];
    uint16_t lengths[16];
    uint8_t marks[16], parity[8 * 188];
    struct cgv_record records[8];
    uint8_t datagram[216];
    size_t len;
    char line[256];
};

struct file {
    uint8_t bytes[64];
    size_t len;
    uint8_t again[64];
};

struct link {
    uint8_t payloads[CGV_ROOM(4) * 188];
    uint32_t timestamps[CGV_ROOM(4)];
    uint16_t lengths[CGV_ROOM(4)], longest[CGV_ROOM(4)];
    uint8_t row[216], column[216], datagram[200];
    size_t len;
};

int bare_capture(struct file *file, size_t cut, size_t index);
int bare_sender(struct link *link, const size_t *set_up, const struct cgv_sender *made_up, bool opens, uint16_t number);
int bare_card(struct card *card, const size_t *set_up, const struct cgv_window *made_up, bool opens, uint16_t number);

int bare_move(struct card *card, struct cgv_window *window, size_t by, uint8_t *out, uint16_t *sizes);

/* By two, of which the second is there; then by each number that is refused, and a made-up window. */
static int moves(struct card *card)
{
    struct cgv_window w = {65530, 1, 4, 4, 188, 16, 8, 1, 0}, huge = {0, 0, 4, 4, SIZE_MAX, 16, 8, 0, 0};
    static uint8_t out[400];
    uint16_t sizes[2] = {9, 9};
    if (bare_move(card, &w, 0, out, sizes) != -22 || bare_move(card, &w, SIZE_MAX, out, sizes) != -22 || bare_move(card, &w, 3, out, sizes) != -4 ||
        bare_move(card, &huge, 1, out, sizes) != -2 || sizes[0] != 9)
        return 0;
    return bare_move(card, &w, 2, out, sizes) == 200 && w.base == 65532 && w.present == 0 && sizes[0] == 0 && sizes[1] == 200 &&
           out[200] == 0x80 && out[203] == 0xfb && card->marks[1] == 0;
}

/* A row of four across the wrap, of which each byte of the payload cancels out; then each way to be refused. */
static int sends(void)
{
    static struct link link;
    static const struct cgv_sender none = CGV_NO_SENDER, far = {0, 0, 1, 4, 4, 188, SIZE_MAX};
    const size_t good[5] = {65534, 0, 4, 4, 188}, bad[5] = {65534, 1, SIZE_MAX, 4, 188};
    link.datagram[0] = 0x80, link.datagram[1] = 33, link.datagram[12] = 9;
    link.len = 200;
    if (bare_sender(&link, good, &none, true, 5) != 216 || link.row[3] != 5 || link.row[7] != 5 || link.row[28] || link.column[0])
        return 0;
    if (bare_sender(&link, bad, &none, true, 5) != -1 || bare_sender(&link, good, &none, false, 5) != -1)
        return 0;
    if (bare_sender(&link, good, &far, false, 5) != -5)
        return 0;
    link.len = 199;
    return bare_sender(&link, good, &none, true, 5) == -9;
}

int main(void)
{
    static struct card card;
    static struct file file = {{0, 2, 4, 4, 0, 188, 0xFF, 0xFA, 0, 16, 0, 8, 1, 0, 0, 2, 0, 0, 0, 28, 3, 0, 0, 2, 0, 0, 0, 30, 1, 2, 3, 4}, 32, {0}};
    static const struct cgv_window huge = {0, 0, 4, 4, SIZE_MAX, 16, 8, 0, 0};
    size_t good[6] = {65530, 4, 4, 188, 16, 8}, bad[6] = {0, 4, 4, 188, 401, 8};
    int i, answers[3];
    card.datagram[0] = 0x80, card.datagram[1] = 33, card.datagram[2] = 0xff, card.datagram[3] = 0xfb;
    card.len = 200;
    answers[0] = bare_card(&card, good, &huge, true, 65531);
    if (strcmp(card.line, "received 1, recovered 0, late 0, missing 15, given up 0, alarms 0, spoilt 0, refused 2 (no. 8: 2)") || card.marks[1] != 1 ||
        card.lengths[1] != 188) {
        fprintf(stderr, "bare: %s\n", card.line);
        return 1;
    }
    if (!moves(&card)) {
        fprintf(stderr, "bare: the move\n");
        return 1;
    }
    answers[1] = bare_card(&card, bad, &huge, true, 0);
    answers[2] = bare_card(&card, good, &huge, false, 0);
    for (i = 0; i < 3; i++)
        if (answers[i] != (i == 0 ? -17 : i == 1 ? -3 : -2)) {
            fprintf(stderr, "bare: answer %d is %d\n", i, answers[i]);
            return 1;
        }
    if (bare_capture(&file, 7, 1) != 32 || memcmp(file.again, file.bytes, sizeof file.bytes)) {
        fprintf(stderr, "bare: the file is not written as it was read\n");
        return 1;
    }
    file.len = 31;
    if (bare_capture(&file, 64, 0) != -21) {
        fprintf(stderr, "bare: a file that is cut is taken\n");
        return 1;
    }
    if (!sends()) {
        fprintf(stderr, "bare: the sender\n");
        return 1;
    }
    printf("bare: the crate without std and without a way to a panic\n");
    return 0;
}
