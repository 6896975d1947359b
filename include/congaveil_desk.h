/* Congaveil beside the desk: which packets were rebuilt, and counters for the operator.
 *
 * A desk is a plain struct that a card keeps beside a receiver: a byte for each position,
 * how its packet came, and counters. It lends nothing to the library, copies no marks, and
 * costs a byte written a media packet and n bytes a move; positions are searched only after
 * a rebuild.
 *
 *     static struct cgv_desk desk;                        zeros: nothing counted yet
 *     cgv_receiver_open(&r, ...);
 *     cgv_desk_begin(&desk, &r);                          after every opening
 *     a = cgv_desk_media(&desk, &r, datagram, len);       instead of cgv_receiver_media
 *     while (cgv_desk_rebuilt(&desk, &r, &number))        what was rebuilt since last asked
 *         send(number, cgv_receiver_payload(&r, number), cgv_receiver_length(&r, number));
 *     a = cgv_desk_move(&desk, &r, by, out, sizeof out, sizes, by);   as cgv_receiver_move
 *     cgv_counters_line(&desk.counters, text, sizeof text);
 *
 * Not proved; tested in C and in Rust, whose crate has the same.
 */
#ifndef CONGAVEIL_DESK_H
#define CONGAVEIL_DESK_H

#include "congaveil.h"

#ifdef __cplusplus
extern "C" {
#endif

/* Sums over all windows that a desk was begun with; they only grow, so a rate is the
 * difference of two readings. */
struct cgv_counters {
    uint64_t positions;            /* packets to come, when windows were opened and moved */
    uint64_t received;             /* media packets that arrived, each once, late ones too */
    uint64_t rebuilt;              /* packets rebuilt, also those that arrived afterwards */
    uint64_t late;                 /* rebuilt before they arrived */
    uint64_t alarms;               /* 15 on media: present, and another one arrived */
    uint64_t spoilt;               /* parity released: what it gave cannot be right */
    uint64_t handed_out;           /* packets that were present when their window moved on */
    uint64_t given_up;             /* packets that were missing then: lost for good */
    uint64_t answers[CGV_NUMBERS]; /* [0] offers taken in, [n] offers and moves refused with n;
                                      [18] tells of wrong packets, as alarms and spoilt do */
};

/* Rebuilt and never arrived: what the parity saved. */
static inline uint64_t cgv_recovered(const struct cgv_counters *c)
{
    return c->rebuilt > c->late ? c->rebuilt - c->late : 0;
}

/* Neither arrived nor rebuilt up to now, and not given up: what the window waits for, and what
 * earlier windows lacked when they were opened again. */
static inline uint64_t cgv_missing(const struct cgv_counters *c)
{
    uint64_t here = c->received + cgv_recovered(c) + c->given_up;
    return c->positions > here ? c->positions - here : 0;
}

/* Offers and moves that were refused. */
static inline uint64_t cgv_refused(const struct cgv_counters *c)
{
    uint64_t sum = 0;
    size_t i;
    for (i = 1; i < CGV_NUMBERS; i++)
        sum += c->answers[i];
    return sum;
}

/* Adds the counters of one desk to a sum, as for a card with several feeds. */
static inline void cgv_counters_add(struct cgv_counters *sum, const struct cgv_counters *c)
{
    size_t i;
    sum->positions += c->positions;
    sum->received += c->received;
    sum->rebuilt += c->rebuilt;
    sum->late += c->late;
    sum->alarms += c->alarms;
    sum->spoilt += c->spoilt;
    sum->handed_out += c->handed_out;
    sum->given_up += c->given_up;
    for (i = 0; i < CGV_NUMBERS; i++)
        sum->answers[i] += c->answers[i];
}

/* How a packet came. */
enum { CGV_HOW_NONE = 0, CGV_HOW_ARRIVED = 1, CGV_HOW_REBUILT = 2, CGV_HOW_LATE = 3 };

struct cgv_desk {
    struct cgv_counters counters;
    size_t untold; /* packets rebuilt that cgv_desk_rebuilt has not told yet */
    size_t from;   /* no position before this one is untold */
    uint8_t how[CGV_POSITIONS_MAX]; /* CGV_HOW_NONE with a mark of 1: rebuilt and untold */
};

/* From now on the desk speaks of the window that r has open. What is present in it already
 * counts neither as to come nor as rebuilt. The counters go on. */
static inline void cgv_desk_begin(struct cgv_desk *desk, const struct cgv_receiver *r)
{
    size_t i;
    desk->untold = 0;
    desk->from = 0;
    for (i = 0; i < CGV_POSITIONS_MAX; i++) {
        int present = i < r->window.n && i < r->store.marks_len && r->store.marks[i] == 1;
        desk->how[i] = CGV_CAST(uint8_t, present ? CGV_HOW_ARRIVED : CGV_HOW_NONE);
        desk->counters.positions += i < r->window.n && !present;
    }
}

static inline void cgv_desk_book(struct cgv_desk *desk, struct cgv_answer a)
{
    if (a.number < CGV_NUMBERS)
        desk->counters.answers[a.number]++;
    desk->counters.spoilt += a.spoilt;
    if (a.count) {
        desk->counters.rebuilt += a.count;
        desk->untold += a.count;
        desk->from = 0;
    }
}

/* Offers a datagram of the media port, and counts. */
static inline struct cgv_answer cgv_desk_media(struct cgv_desk *desk, struct cgv_receiver *r,
                                               const uint8_t *datagram, size_t len)
{
    struct cgv_answer a = cgv_receiver_media(r, datagram, len);
    uint16_t number = 0;
    size_t position;
    cgv_desk_book(desk, a);
    if (a.number != CGV_DONE && a.number != CGV_REPEAT && a.number != CGV_DIFFERS)
        return a;
    desk->counters.alarms += a.number == CGV_DIFFERS;
    position = cgv_media_number(datagram, len, &number) ? cgv_position(&r->window, number)
                                                        : CGV_POSITIONS_MAX;
    if (position >= CGV_POSITIONS_MAX)
        return a;
    if (a.number == CGV_DONE) {
        desk->how[position] = CGV_HOW_ARRIVED;
        desk->counters.received++;
    } else if (desk->how[position] == CGV_HOW_NONE || desk->how[position] == CGV_HOW_REBUILT) {
        desk->untold -= desk->how[position] == CGV_HOW_NONE && desk->untold > 0;
        desk->how[position] = CGV_HOW_LATE;
        desk->counters.received++;
        desk->counters.late++;
    }
    return a;
}

/* Offers a datagram of the column parity port, and counts. */
static inline struct cgv_answer cgv_desk_column(struct cgv_desk *desk, struct cgv_receiver *r,
                                                const uint8_t *datagram, size_t len)
{
    struct cgv_answer a = cgv_receiver_column(r, datagram, len);
    cgv_desk_book(desk, a);
    return a;
}

/* Offers a datagram of the row parity port, and counts. */
static inline struct cgv_answer cgv_desk_row(struct cgv_desk *desk, struct cgv_receiver *r,
                                             const uint8_t *datagram, size_t len)
{
    struct cgv_answer a = cgv_receiver_row(r, datagram, len);
    cgv_desk_book(desk, a);
    return a;
}

/* Moves the window on, and counts. Packets that were rebuilt and not told are not told after
 * they have left: they are in the output. */
static inline struct cgv_answer cgv_desk_move(struct cgv_desk *desk, struct cgv_receiver *r,
                                              size_t by, uint8_t *out, size_t out_len,
                                              uint16_t *sizes, size_t sizes_len)
{
    struct cgv_answer a = cgv_receiver_move(r, by, out, out_len, sizes, sizes_len);
    size_t i, end = r->window.n < CGV_POSITIONS_MAX ? r->window.n : CGV_POSITIONS_MAX;
    if (a.number != CGV_DONE) {
        if (a.number < CGV_NUMBERS)
            desk->counters.answers[a.number]++;
        return a;
    }
    desk->counters.positions += by;
    desk->counters.handed_out += a.count;
    desk->counters.given_up += by - a.count;
    for (i = 0; i < end; i++) {
        if (i < by && i < sizes_len && sizes[i] && desk->how[i] == CGV_HOW_NONE)
            desk->untold -= desk->untold > 0;
        desk->how[i] = CGV_HOW_NONE;
        if (by < end - i)
            desk->how[i] = desk->how[i + by];
    }
    desk->from = desk->from > by ? desk->from - by : 0;
    return a;
}

/* The next packet that was rebuilt and not told yet: 1 and its number, in order of position
 * after each offer, or 0. A packet that arrived before it was told is not told. Ask after
 * each offer, or less often. */
static inline int cgv_desk_rebuilt(struct cgv_desk *desk, const struct cgv_receiver *r,
                                   uint16_t *number)
{
    size_t i, end = r->window.n;
    if (!desk->untold)
        return 0;
    end = end < r->store.marks_len ? end : r->store.marks_len;
    end = end < CGV_POSITIONS_MAX ? end : CGV_POSITIONS_MAX;
    for (i = desk->from; i < end; i++)
        if (r->store.marks[i] == 1 && desk->how[i] == CGV_HOW_NONE) {
            desk->how[i] = CGV_HOW_REBUILT;
            desk->untold--;
            desk->from = i + 1;
            *number = cgv_number(&r->window, i);
            return 1;
        }
    desk->untold = 0;
    return 0;
}

/* How the packet of a number came: CGV_HOW_NONE where it is missing or not of the window,
 * CGV_HOW_REBUILT where it is recovered, told or not. */
static inline int cgv_desk_how(const struct cgv_desk *desk, const struct cgv_receiver *r,
                               uint16_t number)
{
    size_t position = cgv_position(&r->window, number);
    if (!cgv_receiver_has(r, number) || position >= CGV_POSITIONS_MAX)
        return CGV_HOW_NONE;
    if (desk->how[position] == CGV_HOW_NONE)
        return CGV_HOW_REBUILT;
    return desk->how[position];
}

/* ---- a line of text, made without the C library */

#define CGV_COUNTERS_LINE 1024 /* room for the longest line, and the zero that ends it */

struct cgv_text {
    char *out;
    size_t room, len;
};

static inline void cgv_text_put(struct cgv_text *t, const char *words)
{
    for (; *words; words++, t->len++)
        if (t->len < t->room)
            t->out[t->len] = *words;
}

static inline void cgv_text_number(struct cgv_text *t, uint64_t value)
{
    char digits[21]; /* 2^64 has 20 */
    size_t i = sizeof digits - 1;
    digits[i] = 0;
    do {
        digits[--i] = CGV_CAST(char, '0' + value % 10);
        value /= 10;
    } while (value);
    cgv_text_put(t, digits + i);
}

/* Writes the counters as a line of text, without an end of line, cut to room - 1 bytes and
 * ended by a zero; nothing is written where room is 0. Gives the length of the whole line. */
static inline size_t cgv_counters_line(const struct cgv_counters *c, char *out, size_t room)
{
    struct cgv_text t = {out, room, 0};
    size_t i;
    int some = 0;
    cgv_text_put(&t, "received ");
    cgv_text_number(&t, c->received);
    cgv_text_put(&t, ", recovered ");
    cgv_text_number(&t, cgv_recovered(c));
    cgv_text_put(&t, ", late ");
    cgv_text_number(&t, c->late);
    cgv_text_put(&t, ", missing ");
    cgv_text_number(&t, cgv_missing(c));
    cgv_text_put(&t, ", given up ");
    cgv_text_number(&t, c->given_up);
    cgv_text_put(&t, ", alarms ");
    cgv_text_number(&t, c->alarms);
    cgv_text_put(&t, ", spoilt ");
    cgv_text_number(&t, c->spoilt);
    cgv_text_put(&t, ", refused ");
    cgv_text_number(&t, cgv_refused(c));
    for (i = 1; i < CGV_NUMBERS; i++)
        if (c->answers[i]) {
            cgv_text_put(&t, some ? ", " : " (");
            cgv_text_put(&t, "no. ");
            cgv_text_number(&t, i);
            cgv_text_put(&t, ": ");
            cgv_text_number(&t, c->answers[i]);
            some = 1;
        }
    if (some)
        cgv_text_put(&t, ")");
    if (room)
        out[t.len < room ? t.len : room - 1] = 0;
    return t.len;
}

#ifdef __cplusplus
}
#endif

#endif
