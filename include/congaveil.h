/* Congaveil: rebuilds lost RTP packets of live video from row and column parity
 * (Pro-MPEG Code of Practice 3, SMPTE 2022-1).
 *
 * A card opens a window over n consecutive packets, offers it every datagram that
 * arrives, and moves it on with the stream, which hands out the packets that it leaves
 * behind; it can also read single packets, and write the parity of any complete group.
 * A card that sends opens a sender, and gets the parity packets as they are due.
 * The library keeps nothing: the card lends the store to every call, and gets
 * the next window value back beside the answer. It has no heap, clock, socket or
 * variable of its own, asks for memcpy, memmove and memset and nothing else, and runs on
 * x86-64.
 *
 *     static uint8_t media[200 * 1316], marks[200], parity[40 * 1316];
 *     static uint32_t timestamps[200];
 *     static uint16_t lengths[200];
 *     static struct cgv_record records[40];
 *     static struct cgv_receiver r = {
 *         CGV_NO_WINDOW,
 *         CGV_STORE_OF_ARRAYS(media, timestamps, lengths, marks, parity, records)};
 *
 *     cgv_receiver_open(&r, first_number, 10, 10, 1316, 200, 40, ssrc);
 *     cgv_receiver_media(&r, datagram, len);   (from the media port; _column: two ports
 *                                               higher; _row: four ports higher)
 *     payload = cgv_receiver_payload(&r, number);   (NULL where it is missing)
 *     len = cgv_receiver_length(&r, number);        (its bytes; 0 where it is missing)
 *     cgv_receiver_move(&r, by, out, sizeof out, sizes, by);   (An endless stream, below)
 *
 * What a call does is proved for every input: answer, next window value and every lent
 * byte are those of its definition. The functions written out in this header are not
 * proved; they are tested.
 *
 * What the caller owes
 *   - Every pointer is valid for its length, also where the length is 0 (not NULL), and
 *     aligned for its type.
 *   - The buffers of one call do not overlap.
 *   - A call that may write the store (cgv_open, cgv_media, cgv_column, cgv_row, cgv_move)
 *     is alone on that store, and the two calls of a sender are alone on its room. Calls that only
 *     read a store (cgv_read, cgv_write_column, cgv_write_row and the helpers here that take
 *     a const receiver) may run side by side, each with an output of its own. Calls on
 *     different stores or rooms never meet. The calls of capture files take no store; they
 *     read what they are lent and write the output alone.
 * Nothing is asked of what the buffers and datagrams hold: no packet needs vetting first.
 *
 * Lengths
 *   P is the largest payload. A payload is one or more whole transport packets up to P,
 *   each packet its own number of them; they have 188 bytes where P is a multiple of 188,
 *   else 204. A parity payload is as long as the longest of its group, the shorter ones
 *   counting as filled up with zeros, and its length recovery is the exclusive-or of the
 *   group's lengths. A media datagram is 12 bytes and its payload, a parity datagram 28
 *   bytes and its payload.
 *
 * The store: position i stands for sequence number (base + i) modulo 65,536
 *   media       n x P bytes: the payload of position i is the lengths[i] bytes at
 *               media + i * P, and zeros up to P
 *   timestamps  n numbers in the machine's byte order
 *   lengths     n numbers in the machine's byte order: payload bytes of position i
 *   marks       n bytes: 1 the packet of position i is present, received or rebuilt;
 *               0 it is missing, and the bytes at media + i * P, timestamps[i] and
 *               lengths[i] mean nothing
 *   parity      K x P bytes: the payload of record j at parity + j * P, zeros up to P
 *   records     K records: parity packets in hand, that wait for two or more packets
 * Where marks[i] is 1, media + i * P, timestamps[i] and lengths[i] may be read directly,
 * between calls. Nobody but the calls may write the store while a window is open; a store
 * that was changed is refused with 5 as far as that can be seen. Bytes past a kept length
 * count as zero, whatever stands there.
 * A buffer may be longer than its need; what is past the need is never touched.
 * cgv_open writes all that the window needs of the six parts, an offer and cgv_move some of
 * that; cgv_read and the writing of parity write the output alone, and of that as many bytes
 * as the count says.
 *
 * How large
 *   n: L x D at least, 400 at most. Senders put a matrix's column parity on the line
 *   while the next matrix goes by, so take 2 x L x D or more; An endless stream, below, says
 *   how much more.
 *   K: 128 at most. Room for every parity packet that may be of use is as many as there
 *   are groups in the window: L + D for each L x D positions, rounded up (L alone where
 *   there are no rows). With less, 16 says that one was not taken; with that much, the
 *   unaltered traffic of one sender never meets 16.
 *   Anyone who can send to the parity ports can hold all K records with K forged parity
 *   packets, each over packets that are missing, until these arrive or the window has moved
 *   past one of them: true parity then meets 16. And forged or damaged parity rebuilds wrong
 *   packets, which nothing shows but a 15 when the true one arrives, or an 18 when other
 *   parity of theirs does; where the packet that it gives cannot be right at all, it is
 *   spoilt. Sender addresses are the card's to check.
 *
 * What to do with an answer
 *   0          taken in. The count of an offer is packets rebuilt, and not packets lost on
 *              the line: some senders (GStreamer) send a row's parity before the row's
 *              last packet, so a stream without a loss reports rebuilt packets, each
 *              followed by a 14. "Recovered" is rebuilt and never arrived;
 *              congaveil_desk.h counts so.
 *   spoilt     of an answer 0: so many parity packets gave a packet that cannot be right
 *              (no bytes, not whole transport packets, longer than the parity, or with
 *              bytes past its end). They are released, and the packet stays missing unless
 *              other parity gives it. Unaltered traffic never shows one: parity was damaged
 *              or forged, or a media packet of its group was, which may have gone to air.
 *              Tell the desk.
 *   13 14 16   routine: behind the window or ahead of it; already there; no room for it now.
 *              A sender's 13 is a gap in what is to be sent: open again, as said under Sending.
 *   15         on media THE ALARM: a packet already marked present differs from the one
 *              that arrived. One of the two is wrong, and the one in the store may have
 *              gone to air. On parity: two parity packets of one group differ.
 *   18         of parity: all of its group is present, and gives another parity packet. The
 *              parity is wrong, or a packet of its group is, which may have gone to air.
 *              Unaltered traffic never meets it; after one wrong packet, true parity may.
 *              Tell the desk.
 *   17         routine when reading: the packet is missing.
 *   6 to 12    a datagram of another kind, port or profile, or a damaged one.
 *   1 to 5     a fault in the card: set-up, buffers, or a store or room that somebody
 *              changed.
 *   22         a fault in the card: a move by 0 or by more than n positions.
 *   21         of a capture file alone: it is not a proper one, or what was to be written
 *              would not be.
 * A refused call gives a count of 0 and has written to none of the buffers. It hands back
 * the window or sender value that it was given; a refused opening gives one of zeros, which
 * every other call refuses with 1.
 *
 * Stack and time
 *   A call needs less than 8 KiB of stack: 7,304 bytes measured on a painted stack, with
 *   its arguments; tests/guard.c fails above 8 KiB.
 *   Time goes with n, K and P, with the records in use and with the packets rebuilt.
 *   At P 1,316, n 400, K 128 a media packet takes some 0.2 us and the worst call found,
 *   one late packet that rebuilds 100, some 45 us: docs/PERFORMANCE.md, which says with
 *   which kit the times were taken.
 *   A move goes with n x P, since all that stays moves down: at P 1,316, n 200 some 7 us by
 *   100 and some 4 us by 1. All calls together come to some 0.25 us a packet where a window
 *   moves by 100, and to some 4 us where it moves by 1.
 *
 * An endless stream (examples/endless.c, examples/card.c)
 *   One window moves with the stream. cgv_move takes the base on by 1 to n positions: it
 *   writes the packets that leave, in order, as datagrams, moves the others down, and makes
 *   room for as many at the end.
 *
 *     static uint8_t out[CGV_MOVE_ROOM(100, 1316)];
 *     static uint16_t sizes[100];
 *
 *     (before each datagram is offered, with CGV_PORT_MEDIA, _COLUMN or _ROW)
 *     while (cgv_receiver_ahead(&r, port, datagram, len) &&
 *            cgv_receiver_move(&r, 100, out, sizeof out, sizes, 100).number == CGV_DONE)
 *         for (i = 0; i < 100; i++) {
 *             struct cgv_left left =
 *                 cgv_receiver_left(&r, 100, i, out, sizeof out, sizes, 100);
 *             if (left.datagram)
 *                 send_on(left.datagram, left.len);
 *             else
 *                 given_up(left.number);
 *         }
 *
 *   When: for a packet ahead of the window, and also for parity with a member there. The
 *   last packet of a row may be lost, and then the row's parity is the first to speak of it;
 *   a window that moves for media alone refuses that parity with 13.
 *   How far: by L x D, a matrix at a time, or by 1, which costs more time a packet and lets
 *   each packet out when the n-th after it comes. How large n: 2 x L x D where the window
 *   moves by 1, or by L x D from a base at which a matrix starts; 2 x L x D + by from any
 *   base. With less, a window leaves packets behind whose column is not on the line yet.
 *   Of some 4,000 packets lost (10 x 10, 2 % lost, joined in mid-matrix) 2 were given up by
 *   windows of these sizes, 120 by one of 2 x L x D that moved by L x D from there, and 63
 *   by one that moved by 1 and for media alone.
 *   What is behind the base: a packet that comes later than that meets 13, and so does
 *   parity with a member there. Parity in hand with a member there is released by the move,
 *   since it needs a packet that has left.
 *   How far ahead: a number far ahead of the window may be forged, and moving up to it gives
 *   up all that the window waits for. cgv_receiver_ahead asks for less than n positions past
 *   its end; where the stream itself has jumped further, open again.
 *
 * Sending (examples/send.c)
 *   A sender takes media packets one by one, in order, and keeps running parity in lent room
 *   for 2 x L + 1 payloads; no packet is kept.
 *
 *     static uint8_t payloads[CGV_ROOM(10) * 1316], row[28 + 1316], column[28 + 1316];
 *     static uint32_t timestamps[CGV_ROOM(10)];
 *     static uint16_t lengths[CGV_ROOM(10)], longest[CGV_ROOM(10)];
 *     static struct cgv_stream s = {
 *         CGV_NO_SENDER, CGV_ROOM_OF_ARRAYS(payloads, timestamps, lengths, longest),
 *         CGV_OUTPUTS_OF_ARRAYS(row, column), CGV_NO_OUTER, CGV_NO_OUTER};
 *
 *     cgv_stream_open(&s, first_number, CGV_ALIGNED, 10, 10, 1316);
 *     sent = cgv_stream_media(&s, datagram, len, timestamp);   (every media packet, in order)
 *     if (sent.number == CGV_DONE) {
 *         to_port(media_port, datagram, len);
 *         if (sent.column) to_port(media_port + 2, column, sent.column);
 *         if (sent.row)    to_port(media_port + 4, row, sent.row);
 *     }
 *
 *   One call gives at most one row and one column packet: the bytes written to each output,
 *   or 0, and then it is as it was. Each parity stream has a UDP port of its own, columns two
 *   higher than the media, rows four higher, and sequence numbers of its own; the timestamp
 *   is that of the moment of sending, in practice the media packet's.
 *   Room: 2 x L + 1 payloads of P bytes, and as many timestamps, lengths and longest lengths,
 *   58,548 bytes of payloads at most. Each output has 28 + P bytes, at every call, used or
 *   not. The room is the calls' own from the opening on; nobody else writes it.
 *   When: a row goes out with its last member, where L is at least 4; below that there are
 *   none. A staggered column goes out L packets after its last member. Aligned columns all
 *   end in the last row of a matrix and go out one by one, D packets apart, while the next
 *   matrix goes by: column k (from 0) with packet k x D of that, L + k x (D - 1) packets
 *   after its last member. That is L x D - D + 1 at most: 91 at 10 x 10, where a staggered
 *   column takes 10. The columns that are not out when the media end do not go out.
 *   Numbers: 13 says that a packet's number is not the next one. Nothing is taken in then, and
 *   a sender does not resynchronise: after a gap open again, at the number that is there. The
 *   groups that were not whole are lost to the parity; the parity streams number on.
 *
 * Capture files (examples/card.c; tools/capture-from-pcap makes one of a pcap)
 *   What a card saw, to be replayed elsewhere: the set-up of a window, and up to 512
 *   datagrams in the order in which they came, each with its port. Numbers are big-endian.
 *     header      12 bytes: entry count (2), L, D (1 each), P, base, n, K (2 each)
 *     table       8 bytes an entry: port (1), a zero (1), length (2), and start (4), which
 *                 counts from the file's first byte
 *     bodies      in the order of the table, no gaps, nothing after; 1,500 bytes each at most
 *   No entries and empty bodies are proper. One content has one file.
 *   Saving: keep the port of each datagram that came, its length, and its bytes behind those
 *   of the one before; cgv_capture_write makes the file of these three.
 *   Judging: a file in memory is one piece, and whole where the answer is 0. One that is too
 *   large for that is read in pieces, cut anywhere, the reader of an answer going into the
 *   next call; it is whole where the last answer is 0.
 *   Walking: cgv_capture_header and cgv_capture_entry need only the front of a file, 4,108
 *   bytes at most. They do not judge the file: ask cgv_capture_read first.
 *
 *     static const struct cgv_reader start = CGV_CAPTURE_START;
 *     if (cgv_capture_read(start, file, len).number == CGV_DONE)
 *         for (i = 0; i < cgv_capture_header(file, len).count; i++) {
 *             struct cgv_entry e = cgv_capture_entry(file, len, i);
 *             offer(e.port, cgv_capture_body(file, len, e), e.length);
 *         }
 */
#ifndef CONGAVEIL_H
#define CONGAVEIL_H

#include <stddef.h>
#include <stdint.h>

#define CGV_VERSION_MAJOR 0
#define CGV_VERSION_MINOR 1
#define CGV_VERSION_PATCH 0
#define CGV_VERSION "0.1.0"

/* Limits and header sizes; sizes are in bytes. */
#define CGV_L_MAX 20           /* columns, from 1; rows carry parity only where L >= 4 */
#define CGV_D_MIN 4            /* rows */
#define CGV_D_MAX 20
#define CGV_MATRIX_MAX 100     /* L x D */
#define CGV_PAYLOAD_MAX 1428   /* P: k x 188 or k x 204, k from 1 to 7 */
#define CGV_POSITIONS_MAX 400  /* n, from L x D */
#define CGV_RECORDS_MAX 128    /* K, from 1 */
#define CGV_MEDIA_HEADER 12    /* RTP header */
#define CGV_PARITY_HEADER 28   /* RTP header and parity header */
#define CGV_MEDIA_DATAGRAM_MAX (CGV_MEDIA_HEADER + CGV_PAYLOAD_MAX)
#define CGV_PARITY_DATAGRAM_MAX (CGV_PARITY_HEADER + CGV_PAYLOAD_MAX)
#define CGV_ENTRIES_MAX 512        /* entries of a capture file */
#define CGV_BODY_MAX 1500          /* bytes of an entry's body */
#define CGV_CAPTURE_FRONT_MAX 4108 /* header and table: 12 + 512 x 8 */
#define CGV_CAPTURE_MAX 772108     /* a capture file: 12 + 512 x (8 + 1,500) */

#ifdef __cplusplus
#define CGV_CAST(type, value) static_cast<type>(value)
extern "C" {
#else
#define CGV_CAST(type, value) ((type)(value))
#endif

/* A window value. Only the calls make one; a made-up value is taken at its word as far
 * as it passes refusals 1 to 5. It may be copied and looked at. */
struct cgv_window {
    uint16_t base;   /* sequence number of position 0 */
    uint32_t ssrc;   /* written by cgv_read */
    size_t l, d;     /* columns and rows of the parity matrix */
    size_t p;        /* payload bytes of a media packet at most */
    size_t n;        /* positions */
    size_t k;        /* records: room for parity packets in hand */
    size_t present;  /* packets present */
    size_t in_use;   /* records in use */
};

/* A parity packet in hand; its payload stands at the same index of the parity part.
 * The numbers are in the machine's byte order. */
struct cgv_record {
    uint8_t stream;  /* 0 a column, 1 a row */
    uint8_t in_use;  /* 1, or 0 where the record is free */
    uint16_t snbase;
    uint32_t timestamp_recovery;
    uint16_t length_recovery;
    uint16_t payload_length; /* bytes of its own payload */
};

/* number: CGV_DONE or the refusal. count: packets rebuilt by an offer, packets written by
 * cgv_move, or bytes written by cgv_read and the writing of parity. spoilt: parity packets that an offer released
 * because the packet that they gave cannot be right; 0 of every other call and refusal.
 * window: to be passed to the next call. */
struct cgv_answer {
    uint32_t number;
    size_t count;
    size_t spoilt;
    struct cgv_window window;
};

/* Where a datagram came in, as a capture file has it. */
enum { CGV_PORT_MEDIA = 1, CGV_PORT_COLUMN = 2, CGV_PORT_ROW = 3 };

/* What the header of a capture file says. number: 0, or 21 with all else 0. */
struct cgv_capture {
    uint32_t number;
    uint16_t base;
    size_t count;    /* entries */
    size_t l, d, p, n, k;
};

/* An entry of a capture file. number: 0, or 21 with all else 0. */
struct cgv_entry {
    uint32_t number;
    uint8_t port;
    size_t start;    /* of its body, counted from the file's first byte */
    size_t length;   /* of its body */
};

/* Where the reading of a capture file stands. It starts from CGV_CAPTURE_START; only
 * cgv_capture_read makes another one. A made-up one counts as refused where its numbers
 * are out of bounds, and else is taken at its word. */
struct cgv_reader {
    uint32_t stage, left, next, sum, at, size;
};
#define CGV_CAPTURE_START {0, 0, 0, 0, 0, 0}
#define CGV_CAPTURE_REFUSED 3 /* the stage of a reader that no further piece helps */

/* number: 0 where all bytes read so far are a whole capture file, else 21. reader: to be
 * passed to the next call, with the next piece. */
struct cgv_reading {
    uint32_t number;
    struct cgv_reader reader;
};

/* number: 0 with the count of bytes written, or 21 or 4 with a count of 0. */
struct cgv_written {
    uint32_t number;
    size_t count;
};

/* Which packets a column has. Aligned: the columns of a matrix start at its first L packets.
 * Staggered: column r starts in row r modulo D, so that columns end, and go out, spread over
 * the time of a matrix. Any other number counts as staggered. */
enum { CGV_ALIGNED = 0, CGV_STAGGERED = 1 };

/* A sender value. Only the calls make one; a made-up value is taken at its word as far as it
 * passes refusals 1, 2, 4 and 5. It may be copied and looked at. */
struct cgv_sender {
    uint16_t first;      /* the first sequence number */
    uint16_t taken;      /* packets taken in, modulo 65,536: the next number is first + taken */
    uint8_t arrangement; /* CGV_ALIGNED or CGV_STAGGERED */
    size_t l, d;         /* columns and rows of the parity matrix */
    size_t p;            /* payload bytes of a media packet at most */
    size_t at;           /* where in the arrangement it stands: below 3 x L x D */
};

/* What a parity packet takes from the caller: RTP sequence number and timestamp, and the SSRC. */
struct cgv_outer {
    uint16_t sequence;
    uint32_t timestamp;
    uint32_t ssrc;
};

/* number: CGV_DONE or the refusal. row, column: bytes written to each output, 0 where no such
 * packet goes out now, and of a refusal. sender: to be passed to the next call. */
struct cgv_sent {
    uint32_t number;
    size_t row;
    size_t column;
    struct cgv_sender sender;
};

/* The library was compiled for this layout; a compiler that differs stops here. */
#define CGV_LAYOUT(name, holds) typedef char cgv_layout_##name[(holds) ? 1 : -1]
CGV_LAYOUT(size_t_has_8_bytes, sizeof(size_t) == 8);
CGV_LAYOUT(window, sizeof(struct cgv_window) == 64 && offsetof(struct cgv_window, ssrc) == 4 &&
                       offsetof(struct cgv_window, l) == 8 && offsetof(struct cgv_window, d) == 16 &&
                       offsetof(struct cgv_window, p) == 24 && offsetof(struct cgv_window, n) == 32 &&
                       offsetof(struct cgv_window, k) == 40 && offsetof(struct cgv_window, present) == 48 &&
                       offsetof(struct cgv_window, in_use) == 56);
CGV_LAYOUT(record, sizeof(struct cgv_record) == 12 && offsetof(struct cgv_record, in_use) == 1 &&
                       offsetof(struct cgv_record, snbase) == 2 &&
                       offsetof(struct cgv_record, timestamp_recovery) == 4 &&
                       offsetof(struct cgv_record, length_recovery) == 8 &&
                       offsetof(struct cgv_record, payload_length) == 10);
CGV_LAYOUT(answer, sizeof(struct cgv_answer) == 88 && offsetof(struct cgv_answer, count) == 8 &&
                       offsetof(struct cgv_answer, spoilt) == 16 &&
                       offsetof(struct cgv_answer, window) == 24);
CGV_LAYOUT(capture, sizeof(struct cgv_capture) == 56 && offsetof(struct cgv_capture, base) == 4 &&
                        offsetof(struct cgv_capture, count) == 8 && offsetof(struct cgv_capture, l) == 16 &&
                        offsetof(struct cgv_capture, d) == 24 && offsetof(struct cgv_capture, p) == 32 &&
                        offsetof(struct cgv_capture, n) == 40 && offsetof(struct cgv_capture, k) == 48);
CGV_LAYOUT(entry, sizeof(struct cgv_entry) == 24 && offsetof(struct cgv_entry, port) == 4 &&
                      offsetof(struct cgv_entry, start) == 8 && offsetof(struct cgv_entry, length) == 16);
CGV_LAYOUT(reader, sizeof(struct cgv_reader) == 24 && offsetof(struct cgv_reader, left) == 4 &&
                       offsetof(struct cgv_reader, next) == 8 && offsetof(struct cgv_reader, sum) == 12 &&
                       offsetof(struct cgv_reader, at) == 16 && offsetof(struct cgv_reader, size) == 20);
CGV_LAYOUT(reading, sizeof(struct cgv_reading) == 28 && offsetof(struct cgv_reading, reader) == 4);
CGV_LAYOUT(written, sizeof(struct cgv_written) == 16 && offsetof(struct cgv_written, count) == 8);
CGV_LAYOUT(sender, sizeof(struct cgv_sender) == 40 && offsetof(struct cgv_sender, taken) == 2 &&
                       offsetof(struct cgv_sender, arrangement) == 4 && offsetof(struct cgv_sender, l) == 8 &&
                       offsetof(struct cgv_sender, d) == 16 && offsetof(struct cgv_sender, p) == 24 &&
                       offsetof(struct cgv_sender, at) == 32);
CGV_LAYOUT(outer, sizeof(struct cgv_outer) == 12 && offsetof(struct cgv_outer, timestamp) == 4 &&
                      offsetof(struct cgv_outer, ssrc) == 8);
CGV_LAYOUT(sent, sizeof(struct cgv_sent) == 64 && offsetof(struct cgv_sent, row) == 8 &&
                     offsetof(struct cgv_sent, column) == 16 && offsetof(struct cgv_sent, sender) == 24);

/* Answers: the first refusal that applies, in this order; but 18 comes before 16, and 21 of a
 * capture file and 22 of a move come before 4. */
enum {
    CGV_DONE = 0,
    CGV_BAD_PROFILE = 1,      /* not 1 <= L <= 20, 4 <= D <= 20, L x D <= 100 */
    CGV_BAD_PAYLOAD_SIZE = 2, /* P not k x 188 or k x 204, k from 1 to 7 */
    CGV_BAD_ROOM = 3,         /* not L x D <= n <= 400, 1 <= K <= 128 */
    CGV_SHORT_BUFFER = 4,     /* a lent part or the output is shorter than its need */
    CGV_DISORDER = 5,         /* the store, or a sender's room, is not one that the calls left */
    CGV_SHORT_DATAGRAM = 6,   /* under 12 bytes (media) or 28 (parity) */
    CGV_BAD_RTP_HEADER = 7,   /* version not 2, or padding, extension, CSRC or marker set */
    CGV_BAD_PAYLOAD_TYPE = 8, /* not 33 (media) or 96 (parity) */
    CGV_BAD_LENGTH = 9,       /* payload part not one or more whole transport packets up to P */
    CGV_BAD_FEC_HEADER = 10,  /* E not 1, or mask, X, type, index or SNBase ext not 0 */
    CGV_BAD_RECOVERY = 11,    /* PT recovery not the profile's */
    CGV_BAD_SHAPE = 12,       /* wrong port, offset or NA, or a row where L < 4 */
    CGV_OUTSIDE = 13,         /* a number or a member of the group is not in the window; of a
                                 sender, the number is not the next one */
    CGV_REPEAT = 14,          /* already held, the same */
    CGV_DIFFERS = 15,         /* already held, with a difference: on media, the alarm */
    CGV_FULL = 16,            /* two or more are missing and every record is in use */
    CGV_MISSING = 17,         /* reading a missing packet, or writing parity over one */
    CGV_CONTRADICTS = 18,     /* parity other than its group gives, all of which is present */
    CGV_BAD_CAPTURE = 21,     /* not a proper capture file, or not the content of one */
    CGV_BAD_MOVE = 22         /* a window moved by 0 positions, or by more than n */
};
/* The size of a table of answers by their number: above every number of this library. The
 * eight calls on a window answer 0 to 18 and 22, a sender some of these; 19 and 20 are not
 * used, and 21 is of capture files alone. */
#define CGV_NUMBERS 23

/* ---- the eight calls on a window. The store is lent as six parts, each with its length in
 * elements. */

/* Opens a window: 0, or 1 to 4 with a window value of zeros. All that the window needs of
 * the store is set to zero, so that every packet is missing and every record free. */
struct cgv_answer cgv_open(uint16_t base, size_t l, size_t d, size_t p, size_t n, size_t k,
                           uint32_t ssrc, uint8_t *media, size_t media_len,
                           uint32_t *timestamps, size_t timestamps_len, uint16_t *lengths,
                           size_t lengths_len, uint8_t *marks, size_t marks_len,
                           uint8_t *parity, size_t parity_len, struct cgv_record *records,
                           size_t records_len);

/* Offers a datagram that came in on the media port (0, 1 to 9, 13 to 15): the UDP payload,
 * RTP header first. The count is of packets rebuilt. */
struct cgv_answer cgv_media(struct cgv_window w, const uint8_t *datagram, size_t len,
                            uint8_t *media, size_t media_len, uint32_t *timestamps,
                            size_t timestamps_len, uint16_t *lengths, size_t lengths_len,
                            uint8_t *marks, size_t marks_len, uint8_t *parity,
                            size_t parity_len, struct cgv_record *records,
                            size_t records_len);

/* Offers a datagram that came in on the column parity port (0, 1 to 16, 18). */
struct cgv_answer cgv_column(struct cgv_window w, const uint8_t *datagram, size_t len,
                             uint8_t *media, size_t media_len, uint32_t *timestamps,
                             size_t timestamps_len, uint16_t *lengths, size_t lengths_len,
                             uint8_t *marks, size_t marks_len, uint8_t *parity,
                             size_t parity_len, struct cgv_record *records,
                             size_t records_len);

/* Offers a datagram that came in on the row parity port (0, 1 to 16, 18). */
struct cgv_answer cgv_row(struct cgv_window w, const uint8_t *datagram, size_t len,
                          uint8_t *media, size_t media_len, uint32_t *timestamps,
                          size_t timestamps_len, uint16_t *lengths, size_t lengths_len,
                          uint8_t *marks, size_t marks_len, uint8_t *parity,
                          size_t parity_len, struct cgv_record *records,
                          size_t records_len);

/* Reads the packet of a sequence number out as a datagram: 12 bytes and its payload, with
 * the SSRC of the window (0, 1 to 5, 13, 17). The count is of bytes written; the output has
 * room for 12 + P all the same. */
struct cgv_answer cgv_read(struct cgv_window w, uint16_t number, const uint8_t *media,
                           size_t media_len, const uint32_t *timestamps,
                           size_t timestamps_len, const uint16_t *lengths,
                           size_t lengths_len, const uint8_t *marks, size_t marks_len,
                           const uint8_t *parity, size_t parity_len,
                           const struct cgv_record *records, size_t records_len, uint8_t *out,
                           size_t out_len);

/* Writes the parity datagram of the column that starts at snbase (0, 1 to 5, 13, 17): 28
 * bytes and as many as the longest payload of the group. The count is of bytes written; the
 * output has room for 28 + P all the same. Sequence number, timestamp and SSRC are those of
 * the parity stream. */
struct cgv_answer cgv_write_column(struct cgv_window w, uint16_t snbase, uint16_t sequence,
                                   uint32_t timestamp, uint32_t ssrc, const uint8_t *media,
                                   size_t media_len, const uint32_t *timestamps,
                                   size_t timestamps_len, const uint16_t *lengths,
                                   size_t lengths_len, const uint8_t *marks,
                                   size_t marks_len, const uint8_t *parity,
                                   size_t parity_len, const struct cgv_record *records,
                                   size_t records_len, uint8_t *out, size_t out_len);

/* Writes the parity datagram of the row that starts at snbase (the same, and 12 where L < 4). */
struct cgv_answer cgv_write_row(struct cgv_window w, uint16_t snbase, uint16_t sequence,
                                uint32_t timestamp, uint32_t ssrc, const uint8_t *media,
                                size_t media_len, const uint32_t *timestamps,
                                size_t timestamps_len, const uint16_t *lengths,
                                size_t lengths_len, const uint8_t *marks, size_t marks_len,
                                const uint8_t *parity, size_t parity_len,
                                const struct cgv_record *records, size_t records_len,
                                uint8_t *out, size_t out_len);

/* Moves the base on by so many positions (0, 1 to 3, 22, 4, 5 in this order): 22 where by is
 * not from 1 to n, 4 also where out has fewer than by x (12 + P) bytes or sizes fewer than by
 * numbers. Position i of the first by leaves: its datagram, as cgv_read writes it, goes to
 * out + i * (12 + P), with zeros up to the next one, and its length to sizes[i]; where it is
 * missing these are zeros and 0. What out and sizes have past by positions is not touched.
 * The count is of packets written. The positions behind these move down by as many, and the
 * last by positions are missing, all zeros. Parity in hand with a member behind the new base
 * is released; other records stay where they lie. */
struct cgv_answer cgv_move(struct cgv_window w, size_t by, uint8_t *media, size_t media_len,
                           uint32_t *timestamps, size_t timestamps_len, uint16_t *lengths,
                           size_t lengths_len, uint8_t *marks, size_t marks_len,
                           uint8_t *parity, size_t parity_len, struct cgv_record *records,
                           size_t records_len, uint8_t *out, size_t out_len, uint16_t *sizes,
                           size_t sizes_len);

/* ---- the two calls of a sender. Its room is lent as four parts, each with its length in
 * elements: 2 x L + 1 payloads of P bytes, and 2 x L + 1 numbers in each other part. */

/* Opens a sender at the number of the next media packet: 0, or 1, 2 or 4 with a sender value
 * of zeros. All that it needs of the room is set to zero; what is past that is not touched. */
struct cgv_sent cgv_sender_open(uint16_t first, uint8_t arrangement, size_t l, size_t d, size_t p,
                                uint8_t *payloads, size_t payloads_len, uint32_t *timestamps,
                                size_t timestamps_len, uint16_t *lengths, size_t lengths_len,
                                uint16_t *longest, size_t longest_len);

/* Takes the next media datagram in, RTP header first, and writes the parity packets that go
 * out with it: at most one row and one column, each with the header fields given for it,
 * which are not looked at where no such packet goes out. 0, 1, 2, 4 (the room, or an output
 * under 28 + P bytes), 5 (the sender value is past its profile, or a longest length past P),
 * 6 to 9 of the datagram, and 13 where its number is not the next one. A refused call alters
 * nothing. An output that is not used is not touched, and of one that is the bytes past the
 * packet are not. The two outputs do not overlap. */
struct cgv_sent cgv_sender_media(struct cgv_sender s, const uint8_t *datagram, size_t len,
                                 struct cgv_outer row, struct cgv_outer column,
                                 uint8_t *payloads, size_t payloads_len, uint32_t *timestamps,
                                 size_t timestamps_len, uint16_t *lengths, size_t lengths_len,
                                 uint16_t *longest, size_t longest_len, uint8_t *row_out,
                                 size_t row_out_len, uint8_t *column_out,
                                 size_t column_out_len);

/* ---- the four calls of capture files */

/* Reads on: a further piece of a file, of any length, cut anywhere. The number is 0 where
 * all that was read up to its end is a whole capture file, and 21 else. Once the stage of
 * the reader is CGV_CAPTURE_REFUSED it stays so: the caller may stop there. */
struct cgv_reading cgv_capture_read(struct cgv_reader r, const uint8_t *piece, size_t len);

/* The header, from the front of a file: 21 where that has fewer than 12 bytes, or a count
 * above 512. Nothing else is judged. */
struct cgv_capture cgv_capture_header(const uint8_t *front, size_t len);

/* Entry i, from 0, from the front of a file: its first bytes, up to the end of line i of the
 * table or further. 21 where the header is refused, i is not below its count, or the front
 * ends before that line does. Port, start and length are what stands there: right in a
 * file that cgv_capture_read found whole, and anything in another one. */
struct cgv_entry cgv_capture_entry(const uint8_t *front, size_t len, size_t i);

/* Writes a capture file: entry i has port ports[i], and as its body the next lengths[i]
 * bytes of bodies. 21 where that is not the content of one: ports and lengths of different
 * number, or more than 512; a port that is not 1 to 3; a length above 1,500; bodies longer
 * or shorter than the lengths together; L or D above 255; P, n or K above 65,535. Then 4
 * where out is shorter than the file. A refused call leaves out as it was; else the bytes
 * past the end of the file stay as they were. */
struct cgv_written cgv_capture_write(uint16_t base, size_t l, size_t d, size_t p, size_t n,
                                     size_t k, const uint8_t *ports, size_t ports_len,
                                     const uint16_t *lengths, size_t lengths_len,
                                     const uint8_t *bodies, size_t bodies_len, uint8_t *out,
                                     size_t out_len);

/* The body of an entry where it lies in a file, or NULL where the entry was refused or the
 * body is not within the len bytes there. */
static inline const uint8_t *cgv_capture_body(const uint8_t *file, size_t len,
                                              struct cgv_entry e)
{
    if (e.number != CGV_DONE || e.start > len || e.length > len - e.start)
        return NULL;
    return file + e.start;
}

/* ---- a store and a window in one, so that a card's code reads well */

/* What a card lends. The lengths are in elements. */
struct cgv_store {
    uint8_t *media;
    size_t media_len;
    uint32_t *timestamps;
    size_t timestamps_len;
    uint16_t *lengths;
    size_t lengths_len;
    uint8_t *marks;
    size_t marks_len;
    uint8_t *parity;
    size_t parity_len;
    struct cgv_record *records;
    size_t records_len;
};

struct cgv_receiver {
    struct cgv_window window;
    struct cgv_store store;
};

/* Initialisers: no window yet (every call but opening refuses it with 1), and a store of
 * six arrays. */
#define CGV_NO_WINDOW {0, 0, 0, 0, 0, 0, 0, 0, 0}
#define CGV_STORE_OF_ARRAYS(media, timestamps, lengths, marks, parity, records)           \
    {media, sizeof(media), timestamps, sizeof(timestamps) / sizeof((timestamps)[0]),      \
     lengths, sizeof(lengths) / sizeof((lengths)[0]), marks, sizeof(marks),               \
     parity, sizeof(parity), records, sizeof(records) / sizeof((records)[0])}

#define CGV_STORE_ARGUMENTS(s)                                                            \
    (s).media, (s).media_len, (s).timestamps, (s).timestamps_len, (s).lengths,            \
        (s).lengths_len, (s).marks, (s).marks_len, (s).parity, (s).parity_len,            \
        (s).records, (s).records_len

/* Opens a window in a receiver whose store is filled in. Where it is refused, a window that
 * was open stays open, and nothing of it has changed. */
static inline struct cgv_answer cgv_receiver_open(struct cgv_receiver *r, uint16_t base,
                                                  size_t l, size_t d, size_t p, size_t n,
                                                  size_t k, uint32_t ssrc)
{
    struct cgv_answer a = cgv_open(base, l, d, p, n, k, ssrc, CGV_STORE_ARGUMENTS(r->store));
    if (a.number == CGV_DONE)
        r->window = a.window;
    return a;
}

static inline struct cgv_answer cgv_receiver_media(struct cgv_receiver *r,
                                                   const uint8_t *datagram, size_t len)
{
    struct cgv_answer a = cgv_media(r->window, datagram, len, CGV_STORE_ARGUMENTS(r->store));
    r->window = a.window;
    return a;
}

static inline struct cgv_answer cgv_receiver_column(struct cgv_receiver *r,
                                                    const uint8_t *datagram, size_t len)
{
    struct cgv_answer a = cgv_column(r->window, datagram, len, CGV_STORE_ARGUMENTS(r->store));
    r->window = a.window;
    return a;
}

static inline struct cgv_answer cgv_receiver_row(struct cgv_receiver *r,
                                                 const uint8_t *datagram, size_t len)
{
    struct cgv_answer a = cgv_row(r->window, datagram, len, CGV_STORE_ARGUMENTS(r->store));
    r->window = a.window;
    return a;
}

static inline struct cgv_answer cgv_receiver_read(const struct cgv_receiver *r,
                                                  uint16_t number, uint8_t *out,
                                                  size_t out_len)
{
    return cgv_read(r->window, number, CGV_STORE_ARGUMENTS(r->store), out, out_len);
}

static inline struct cgv_answer
cgv_receiver_write_column(const struct cgv_receiver *r, uint16_t snbase, uint16_t sequence,
                          uint32_t timestamp, uint32_t ssrc, uint8_t *out, size_t out_len)
{
    return cgv_write_column(r->window, snbase, sequence, timestamp, ssrc,
                            CGV_STORE_ARGUMENTS(r->store), out, out_len);
}

static inline struct cgv_answer
cgv_receiver_write_row(const struct cgv_receiver *r, uint16_t snbase, uint16_t sequence,
                       uint32_t timestamp, uint32_t ssrc, uint8_t *out, size_t out_len)
{
    return cgv_write_row(r->window, snbase, sequence, timestamp, ssrc,
                         CGV_STORE_ARGUMENTS(r->store), out, out_len);
}

/* Bytes that a move by so many positions needs of its output, in a window of payloads up to p. */
#define CGV_MOVE_ROOM(by, p) ((by) * (CGV_MEDIA_HEADER + (p)))

/* Moves the window on. What leaves it is written to out and sizes; cgv_receiver_left walks it. */
static inline struct cgv_answer cgv_receiver_move(struct cgv_receiver *r, size_t by,
                                                  uint8_t *out, size_t out_len,
                                                  uint16_t *sizes, size_t sizes_len)
{
    struct cgv_answer a = cgv_move(r->window, by, CGV_STORE_ARGUMENTS(r->store), out, out_len,
                                   sizes, sizes_len);
    r->window = a.window;
    return a;
}

/* A packet that left the window: its number, and its datagram of len bytes, 12 and its payload,
 * or NULL and 0 where it was missing. */
struct cgv_left {
    uint16_t number;
    const uint8_t *datagram;
    size_t len;
};

/* Whether the window has to move on for a datagram of a port (CGV_PORT_MEDIA, CGV_PORT_COLUMN or
 * CGV_PORT_ROW): its number, or that of the last packet of its group, is past the window's end by
 * less than n. 0 where refusals 6 to 8 are its answer; nothing else of it is looked at. */
static inline int cgv_receiver_ahead(const struct cgv_receiver *r, uint8_t port,
                                     const uint8_t *datagram, size_t len)
{
    const struct cgv_window *w = &r->window;
    int media = port == CGV_PORT_MEDIA;
    size_t number, position;
    if (len < CGV_CAST(size_t, media ? CGV_MEDIA_HEADER : CGV_PARITY_HEADER) ||
        datagram[0] != 0x80 || datagram[1] != (media ? 33 : 96))
        return 0;
    if (media)
        number = CGV_CAST(size_t, datagram[2] << 8 | datagram[3]);
    else
        number = CGV_CAST(size_t, datagram[12] << 8 | datagram[13]) +
                 (port == CGV_PORT_ROW ? w->l - 1 : (w->d - 1) * w->l);
    position = (number - w->base) & 65535u;
    return position >= w->n && position - w->n < w->n;
}

/* Packet i, from 0, of those that the last move left behind, which was by so many positions and
 * wrote to out and sizes. NULL where it was missing, or out or sizes have no packet i. */
static inline struct cgv_left cgv_receiver_left(const struct cgv_receiver *r, size_t by,
                                                size_t i, const uint8_t *out, size_t out_len,
                                                const uint16_t *sizes, size_t sizes_len)
{
    struct cgv_left left = {0, NULL, 0};
    size_t slot = CGV_MEDIA_HEADER + r->window.p;
    left.number = CGV_CAST(uint16_t, (r->window.base - by + i) & 65535u);
    if (r->window.p > CGV_PAYLOAD_MAX || i >= by || i >= sizes_len || i >= out_len / slot)
        return left;
    if (sizes[i] == 0 || sizes[i] > slot)
        return left;
    left.datagram = out + i * slot;
    left.len = sizes[i];
    return left;
}

/* The position of a sequence number: its distance ahead of the base, counted with wrap.
 * It is in the window where that is below n. */
static inline size_t cgv_position(const struct cgv_window *w, uint16_t number)
{
    return (number + 65536u - w->base) & 65535u;
}

/* The sequence number of a position. */
static inline uint16_t cgv_number(const struct cgv_window *w, size_t position)
{
    return CGV_CAST(uint16_t, (w->base + position) & 65535u);
}

/* Whether the packet of a sequence number is in the window and present. */
static inline int cgv_receiver_has(const struct cgv_receiver *r, uint16_t number)
{
    size_t position = cgv_position(&r->window, number);
    return position < r->window.n && position < r->store.marks_len &&
           r->store.marks[position] == 1;
}

/* The payload of a sequence number where it lies in the store, cgv_receiver_length bytes and
 * then zeros up to P, or NULL where the packet is missing or not of the window. It stays as
 * it is until the next move or opening. */
static inline const uint8_t *cgv_receiver_payload(const struct cgv_receiver *r,
                                                  uint16_t number)
{
    size_t position = cgv_position(&r->window, number), p = r->window.p;
    if (!cgv_receiver_has(r, number) || p == 0 || position >= r->store.media_len / p)
        return NULL;
    return r->store.media + position * p;
}

/* The payload bytes of a sequence number, P at most, or 0 where the packet is missing or not
 * of the window. */
static inline size_t cgv_receiver_length(const struct cgv_receiver *r, uint16_t number)
{
    size_t position = cgv_position(&r->window, number), length;
    if (!cgv_receiver_has(r, number) || position >= r->store.lengths_len)
        return 0;
    length = r->store.lengths[position];
    return length <= r->window.p ? length : r->window.p;
}

/* ---- a sender and its room in one, with the numbers of the parity streams */

/* How many elements a sender of L columns needs in each part of its room, the payloads times P. */
#define CGV_ROOM(l) (2 * (l) + 1)
#define CGV_ROOM_MAX CGV_ROOM(CGV_L_MAX)

/* What a card lends a sender from its opening on: of each group that is not out yet, what its
 * members so far give. The lengths of the parts are in elements. */
struct cgv_room {
    uint8_t *payloads;    /* the exclusive-or of their payloads, P bytes a group */
    size_t payloads_len;
    uint32_t *timestamps; /* that of their timestamps */
    size_t timestamps_len;
    uint16_t *lengths;    /* that of their payload lengths */
    size_t lengths_len;
    uint16_t *longest;    /* the longest of these */
    size_t longest_len;
};

/* Where parity packets are written. They may be others from one call to the next. */
struct cgv_outputs {
    uint8_t *row;
    size_t row_len;
    uint8_t *column;
    size_t column_len;
};

/* row and column: the header fields of the next parity packet of each stream. SSRC and the
 * first sequence number are the card's to fill in, or 0; the timestamp comes with each call. */
struct cgv_stream {
    struct cgv_sender sender;
    struct cgv_room room;
    struct cgv_outputs out;
    struct cgv_outer row, column;
};

/* Initialisers: no sender yet (every call but opening refuses it with 1), a room of four
 * arrays, outputs of two, and header fields of zeros. */
#define CGV_NO_SENDER {0, 0, 0, 0, 0, 0, 0}
#define CGV_ROOM_OF_ARRAYS(payloads, timestamps, lengths, longest)                        \
    {payloads, sizeof(payloads), timestamps, sizeof(timestamps) / sizeof((timestamps)[0]), \
     lengths, sizeof(lengths) / sizeof((lengths)[0]), longest,                            \
     sizeof(longest) / sizeof((longest)[0])}
#define CGV_OUTPUTS_OF_ARRAYS(row, column) {row, sizeof(row), column, sizeof(column)}
#define CGV_NO_OUTER {0, 0, 0}

#define CGV_ROOM_ARGUMENTS(m)                                                             \
    (m).payloads, (m).payloads_len, (m).timestamps, (m).timestamps_len, (m).lengths,      \
        (m).lengths_len, (m).longest, (m).longest_len

/* Opens a stream whose room is filled in, at the number of the next media packet; also after a
 * gap. The parity streams number on. Where it is refused, a stream that was open stays open,
 * and nothing of it has changed. */
static inline struct cgv_sent cgv_stream_open(struct cgv_stream *s, uint16_t first,
                                              uint8_t arrangement, size_t l, size_t d,
                                              size_t p)
{
    struct cgv_sent sent =
        cgv_sender_open(first, arrangement, l, d, p, CGV_ROOM_ARGUMENTS(s->room));
    if (sent.number == CGV_DONE)
        s->sender = sent.sender;
    return sent;
}

/* Takes the next media datagram in. What goes out with it is the first sent.row bytes of
 * s->out.row and the first sent.column bytes of s->out.column, with this timestamp; a stream
 * of which a packet goes out counts its sequence number on. */
static inline struct cgv_sent cgv_stream_media(struct cgv_stream *s, const uint8_t *datagram,
                                               size_t len, uint32_t timestamp)
{
    struct cgv_outer row = s->row, column = s->column;
    struct cgv_sent sent;
    row.timestamp = timestamp;
    column.timestamp = timestamp;
    sent = cgv_sender_media(s->sender, datagram, len, row, column, CGV_ROOM_ARGUMENTS(s->room),
                            s->out.row, s->out.row_len, s->out.column, s->out.column_len);
    s->sender = sent.sender;
    if (sent.row)
        s->row.sequence = CGV_CAST(uint16_t, (s->row.sequence + 1u) & 65535u);
    if (sent.column)
        s->column.sequence = CGV_CAST(uint16_t, (s->column.sequence + 1u) & 65535u);
    return sent;
}

/* The number that the next media packet has to have. */
static inline uint16_t cgv_sender_next(const struct cgv_sender *s)
{
    return CGV_CAST(uint16_t, (s->first + CGV_CAST(uint32_t, s->taken)) & 65535u);
}

/* ---- for routing: the numbers of a datagram that was not offered yet. 1, or 0 where it
 * is too short to have one; nothing else of it is looked at. */

/* The sequence number of a media datagram. */
static inline int cgv_media_number(const uint8_t *datagram, size_t len, uint16_t *number)
{
    if (len < CGV_MEDIA_HEADER)
        return 0;
    *number = CGV_CAST(uint16_t, datagram[2] << 8 | datagram[3]);
    return 1;
}

/* The SNBase of a parity datagram: the first number of its group. */
static inline int cgv_parity_snbase(const uint8_t *datagram, size_t len, uint16_t *snbase)
{
    if (len < CGV_PARITY_HEADER)
        return 0;
    *snbase = CGV_CAST(uint16_t, datagram[12] << 8 | datagram[13]);
    return 1;
}

/* A number in words. */
static inline const char *cgv_message(uint32_t number)
{
    switch (number) {
    case CGV_DONE: return "done";
    case CGV_BAD_PROFILE: return "L, D or L x D past its bound";
    case CGV_BAD_PAYLOAD_SIZE: return "payload size not permitted";
    case CGV_BAD_ROOM: return "position count or parity room not permitted";
    case CGV_SHORT_BUFFER: return "a lent buffer is too short";
    case CGV_DISORDER: return "store not in order";
    case CGV_SHORT_DATAGRAM: return "datagram shorter than its headers";
    case CGV_BAD_RTP_HEADER: return "RTP version not 2, or padding, extension, CSRC or marker set";
    case CGV_BAD_PAYLOAD_TYPE: return "payload type not that of the port";
    case CGV_BAD_LENGTH: return "payload not whole transport packets up to the window's size";
    case CGV_BAD_FEC_HEADER: return "parity header: E, mask, X, type, index or SNBase ext";
    case CGV_BAD_RECOVERY: return "payload type recovery not the profile's";
    case CGV_BAD_SHAPE: return "parity not of this port and profile";
    case CGV_OUTSIDE: return "outside the window, or not the next number";
    case CGV_REPEAT: return "already held";
    case CGV_DIFFERS: return "already held, and different";
    case CGV_FULL: return "no record is free";
    case CGV_MISSING: return "packet missing";
    case CGV_CONTRADICTS: return "parity contradicts its group, all of which is present";
    case CGV_BAD_CAPTURE: return "not a proper capture file";
    case CGV_BAD_MOVE: return "window moved by no position, or by more than it has";
    default: return "not a number of this library";
    }
}

#ifdef __cplusplus
}
#endif

#endif
