// The headers compile as C++, and link.
#include "congaveil_desk.h"

static uint8_t media[16 * 188], marks[16], parity[188];
static uint32_t timestamps[16];
static uint16_t lengths[16];
static cgv_record records[1];
static cgv_receiver receiver = {CGV_NO_WINDOW, CGV_STORE_OF_ARRAYS(media, timestamps, lengths, marks, parity, records)};
static cgv_desk desk;

static uint8_t payloads[CGV_ROOM(4) * 188], row[CGV_PARITY_HEADER + 188], column[CGV_PARITY_HEADER + 188];
static uint32_t stamps[CGV_ROOM(4)];
static uint16_t sizes[CGV_ROOM(4)], longest[CGV_ROOM_MAX];
static cgv_stream stream = {CGV_NO_SENDER, CGV_ROOM_OF_ARRAYS(payloads, stamps, sizes, longest), CGV_OUTPUTS_OF_ARRAYS(row, column), CGV_NO_OUTER,
                            CGV_NO_OUTER};

// A stream of four packets: a row goes out with the last.
static bool sends()
{
    uint8_t datagram[CGV_MEDIA_HEADER + 188] = {0x80, 33, 0xFF, 0xFE};
    if (stream.room.payloads_len != 9 * 188 || stream.room.timestamps_len != 9 || stream.room.lengths_len != 9 ||
        stream.room.longest_len != 41 || stream.out.row_len != 216 || stream.out.column_len != 216)
        return false;
    if (cgv_stream_open(&stream, 65534, CGV_STAGGERED, 5, 4, 188).number != CGV_SHORT_BUFFER ||
        cgv_stream_media(&stream, datagram, sizeof datagram, 0).number != CGV_BAD_PROFILE ||
        cgv_stream_open(&stream, 65534, CGV_STAGGERED, 4, 4, 188).number != CGV_DONE)
        return false;
    for (int i = 0; i < 4; i++) {
        datagram[2] = static_cast<uint8_t>(cgv_sender_next(&stream.sender) >> 8);
        datagram[3] = static_cast<uint8_t>(cgv_sender_next(&stream.sender));
        const cgv_sent sent = cgv_stream_media(&stream, datagram, sizeof datagram, 7);
        if (sent.number != CGV_DONE || sent.column != 0 || sent.row != (i == 3 ? sizeof row : 0))
            return false;
    }
    return stream.row.sequence == 1 && stream.column.sequence == 0 && row[7] == 7 && row[12] == 0xFF && row[13] == 0xFE &&
           cgv_stream_media(&stream, datagram, sizeof datagram, 0).number == CGV_OUTSIDE;
}

// A capture file of one entry, written, judged and walked.
static bool capture()
{
    const cgv_reader start = CGV_CAPTURE_START;
    const uint8_t port = CGV_PORT_ROW, body[2] = {0xAB, 0xCD};
    const uint16_t length = sizeof body;
    uint8_t file[22];
    if (cgv_capture_write(0, 4, 4, 188, 16, 1, &port, 1, &length, 1, body, sizeof body, file, sizeof file).count != sizeof file)
        return false;
    const cgv_entry entry = cgv_capture_entry(file, sizeof file, 0);
    return cgv_capture_read(start, file, sizeof file).number == CGV_DONE && cgv_capture_header(file, sizeof file).count == 1 &&
           entry.port == CGV_PORT_ROW && cgv_capture_body(file, sizeof file, entry) == file + 20 &&
           cgv_capture_read(start, file, 21).number == CGV_BAD_CAPTURE;
}

// A window that moves on by one: a packet leaves, and its number is behind the base.
static bool moves()
{
    uint8_t datagram[CGV_MEDIA_HEADER + 188] = {0x80, 33}, out[CGV_MOVE_ROOM(1, 188)];
    uint16_t size = 0;
    if (cgv_desk_media(&desk, &receiver, datagram, sizeof datagram).number != CGV_DONE ||
        cgv_receiver_move(&receiver, 17, out, sizeof out, &size, 1).number != CGV_BAD_MOVE ||
        cgv_desk_move(&desk, &receiver, 1, out, sizeof out, &size, 1).count != 1)
        return false;
    const cgv_left left = cgv_receiver_left(&receiver, 1, 0, out, sizeof out, &size, 1);
    return left.number == 0 && left.datagram == out && left.len == sizeof out && receiver.window.base == 1 &&
           desk.counters.handed_out == 1 && cgv_desk_media(&desk, &receiver, datagram, sizeof datagram).number == CGV_OUTSIDE;
}

int main()
{
    const uint8_t datagram[12] = {0x80, 33};
    char line[CGV_COUNTERS_LINE];
    uint16_t number = 0;
    if (receiver.store.media_len != 16 * 188 || receiver.store.timestamps_len != 16 || receiver.store.lengths_len != 16 ||
        receiver.store.marks_len != 16 || receiver.store.parity_len != 188 || receiver.store.records_len != 1)
        return 5;
    if (cgv_receiver_open(&receiver, 0, 4, 4, 188, 17, 1, 0).number != CGV_SHORT_BUFFER)
        return 1;
    if (cgv_receiver_open(&receiver, 0, 4, 4, 188, 16, 1, 0).number != CGV_DONE)
        return 2;
    cgv_desk_begin(&desk, &receiver);
    if (cgv_desk_media(&desk, &receiver, datagram, sizeof datagram).number != CGV_BAD_LENGTH)
        return 3;
    if (cgv_desk_rebuilt(&desk, &receiver, &number) || cgv_receiver_payload(&receiver, 0) || cgv_receiver_length(&receiver, 0))
        return 4;
    if (!capture())
        return 6;
    if (!sends())
        return 7;
    if (!moves())
        return 8;
    return cgv_counters_line(&desk.counters, line, sizeof line) == 0;
}
