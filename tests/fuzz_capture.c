/* Capture files under libFuzzer. Each input is taken for a file, and judged by a few plain lines of C, written from request 2 alone. The
 * library has to say the same of it: at once, cut in two anywhere, and byte by byte, where every front of the file is judged too. A file
 * that is one is taken apart by its header and entries, written again into an output of its length, and has to be the same bytes; one
 * byte less is 4, and nothing is written. The fuzzer sees the branches of the judge; and every other input that it makes is mended, so
 * that files of many entries are met, and what comes of them by one change more.
 *
 *     clang -g -O1 -fsanitize=fuzzer,address,undefined -Iinclude tests/fuzz_capture.c target/staticlib/libcongaveil.a -o target/fuzz-capture
 *     mkdir -p target/files && target/fuzz-capture -max_total_time=300 -max_len=8192 target/files */
#include "congaveil.h"
#include <stdio.h>
#include <stdlib.h>
#include <string.h>

enum { HEADER = 12, LINE = 8, ENTRIES = 512, BODY = 1500, PIECEMEAL = 600 };

static void must(int holds, const char *what)
{
    if (!holds) {
        fprintf(stderr, "fuzz_capture: not as it must be: %s\n", what);
        abort();
    }
}

/* ---- request 2 */

static size_t number(const uint8_t *at, int bytes)
{
    size_t n = 0;
    while (bytes--)
        n = n << 8 | *at++;
    return n;
}

static int is_file(const uint8_t *file, size_t len)
{
    size_t i, count, end;
    if (len < HEADER)
        return 0;
    count = number(file, 2);
    end = HEADER + LINE * count;
    if (count > ENTRIES || len < end)
        return 0;
    for (i = 0; i < count; i++) {
        const uint8_t *line = file + HEADER + LINE * i;
        if (line[0] < 1 || line[0] > 3 || line[1] != 0)
            return 0;
        if (number(line + 2, 2) > BODY || number(line + 4, 4) != end)
            return 0;
        end += number(line + 2, 2);
    }
    return len == end;
}

/* ---- inputs */

static void put(uint8_t *at, size_t n, int bytes)
{
    while (bytes--) {
        at[bytes] = (uint8_t)n;
        n >>= 8;
    }
}

/* Makes a file of some bytes, as long as there is room for: ports, zeros and starts are set right, a count and a length brought down to
 * one above its limit at most. */
static size_t mended(uint8_t *file, size_t len, size_t room)
{
    size_t i, count, end;
    if (room < HEADER || len < HEADER)
        return len;
    count = number(file, 2) % (ENTRIES + 2);
    if (count > (room - HEADER) / LINE)
        count = (room - HEADER) / LINE;
    end = HEADER + LINE * count;
    if (len < room)
        memset(file + len, 0, room - len);
    put(file, count, 2);
    for (i = 0; i < count; i++) {
        uint8_t *line = file + HEADER + LINE * i;
        size_t length = number(line + 2, 2) % (BODY + 2);
        if (length > room - end)
            length = 0;
        line[0] = 1 + line[0] % 3;
        line[1] = 0;
        put(line + 2, length, 2);
        put(line + 4, end, 4);
        end += length;
    }
    return end;
}

size_t LLVMFuzzerMutate(uint8_t *data, size_t size, size_t room);

size_t LLVMFuzzerCustomMutator(uint8_t *data, size_t size, size_t room, unsigned seed)
{
    size = LLVMFuzzerMutate(data, size, room);
    return seed % 2 ? mended(data, size, room) : size;
}

/* ---- the library */

static const struct cgv_reader fresh = CGV_CAPTURE_START;

static int same(struct cgv_reading a, struct cgv_reading b)
{
    return a.number == b.number && !memcmp(&a.reader, &b.reader, sizeof a.reader);
}

static struct cgv_reading judged(const uint8_t *file, size_t len)
{
    struct cgv_reading reading = cgv_capture_read(fresh, file, len);
    must(reading.number == (is_file(file, len) ? CGV_DONE : CGV_BAD_CAPTURE), "a file judged at once");
    return reading;
}

static void in_pieces(const uint8_t *file, size_t len, struct cgv_reading whole)
{
    size_t at = len ? file[len / 2] * len / 256 : 0, i;
    struct cgv_reading reading = cgv_capture_read(fresh, file, at);
    must(same(cgv_capture_read(reading.reader, file + at, len - at), whole), "a file cut in two");
    if (len > PIECEMEAL)
        return;
    reading = judged(file, 0);
    for (i = 0; i < len; i++) {
        reading = cgv_capture_read(reading.reader, file + i, 1);
        must(same(reading, judged(file, i + 1)), "a file byte by byte");
    }
}

static void check_header(const uint8_t *file, size_t len)
{
    struct cgv_capture h = cgv_capture_header(file, len);
    if (len < HEADER || number(file, 2) > ENTRIES) {
        must(h.number == CGV_BAD_CAPTURE && !(h.base | h.count | h.l | h.d | h.p | h.n | h.k), "no header");
        return;
    }
    must(h.number == CGV_DONE && h.count == number(file, 2) && h.l == file[2] && h.d == file[3] && h.p == number(file + 4, 2) &&
             h.base == number(file + 6, 2) && h.n == number(file + 8, 2) && h.k == number(file + 10, 2),
         "a header");
}

/* Header and entries of a file that is one, written again. */
static void written_again(const uint8_t *file, size_t len)
{
    static uint8_t ports[ENTRIES];
    static uint16_t lengths[ENTRIES];
    struct cgv_capture h = cgv_capture_header(file, len);
    size_t i, end = HEADER + LINE * h.count, bodies = end;
    uint8_t *out = malloc(len);
    struct cgv_written w;
    must(out != NULL, "memory");
    for (i = 0; i < h.count; i++) {
        struct cgv_entry e = cgv_capture_entry(file, len, i);
        must(e.number == CGV_DONE && e.start == end && e.length <= BODY, "an entry");
        must(cgv_capture_body(file, len, e) == file + end, "a body");
        ports[i] = e.port;
        lengths[i] = (uint16_t)e.length;
        end += e.length;
    }
    must(cgv_capture_entry(file, len, h.count).number == CGV_BAD_CAPTURE, "an entry past the last");
    memset(out, 0xA5, len);
    w = cgv_capture_write(h.base, h.l, h.d, h.p, h.n, h.k, ports, h.count, lengths, h.count, file + bodies, len - bodies, out, len - 1);
    must(w.number == CGV_SHORT_BUFFER && w.count == 0, "a short output");
    for (i = 0; i < len; i++)
        must(out[i] == 0xA5, "a refusal that writes");
    w = cgv_capture_write(h.base, h.l, h.d, h.p, h.n, h.k, ports, h.count, lengths, h.count, file + bodies, len - bodies, out, len);
    must(w.number == CGV_DONE && w.count == len && !memcmp(out, file, len), "a file written again");
    free(out);
}

int LLVMFuzzerTestOneInput(const uint8_t *data, size_t size)
{
    in_pieces(data, size, judged(data, size));
    check_header(data, size);
    if (is_file(data, size))
        written_again(data, size);
    return 0;
}
