/* Accesses and steps as rows of tables, with what has to come of each. It takes the host to be lowest byte first. */
#ifndef ROWS_H
#define ROWS_H
#include "driver.h"

enum { READS, WRITES, HOLDS, PUTS, LINE_IS, STEPS, NO_STEP, FILLS, FRAMES_ARE, BYTES_ARE, CAME_IS, MARKS_ARE };

/* `times` of it one after the other, with the same outcome each time. */
typedef struct row {
    int what;
    uint32_t a, b, c, d;
    unsigned times;
} row;

#define R(bytes, at, value) {READS, at, bytes, value, 0, 1} /* a register reads so */
#define W(bytes, at, value) {WRITES, at, bytes, value, 0, 1}
#define HAS(at, word) {HOLDS, at, word, 0, 0, 1} /* four bytes of memory */
#define PUT(at, word) {PUTS, at, word, 0, 0, 1}
#define LINE(high) {LINE_IS, high, 0, 0, 0, 1}
#define STEP(kind, part, nid, count) {STEPS, kind, part, nid, count, 1}
#define NONE(kind, part, nid, count) {NO_STEP, kind, part, nid, count, 1} /* refused: there is no such part */
#define EACH(times, kind, part) {STEPS, kind, part, 0, 0, times}
#define CORBS(times) EACH(times, HDA_CORB, 0)
#define ANSWERS(times, codec) EACH(times, HDA_ANSWER, codec)
#define RIRBS EACH(1, HDA_RIRB, 0)
#define FETCH(count) STEP(HDA_FETCH, 1, 0, count)
#define STORE(count) STEP(HDA_FETCH, 0, 0, count)
#define LINK(frames) STEP(HDA_LINK, 0, 0, frames)
#define FILL(at, size, byte) {FILLS, at, size, byte, 0, 1} /* the memory gets these bytes */
#define FRAMES(at, count, number) {FRAMES_ARE, at, count, number, 0, 1} /* frames of numbered_frame, from one on */
#define BYTES(at, size, byte) {BYTES_ARE, at, size, byte, 0, 1}
#define CAME(count) {CAME_IS, count, 0, 0, 0, 1} /* so many blocks came to the input stream */
#define MARKS(from, count, taken) {MARKS_ARE, from, count, taken, 0, 1} /* each of these was taken, or was not */

/* The frame with a number: two samples of 16 bits that no other frame below 32,767 has. */
static inline uint32_t numbered_frame(uint32_t number) { return 2 * number + 1 + ((2 * number + 2) << 16); }

static inline int are_frames(const uint8_t *memory, uint32_t count, uint32_t number) {
    uint32_t k, frame;
    for (k = 0; k < count; k++) {
        memcpy(&frame, memory + 4 * k, 4);
        if (frame != numbered_frame(number + k)) return 0;
    }
    return 1;
}

static inline int are_bytes(const uint8_t *memory, uint32_t count, uint32_t byte) {
    uint32_t k;
    for (k = 0; k < count; k++)
        if (memory[k] != byte) return 0;
    return 1;
}

static inline int are_marks(hda *d, uint32_t from, uint32_t count, uint32_t taken) {
    uint8_t marks[256];
    memset(marks, 9, sizeof marks);
    return count <= sizeof marks && hda_taken(d, from, marks, count, NULL) == HDA_OK && are_bytes(marks, count, taken);
}

static inline int came(hda *d, uint32_t count) {
    uint64_t all;
    return hda_taken(d, 0, NULL, 0, &all) == HDA_OK && all == count;
}

static inline int holds(hda *d, const row *one) {
    uint8_t *memory = hda_memory(d, NULL);
    uint32_t word = 0;
    switch (one->what) {
    case READS: return hda_read(d, one->a, one->b) == one->c && hda_status(d) == HDA_OK;
    case WRITES: return hda_write(d, one->a, one->b, one->c) == HDA_OK;
    case HOLDS: memcpy(&word, memory + one->a, 4); return word == one->b;
    case PUTS: memcpy(memory + one->a, &one->b, 4); return 1;
    case LINE_IS: return hda_line(d) == (int)one->a;
    case FILLS: memset(memory + one->a, (int)one->c, one->b); return 1;
    case FRAMES_ARE: return are_frames(memory + one->a, one->b, one->c);
    case BYTES_ARE: return are_bytes(memory + one->a, one->b, one->c);
    case CAME_IS: return came(d, one->a);
    case MARKS_ARE: return are_marks(d, one->a, one->b, one->c);
    case STEPS: return hda_step(d, one->a, (uint8_t)one->b, (uint8_t)one->c, one->d) == HDA_OK;
    default: return hda_step(d, one->a, (uint8_t)one->b, (uint8_t)one->c, one->d) == HDA_NO_SUCH;
    }
}

static inline void run_rows(hda *d, const char *name, const row *rows, size_t count) {
    size_t k;
    unsigned time;
    for (k = 0; k < count; k++)
        for (time = 0; time < rows[k].times; time++)
            if (!holds(d, &rows[k])) {
                wrong++;
                printf("%s: row %u, time %u: %s\n", name, (unsigned)k, time, hda_status(d) ? "status" : "value");
                return;
            }
}

/* Opens a device of a text of its own, and closes it behind the rows of a table. */
#define RUN(d, rows) run_rows(d, #rows, rows, sizeof rows / sizeof *rows)
#define OPEN_AND_RUN(text, rows) open_and_run(text, #rows, rows, sizeof rows / sizeof *rows)

static inline hda *open_text(const char *codecs) {
    hda *d = hda_open(codecs, strlen(codecs), NULL, 0, NULL, 0);
    if (!d) exit(5);
    return d;
}

static inline void open_and_run(const char *codecs, const char *name, const row *rows, size_t count) {
    hda *d = open_text(codecs);
    run_rows(d, name, rows, count);
    hda_close(&d);
}

/* A codec with the pin 14 alone, which detects presence and sends unsolicited responses with the tag 1. */
#define ONE_PIN(address) \
    "[[codec]]\naddress = " address "\nvendor = 0x10EC0889\nrevision = 0x00100101\nnode = [{nid = 0x14, caps = " \
    "0x0040008D, pin_caps = 0x14, amp_out = 0x80000000, default = 0x01014010, unsol = 0x81}]\n"

/* The converter 02, the mixer 0C and the pin 14. */
#define ONE_PATH \
    "[[codec]]\naddress = 0\nvendor = 0x10EC0889\nnode = [{nid = 0x02, caps = 0x1}, {nid = 0x0C, caps = 0x20010B, " \
    "amp_in = 0x80000000, list = [0x02, 0x0B]}, {nid = 0x14, caps = 0x40010D, amp_out = 0x80000000, pin_caps = " \
    "0x10, default = 0x01014010, list = [0x0C]}]\n"

/* Out of reset with unsolicited responses accepted, both rings at their places of driver.h, so many responses at once,
 * and both engines running. */
#define RINGS(at_once) \
    W(4, 0x08, 0x101), W(4, 0x40, CORB), W(4, 0x50, RIRB), W(2, 0x5A, at_once), W(1, 0x4C, 2), W(1, 0x5C, 2)
#endif
