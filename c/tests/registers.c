/* The registers (3.3) as tables of accesses: what each reads was worked out by hand from the standard. Usage: registers
 */
#include "rows.h"

static const char controller[] = "fifo = 192\nrirb = 16\n" ONE_PIN("0") ONE_PIN("2");

/* STATESTS survives a reset. */
static const row state_status[] = {
    W(4, 0x08, 1), R(4, 0x08, 1), LINK(24), R(2, 0x0E, 0), LINK(1), R(2, 0x0E, 5),
    W(2, 0x0E, 4), R(2, 0x0E, 1), W(4, 0x08, 0), R(4, 0x08, 0), R(2, 0x0E, 1), W(4, 0x08, 1), R(2, 0x0E, 1),
};

/* A response raises the line, until its flag is cleared by a 1. */
static const row response[] = {
    W(4, 0x08, 1), W(4, 0x20, 0xC0000000), W(4, 0x40, CORB), W(4, 0x50, RIRB), W(2, 0x5A, 1), W(1, 0x4C, 2),
    W(1, 0x5C, 3), PUT(CORB + 4, 0x000F0000), W(2, 0x48, 1), CORBS(1), ANSWERS(1, 0), R(4, 0x24, 0), LINE(0),
    RIRBS, R(4, 0x24, 0xC0000000), LINE(1), W(1, 0x5D, 0), R(4, 0x24, 0xC0000000), LINE(1), W(1, 0x5D, 1),
    R(4, 0x24, 0), LINE(0),
};

/* Writes in reset are ignored. */
static const row in_reset[] = {
    W(4, 0x20, 0xFFFFFFFF), R(4, 0x20, 0), W(4, 0x08, 1), W(4, 0x20, 0xFFFFFFFF), R(4, 0x20, 0xC0000003),
};

/* Bits below a ring's alignment read 0; the write pointer is taken modulo the entries. */
static const row rings_set[] = {
    W(4, 0x08, 0x101), W(4, 0x40, 0x1234567F), W(2, 0x48, 0x0103), W(1, 0x4C, 2), W(4, 0x50, 0x00020000),
    W(1, 0x5C, 3), R(4, 0x08, 0x101), R(4, 0x40, 0x12345600), R(2, 0x48, 3), R(1, 0x4C, 2), R(4, 0x50, 0x00020000),
    R(1, 0x5C, 3), R(1, 0x5D, 0), R(2, 0x5A, 0), R(1, 0x4E, 0x42), R(1, 0x5E, 0x21),
};

/* Both engines move their pointers: 0 in RINTCNT stands for 256 responses, but a ring of 16 entries takes 15 at once.
 */
static const row rings_moved[] = {
    RINGS(0), PUT(CORB + 4, 0x000F0000), PUT(CORB + 8, 0x000F0000), PUT(CORB + 12, 0x000F0000), W(2, 0x48, 3),
    CORBS(3), R(2, 0x4A, 3), W(2, 0x48, 255), CORBS(50), R(2, 0x4A, 53), ANSWERS(20, 0), RIRBS, R(2, 0x58, 15),
    R(1, 0x5D, 1), W(2, 0x4A, 0x8000), R(2, 0x4A, 0x8000), W(2, 0x58, 0x8000), R(2, 0x58, 0), LINK(1),
    R(4, 0x30, 500),
};

/* A stream is reset, starts, keeps its registers while it runs, and stops. Its list has a buffer of 96 bytes and one of
 * 672, both with IOC. BCIS comes once all of a buffer was fetched, FIFORDY while the FIFO holds a block. */
static const row stream[] = {
    PUT(0x10080, 0x1000), PUT(0x10088, 96), PUT(0x1008C, 1), PUT(0x10090, 0x1080), PUT(0x10098, 672),
    PUT(0x1009C, 1), W(4, 0x08, 1), W(1, 0xA0, 1), R(1, 0xA0, 1), W(1, 0xA0, 0), R(1, 0xA0, 0), W(4, 0xA8, 768),
    W(2, 0xAC, 1), W(2, 0xB2, 0x0011), W(4, 0xB8, 0x00010080), W(4, 0xA0, 0x0010001C), R(4, 0xA0, 0x0010001C),
    W(1, 0xA0, 0x1E), R(4, 0xA0, 0x0010001E), W(4, 0xA8, 1), R(4, 0xA8, 768), R(2, 0xAC, 1), R(2, 0xB2, 0x0011),
    R(4, 0xB8, 0x00010080), R(2, 0xB0, 192), FETCH(192), R(1, 0xA3, 0x24), LINK(24), R(4, 0xA4, 96),
    R(1, 0xA3, 0x24), LINK(24), R(4, 0xA4, 192), R(1, 0xA3, 0x04), LINK(1), R(1, 0xA3, 0x0C), FETCH(4),
    R(1, 0xA3, 0x2C), W(1, 0xA3, 0x08), R(1, 0xA3, 0x24), W(1, 0xA0, 0), R(1, 0xA0, 0), R(4, 0xA4, 192),
    R(1, 0xA3, 0x04),
};

/* At other places nothing is read and nothing is written, and at no place that is no multiple of the access. */
static void other_places(void) {
    static const unsigned gaps[] = {4, 5, 6, 7, 10, 11, 13, 14, 15, 17, 21, 24, 27, 31, 37, 39, 45, 47};
    hda *d = open_text(controller), *fresh = open_text(controller);
    uint32_t at, bytes;
    size_t k;
    CHECK(hda_write(d, 0x08, 4, 1) == HDA_OK);
    for (at = 0; at <= 0xFFFF; at++)
        for (bytes = 1; bytes <= 4; bytes *= 2)
            if (at >= 0xC0 || at % bytes != 0) {
                CHECK(hda_read(d, at, bytes) == 0);
                CHECK(hda_write(d, at, bytes, 0xFFFFFFFF) == HDA_OK);
            }
    for (k = 0; k < sizeof gaps / sizeof *gaps; k++) {
        CHECK(hda_write(d, 4 * gaps[k], 4, 0xFFFFFFFF) == HDA_OK && hda_read(d, 4 * gaps[k], 4) == 0);
    }
    for (at = 12; at < 0xC0; at += 4) CHECK(hda_read(d, at, 4) == hda_read(fresh, at, 4));
    hda_close(&d);
    hda_close(&fresh);
}

int main(void) {
    OPEN_AND_RUN(controller, state_status);
    OPEN_AND_RUN(controller, response);
    OPEN_AND_RUN(controller, in_reset);
    OPEN_AND_RUN(controller, rings_set);
    OPEN_AND_RUN(controller, rings_moved);
    OPEN_AND_RUN(controller, stream);
    other_places();
    printf("registers: %ld wrong\n", wrong);
    return wrong != 0;
}
