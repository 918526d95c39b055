/* A driver for the tests: it takes the controller out of reset, asks, and plays. It takes the host to be lowest byte
 * first. */
#ifndef DRIVER_H
#define DRIVER_H
#include "hda.h"
#include <stdlib.h>
#include <string.h>

enum { CORB = 0x1000, RIRB = 0x1400, LIST = 0x2000, SOUND = 0x2080, BUFFER = 384 };

static char text[HDA_TEXT + 1];
static size_t text_size;
static long wrong;

#define CHECK(fact) ((fact) ? (void)0 : (void)(wrong++, printf("%s:%d: %s\n", __FILE__, __LINE__, #fact)))

static inline void read_text(const char *name) {
    FILE *file = fopen(name, "rb");
    if (!file) exit(3);
    text_size = fread(text, 1, sizeof text, file);
    fclose(file);
}

static inline hda *open_device(void) {
    hda *d = hda_open(text, text_size, NULL, 0, NULL, 0);
    if (!d) exit(5);
    return d;
}

typedef struct driver {
    hda *device;
    unsigned sent, seen;
    uint64_t said;
} driver;

/* The sum of all that the driver read, by which two runs are compared. */
static inline void mix(driver *r, uint64_t value) { r->said = (r->said ^ value) * UINT64_C(0x100000001B3); }

static inline int ask(driver *r, uint32_t word) {
    uint32_t entry[2];
    unsigned waited, now;
    for (waited = 0; waited < 20000; waited++, hda_pass(r->device, 1)) {
        if (waited % 1000 == 0) {
            r->sent = (r->sent + 1) % 256;
            hda_dma_write(r->device, CORB + 4 * r->sent, &word, 4);
            hda_write(r->device, 0x48, 2, r->sent);
        }
        now = hda_read(r->device, 0x58, 2);
        mix(r, now);
        if (now == r->seen) continue;
        r->seen = (r->seen + 1) % 256;
        hda_dma_read(r->device, RIRB + 8 * r->seen, entry, 8);
        hda_write(r->device, 0x5D, 1, 1);
        mix(r, entry[0]);
        return 1;
    }
    return 0;
}

/* Takes the controller out of reset and sets its rings going. */
static inline void set_going(driver *r) {
    hda_write(r->device, 0x08, 4, 1);
    hda_pass(r->device, 25);
    hda_write(r->device, 0x40, 4, CORB);
    hda_write(r->device, 0x50, 4, RIRB);
    hda_write(r->device, 0x5A, 2, 1);
    hda_write(r->device, 0x4C, 1, 2);
    hda_write(r->device, 0x5C, 1, 3);
}

static inline int bring_up(driver *r) {
    static const uint32_t verbs[] = {0x000F0000, 0x00170500, 0x00220011, 0x00270610,
                                     0x00C37000, 0x00C37180, 0x0143B000, 0x01470740};
    size_t k;
    set_going(r);
    for (k = 0; k < sizeof verbs / sizeof *verbs; k++)
        if (!ask(r, verbs[k])) return 0;
    return 1;
}

static inline void start(driver *r, uint32_t size) {
    uint32_t list[8] = {SOUND, 0, 0, 0, 0, 0, 0, 0};
    list[2] = list[6] = size;
    list[4] = SOUND + size;
    hda_dma_write(r->device, LIST, list, sizeof list);
    hda_write(r->device, 0xA8, 4, 2 * size);
    hda_write(r->device, 0xAC, 2, 1);
    hda_write(r->device, 0xB2, 2, 0x0011);
    hda_write(r->device, 0xB8, 4, LIST);
    hda_write(r->device, 0xA0, 4, 1 << 20 | 2);
}

static inline void stop(driver *r) { hda_write(r->device, 0xA0, 4, 1 << 20); }

/* Mixes in what all pins heard. */
static inline void mix_heard(driver *r) {
    static hda_item items[65536];
    hda_pin pins[16];
    size_t count = hda_pins(r->device, pins, 16), k;
    uint64_t heard, n;
    for (k = 0; k < count; k++) {
        hda_heard(r->device, pins[k].codec, pins[k].nid, 0, items, 65536, &heard);
        mix(r, heard);
        for (n = 0; n < heard && n < 65536; n++) {
            mix(r, items[n].kind);
            mix(r, (uint32_t)items[n].left);
            mix(r, (uint32_t)items[n].right);
        }
    }
}
#endif
