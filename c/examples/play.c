/* A driver of some forty lines: it brings a codec up and plays two frames on a device that acts by itself between any
 * two accesses. It takes the host to be lowest byte first. Usage: play CODEC_FILE [quick | usual | difficult] [SEED].
 * Prints what it found and what each pin heard. */
#include "hda.h"
#include <stdlib.h>
#include <string.h>

enum { CORB = 0x1000, RIRB = 0x1400, LIST = 0x2000, SOUND = 0x2080, BUFFER = 384 };
static hda *d;
static unsigned sent, seen;

/* Sends a command (7.3) and gives its answer. Sends it again where the answer was lost: none is under way after so
 * long. */
static uint32_t ask(uint32_t word) {
    uint32_t entry[2];
    for (unsigned waited = 0; waited < 20000; waited++, hda_pass(d, 1)) {
        if (waited % 1000 == 0) {
            sent = (sent + 1) % 256;
            hda_dma_write(d, CORB + 4 * sent, &word, 4);
            hda_write(d, 0x48, 2, sent); /* CORBWP (3.3.20) */
        }
        if (hda_read(d, 0x58, 2) == seen) continue; /* RIRBWP (3.3.27) */
        seen = (seen + 1) % 256;
        hda_dma_read(d, RIRB + 8 * seen, entry, 8);
        hda_write(d, 0x5D, 1, 1); /* RINTFL of RIRBSTS (3.3.30): no further answer comes before it is cleared */
        return entry[0];
    }
    printf("no answer to %08x\n", word);
    exit(1);
}

/* Takes the controller out of reset (4.3), and sets the rings going (4.4). */
static void bring_up(void) {
    hda_write(d, 0x08, 4, 1); /* CRST of GCTL; the codecs announce themselves 25 link frames later */
    hda_pass(d, 25);
    hda_write(d, 0x40, 4, CORB);
    hda_write(d, 0x50, 4, RIRB);
    hda_write(d, 0x5A, 2, 1); /* RINTCNT */
    hda_write(d, 0x4C, 1, 2); /* CORBRUN */
    hda_write(d, 0x5C, 1, 3); /* RIRBDMAEN, and interrupts */
    printf("codecs %04x vendor %08x\n", hda_read(d, 0x0E, 2), ask(0x000F0000));
}

/* Plays two buffers round and round (4.5), the sound and zeros, until the link has taken the sound: holes put it off.
 * Output stream 1 is the descriptor at A0h. */
static void play(const int16_t *sound, size_t bytes) {
    const uint32_t list[8] = {SOUND, 0, BUFFER, 0, SOUND + BUFFER, 0, BUFFER, 0};
    hda_dma_write(d, SOUND, sound, bytes);
    hda_dma_write(d, LIST, list, sizeof list);
    hda_write(d, 0xA8, 4, 2 * BUFFER);
    hda_write(d, 0xAC, 2, 1);
    hda_write(d, 0xB2, 2, 0x0011); /* 48 kHz, 16 bits, 2 channels */
    hda_write(d, 0xB8, 4, LIST);
    hda_write(d, 0xA0, 4, 1 << 20 | 2); /* tag 1, RUN */
    for (unsigned waited = 0; waited < 2000; waited++, hda_pass(d, 1))
        if (hda_read(d, 0xA4, 4) >= bytes) break; /* LPIB (3.3.37) */
    hda_write(d, 0xA0, 4, 1 << 20);
}

/* Prints what a pin heard up to the sound's end, and whether it was the sound, whole and in order. Holes are no fault
 * of the driver: the habits asked for them. */
static int check(hda_pin pin, const int16_t *sound) {
    static hda_item items[4096];
    uint64_t count, k;
    unsigned found = 0, holes = 0;
    hda_heard(d, pin.codec, pin.nid, 0, items, 4096, &count);
    printf("pin %u %02x:", pin.codec, pin.nid);
    for (k = 0; k < count && k < 4096 && found < 2; k++) {
        if (items[k].kind == HDA_HOLE) holes++;
        if (items[k].kind != HDA_SOUND) continue;
        printf(" %d,%d", items[k].left, items[k].right);
        if (items[k].left != sound[2 * found] || items[k].right != sound[2 * found + 1]) break;
        found++;
    }
    if (holes) printf(" with %u holes", holes);
    printf("\n");
    return found == 2;
}

int main(int argc, char **argv) {
    static char text[HDA_TEXT + 1];
    static const uint32_t verbs[] = {0x00170500, 0x00220011, 0x00270610, 0x00C37000,
                                     0x00C37180, 0x0143B000, 0x01470740};
    static const int16_t sound[] = {1, 2, 3, -1};
    const char *preset = argc > 2 ? argv[2] : "usual";
    uint64_t seed = argc > 3 ? strtoull(argv[3], NULL, 0) : 1;
    hda_habits habits = *preset == 'q' ? hda_quick(seed) : *preset == 'd' ? hda_difficult(seed) : hda_usual(seed);
    char fault[100];
    hda_pin pins[16];
    int good = 1;
    FILE *file = argc > 1 ? fopen(argv[1], "rb") : NULL;
    if (!file) return 3;
    d = hda_open(text, fread(text, 1, sizeof text, file), NULL, 0, fault, sizeof fault);
    fclose(file);
    if (!d) {
        printf("codec refused: %s\n", fault);
        return 5;
    }
    hda_act(d, &habits);
    bring_up();
    /* Power to D0, the converter's tag and format, the mixer's and the pin's amplifiers, and the pin's output (7.3.3).
     */
    for (size_t k = 0; k < sizeof verbs / sizeof *verbs; k++) ask(verbs[k]);
    play(sound, sizeof sound);
    for (size_t k = hda_pins(d, pins, 16); k-- > 0;) good &= check(pins[k], sound);
    hda_close(&d);
    return !good;
}
