/* What pins hear, in parts and as bytes; two codecs with three pins; the interrupt line; the time that passed. Usage:
 * hearing CODEC_FILE FILE_OF_TWO_CODECS */
#include "driver.h"
#include "hda_device.h"

static hda_item items[65536];

/* Five blocks are heard, of which the first two are sound of their own. */
static driver played(uint32_t frames) {
    static const int16_t sound[] = {1, 2, 3, -4};
    hda_habits quick = hda_quick(1);
    driver r = {0};
    r.device = open_device();
    CHECK(hda_act(r.device, &quick) == HDA_OK && bring_up(&r) && hda_act(r.device, NULL) == HDA_OK);
    CHECK(hda_dma_write(r.device, SOUND, sound, sizeof sound) == HDA_OK && hda_forget(r.device) == HDA_OK);
    start(&r, BUFFER);
    CHECK(hda_fetch(r.device, 1, 4 * frames) == HDA_OK && hda_link(r.device, frames) == HDA_OK);
    return r;
}

static int is_item(const hda_item *item, uint32_t kind, int32_t left, int32_t right) {
    return item->kind == kind && item->left == left && item->right == right;
}

/* The items from a number on, as many as there is room for. */
static void parts(void) {
    driver r = played(4);
    hda_item part[3] = {{9, 9, 9}, {9, 9, 9}, {9, 9, 9}};
    uint64_t heard = 0;
    CHECK(hda_link(r.device, 1) == HDA_OK);
    CHECK(hda_heard(r.device, 0, 0x14, 0, items, 65536, &heard) == HDA_OK && heard == 5);
    CHECK(is_item(&items[0], HDA_SOUND, 1, 2) && is_item(&items[1], HDA_SOUND, 3, -4));
    CHECK(is_item(&items[2], HDA_SOUND, 0, 0) && is_item(&items[3], HDA_SOUND, 0, 0));
    CHECK(is_item(&items[4], HDA_HOLE, 0, 0));
    CHECK(hda_heard(r.device, 0, 0x14, 1, part, 2, &heard) == HDA_OK && heard == 5);
    CHECK(is_item(&part[0], HDA_SOUND, 3, -4) && is_item(&part[1], HDA_SOUND, 0, 0) && is_item(&part[2], 9, 9, 9));
    CHECK(hda_heard(r.device, 0, 0x14, 4, part, 3, NULL) == HDA_OK && is_item(&part[0], HDA_HOLE, 0, 0));
    CHECK(is_item(&part[1], HDA_SOUND, 0, 0));
    hda_close(&r.device);
}

/* Through an amplifier that is not at 0 dB nothing is followed. */
static void altered(void) {
    char *amplifier = strstr(text, "amp_out = 0x80000000");
    driver r;
    CHECK(amplifier != NULL);
    if (!amplifier) return;
    memcpy(amplifier, "amp_out = 0x80051F1F", 20);
    r = played(2);
    CHECK(hda_heard(r.device, 0, 0x14, 0, items, 65536, NULL) == HDA_OK);
    CHECK(is_item(&items[0], HDA_ALTERED, 0, 0) && is_item(&items[1], HDA_ALTERED, 0, 0));
    hda_close(&r.device);
    memcpy(amplifier, "amp_out = 0x80000000", 20);
}

static void bytes(void) {
    static const hda_item some[] = {{HDA_SOUND, 0x123456, -2}, {HDA_QUIET, 5, 6}, {HDA_HOLE, 5, 6},
                                    {HDA_ALTERED, 5, 6}, {HDA_SOUND, -3, 7}};
    static const uint8_t narrow[20] = {0x56, 0x34, 0xFE, 0xFF, 0, 0, 0, 0, 0, 0, 0, 0, 0, 0, 0, 0, 0xFD, 0xFF, 7, 0};
    static const uint8_t wide[16] = {0x56, 0x34, 0x12, 0, 0xFE, 0xFF, 0xFF, 0xFF, 0, 0, 0, 0, 0, 0, 0, 0};
    uint8_t into[41];
    memset(into, 9, sizeof into);
    CHECK(hda_pcm(some, 5, 16, into) == 20 && !memcmp(into, narrow, 20) && into[20] == 9);
    CHECK(hda_pcm(some, 2, 24, into) == 16 && !memcmp(into, wide, 16) && into[16] == narrow[16]);
    CHECK(hda_pcm(some, 5, 32, into) == 40 && !memcmp(into, wide, 16) && into[32] == 0xFD && into[36] == 7);
    CHECK(into[40] == 9);
    memset(into, 9, sizeof into);
    CHECK(hda_pcm(some, 5, 20, into) == 0 && hda_pcm(some, 0, 16, into) == 0 && into[0] == 9);
    CHECK(hda_pcm(NULL, 5, 16, into) == 0 && hda_pcm(some, 5, 16, NULL) == 0);
}

/* A sample of more than 16 bits is heard as its container of four bytes, and written as the driver wrote it. */
static void wide_samples(uint32_t format, unsigned bits) {
    static const uint32_t sound[] = {0x12345600, 0xFFFFFE00, 0x00000100, 0x80000000};
    static const uint8_t wanted[16] = {0, 0x56, 0x34, 0x12, 0, 0xFE, 0xFF, 0xFF, 0, 1, 0, 0, 0, 0, 0, 0x80};
    hda_habits quick = hda_quick(1);
    driver r = {0};
    uint8_t into[16];
    r.device = open_device();
    CHECK(hda_act(r.device, &quick) == HDA_OK && bring_up(&r) && ask(&r, 0x00220000 | format));
    CHECK(hda_act(r.device, NULL) == HDA_OK && hda_forget(r.device) == HDA_OK);
    hda_dma_write(r.device, SOUND, sound, sizeof sound);
    start(&r, BUFFER);
    stop(&r);
    hda_write(r.device, 0xB2, 2, format);
    hda_write(r.device, 0xA0, 4, 1 << 20 | 2);
    CHECK(hda_fetch(r.device, 1, 16) == HDA_OK && hda_link(r.device, 2) == HDA_OK);
    CHECK(hda_heard(r.device, 0, 0x14, 0, items, 65536, NULL) == HDA_OK);
    CHECK(is_item(&items[0], HDA_SOUND, 0x12345600, -512) && is_item(&items[1], HDA_SOUND, 256, INT32_MIN));
    CHECK(hda_pcm(items, 2, bits, into) == 16 && !memcmp(into, wanted, 16));
    hda_close(&r.device);
}

/* The line is high from an answer until the driver has taken notice. */
static void line(void) {
    const uint32_t word = 0x000F0000;
    driver r = {0};
    r.device = open_device();
    CHECK(hda_line(r.device) == 0);
    set_going(&r);
    hda_write(r.device, 0x20, 4, 0xC0000000u);
    CHECK(hda_dma_write(r.device, CORB + 4, &word, 4) == HDA_OK && hda_write(r.device, 0x48, 2, 1) == HDA_OK);
    hda_write(r.device, 0x0E, 2, hda_read(r.device, 0x0E, 2));
    CHECK(hda_corb(r.device) == HDA_OK && hda_answer(r.device, 0) == HDA_OK && hda_line(r.device) == 0);
    CHECK(hda_rirb(r.device) == HDA_OK && hda_line(r.device) == 1 && hda_line(r.device) == 1);
    CHECK(hda_write(r.device, 0x5D, 1, 1) == HDA_OK && hda_line(r.device) == 0);
    hda_close(&r.device);
}

/* Link frames are counted, in reset too, and a long time wants no room. */
static void frames(void) {
    hda *d = open_device();
    hda_habits habits = hda_quick(1);
    CHECK(hda_frames(d) == 0 && hda_link(d, 1000) == HDA_OK && hda_frames(d) == 1000);
    CHECK(hda_corb(d) == HDA_OK && hda_fetch(d, 1, 9) == HDA_OK && hda_link(d, 0) == HDA_OK && hda_frames(d) == 1000);
    CHECK(hda_write(d, 8, 4, 1) == HDA_OK && hda_pass(d, 333) == HDA_OK && hda_frames(d) == 1333);
    CHECK(hda_read(d, 0x30, 4) == 333 * 500);
    CHECK(hda_act(d, &habits) == HDA_OK && hda_pass(d, 77) == HDA_OK && hda_frames(d) == 1410);
    CHECK(hda_act(d, NULL) == HDA_OK && hda_pass(d, 1000000) == HDA_OK && hda_frames(d) == 1001410);
    CHECK(hda_read(d, 0x30, 4) == 1000410u * 500 && hda_heap_used(&d->heap) < 1000000);
    hda_close(&d);
}

/* Asks, and gives the answer with the number of the codec that it came from. */
static uint64_t answer(driver *r, uint32_t word) {
    uint64_t entry = 0;
    if (!ask(r, word)) return UINT64_MAX;
    memcpy(&entry, hda_memory(r->device, NULL) + RIRB + 8 * r->seen, 8);
    return entry;
}

static void two_codecs(void) {
    static const uint32_t verbs[] = {0x20170500, 0x20220011, 0x20270610, 0x20570740};
    static const int16_t sound[] = {1, 2, 3, -4};
    hda_habits usual = hda_usual(1);
    hda_pin pins[4] = {{9, 9}, {9, 9}, {9, 9}, {9, 9}};
    driver r = {0};
    uint64_t heard;
    size_t k;
    r.device = open_device();
    CHECK(hda_codecs(r.device) == 5 && hda_pins(r.device, NULL, 0) == 3);
    CHECK(hda_pins(r.device, pins, 2) == 3 && pins[2].codec == 9 && hda_pins(r.device, pins, 4) == 3);
    CHECK(pins[0].codec == 0 && pins[0].nid == 0x14 && pins[1].codec == 2 && pins[1].nid == 5);
    CHECK(pins[2].codec == 2 && pins[2].nid == 6 && pins[3].codec == 9);
    CHECK(hda_act(r.device, &usual) == HDA_OK && bring_up(&r) && hda_read(r.device, 0x0E, 2) == 5);
    CHECK(answer(&r, 0x000F0000) == 0x10EC0889 && answer(&r, 0x200F0000) == (UINT64_C(2) << 32 | 0x10EC0885));
    for (k = 0; k < sizeof verbs / sizeof *verbs; k++) CHECK(ask(&r, verbs[k]));
    CHECK(hda_act(r.device, NULL) == HDA_OK && hda_forget(r.device) == HDA_OK);
    hda_dma_write(r.device, SOUND, sound, sizeof sound);
    start(&r, BUFFER);
    CHECK(hda_fetch(r.device, 1, 8) == HDA_OK && hda_link(r.device, 2) == HDA_OK);
    for (k = 0; k < 2; k++) {
        CHECK(hda_heard(r.device, pins[k].codec, pins[k].nid, 0, items, 9, &heard) == HDA_OK && heard == 2);
        CHECK(is_item(&items[0], HDA_SOUND, 1, 2) && is_item(&items[1], HDA_SOUND, 3, -4));
    }
    CHECK(hda_heard(r.device, 2, 6, 0, items, 9, &heard) == HDA_OK && heard == 2);
    CHECK(is_item(&items[0], HDA_QUIET, 0, 0) && is_item(&items[1], HDA_QUIET, 0, 0));
    CHECK(hda_heard(r.device, 0, 5, 0, items, 9, &heard) == HDA_NO_SUCH && heard == 0);
    CHECK(hda_heard(r.device, 2, 0x14, 0, items, 9, &heard) == HDA_NO_SUCH);
    CHECK(hda_answer(r.device, 2) == HDA_OK && hda_answer(r.device, 1) == HDA_NO_SUCH);
    hda_close(&r.device);
}

int main(int argc, char **argv) {
    read_text(argc > 1 ? argv[1] : "");
    parts();
    altered();
    bytes();
    wide_samples(0x0031, 24);
    wide_samples(0x0041, 32);
    line();
    frames();
    read_text(argc > 2 ? argv[2] : "");
    two_codecs();
    printf("hearing: %ld wrong\n", wrong);
    return wrong != 0;
}
