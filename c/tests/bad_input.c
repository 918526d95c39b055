/* What no driver should give: each function gives a status and changes nothing. Usage: bad_input CODEC_FILE */
#include "driver.h"
#include "hda_heap.h"
#include "hda_model.h"

static void no_device(void) {
    hda *none = NULL;
    hda_saved *saved = NULL;
    hda_habits habits = hda_usual(1);
    hda_item item = {9, 9, 9};
    hda_pin pin = {9, 9};
    uint64_t heard = 9;
    size_t size = 9;
    char byte = 9;
    hda_close(NULL);
    hda_close(&none);
    CHECK(hda_status(none) == HDA_CLOSED);
    CHECK(hda_read(none, 8, 4) == 0);
    CHECK(hda_write(none, 8, 4, 1) == HDA_CLOSED);
    CHECK(hda_memory(none, &size) == NULL && size == 0);
    CHECK(hda_dma_read(none, 0, &byte, 1) == HDA_CLOSED && byte == 9);
    CHECK(hda_dma_write(none, 0, &byte, 1) == HDA_CLOSED);
    CHECK(hda_line(none) == 0);
    CHECK(hda_corb(none) == HDA_CLOSED && hda_answer(none, 0) == HDA_CLOSED && hda_lose(none, 0) == HDA_CLOSED &&
          hda_rirb(none) == HDA_CLOSED);
    CHECK(hda_fetch(none, 1, 4) == HDA_CLOSED && hda_link(none, 1) == HDA_CLOSED &&
          hda_plug(none, 0, 20) == HDA_CLOSED);
    CHECK(hda_unplug(none, 0, 20) == HDA_CLOSED && hda_step(none, 1, 0, 0, 0) == HDA_CLOSED);
    CHECK(hda_act(none, &habits) == HDA_CLOSED && hda_pass(none, 1) == HDA_CLOSED && hda_frames(none) == 0 &&
          !hda_wanted_memory(none));
    CHECK(hda_pins(none, &pin, 1) == 0 && pin.codec == 9 && hda_codecs(none) == 0);
    CHECK(hda_heard(none, 0, 20, 0, &item, 1, &heard) == HDA_CLOSED && heard == 0 && item.kind == 9);
    CHECK(hda_forget(none) == HDA_CLOSED && hda_keep_log(none, 1) == HDA_CLOSED && hda_log(none, &size) == NULL &&
          size == 0);
    CHECK(hda_give(none, "sound", 5) == HDA_CLOSED);
    heard = 9;
    CHECK(hda_taken(none, 0, (uint8_t *)&byte, 1, &heard) == HDA_CLOSED && heard == 0 && byte == 9);
    CHECK(hda_call(none, 0) == HDA_CLOSED && hda_return(none) == HDA_CLOSED);
    CHECK(hda_log_text(none, stdout) == HDA_CLOSED && hda_log_schedule(none, stdout) == HDA_CLOSED);
    CHECK(hda_save(none) == NULL && hda_restore(none, saved) == HDA_CLOSED);
    hda_discard(&saved);
    hda_discard(NULL);
}

/* The exports themselves at a place that was never opened, and at one that is closed. */
static void closed_place(hda_model *place) {
    hda_item item = {9, 9, 9};
    hda_pin name = {9, 9};
    uint8_t memory[4] = {0};
    uint32_t value = 9;
    uint64_t count = 9;
    CHECK(hda_model_read(place, 8, 4, &value) == HDA_CLOSED && value == 0);
    CHECK(hda_model_write(place, 8, 4, 1) == HDA_CLOSED);
    CHECK(hda_model_line(place, &value) == HDA_CLOSED && value == 0);
    CHECK(hda_model_step(place, memory, sizeof memory, HDA_LINK, 0, 0, 1) == HDA_CLOSED);
    CHECK(hda_model_heard(place, 0, 20, 0, &item, 1, &count) == HDA_CLOSED && count == 0 && item.kind == 9);
    CHECK(hda_model_forget(place) == HDA_CLOSED && hda_model_codec(place, 0) == HDA_CLOSED);
    CHECK(hda_model_pin_at(place, 0, &name) == HDA_CLOSED && name.codec == 9);
    count = 9;
    CHECK(hda_model_give(place, memory, sizeof memory) == HDA_CLOSED);
    CHECK(hda_model_taken_count(place, &count) == HDA_CLOSED && count == 0);
    memory[0] = 9;
    CHECK(hda_model_copy_taken(place, 0, memory, 1) == HDA_CLOSED && memory[0] == 9);
    hda_model_close(place);
}

static void texts(void) {
    char fault[64];
    hda_model place = {0};
    uint8_t few[1], none[1];
    size_t told = 9;
    hda_heap heap = {0}, *before;
    closed_place(&place);
    CHECK(hda_model_open(&place, few, 0, none, 0, &told) == HDA_NO_MEMORY && told == 0); /* there is no heap */
    before = hda_heap_use(&heap);
    CHECK(hda_model_open(&place, few, 0, none, 0, &told) == HDA_REFUSED && told == strlen("MissingKey codec at top"));
    closed_place(&place);
    hda_heap_use(before);
    hda_heap_free(&heap);
    CHECK(!hda_open("", 0, NULL, 0, fault, sizeof fault) && !strcmp(fault, "MissingKey codec at top"));
    CHECK(!hda_open(NULL, 7, NULL, 0, fault, sizeof fault) && !strcmp(fault, "MissingKey codec at top"));
    CHECK(!hda_open("", 0, NULL, 0, fault, 8) && !strcmp(fault, "Missing"));
    CHECK(!hda_open("", 0, NULL, 0, fault, 1) && !fault[0]);
    CHECK(!hda_open("", 0, NULL, 0, NULL, 0) && !hda_open("", 0, NULL, 0, NULL, 5));
    memset(text + text_size, ' ', sizeof text - text_size);
    CHECK(!hda_open(text, HDA_TEXT + 1, NULL, 0, fault, sizeof fault) && !strcmp(fault, "TooLong"));
    CHECK(!hda_open("\xff", 1, NULL, 0, fault, sizeof fault) && !strcmp(fault, "Toml"));
}

/* Each number of the habits has its range. */
static void ranges(hda *d) {
    static const uint32_t most[] = {1000, 1000, 1000000, 65535, 1000, 1000, 1000000};
    unsigned k;
    for (k = 0; k < 7; k++) {
        hda_habits h = hda_usual(1);
        uint32_t *const numbers[] = {&h.turns, &h.idle, &h.patience, &h.fetch, &h.starve, &h.lose, &h.frames};
        *numbers[k] = most[k];
        CHECK(hda_act(d, &h) == HDA_OK);
        *numbers[k] = most[k] + 1;
        CHECK(hda_act(d, &h) == HDA_REFUSED);
        *numbers[k] = UINT32_MAX;
        CHECK(hda_act(d, &h) == HDA_REFUSED && hda_act(d, NULL) == HDA_OK);
    }
}

/* Accesses and steps that are refused leave all as it was. */
static void calls(hda *d, size_t size) {
    static const unsigned widths[] = {0, 3, 5, 8, 255, 256, 257, 260, 0xFFFFFFFF};
    static const uint32_t places[] = {0x10000, 0x10008, 0xFFFFFFFF};
    hda_item item = {9, 9, 9};
    uint64_t heard = 9;
    uint8_t byte = 9;
    unsigned k, codec;
    CHECK(hda_write(d, 8, 4, 1) == HDA_OK && hda_read(d, 8, 4) == 1);
    for (k = 0; k < sizeof widths / sizeof *widths; k++) {
        CHECK(hda_read(d, 8, widths[k]) == 0 && hda_status(d) == HDA_NO_SUCH);
        CHECK(hda_write(d, 8, widths[k], 0) == HDA_NO_SUCH);
    }
    for (k = 0; k < sizeof places / sizeof *places; k++) {
        CHECK(hda_read(d, places[k], 4) == 0 && hda_status(d) == HDA_NO_SUCH);
        CHECK(hda_write(d, places[k], 4, 0) == HDA_NO_SUCH);
    }
    CHECK(hda_read(d, 0x4000, 4) == 0 && hda_write(d, 0x4000, 4, 1) == HDA_OK && hda_read(d, 0xFFFF, 1) == 0 &&
          hda_read(d, 9, 4) == 0);
    for (k = 0; k < 600; k++)
        if (k < 1 || k > 8) CHECK(hda_step(d, k, 0, 0, 1) == HDA_NO_SUCH);
    for (codec = 1; codec < 256; codec++) {
        CHECK(hda_answer(d, (uint8_t)codec) == HDA_NO_SUCH && hda_lose(d, (uint8_t)codec) == HDA_NO_SUCH);
        CHECK(hda_plug(d, (uint8_t)codec, 20) == HDA_NO_SUCH && hda_unplug(d, (uint8_t)codec, 20) == HDA_NO_SUCH);
        CHECK(hda_heard(d, (uint8_t)codec, 20, 0, &item, 1, &heard) == HDA_NO_SUCH && heard == 0 && item.kind == 9);
    }
    for (k = 0; k < 256; k++) {
        CHECK(hda_plug(d, 0, (uint8_t)k) == HDA_OK && hda_unplug(d, 0, (uint8_t)k) == HDA_OK);
        CHECK((hda_heard(d, 0, (uint8_t)k, 0, NULL, 0, NULL) == HDA_OK) == (k == 20));
    }
    CHECK(hda_heard(d, 0, 20, UINT64_MAX, &item, 1, &heard) == HDA_OK && item.kind == 9);
    CHECK(hda_fetch(d, 2, 4) == HDA_NO_SUCH && hda_fetch(d, 255, 4) == HDA_NO_SUCH &&
          hda_fetch(d, 1, 65536) == HDA_NO_SUCH);
    CHECK(hda_give(d, NULL, 5) == HDA_OK && hda_give(d, &item, 0) == HDA_OK);
    heard = 9;
    CHECK(hda_taken(d, 0, &byte, 1, &heard) == HDA_OK && heard == 0 && byte == 9);
    CHECK(hda_fetch(d, 1, 0) == HDA_OK && hda_fetch(d, 0, 4) == HDA_OK && hda_link(d, 0) == HDA_OK);
    CHECK(hda_dma_read(d, size, &byte, 1) == HDA_OUTSIDE && byte == 9 &&
          hda_dma_write(d, size, &byte, 1) == HDA_OUTSIDE);
    CHECK(hda_dma_read(d, UINT64_MAX, &byte, 2) == HDA_OUTSIDE && hda_dma_write(d, 0, &byte, size + 1) == HDA_OUTSIDE);
    CHECK(hda_dma_read(d, 0, NULL, 1) == HDA_OUTSIDE && hda_dma_write(d, 0, NULL, 1) == HDA_OUTSIDE);
    CHECK(hda_dma_read(d, 0, NULL, 0) == HDA_OK && hda_dma_read(d, size, &byte, 0) == HDA_OK);
    ranges(d);
    CHECK(hda_log_text(d, stdout) == HDA_REFUSED && hda_log_schedule(d, stdout) == HDA_REFUSED);
    CHECK(hda_restore(d, NULL) == HDA_NO_SUCH && hda_read(d, 8, 4) == 1);
}

/* Rings and lists that begin or end where the memory does, and addresses past it. */
static void rings(hda *d, size_t size) {
    uint32_t ends[6] = {0, 0x80, 0xFFFFFF80u, 0x80000000u, 0, 0};
    unsigned k, n;
    ends[4] = (uint32_t)size & ~127u;
    ends[5] = (uint32_t)(size < 128 ? 0 : size - 128) & ~127u;
    for (k = 0; k < 6; k++) {
        hda_write(d, 0x08, 4, 0);
        hda_write(d, 0x08, 4, 1);
        hda_write(d, 0x40, 4, ends[k]);
        hda_write(d, 0x44, 4, k % 2 ? 0xFFFFFFFFu : 0);
        hda_write(d, 0x50, 4, ends[(k + 1) % 6]);
        hda_write(d, 0x5A, 2, k);
        hda_write(d, 0x4C, 1, 3);
        hda_write(d, 0x5C, 1, 7);
        hda_write(d, 0x48, 2, 255);
        hda_write(d, 0xA8, 4, k % 2 ? 0xFFFFFFFFu : 256);
        hda_write(d, 0xAC, 2, 255);
        hda_write(d, 0xB2, 2, 0x0011);
        hda_write(d, 0xB8, 4, ends[k]);
        hda_write(d, 0xA0, 4, 1 << 20 | 2);
        for (n = 0; n < 300; n++) {
            CHECK(hda_corb(d) == HDA_OK && hda_answer(d, 0) == HDA_OK && hda_rirb(d) == HDA_OK);
            CHECK(hda_fetch(d, 1, 65535) == HDA_OK && hda_link(d, 3) == HDA_OK);
            hda_write(d, 0x5D, 1, 5);
        }
    }
}

static void device(void *memory, size_t size) {
    hda *d = hda_open(text, text_size, memory, size, NULL, 0);
    size_t has;
    CHECK(d != NULL && hda_codecs(d) == 1);
    if (!d) return;
    hda_memory(d, &has);
    calls(d, has);
    rings(d, has);
    hda_close(&d);
    CHECK(d == NULL && hda_write(d, 8, 4, 1) == HDA_CLOSED);
}

/* What is copied may lie in the device's memory itself, and an access has at most 4,294,967,295 bytes. */
static void copies(void) {
    hda *d = open_device();
    uint8_t *memory = hda_memory(d, NULL);
    size_t k, size, same = 0;
    uint8_t byte = 9;
    for (k = 0; k < 1000; k++) memory[k] = (uint8_t)(k * 7);
    CHECK(hda_dma_write(d, 100, memory, 900) == HDA_OK);
    for (k = 0; k < 900; k++) same += memory[100 + k] == (uint8_t)(k * 7);
    CHECK(hda_dma_read(d, 100, memory + 150, 850) == HDA_OK);
    for (k = 0; k < 850; k++) same += memory[150 + k] == (uint8_t)(k * 7);
    CHECK(same == 1750);
    hda_close(&d);
    if ((size_t)UINT32_MAX == SIZE_MAX) return;
    size = (size_t)UINT32_MAX + 1;
    d = hda_open(text, text_size, NULL, size, NULL, 0);
    CHECK(hda_dma_read(d, 0, &byte, size) == (d ? HDA_OUTSIDE : HDA_CLOSED) && byte == 9);
    CHECK(hda_dma_read(d, size - 1, &byte, 1) == (d ? HDA_OK : HDA_CLOSED));
    hda_close(&d);
}

int main(int argc, char **argv) {
    static const size_t sizes[] = {0, 1, 3, 4, 127, 128, 4096, 64u << 20};
    size_t k;
    read_text(argc > 1 ? argv[1] : "");
    no_device();
    texts();
    device(NULL, 0);
    device(NULL, 1);
    copies();
    for (k = 0; k < sizeof sizes / sizeof *sizes; k++) {
        void *memory = calloc(1, sizes[k] ? sizes[k] : 1);
        device(memory, sizes[k]);
        free(memory);
    }
    printf("bad_input: %ld wrong\n", wrong);
    return wrong != 0;
}
