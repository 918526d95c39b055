/* A device that was saved and restored answers the next thousand accesses as it did before, and two devices share
 * nothing. Usage: snapshots CODEC_FILE FILE_OF_TWO_CODECS */
#include "driver.h"
#include "hda_device.h"

/* A thousand accesses, with all that the device does between them. */
static uint64_t thousand(driver r) {
    size_t size, byte;
    unsigned k;
    const uint8_t *memory = hda_memory(r.device, &size);
    for (byte = 0; byte < 0x3000 && byte < size; byte++) mix(&r, memory[byte]);
    for (k = 0; k < 1000; k++) {
        static const uint32_t places[] = {0x30, 0x58, 0xA4, 0x24, 0xA0, 0x0E, 0x4A, 0x5D};
        mix(&r, hda_read(r.device, places[k % 8], k % 8 == 7 ? 1 : k % 8 == 5 || k % 8 == 6 || k % 8 == 1 ? 2 : 4));
        if (k % 100 == 50) mix(&r, (uint64_t)ask(&r, 0x000F0000 + k / 100 % 3));
        if (k % 250 == 7) hda_forget(r.device);
        if (k % 300 == 11) hda_dma_write(r.device, SOUND, &k, 4);
    }
    mix_heard(&r);
    mix(&r, hda_frames(r.device));
    return r.said;
}

static void once(hda_habits habits) {
    driver r = {0};
    hda_saved *early, *late;
    driver at_early, at_late;
    uint64_t first, second;
    r.device = open_device();
    CHECK(hda_act(r.device, &habits) == HDA_OK && bring_up(&r));
    start(&r, BUFFER);
    hda_pass(r.device, 100);
    at_early = r;
    early = hda_save(r.device);
    CHECK(early != NULL);
    first = thousand(r);
    hda_pass(r.device, 30000);
    late = hda_save(r.device);
    at_late = r;
    second = thousand(at_late);
    CHECK(hda_restore(r.device, early) == HDA_OK && thousand(at_early) == first);
    CHECK(hda_act(r.device, NULL) == HDA_OK);
    CHECK(hda_restore(r.device, late) == HDA_OK && thousand(at_late) == second);
    CHECK(hda_restore(r.device, early) == HDA_OK && thousand(at_early) == first);
    hda_discard(&late);
    CHECK(hda_restore(r.device, early) == HDA_OK && thousand(at_early) == first && late == NULL);
    {
        hda *other = open_device();
        CHECK(hda_restore(other, early) == HDA_NO_SUCH && hda_read(other, 8, 4) == 0);
        hda_close(&other);
    }
    hda_discard(&early);
    hda_close(&r.device);
}

/* A second is heard and forgotten twice, so that blocks of the heap are freed and taken again. */
static uint64_t seconds(driver r) {
    unsigned k;
    for (k = 0; k < 2; k++) {
        CHECK(hda_pass(r.device, 24000) == HDA_OK);
        mix_heard(&r);
        CHECK(hda_forget(r.device) == HDA_OK);
    }
    CHECK(hda_pass(r.device, 24000) == HDA_OK);
    mix_heard(&r);
    return r.said;
}

/* What the heap holds is as it was: three pins hear the same, however often. */
static void heaps(void) {
    static const uint32_t verbs[] = {0x20170500, 0x20220011, 0x20270610, 0x20570740};
    static uint32_t sound[BUFFER / 2];
    hda_habits quick = hda_quick(1);
    driver r = {0};
    hda_saved *saved;
    uint64_t first;
    size_t k;
    for (k = 0; k < BUFFER / 2; k++) sound[k] = (uint32_t)(k * 0x01234567);
    r.device = open_device();
    CHECK(hda_act(r.device, &quick) == HDA_OK && bring_up(&r));
    for (k = 0; k < sizeof verbs / sizeof *verbs; k++) CHECK(ask(&r, verbs[k]));
    hda_dma_write(r.device, SOUND, sound, sizeof sound);
    start(&r, BUFFER);
    hda_pass(r.device, 3000);
    saved = hda_save(r.device);
    first = seconds(r);
    for (k = 0; k < 4; k++) CHECK(hda_restore(r.device, saved) == HDA_OK && seconds(r) == first);
    hda_discard(&saved);
    hda_close(&r.device);
}

/* The memory that a device's heap has. */
static size_t room(const hda *d) {
    size_t all = 0;
    unsigned k;
    for (k = 0; k < d->heap.count; k++) all += d->heap.chunks[k].size;
    return all;
}

/* However often a device is put back and goes on, it takes no more memory than at first. */
static void rooms(void) {
    hda *d = open_device();
    hda_saved *saved = hda_save(d);
    size_t first = 0;
    unsigned k, n;
    for (k = 0; k < 60; k++) {
        for (n = 0; n < 3; n++) CHECK(hda_link(d, 20000) == HDA_OK);
        if (!k) first = room(d);
        CHECK(room(d) == first && hda_restore(d, saved) == HDA_OK);
    }
    hda_discard(&saved);
    hda_close(&d);
}

/* Lent memory is the caller's: a snapshot neither has it nor puts it back. */
static void lent(void) {
    static uint8_t memory[65536];
    hda *d = hda_open(text, text_size, memory, sizeof memory, NULL, 0);
    hda_saved *saved;
    size_t size, k, kept = 0;
    memset(memory, 1, sizeof memory);
    saved = hda_save(d);
    memset(memory, 2, sizeof memory);
    CHECK(hda_memory(d, &size) == memory && size == sizeof memory && hda_restore(d, saved) == HDA_OK);
    for (k = 0; k < sizeof memory; k++) kept += memory[k] == 2;
    CHECK(kept == sizeof memory);
    hda_discard(&saved);
    hda_close(&d);
}

int main(int argc, char **argv) {
    uint64_t seed;
    read_text(argc > 1 ? argv[1] : "");
    for (seed = 1; seed <= 5; seed++) {
        once(hda_quick(seed));
        once(hda_usual(seed));
        once(hda_difficult(seed));
    }
    rooms();
    lent();
    read_text(argc > 2 ? argv[2] : "");
    heaps();
    printf("snapshots: 15 devices, each put back four times, %ld wrong\n", wrong);
    return wrong != 0;
}
