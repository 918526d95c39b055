/* Each allocation of the model at an opening and in steps fails in turn. Built with -DHDA_FAIL. Usage: fail CODEC_FILE
 */
#include "driver.h"
#include "hda_heap.h"

static long opened_without, refused_steps, refused_frames;

static void openings(long all) {
    char fault[64];
    long k;
    for (k = 1; k <= all; k++) {
        hda *d;
        hda_heap_asked = 0;
        hda_heap_refused = k;
        d = hda_open(text, text_size, NULL, 65536, fault, sizeof fault);
        CHECK(d || !strcmp(fault, "OutOfMemory"));
        if (d) opened_without++;
        hda_heap_refused = 0;
        hda_close(&d);
    }
}

/* A step that wanted memory did nothing: the clock stands where it stood. */
static void steps(void) {
    long k;
    int n;
    for (k = 1; k < 40; k++) {
        hda *d = open_device();
        uint32_t clock = 0;
        hda_write(d, 8, 4, 1);
        hda_heap_asked = 0;
        hda_heap_refused = k;
        for (n = 0; n < 60; n++) {
            int made = hda_link(d, 1000);
            if (made == HDA_OK) clock += 500 * 1000;
            else {
                refused_steps++;
                CHECK(made == HDA_NO_MEMORY);
            }
            CHECK(hda_read(d, 0x30, 4) == clock && hda_frames(d) == clock / 500);
        }
        CHECK(!hda_wanted_memory(d));
        hda_heap_refused = 0;
        hda_close(&d);
    }
}

/* The same with a stream that runs on a device that acts by itself, in time that it is given and in time that its
 * accesses take: what was wanting is told, and what the pin heard is that of the link frames that passed. */
static void playing(void) {
    long k;
    int n;
    for (k = 1; k < 12; k++) {
        hda_habits usual = hda_usual((uint64_t)k);
        driver r = {0};
        uint64_t begun, heard = 0;
        int told = 0;
        r.device = open_device();
        CHECK(hda_act(r.device, &usual) == HDA_OK && bring_up(&r) && hda_forget(r.device) == HDA_OK);
        usual.frames = 1000;
        CHECK(hda_act(r.device, &usual) == HDA_OK);
        start(&r, BUFFER);
        CHECK(hda_forget(r.device) == HDA_OK && !hda_wanted_memory(r.device));
        begun = hda_frames(r.device);
        hda_heap_asked = 0;
        hda_heap_refused = k;
        for (n = 0; n < 200; n++) {
            uint64_t before = hda_frames(r.device), passed;
            int made = k % 2 ? hda_pass(r.device, 100) : hda_write(r.device, 0x20, 4, 0);
            passed = hda_frames(r.device) - before;
            told += made != HDA_OK;
            if (k % 2) CHECK(made == HDA_OK ? passed == 100 : made == HDA_NO_MEMORY && passed < 100);
            else CHECK(made == HDA_OK);
        }
        CHECK(hda_wanted_memory(r.device) == (hda_heap_asked >= k) && (k % 2 == 0 || told == (hda_heap_asked >= k)));
        refused_frames += hda_heap_asked >= k;
        hda_heap_refused = 0;
        CHECK(hda_heard(r.device, 0, 0x14, 0, NULL, 0, &heard) == HDA_OK && heard == hda_frames(r.device) - begun);
        CHECK(hda_act(r.device, NULL) == HDA_OK && hda_pass(r.device, 10) == HDA_OK);
        hda_close(&r.device);
    }
}

/* A sound for which memory was wanting is not given; silence wants none. */
static void giving(void) {
    static const uint32_t first = 0x00020001;
    uint8_t other[100];
    hda *d = open_device();
    memset(other, 7, sizeof other);
    CHECK(hda_give(d, &first, 4) == HDA_OK);
    hda_heap_asked = 0;
    hda_heap_refused = 1;
    CHECK(hda_give(d, other, sizeof other) == HDA_NO_MEMORY && hda_heap_asked == 1);
    hda_heap_refused = 0;
    CHECK(hda_heap_asked == 1 && hda_give(d, other, sizeof other) == HDA_OK && hda_heap_asked == 2);
    CHECK(hda_give(d, other, 0) == HDA_OK && hda_heap_asked == 2);
    hda_close(&d);
}

int main(int argc, char **argv) {
    hda *d;
    long all;
    read_text(argc > 1 ? argv[1] : "");
    hda_heap_asked = 0;
    d = open_device();
    all = hda_heap_asked;
    hda_close(&d);
    openings(all);
    steps();
    playing();
    giving();
    CHECK(refused_steps > 0 && refused_frames > 2);
    printf("fail: %ld allocations of an opening, each refused in turn, %ld of them done without; %ld steps and "
           "%ld link frames refused; %ld wrong\n",
           all, opened_without, refused_steps, refused_frames, wrong);
    return wrong != 0;
}
