/* Memory is taken at the opening, for what pins may hear in a link frame, and for the mark of a pin that a command may
 * set, once where none is; and never else. What was forgotten is used again. Built with -DHDA_FAIL, by which the allocations are counted. Usage: memory CODEC_FILE */
#include "driver.h"
#include "hda_heap.h"

/* Bring-up by a driver, with the device acting between its accesses, jacks that are plugged, and resets. */
static void nothing_heard(driver *r) {
    long asked;
    unsigned k;
    CHECK(hda_link(r->device, 1) == HDA_OK); /* the room of one link frame */
    asked = hda_heap_asked;
    for (k = 0; k < 3; k++) {
        r->sent = r->seen = 0;
        hda_write(r->device, 0x08, 4, 0);
        CHECK(bring_up(r));
        CHECK(hda_plug(r->device, 0, 0x14) == HDA_OK && hda_unplug(r->device, 0, 0x14) == HDA_OK);
        if (k == 0) {
            CHECK(hda_heap_asked <= asked + 1); /* the room of one mark */
            asked = hda_heap_asked;
        }
    }
    CHECK(hda_heap_asked == asked);
}

/* A second of sound at a time, which is forgotten. */
static void heard(driver *r) {
    long asked = 0;
    unsigned k;
    start(r, BUFFER);
    for (k = 0; k < 4; k++) {
        uint64_t count = 0;
        CHECK(hda_pass(r->device, 48000) == HDA_OK);
        CHECK(hda_heard(r->device, 0, 0x14, 0, NULL, 0, &count) == HDA_OK && count == 48000);
        CHECK(hda_forget(r->device) == HDA_OK);
        if (k == 0) asked = hda_heap_asked;
    }
    CHECK(hda_heap_asked == asked);
}

int main(int argc, char **argv) {
    driver r = {0};
    hda_habits usual = hda_usual(1);
    read_text(argc > 1 ? argv[1] : "");
    r.device = open_device();
    CHECK(hda_act(r.device, &usual) == HDA_OK);
    nothing_heard(&r);
    heard(&r);
    CHECK(!hda_wanted_memory(r.device));
    hda_close(&r.device);
    printf("memory: %ld allocations, %ld wrong\n", hda_heap_asked, wrong);
    return wrong != 0;
}
