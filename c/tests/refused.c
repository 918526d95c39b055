/* Each malloc, calloc and realloc of the C side fails in turn, in a run with a log and a snapshot: what was wanting is
 * told, and the device goes on or is not there. Linked with --wrap for the three. Usage: refused CODEC_FILE */
#include "driver.h"

static long asked, refused; /* calls of the three, and which of them, counted from 1, is refused */
static size_t most = SIZE_MAX; /* more bytes than that are refused too */
static long too_large;

void *__real_malloc(size_t bytes);
void *__real_calloc(size_t count, size_t bytes);
void *__real_realloc(void *block, size_t bytes);
void *__wrap_malloc(size_t bytes);
void *__wrap_calloc(size_t count, size_t bytes);
void *__wrap_realloc(void *block, size_t bytes);

static int is_refused(size_t bytes) {
    too_large += bytes > most;
    return ++asked == refused || bytes > most;
}

void *__wrap_malloc(size_t bytes) { return is_refused(bytes) ? NULL : __real_malloc(bytes); }
void *__wrap_calloc(size_t count, size_t bytes) { return is_refused(bytes) ? NULL : __real_calloc(count, bytes); }
void *__wrap_realloc(void *block, size_t bytes) { return is_refused(bytes) ? NULL : __real_realloc(block, bytes); }

typedef struct outcome {
    uint64_t said; /* what was read and heard, and the log's length */
    int told;      /* how often want of memory was told */
} outcome;

/* A log is written where nothing of it was lost. */
static int writes_log(hda *d) {
    FILE *file = tmpfile();
    int made = file ? hda_log_text(d, file) : HDA_OK;
    CHECK(made == HDA_OK || made == HDA_NO_MEMORY);
    CHECK(hda_log_schedule(d, file) == (made == HDA_OK ? HDA_REFUSED : HDA_NO_MEMORY));
    if (file) fclose(file);
    return made == HDA_OK;
}

static outcome run(void) {
    char fault[64];
    outcome found = {0, 0};
    driver r = {0};
    hda_habits usual = hda_usual(1);
    hda_saved *saved;
    size_t logged;
    r.device = hda_open(text, text_size, NULL, 0, fault, sizeof fault);
    if (!r.device) {
        CHECK(!strcmp(fault, "OutOfMemory"));
        found.told++;
        return found;
    }
    CHECK(hda_keep_log(r.device, 1) == HDA_OK && hda_act(r.device, &usual) == HDA_OK && bring_up(&r));
    start(&r, BUFFER);
    found.told += hda_pass(r.device, 3000) == HDA_NO_MEMORY;
    saved = hda_save(r.device);
    if (!saved) {
        CHECK(hda_status(r.device) == HDA_NO_MEMORY);
        found.told++;
    }
    found.told += hda_pass(r.device, 3000) == HDA_NO_MEMORY;
    mix_heard(&r);
    mix(&r, hda_frames(r.device));
    CHECK(hda_restore(r.device, saved) == (saved ? HDA_OK : HDA_NO_SUCH));
    found.told += hda_wanted_memory(r.device) + !writes_log(r.device);
    hda_log(r.device, &logged);
    mix(&r, logged);
    found.said = r.said;
    hda_discard(&saved);
    hda_close(&r.device);
    return found;
}

/* The mark of a call's end that was lost is told as want of memory. */
static void marks(void) {
    hda *d = open_device();
    unsigned k;
    hda_keep_log(d, 1);
    hda_call(d, 0);
    for (k = 1; k < 1024; k++) hda_corb(d);
    asked = 0;
    refused = 1;
    CHECK(hda_return(d) == HDA_OK && asked == 1);
    refused = 0;
    CHECK(hda_log_schedule(d, stdout) == HDA_NO_MEMORY && hda_log_text(d, stdout) == HDA_NO_MEMORY);
    CHECK(hda_keep_log(d, 1) == HDA_OK && hda_corb(d) == HDA_OK && hda_log_schedule(d, stdout) == HDA_REFUSED);
    hda_close(&d);
}

/* Where no whole chunk can be had, the heap takes what is needed. */
static void chunks(void) {
    hda *d = open_device();
    uint32_t frames;
    most = 100000;
    for (frames = 50; frames <= 200; frames += 50) CHECK(hda_link(d, frames) == HDA_OK);
    CHECK(too_large > 0 && hda_link(d, 1000000) == HDA_NO_MEMORY && hda_frames(d) == 500);
    most = SIZE_MAX;
    CHECK(hda_link(d, 1000000) == HDA_OK && hda_frames(d) == 1000500);
    hda_close(&d);
}

int main(int argc, char **argv) {
    outcome whole, found;
    long all, k, without = 0;
    read_text(argc > 1 ? argv[1] : "");
    whole = run();
    all = asked;
    CHECK(!whole.told && all > 5);
    for (k = 1; k <= all; k++) {
        asked = 0;
        refused = k;
        found = run();
        refused = 0;
        CHECK(found.told || found.said == whole.said);
        without += !found.told;
    }
    marks();
    chunks();
    printf("refused: %ld places, %ld of them done without, %ld wrong\n", all, without, wrong);
    return wrong != 0;
}
