/* Nanoseconds of an access, of a step and of a link frame. Usage: bench CODEC_FILE */
#define _POSIX_C_SOURCE 199309L
#include "driver.h"
#include "hda_heap.h"
#include <time.h>

static double now(void) {
    struct timespec t;
    clock_gettime(CLOCK_MONOTONIC, &t);
    return (double)t.tv_sec * 1e9 + (double)t.tv_nsec;
}

static uint32_t sum;

/* The least of five times. */
#define TIME(what, times, code)                                                                                        \
    do {                                                                                                               \
        double best = 1e18, begun, took;                                                                               \
        long turn, k;                                                                                                  \
        for (turn = 0; turn < 5; turn++) {                                                                             \
            begun = now();                                                                                             \
            for (k = 0; k < (times); k++) {                                                                            \
                code;                                                                                                  \
            }                                                                                                          \
            took = (now() - begun) / (double)(times);                                                                  \
            if (took < best) best = took;                                                                              \
        }                                                                                                              \
        printf("%-52s %8.1f ns\n", what, best);                                                                        \
    } while (0)

static void still(hda *d) {
    hda_write(d, 0x08, 4, 1);
    TIME("read 4 bytes, nothing acts", 2000000, sum += hda_read(d, 0x08, 4));
    TIME("write 4 bytes, nothing acts", 2000000, hda_write(d, 0x20, 4, (uint32_t)k & 0xC0000003u));
    TIME("line", 2000000, sum += (uint32_t)hda_line(d));
    TIME("corb, nothing there", 2000000, hda_corb(d));
    TIME("answer, nothing there", 2000000, hda_answer(d, 0));
    TIME("rirb, nothing there", 2000000, hda_rirb(d));
    TIME("fetch, stream stopped", 2000000, hda_fetch(d, 1, 64));
    TIME("link 1, stream stopped", 1000000, hda_link(d, 1));
}

static void habits(hda *d) {
    hda_habits all[3] = {hda_quick(1), hda_usual(1), hda_difficult(1)};
    static const char *const words[] = {"read 4 bytes, quick habits", "read 4 bytes, usual habits",
                                        "read 4 bytes, difficult habits"};
    int n;
    for (n = 0; n < 3; n++) {
        hda_act(d, &all[n]);
        TIME(words[n], 100000, sum += hda_read(d, 0x08, 4));
    }
    hda_act(d, NULL);
}

static void playing(hda *d) {
    driver r = {0};
    hda_habits usual = hda_usual(1);
    hda_saved *saved;
    r.device = d;
    hda_act(d, NULL);
    hda_act(d, &usual);
    if (!bring_up(&r)) exit(1);
    hda_act(d, NULL);
    start(&r, 0x8000);
    TIME("fetch 4 and link 1, a stream at 48 kHz", 480000, {
        hda_fetch(d, 1, 4);
        hda_link(d, 1);
        if (k % 48000 == 0) hda_forget(d);
    });
    TIME("fetch 192 and 48 times link 1, all of it", 10000, {
        int frames;
        hda_fetch(d, 1, 192);
        for (frames = 0; frames < 48; frames++) hda_link(d, 1);
        if (k % 1000 == 0) hda_forget(d);
    });
    TIME("fetch 192 and link 48, all of it", 10000, {
        hda_fetch(d, 1, 192);
        hda_link(d, 48);
        if (k % 1000 == 0) hda_forget(d);
    });
    usual.frames = 0;
    hda_act(d, &usual);
    TIME("hda_pass 1, a stream at 48 kHz, usual habits", 100000, {
        hda_pass(d, 1);
        if (k % 48000 == 0) hda_forget(d);
    });
    hda_forget(d);
    TIME("save and discard", 100, {
        saved = hda_save(d);
        hda_discard(&saved);
    });
}

int main(int argc, char **argv) {
    hda *d;
    read_text(argc > 1 ? argv[1] : "");
    TIME("open and close, the memory lent", 200, {
        static char few[64];
        d = hda_open(text, text_size, few, sizeof few, NULL, 0);
        hda_close(&d);
    });
    d = open_device();
    still(d);
    habits(d);
    playing(d);
    printf("memory was %swanting; %u, %ld wrong\n", hda_wanted_memory(d) ? "" : "not ", sum & 1, wrong);
    hda_close(&d);
    return 0;
}
