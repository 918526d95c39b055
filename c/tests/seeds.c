/* A seed and a log belong together: the same calls with the same habits make the same log, and another seed another
 * one. The steps of a log, made by hand between the same accesses on a device without habits, have the same answers.
 * Usage: seeds CODEC_FILE */
#include "hda.h"

/* The log that is made again, from its next entry on; none while `log_end` is NULL. */
static const hda_entry *log_at, *log_end;
static long unlike;

/* Makes the steps of the log up to its next access. */
static void steps(hda *d) {
    for (; log_at < log_end && log_at->what < HDA_READ; log_at++)
        unlike += hda_step(d, log_at->what, (uint8_t)log_at->a, (uint8_t)log_at->b, log_at->c) != HDA_OK;
}

/* And meets this access. */
static void meet(hda *d, uint32_t what, uint32_t a, uint32_t b) {
    if (!log_end) return;
    steps(d);
    if (log_at < log_end && log_at->what == what && log_at->a == a && log_at->b == b) log_at++;
    else unlike++;
}

static uint32_t met_read(hda *d, uint32_t at, unsigned bytes) {
    meet(d, HDA_READ, at, bytes);
    return hda_read(d, at, bytes);
}
static int met_write(hda *d, uint32_t at, unsigned bytes, uint32_t value) {
    meet(d, HDA_WRITE, at, bytes);
    return hda_write(d, at, bytes, value);
}
static int met_dma_read(hda *d, uint64_t address, void *into, size_t bytes) {
    meet(d, HDA_DMA_READ, (uint32_t)address, (uint32_t)(address >> 32));
    return hda_dma_read(d, address, into, bytes);
}
static int met_dma_write(hda *d, uint64_t address, const void *from, size_t bytes) {
    meet(d, HDA_DMA_WRITE, (uint32_t)address, (uint32_t)(address >> 32));
    return hda_dma_write(d, address, from, bytes);
}
static int met_pass(hda *d, uint64_t frames) { return log_end ? HDA_OK : hda_pass(d, frames); }

/* The driver of the tests makes its accesses through these. */
#define hda_read met_read
#define hda_write met_write
#define hda_dma_read met_dma_read
#define hda_dma_write met_dma_write
#define hda_pass met_pass
#include "driver.h"

/* What the driver does, and what it read and the pins heard. */
static uint64_t drive(hda *d) {
    driver r = {0};
    r.device = d;
    CHECK(bring_up(&r));
    start(&r, BUFFER);
    CHECK(hda_pass(d, 500) == HDA_OK);
    stop(&r);
    mix_heard(&r);
    return r.said;
}

/* A run, with a copy of its log. */
static hda_entry *run(hda_habits habits, size_t *count, uint64_t *said) {
    hda *d = open_device();
    hda_entry *copy;
    CHECK(hda_keep_log(d, 1) == HDA_OK && hda_act(d, &habits) == HDA_OK);
    *said = drive(d);
    copy = malloc((hda_log(d, count), *count) * sizeof *copy + 1);
    memcpy(copy, hda_log(d, count), *count * sizeof *copy);
    CHECK(!hda_wanted_memory(d));
    hda_close(&d);
    return copy;
}

/* The same driver on a device without habits, which makes the steps of the log between the same accesses. */
static void again(const hda_entry *log, size_t count, uint64_t said) {
    hda *d = open_device();
    log_at = log;
    log_end = log + count;
    unlike = 0;
    CHECK(drive(d) == said && !unlike && log_at == log_end);
    log_at = log_end = NULL;
    hda_close(&d);
}

int main(int argc, char **argv) {
    uint64_t seed;
    read_text(argc > 1 ? argv[1] : "");
    for (seed = 1; seed <= 20; seed++) {
        hda_habits all[3] = {hda_quick(seed), hda_usual(seed), hda_difficult(seed)};
        int k;
        for (k = 0; k < 3; k++) {
            size_t first_count, second_count, other_count;
            uint64_t first_said, second_said, other_said;
            hda_habits other = all[k];
            hda_entry *first = run(all[k], &first_count, &first_said),
                      *second = run(all[k], &second_count, &second_said), *third;
            CHECK(first_count == second_count && !memcmp(first, second, first_count * sizeof *first));
            CHECK(first_said == second_said);
            other.seed = ~seed;
            third = run(other, &other_count, &other_said);
            CHECK(first_count != other_count || memcmp(first, third, first_count * sizeof *first));
            again(first, first_count, first_said);
            free(first);
            free(second);
            free(third);
        }
    }
    printf("seeds: 60 habits, each twice with the same log and the same answers, %ld wrong\n", wrong);
    return wrong != 0;
}
