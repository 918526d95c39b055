/* The log of a device, as text and as a schedule. No proof covers this file. */
#include "hda_device.h"
#include <stdarg.h>
#include <stdlib.h>

void hda_note(hda *d, uint32_t what, uint32_t a, uint32_t b, uint32_t c) {
    hda_entry *entry;
    if (!d->logs) {
        d->missed = 1;
        return;
    }
    if (d->logged == d->room) {
        size_t room = d->room ? 2 * d->room : 1024;
        hda_entry *more = room <= SIZE_MAX / sizeof *more ? realloc(d->log, room * sizeof *more) : NULL;
        if (!more) {
            d->log_wants = 1;
            return;
        }
        d->log = more;
        d->room = room;
    }
    entry = &d->log[d->logged++];
    entry->what = what;
    entry->a = a;
    entry->b = b;
    entry->c = c;
}

int hda_keep_log(hda *d, int keep) {
    if (!d) return HDA_CLOSED;
    free(d->log);
    d->missed |= d->logged > 0 || d->log_wants;
    d->log = NULL;
    d->logged = d->room = 0;
    d->log_wants = 0;
    d->logs = keep != 0;
    return d->status = HDA_OK;
}

const hda_entry *hda_log(const hda *d, size_t *count) {
    if (count) *count = d ? d->logged : 0;
    return d ? d->log : NULL;
}

int hda_call(hda *d, uint32_t budget) {
    if (!d) return HDA_CLOSED;
    hda_note(d, HDA_CALL, budget, 0, 0);
    return d->status = HDA_OK;
}

int hda_return(hda *d) {
    if (!d) return HDA_CLOSED;
    hda_note(d, HDA_RETURN, 0, 0, 0);
    return d->status = HDA_OK;
}

static int is_access(const hda_entry *e) { return e->what >= HDA_READ && e->what <= HDA_DMA_WRITE; }

/* ---- as text ---- */

/* Where lines go, with what was put there; with NULL they are counted alone. */
typedef struct sink {
    FILE *file;
    uint64_t bytes, steps, frames;
} sink;

/* A few words, less than 64 bytes. */
static void put(sink *into, const char *form, ...) {
    char words[64];
    va_list items;
    int size;
    va_start(items, form);
    size = vsnprintf(words, sizeof words, form, items);
    va_end(items);
    into->bytes += (uint64_t)size;
    if (into->file) fwrite(words, 1, (size_t)size, into->file);
}

/* Whether all that was put into the file is there. */
static int is_written(FILE *file) { return !fflush(file) && !ferror(file); }

/* Whether a schedule has words for a step. It has none for a fetch of nothing, no link frame, and a node identifier
 * that no pin has, which do nothing. */
static int is_told(const hda_entry *e) {
    if (e->what >= HDA_READ) return 0;
    if (e->what == HDA_FETCH || e->what == HDA_LINK) return e->c != 0;
    return (e->what != HDA_PLUG && e->what != HDA_UNPLUG) || (e->b > 0 && e->b < 0x80);
}

/* The most link frames of a schedule's step. */
enum { MOST_FRAMES = 1000000 };

static void put_step(sink *into, const hda_entry *e, const char *between) {
    static const char *const words[] = {"", "corb", "answer", "lose", "rirb", "fetch", "link", "plug", "unplug"};
    uint32_t left = e->c;
    into->steps++;
    put(into, "%s", words[e->what]);
    if (e->what == HDA_ANSWER || e->what == HDA_LOSE) put(into, " %u", e->a);
    else if (e->what == HDA_FETCH) put(into, " %u %u", e->a, e->c);
    else if (e->what == HDA_PLUG || e->what == HDA_UNPLUG) put(into, " %u %02x", e->a, e->b);
    else if (e->what == HDA_LINK) {
        into->frames += e->c;
        for (; left > MOST_FRAMES; left -= MOST_FRAMES, into->steps++) put(into, " %u%slink", MOST_FRAMES, between);
        put(into, " %u", left);
    }
}

static void put_entry(sink *into, const hda_entry *e) {
    if (e->what == HDA_READ) put(into, "read %04x %u %08x", e->a, e->b, e->c);
    else if (e->what == HDA_WRITE) put(into, "write %04x %u %08x", e->a, e->b, e->c);
    else if (e->what == HDA_DMA_READ) put(into, "dma_read %08x%08x %u", e->b, e->a, e->c);
    else if (e->what == HDA_DMA_WRITE) put(into, "dma_write %08x%08x %u", e->b, e->a, e->c);
    else if (e->what == HDA_CALL) put(into, "call %u", e->a);
    else if (e->what == HDA_RETURN) put(into, "return");
    else if (e->what == HDA_RESTORE) put(into, "restore");
    else put_step(into, e, "\n");
    put(into, "\n");
}

int hda_log_text(const hda *d, FILE *file) {
    sink into = {NULL, 0, 0, 0};
    size_t k;
    if (!d) return HDA_CLOSED;
    if (!file || !d->logs) return HDA_REFUSED;
    if (d->log_wants) return HDA_NO_MEMORY;
    into.file = file;
    for (k = 0; k < d->logged; k++) put_entry(&into, &d->log[k]);
    return is_written(file) ? HDA_OK : HDA_REFUSED;
}

/* ---- as a schedule ---- */

/* The end of the call that begins at this entry, 0 where it has none. */
static size_t end_of(const hda *d, size_t begin) {
    size_t k;
    for (k = begin + 1; k < d->logged; k++) {
        if (d->log[k].what == HDA_RETURN) return k;
        if (d->log[k].what == HDA_CALL || d->log[k].what == HDA_RESTORE) return 0;
    }
    return 0;
}

/* Whether the log has all since the opening, each access stands in a call, each call has an end, and nothing was put
 * back. */
static int is_run(const hda *d) {
    size_t k, end;
    if (d->missed) return 0;
    for (k = 0; k < d->logged; k++) {
        if (is_access(&d->log[k]) || d->log[k].what == HDA_RETURN || d->log[k].what == HDA_RESTORE) return 0;
        if (d->log[k].what != HDA_CALL) continue;
        end = end_of(d, k);
        if (!end) return 0;
        k = end;
    }
    return 1;
}

/* The steps from one entry to another as a group, `-` where there are none. */
static void put_group(sink *into, const hda *d, size_t from, size_t end) {
    size_t k, some = 0;
    into->steps++;
    put(into, " |");
    for (k = from; k < end; k++) {
        if (!is_told(&d->log[k])) continue;
        put(into, some++ ? " , " : " ");
        put_step(into, &d->log[k], " , ");
    }
    if (!some) put(into, " -");
}

/* A call: a group before each access, and one with the steps behind the last. */
static void put_call(sink *into, const hda *d, size_t begin, size_t end) {
    size_t k, from = begin + 1, last = begin;
    into->steps++;
    put(into, "run %u", d->log[begin].a);
    for (k = begin + 1; k < end; k++)
        if (is_told(&d->log[k])) last = k;
    for (k = from; k < end && from <= last; k++) {
        if (!is_access(&d->log[k])) continue;
        put_group(into, d, from, k);
        from = k + 1;
    }
    if (from <= last) put_group(into, d, from, end);
    put(into, "\n");
}

static void put_run(sink *into, const hda *d) {
    size_t k, end;
    for (k = 0; k < d->logged; k++) {
        if (d->log[k].what == HDA_CALL) {
            end = end_of(d, k);
            put_call(into, d, k, end);
            k = end;
        } else if (is_told(&d->log[k])) {
            put_step(into, &d->log[k], "\n");
            put(into, "\n");
        }
    }
}

/* The limits of a schedule (docs/FORMATS.md). */
enum { MOST_BYTES = 4194304, MOST_STEPS = 1000000, MOST_FRAMES_OF_ALL = 2000000 };

int hda_log_schedule(const hda *d, FILE *file) {
    sink into = {NULL, 0, 0, 0};
    if (!d) return HDA_CLOSED;
    if (!file || !d->logs) return HDA_REFUSED;
    if (d->log_wants) return HDA_NO_MEMORY;
    if (!is_run(d)) return HDA_REFUSED;
    put_run(&into, d);
    if (into.bytes > MOST_BYTES || into.steps > MOST_STEPS || into.frames > MOST_FRAMES_OF_ALL) return HDA_REFUSED;
    into.file = file;
    put_run(&into, d);
    return is_written(file) ? HDA_OK : HDA_REFUSED;
}
