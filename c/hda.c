/* A device with its memory, its time and its habits, over the proved model. No proof covers this file. */
#include "hda_device.h"
#include <stdatomic.h>
#include <stdlib.h>
#include <string.h>

/* The model takes no null pointer, not even for nothing. */
static uint8_t no_bytes[1];
static hda_item no_items[1];

static int done(hda *d, int status) {
    d->status = status;
    return status;
}

/* ---- choices: splitmix64, of which each choice takes one number. docs/C.md has their order ---- */

static uint64_t draw(hda *d) {
    uint64_t z = (d->state.random += UINT64_C(0x9E3779B97F4A7C15));
    z = (z ^ z >> 30) * UINT64_C(0xBF58476D1CE4E5B9);
    z = (z ^ z >> 27) * UINT64_C(0x94D049BB133111EB);
    return z ^ z >> 31;
}

static uint32_t below(hda *d, uint32_t count) { return (uint32_t)((draw(d) >> 32) * count >> 32); }

static int in_1000(hda *d, uint32_t share) { return share && below(d, 1000) < share; }

/* ---- steps ---- */

static int step(hda *d, unsigned kind, uint8_t part, uint8_t nid, uint32_t count) {
    hda_heap *before = hda_heap_use(&d->heap);
    int made =
        kind > 255 ? HDA_NO_SUCH : hda_model_step(&d->state.model, d->memory, d->size, (uint8_t)kind, part, nid, count);
    hda_heap_use(before);
    if (made != HDA_OK) return made;
    if (kind == HDA_LINK) d->state.frames += count;
    hda_note(d, kind, part, nid, count);
    return HDA_OK;
}

/* A step that the device makes by itself. */
static int by_itself(hda *d, unsigned kind, uint8_t part, uint32_t count) {
    int made = step(d, kind, part, 0, count);
    if (made == HDA_NO_MEMORY) d->state.wanted_memory = 1;
    return made;
}

/* The FIFO can't be seen, so a fetch that is not needed is made too and does nothing. */
static void part_acts(hda *d, unsigned part) {
    const hda_habits *h = &d->state.habits;
    if (d->state.passed[part] < h->patience && in_1000(d, h->idle)) {
        d->state.passed[part]++;
        return;
    }
    d->state.passed[part] = 0;
    if (part == 0) by_itself(d, HDA_CORB, 0, 0);
    else if (part == 1) by_itself(d, HDA_RIRB, 0, 0);
    else if (part > 2) by_itself(d, in_1000(d, h->lose) ? HDA_LOSE : HDA_ANSWER, (uint8_t)(part - 3), 0);
    else if (h->fetch && !d->state.starving) by_itself(d, HDA_FETCH, 1, 1 + below(d, h->fetch));
}

static void turn(hda *d) {
    uint8_t order[HDA_PARTS];
    unsigned count = 3, k;
    for (k = 0; k < 3; k++) order[k] = (uint8_t)k;
    for (k = 0; k < HDA_ADDRESSES; k++)
        if (d->codecs >> k & 1) order[count++] = (uint8_t)(3 + k);
    for (k = count; k > 1; k--) {
        unsigned other = below(d, k);
        uint8_t was = order[k - 1];
        order[k - 1] = order[other];
        order[other] = was;
    }
    for (k = 0; k < count; k++) part_acts(d, order[k]);
}

static void turns(hda *d) {
    uint32_t count = d->state.habits.turns ? 1 + below(d, d->state.habits.turns) : 0;
    while (count--) turn(d);
}

/* The most link frames of a bout in which nothing is fetched. */
enum { MOST_STARVING = 200 };

/* A link frame, with the turns before it. */
static int frame(hda *d) {
    hda_state *s = &d->state;
    int made;
    if (!s->starving && in_1000(d, s->habits.starve)) s->starving = 1 + below(d, MOST_STARVING);
    turns(d);
    if (!s->starving) by_itself(d, HDA_FETCH, 1, 65535);
    made = by_itself(d, HDA_LINK, 0, 1);
    if (made == HDA_OK && s->starving) s->starving--;
    return made;
}

/* What happens before an access. */
static void act(hda *d) {
    if (!d->state.acts) return;
    turns(d);
    if (!d->state.habits.frames) return;
    d->state.owed += below(d, 2 * d->state.habits.frames + 1);
    for (; d->state.owed >= 1000; d->state.owed -= 1000) frame(d);
}

/* ---- opening ---- */

static void tell(char *fault, size_t size, const char *words) {
    if (!fault || !size) return;
    strncpy(fault, words, size - 1);
    fault[size - 1] = 0;
}

static void let_go(hda *d) {
    hda_heap *before = hda_heap_use(&d->heap);
    hda_model_close(&d->state.model);
    hda_heap_use(before);
    hda_heap_free(&d->heap);
    if (d->owns) free(d->memory);
    free(d->log);
    free(d);
}

static hda *with_memory(void *memory, size_t size) {
    static atomic_uint_least64_t opened;
    hda *d = calloc(1, sizeof *d);
    if (!d) return NULL;
    d->number = atomic_fetch_add(&opened, 1);
    d->owns = !memory;
    d->size = memory || size ? size : HDA_MEMORY;
    d->memory = memory ? memory : calloc(1, d->size);
    if (d->memory) return d;
    free(d);
    return NULL;
}

static int open_model(hda *d, const char *text, size_t length, char *fault, size_t size) {
    size_t told = 0;
    uint8_t *into = fault && size ? (uint8_t *)fault : no_bytes;
    hda_heap *before = hda_heap_use(&d->heap);
    int status = hda_model_open(&d->state.model, text ? (const uint8_t *)text : no_bytes, text ? length : 0, into,
                                into == no_bytes ? 0 : size - 1, &told);
    if (status == HDA_REFUSED && into != no_bytes) into[told < size - 1 ? told : size - 1] = 0;
    if (status == HDA_OK) {
        uint8_t k;
        for (k = 0; k < HDA_ADDRESSES; k++)
            if (hda_model_codec(&d->state.model, k) == HDA_OK) d->codecs |= (uint16_t)(1u << k);
    }
    hda_heap_use(before);
    return status;
}

hda *hda_open(const char *text, size_t length, void *memory, size_t size, char *fault, size_t fault_size) {
    hda *d = with_memory(memory, size);
    int status = d ? HDA_OK : HDA_NO_MEMORY;
    tell(fault, fault_size, "");
    if (d) status = open_model(d, text, length, fault, fault_size);
    if (status == HDA_OK) return d;
    if (status == HDA_NO_MEMORY) tell(fault, fault_size, "OutOfMemory");
    if (d) let_go(d);
    return NULL;
}

void hda_close(hda **device) {
    if (!device || !*device) return;
    let_go(*device);
    *device = NULL;
}

int hda_status(const hda *d) { return d ? d->status : HDA_CLOSED; }

/* ---- accesses ---- */

uint32_t hda_read(hda *d, uint32_t at, unsigned bytes) {
    uint32_t value = 0;
    if (!d) return 0;
    act(d);
    if (at > 0xFFFF || bytes > 4) {
        done(d, HDA_NO_SUCH);
        return 0;
    }
    if (done(d, hda_model_read(&d->state.model, (uint16_t)at, (uint8_t)bytes, &value)) == HDA_OK)
        hda_note(d, HDA_READ, at, bytes, value);
    return value;
}

int hda_write(hda *d, uint32_t at, unsigned bytes, uint32_t value) {
    hda_heap *before;
    if (!d) return HDA_CLOSED;
    act(d);
    if (at > 0xFFFF || bytes > 4) return done(d, HDA_NO_SUCH);
    before = hda_heap_use(&d->heap);
    done(d, hda_model_write(&d->state.model, (uint16_t)at, (uint8_t)bytes, value));
    hda_heap_use(before);
    if (d->status == HDA_OK) hda_note(d, HDA_WRITE, at, bytes, value);
    return d->status;
}

uint8_t *hda_memory(hda *d, size_t *size) {
    if (size) *size = d ? d->size : 0;
    return d ? d->memory : NULL;
}

/* A log's entry has 32 bits for the bytes. */
static int reaches(hda *d, uint64_t address, size_t bytes) {
    return (uint64_t)bytes <= UINT32_MAX && address <= d->size && bytes <= d->size - address;
}

int hda_dma_read(hda *d, uint64_t address, void *into, size_t bytes) {
    if (!d) return HDA_CLOSED;
    act(d);
    if (!reaches(d, address, bytes) || (bytes && !into)) return done(d, HDA_OUTSIDE);
    if (bytes) memmove(into, d->memory + address, bytes);
    hda_note(d, HDA_DMA_READ, (uint32_t)address, (uint32_t)(address >> 32), (uint32_t)bytes);
    return done(d, HDA_OK);
}

int hda_dma_write(hda *d, uint64_t address, const void *from, size_t bytes) {
    if (!d) return HDA_CLOSED;
    act(d);
    if (!reaches(d, address, bytes) || (bytes && !from)) return done(d, HDA_OUTSIDE);
    if (bytes) memmove(d->memory + address, from, bytes);
    hda_note(d, HDA_DMA_WRITE, (uint32_t)address, (uint32_t)(address >> 32), (uint32_t)bytes);
    return done(d, HDA_OK);
}

int hda_line(hda *d) {
    uint32_t high = 0;
    if (d) hda_model_line(&d->state.model, &high);
    return (int)high;
}

/* ---- what the device does ---- */

int hda_step(hda *d, unsigned kind, uint8_t part, uint8_t nid, uint32_t count) {
    return d ? done(d, step(d, kind, part, nid, count)) : HDA_CLOSED;
}

int hda_corb(hda *d) { return hda_step(d, HDA_CORB, 0, 0, 0); }
int hda_answer(hda *d, uint8_t codec) { return hda_step(d, HDA_ANSWER, codec, 0, 0); }
int hda_lose(hda *d, uint8_t codec) { return hda_step(d, HDA_LOSE, codec, 0, 0); }
int hda_rirb(hda *d) { return hda_step(d, HDA_RIRB, 0, 0, 0); }
int hda_fetch(hda *d, uint8_t stream, uint32_t most) { return hda_step(d, HDA_FETCH, stream, 0, most); }
int hda_link(hda *d, uint32_t frames) { return hda_step(d, HDA_LINK, 0, 0, frames); }
int hda_plug(hda *d, uint8_t codec, uint8_t nid) { return hda_step(d, HDA_PLUG, codec, nid, 0); }
int hda_unplug(hda *d, uint8_t codec, uint8_t nid) { return hda_step(d, HDA_UNPLUG, codec, nid, 0); }

hda_habits hda_quick(uint64_t seed) {
    hda_habits h = {0, 2, 0, 0, 65535, 0, 0, 0};
    h.seed = seed;
    return h;
}

hda_habits hda_usual(uint64_t seed) {
    hda_habits h = {0, 2, 500, 8, 64, 0, 0, 50};
    h.seed = seed;
    return h;
}

hda_habits hda_difficult(uint64_t seed) {
    hda_habits h = {0, 3, 900, 200, 16, 1, 0, 200};
    h.seed = seed;
    return h;
}

static int are_in_range(const hda_habits *h) {
    return h->turns <= 1000 && h->idle <= 1000 && h->patience <= 1000000 && h->fetch <= 65535 && h->starve <= 1000 &&
           h->lose <= 1000 && h->frames <= 1000000;
}

int hda_act(hda *d, const hda_habits *habits) {
    if (!d) return HDA_CLOSED;
    if (habits && !are_in_range(habits)) return done(d, HDA_REFUSED);
    d->state.acts = habits != NULL;
    d->state.owed = d->state.starving = 0;
    memset(d->state.passed, 0, sizeof d->state.passed);
    if (habits) {
        d->state.habits = *habits;
        d->state.random = habits->seed;
    }
    return done(d, HDA_OK);
}

/* A device without habits lets at most so many link frames pass in a step. */
enum { FRAMES_AT_ONCE = 100 };

int hda_pass(hda *d, uint64_t frames) {
    if (!d) return HDA_CLOSED;
    while (frames) {
        uint32_t count = d->state.acts ? 1 : frames < FRAMES_AT_ONCE ? (uint32_t)frames : FRAMES_AT_ONCE;
        int made = d->state.acts ? frame(d) : step(d, HDA_LINK, 0, 0, count);
        if (made != HDA_OK) return done(d, made);
        frames -= count;
    }
    return done(d, HDA_OK);
}

uint64_t hda_frames(const hda *d) { return d ? d->state.frames : 0; }

int hda_wanted_memory(const hda *d) { return d ? d->state.wanted_memory : 0; }

/* ---- what the pins heard ---- */

size_t hda_pins(hda *d, hda_pin *into, size_t count) {
    size_t found = 0;
    hda_pin name;
    while (d && hda_model_pin_at(&d->state.model, found, &name) == HDA_OK) {
        if (into && found < count) into[found] = name;
        found++;
    }
    return found;
}

uint16_t hda_codecs(const hda *d) { return d ? d->codecs : 0; }

int hda_heard(hda *d, uint8_t codec, uint8_t nid, uint64_t from, hda_item *into, size_t count, uint64_t *heard) {
    uint64_t all = 0;
    if (heard) *heard = 0;
    if (!d) return HDA_CLOSED;
    done(d, hda_model_heard(&d->state.model, codec, nid, from, into ? into : no_items, into ? count : 0,
                            &all));
    if (heard) *heard = all;
    return d->status;
}

int hda_forget(hda *d) {
    hda_heap *before;
    if (!d) return HDA_CLOSED;
    before = hda_heap_use(&d->heap);
    done(d, hda_model_forget(&d->state.model));
    hda_heap_use(before);
    return d->status;
}

size_t hda_pcm(const hda_item *items, size_t count, unsigned bits, void *into) {
    unsigned bytes = bits == 16 ? 2 : 4, side, k;
    uint8_t *out = into;
    size_t i;
    if ((bits != 16 && bits != 24 && bits != 32) || !items || !into) return 0;
    for (i = 0; i < count; i++) {
        for (side = 0; side < 2; side++) {
            int32_t sample = items[i].kind != HDA_SOUND ? 0 : side ? items[i].right : items[i].left;
            for (k = 0; k < bytes; k++) *out++ = (uint8_t)((uint32_t)sample >> 8 * k);
        }
    }
    return count * 2 * bytes;
}

/* ---- what comes in ---- */

int hda_give(hda *d, const void *sound, size_t bytes) {
    hda_heap *before;
    if (!d) return HDA_CLOSED;
    before = hda_heap_use(&d->heap);
    done(d, hda_model_give(&d->state.model, sound ? sound : no_bytes, sound ? bytes : 0));
    hda_heap_use(before);
    return d->status;
}

int hda_taken(hda *d, uint64_t from, uint8_t *into, size_t count, uint64_t *came) {
    uint64_t all = 0;
    if (came) *came = 0;
    if (!d) return HDA_CLOSED;
    done(d, hda_model_copy_taken(&d->state.model, from, into ? into : no_bytes, into ? count : 0));
    if (came && hda_model_taken_count(&d->state.model, &all) == HDA_OK) *came = all;
    return d->status;
}

/* ---- snapshots ---- */

struct hda_saved {
    uint64_t number;
    hda_state state;
    hda_heap heap;
    size_t used, size; /* bytes of the heap, and of the memory where that is the device's own */
    uint8_t bytes[];
};

hda_saved *hda_save(hda *d) {
    size_t used = d ? hda_heap_used(&d->heap) : 0, size = d && d->owns ? d->size : 0;
    hda_saved *saved = d ? malloc(sizeof *saved + used + size) : NULL;
    if (!saved) {
        if (d) done(d, HDA_NO_MEMORY);
        return NULL;
    }
    saved->number = d->number;
    saved->state = d->state;
    saved->used = used;
    saved->size = size;
    hda_heap_save(&d->heap, &saved->heap, saved->bytes);
    if (size) memcpy(saved->bytes + used, d->memory, size);
    done(d, HDA_OK);
    return saved;
}

int hda_restore(hda *d, const hda_saved *saved) {
    if (!d) return HDA_CLOSED;
    if (!saved || saved->number != d->number) return done(d, HDA_NO_SUCH);
    d->state = saved->state;
    hda_heap_restore(&d->heap, &saved->heap, saved->bytes);
    if (saved->size) memcpy(d->memory, saved->bytes + saved->used, saved->size);
    hda_note(d, HDA_RESTORE, 0, 0, 0);
    return done(d, HDA_OK);
}

void hda_discard(hda_saved **saved) {
    if (!saved) return;
    free(*saved);
    *saved = NULL;
}
