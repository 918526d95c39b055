/* The heap that a device's allocations come from, in place of the toolchain's, which takes malloc. Its chunks are freed
 * when the device is closed and not before, so that a snapshot, a copy of their bytes, can be put back where it was.
 * Two devices share nothing. */
#include "hda_heap.h"
#include <stdbool.h>
#include <stdlib.h>
#include <string.h>

enum { SMALLEST = 5, HEAD = 16, FIRST_CHUNK = 1 << 16 };

/* What the model's calls answer: whether there is a block, and a pointer that is never null. */
struct tried {
    bool ok;
    void *at;
};

static _Thread_local hda_heap *current;
static char nothing[HEAD];

#ifdef HDA_FAIL
long hda_heap_asked, hda_heap_refused;
#define REFUSED() (++hda_heap_asked == hda_heap_refused)
#else
#define REFUSED() 0
#endif

hda_heap *hda_heap_use(hda_heap *heap) {
    hda_heap *before = current;
    current = heap;
    return before;
}

void hda_heap_free(hda_heap *heap) {
    unsigned k;
    for (k = 0; k < heap->count; k++) free(heap->chunks[k].at);
    memset(heap, 0, sizeof *heap);
}

/* The class of a block for so many bytes and its head: it has 2^class bytes. */
static unsigned class_of(size_t bytes) {
    unsigned class = SMALLEST;
    while (class < HDA_CLASSES && ((size_t)1 << class) - HEAD < bytes) class ++;
    return class;
}

/* Takes one more chunk, of this block alone where there is no memory for more. */
static int add_chunk(hda_heap *heap, size_t size) {
    unsigned last = heap->count;
    size_t chunk = (size_t)FIRST_CHUNK << (last < 20 ? last : 20);
    uint8_t *at = last == HDA_CHUNKS || chunk <= size ? NULL : malloc(chunk);
    if (last == HDA_CHUNKS) return 0;
    if (!at) at = malloc(chunk = size);
    if (!at) return 0;
    heap->chunks[last].at = at;
    heap->chunks[last].size = chunk;
    heap->chunks[last].used = 0;
    heap->count++;
    return 1;
}

/* A piece of the first chunk with room: after a restore that may be any. One may be taken for it. */
static uint8_t *cut(hda_heap *heap, size_t size) {
    unsigned k = 0;
    uint8_t *at;
    while (k < heap->count && heap->chunks[k].size - heap->chunks[k].used < size) k++;
    if (k == heap->count && !add_chunk(heap, size)) return NULL;
    at = heap->chunks[k].at + heap->chunks[k].used;
    heap->chunks[k].used += size;
    return at;
}

static void *take(size_t bytes) {
    unsigned class = class_of(bytes);
    uint8_t *at;
    if (!current || class == HDA_CLASSES || REFUSED()) return NULL;
    at = current->freed[class];
    if (at) memcpy(&current->freed[class], at + HEAD, sizeof(void *));
    else at = cut(current, (size_t)1 << class);
    if (!at) return NULL;
    memcpy(at, &class, sizeof class);
    return at + HEAD;
}

static unsigned class_at(void *block) {
    unsigned class;
    memcpy(&class, (uint8_t *)block - HEAD, sizeof class);
    return class;
}

static struct tried tried(void *at) {
    struct tried answer;
    answer.ok = at != NULL;
    answer.at = at ? at : nothing;
    return answer;
}

struct tried rattle_alloc(size_t bytes, size_t align) {
    (void)align; /* at most 16 */
    return tried(take(bytes));
}

void rattle_dealloc(void *block) {
    unsigned class = class_at(block);
    uint8_t *at = (uint8_t *)block - HEAD;
    memcpy(at + HEAD, &current->freed[class], sizeof(void *));
    current->freed[class] = at;
}

struct tried rattle_realloc(void *block, size_t kept, size_t bytes, size_t align) {
    void *at;
    (void)align;
    if (class_of(bytes) == class_at(block)) return tried(REFUSED() ? NULL : block);
    at = take(bytes);
    if (!at) return tried(NULL);
    memcpy(at, block, kept < bytes ? kept : bytes);
    rattle_dealloc(block);
    return tried(at);
}

size_t hda_heap_used(const hda_heap *heap) {
    size_t used = 0;
    unsigned k;
    for (k = 0; k < heap->count; k++) used += heap->chunks[k].used;
    return used;
}

void hda_heap_save(const hda_heap *heap, hda_heap *copy, uint8_t *bytes) {
    unsigned k;
    *copy = *heap;
    for (k = 0; k < heap->count; k++) {
        memcpy(bytes, heap->chunks[k].at, heap->chunks[k].used);
        bytes += heap->chunks[k].used;
    }
}

/* Chunks that came since stay, empty, and are cut from again: a later snapshot may have bytes for them. */
void hda_heap_restore(hda_heap *heap, const hda_heap *copy, const uint8_t *bytes) {
    unsigned k;
    memcpy(heap->freed, copy->freed, sizeof heap->freed);
    for (k = 0; k < heap->count; k++) {
        heap->chunks[k].used = k < copy->count ? copy->chunks[k].used : 0;
        if (!heap->chunks[k].used) continue;
        memcpy(heap->chunks[k].at, bytes, heap->chunks[k].used);
        bytes += heap->chunks[k].used;
    }
}
