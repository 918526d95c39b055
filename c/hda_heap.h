/* A heap for each device, which can be copied and put back. Not for drivers. */
#ifndef HDA_HEAP_H
#define HDA_HEAP_H
#include <stddef.h>
#include <stdint.h>

enum { HDA_CHUNKS = 48, HDA_CLASSES = 48 };

/* Chunks of memory, from which blocks of 2^k bytes are cut. A block that was freed waits in the list of its size. */
typedef struct hda_heap {
    struct {
        uint8_t *at;
        size_t size, used;
    } chunks[HDA_CHUNKS];
    unsigned count;
    void *freed[HDA_CLASSES];
} hda_heap;

/* From now on this thread's allocations of the model come from this heap. Gives the heap of before. */
hda_heap *hda_heap_use(hda_heap *heap);
/* Frees all chunks. */
void hda_heap_free(hda_heap *heap);
/* How many bytes of its chunks are used, a copy of the heap with these bytes behind it, and the heap as it was when it
 * was copied. */
size_t hda_heap_used(const hda_heap *heap);
void hda_heap_save(const hda_heap *heap, hda_heap *copy, uint8_t *bytes);
void hda_heap_restore(hda_heap *heap, const hda_heap *copy, const uint8_t *bytes);

#ifdef HDA_FAIL
/* For tests: how many allocations were asked for, and which of them, counted from 1, is refused. */
extern long hda_heap_asked, hda_heap_refused;
#endif
#endif
