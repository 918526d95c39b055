/* An allocator that refuses: it stands before the C library's, by LD_PRELOAD, and hands on what it does not refuse.
 *
 * HOSTILE_REFUSE  the number of the first call that is refused, from 1; none where it is not given
 * HOSTILE_LATER   where it is given, all later calls are refused too
 * HOSTILE_COUNT   a file into which the number of calls is written at the end
 *
 * Calls that give memory back are never refused. */
#include <errno.h>
#include <stddef.h>
#include <stdio.h>
#include <stdlib.h>

void *__libc_malloc(size_t bytes);
void *__libc_calloc(size_t count, size_t bytes);
void *__libc_realloc(void *block, size_t bytes);
void *__libc_memalign(size_t alignment, size_t bytes);

static long asked, first;
static int later, counts;

/* Calls count from the time when all libraries are there. */
__attribute__((constructor)) static void begin(void) {
    const char *number = getenv("HOSTILE_REFUSE");
    first = number ? atol(number) : 0;
    later = getenv("HOSTILE_LATER") != NULL;
    counts = 1;
}

__attribute__((destructor)) static void end(void) {
    const char *name = getenv("HOSTILE_COUNT");
    FILE *file;
    counts = 0;
    file = name ? fopen(name, "w") : NULL;
    if (file) {
        fprintf(file, "%ld\n", asked);
        fclose(file);
    }
}

static int is_refused(void) {
    if (!counts) return 0;
    asked++;
    if (!first || asked < first || (asked > first && !later)) return 0;
    errno = ENOMEM;
    return 1;
}

void *malloc(size_t bytes) { return is_refused() ? NULL : __libc_malloc(bytes); }
void *calloc(size_t count, size_t bytes) { return is_refused() ? NULL : __libc_calloc(count, bytes); }
void *realloc(void *block, size_t bytes) {
    return bytes && is_refused() ? NULL : __libc_realloc(block, bytes);
}
void *memalign(size_t alignment, size_t bytes) { return is_refused() ? NULL : __libc_memalign(alignment, bytes); }
void *aligned_alloc(size_t alignment, size_t bytes) { return memalign(alignment, bytes); }

int posix_memalign(void **block, size_t alignment, size_t bytes) {
    if (is_refused()) return ENOMEM;
    *block = __libc_memalign(alignment, bytes);
    return *block ? 0 : ENOMEM;
}
