/* Counts the blocks of memory that a program holds, by their size with what the allocator adds. Loaded before the C
 * library; on SIGUSR1 it writes a line for each size, `bytes count`, and a last line `end`, to the file LIVE_BLOCKS.
 * Compiled with -fno-builtin, since a compiler may else make a call of `calloc` of what its body does. */
#define _GNU_SOURCE
#include <dlfcn.h>
#include <fcntl.h>
#include <malloc.h>
#include <signal.h>
#include <stdio.h>
#include <stdlib.h>
#include <string.h>
#include <unistd.h>

enum { SIZES = 1 << 16, STEP = 16 };

/* By the block's size in steps of 16 bytes; larger blocks are in the last place, which counts their bytes. */
static long counts[SIZES];

static void *(*next_malloc)(size_t);
static void *(*next_realloc)(void *, size_t);
static int (*next_memalign)(void **, size_t, size_t);
static void (*next_free)(void *);

static void count(void *block, long by) {
    if (!block) return;
    size_t size = malloc_usable_size(block) + sizeof(size_t);
    if (size / STEP < SIZES - 1) counts[size / STEP] += by;
    else counts[SIZES - 1] += by * (long)size;
}

static void write_counts(int number) {
    char line[64];
    int out = open(getenv("LIVE_BLOCKS"), O_WRONLY | O_CREAT | O_TRUNC, 0644);
    (void)number;
    for (long i = 0; i < SIZES - 1; i++) {
        if (!counts[i]) continue;
        int length = snprintf(line, sizeof line, "%ld %ld\n", i * STEP, counts[i]);
        if (write(out, line, length) < 0) _exit(1);
    }
    int length = snprintf(line, sizeof line, "large %ld\nend\n", counts[SIZES - 1]);
    if (write(out, line, length) < 0) _exit(1);
    close(out);
}

__attribute__((constructor)) static void begin(void) {
    next_malloc = dlsym(RTLD_NEXT, "malloc");
    next_realloc = dlsym(RTLD_NEXT, "realloc");
    next_memalign = dlsym(RTLD_NEXT, "posix_memalign");
    next_free = dlsym(RTLD_NEXT, "free");
    struct sigaction action = {.sa_handler = write_counts, .sa_flags = SA_RESTART};
    sigaction(SIGUSR1, &action, NULL);
}

void *malloc(size_t size) {
    if (!next_malloc) next_malloc = dlsym(RTLD_NEXT, "malloc");
    void *block = next_malloc(size);
    count(block, 1);
    return block;
}

void *calloc(size_t many, size_t size) {
    size_t all;
    if (__builtin_mul_overflow(many, size, &all)) return NULL;
    void *block = malloc(all);
    return block ? memset(block, 0, all) : NULL;
}

void *realloc(void *old, size_t size) {
    if (!next_realloc) next_realloc = dlsym(RTLD_NEXT, "realloc");
    if (old) count(old, -1);
    void *block = next_realloc(old, size);
    count(block ? block : size ? old : NULL, 1);
    return block;
}

int posix_memalign(void **block, size_t alignment, size_t size) {
    if (!next_memalign) next_memalign = dlsym(RTLD_NEXT, "posix_memalign");
    if (!next_memalign) next_memalign = dlsym(RTLD_NEXT, "posix_memalign");
    if (!next_memalign) next_memalign = dlsym(RTLD_NEXT, "posix_memalign");
    int refused = next_memalign(block, alignment, size);
    if (!refused) count(*block, 1);
    return refused;
}

void free(void *block) {
    if (!next_free) next_free = dlsym(RTLD_NEXT, "free");
    count(block, -1);
    next_free(block);
}
