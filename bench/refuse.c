/* Watches what a program that is started with it asks memory for, and refuses one request, for
 * bench/refused and examples/memory:
 *
 *     REFUSED=N COUNTED=FILE CALLERS=FILE LD_PRELOAD=refuse.so PROGRAM ..
 *
 * The Nth request that the program makes from the start of its `main` on, counted from 1, is
 * answered that there is no memory; N is 0, or not set: none is. At its end the program writes
 * three numbers, a line each, to the file COUNTED, if that is set: how many requests there were,
 * how many of them got no memory, and how many asked for more than 2^32 bytes. To the file CALLERS,
 * if that is set, it writes a line for each call that led to the request that was refused, the
 * innermost first: where that returns to, in hexadecimal, from where the program's file is loaded.
 * These are read from the chain of frames on the stack, which the program keeps. */
#define _GNU_SOURCE
#include <errno.h>
#include <link.h>
#include <stdint.h>
#include <stdio.h>
#include <stdlib.h>
#include <string.h>
#include <unistd.h>

void *__libc_malloc(size_t size);
void *__libc_calloc(size_t count, size_t size);
void *__libc_realloc(void *old, size_t size);
void *__libc_memalign(size_t alignment, size_t size);

/* The most calls that are noted. */
#define MOST 256

static const size_t large = (size_t)1 << 32;

static long refused = 0;
static long made = 0;
static long lacked = 0;
static long larger = 0;
static int counts = 0;
static char *counted = NULL;
static char *callers_to = NULL;
static uintptr_t callers[MOST];
static int depth = 0;

/* Notes where the calls return to that led here. Each frame has the place of the one before, which
 * lies above it, and then where its call returns to; all lie below the environment. */
__attribute__((noinline)) static void note_callers(void) {
    uintptr_t *frame = __builtin_frame_address(0);
    while (depth < MOST) {
        uintptr_t *before = (uintptr_t *)frame[0];
        callers[depth++] = frame[1];
        if (before <= frame || before >= (uintptr_t *)environ)
            return;
        frame = before;
    }
}

/* Where the program's own file is loaded: it is the first of those that are asked about. */
static int is_loaded_at(struct dl_phdr_info *info, size_t size, void *place) {
    (void)size;
    *(uintptr_t *)place = info->dlpi_addr;
    return 1;
}

static void write_callers(FILE *file) {
    uintptr_t start = 0;
    dl_iterate_phdr(is_loaded_at, &start);
    for (int at = 0; at < depth; at++)
        fprintf(file, "%lx\n", (unsigned long)(callers[at] - start));
}

static void write_counts(FILE *file) { fprintf(file, "%ld\n%ld\n%ld\n", made, lacked, larger); }

/* Takes a word out of the environment, which what the program starts doesn't find there, if it is. */
static char *taken(const char *name) {
    char *word = getenv(name) ? strdup(getenv(name)) : NULL;
    unsetenv(name);
    return word;
}

/* Has a file written that was named. */
static void write_to(const char *name, void (*writes)(FILE *)) {
    FILE *file = name ? fopen(name, "w") : NULL;
    if (file) {
        writes(file);
        fclose(file);
    }
}

/* Whether this request, of so many bytes, is the one that is to be refused. */
static int refuses(size_t size) {
    if (!counts)
        return 0;
    larger += size > large;
    if (++made != refused)
        return 0;
    note_callers();
    errno = ENOMEM;
    return 1;
}

/* What the request got, which is counted where it is nothing. */
static void *told(void *got, size_t size) {
    if (counts && !got && size)
        lacked++;
    return got;
}

/* The bytes of so many parts, or all that there are. */
static size_t product(size_t count, size_t size) {
    size_t bytes;
    return __builtin_mul_overflow(count, size, &bytes) ? SIZE_MAX : bytes;
}

__attribute__((constructor)) static void begin(void) {
    const char *number = getenv("REFUSED");
    refused = number ? atol(number) : 0;
    counted = taken("COUNTED");
    callers_to = taken("CALLERS");
    unsetenv("LD_PRELOAD");
    counts = 1;
}

__attribute__((destructor)) static void end(void) {
    counts = 0;
    write_to(counted, write_counts);
    write_to(callers_to, write_callers);
}

void *malloc(size_t size) { return told(refuses(size) ? NULL : __libc_malloc(size), size); }
void *realloc(void *old, size_t size) { return told(refuses(size) ? NULL : __libc_realloc(old, size), size); }

void *calloc(size_t count, size_t size) {
    size_t bytes = product(count, size);
    return told(refuses(bytes) ? NULL : __libc_calloc(count, size), bytes);
}

void *memalign(size_t alignment, size_t size) {
    return told(refuses(size) ? NULL : __libc_memalign(alignment, size), size);
}

void *aligned_alloc(size_t alignment, size_t size) { return memalign(alignment, size); }

int posix_memalign(void **out, size_t alignment, size_t size) {
    void *got = memalign(alignment, size);
    if (!got)
        return ENOMEM;
    *out = got;
    return 0;
}
