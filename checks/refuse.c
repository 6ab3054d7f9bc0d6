/* Loaded in front of the C library: refuses one allocation, the one whose number, counted from 1, is in REFUSED. Where COUNTED
 * names a file, the number of all allocations is written there at the end. */
#define _GNU_SOURCE
#include <dlfcn.h>
#include <errno.h>
#include <stdatomic.h>
#include <stddef.h>
#include <stdio.h>
#include <stdlib.h>

static atomic_ulong calls;
static unsigned long refused;

/* Memory for what dlsym itself asks for, before the library's calls are known. */
static char early[4096];
static size_t early_used;

static void *(*library_malloc)(size_t);
static void *(*library_calloc)(size_t, size_t);
static void *(*library_realloc)(void *, size_t);
static int (*library_posix_memalign)(void **, size_t, size_t);
static void *(*library_aligned_alloc)(size_t, size_t);

__attribute__((constructor)) static void begin(void) {
    library_malloc = dlsym(RTLD_NEXT, "malloc");
    library_calloc = dlsym(RTLD_NEXT, "calloc");
    library_realloc = dlsym(RTLD_NEXT, "realloc");
    library_posix_memalign = dlsym(RTLD_NEXT, "posix_memalign");
    library_aligned_alloc = dlsym(RTLD_NEXT, "aligned_alloc");
    const char *number = getenv("REFUSED");
    refused = number ? strtoul(number, NULL, 10) : 0;
    atomic_store(&calls, 0);
}

/* Called where the program ends, with `_exit` or without. */
__attribute__((destructor)) static void end(void) {
    unsigned long count = atomic_load(&calls);
    const char *path = getenv("COUNTED");
    refused = 0;
    FILE *file = path ? fopen(path, "w") : NULL;
    if (file) {
        fprintf(file, "%lu\n", count);
        fclose(file);
    }
}

void _exit(int status) {
    void (*library_exit)(int) = dlsym(RTLD_NEXT, "_exit");
    end();
    library_exit(status);
    abort();
}

static int refuses(void) {
    return atomic_fetch_add(&calls, 1) + 1 == refused;
}

static void *nothing(void) {
    errno = ENOMEM;
    return NULL;
}

void *malloc(size_t size) {
    if (!library_malloc)
        begin();
    return refuses() ? nothing() : library_malloc(size);
}

void *calloc(size_t count, size_t size) {
    if (!library_calloc) {
        void *place = early + early_used;
        early_used += (count * size + 15) & ~(size_t)15;
        return place;
    }
    return refuses() ? nothing() : library_calloc(count, size);
}

void *realloc(void *old, size_t size) {
    if (!library_realloc)
        begin();
    return refuses() ? nothing() : library_realloc(old, size);
}

int posix_memalign(void **place, size_t align, size_t size) {
    return refuses() ? ENOMEM : library_posix_memalign(place, align, size);
}

void *aligned_alloc(size_t align, size_t size) {
    return refuses() ? nothing() : library_aligned_alloc(align, size);
}
