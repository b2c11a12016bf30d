/* A library to preload: it refuses one request for memory of a process, the one whose number, counted
   from 1, stands in REFUSE. With COUNT=FILE it writes to that file how many requests there were. */
#define _GNU_SOURCE
#include <errno.h>
#include <stdatomic.h>
#include <stdio.h>
#include <stdlib.h>

extern void *__libc_malloc(size_t), *__libc_realloc(void *, size_t), *__libc_calloc(size_t, size_t),
    *__libc_memalign(size_t, size_t);

static atomic_ulong asked;
static unsigned long refused;
static int counting;

static int refuse(void) {
    if (!counting || atomic_fetch_add(&asked, 1) + 1 != refused) return 0;
    errno = ENOMEM;
    return 1;
}

__attribute__((constructor)) static void start(void) {
    const char *number = getenv("REFUSE");
    refused = number ? strtoul(number, 0, 10) : 0;
    counting = 1;
}

__attribute__((destructor)) static void end(void) {
    counting = 0;
    const char *path = getenv("COUNT");
    FILE *file = path ? fopen(path, "w") : 0;
    if (!file) return;
    fprintf(file, "%lu\n", atomic_load(&asked));
    fclose(file);
}

void *malloc(size_t n) { return refuse() ? 0 : __libc_malloc(n); }
void *realloc(void *p, size_t n) { return refuse() ? 0 : __libc_realloc(p, n); }
void *calloc(size_t k, size_t n) { return refuse() ? 0 : __libc_calloc(k, n); }
void *aligned_alloc(size_t a, size_t n) { return refuse() ? 0 : __libc_memalign(a, n); }

int posix_memalign(void **p, size_t a, size_t n) {
    if (refuse()) return ENOMEM;
    *p = __libc_memalign(a, n);
    return *p ? 0 : ENOMEM;
}
