/* A library to preload: with HEAP=FILE it writes to that file, at each write to standard output, the bytes in use,
   and the most since the write before. */
#define _GNU_SOURCE
#include <malloc.h>
#include <stdio.h>
#include <stdlib.h>
#include <sys/syscall.h>
#include <unistd.h>

extern void *__libc_malloc(size_t), *__libc_realloc(void *, size_t), *__libc_calloc(size_t, size_t),
    *__libc_memalign(size_t, size_t);
extern void __libc_free(void *);

static size_t used, most;

static void *took(void *p) {
    used += p ? malloc_usable_size(p) + sizeof(size_t) : 0;
    if (used > most) most = used;
    return p;
}

static void gave(void *p) { used -= p ? malloc_usable_size(p) + sizeof(size_t) : 0; }

void *malloc(size_t n) { return took(__libc_malloc(n)); }
void *calloc(size_t k, size_t n) { return took(__libc_calloc(k, n)); }
void *aligned_alloc(size_t a, size_t n) { return took(__libc_memalign(a, n)); }

void *realloc(void *p, size_t n) {
    size_t had = p ? malloc_usable_size(p) + sizeof(size_t) : 0;
    void *new = __libc_realloc(p, n);
    if (new) used -= had;
    return took(new);
}

void free(void *p) {
    gave(p);
    __libc_free(p);
}

int posix_memalign(void **p, size_t a, size_t n) {
    *p = took(__libc_memalign(a, n));
    return *p ? 0 : 12;
}

ssize_t write(int file, const void *bytes, size_t n) {
    const char *path = getenv("HEAP");
    if (file == 1 && path) {
        char line[64];
        int length = snprintf(line, sizeof line, "%zu %zu\n", used, most);
        FILE *list = fopen(path, "a");
        if (list) {
            fwrite(line, 1, length, list);
            fclose(list);
        }
        most = used;
    }
    return syscall(SYS_write, file, bytes, n);
}
