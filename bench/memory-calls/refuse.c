/* Refuses requests for memory of the program that it is loaded into (LD_PRELOAD), as counted from the
   program's begin: the one that REFUSE names, and with REFUSE_ALL all that follow. Where REFUSE_COUNT
   names a file, the number of requests is written there at the program's end. The requests are the calls
   by which a program can ask the C library for memory; a call that gives memory back, or keeps a block's
   size or makes it smaller, is none. */
#define _GNU_SOURCE
#include <errno.h>
#include <fcntl.h>
#include <malloc.h>
#include <stdio.h>
#include <stdlib.h>
#include <sys/mman.h>
#include <sys/syscall.h>
#include <unistd.h>

extern void *__libc_malloc(size_t);
extern void *__libc_calloc(size_t, size_t);
extern void *__libc_realloc(void *, size_t);
extern void *__libc_memalign(size_t, size_t);

static unsigned long requests, refused;
static int has_begun, refuses_all;

static int is_refused(void) {
    if (!has_begun) return 0;
    requests++;
    if (!refused || requests < refused || (requests > refused && !refuses_all)) return 0;
    errno = ENOMEM;
    return 1;
}

void *malloc(size_t size) { return is_refused() ? NULL : __libc_malloc(size); }

void *calloc(size_t count, size_t size) { return is_refused() ? NULL : __libc_calloc(count, size); }

void *realloc(void *block, size_t size) {
    if (block && size <= malloc_usable_size(block)) return __libc_realloc(block, size);
    return is_refused() ? NULL : __libc_realloc(block, size);
}

void *memalign(size_t place, size_t size) { return is_refused() ? NULL : __libc_memalign(place, size); }

void *aligned_alloc(size_t place, size_t size) { return memalign(place, size); }

int posix_memalign(void **block, size_t place, size_t size) {
    void *found = memalign(place, size);
    if (!found) return ENOMEM;
    *block = found;
    return 0;
}

void *mmap(void *at, size_t size, int rights, int flags, int file, off_t from) {
    if (is_refused()) return MAP_FAILED;
    return (void *)syscall(SYS_mmap, at, size, rights, flags, file, from);
}

static unsigned long number_in(const char *name) {
    const char *text = getenv(name);
    return text ? strtoul(text, NULL, 10) : 0;
}

__attribute__((constructor)) static void begin(void) {
    refused = number_in("REFUSE");
    refuses_all = number_in("REFUSE_ALL") != 0;
    has_begun = 1;
}

__attribute__((destructor)) static void end(void) {
    const char *path = getenv("REFUSE_COUNT");
    char text[32];
    int file, length = snprintf(text, sizeof text, "%lu", requests);
    if (!path) return;
    file = open(path, O_WRONLY | O_CREAT | O_TRUNC, 0600);
    if (file >= 0 && write(file, text, length) == length) close(file);
}
