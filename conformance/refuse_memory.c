/* Loaded before the C library: refuses the allocation whose number is in REFUSE, counted from 1, and each behind it where
   REFUSE_ALL is set. At exit the number of allocations goes to the file in COUNT, if it is named. */
#define _GNU_SOURCE
#include <dlfcn.h>
#include <errno.h>
#include <stdio.h>
#include <stdlib.h>
#include <unistd.h>

extern void *__libc_malloc(size_t size);
extern void *__libc_realloc(void *old, size_t size);
extern void *__libc_calloc(size_t count, size_t size);
extern void *__libc_memalign(size_t alignment, size_t size);

static unsigned long made;
static unsigned long refused;
static int all_behind;
static int counting;

/* Nothing is counted before the program begins: what the loader asks for isn't the program's. */
__attribute__((constructor)) static void begin(void) {
    const char *number = getenv("REFUSE");
    refused = number ? strtoul(number, NULL, 10) : 0;
    all_behind = getenv("REFUSE_ALL") != NULL;
    counting = 1;
}

__attribute__((destructor)) static void end(void) {
    const char *path = getenv("COUNT");
    counting = 0;
    if (path) {
        FILE *file = fopen(path, "w");
        if (file) {
            fprintf(file, "%lu\n", made);
            fclose(file);
        }
    }
}

static int is_refused(void) {
    if (!counting) return 0;
    made++;
    return refused && (made == refused || (all_behind && made > refused));
}

void *malloc(size_t size) {
    return is_refused() ? (errno = ENOMEM, NULL) : __libc_malloc(size);
}

void *calloc(size_t count, size_t size) {
    return is_refused() ? (errno = ENOMEM, NULL) : __libc_calloc(count, size);
}

void *realloc(void *old, size_t size) {
    return is_refused() ? (errno = ENOMEM, NULL) : __libc_realloc(old, size);
}

void *aligned_alloc(size_t alignment, size_t size) {
    return is_refused() ? (errno = ENOMEM, NULL) : __libc_memalign(alignment, size);
}

void *memalign(size_t alignment, size_t size) {
    return is_refused() ? (errno = ENOMEM, NULL) : __libc_memalign(alignment, size);
}

int posix_memalign(void **place, size_t alignment, size_t size) {
    if (is_refused()) return ENOMEM;
    *place = __libc_memalign(alignment, size);
    return *place ? 0 : ENOMEM;
}
