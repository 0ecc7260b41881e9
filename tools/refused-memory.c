/* Preloaded into a program, refuses one of its growths of memory.

   Counts the calls of malloc, calloc, realloc, aligned_alloc and posix_memalign from when the program's libraries are
   ready, into the eight bytes of the file that the variable GROWTHS names, which remain however the program ends. The
   call of the number in REFUSED, counted from 1, gets no memory; with 0 each call gets what it asks for. */

#include <errno.h>
#include <fcntl.h>
#include <stdint.h>
#include <stdlib.h>
#include <sys/mman.h>
#include <unistd.h>

/* The C library's own calls, by the names that it also gives them. */
extern void *__libc_malloc(size_t size);
extern void *__libc_calloc(size_t count, size_t size);
extern void *__libc_realloc(void *block, size_t size);
extern void *__libc_memalign(size_t alignment, size_t size);

static volatile uint64_t *growths;
static uint64_t refused;

__attribute__((constructor)) static void begin(void) {
    const char *name = getenv("GROWTHS");
    const char *number = getenv("REFUSED");
    int file = name ? open(name, O_RDWR | O_CLOEXEC) : -1;
    if (file < 0 || !number)
        return;
    refused = strtoull(number, NULL, 10);
    void *place = mmap(NULL, sizeof *growths, PROT_READ | PROT_WRITE, MAP_SHARED, file, 0);
    if (place != MAP_FAILED)
        growths = place;
    close(file);
}

static int is_refused(void) {
    return growths && ++*growths == refused;
}

static void *none(void) {
    errno = ENOMEM;
    return NULL;
}

void *malloc(size_t size) {
    return is_refused() ? none() : __libc_malloc(size);
}

void *calloc(size_t count, size_t size) {
    return is_refused() ? none() : __libc_calloc(count, size);
}

void *realloc(void *block, size_t size) {
    return is_refused() ? none() : __libc_realloc(block, size);
}

void *aligned_alloc(size_t alignment, size_t size) {
    return is_refused() ? none() : __libc_memalign(alignment, size);
}

int posix_memalign(void **block, size_t alignment, size_t size) {
    if (is_refused())
        return ENOMEM;
    void *found = __libc_memalign(alignment, size);
    if (!found)
        return ENOMEM;
    *block = found;
    return 0;
}
