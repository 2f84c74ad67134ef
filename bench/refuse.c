/* Refuses some requests for memory of a program: loaded before it by LD_PRELOAD, as bench/refuse.py does.
 *
 * REFUSE_COUNT names a file of 8 bytes, which has the number of requests so far at all times. They are counted from the start of the
 * program. Those from REFUSE_FIRST to REFUSE_LAST answer that there is no memory. What is given back is given back.
 */
#define _GNU_SOURCE
#include <errno.h>
#include <fcntl.h>
#include <stdint.h>
#include <stdlib.h>
#include <sys/mman.h>
#include <sys/syscall.h>
#include <unistd.h>

extern void *__libc_malloc(size_t size);
extern void *__libc_calloc(size_t count, size_t size);
extern void *__libc_realloc(void *old, size_t size);
extern void *__libc_memalign(size_t align, size_t size);

static uint64_t unmapped;
static volatile uint64_t *requests = &unmapped;
static uint64_t first, last;

static uint64_t number_of(const char *name) {
    const char *text = getenv(name);
    return text ? strtoull(text, NULL, 10) : 0;
}

__attribute__((constructor)) static void begin(void) {
    const char *file = getenv("REFUSE_COUNT");
    first = number_of("REFUSE_FIRST");
    last = number_of("REFUSE_LAST");
    if (file) {
        int opened = syscall(SYS_openat, AT_FDCWD, file, O_RDWR);
        void *mapped = mmap(NULL, 8, PROT_READ | PROT_WRITE, MAP_SHARED, opened, 0);
        if (mapped != MAP_FAILED)
            requests = mapped;
        syscall(SYS_close, opened);
    }
    *requests = 0;
}

static int is_refused(void) {
    uint64_t number = ++*requests;
    if (number < first || number > last)
        return 0;
    errno = ENOMEM;
    return 1;
}

void *malloc(size_t size) { return is_refused() ? NULL : __libc_malloc(size); }

void *calloc(size_t count, size_t size) { return is_refused() ? NULL : __libc_calloc(count, size); }

void *realloc(void *old, size_t size) { return is_refused() ? NULL : __libc_realloc(old, size); }

void *memalign(size_t align, size_t size) { return is_refused() ? NULL : __libc_memalign(align, size); }

void *aligned_alloc(size_t align, size_t size) { return is_refused() ? NULL : __libc_memalign(align, size); }

int posix_memalign(void **into, size_t align, size_t size) {
    void *found = is_refused() ? NULL : __libc_memalign(align, size);
    if (!found)
        return ENOMEM;
    *into = found;
    return 0;
}
