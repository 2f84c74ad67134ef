/* The three functions by which the library asks for memory, and what `pool.c` says of its own.
 *
 * The toolchain's archive `liblibc_c.a` defines them over `malloc`, `realloc` and `free`. A program that links other ones, as those of
 * `pool.c`, leaves that archive out. These are what the toolchain asks of them:
 *
 * - An alignment is 1, 2, 4, 8 or 16. A size is below 2^63, and may be 0: then too there is a block that is given back.
 * - If there is no memory, `ok` is false, `p` is any address but NULL, and nothing else has changed.
 * - No two blocks that are taken overlap, whichever thread took them.
 */
#ifndef TFPG_POOL_H
#define TFPG_POOL_H

#include <stdbool.h>
#include <stddef.h>

#ifdef __cplusplus
extern "C" {
#endif

/* Whether there is memory, and where it begins. */
typedef struct {
    bool ok;
    void *p;
} heap_answer;

/* Takes a block of so many bytes, with this alignment. */
heap_answer rattle_alloc(size_t size, size_t align);

/* Makes a taken block one of so many bytes, which may be more or fewer than it had. Its first `kept` bytes stay as they are, and there are
 * no more of them than the old block or the new one has. The block may move. */
heap_answer rattle_realloc(void *p, size_t kept, size_t size, size_t align);

/* Gives back a taken block. */
void rattle_dealloc(void *p);

/* How many bytes the pool has, and how many of them were taken at most at once. A block takes the least power of two that holds it, and at
 * least 32 bytes. */
size_t pool_size(void);
size_t pool_most(void);

#ifdef __cplusplus
}
#endif

#endif
