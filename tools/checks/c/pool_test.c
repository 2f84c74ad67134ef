/* Tries `examples/pool.c` by itself, against a shadow of what it handed over:
 *
 *   pool_test STEPS SEED
 *
 * Takes, grows, shrinks and gives back blocks at random. Each block has bytes of its own: those that have to be kept are compared at each
 * step that touches the block. At the end all is given back, and the whole pool has to be free in one piece again. Ends with status 1, and a
 * line that says what is wrong, where something is.
 */
#include "../../../examples/pool.h"

#include <stdint.h>
#include <stdio.h>
#include <stdlib.h>
#include <string.h>

#define BLOCKS 1000

typedef struct {
    uint8_t *at;
    size_t size;
    uint8_t fill;
} shadow;

static shadow blocks[BLOCKS];
static uint64_t state;
static unsigned long refused;

static void fail(const char *what) {
    printf("pool: %s\n", what);
    exit(1);
}

/* A number below this one. */
static size_t draw(size_t below) {
    state ^= state << 13;
    state ^= state >> 7;
    state ^= state << 17;
    return (size_t)(state % below);
}

/* A size: mostly small, now and then large, and sometimes more than there is. */
static size_t draw_size(void) {
    size_t bits = draw(20) == 0 ? draw(26) : draw(11);
    return draw(((size_t)1 << bits) + 1);
}

static void expect_fill(const uint8_t *at, size_t count, uint8_t fill) {
    for (size_t byte = 0; byte < count; byte++)
        if (at[byte] != fill) fail("a byte of a block has changed");
}

/* A block that was handed over is where it may be, and is filled. */
static void keep(shadow *block, heap_answer answer, size_t size) {
    block->at = (uint8_t *)answer.p;
    block->size = size;
    block->fill = (uint8_t)draw(256);
    if ((uintptr_t)answer.p % 16 != 0) fail("a block is not aligned");
    for (size_t other = 0; other < BLOCKS; other++) {
        const shadow *one = &blocks[other];
        if (one != block && one->at && one->at < block->at + (size ? size : 1) && block->at < one->at + (one->size ? one->size : 1))
            fail("two blocks overlap");
    }
    memset(block->at, block->fill, size);
}

static void step(void) {
    shadow *block = &blocks[draw(draw(4) == 0 ? BLOCKS : 40)];
    size_t size = draw_size(), kept;
    heap_answer answer;
    if (!block->at) {
        answer = rattle_alloc(size, (size_t)1 << draw(5));
        if (answer.ok) keep(block, answer, size);
    } else if (draw(2) == 0) {
        expect_fill(block->at, block->size, block->fill);
        rattle_dealloc(block->at);
        block->at = NULL;
        return;
    } else {
        kept = draw((block->size < size ? block->size : size) + 1);
        answer = rattle_realloc(block->at, kept, size, (size_t)1 << draw(5));
        expect_fill(answer.ok ? (uint8_t *)answer.p : block->at, answer.ok ? kept : block->size, block->fill);
        if (answer.ok) keep(block, answer, size);
    }
    if (!answer.ok) refused++;
    if (!answer.p) fail("an address is NULL");
}

int main(int count, char **words) {
    unsigned long steps = count == 3 ? strtoul(words[1], NULL, 10) : 0;
    heap_answer whole;
    if (!steps) return 2;
    state = strtoull(words[2], NULL, 10) * 2654435761U + 1;
    for (unsigned long number = 0; number < steps; number++) step();
    for (size_t block = 0; block < BLOCKS; block++) {
        if (!blocks[block].at) continue;
        expect_fill(blocks[block].at, blocks[block].size, blocks[block].fill);
        rattle_dealloc(blocks[block].at);
    }
    if (pool_most() == 0 || pool_most() > pool_size()) fail("the most that was taken is no size");
    whole = rattle_alloc(pool_size(), 16);
    if (!whole.ok) fail("what was given back is not one piece");
    if (rattle_alloc(1, 1).ok) fail("there is more than the pool");
    if (rattle_alloc(pool_size() + 1, 1).ok || rattle_alloc((size_t)-1 >> 1, 1).ok) fail("a size above the pool is taken");
    whole = rattle_realloc(whole.p, pool_size(), 1, 1);
    if (!whole.ok || !rattle_alloc(pool_size() / 2, 1).ok) fail("what was shrunk is not free");
    printf("pool: %lu steps, %lu refused, %zu of %zu bytes at most\n", steps, refused, pool_most(), pool_size());
    return 0;
}
