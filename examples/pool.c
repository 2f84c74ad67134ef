/* Memory of one's own for the library: a fixed array in place of `malloc`. Link it with the library alone:
 *
 *   cc -I include -o embed examples/embed.c examples/pool.c crates/tfpg_embed/out/libtfpg_embed.a
 *
 * A block has a power of two of bytes. A free one is halved as often as it can be, and two halves become one again as soon as both are free.
 * So the time of a call is bounded by POOL_BITS, and by the bytes that `rattle_realloc` copies. The array has 2^POOL_BITS bytes, and beside
 * it there is one byte for each 32 of them. There is no lock: only one thread at a time may be in a call of the library.
 */
#include "pool.h"

#include <stdint.h>
#include <string.h>

#ifndef POOL_BITS
#define POOL_BITS 22 /* 4 MB; from 6 to 30, since a program has at most 2 GB of such arrays */
#endif
#if POOL_BITS < 6 || POOL_BITS > 30
#error "POOL_BITS is from 6 to 30"
#endif

#define UNIT_BITS 5U
#define TOP ((unsigned)POOL_BITS - UNIT_BITS)
#define UNITS ((size_t)1 << TOP)
#define FREE 0x80U

/* The array. A long double has the greatest alignment that the library asks for. */
static union {
    uint8_t bytes[(size_t)1 << POOL_BITS];
    long double aligned;
} pool;

/* The neighbours of a free block in the list of its order, each as its number and 1. 0 is none. They stand at its front. */
typedef struct {
    uint32_t next, last;
} links;

/* A block of order n has 2^n units, and the number of its first unit. Of that unit `state` has the order and 1, with FREE if the block is
 * free; of all other units it has 0. */
static uint8_t state[UNITS];
static uint32_t first[TOP + 1U];
static size_t taken, most;
static bool is_ready;

static links links_of(size_t block) {
    links found;
    (void)memcpy(&found, &pool.bytes[block << UNIT_BITS], sizeof found);
    return found;
}

static void set_links(size_t block, links wanted) {
    (void)memcpy(&pool.bytes[block << UNIT_BITS], &wanted, sizeof wanted);
}

/* Puts a block of this order to the front of its list. */
static void put(size_t block, unsigned order) {
    links own = {first[order], 0U};
    if (own.next != 0U) {
        links other = links_of(own.next - 1U);
        other.last = (uint32_t)block + 1U;
        set_links(own.next - 1U, other);
    }
    set_links(block, own);
    first[order] = (uint32_t)block + 1U;
    state[block] = (uint8_t)(FREE | (order + 1U));
}

/* Takes a free block of this order out of its list. */
static void take(size_t block, unsigned order) {
    links own = links_of(block), other;
    if (own.next != 0U) {
        other = links_of(own.next - 1U);
        other.last = own.last;
        set_links(own.next - 1U, other);
    }
    if (own.last != 0U) {
        other = links_of(own.last - 1U);
        other.next = own.next;
        set_links(own.last - 1U, other);
    } else {
        first[order] = own.next;
    }
    state[block] = 0U;
}

static bool is_free(size_t block, unsigned order) {
    return state[block] == (uint8_t)(FREE | (order + 1U));
}

/* The least order of a block that holds so many bytes, or one above TOP. */
static unsigned order_for(size_t size) {
    unsigned order = 0U;
    while (order <= TOP && (((size_t)1 << UNIT_BITS) << order) < size) {
        order++;
    }
    return order;
}

/* Notes that this block of this order is taken. It comes with `old` units that were taken before. */
static heap_answer hand_over(size_t block, unsigned order, size_t old) {
    heap_answer answer = {true, &pool.bytes[block << UNIT_BITS]};
    state[block] = (uint8_t)(order + 1U);
    taken = taken - old + ((size_t)1 << order);
    if (taken > most) {
        most = taken;
    }
    return answer;
}

static heap_answer no_memory(void) {
    heap_answer answer = {false, pool.bytes};
    return answer;
}

/* Puts the upper halves of a block of the order `from` into their lists, until it has the order `to`. */
static void halve(size_t block, unsigned from, unsigned to) {
    while (from > to) {
        from--;
        put(block + ((size_t)1 << from), from);
    }
}

heap_answer rattle_alloc(size_t size, size_t align) {
    unsigned wanted = order_for(size), order = wanted;
    size_t block;
    (void)align; /* each block has an alignment of 16 */
    if (!is_ready) {
        is_ready = true;
        put(0U, TOP);
    }
    while (order <= TOP && first[order] == 0U) {
        order++;
    }
    if (order > TOP) {
        return no_memory();
    }
    block = first[order] - 1U;
    take(block, order);
    halve(block, order, wanted);
    return hand_over(block, wanted, 0U);
}

void rattle_dealloc(void *p) {
    size_t block = (size_t)((uint8_t *)p - pool.bytes) >> UNIT_BITS, other;
    unsigned order = state[block] - 1U;
    taken -= (size_t)1 << order;
    state[block] = 0U;
    for (other = block ^ ((size_t)1 << order); order != TOP && is_free(other, order); other = block ^ ((size_t)1 << order)) {
        take(other, order);
        block &= ~((size_t)1 << order);
        order++;
    }
    put(block, order);
}

/* Whether a block of this order can grow where it is: it is the lower half of each larger one, and all the upper halves are free. */
static bool can_grow(size_t block, unsigned order, unsigned wanted) {
    while (order < wanted && (block & ((size_t)1 << order)) == 0U && is_free(block + ((size_t)1 << order), order)) {
        order++;
    }
    return order == wanted;
}

heap_answer rattle_realloc(void *p, size_t kept, size_t size, size_t align) {
    size_t block = (size_t)((uint8_t *)p - pool.bytes) >> UNIT_BITS;
    unsigned old = state[block] - 1U, wanted = order_for(size), order;
    heap_answer answer;
    if (wanted > TOP) {
        return no_memory();
    }
    if (wanted <= old || can_grow(block, old, wanted)) {
        for (order = old; order < wanted; order++) {
            take(block + ((size_t)1 << order), order);
        }
        halve(block, old, wanted);
        return hand_over(block, wanted, (size_t)1 << old);
    }
    answer = rattle_alloc(size, align);
    if (answer.ok) {
        (void)memcpy(answer.p, p, kept);
        rattle_dealloc(p);
    }
    return answer;
}

size_t pool_size(void) {
    return sizeof pool.bytes;
}

size_t pool_most(void) {
    return most << UNIT_BITS;
}
