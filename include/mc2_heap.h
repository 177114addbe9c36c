// mc2_heap.h - the heap of libcells.a and libjudge.a for a kernel without a C library. Nothing here is proved.
//
// Include it in exactly one C file, and link no liblibc_c.a: it defines rattle_alloc, rattle_dealloc and rattle_realloc. Add memory
// with mc2_heap_add before the first cell is opened. A block is cut from the free block of the lowest address that is large enough;
// a freed block is joined with its free neighbours.
//
// Context  Several CPUs may call at the same time: a spinlock of the heap guards it. An interrupt handler that came within one of
//          these functions must not call another: so handlers open and free no cells, or the kernel disables interrupts around
//          opening and freeing (MC2_ALLOCATING).
#ifndef MC2_HEAP_H
#define MC2_HEAP_H

#include "mc2_result.h"

// Internal: the 16 bytes before a block. The size includes them. An allocated block is in no list.
struct mc2_priv_block {
    size_t size;
    struct mc2_priv_block *next;
};

// An allocated block, or none; `at` is never NULL. The library expects this form, two words.
struct mc2_allocation {
    bool is_there;
    void *at;
};

// Internal: the free blocks by address; no two of them touch.
static struct {
    unsigned lock;
    struct mc2_priv_block *first;
} mc2_heap;

#ifdef __cplusplus
extern "C" {
#endif
// Allocates a block of `size` bytes, or of `align` bytes if the size is 0, aligned to 16 bytes. Its contents are unspecified.
// Returns  the block; none if no free block is large enough, or if `align` is above 16.
struct mc2_allocation rattle_alloc(size_t size, size_t align);
// Frees a block.
void rattle_dealloc(void *at);
// Allocates a block as rattle_alloc, copies the first `kept` bytes of the old one, and frees the old one.
// Returns  the new block; none: the old one is unchanged.
struct mc2_allocation rattle_realloc(void *old, size_t kept, size_t size, size_t align);
#ifdef __cplusplus
}
#endif

static inline void mc2_priv_heap_lock(void) {
    while (__atomic_exchange_n(&mc2_heap.lock, 1u, __ATOMIC_ACQUIRE))
        ;
}

static inline void mc2_priv_heap_unlock(void) { __atomic_store_n(&mc2_heap.lock, 0u, __ATOMIC_RELEASE); }

// Internal: joins a free block with the next one if they touch.
static inline void mc2_priv_heap_join(struct mc2_priv_block *block) {
    if ((char *)block + block->size == (char *)block->next) {
        block->size += block->next->size;
        block->next = block->next->next;
    }
}

// Internal: makes a block free, unless it overlaps a free one. Returns whether it did.
static inline bool mc2_priv_heap_insert(struct mc2_priv_block *block, size_t size) {
    struct mc2_priv_block **link = &mc2_heap.first, *before = NULL;
    mc2_priv_heap_lock();
    for (; *link && *link < block; link = &before->next)
        before = *link;
    bool is_apart = (!before || (char *)before + before->size <= (char *)block) && (!*link || (char *)block + size <= (char *)*link);
    if (is_apart) {
        block->size = size;
        block->next = *link;
        *link = block;
        mc2_priv_heap_join(block);
        if (before)
            mc2_priv_heap_join(before);
    }
    mc2_priv_heap_unlock();
    return is_apart;
}

// Adds memory to the heap, which keeps it for good. Memory that touches a free block is joined with it. Bytes at either end that
// aren't part of an aligned unit of 16 bytes aren't used.
// Returns  MC2_DONE; MC2_REFUSED: it overlaps a free block (that it overlaps an allocated one isn't checked); MC2_BAD_PARAM: it has
//          no whole unit, is NULL, or reaches the last byte of the address space.
static inline uint32_t mc2_heap_add(void *memory, size_t size) {
    size_t skipped = (size_t)-(uintptr_t)memory % 16;
    if (!memory || size > UINTPTR_MAX - (uintptr_t)memory || size < skipped + sizeof(struct mc2_priv_block))
        return MC2_BAD_PARAM;
    struct mc2_priv_block *block = (struct mc2_priv_block *)(void *)((char *)memory + skipped);
    return mc2_priv_heap_insert(block, (size - skipped) / 16 * 16) ? MC2_DONE : MC2_REFUSED;
}

// Returns how many bytes are free, headers included, and stores the number of free blocks in *blocks.
static inline size_t mc2_heap_available(size_t *blocks) {
    size_t bytes = 0;
    mc2_priv_heap_lock();
    *blocks = 0;
    for (const struct mc2_priv_block *at = mc2_heap.first; at; at = at->next) {
        bytes += at->size;
        ++*blocks;
    }
    mc2_priv_heap_unlock();
    return bytes;
}

struct mc2_allocation rattle_alloc(size_t size, size_t align) {
    struct mc2_allocation allocation = {false, &mc2_heap};
    struct mc2_priv_block **link = &mc2_heap.first;
    size_t asked = size > 0 ? size : align;
    // The second test: the size with its header would wrap.
    if (align > 16 || asked > SIZE_MAX - sizeof **link - 15)
        return allocation;
    size_t wanted = (asked + sizeof **link + 15) / 16 * 16;
    mc2_priv_heap_lock();
    while (*link && (*link)->size < wanted)
        link = &(*link)->next;
    struct mc2_priv_block *block = *link;
    if (block) {
        size_t left = block->size - wanted;
        *link = block->next;
        if (left > 0) {
            *link = (struct mc2_priv_block *)(void *)((char *)block + wanted);
            (*link)->size = left;
            (*link)->next = block->next;
        }
        block->size = wanted;
        allocation.is_there = true;
        allocation.at = block + 1;
    }
    mc2_priv_heap_unlock();
    return allocation;
}

void rattle_dealloc(void *at) {
    struct mc2_priv_block *block = (struct mc2_priv_block *)at - 1;
    mc2_priv_heap_insert(block, block->size);
}

struct mc2_allocation rattle_realloc(void *old, size_t kept, size_t size, size_t align) {
    struct mc2_allocation allocation = rattle_alloc(size, align);
    if (allocation.is_there) {
        __builtin_memcpy(allocation.at, old, kept);
        rattle_dealloc(old);
    }
    return allocation;
}

#endif
