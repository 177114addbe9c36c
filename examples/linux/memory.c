// memory.c - the allocator of libcells.a in Linux. Only opening, reopening, closing and freeing call it, in contexts that may sleep.
#include <linux/atomic.h>
#include <linux/log2.h>
#include <linux/mm.h>
#include <linux/slab.h>
#include "mc2_linux.h"

enum { ALIGNED = 16 };

atomic_long_t mc2_blocks;
uint mc2_refused;

// kmalloc aligns a block whose size is a power of two, up to a page, to its size. kvmalloc aligns larger blocks to more than 16.
struct mc2_allocation rattle_alloc(size_t size, size_t align) {
    size_t wanted = max_t(size_t, size > 0 ? size : align, ALIGNED);
    bool is_refused = mc2_refused > 0 && --mc2_refused == 0;
    void *at = is_refused ? NULL : kvmalloc(wanted > PAGE_SIZE ? wanted : roundup_pow_of_two(wanted), GFP_KERNEL);
    WARN_ON_ONCE(irqs_disabled() || (uintptr_t)at % ALIGNED != 0);
    if (at)
        atomic_long_inc(&mc2_blocks);
    return (struct mc2_allocation){at != NULL, at ? at : &mc2_blocks};
}

void rattle_dealloc(void *at) {
    WARN_ON_ONCE(irqs_disabled());
    if (at)
        atomic_long_dec(&mc2_blocks);
    kvfree(at);
}
