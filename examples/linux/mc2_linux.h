// mc2_linux.h - includes mc2_cells.h as a Linux module needs it. memory.c has the allocator.
#ifndef MC2_LINUX_H
#define MC2_LINUX_H

#include <linux/irqflags.h>
#include <linux/kernel.h>

// There is no C library, and no MC2_USLEEP: a caller that waits has preemption disabled, so it must not sleep.
#define MC2_FREESTANDING
#define MC2_TYPES "linux/types.h"

// Disables interrupts around each call of the library, so that no handler and no softirq runs within one.
#define MC2_IRQ_OFF(call) \
    ({ \
        unsigned long irq_flags; \
        uint32_t irq_result; \
        local_irq_save(irq_flags); \
        irq_result = (call); \
        local_irq_restore(irq_flags); \
        irq_result; \
    })

// Opening, closing and freeing call the kernel's allocator, which may sleep: interrupts stay enabled.
#define MC2_ALLOCATING(call) (call)

#include "mc2_cells.h"

// Allocates a block of `size` bytes, or of `align` bytes if `size` is 0, aligned to 16 bytes. The pointer is never NULL; `is_there`
// is false if there is no memory. rattle_dealloc frees a block; NULL is allowed.
// Context  May sleep. Interrupts are enabled.
struct mc2_allocation { bool is_there; void *at; };
struct mc2_allocation rattle_alloc(size_t size, size_t align);
void rattle_dealloc(void *at);

// The number of blocks that are allocated. If mc2_refused is n > 0, the n-th allocation from now fails.
extern atomic_long_t mc2_blocks;
extern uint mc2_refused;

#endif
