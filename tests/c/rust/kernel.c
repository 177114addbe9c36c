// Gives kernel.rs a heap, calls it, and checks that each block is freed.
#include "mc2_heap.h"
#include <stdio.h>

uint32_t kernel_calls(void);

// The tables of `core` refer to it. Nothing unwinds.
void rust_eh_personality(void);
void rust_eh_personality(void) {}

static _Alignas(16) char memory[1 << 20];

int main(void) {
    size_t blocks = 0;
    if (mc2_heap_add(memory, sizeof memory))
        return 1;
    uint32_t thread = kernel_calls();
    size_t left = mc2_heap_available(&blocks);
    if (thread != 3 || left != sizeof memory || blocks != 1) {
        fprintf(stderr, "thread %u, %zu bytes in %zu blocks are left\n", thread, left, blocks);
        return 1;
    }
    printf("calls and a verdict, and all memory is back\n");
    return 0;
}
