// machine.h - x86-64 as qemu has it: ports, CPUs, interrupts and stacks.
#ifndef METAL_MACHINE_H
#define METAL_MACHINE_H
#include <stdbool.h>
#include <stddef.h>
#include <stdint.h>

enum { STACK = 65536, TIMER = 32 };

// The registers that `interrupted` of boot.S pushes, and above them those that the processor pushes.
struct frame {
    uint64_t rbp, rbx, r11, r10, r9, r8, rdi, rsi, rdx, rcx, rax, vector, error, rip, cs, rflags, rsp, ss;
};

// The free memory is from kernel_end to memory_end. qemu has 128 MiB.
extern uint8_t kernel_end[];
static uint8_t *const memory_end = (uint8_t *)(0xffffffff80000000 + (120u << 20));

// Writes text to the serial port. `to` is ignored. This is an mc2_write_fn, for the record.
void serial_open(void);
bool serial_take(void *to, const char *text, size_t length);

// Prints a text to qemu's debug console, with the number in place of the first '#', and the other in place of the second.
void say(const char *text, uint64_t number);
void say_both(const char *text, uint64_t number, uint64_t other);

// Ends qemu with this status, which is odd.
_Noreturn void leave(uint32_t status);

// Prints a line and ends qemu with status 3, unless the condition holds.
void must(bool holds, const char *what, uint64_t number);

// Starts the other CPUs, and waits until there are CPUS in all.
void start_cpus(void);

// Sets up this CPU's interrupts. With has_stack they run on a separate stack (IST). Each vector calls interrupt() of main.c.
void interrupts_open(uint32_t cpu, bool has_stack);
void interrupt(struct frame *frame);
void timer_start(uint32_t count);
void timer_stop(void);
void interrupt_done(void);

// Returns this CPU's number.
uint32_t cpu_here(void);

// stack_forget clears the unused part of this CPU's stack. The others return how many bytes of a CPU's stack, or of its interrupts'
// stack, were used at most since then.
void stack_forget(uint32_t cpu);
size_t stack_used(uint32_t cpu);
size_t interrupt_stack_used(uint32_t cpu);

// C compilers require these of every kernel, and so does the library.
void *memcpy(void *to, const void *from, size_t size);
void *memmove(void *to, const void *from, size_t size);
void *memset(void *to, int byte, size_t size);

static inline void interrupts_on(void) { __asm__ volatile("sti" ::: "memory"); }
static inline void interrupts_off(void) { __asm__ volatile("cli" ::: "memory"); }

static inline uint64_t interrupts_save(void) {
    uint64_t flags;
    __asm__ volatile("pushfq; popq %0; cli" : "=r"(flags)::"memory");
    return flags;
}

static inline void interrupts_restore(uint64_t flags) {
    __asm__ volatile("pushq %0; popfq" ::"r"(flags) : "memory", "cc");
}
#endif
