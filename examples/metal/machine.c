// machine.c - see machine.h.
#include "machine.h"

static inline void out8(uint16_t port, uint8_t value) { __asm__ volatile("outb %0, %1" ::"a"(value), "Nd"(port)); }

static inline uint8_t in8(uint16_t port) {
    uint8_t value;
    __asm__ volatile("inb %1, %0" : "=a"(value) : "Nd"(port));
    return value;
}

enum { CONSOLE = 0xe9, EXIT = 0xf4, COM1 = 0x3f8 };

_Noreturn void leave(uint32_t status) {
    out8(EXIT, (uint8_t)(status >> 1));         // isa-debug-exit: qemu exits with status 2 * value + 1
    for (;;)
        __asm__ volatile("cli; hlt");
}

static void say_number(uint64_t number) {
    if (number >= 10)
        say_number(number / 10);
    out8(CONSOLE, (uint8_t)('0' + number % 10));
}

void say_both(const char *text, uint64_t number, uint64_t other) {
    for (; *text; text++) {
        if (*text != '#') {
            out8(CONSOLE, (uint8_t)*text);
            continue;
        }
        say_number(number);
        number = other;
    }
}

void say(const char *text, uint64_t number) { say_both(text, number, 0); }

void must(bool holds, const char *what, uint64_t number) {
    if (holds)
        return;
    say("wrong: ", 0);
    say(what, 0);
    say(": #\n", number);
    leave(3);
}

void serial_open(void) {
    static const uint8_t how[][2] = {{1, 0}, {3, 0x80}, {0, 1}, {1, 0}, {3, 3}, {2, 0xc7}, {4, 3}};    // 115200 8N1, FIFO
    for (size_t at = 0; at < sizeof how / sizeof *how; at++)
        out8(COM1 + how[at][0], how[at][1]);
}

bool serial_take(void *to, const char *text, size_t length) {
    (void)to;
    for (size_t at = 0; at < length; at++) {
        while (at % 16 == 0 && !(in8(COM1 + 5) & 0x20))     // until the FIFO of 16 bytes is empty
            ;
        out8(COM1, (uint8_t)text[at]);
    }
    return true;
}

void *memcpy(void *to, const void *from, size_t size) {
    void *at = to;
    __asm__ volatile("rep movsb" : "+D"(at), "+S"(from), "+c"(size)::"memory");
    return to;
}

void *memmove(void *to, const void *from, size_t size) {
    if ((uintptr_t)to - (uintptr_t)from >= size)
        return memcpy(to, from, size);
    uint8_t *at = (uint8_t *)to + size - 1;
    from = (const uint8_t *)from + size - 1;
    __asm__ volatile("std; rep movsb; cld" : "+D"(at), "+S"(from), "+c"(size)::"memory");
    return to;
}

void *memset(void *to, int byte, size_t size) {
    void *at = to;
    __asm__ volatile("rep stosb" : "+D"(at), "+c"(size) : "a"(byte) : "memory");
    return to;
}

// The local APIC starts the other CPUs and has this CPU's timer.
static volatile uint32_t *const apic = (volatile uint32_t *)0xfee00000;
enum { APIC_ID = 0x20 / 4, APIC_DONE = 0xb0 / 4, APIC_SPURIOUS = 0xf0 / 4, APIC_COMMAND = 0x300 / 4, APIC_TIMER = 0x320 / 4,
       APIC_COUNT = 0x380 / 4, APIC_DIVIDE = 0x3e0 / 4 };

extern const uint8_t ap_start[], ap_end[];
extern volatile uint32_t cpus_up;
extern uint8_t stacks[CPUS * STACK];

static void wait_microseconds(uint32_t count) {
    while (count-- > 0)
        in8(0x80);                              // a port that takes about a microsecond
}

static void command(uint32_t what) {
    apic[APIC_COMMAND] = what;
    while (apic[APIC_COMMAND] & 1 << 12)
        __builtin_ia32_pause();
}

void start_cpus(void) {
    memcpy((void *)0x8000, ap_start, (size_t)(ap_end - ap_start));
    apic[APIC_SPURIOUS] |= 0x1ff;
    command(0xc4500);                           // INIT to all others
    wait_microseconds(10000);
    for (int twice = 0; twice < 2; twice++) {
        command(0xc4608);                       // SIPI to all others: start at 0x8000
        wait_microseconds(200);
    }
    while (cpus_up < CPUS)
        __builtin_ia32_pause();
}

struct gate { uint16_t low, selector, how, middle; uint32_t high, none; };
struct __attribute__((packed)) table { uint16_t limit; void *at; };

static struct gate gates[256];
static struct { uint64_t gdt[6]; uint32_t tss[26]; uint8_t stack[8192] __attribute__((aligned(16))); } tables[CPUS];
static uint32_t cpu_of[256];
extern uint8_t vectors[];

void interrupts_open(uint32_t cpu, bool has_stack) {
    cpu_of[apic[APIC_ID] >> 24] = cpu;
    out8(0x21, 0xff);                           // masks the legacy interrupt controllers
    out8(0xa1, 0xff);
    for (uint32_t vector = 0; cpu == 0 && vector < 256; vector++) {
        uintptr_t at = (uintptr_t)&vectors[16 * vector];
        gates[vector] = (struct gate){(uint16_t)at, 0x18, has_stack ? 0x8e01 : 0x8e00, (uint16_t)(at >> 16), (uint32_t)(at >> 32), 0};
    }
    uint64_t tss = (uint64_t)tables[cpu].tss, top = (uint64_t)tables[cpu].stack + sizeof tables[cpu].stack;
    memcpy(&tables[cpu].tss[9], &top, sizeof top);
    tables[cpu].tss[25] = 104 << 16;
    uint64_t gdt[6] = {0, 0x00cf9b000000ffff, 0x00cf93000000ffff, 0x00af9b000000ffff,
                       103 | (tss & 0xffffff) << 16 | (uint64_t)0x89 << 40 | (tss >> 24 & 0xff) << 56, tss >> 32};
    memcpy(tables[cpu].gdt, gdt, sizeof gdt);
    struct table to_gdt = {sizeof gdt - 1, tables[cpu].gdt}, to_idt = {sizeof gates - 1, gates};
    __asm__ volatile("lgdt %0; lidt %1; ltr %w2" ::"m"(to_gdt), "m"(to_idt), "r"(0x20) : "memory");
    apic[APIC_SPURIOUS] |= 0x1ff;
}

void timer_start(uint32_t count) {
    apic[APIC_DIVIDE] = 0xb;
    apic[APIC_TIMER] = 1 << 17 | TIMER;         // periodic
    apic[APIC_COUNT] = count;
}

void timer_stop(void) { apic[APIC_COUNT] = 0; }

void interrupt_done(void) { apic[APIC_DONE] = 0; }

uint32_t cpu_here(void) { return cpu_of[apic[APIC_ID] >> 24]; }

void stack_forget(uint32_t cpu) {
    uint8_t *in_use = (uint8_t *)__builtin_frame_address(0) - 256;
    for (volatile uint8_t *at = &stacks[cpu * STACK]; at < in_use; at++)
        *at = 0;
}

static size_t used_of(const uint8_t *stack, size_t size) {
    size_t unused = 0;
    while (unused < size && stack[unused] == 0)
        unused++;
    return size - unused;
}

size_t stack_used(uint32_t cpu) { return used_of(&stacks[cpu * STACK], STACK); }
size_t interrupt_stack_used(uint32_t cpu) { return used_of(tables[cpu].stack, sizeof tables[cpu].stack); }
