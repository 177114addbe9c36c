// Checks include/mc2_heap.h, which is the heap of libcells.a here. Memory is added 16 bytes at a time, and each time a cell and its
// callers are opened: as long as there is too little memory, opening fails and all memory is free again. Then it adds regions that
// are wrong or overlap, and threads allocate and free blocks at the same time. It prints how much memory a cell takes, by its object,
// lock, CPUs and events, and compares that with figures.h.
//
// The status is 0, or 1 at the first check that fails, which a line on standard error names.
#include "figures.h"
#include "mc2_cells.h"
#include "mc2_heap.h"
#include <pthread.h>
#include <stdio.h>
#include <stdlib.h>
#include <string.h>

enum { ROOM = 1 << 20, THREADS = 4, ROUNDS = 20000, HELD = 16 };

static _Alignas(16) char room[ROOM];
static size_t added;

#define CHECK(what) check(what, #what, __LINE__)

static void check(bool is_so, const char *what, int line) {
    if (!is_so) {
        fprintf(stderr, "heap.c:%d: not so: %s\n", line, what);
        exit(1);
    }
}

static void add(size_t size) {
    CHECK(added + size <= ROOM);
    CHECK(mc2_heap_add(room + added, size) == MC2_DONE);
    added += size;
}

// All memory that was added is free, in one block.
static void check_free(void) {
    size_t blocks, bytes = mc2_heap_available(&blocks);
    CHECK(bytes == added && blocks <= 1);
}

static size_t taken(void) {
    size_t blocks;
    return added - mc2_heap_available(&blocks);
}

static const struct mc2_object kinds[] = {
    {"q", MC2_QUEUE, 0, 1, 1024, 0, NULL},
    {"p", MC2_POOL, 0, 1, 4096, 0, NULL},
    {"c", MC2_CONSOLE, 0, 1, 4096, 0, NULL},
    {"s", MC2_SCHED, 0, 1, 1024, 64, NULL},
};

struct opened {
    struct mc2_cell cell;
    struct mc2_caller callers[MC2_MOST_CPUS];
    uint32_t cpus;
    size_t of_cell;
};

static uint32_t open_callers(struct opened *it) {
    uint32_t result = MC2_DONE;
    for (uint32_t cpu = it->cpus; cpu > 0 && result == MC2_DONE; cpu--)
        result = mc2_caller_open(&it->cell, &it->callers[cpu - 1]);
    return result;
}

// Opens a cell and its callers. Those that it opened are to be freed, whatever it returns.
static uint32_t open_all(struct opened *it, const struct mc2_object *object, uint32_t cpus) {
    memset(it, 0, sizeof *it);
    it->cpus = cpus;
    uint32_t result = mc2_cell_open(&it->cell, object, NULL, cpus);
    it->of_cell = taken();
    return result == MC2_DONE ? open_callers(it) : result;
}

static void free_all(struct opened *it) {
    mc2_cell_free(&it->cell, it->callers, it->cpus);
    check_free();
}

// Returns how often opening failed before there was enough memory.
static unsigned check_exhaustion(const struct mc2_object *object) {
    struct opened it;
    unsigned refused = 0;
    added = 0;
    memset(&mc2_heap, 0, sizeof mc2_heap);
    for (;; refused++) {
        uint32_t result = open_all(&it, object, 2);
        CHECK(result == MC2_DONE || result == MC2_NO_MEMORY);
        if (result == MC2_DONE)
            break;
        free_all(&it);
        add(16);
    }
    struct mc2_call call = mc2_call_of(object->kind == MC2_QUEUE ? MC2_LEN : MC2_PUT, 1, 1);
    struct mc2_reply reply;
    size_t before = taken();
    CHECK(mc2_cell_call(&it.callers[0], &call, &reply) == MC2_DONE && taken() == before);
    free_all(&it);
    return refused;
}

// Returns the bytes of the cell, and stores the bytes of each of its callers.
static size_t memory_of(struct mc2_object object, uint32_t events, uint32_t cpus, size_t *of_caller) {
    struct opened it;
    object.events = events;
    CHECK(open_all(&it, &object, cpus) == MC2_DONE);
    *of_caller = (taken() - it.of_cell + cpus - 1) / cpus;
    free_all(&it);
    return it.of_cell;
}

// The bytes of the object within its cell.
static size_t object_bytes(const struct mc2_object *it) {
    switch (it->kind) {
    case MC2_QUEUE: return 9 * it->size;
    case MC2_POOL: return 8 * it->size + it->size / 8;
    case MC2_CONSOLE: return it->size;
    default: return 9 * it->size + 12 * it->channels;
    }
}

// The cell without a log, then each of 1,000 more events, and each caller.
static void check_memory(const char *name, const struct mc2_object *object) {
    static const size_t examples[] = {QUEUE_BYTES, POOL_BYTES, CONSOLE_BYTES};
    static const uint32_t cpus[] = {1, 2, MC2_MOST_CPUS};
    size_t of_caller, of_cell[3], of_cpu = CPU_BYTES + (object->lock == MC2_MCS ? MCS_MORE_BYTES : 0);
    printf("%s %s: bytes of 1, 2 and %d CPUs:", name, object->lock == MC2_MCS ? "mcs" : "ticket", (int)MC2_MOST_CPUS);
    for (unsigned at = 0; at < 3; at++) {
        of_cell[at] = memory_of(*object, 0, cpus[at], &of_caller);
        printf(" %zu", of_cell[at]);
        CHECK(of_cell[at] <= CELL_BYTES + object_bytes(object) + cpus[at] * of_cpu && of_caller <= CALLER_BYTES);
    }
    size_t few = memory_of(*object, 1, 2, &of_caller), many = memory_of(*object, 1001, 2, &of_caller);
    size_t of_event = (many - few + 999) / 1000;
    printf(", of an event: %zu, of a caller: %zu", of_event, of_caller);
    CHECK(of_event <= EVENT_BYTES && of_caller <= CALLER_BYTES);
    if (object->lock == MC2_TICKET && object->kind != MC2_SCHED)
        CHECK(of_cell[1] <= examples[object->kind] && of_cell[1] + 32 >= examples[object->kind]);
}

static void check_cells(void) {
    static const char *const names[] = {"queue", "pool", "console", "sched"};
    for (unsigned at = 0; at < 8; at++) {
        struct mc2_object object = kinds[at / 2];
        object.lock = at % 2;
        unsigned refused = check_exhaustion(&object);
        add(ROOM - added);
        check_memory(names[at / 2], &object);
        printf("; refused %u times\n", refused);
    }
}

// No block is as large as this, also if its size with its header is above SIZE_MAX. A block that was to grow is unchanged.
static void check_largest(void) {
    struct mc2_allocation old = rattle_alloc(16, 16);
    size_t before = taken();
    CHECK(old.is_there);
    memcpy(old.at, "0123456789abcdef", 16);
    for (size_t less = 0; less <= 64; less++) {
        struct mc2_allocation none = rattle_alloc(SIZE_MAX - less, 16), same = rattle_alloc(0, SIZE_MAX - less);
        CHECK(!none.is_there && none.at && !same.is_there && same.at);
        CHECK(!rattle_realloc(old.at, 16, SIZE_MAX - less, 16).is_there);
    }
    CHECK(taken() == before && memcmp(old.at, "0123456789abcdef", 16) == 0);
    rattle_dealloc(old.at);
    check_free();
}

static void check_blocks(void) {
    struct mc2_allocation none = rattle_alloc(0, 16), one = rattle_alloc(1, 1), large = rattle_alloc(ROOM, 16);
    CHECK(none.is_there && one.is_there && !large.is_there && large.at && none.at != one.at);
    CHECK((uintptr_t)none.at % 16 == 0 && (uintptr_t)one.at % 16 == 0);
    memcpy(none.at, "0123456789abcdef", 16);
    CHECK(!rattle_realloc(none.at, 16, ROOM, 16).is_there && memcmp(none.at, "0123456789abcdef", 16) == 0);
    struct mc2_allocation moved = rattle_realloc(none.at, 16, 1000, 16);
    CHECK(moved.is_there && memcmp(moved.at, "0123456789abcdef", 16) == 0);
    rattle_dealloc(one.at);
    rattle_dealloc(moved.at);
    check_free();
    // an alignment above 16
    CHECK(!rattle_alloc(100, 32).is_there && rattle_alloc(100, 32).at && !rattle_alloc(0, 17).is_there);
    check_free();
}

// Regions that are too small, reach the end of the address space, or overlap free memory change nothing.
static void check_regions(void) {
    static _Alignas(16) char other[160];
    size_t blocks, bytes;
    CHECK(mc2_heap_add(room + 1, 15) == MC2_BAD_PARAM && mc2_heap_add(other, 15) == MC2_BAD_PARAM);
    CHECK(mc2_heap_add(other + 1, 30) == MC2_BAD_PARAM && mc2_heap_add(other, 0) == MC2_BAD_PARAM);
    CHECK(mc2_heap_add(NULL, 4096) == MC2_BAD_PARAM && mc2_heap_add(other, SIZE_MAX) == MC2_BAD_PARAM);
    for (size_t before = 1; before <= 64; before++)
        CHECK(mc2_heap_add((char *)(UINTPTR_MAX - before + 1), before) == MC2_BAD_PARAM);
    CHECK(mc2_heap_add(room, ROOM) == MC2_REFUSED && mc2_heap_add(room, 16) == MC2_REFUSED);
    CHECK(mc2_heap_add(room + ROOM - 16, 16) == MC2_REFUSED && mc2_heap_add(room + 512, 64) == MC2_REFUSED);
    check_free();
    // two regions apart, the third touches both
    CHECK(mc2_heap_add(other, 31) == MC2_DONE && mc2_heap_add(other + 100, 60) == MC2_DONE);
    bytes = mc2_heap_available(&blocks);
    CHECK(bytes == added + 16 + 48 && blocks >= 2);
    CHECK(mc2_heap_add(other + 16, 112) == MC2_REFUSED && mc2_heap_add(other, 17) == MC2_REFUSED);
    CHECK(mc2_heap_add(other + 16, 96) == MC2_DONE);
    CHECK(mc2_heap_available(&blocks) == added + 160);
    memset(&mc2_heap, 0, sizeof mc2_heap);
    CHECK(mc2_heap_add(room, added) == MC2_DONE);
    check_free();
}

static void *allocate_and_free(void *number) {
    struct mc2_allocation held[HELD] = {{false, NULL}};
    uint32_t random = *(unsigned *)number, wrong = 0;
    for (unsigned round = 0; round < ROUNDS; round++) {
        struct mc2_allocation *it = &held[(random = random * 1664525u + 1013904223u) >> 28];
        if (it->is_there) {
            wrong += *(unsigned *)it->at != *(unsigned *)number;
            rattle_dealloc(it->at);
        }
        *it = rattle_alloc(1 + random % 1000, 4);
        if (it->is_there)
            *(unsigned *)it->at = *(unsigned *)number;
    }
    for (unsigned at = 0; at < HELD; at++)
        if (held[at].is_there)
            rattle_dealloc(held[at].at);
    return wrong == 0 ? number : NULL;
}

static void check_threads(void) {
    pthread_t threads[THREADS];
    unsigned numbers[THREADS];
    for (unsigned at = 0; at < THREADS; at++) {
        numbers[at] = at;
        CHECK(pthread_create(&threads[at], NULL, allocate_and_free, &numbers[at]) == 0);
    }
    for (unsigned at = 0; at < THREADS; at++) {
        void *right;
        CHECK(pthread_join(threads[at], &right) == 0 && right == &numbers[at]);
    }
    check_free();
}

int main(void) {
    check_cells();
    check_blocks();
    check_regions();
    check_largest();
    check_threads();
    return 0;
}
