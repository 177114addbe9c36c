// A queue of threads, a pool of pages and a console, as a small kernel has them.
//
// A lock of foreign.c guards each. Their words are relaxed atomics, so that a run without the lock has wrong replies, but no undefined
// behaviour; behind a lock plain words will do. Indices are taken modulo the size, so none is out of range.
#pragma once
#include "../../include/mc2_record.h"
#include <stdatomic.h>

enum { QUEUE, POOL, CONSOLE, OBJECTS };
enum { THREADS = 16, PAGES = 16, BYTES = 32, OWNERS = 16 };

struct queue {
    atomic_uint first, count, enqs, ring[THREADS];
    // Faults: whether enqs lose threads, and a function to call between the two halves of a deq.
    bool drops;
    void (*in_the_middle)(void);
};

struct pool {
    // For each page its owner + 1, or 0.
    atomic_uint taken[PAGES];
};

struct console {
    atomic_uint first, count, ring[BYTES];
};

static struct queue queue;
static struct pool pool;
static struct console console;

static unsigned get(const atomic_uint *word) { return atomic_load_explicit(word, memory_order_relaxed); }

static void set(atomic_uint *word, unsigned value) { atomic_store_explicit(word, value, memory_order_relaxed); }

// Returns the place of a thread, counted from the first, or the number of threads.
static unsigned queue_place(unsigned thread) {
    unsigned place = 0, count = get(&queue.count), first = get(&queue.first);
    while (place < count && get(&queue.ring[(first + place) % THREADS]) != thread)
        place++;
    return place;
}

static struct mc2_step queue_enq(struct mc2_call call) {
    unsigned count = get(&queue.count);
    if (call.first >= THREADS)
        return mc2_step_of(call, MC2_BADTHREAD, 0);
    if (queue_place(call.first) < count || count >= THREADS)
        return mc2_step_of(call, MC2_ALREADY, 0);
    set(&queue.enqs, get(&queue.enqs) + 1);
    if (queue.drops && get(&queue.enqs) % 100 == 0)
        return mc2_step_of(call, MC2_OK, 0);
    set(&queue.ring[(get(&queue.first) + count) % THREADS], call.first);
    set(&queue.count, count + 1);
    return mc2_step_of(call, MC2_OK, 0);
}

static struct mc2_step queue_deq(struct mc2_call call) {
    unsigned count = get(&queue.count), first = get(&queue.first);
    unsigned thread = get(&queue.ring[first % THREADS]);
    if (count == 0)
        return mc2_step_of(call, MC2_EMPTY, 0);
    if (queue.in_the_middle)
        queue.in_the_middle();
    set(&queue.first, first + 1);
    set(&queue.count, count - 1);
    return mc2_step_of(call, MC2_THREAD, thread);
}

// Removes a thread, and moves the threads after it up by one.
static struct mc2_step queue_remove(struct mc2_call call) {
    unsigned first = get(&queue.first), count = get(&queue.count), place = queue_place(call.first);
    if (call.first >= THREADS)
        return mc2_step_of(call, MC2_BADTHREAD, 0);
    if (place >= count)
        return mc2_step_of(call, MC2_ABSENT, 0);
    for (; place + 1 < count; place++)
        set(&queue.ring[(first + place) % THREADS], get(&queue.ring[(first + place + 1) % THREADS]));
    set(&queue.count, count - 1);
    return mc2_step_of(call, MC2_OK, 0);
}

static struct mc2_step pool_alloc(struct mc2_call call) {
    unsigned page = 0;
    if (call.first >= OWNERS)
        return mc2_step_of(call, MC2_BADOWNER, 0);
    while (page < PAGES && get(&pool.taken[page]) != 0)
        page++;
    if (page == PAGES)
        return mc2_step_of(call, MC2_NONE, 0);
    set(&pool.taken[page], call.first + 1);
    return mc2_step_of(call, MC2_PAGE, page);
}

static struct mc2_step pool_free(struct mc2_call call) {
    if (call.first >= OWNERS)
        return mc2_step_of(call, MC2_BADOWNER, 0);
    if (call.second >= PAGES)
        return mc2_step_of(call, MC2_BADPAGE, 0);
    unsigned taken = get(&pool.taken[call.second]);
    if (taken != call.first + 1)
        return mc2_step_of(call, taken == 0 ? MC2_NOTTAKEN : MC2_NOTYOURS, 0);
    set(&pool.taken[call.second], 0);
    return mc2_step_of(call, MC2_OK, 0);
}

static struct mc2_step pool_left(struct mc2_call call) {
    unsigned left = 0;
    for (unsigned page = 0; page < PAGES; page++)
        left += get(&pool.taken[page]) == 0;
    return mc2_step_of(call, MC2_COUNT, left);
}

static struct mc2_step console_put(struct mc2_call call) {
    unsigned first = get(&console.first), count = get(&console.count);
    atomic_uint *place = &console.ring[(first + count) % BYTES];
    unsigned oldest = get(place);
    set(place, call.first);
    set(count < BYTES ? &console.count : &console.first, count < BYTES ? count + 1 : first + 1);
    return count < BYTES ? mc2_step_of(call, MC2_OK, 0) : mc2_step_of(call, MC2_DROPPED, oldest);
}

static struct mc2_step console_get(struct mc2_call call) {
    unsigned first = get(&console.first), count = get(&console.count);
    if (count == 0)
        return mc2_step_of(call, MC2_EMPTY, 0);
    set(&console.first, first + 1);
    set(&console.count, count - 1);
    return mc2_step_of(call, MC2_BYTE, get(&console.ring[first % BYTES]));
}

static bool is_call_on(unsigned object, unsigned word) {
    return object == QUEUE ? word <= MC2_LEN : object == POOL ? word >= MC2_ALLOC && word <= MC2_LEFT
                                                              : word >= MC2_PUT && word <= MC2_LEVEL;
}

// Performs a call. The caller has the object's lock.
static struct mc2_step answer(unsigned object, struct mc2_call call) {
    if (!is_call_on(object, call.word))
        return mc2_step_of(call, MC2_BADCALL, 0);
    switch (call.word) {
    case MC2_ENQ:
        return queue_enq(call);
    case MC2_DEQ:
        return queue_deq(call);
    case MC2_REMOVE:
        return queue_remove(call);
    case MC2_LEN:
        return mc2_step_of(call, MC2_COUNT, get(&queue.count));
    case MC2_ALLOC:
        return pool_alloc(call);
    case MC2_FREE:
        return pool_free(call);
    case MC2_LEFT:
        return pool_left(call);
    case MC2_PUT:
        return console_put(call);
    case MC2_GET:
        return console_get(call);
    default:
        return mc2_step_of(call, MC2_COUNT, get(&console.count));
    }
}
