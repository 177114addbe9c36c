// mc2_cells.h - kernel objects behind proved spinlocks, for C11 and C++17.
//
// A *cell* is an object (queue, page pool, console ring or scheduler) behind a ticket lock or an MCS lock. A *caller* is one CPU's
// right to use a cell; a cell has 1 to 64. mc2_objects.h has the objects, calls and replies, mc2_result.h the results.
//
//     struct mc2_object run_queue = {.name = "runq", .kind = MC2_QUEUE, .lock = MC2_MCS, .events = 1000, .size = 64};
//     struct mc2_cell cell;
//     struct mc2_caller callers[4];                         one for each CPU
//     struct mc2_reply reply;
//     mc2_cell_open(&cell, &run_queue, callers, 4);         opens the cell and its callers
//     mc2_queue_enq(&callers[cpu], 3, &reply);              acquires the lock, enqueues thread 3, releases the lock
//     mc2_cell_close(&cell, callers, 4);                    frees the callers, so that the log can be read
//     mc2_cell_free(&cell, NULL, 0);
//
// All functions return 0 (MC2_DONE) for success. examples/c_cells/hello.c is a whole program.
//
// `tools/develop/library cells --unproved` compiles the library in a minute or two, to .unproved/libcells.a. Without the last word
// it proves the library, to crates/cells/out/libcells.a. Link either with the heap of the Rattle kit in KIT (malloc and free):
//
//     gcc -Iinclude program.c .unproved/libcells.a KIT/c/liblibc_c.a -pthread
//
// See also  mc2_by_name.h: each call as a function of its own. mc2_cells_record.h: writes the record that `mc2 audit` judges.
//           mc2_cells_raw.h, mc2_wait.h: for wait loops of your own. mc2_cells.hpp: classes for C++. docs/IN_A_KERNEL.md: kernels.
//
// CALLER OBLIGATIONS (not checked)
//
//   1. Open cells and callers with the functions below, and don't read or write their fields; they need no initialization. Don't
//      open an open one again, and don't use a caller after it is closed or freed, except to close or free it again.
//   2. Don't copy or move an open cell or caller. A cell stays in place until its last caller is freed.
//   3. Use each struct mc2_cell and each caller from one thread at a time, even to read a closed cell's log. Hand them over with
//      a lock, thread creation or join, or a seq_cst atomic. Different callers of one cell may be used concurrently.
//   4. Return a caller to its own cell only.
//   5. Pointers are valid and not NULL, and no other thread touches what they point to during the call.
//   6. Don't call from a signal handler, from an interrupt handler that interrupted another call (see MC2_IRQ_OFF), or from a
//      child forked from a multithreaded process. Don't cancel (pthread_cancel) a thread that may be in a call: a cancelled caller
//      would keep its place in line, and no later caller would get the lock.
//
// Any other misuse, such as releasing a lock that isn't held, returns MC2_REFUSED and has no effect.
//
// WHAT IS PROVED
//
//   The library (mc2_cells_raw.h), by the contracts of crates/cells/README.md. None of its functions waits. The inline functions
//   of this header are the wait loops around them; nothing is proved of these. No contract says the following, so you trust it:
//   - mc2_handle_alloc_* store a valid empty handle; mc2_handle_free_* free all that a handle has, or leave a caller unchanged;
//   - MC2_NO_MEMORY occurs only if memory was refused; opening writes the memory of a log; a cell without a log allocates none for
//     it; dropping a log frees it;
//   - a try returns MC2_BUSY only if another caller holds the lock or is in line for it;
//   - the reference count by which callers share a cell refuses to open a caller or close the cell only as mc2_cells_raw.h says;
//   - the structs here, and the numbers of mc2_objects.h and mc2_result.h, are the library's (crates/cell_callers/specs/Cod*.antt).
//
// CONTEXT
//
//   The functions that open, close, reopen and free, and that drop a log, use the heap. An interrupt handler uses a cell only
//   by mc2_try_acquire, mc2_apply, mc2_release and mc2_cell_try_call, with a caller of its own. A function that may wait says so.
//
// MEMORY ORDERING
//
//   Every atomic operation of the library is sequentially consistent. We know from reading the code, not from a contract: all that
//   a caller did before it released the lock happens before all that the next holder does after it acquired the lock.
//
// LOG
//
//   Every call is one event of the cell's log. A cell opened with 1 to 65,536 events keeps its log in memory, which is allocated
//   and written at opening, so that no call faults a page in: 208 bytes an event, about 10 ms for 65,536. A full log stays full:
//   every later call returns MC2_LOG_FULL. A cell opened with 0 events keeps no log: it takes no memory, can't be read, and has
//   room for 2^64 - 1 events (584 years at one per nanosecond). To continue after a full log: mc2_cell_close, read the log,
//   mc2_cell_drop_log, mc2_cell_reopen.
//
// FREESTANDING
//
//   Compile with -ffreestanding, and link only libcells.a. The kernel provides memcpy, memmove, memset, rattle_alloc and
//   rattle_dealloc; mc2_heap.h has the last two. docs/IN_A_KERNEL.md has what each must do, and the library's memory and stack.
#ifndef MC2_CELLS_H
#define MC2_CELLS_H

#include "mc2_cells_raw.h"

// Wraps every call of the library below. A kernel whose interrupt handlers call objects defines it to disable interrupts around
// `call` and to return its value. Interrupts may come between two such calls: while a caller waits, while it holds the lock after
// mc2_acquire or mc2_try_acquire, and while a whole call waits to release an MCS lock.
#ifndef MC2_IRQ_OFF
#define MC2_IRQ_OFF(call) (call)
#endif

// Wraps the calls that open, close, reopen and free, and that drop a log; all use of the heap is in these. A kernel whose heap may
// sleep defines it as the bare call, and lets no handler use a cell meanwhile.
#ifndef MC2_ALLOCATING
#define MC2_ALLOCATING(call) MC2_IRQ_OFF(call)
#endif

// ---- Callers one by one, for CPUs added later. Most programs use mc2_cell_open and mc2_cell_close, which handle all callers.

// Internal: allocates a caller of no CPU yet.
static inline uint32_t mc2_priv_caller_alloc(struct mc2_cell *cell, struct mc2_caller *caller) {
    caller->impl = NULL;
    caller->waiters = &cell->waiters;
    caller->looks = 0;
    return cell->impl ? MC2_ALLOCATING(mc2_handle_alloc_caller(&caller->impl)) : (uint32_t)MC2_REFUSED;
}

// Abandons an idle caller: frees it without returning it to its cell. Its CPU has no caller any more, and the cell can't be closed.
// mc2_caller_close returns a caller and frees it. Does nothing if the caller is closed or freed.
// Returns  MC2_DONE; MC2_REFUSED: the caller is in line or holds the lock.
static inline uint32_t mc2_caller_free(struct mc2_caller *caller) {
    struct mc2_handle handle = {caller->impl};
    uint32_t result = caller->impl ? MC2_ALLOCATING(mc2_handle_free_caller(handle)) : (uint32_t)MC2_DONE;
    if (result == MC2_DONE)
        caller->impl = NULL;
    return result;
}

// Creates the caller of the highest CPU number that has had none since the cell was opened, so this creates all:
// for (cpu = cpus; cpu-- > 0;) mc2_caller_open(&cell, &callers[cpu]);
// Returns  MC2_DONE; MC2_REFUSED: every CPU has or had a caller, or the cell isn't open; MC2_NO_MEMORY. An error leaves nothing to
//          free.
static inline uint32_t mc2_caller_open(struct mc2_cell *cell, struct mc2_caller *caller) {
    uint32_t result = mc2_priv_caller_alloc(cell, caller);
    if (result == MC2_DONE)
        result = MC2_ALLOCATING(mc2_handle_open_caller(cell, caller));
    if (result != MC2_DONE)
        mc2_caller_free(caller);
    return result;
}

// Returns an idle caller to its cell and frees it. Does nothing if the caller is closed or freed.
// Returns  MC2_DONE; MC2_REFUSED: the caller isn't idle, a caller of a lower CPU is still open, or the cell isn't open.
static inline uint32_t mc2_caller_close(struct mc2_cell *cell, struct mc2_caller *caller) {
    if (!caller->impl)
        return MC2_DONE;
    uint32_t result = cell->impl ? MC2_ALLOCATING(mc2_handle_return_caller(cell, caller)) : (uint32_t)MC2_REFUSED;
    return result == MC2_DONE ? mc2_caller_free(caller) : result;
}

// ---- Open, close, free

// Internal: frees the callers that are idle.
static inline void mc2_priv_callers_free(struct mc2_caller *callers, uint32_t count) {
    for (uint32_t at = 0; at < count; at++)
        mc2_caller_free(&callers[at]);
}

// Frees a cell, open or closed, and those of `callers` that are idle. Other callers still work: free each with mc2_caller_free once
// it is idle. A cell or caller that is freed already is skipped.
//   count    the number of callers in `callers`, which may be NULL if it is 0
static inline void mc2_cell_free(struct mc2_cell *cell, struct mc2_caller *callers, uint32_t count) {
    struct mc2_handle handle = {cell->impl};
    mc2_priv_callers_free(callers, count);
    if (cell->impl)
        MC2_ALLOCATING(mc2_handle_free_cell(handle));
    cell->impl = NULL;
}

// Internal: opens a cell without callers.
static inline uint32_t mc2_priv_cell_open(struct mc2_cell *cell, const struct mc2_object *object, uint32_t cpus) {
    struct mc2_cell_opening opening = {object->lock, object->kind, object->events, cpus, object->size, object->channels, {0}};
    for (uint32_t owner = 0; owner < MC2_OWNERS; owner++)
        opening.quotas[owner] = object->quotas ? object->quotas[owner] : object->size;
    cell->impl = NULL;
    cell->waiters.word = 0;
    uint32_t result = MC2_ALLOCATING(mc2_handle_alloc_cell(&cell->impl));
    if (result == MC2_DONE)
        result = MC2_ALLOCATING(mc2_handle_open_cell(cell, &opening));
    if (result != MC2_DONE)
        mc2_cell_free(cell, NULL, 0);
    return result;
}

// Opens a cell around a new object, with one caller for each CPU: callers[k] is CPU k's.
//   object   its name is ignored; 0 events: no log is kept
//   callers  room for `cpus` callers; NULL: none is opened, mc2_caller_open creates them
//   cpus     1 to 64
// Returns  MC2_DONE; MC2_BAD_PARAM: an argument is out of range; MC2_NO_MEMORY. After an error there is nothing to free.
static inline uint32_t mc2_cell_open(struct mc2_cell *cell, const struct mc2_object *object, struct mc2_caller *callers,
                                     uint32_t cpus) {
    uint32_t result = mc2_priv_cell_open(cell, object, cpus), first = cpus;
    if (result != MC2_DONE || !callers)
        return result;
    while (result == MC2_DONE && first > 0)
        result = mc2_caller_open(cell, &callers[--first]);
    if (result != MC2_DONE)
        mc2_cell_free(cell, callers + first, cpus - first);
    return result;
}

// Closes a cell and frees its callers. The object and its log remain: read the log (mc2_cell_read_step), drop it
// (mc2_cell_drop_log), continue (mc2_cell_reopen), or free the cell.
//   callers  the cell's callers, in ascending order of CPU. Those that are closed already may be left out; NULL if `count` is 0
// Returns  MC2_DONE; MC2_REFUSED: a caller isn't idle or is left out, or the cell isn't open. The first caller that isn't idle and
//          those after it are unchanged: call again later, with the same array.
static inline uint32_t mc2_cell_close(struct mc2_cell *cell, struct mc2_caller *callers, uint32_t count) {
    uint32_t result = cell->impl ? MC2_DONE : MC2_REFUSED;
    for (uint32_t at = 0; at < count && result == MC2_DONE; at++)
        result = mc2_caller_close(cell, &callers[at]);
    return result == MC2_DONE ? MC2_ALLOCATING(mc2_handle_close_cell(cell)) : result;
}

// ---- The lock, around several calls

// Acquires the cell's lock, waiting in FIFO order.
// Returns  MC2_DONE; MC2_REFUSED: the caller already holds the lock.
// Context  Blocks: spins by MC2_PAUSE, and sleeps by MC2_USLEEP if there is one (mc2_wait.h).
// Ordering Acquire: sees everything that earlier holders did before they released the lock.
static inline uint32_t mc2_acquire(struct mc2_caller *caller) {
    uint64_t failed = 0;
    mc2_throttle(caller->waiters);
    for (;;) {
        uint32_t result = MC2_IRQ_OFF(mc2_acquire_step(caller));
        if (result == MC2_AGAIN) {
            mc2_backoff(caller->waiters, ++failed);
        } else if (result != MC2_STEPPED) {
            mc2_backoff_end(caller->waiters, failed);
            caller->looks = failed + (result == MC2_ACQUIRED_BY_LOOK);
            return result == MC2_REFUSED ? result : (uint32_t)MC2_DONE;
        }
    }
}

// Acquires the lock if no one holds it or is in line for it.
// Returns  MC2_DONE; MC2_BUSY: nothing was done; MC2_REFUSED: the caller isn't idle.
// Ordering Acquire, on MC2_DONE.
static inline uint32_t mc2_try_acquire(struct mc2_caller *caller) {
    uint32_t result = MC2_IRQ_OFF(mc2_poll_try_acquire(caller));
    return result == MC2_ACQUIRED_BY_LOOK ? (uint32_t)MC2_DONE : result;
}

// Performs one call as one event of the log. The caller must hold the lock.
//   call     a call of the object's kind; a call of another kind is an event with the reply MC2_BADCALL
//   reply    out, on MC2_DONE
// Returns  MC2_DONE; MC2_LOG_FULL, MC2_NOT_FOUND (no such call): nothing was done; MC2_REFUSED: the caller doesn't hold the lock.
static inline uint32_t mc2_apply(struct mc2_caller *caller, const struct mc2_call *call, struct mc2_reply *reply) {
    return MC2_IRQ_OFF(mc2_handle_apply(caller, call, reply));
}

// Releases the lock.
// Returns  MC2_DONE; MC2_REFUSED: the caller doesn't hold the lock.
// Context  A ticket lock doesn't wait. An MCS lock waits as mc2_acquire does if a successor is in the queue and isn't linked yet.
// Ordering Release: the next holder sees everything that was done before.
static inline uint32_t mc2_release(struct mc2_caller *caller) {
    for (uint64_t failed = 0;;) {
        uint32_t result = MC2_IRQ_OFF(mc2_release_step(caller));
        if (result == MC2_AGAIN) {
            mc2_backoff(caller->waiters, ++failed);
        } else if (result != MC2_STEPPED) {
            mc2_backoff_end(caller->waiters, failed);
            return result == MC2_RELEASED ? (uint32_t)MC2_DONE : result;
        }
    }
}

// ---- Whole calls

// Internal: releases the lock after a result with HELD, and returns the result without it.
static inline uint32_t mc2_priv_call_release(struct mc2_caller *caller, uint32_t result) {
    if (result != MC2_DONE_HELD && result != MC2_LOG_FULL_HELD)
        return result;
    uint32_t released = mc2_release(caller);
    if (released != MC2_DONE)
        return released;
    return result == MC2_DONE_HELD ? MC2_DONE : MC2_LOG_FULL;
}

// Internal: the rest of a call that isn't done at once, or of a batch if that isn't NULL: waits in line, and releases the lock. The
// call is passed by value, so that the fast path needn't store it.
MC2_PRIV_COLD uint32_t mc2_priv_call_slow(struct mc2_caller *caller, struct mc2_call call, struct mc2_reply *reply,
                                          const struct mc2_batch *batch, struct mc2_replies *replies, uint32_t result) {
    uint64_t failed = 0;
    while (result == MC2_AGAIN) {
        mc2_backoff(caller->waiters, ++failed);
        result = batch ? MC2_IRQ_OFF(mc2_poll_batch(caller, batch, replies, &caller->looks))
                       : MC2_IRQ_OFF(mc2_poll_call(caller, &call, reply, &caller->looks));
    }
    mc2_backoff_end(caller->waiters, failed);
    return mc2_priv_call_release(caller, result);
}

// Internal: begins a call that may wait.
static inline void mc2_priv_begin(struct mc2_caller *caller) {
    caller->looks = 0;
    mc2_throttle(caller->waiters);
}

// Internal: ends a call whose first attempt had this result.
static inline uint32_t mc2_priv_end(struct mc2_caller *caller, uint32_t word, uint32_t first, uint32_t second,
                                    struct mc2_reply *reply, uint32_t result) {
    return result == MC2_DONE ? result : mc2_priv_call_slow(caller, mc2_call_of(word, first, second), reply, NULL, NULL, result);
}

// Internal: a whole call; `poll` is its first attempt.
#define MC2_PRIV_CALL(caller, word, first, second, reply, poll) \
    (mc2_priv_begin(caller), mc2_priv_end(caller, word, first, second, reply, MC2_IRQ_OFF(poll)))

// Performs one call: acquires the lock, performs the call as one event of the log, releases the lock. Arguments as mc2_apply.
// Returns  MC2_DONE; MC2_LOG_FULL, MC2_NOT_FOUND (no such call): nothing was done; MC2_REFUSED: the caller holds the lock.
// Context  Blocks as mc2_acquire.
// Ordering Acquire, then release.
static inline uint32_t mc2_cell_call(struct mc2_caller *caller, const struct mc2_call *call, struct mc2_reply *reply) {
    struct mc2_call asked = *call;
    return MC2_PRIV_CALL(caller, asked.word, asked.first, asked.second, reply,
                         mc2_poll_call(caller, &asked, reply, &caller->looks));
}

// Performs 1 to 8 calls in order as one event, which ends with the first call whose reply refuses it.
//   replies  out, on MC2_DONE: one for each call that was performed; those past the count are unspecified
// Returns  as mc2_cell_call; MC2_REFUSED also for 0 or more than 8 calls; MC2_NOT_FOUND: a call doesn't exist; none was performed.
// Context  and ordering as mc2_cell_call.
static inline uint32_t mc2_cell_batch(struct mc2_caller *caller, const struct mc2_batch *batch, struct mc2_replies *replies) {
    mc2_priv_begin(caller);
    uint32_t result = MC2_IRQ_OFF(mc2_poll_batch(caller, batch, replies, &caller->looks));
    return result == MC2_DONE ? result : mc2_priv_call_slow(caller, mc2_call_of(0, 0, 0), NULL, batch, replies, result);
}

// Performs one call if no one holds the lock or is in line for it.
// Returns  as mc2_cell_call; MC2_BUSY: nothing was done; MC2_REFUSED: the caller isn't idle.
// Context  Doesn't wait for the lock. Releasing an MCS lock may wait as mc2_release does.
// Ordering as mc2_cell_call, on MC2_DONE.
static inline uint32_t mc2_cell_try_call(struct mc2_caller *caller, const struct mc2_call *call, struct mc2_reply *reply) {
    return mc2_priv_call_release(caller, MC2_IRQ_OFF(mc2_poll_try_call(caller, call, reply)));
}

// Returns the looks of the caller's last mc2_acquire, mc2_cell_call, mc2_cell_batch or call by name: how often it checked whether
// its turn had come, 0 if it entered an empty MCS queue. Tries don't change this number. Recorders note it.
static inline uint64_t mc2_caller_looks(const struct mc2_caller *caller) { return caller->looks; }

// ---- The log of a closed cell

// Reads one step of the log. To read all, read events 0, 1, .. until MC2_NOT_FOUND.
//   event, index   the event, and the step in it, both from 0; an event has one step for each of its 1 to 8 calls
//   step           out, on MC2_DONE
// Returns  MC2_DONE; MC2_NOT_FOUND: there is no such step, the cell isn't closed, or its log isn't kept.
static inline uint32_t mc2_cell_read_step(struct mc2_cell *cell, size_t event, size_t index, struct mc2_logged_step *step) {
    return cell->impl ? MC2_IRQ_OFF(mc2_handle_read_step(cell, event, index, step)) : (uint32_t)MC2_NOT_FOUND;
}

// Frees the log of a closed cell. From then on its log isn't kept: it can't be read, and has room for 2^64 - 1 events.
// Returns  MC2_DONE; MC2_REFUSED: the cell isn't closed.
static inline uint32_t mc2_cell_drop_log(struct mc2_cell *cell) {
    return cell->impl ? MC2_ALLOCATING(mc2_handle_drop_log(cell)) : (uint32_t)MC2_REFUSED;
}

// Reopens a closed cell, with the object that it has, and opens its callers. Earlier events stay in the log; new ones get the next
// numbers, and have the room that was left. Beside what the library needs it takes 1,536 bytes of stack, for 64 callers.
//   lock     enum mc2_lock_kind; it may differ from before
//   callers, cpus   as mc2_cell_open
// Returns  MC2_DONE; MC2_REFUSED: the cell isn't closed; MC2_BAD_PARAM, MC2_NO_MEMORY. An error changes neither cell nor callers.
static inline uint32_t mc2_cell_reopen(struct mc2_cell *cell, uint32_t lock, struct mc2_caller *callers, uint32_t cpus) {
    struct mc2_caller opened[MC2_MOST_CPUS];
    uint32_t wanted = callers && cpus <= MC2_MOST_CPUS ? cpus : 0, at = 0;
    uint32_t result = cell->impl ? MC2_DONE : MC2_REFUSED;
    for (; result == MC2_DONE && at < wanted; at++)
        result = mc2_priv_caller_alloc(cell, &opened[at]);
    if (result == MC2_DONE)
        result = MC2_ALLOCATING(mc2_handle_reopen_cell(cell, lock, cpus));
    if (result != MC2_DONE)
        mc2_priv_callers_free(opened, at);
    for (at = wanted; result == MC2_DONE && at > 0; at--) {
        callers[at - 1] = opened[at - 1];
        result = MC2_ALLOCATING(mc2_handle_open_caller(cell, &callers[at - 1]));
    }
    return result;
}

#include "mc2_by_name.h"

#endif
