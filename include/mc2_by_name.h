// mc2_by_name.h - each call of the four kinds of objects as a function of its own. mc2_cells.h includes this.
//
// Each is as mc2_cell_call with that call: it acquires the lock, performs the call as one event of the log, and releases the lock.
//   reply    out, on MC2_DONE: one of the replies named below; of those that refuse the call, the first that applies. On an object
//            of another kind it is MC2_BADCALL.
// mc2_queue_enq, mc2_queue_deq, mc2_sched_ready and mc2_sched_next are faster than mc2_cell_call, as the library has a function for
// each of their calls. The others pass the call's number to mc2_cell_call.
// Returns  MC2_DONE; MC2_LOG_FULL: nothing was done; MC2_REFUSED: the caller holds the lock.
// Context  Blocks as mc2_acquire. Not in an interrupt handler.
// Ordering Acquire, then release.
#include "mc2_cells.h"
#ifndef MC2_BY_NAME_H
#define MC2_BY_NAME_H

// Internal: a call by its number.
static inline uint32_t mc2_priv_call(struct mc2_caller *caller, uint32_t word, uint32_t first, uint32_t second,
                                     struct mc2_reply *reply) {
    struct mc2_call call = mc2_call_of(word, first, second);
    return mc2_cell_call(caller, &call, reply);
}

// Appends a thread to the queue. Replies: MC2_OK; MC2_BADTHREAD: there is no such thread; MC2_ALREADY: it is in the queue.
static inline uint32_t mc2_queue_enq(struct mc2_caller *caller, uint32_t thread, struct mc2_reply *reply) {
    return MC2_PRIV_CALL(caller, MC2_ENQ, thread, 0, reply, mc2_poll_enq(caller, thread, reply, &caller->looks));
}

// Removes the first thread. Replies: MC2_THREAD with its number; MC2_EMPTY.
static inline uint32_t mc2_queue_deq(struct mc2_caller *caller, struct mc2_reply *reply) {
    return MC2_PRIV_CALL(caller, MC2_DEQ, 0, 0, reply, mc2_poll_deq(caller, reply, &caller->looks));
}

// Removes a thread, wherever it is in the queue. Replies: MC2_OK; MC2_BADTHREAD; MC2_ABSENT: it isn't in the queue.
static inline uint32_t mc2_queue_remove(struct mc2_caller *caller, uint32_t thread, struct mc2_reply *reply) {
    return mc2_priv_call(caller, MC2_REMOVE, thread, 0, reply);
}

// Counts the threads in the queue. Reply: MC2_COUNT with the number.
static inline uint32_t mc2_queue_len(struct mc2_caller *caller, struct mc2_reply *reply) {
    return mc2_priv_call(caller, MC2_LEN, 0, 0, reply);
}

// Allocates the free page of the lowest number. Replies: MC2_PAGE with its number; MC2_BADOWNER: owners are 0 to 15; MC2_NONE: no
// page is free; MC2_OVERQUOTA: the owner has as many pages as its quota.
static inline uint32_t mc2_pool_alloc(struct mc2_caller *caller, uint32_t owner, struct mc2_reply *reply) {
    return mc2_priv_call(caller, MC2_ALLOC, owner, 0, reply);
}

// Frees a page of an owner. Replies: MC2_OK; MC2_BADOWNER; MC2_BADPAGE: there is no such page; MC2_NOTTAKEN: it is free; or
// MC2_NOTYOURS: another owner has it.
static inline uint32_t mc2_pool_free(struct mc2_caller *caller, uint32_t owner, uint32_t page, struct mc2_reply *reply) {
    return mc2_priv_call(caller, MC2_FREE, owner, page, reply);
}

// Counts the free pages. Reply: MC2_COUNT with the number.
static inline uint32_t mc2_pool_left(struct mc2_caller *caller, struct mc2_reply *reply) {
    return mc2_priv_call(caller, MC2_LEFT, 0, 0, reply);
}

// Appends a byte to the ring. Replies: MC2_OK; MC2_DROPPED with the oldest byte, which was dropped because the ring was full.
static inline uint32_t mc2_console_put(struct mc2_caller *caller, uint8_t byte, struct mc2_reply *reply) {
    return mc2_priv_call(caller, MC2_PUT, byte, 0, reply);
}

// Removes the oldest byte. Replies: MC2_BYTE with the byte; MC2_EMPTY.
static inline uint32_t mc2_console_get(struct mc2_caller *caller, struct mc2_reply *reply) {
    return mc2_priv_call(caller, MC2_GET, 0, 0, reply);
}

// Counts the bytes in the ring. Reply: MC2_COUNT with the number.
static inline uint32_t mc2_console_level(struct mc2_caller *caller, struct mc2_reply *reply) {
    return mc2_priv_call(caller, MC2_LEVEL, 0, 0, reply);
}

// Appends a thread to the ready queue. Replies: MC2_OK; MC2_BADTHREAD; MC2_ALREADY: it is ready or asleep.
static inline uint32_t mc2_sched_ready(struct mc2_caller *caller, uint32_t thread, struct mc2_reply *reply) {
    return MC2_PRIV_CALL(caller, MC2_READY, thread, 0, reply, mc2_poll_ready(caller, thread, reply, &caller->looks));
}

// Removes the first ready thread. Replies: MC2_THREAD with its number; MC2_EMPTY.
static inline uint32_t mc2_sched_next(struct mc2_caller *caller, struct mc2_reply *reply) {
    return MC2_PRIV_CALL(caller, MC2_NEXT, 0, 0, reply, mc2_poll_next(caller, reply, &caller->looks));
}

// Puts a thread to sleep on a channel. Replies: MC2_OK; MC2_BADCHANNEL: there is no such channel; MC2_BADTHREAD; MC2_ALREADY.
static inline uint32_t mc2_sched_sleep(struct mc2_caller *caller, uint32_t channel, uint32_t thread, struct mc2_reply *reply) {
    return mc2_priv_call(caller, MC2_SLEEP, channel, thread, reply);
}

// Moves a channel's first sleeper to the end of the ready queue. Replies: MC2_THREAD with its number; MC2_BADCHANNEL; MC2_EMPTY.
static inline uint32_t mc2_sched_wake(struct mc2_caller *caller, uint32_t channel, struct mc2_reply *reply) {
    return mc2_priv_call(caller, MC2_WAKE, channel, 0, reply);
}

// Moves a channel's sleepers to the end of the ready queue, in order. Replies: MC2_COUNT with their number; MC2_BADCHANNEL.
static inline uint32_t mc2_sched_wakeall(struct mc2_caller *caller, uint32_t channel, struct mc2_reply *reply) {
    return mc2_priv_call(caller, MC2_WAKEALL, channel, 0, reply);
}

#endif
