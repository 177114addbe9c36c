// mc2_cells_raw.h - the exported functions of libcells.a, for kernels with wait loops of their own.
//
// Most programs use mc2_cells.h, which has the wait loops around these. crates/cells/README.md says what is proved of each. The
// caller obligations of mc2_cells.h apply.
//
// Common to all of them:
//   Returns   MC2_REFUSED if the handle isn't of the sort or in the state that the function needs. A refused call changes nothing.
//   Context   Non-blocking: none waits for another CPU. Those marked [heap] call rattle_alloc or rattle_dealloc. An interrupt
//             handler may call only mc2_poll_try_acquire, mc2_poll_try_call, mc2_handle_apply and mc2_release_step, by a caller of
//             a CPU number of its own, and not if it came within another call of this header. So where handlers call objects,
//             disable interrupts around each call (MC2_IRQ_OFF).
//   Locking   One call at a time per cell handle and per caller. Different callers of one cell may be used concurrently.
//   Ordering  Sequentially consistent atomic operations, by reading.
#ifndef MC2_CELLS_RAW_H
#define MC2_CELLS_RAW_H

#include "mc2_objects.h"
#include "mc2_wait.h"

#ifdef __cplusplus
extern "C" {
#endif

// A cell: the library's part, and the number of callers that sleep or are throttled at it.
struct mc2_cell {
    void *impl;
    struct mc2_waiters waiters;
};

// A caller: the library's part, the waiters of its cell, and the looks of its last call.
struct mc2_caller {
    void *impl;
    struct mc2_waiters *waiters;
    uint64_t looks;
};

// The library's part of either, as mc2_handle_free_cell and mc2_handle_free_caller take it.
struct mc2_handle {
    void *impl;
};

// What a cell is opened with: enum mc2_lock_kind, enum mc2_kind, the capacity of the log in events or 0 for no log, the number of
// CPUs; size, channels and quotas as in struct mc2_object. Fields that the kind doesn't use are ignored.
struct mc2_cell_opening {
    uint32_t lock, kind, events, cpus, size, channels;
    uint32_t quotas[MC2_OWNERS];
};

// ---- Handles

// Allocate an empty handle for a cell or a caller and store it in *impl. Free it once with the function of its sort, whatever later
// calls return. [heap]
// Return   MC2_DONE; MC2_NO_MEMORY: *impl is unchanged and there is nothing to free.
uint32_t mc2_handle_alloc_cell(void **impl);
uint32_t mc2_handle_alloc_caller(void **impl);

// Free a handle with everything that it has. [heap]
// Freeing an idle caller that wasn't returned leaves its CPU without a caller: that cell can't be closed any more.
// Return   MC2_DONE; MC2_REFUSED: it is a caller that is in line or holds the lock. Free it once it is idle.
uint32_t mc2_handle_free_cell(struct mc2_handle handle);
uint32_t mc2_handle_free_caller(struct mc2_handle handle);

// Opens a cell in an empty handle. [heap]
// Returns  MC2_DONE; MC2_REFUSED: the handle isn't empty; MC2_NO_MEMORY, MC2_BAD_PARAM: it still is: use it again or free it.
uint32_t mc2_handle_open_cell(struct mc2_cell *cell, const struct mc2_cell_opening *opening);

// Creates, in the empty handle `caller`, the caller of the highest CPU number that has had none since the cell was opened.
// Returns  MC2_DONE; MC2_REFUSED: the cell isn't open, each of its CPUs has or had a caller, or `caller` isn't empty; MC2_NO_MEMORY:
//          the cell is shared by 2^63 callers.
uint32_t mc2_handle_open_caller(struct mc2_cell *cell, struct mc2_caller *caller);

// Returns an idle caller to its cell; the caller's handle is then empty. That it is the caller's own cell isn't checked.
// Callers go back in ascending order of CPU, which is the reverse of the order in which they were created.
// Returns  MC2_DONE; MC2_REFUSED: the cell isn't open, the caller isn't idle, or a caller of a lower CPU is still out.
uint32_t mc2_handle_return_caller(struct mc2_cell *cell, struct mc2_caller *caller);

// Closes a cell to which every caller was returned. The object and its log remain. [heap]
// Returns  MC2_DONE; MC2_REFUSED: the cell isn't open, or a caller is still out; MC2_BUSY, see mc2_result.h.
uint32_t mc2_handle_close_cell(struct mc2_cell *cell);

// As mc2_cell_read_step, mc2_cell_reopen [heap] without callers, and mc2_cell_drop_log [heap], all without MC2_IRQ_OFF.
uint32_t mc2_handle_read_step(struct mc2_cell *cell, size_t event, size_t index, struct mc2_logged_step *step);
uint32_t mc2_handle_reopen_cell(struct mc2_cell *cell, uint32_t lock, uint32_t cpus);
uint32_t mc2_handle_drop_log(struct mc2_cell *cell);

// ---- The lock, one step at a time

// Performs the caller's next step towards the lock: one atomic operation on one word of it. At an MCS lock the first step after a
// whole call that left the queue empty also reads the tail.
// Call it until it returns MC2_ACQUIRED or MC2_ACQUIRED_BY_LOOK. A caller in line must continue: there is no way back.
// Returns  MC2_STEPPED: call again at once; MC2_AGAIN: pause first; MC2_ACQUIRED, MC2_ACQUIRED_BY_LOOK; MC2_REFUSED: it already
//          holds the lock, or isn't a caller.
uint32_t mc2_acquire_step(struct mc2_caller *caller);

// Performs the caller's next step to release the lock. Call it until it returns MC2_RELEASED.
// Returns  MC2_STEPPED; MC2_AGAIN: a successor has entered an MCS queue and hasn't linked itself yet; MC2_RELEASED; MC2_REFUSED:
//          it doesn't hold the lock, or isn't a caller.
uint32_t mc2_release_step(struct mc2_caller *caller);

// As mc2_try_acquire, without MC2_IRQ_OFF, but returns MC2_ACQUIRED_BY_LOOK in place of MC2_DONE. Looks at the lock once at most.
uint32_t mc2_poll_try_acquire(struct mc2_caller *caller);

// As mc2_apply, without MC2_IRQ_OFF. It returns MC2_REFUSED also once mc2_release_step has begun to release the lock.
uint32_t mc2_handle_apply(struct mc2_caller *caller, const struct mc2_call *call, struct mc2_reply *reply);

// ---- Whole calls, without waiting

// Acquires the lock, performs the call as one event, and releases the lock, as far as this needs no waiting. It looks at the lock
// once at most. Each look adds 1 to *looks.
// Returns  MC2_DONE: *reply is written, and the caller is idle; MC2_LOG_FULL: nothing was done, and the caller is idle.
//          MC2_AGAIN: the caller is in line, and the object is untouched. Pause, then call again.
//          MC2_DONE_HELD, MC2_LOG_FULL_HELD: as without HELD, but a successor hasn't linked itself yet, so the lock is still
//          held. Release it by mc2_release or mc2_release_step.
//          MC2_NOT_FOUND: there is no such call. A caller in line stays there.
//          MC2_REFUSED: the caller holds the lock, isn't a caller, or has begun to enter an MCS queue by mc2_acquire_step and
//          hasn't linked itself yet.
uint32_t mc2_poll_call(struct mc2_caller *caller, const struct mc2_call *call, struct mc2_reply *reply, uint64_t *looks);

// The same for 1 to 8 calls, performed in order as one event. The event ends with the first call whose reply refuses it.
// Returns  as mc2_poll_call, and MC2_REFUSED for 0 or more than 8 calls. MC2_NOT_FOUND: a call doesn't exist; none was performed.
//          The replies and their count are written if the event was performed; replies past the count are unspecified.
uint32_t mc2_poll_batch(struct mc2_caller *caller, const struct mc2_batch *batch, struct mc2_replies *replies, uint64_t *looks);

// As mc2_poll_call, but never joins the line.
// Returns  as mc2_poll_call, with MC2_BUSY in place of MC2_AGAIN: nothing was done, and the caller is idle. MC2_REFUSED: the caller
//          isn't idle, or isn't a caller.
uint32_t mc2_poll_try_call(struct mc2_caller *caller, const struct mc2_call *call, struct mc2_reply *reply);

// The calls MC2_ENQ, MC2_DEQ, MC2_READY and MC2_NEXT, as mc2_poll_call performs them. These are faster: the call is known when the
// library is compiled. At an object of another kind the call is an event too, with the reply MC2_BADCALL. Make every other call by
// mc2_poll_call.
uint32_t mc2_poll_enq(struct mc2_caller *caller, uint32_t thread, struct mc2_reply *reply, uint64_t *looks);
uint32_t mc2_poll_deq(struct mc2_caller *caller, struct mc2_reply *reply, uint64_t *looks);
uint32_t mc2_poll_ready(struct mc2_caller *caller, uint32_t thread, struct mc2_reply *reply, uint64_t *looks);
uint32_t mc2_poll_next(struct mc2_caller *caller, struct mc2_reply *reply, uint64_t *looks);

#ifdef __cplusplus
}
#endif

#endif
