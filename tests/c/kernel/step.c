// Checks that MC2_IRQ_OFF wraps each call of the library in the inline functions of include/mc2_cells.h, one call at a time: then no
// interrupt that a kernel disables there comes within the library. The functions below replace the library. Each returns first
// results on which the header's loops continue, and then one that ends them. With APART it checks that MC2_ALLOCATING wraps exactly
// the calls that open, close, reopen and free.
//
// The status is 0, or 1 at the first check that fails, which a line on standard error names.
static unsigned begin_step(void);
static unsigned end_step(unsigned result);

#define MC2_IRQ_OFF(call) end_step((begin_step(), (call)))
#ifdef APART
static unsigned begin_opening(void);
#define MC2_ALLOCATING(call) end_step((begin_opening(), (call)))
enum { IS_APART = 1 };
#else
enum { IS_APART = 0 };
#endif
#include "mc2_cells.h"
#include <stdio.h>
#include <stdlib.h>

static unsigned within, steps, openings, calls;

static unsigned begin_step(void) { return steps++, within++; }

#ifdef APART
static unsigned begin_opening(void) { return openings++, begin_step(); }
#endif

static unsigned end_step(unsigned result) { return within--, result; }

static void must(bool is_so, const char *what) {
    if (!is_so) {
        fprintf(stderr, "step.c: not so: %s\n", what);
        exit(1);
    }
}

// The result of a function of the library: MC2_AGAIN for *looks times, and then `result`.
static uint32_t answer(unsigned *looks, uint32_t result) {
    calls++;
    must(within == 1 && steps == calls, "each call of the library is wrapped once");
    return *looks > 0 ? (--*looks, (uint32_t)MC2_AGAIN) : result;
}

static unsigned none, to_acquire, to_release, to_call, to_batch;

uint32_t mc2_handle_alloc_cell(void **impl) { return *impl = &calls, answer(&none, MC2_DONE); }

uint32_t mc2_handle_alloc_caller(void **impl) { return *impl = &calls, answer(&none, MC2_DONE); }

uint32_t mc2_handle_free_cell(struct mc2_handle handle) { return (void)handle, answer(&none, MC2_DONE); }

uint32_t mc2_handle_free_caller(struct mc2_handle handle) { return (void)handle, answer(&none, MC2_DONE); }

uint32_t mc2_handle_open_cell(struct mc2_cell *cell, const struct mc2_cell_opening *opening) {
    return (void)cell, (void)opening, answer(&none, MC2_DONE);
}

uint32_t mc2_handle_open_caller(struct mc2_cell *cell, struct mc2_caller *caller) {
    return (void)cell, (void)caller, answer(&none, MC2_DONE);
}

uint32_t mc2_acquire_step(struct mc2_caller *caller) { return (void)caller, answer(&to_acquire, MC2_ACQUIRED_BY_LOOK); }

uint32_t mc2_release_step(struct mc2_caller *caller) { return (void)caller, answer(&to_release, MC2_RELEASED); }

uint32_t mc2_poll_try_acquire(struct mc2_caller *caller) { return (void)caller, answer(&none, MC2_ACQUIRED_BY_LOOK); }

uint32_t mc2_handle_apply(struct mc2_caller *caller, const struct mc2_call *call, struct mc2_reply *reply) {
    return (void)caller, (void)call, (void)reply, answer(&none, MC2_DONE);
}

uint32_t mc2_poll_call(struct mc2_caller *caller, const struct mc2_call *call, struct mc2_reply *reply, uint64_t *looks) {
    return (void)caller, (void)call, (void)reply, (void)looks, answer(&to_call, MC2_DONE_HELD);
}

// By its name a call returns the same as by its number.
#define NAMED(name) \
    uint32_t mc2_poll_##name(struct mc2_caller *caller, struct mc2_reply *reply, uint64_t *looks) { \
        return mc2_poll_call(caller, NULL, reply, looks); \
    }
#define NAMED_OF_THREAD(name) \
    uint32_t mc2_poll_##name(struct mc2_caller *caller, uint32_t thread, struct mc2_reply *reply, uint64_t *looks) { \
        return (void)thread, mc2_poll_call(caller, NULL, reply, looks); \
    }
NAMED(deq) NAMED(next) NAMED_OF_THREAD(enq) NAMED_OF_THREAD(ready)

uint32_t mc2_poll_batch(struct mc2_caller *caller, const struct mc2_batch *batch, struct mc2_replies *replies, uint64_t *looks) {
    return (void)caller, (void)batch, (void)replies, (void)looks, answer(&to_batch, MC2_DONE_HELD);
}

uint32_t mc2_poll_try_call(struct mc2_caller *caller, const struct mc2_call *call, struct mc2_reply *reply) {
    return (void)caller, (void)call, (void)reply, answer(&none, MC2_DONE_HELD);
}

uint32_t mc2_handle_return_caller(struct mc2_cell *cell, struct mc2_caller *caller) {
    return (void)cell, (void)caller, answer(&none, MC2_DONE);
}

uint32_t mc2_handle_close_cell(struct mc2_cell *cell) { return (void)cell, answer(&none, MC2_DONE); }

uint32_t mc2_handle_read_step(struct mc2_cell *cell, size_t event, size_t index, struct mc2_logged_step *step) {
    return (void)cell, (void)event, (void)index, (void)step, answer(&none, MC2_DONE);
}

uint32_t mc2_handle_drop_log(struct mc2_cell *cell) { return (void)cell, answer(&none, MC2_DONE); }

uint32_t mc2_handle_reopen_cell(struct mc2_cell *cell, uint32_t lock, uint32_t cpus) {
    return (void)cell, (void)lock, (void)cpus, answer(&none, MC2_DONE);
}

// This many calls of the library were made since the last check, and either all of them open, close, reopen or free, or none does.
static void made(unsigned count, bool are_openings, const char *what) {
    must(calls == count && within == 0 && openings == (IS_APART && are_openings ? count : 0), what);
    calls = steps = openings = 0;
}

int main(void) {
    struct mc2_object object = {"q", MC2_QUEUE, MC2_MCS, 0, 8, 0, NULL};
    struct mc2_cell cell;
    struct mc2_caller caller, callers[3];
    struct mc2_call call = {0, 0, 0};
    struct mc2_batch batch = {1, {{0, 0, 0}}};
    struct mc2_reply reply;
    struct mc2_replies replies;
    struct mc2_logged_step step;
    to_acquire = to_release = to_call = to_batch = 2;
    must(mc2_cell_open(&cell, &object, NULL, 1) == MC2_DONE, "a cell");
    made(2, true, "opening a cell is two calls");
    must(mc2_caller_open(&cell, &caller) == MC2_DONE, "a caller");
    made(2, true, "opening a caller is two calls");
    must(!mc2_acquire(&caller) && mc2_caller_looks(&caller) == 3 && !mc2_release(&caller), "acquiring and releasing");
    made(6, false, "two failed looks before each end of the steps");
    must(!mc2_try_acquire(&caller) && !mc2_apply(&caller, &call, &reply), "a try, and a call of the holder");
    made(2, false, "each is a call");
    must(!mc2_cell_call(&caller, &call, &reply), "a whole call");
    made(4, false, "two failed looks, the call, a step to release");
    to_call = 2;
    must(!mc2_sched_sleep(&caller, 0, 0, &reply), "a call by its name");
    made(4, false, "two failed looks, the call, a step to release");
    must(!mc2_cell_batch(&caller, &batch, &replies), "a batch");
    made(4, false, "two failed looks, the batch, a step to release");
    must(!mc2_cell_try_call(&caller, &call, &reply), "a whole try");
    made(2, false, "the try, a step to release");
    must(!mc2_cell_read_step(&cell, 0, 0, &step), "reading the log");
    made(1, false, "it is a call");
    must(!mc2_cell_drop_log(&cell) && !mc2_cell_reopen(&cell, 0, NULL, 1), "dropping the log, and reopening");
    made(2, true, "each is a call");
    mc2_cell_free(&cell, &caller, 1);
    made(2, true, "each freeing is a call");
    must(mc2_cell_open(&cell, &object, callers, 3) == MC2_DONE, "a cell with callers");
    made(8, true, "opening a cell and each of three callers is two calls");
    must(mc2_cell_close(&cell, callers, 3) == MC2_DONE, "closing");
    made(7, true, "each caller is returned and freed, and the cell closed");
    return 0;
}
