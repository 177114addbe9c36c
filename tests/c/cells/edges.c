/* use: edges ticket|mcs

   Checks the functions of mc2_cells_raw.h at their edges. Opens cells for 1, 2, 9 and 64 CPUs, each of which has to find a free lock
   free, also by tries. Opens with each wrong argument, makes each call in each state that doesn't allow it, and has each allocation
   fail in turn, when a cell is opened and when it is reopened. Prints how many results it has checked. lifetimes.c checks the
   functions of mc2_cells.h.

   Status: 0; 1 if a result differs from what the header says, or if memory is lost; 2 for wrong words. */
#include "counted.h"
#include "mc2_cells.h"

static uint32_t lock;

static struct mc2_cell_opening opening_of(uint32_t events, uint32_t cpus) {
    struct mc2_cell_opening opening = {lock, MC2_QUEUE, events, cpus, 8, 0, {0}};
    return opening;
}

static struct mc2_cell new_cell(void) {
    struct mc2_cell cell = {0};
    must(mc2_handle_alloc_cell(&cell.impl), MC2_DONE, "a handle");
    must_be(cell.impl != NULL, "its pointer");
    return cell;
}

static void open_all(struct mc2_cell *cell, struct mc2_caller *callers, uint32_t cpus) {
    for (uint32_t at = cpus; at-- > 0;)
        must(mc2_caller_open(cell, &callers[at]), MC2_DONE, "a caller");
}

static uint32_t call(struct mc2_caller *caller, uint32_t word, uint32_t first) {
    struct mc2_call asked = mc2_call_of(word, first, 0);
    struct mc2_reply reply = {77, 0};
    uint32_t result = mc2_cell_call(caller, &asked, &reply);
    must_be((result == MC2_DONE) == (reply.word != 77), "a reply if the call is done");
    return result;
}

static void return_all(struct mc2_cell *cell, struct mc2_caller *callers, uint32_t cpus) {
    for (uint32_t at = 0; at < cpus; at++) {
        must(mc2_handle_close_cell(cell), MC2_REFUSED, "closing too early");
        if (at + 1 < cpus)
            must(mc2_handle_return_caller(cell, &callers[cpus - 1]), MC2_REFUSED, "returning out of turn");
        must(mc2_handle_return_caller(cell, &callers[at]), MC2_DONE, "returning");
        must(mc2_handle_return_caller(cell, &callers[at]), MC2_REFUSED, "returning an empty handle");
        must(mc2_caller_free(&callers[at]), MC2_DONE, "freeing a caller");
    }
}

/* ---- a cell whose CPUs call in turn */

/* No other caller holds the lock or is in line, so each caller gets it at once. Its calls are two events. */
static void call_in_turn(struct mc2_caller *callers, uint32_t cpus) {
    for (uint32_t at = 0; at < cpus; at++) {
        struct mc2_call asked = mc2_call_of(MC2_LEN, 0, 0);
        struct mc2_reply reply = {77, 0};
        must(mc2_poll_try_acquire(&callers[at]), MC2_ACQUIRED_BY_LOOK, "a try of a free lock");
        must(mc2_release(&callers[at]), MC2_DONE, "releasing after a try");
        must(call(&callers[at], MC2_ENQ, at), MC2_DONE, "a call");
        must(mc2_cell_try_call(&callers[at], &asked, &reply), MC2_DONE, "a whole try of a free lock");
        must_be(reply.word == MC2_COUNT, "its reply");
    }
}

static void live(uint32_t events, uint32_t cpus) {
    struct mc2_cell_opening opening = opening_of(events, cpus);
    struct mc2_cell cell = new_cell();
    struct mc2_caller callers[MC2_MOST_CPUS], more = {0};
    must(mc2_handle_open_cell(&cell, &opening), MC2_DONE, "opening");
    must(mc2_handle_open_cell(&cell, &opening), MC2_REFUSED, "opening an open cell");
    must(mc2_handle_reopen_cell(&cell, lock, cpus), MC2_REFUSED, "reopening an open cell");
    must(mc2_handle_drop_log(&cell), MC2_REFUSED, "dropping the log of an open cell");
    open_all(&cell, callers, cpus);
    must(mc2_caller_open(&cell, &more), MC2_REFUSED, "a caller too many");
    must_be(more.impl == NULL, "nothing to free");
    must(mc2_handle_open_caller(&cell, &callers[0]), MC2_REFUSED, "a caller in place of another");
    call_in_turn(callers, cpus);
    return_all(&cell, callers, cpus);
    must(mc2_handle_close_cell(&cell), MC2_DONE, "closing");
    must(mc2_handle_close_cell(&cell), MC2_REFUSED, "closing twice");
    struct mc2_logged_step step = {0};
    for (uint32_t at = 0; events > 0 && at < 2 * cpus; at++) {
        must(mc2_handle_read_step(&cell, at, 0, &step), MC2_DONE, "a step");
        must_be(step.cpu == at / 2 && step.step.call.first == (at % 2 == 0 ? at / 2 : 0), "the step of that CPU");
    }
    must(mc2_handle_read_step(&cell, events > 0 ? 2 * cpus : 0, 0, &step), MC2_NOT_FOUND, "no step");
    mc2_cell_free(&cell, NULL, 0);
    must_be(blocks == 0, "all memory is freed");
}

/* ---- openings that don't fit */

static void open_wrongly(struct mc2_cell *cell, struct mc2_cell_opening opening, const char *what) {
    must(mc2_handle_open_cell(cell, &opening), MC2_BAD_PARAM, what);
    must_be(blocks == 1, "no memory is taken");
}

static void all_wrong(void) {
    struct mc2_cell cell = new_cell();
    struct mc2_cell_opening good = opening_of(100, 2), opening = good;
    static const uint32_t locks[] = {2, UINT32_MAX}, kinds[] = {4, UINT32_MAX}, cpus[] = {0, 65, 256, 257, UINT32_MAX};
    static const uint32_t events[] = {65537, UINT32_MAX};
    static const uint32_t sizes[4][3] = {
        {0, 1025, UINT32_MAX}, {0, 4097, UINT32_MAX}, {0, 4097, UINT32_MAX}, {0, 1025, UINT32_MAX}};
    for (int at = 0; at < 2; at++, opening = good)
        opening.lock = locks[at], open_wrongly(&cell, opening, "no such lock");
    for (int at = 0; at < 2; at++, opening = good)
        opening.kind = kinds[at], open_wrongly(&cell, opening, "no such kind");
    for (int at = 0; at < 5; at++, opening = good)
        opening.cpus = cpus[at], open_wrongly(&cell, opening, "CPUs that don't fit");
    for (int at = 0; at < 2; at++, opening = good)
        opening.events = events[at], open_wrongly(&cell, opening, "too many events");
    for (uint32_t kind = 0; kind < 4; kind++)
        for (int at = 0; at < 3; at++, opening = good) {
            opening.kind = kind, opening.channels = 1, opening.size = sizes[kind][at];
            open_wrongly(&cell, opening, "a size that doesn't fit");
            opening.events = 0;
            open_wrongly(&cell, opening, "a size that doesn't fit, and no log");
        }
    opening.kind = MC2_SCHED;
    open_wrongly(&cell, opening, "no channels");
    opening.channels = 65;
    open_wrongly(&cell, opening, "too many channels");
    opening = good;
    opening.kind = MC2_POOL;
    opening.quotas[MC2_OWNERS - 1] = 4097;
    open_wrongly(&cell, opening, "a quota that doesn't fit");
    must(mc2_handle_open_cell(&cell, &good), MC2_DONE, "opening after all that");
    mc2_cell_free(&cell, NULL, 0);
    must_be(blocks == 0, "all memory is freed");
}

/* ---- calls in states that don't allow them */

static void busy_caller(void) {
    struct mc2_cell_opening opening = opening_of(100, 2);
    struct mc2_cell cell = new_cell();
    struct mc2_caller callers[2];
    struct mc2_call asked = mc2_call_of(MC2_LEN, 0, 0), none = mc2_call_of(15, 0, 0), wide = mc2_call_of(MC2_PUT, 256, 0);
    struct mc2_reply reply = {77, 77};
    must(mc2_handle_open_cell(&cell, &opening), MC2_DONE, "opening");
    open_all(&cell, callers, 2);
    must(mc2_handle_apply(&callers[0], &asked, &reply), MC2_REFUSED, "a call without the lock");
    must(mc2_release_step(&callers[0]), MC2_REFUSED, "releasing a lock that isn't held");
    must(mc2_acquire(&callers[0]), MC2_DONE, "acquiring");
    must(mc2_caller_free(&callers[0]), MC2_REFUSED, "freeing the holder");
    must(mc2_acquire_step(&callers[0]), MC2_REFUSED, "a step of the holder to acquire");
    must(mc2_poll_try_acquire(&callers[0]), MC2_REFUSED, "a try of the holder");
    must(mc2_handle_return_caller(&cell, &callers[0]), MC2_REFUSED, "returning the holder");
    must(mc2_poll_try_acquire(&callers[1]), MC2_BUSY, "a try of a lock that is held");
    must(mc2_handle_apply(&callers[0], &none, &reply), MC2_NOT_FOUND, "no such call");
    must(mc2_handle_apply(&callers[0], &wide, &reply), MC2_NOT_FOUND, "no such byte");
    must_be(reply.word == 77 && reply.number == 77, "no reply");
    must(mc2_handle_apply(&callers[0], &asked, &reply), MC2_DONE, "a call of the holder, which wasn't freed");
    must(mc2_acquire_step(&callers[1]), MC2_STEPPED, "a step of the other");
    must(mc2_caller_free(&callers[1]), MC2_REFUSED, "freeing a caller in line");
    must(mc2_release(&callers[0]), MC2_DONE, "releasing");
    must(mc2_acquire(&callers[1]), MC2_DONE, "the other's turn");
    must(mc2_release(&callers[1]), MC2_DONE, "the other releases");
    must(mc2_handle_return_caller(&cell, &callers[0]), MC2_DONE, "returning");
    must(mc2_caller_free(&callers[1]), MC2_DONE, "freeing an idle caller");
    must(mc2_handle_close_cell(&cell), MC2_REFUSED, "closing after a caller was freed and not returned");
    mc2_cell_free(&cell, NULL, 0);
    must(mc2_caller_free(&callers[0]), MC2_DONE, "freeing a caller that was returned");
    must_be(blocks == 0, "all memory is freed");
}

/* ---- whole calls */

static struct mc2_reply reply;
static struct mc2_replies replies;
static uint64_t looks;

static uint32_t whole(struct mc2_caller *caller, uint32_t word, uint32_t first) {
    struct mc2_call asked = mc2_call_of(word, first, 0);
    reply.word = 77;
    return mc2_poll_call(caller, &asked, &reply, &looks);
}

static uint32_t batch(struct mc2_caller *caller, uint32_t count, uint32_t last_word) {
    struct mc2_batch asked = {count, {{0, 0, 0}}};
    for (uint32_t at = 0; at < MC2_MOST_CALLS; at++)
        asked.calls[at] = mc2_call_of(at + 1 == count ? last_word : (uint32_t)MC2_LEN, 0, 0);
    replies.count = 77;
    return mc2_poll_batch(caller, &asked, &replies, &looks);
}

static void refused_calls(struct mc2_caller *caller) {
    struct mc2_call asked = mc2_call_of(MC2_LEN, 0, 0);
    must(batch(caller, 0, MC2_LEN), MC2_REFUSED, "a batch of no call");
    must(batch(caller, MC2_MOST_CALLS + 1, MC2_LEN), MC2_REFUSED, "a batch of 9 calls");
    must(batch(caller, UINT32_MAX, MC2_LEN), MC2_REFUSED, "a batch of too many calls");
    must(batch(caller, 3, 15), MC2_NOT_FOUND, "a batch with no such call");
    must(whole(caller, 15, 0), MC2_NOT_FOUND, "a whole call, no such one");
    must(whole(caller, MC2_PUT, 256), MC2_NOT_FOUND, "a whole call with no such byte");
    must_be(reply.word == 77 && replies.count == 77 && looks == 0, "nothing is written");
    must(mc2_poll_try_acquire(caller), MC2_ACQUIRED_BY_LOOK, "a try");
    must(whole(caller, MC2_LEN, 0), MC2_REFUSED, "a whole call of the holder");
    must(batch(caller, 1, MC2_LEN), MC2_REFUSED, "a batch of the holder");
    must(mc2_poll_try_call(caller, &asked, &reply), MC2_REFUSED, "a whole try of the holder");
    must_be(reply.word == 77 && replies.count == 77 && looks == 0, "nothing is written");
    must(mc2_release(caller), MC2_DONE, "releasing");
}

/* The third caller enters the queue after the second, and doesn't link itself yet. */
static void held_call(struct mc2_caller *second, struct mc2_caller *third) {
    must(mc2_acquire_step(third), MC2_STEPPED, "clearing");
    must(whole(third, MC2_LEN, 0), lock == MC2_MCS ? MC2_REFUSED : MC2_AGAIN, "a whole call before the first look");
    if (lock == MC2_MCS)
        must(mc2_acquire_step(third), MC2_STEPPED, "entering");
    looks = 0;
    must(whole(second, MC2_LEN, 0), lock == MC2_MCS ? MC2_DONE_HELD : MC2_DONE, "a whole call that continues");
    must_be(reply.word == MC2_COUNT && reply.number == 3 && looks == 1, "its reply, by one look");
    if (lock == MC2_MCS) {
        must(whole(second, MC2_LEN, 0), MC2_REFUSED, "a whole call of who still holds the lock");
        must(mc2_release_step(second), MC2_AGAIN, "releasing before the other has linked itself");
        must(mc2_acquire_step(third), MC2_STEPPED, "arming");
        must(mc2_acquire_step(third), MC2_STEPPED, "linking");
        must(mc2_release(second), MC2_DONE, "releasing");
    }
    must(batch(third, 2, MC2_DEQ), MC2_DONE, "a batch that continues");
    must_be(replies.count == 2 && replies.replies[0].number == 3 && replies.replies[1].word == MC2_THREAD, "its replies");
}

static void whole_calls(void) {
    struct mc2_cell_opening opening = opening_of(100, 3);
    struct mc2_cell cell = new_cell();
    struct mc2_caller callers[3];
    struct mc2_call asked = mc2_call_of(MC2_ENQ, 5, 0);
    struct mc2_logged_step step;
    must(mc2_handle_open_cell(&cell, &opening), MC2_DONE, "opening");
    open_all(&cell, callers, 3);
    looks = 0;
    refused_calls(&callers[0]);
    must(mc2_poll_try_call(&callers[1], &asked, &reply), MC2_DONE, "a whole try");
    must(whole(&callers[0], MC2_ENQ, 6), MC2_DONE, "a whole call");
    must_be(looks == (lock == MC2_TICKET), "its looks");
    must(mc2_poll_try_acquire(&callers[0]), MC2_ACQUIRED_BY_LOOK, "a try");
    must(mc2_poll_try_call(&callers[1], &asked, &reply), MC2_BUSY, "a whole try of a lock that is held");
    looks = 0;
    must(whole(&callers[1], MC2_LEN, 0), MC2_AGAIN, "a whole call that has to wait");
    must(whole(&callers[1], MC2_LEN, 0), MC2_AGAIN, "the same again");
    must_be(looks == 2 && reply.word == 77, "two looks, and no reply");
    asked = mc2_call_of(MC2_ENQ, 7, 0);
    must(mc2_handle_apply(&callers[0], &asked, &reply), MC2_DONE, "a call");
    must(mc2_release(&callers[0]), MC2_DONE, "releasing");
    held_call(&callers[1], &callers[2]);
    return_all(&cell, callers, 3);
    must(mc2_handle_close_cell(&cell), MC2_DONE, "closing");
    must(mc2_handle_read_step(&cell, 4, 1, &step), MC2_DONE, "the batch is one event, the last");
    must(mc2_handle_read_step(&cell, 4, 2, &step), MC2_NOT_FOUND, "of two calls");
    must(mc2_handle_read_step(&cell, 5, 0, &step), MC2_NOT_FOUND, "and no refused call is an event");
    mc2_cell_free(&cell, NULL, 0);
    must_be(blocks == 0, "all memory is freed");
}

/* ---- each allocation fails in turn */

static long refused_openings(uint32_t events, uint32_t cpus) {
    struct mc2_cell_opening opening = opening_of(events, cpus);
    uint32_t result = MC2_NO_MEMORY;
    struct mc2_cell cell = {0};
    long at = 0;
    left = 0;
    must(mc2_handle_alloc_cell(&cell.impl), MC2_NO_MEMORY, "a handle without memory");
    must_be(cell.impl == NULL && blocks == 0, "no pointer");
    left = MANY;
    cell = new_cell();
    for (; result == MC2_NO_MEMORY; at++) {
        left = at;
        result = mc2_handle_open_cell(&cell, &opening);
        left = MANY;
        must_be(result != MC2_NO_MEMORY || blocks == 1, "no memory is lost");
    }
    must(result, MC2_DONE, "opening with memory");
    mc2_cell_free(&cell, NULL, 0);
    must_be(blocks == 0, "all memory is freed");
    return at - 1;
}

/* A cell with all of its callers: if it isn't opened, nothing is left to free. It isn't closed while a caller holds the lock. */
static long refused_at_once(uint32_t events, uint32_t cpus) {
    struct mc2_object object = {"q", MC2_QUEUE, lock, events, 8, 0, NULL};
    struct mc2_caller callers[MC2_MOST_CPUS];
    struct mc2_cell cell;
    uint64_t at = 0;
    must(mc2_cell_open(&cell, &object, callers, 65), MC2_BAD_PARAM, "opening for too many CPUs");
    for (uint32_t result = MC2_NO_MEMORY; result != MC2_DONE; at++) {
        must_be(result == MC2_NO_MEMORY && blocks == 0, "nothing is left to free");
        left = (long)at;
        result = mc2_cell_open(&cell, &object, callers, cpus);
        left = MANY;
    }
    must(mc2_acquire(&callers[cpus - 1]), MC2_DONE, "acquiring");
    must(mc2_cell_close(&cell, callers, cpus), MC2_REFUSED, "closing while a caller holds the lock");
    must(mc2_release(&callers[cpus - 1]), MC2_DONE, "releasing");
    must(mc2_cell_close(&cell, callers, cpus), MC2_DONE, "closing");
    mc2_cell_free(&cell, NULL, 0);
    must_be(blocks == 0, "all memory is freed");
    return (long)at - 1;
}

static long refused_reopenings(uint32_t events, uint32_t cpus) {
    struct mc2_cell_opening opening = opening_of(events, 1);
    struct mc2_cell cell = new_cell();
    struct mc2_caller callers[MC2_MOST_CPUS];
    struct mc2_logged_step step = {0};
    uint32_t result = MC2_NO_MEMORY;
    long at = 0;
    must(mc2_handle_open_cell(&cell, &opening), MC2_DONE, "opening");
    open_all(&cell, callers, 1);
    must(call(&callers[0], MC2_ENQ, 3), MC2_DONE, "a call");
    return_all(&cell, callers, 1);
    must(mc2_handle_close_cell(&cell), MC2_DONE, "closing");
    must(mc2_handle_reopen_cell(&cell, 2, cpus), MC2_BAD_PARAM, "reopening with no such lock");
    must(mc2_handle_reopen_cell(&cell, lock, 0), MC2_BAD_PARAM, "reopening without CPUs");
    must(mc2_handle_reopen_cell(&cell, lock, 65), MC2_BAD_PARAM, "reopening with too many CPUs");
    must(mc2_handle_open_cell(&cell, &opening), MC2_REFUSED, "opening a closed cell");
    for (long before = blocks; result == MC2_NO_MEMORY; at++) {
        left = at;
        result = mc2_handle_reopen_cell(&cell, !lock, cpus);
        left = MANY;
        must_be(result != MC2_NO_MEMORY || blocks == before, "no memory is lost");
        if (result == MC2_NO_MEMORY)
            must(mc2_handle_read_step(&cell, 0, 0, &step), events > 0 ? MC2_DONE : MC2_NOT_FOUND, "the log is unchanged");
    }
    must(result, MC2_DONE, "reopening with memory");
    open_all(&cell, callers, cpus);
    for (uint32_t cpu = 0; cpu < cpus; cpu++)
        must(call(&callers[cpu], MC2_LEN, 0), MC2_DONE, "a call of a reopened cell");
    return_all(&cell, callers, cpus);
    must(mc2_handle_close_cell(&cell), MC2_DONE, "closing again");
    must(mc2_handle_read_step(&cell, cpus, 0, &step), events > 0 ? MC2_DONE : MC2_NOT_FOUND, "the last step");
    must_be(events == 0 || step.step.number == 1, "the thread of the first life");
    must(mc2_handle_drop_log(&cell), MC2_DONE, "dropping the log");
    must(mc2_handle_read_step(&cell, 0, 0, &step), MC2_NOT_FOUND, "a step that was dropped");
    mc2_cell_free(&cell, NULL, 0);
    must_be(blocks == 0, "all memory is freed");
    return at - 1;
}

int main(int count, char **words) {
    static const uint32_t cpus[] = {1, 2, 9, 64};
    if (count != 2 || (strcmp(words[1], "ticket") != 0 && strcmp(words[1], "mcs") != 0)) {
        fputs("use: edges ticket|mcs\n", stderr);
        return 2;
    }
    lock = strcmp(words[1], "mcs") == 0 ? MC2_MCS : MC2_TICKET;
    long refused = 0;
    for (int at = 0; at < 4; at++)
        for (uint32_t events = 0; events <= 200; events += 200) {
            live(events, cpus[at]);
            refused += refused_openings(events, cpus[at]) + refused_at_once(events, cpus[at]);
            refused += refused_reopenings(events, cpus[at]);
        }
    all_wrong();
    busy_caller();
    whole_calls();
    printf("%ld results, %ld refused blocks\n", results, refused);
    return 0;
}
