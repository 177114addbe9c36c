/* use: lifetimes ticket|mcs

   Checks the functions of mc2_cells.h: opens that fail, closing twice, cells that are freed while callers remain, calls in states
   that don't allow them, a log that is full, and how many looks a call took, also of one that had to wait. Prints how many results
   it has checked.

   Status: 0; 1 if a result differs from what the header says, or if memory is lost; 2 for wrong words. */
#include "counted.h"
#include "mc2_cells.h"
#include <pthread.h>

enum { CPUS = 3, LONG_WAIT = 120 };

static uint32_t lock;
static struct mc2_cell cell;
static struct mc2_caller callers[CPUS];
static struct mc2_reply reply;

static struct mc2_object queue_of(uint32_t events) {
    struct mc2_object queue = {"q", MC2_QUEUE, lock, events, 8, 0, NULL};
    return queue;
}

static void open_cell(uint32_t events) {
    struct mc2_object queue = queue_of(events);
    must(mc2_cell_open(&cell, &queue, callers, CPUS), MC2_DONE, "opening");
}

/* A cell that was never opened, whose opening failed, or that is freed. */
static void check_no_cell(void) {
    struct mc2_logged_step step;
    struct mc2_caller caller;
    must_be(cell.impl == NULL && blocks == 0, "nothing to free");
    must(mc2_cell_close(&cell, NULL, 0), MC2_REFUSED, "closing no cell");
    must(mc2_cell_read_step(&cell, 0, 0, &step), MC2_NOT_FOUND, "reading the log of no cell");
    must(mc2_cell_drop_log(&cell), MC2_REFUSED, "dropping the log of no cell");
    must(mc2_cell_reopen(&cell, lock, NULL, 1), MC2_REFUSED, "reopening no cell");
    must(mc2_caller_open(&cell, &caller), MC2_REFUSED, "a caller of no cell");
    must_be(caller.impl == NULL && blocks == 0, "nothing to free");
    must(mc2_caller_close(&cell, &caller), MC2_DONE, "closing no caller");
    must(mc2_caller_free(&caller), MC2_DONE, "freeing no caller");
    mc2_cell_free(&cell, NULL, 0);
}

static void failed_opens(void) {
    struct mc2_object wrong = queue_of(65537), queue = queue_of(10);
    must(mc2_cell_open(&cell, &wrong, callers, CPUS), MC2_BAD_PARAM, "opening for too many events");
    check_no_cell();
    must(mc2_cell_open(&cell, &queue, NULL, 65), MC2_BAD_PARAM, "opening for too many CPUs");
    check_no_cell();
    must(mc2_cell_open(&cell, &queue, callers, UINT32_MAX), MC2_BAD_PARAM, "opening for far too many CPUs");
    check_no_cell();
    left = 0;
    must(mc2_cell_open(&cell, &queue, callers, CPUS), MC2_NO_MEMORY, "opening without memory");
    left = MANY;
    check_no_cell();
}

static void closing(void) {
    open_cell(10);
    must(mc2_caller_close(&cell, &callers[1]), MC2_REFUSED, "closing the callers out of order");
    must(mc2_cell_close(&cell, NULL, 0), MC2_REFUSED, "closing a cell without its callers");
    must(mc2_acquire(&callers[1]), MC2_DONE, "acquiring");
    must(mc2_cell_close(&cell, callers, CPUS), MC2_REFUSED, "closing while a caller holds the lock");
    must_be(callers[0].impl == NULL && callers[1].impl && callers[2].impl, "the callers before it are closed");
    must(mc2_apply(&callers[1], &(struct mc2_call){MC2_ENQ, 5, 0}, &reply), MC2_DONE, "a call of the holder");
    must(mc2_release(&callers[1]), MC2_DONE, "releasing");
    must(mc2_queue_len(&callers[2], &reply), MC2_DONE, "a call of the last caller");
    must_be(reply.word == MC2_COUNT && reply.number == 1, "its reply");
    must(mc2_caller_close(&cell, &callers[0]), MC2_DONE, "closing a closed caller");
    must(mc2_caller_close(&cell, &callers[1]), MC2_DONE, "closing a caller");
    must(mc2_cell_close(&cell, callers, CPUS), MC2_DONE, "closing");
    must(mc2_cell_close(&cell, callers, CPUS), MC2_REFUSED, "closing twice");
    must(mc2_caller_open(&cell, &callers[0]), MC2_REFUSED, "a caller of a closed cell");
    must_be(callers[0].impl == NULL, "nothing to free");
    mc2_cell_free(&cell, callers, CPUS);
    check_no_cell();
}

/* The holder's cell is freed, and the holder still works. */
static void freed_early(void) {
    open_cell(10);
    must(mc2_acquire(&callers[1]), MC2_DONE, "acquiring");
    mc2_cell_free(&cell, callers, CPUS);
    must_be(callers[0].impl == NULL && callers[1].impl && callers[2].impl == NULL, "only the holder remains");
    must(mc2_caller_close(&cell, &callers[1]), MC2_REFUSED, "returning a caller to a freed cell");
    must(mc2_caller_free(&callers[1]), MC2_REFUSED, "freeing the holder");
    must(mc2_apply(&callers[1], &(struct mc2_call){MC2_LEN, 0, 0}, &reply), MC2_DONE, "a call of the holder");
    must(mc2_release(&callers[1]), MC2_DONE, "releasing");
    must(mc2_queue_deq(&callers[1], &reply), MC2_DONE, "another call");
    must(mc2_caller_free(&callers[1]), MC2_DONE, "freeing the caller");
    check_no_cell();
}

static void wrong_states(void) {
    struct mc2_call len = {MC2_LEN, 0, 0}, none = {MC2_CALL_WORDS, 0, 0};
    struct mc2_batch batch = {1, {len}}, no_batch = {0, {len}};
    struct mc2_replies replies;
    open_cell(10);
    must(mc2_apply(&callers[0], &len, &reply), MC2_REFUSED, "a call without the lock");
    must(mc2_release(&callers[0]), MC2_REFUSED, "releasing a lock that isn't held");
    must(mc2_cell_call(&callers[0], &none, &reply), MC2_NOT_FOUND, "no such call");
    must(mc2_cell_batch(&callers[0], &no_batch, &replies), MC2_REFUSED, "an empty batch");
    must(mc2_try_acquire(&callers[0]), MC2_DONE, "a try");
    must(mc2_try_acquire(&callers[0]), MC2_REFUSED, "a try of the holder");
    must(mc2_try_acquire(&callers[1]), MC2_BUSY, "a try of another");
    must(mc2_cell_try_call(&callers[1], &len, &reply), MC2_BUSY, "a whole try of another");
    must(mc2_acquire(&callers[0]), MC2_REFUSED, "acquiring twice");
    must(mc2_cell_call(&callers[0], &len, &reply), MC2_REFUSED, "a whole call of the holder");
    must(mc2_queue_len(&callers[0], &reply), MC2_REFUSED, "the same by its name");
    must(mc2_cell_batch(&callers[0], &batch, &replies), MC2_REFUSED, "a batch of the holder");
    must(mc2_cell_try_call(&callers[0], &len, &reply), MC2_REFUSED, "a whole try of the holder");
    must_be(mc2_caller_looks(&callers[0]) == 0, "none of these looked");
    must(mc2_release(&callers[0]), MC2_DONE, "releasing");
    mc2_cell_free(&cell, callers, CPUS);
    check_no_cell();
}

/* A log for two events. The third call finds it full, until it is dropped. */
static void full_log(void) {
    struct mc2_logged_step step;
    open_cell(2);
    must(mc2_queue_enq(&callers[0], 3, &reply), MC2_DONE, "a call");
    must(mc2_queue_enq(&callers[1], 4, &reply), MC2_DONE, "a call");
    must(mc2_queue_len(&callers[2], &reply), MC2_LOG_FULL, "a call that finds the log full");
    must(mc2_cell_read_step(&cell, 0, 0, &step), MC2_NOT_FOUND, "reading the log of an open cell");
    must(mc2_cell_drop_log(&cell), MC2_REFUSED, "dropping the log of an open cell");
    must(mc2_cell_reopen(&cell, lock, callers, CPUS), MC2_REFUSED, "reopening an open cell, whose callers stay");
    must(mc2_cell_close(&cell, callers, CPUS), MC2_DONE, "closing");
    must(mc2_cell_read_step(&cell, 1, 0, &step), MC2_DONE, "reading the log");
    must_be(step.cpu == 1 && step.step.call.word == MC2_ENQ && step.step.call.first == 4, "the step");
    must(mc2_cell_read_step(&cell, 2, 0, &step), MC2_NOT_FOUND, "no such step");
    must(mc2_cell_reopen(&cell, MC2_LOCKS, callers, CPUS), MC2_BAD_PARAM, "reopening with no such lock");
    must(mc2_cell_reopen(&cell, lock, callers, MC2_MOST_CPUS + 1), MC2_BAD_PARAM, "reopening for too many CPUs");
    must_be(!callers[0].impl, "a caller that a refused reopening left closed");
    must(mc2_cell_drop_log(&cell), MC2_DONE, "dropping the log");
    must(mc2_cell_reopen(&cell, !lock, NULL, 1), MC2_DONE, "reopening without callers");
    must(mc2_caller_open(&cell, &callers[0]), MC2_DONE, "a caller");
    must(mc2_cell_close(&cell, callers, 1), MC2_DONE, "closing again");
    must(mc2_cell_reopen(&cell, lock, callers, CPUS), MC2_DONE, "reopening with callers");
    for (uint32_t cpu = 0; cpu < CPUS; cpu++) {
        must(mc2_queue_len(&callers[cpu], &reply), MC2_DONE, "a call of the reopened cell");
        must_be(reply.number == 2, "its reply");
    }
    mc2_cell_free(&cell, callers, CPUS);
    check_no_cell();
}

/* A call by acquiring the lock, by its words, as a batch, or by its name. */
static uint32_t call(struct mc2_caller *caller, int way) {
    struct mc2_call len = {MC2_LEN, 0, 0};
    struct mc2_batch batch = {1, {len}};
    struct mc2_replies replies;
    switch (way) {
    case 0: return mc2_acquire(caller) ? MC2_REFUSED : mc2_release(caller);
    case 1: return mc2_cell_call(caller, &len, &reply);
    case 2: return mc2_cell_batch(caller, &batch, &replies);
    default: return mc2_queue_len(caller, &reply);
    }
}

static void *wait_and_call(void *way) { return call(&callers[1], *(int *)way) ? NULL : way; }

static void looks(void) {
    struct mc2_call len = {MC2_LEN, 0, 0};
    open_cell(0);
    for (int way = 0; way < 4; way++) {
        pthread_t thread;
        void *done;
        must(call(&callers[0], way), MC2_DONE, "a call");
        must_be(mc2_caller_looks(&callers[0]) == (lock == MC2_TICKET), "its looks");
        must(mc2_acquire(&callers[0]), MC2_DONE, "acquiring");
        must((uint32_t)pthread_create(&thread, NULL, wait_and_call, &way), 0, "a thread");
        /* until it sleeps in line */
        while (__atomic_load_n(&cell.waiters.word, __ATOMIC_SEQ_CST) == 0)
            MC2_USLEEP(1000);
        must(mc2_release(&callers[0]), MC2_DONE, "releasing");
        must_be(pthread_join(thread, &done) == 0 && done == &way, "a call that waited");
        must_be(mc2_caller_looks(&callers[1]) > LONG_WAIT && cell.waiters.word == 0, "its looks");
    }
    uint64_t before = mc2_caller_looks(&callers[1]);
    must(mc2_cell_try_call(&callers[1], &len, &reply), MC2_DONE, "a whole try");
    must_be(mc2_caller_looks(&callers[1]) == before, "a try doesn't count its looks");
    must(mc2_cell_close(&cell, callers, CPUS), MC2_DONE, "closing");
    mc2_cell_free(&cell, NULL, 0);
    check_no_cell();
}

int main(int count, char **words) {
    if (count != 2 || (strcmp(words[1], "ticket") != 0 && strcmp(words[1], "mcs") != 0)) {
        fputs("use: lifetimes ticket|mcs\n", stderr);
        return 2;
    }
    lock = strcmp(words[1], "mcs") == 0 ? MC2_MCS : MC2_TICKET;
    check_no_cell();
    failed_opens();
    closing();
    freed_early();
    wrong_states();
    full_log();
    looks();
    printf("%ld results\n", results);
    return 0;
}
