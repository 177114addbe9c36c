/* use: by_name ticket|mcs

   Makes each call by its name on an object of each kind: the reply is badcall exactly at an object of another kind, and each call
   is an event of the log. Then calls by name while another caller holds the lock, and while another joins the line. Prints how many
   results it has checked.

   Status: 0; 1 if a result differs from what the headers say; 2 for wrong words. */
#include "mc2_cells.h"
#include <stdio.h>
#include <stdlib.h>
#include <string.h>

enum { SIZE = 8, FIRST = 3, SECOND = 1, NO_REPLY = 77 };

static const uint32_t KIND_OF[MC2_CALL_WORDS] = {
    [MC2_ENQ] = MC2_QUEUE, [MC2_DEQ] = MC2_QUEUE, [MC2_REMOVE] = MC2_QUEUE, [MC2_LEN] = MC2_QUEUE,
    [MC2_ALLOC] = MC2_POOL, [MC2_FREE] = MC2_POOL, [MC2_LEFT] = MC2_POOL,
    [MC2_PUT] = MC2_CONSOLE, [MC2_GET] = MC2_CONSOLE, [MC2_LEVEL] = MC2_CONSOLE,
    [MC2_READY] = MC2_SCHED, [MC2_NEXT] = MC2_SCHED, [MC2_SLEEP] = MC2_SCHED, [MC2_WAKE] = MC2_SCHED, [MC2_WAKEALL] = MC2_SCHED,
};

static long results;
static uint32_t lock;

static void must(uint32_t result, uint32_t wanted, const char *what) {
    results++;
    if (result == wanted)
        return;
    fprintf(stderr, "by_name: %s: %u, and not %u\n", what, (unsigned)result, (unsigned)wanted);
    exit(1);
}

static void must_be(bool is, const char *what) { must(is, true, what); }

static struct mc2_object object_of(uint32_t kind) {
    struct mc2_object object = {"shared", kind, lock, 100, SIZE, SIZE, NULL};
    return object;
}

/* The call with the numbers FIRST and SECOND, by its name. */
static uint32_t call_named(struct mc2_caller *caller, uint32_t word, struct mc2_reply *reply) {
    switch (word) {
    case MC2_ENQ: return mc2_queue_enq(caller, FIRST, reply);
    case MC2_DEQ: return mc2_queue_deq(caller, reply);
    case MC2_REMOVE: return mc2_queue_remove(caller, FIRST, reply);
    case MC2_LEN: return mc2_queue_len(caller, reply);
    case MC2_ALLOC: return mc2_pool_alloc(caller, FIRST, reply);
    case MC2_FREE: return mc2_pool_free(caller, FIRST, SECOND, reply);
    case MC2_LEFT: return mc2_pool_left(caller, reply);
    case MC2_PUT: return mc2_console_put(caller, FIRST, reply);
    case MC2_GET: return mc2_console_get(caller, reply);
    case MC2_LEVEL: return mc2_console_level(caller, reply);
    case MC2_READY: return mc2_sched_ready(caller, FIRST, reply);
    case MC2_NEXT: return mc2_sched_next(caller, reply);
    case MC2_SLEEP: return mc2_sched_sleep(caller, FIRST, SECOND, reply);
    case MC2_WAKE: return mc2_sched_wake(caller, FIRST, reply);
    default: return mc2_sched_wakeall(caller, FIRST, reply);
    }
}

/* Whether the step is of this call and reply; a call has none, one or both of the numbers. */
static bool is_step(const struct mc2_step *step, uint32_t word, struct mc2_reply reply) {
    struct mc2_call call = step->call;
    bool are_numbers = (call.first == FIRST || call.first == 0) && (call.second == SECOND || call.second == 0);
    return call.word == word && are_numbers && step->reply == reply.word && step->number == reply.number;
}

static void each_call(uint32_t kind) {
    struct mc2_object object = object_of(kind);
    struct mc2_reply replies[MC2_CALL_WORDS];
    struct mc2_logged_step logged;
    struct mc2_cell cell;
    struct mc2_caller caller;
    must(mc2_cell_open(&cell, &object, &caller, 1), MC2_DONE, "opening");
    for (uint32_t word = 0; word < MC2_CALL_WORDS; word++) {
        replies[word] = (struct mc2_reply){NO_REPLY, 0};
        must(call_named(&caller, word, &replies[word]), MC2_DONE, "a call");
        must_be(mc2_caller_looks(&caller) == (lock == MC2_TICKET), "its looks");
        must_be((replies[word].word == MC2_BADCALL) == (KIND_OF[word] != kind), "badcall only at another kind");
        must_be(replies[word].word < MC2_REPLY_WORDS, "its reply");
    }
    must(mc2_cell_close(&cell, &caller, 1), MC2_DONE, "closing");
    for (uint32_t word = 0; word < MC2_CALL_WORDS; word++) {
        must(mc2_cell_read_step(&cell, word, 0, &logged), MC2_DONE, "its step");
        must_be(is_step(&logged.step, word, replies[word]), "the step of that call, with its reply");
    }
    mc2_cell_free(&cell, NULL, 0);
}

/* The number of threads in the queue, by the call's number and without waiting. */
static uint32_t poll_len(struct mc2_caller *caller, struct mc2_reply *reply, uint64_t *looks) {
    struct mc2_call len = mc2_call_of(MC2_LEN, 0, 0);
    return mc2_poll_call(caller, &len, reply, looks);
}

/* The third caller joins the line after the second, whose call is held up by it. */
static void held(struct mc2_caller *second, struct mc2_caller *third) {
    struct mc2_reply reply = {NO_REPLY, 0};
    uint64_t looks = 0;
    must(mc2_acquire_step(third), MC2_STEPPED, "clearing, or drawing");
    if (lock == MC2_MCS)
        must(mc2_acquire_step(third), MC2_STEPPED, "entering");
    must(poll_len(second, &reply, &looks), lock == MC2_MCS ? MC2_DONE_HELD : MC2_DONE, "a call that continues");
    must_be(reply.word == MC2_COUNT && reply.number == 1 && looks == 1, "its reply, by one look");
    if (lock == MC2_MCS) {
        must(poll_len(second, &reply, &looks), MC2_REFUSED, "a call by the holder");
        must(mc2_release_step(second), MC2_AGAIN, "releasing before the other has linked itself");
        must(mc2_acquire_step(third), MC2_STEPPED, "arming");
        must(mc2_acquire_step(third), MC2_STEPPED, "linking");
        must(mc2_release(second), MC2_DONE, "releasing");
    }
    must(mc2_poll_deq(third, &reply, &looks), MC2_DONE, "a call at its look");
    must_be(reply.word == MC2_THREAD && reply.number == FIRST && looks == 2, "its reply, by one look");
}

static void in_line(void) {
    struct mc2_object object = object_of(MC2_QUEUE);
    struct mc2_cell cell;
    struct mc2_caller callers[3];
    struct mc2_reply reply = {NO_REPLY, 0};
    uint64_t looks = 0;
    must(mc2_cell_open(&cell, &object, callers, 3), MC2_DONE, "opening");
    must(mc2_queue_enq(&callers[0], FIRST, &reply), MC2_DONE, "a call");
    must(mc2_try_acquire(&callers[0]), MC2_DONE, "a try");
    reply.word = NO_REPLY, looks = 0;
    must(poll_len(&callers[0], &reply, &looks), MC2_REFUSED, "a call by the holder");
    must(mc2_queue_len(&callers[0], &reply), MC2_REFUSED, "the same, if it may wait");
    must(poll_len(&callers[1], &reply, &looks), MC2_AGAIN, "a call that has to wait");
    must(mc2_poll_enq(&callers[1], FIRST, &reply, &looks), MC2_AGAIN, "another, which has to wait too");
    must_be(looks == 2 && reply.word == NO_REPLY, "two looks, and no reply");
    must(mc2_release(&callers[0]), MC2_DONE, "releasing");
    looks = 0;
    held(&callers[1], &callers[2]);
    must(mc2_cell_close(&cell, callers, 3), MC2_DONE, "closing");
    mc2_cell_free(&cell, NULL, 0);
}

int main(int count, char **words) {
    if (count != 2 || (strcmp(words[1], "ticket") != 0 && strcmp(words[1], "mcs") != 0)) {
        fputs("use: by_name ticket|mcs\n", stderr);
        return 2;
    }
    lock = strcmp(words[1], "mcs") == 0 ? MC2_MCS : MC2_TICKET;
    for (uint32_t kind = 0; kind < MC2_KINDS; kind++)
        each_call(kind);
    in_line();
    printf("%ld results\n", results);
    return 0;
}
