/* use: reopened ticket|mcs [CALLS]

   An object outlives its log. Four threads make CALLS calls each (default: 100) on a queue with the named lock, and its cell is
   closed. It is reopened with the other lock, and its log continues until it is full. Then the log is read and dropped, and the
   cell is reopened for eight threads, each of which notes its events itself while it holds the lock. All three lives make one
   record, which is printed, and which `mc2 audit` judges.

   Status: 0; 1 if a call returns a result that it can't; 2 for wrong words; 3 if there is no memory or no thread. */
#include "mc2_cells.h"
#include "mc2_record.h"
#include <pthread.h>
#include <stdio.h>
#include <stdlib.h>
#include <string.h>

enum { FEW = 4, MANY = 8, QUEUE = 12, MOST_CALLS = 1000 };

struct worker {
    pthread_t thread;
    struct mc2_caller caller;
    uint32_t cpu, calls, random, refused;
};

static struct mc2_recorder recorder;
/* Whether the log is no longer kept, so that the holder of the lock notes the event. */
static bool is_dropped;

static void must(uint32_t result, uint32_t wanted, const char *what) {
    if (result == wanted)
        return;
    fprintf(stderr, "reopened: %s: %s\n", what, mc2_result_text(result));
    exit(result == MC2_NO_MEMORY ? 3 : 1);
}

static struct mc2_call any_call(struct worker *worker) {
    worker->random = worker->random * 1664525u + 1013904223u;
    return mc2_call_of(MC2_ENQ + (worker->random >> 8) % 4, (worker->random >> 12) % 16, 0);
}

/* One call, which a full log refuses. A call that was performed is an entry of the record. */
static void call(struct worker *worker) {
    struct mc2_call asked = any_call(worker);
    struct mc2_reply reply = {0, 0};
    must(mc2_acquire(&worker->caller), MC2_DONE, "acquire");
    uint64_t looks = mc2_caller_looks(&worker->caller);
    uint32_t result = mc2_apply(&worker->caller, &asked, &reply);
    struct mc2_step step = mc2_step_of(asked, reply.word, reply.number);
    if (is_dropped)
        must((uint32_t)mc2_recorder_event(&recorder, 0, worker->cpu, &step, 1), MC2_DONE, "noting an event");
    must(mc2_release(&worker->caller), MC2_DONE, "release");
    if (result == MC2_LOG_FULL) {
        worker->refused++;
        return;
    }
    must(result, MC2_DONE, "call");
    must((uint32_t)mc2_recorder_entry(&recorder, 0, worker->cpu, looks, &asked, 1, &step, true), MC2_DONE, "noting an entry");
}

static void *work(void *given) {
    struct worker *worker = given;
    for (uint32_t at = 0; at < worker->calls; at++)
        call(worker);
    return NULL;
}

/* Threads call a cell that was just opened, which is then closed. Returns how many calls were refused. */
static uint32_t live(struct mc2_cell *cell, struct worker *workers, uint32_t threads) {
    uint32_t refused = 0;
    for (uint32_t at = threads; at-- > 0;)
        must(mc2_caller_open(cell, &workers[at].caller), MC2_DONE, "a caller");
    for (uint32_t at = 0; at < threads; at++)
        if (pthread_create(&workers[at].thread, NULL, work, &workers[at]) != 0)
            must(MC2_NO_MEMORY, MC2_DONE, "a thread");
    for (uint32_t at = 0; at < threads; at++)
        pthread_join(workers[at].thread, NULL);
    for (uint32_t at = 0; at < threads; at++) {
        must(mc2_caller_close(cell, &workers[at].caller), MC2_DONE, "closing a caller");
        refused += workers[at].refused;
        workers[at].refused = 0;
    }
    must(mc2_cell_close(cell, NULL, 0), MC2_DONE, "closing");
    return refused;
}

static void note_events(struct mc2_cell *cell, uint32_t wanted) {
    struct mc2_logged_step logged;
    uint32_t event = 0;
    for (; mc2_cell_read_step(cell, event, 0, &logged) == MC2_DONE; event++)
        must((uint32_t)mc2_recorder_event(&recorder, 0, logged.cpu, &logged.step, 1), MC2_DONE, "noting an event");
    must(event, wanted, "the events of two lives");
}

int main(int count, char **words) {
    static struct worker workers[MANY];
    bool is_mcs = count > 1 && strcmp(words[1], "mcs") == 0;
    long calls = count > 2 ? atol(words[2]) : 100;
    if (count < 2 || count > 3 || (!is_mcs && strcmp(words[1], "ticket") != 0) || calls < 2 || calls > MOST_CALLS) {
        fputs("use: reopened ticket|mcs [CALLS]\n", stderr);
        return 2;
    }
    for (uint32_t at = 0; at < MANY; at++)
        workers[at] = (struct worker){.cpu = at, .calls = (uint32_t)calls, .random = at};
    uint32_t lock = is_mcs ? MC2_MCS : MC2_TICKET, other = is_mcs ? MC2_TICKET : MC2_MCS, asked = FEW * (uint32_t)calls;
    uint32_t room = asked + asked / 2;
    struct mc2_object object = {"shared", MC2_QUEUE, lock, room, QUEUE, 0, NULL}, whole = object;
    whole.events = MC2_MOST_EVENTS;
    /* A transcript keeps room for an entry beside each event, and here entries come first. */
    if (mc2_recorder_open(&recorder, &whole, 1, MANY, 6 * (uint32_t)calls) != MC2_DONE)
        must(MC2_NO_MEMORY, MC2_DONE, "the record");
    struct mc2_cell cell;
    must(mc2_cell_open(&cell, &object, NULL, FEW), MC2_DONE, "opening");
    must(live(&cell, workers, FEW), 0, "calls that the first life refused");
    must(mc2_cell_reopen(&cell, other, NULL, FEW), MC2_DONE, "reopening");
    must(live(&cell, workers, FEW), 2 * asked - room, "calls that the second life refused");
    note_events(&cell, room);
    must(mc2_cell_drop_log(&cell), MC2_DONE, "dropping the log");
    must(mc2_cell_reopen(&cell, lock, NULL, MANY), MC2_DONE, "reopening without a log");
    is_dropped = true;
    must(live(&cell, workers, MANY), 0, "calls that the third life refused");
    must((uint32_t)mc2_recorder_write(&recorder, stdout), MC2_DONE, "writing");
    mc2_recorder_close(&recorder);
    mc2_cell_free(&cell, NULL, 0);
    return 0;
}
