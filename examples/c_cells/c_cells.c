/* use: c_cells ticket|mcs queue|pool|console|sched [THREADS [CALLS]]

   THREADS threads (default: 8) make CALLS calls each (default: 10,000) on the object of one cell, each thread by its own caller. They
   take turns with mc2_cell_call, a call between mc2_acquire and mc2_release, one after mc2_try_acquire, mc2_cell_try_call, and
   batches of 1 to 8 calls; a try that finds the lock busy is followed by a call that waits. Prints the record, which `mc2 audit`
   judges.

   Status: 0; 1 if a call returns a result that it can't; 2 for wrong words; 3 if there is no memory or no thread. */
#include "mc2_cells_record.h"
#include <pthread.h>

enum { MOST_THREADS = MC2_MOST_CPUS, MOST_CALLS = MC2_MOST_ENTRIES };

struct worker {
    pthread_t thread;
    struct mc2_caller *caller;
    uint32_t kind, calls, random;
    struct mc2_cell_note *notes;
};

static void must(uint32_t result, uint32_t wanted, const char *what) {
    if (result == wanted)
        return;
    fprintf(stderr, "c_cells: %s: %s\n", what, mc2_result_text(result));
    exit(result == MC2_NO_MEMORY ? 3 : 1);
}

static uint32_t draw(struct worker *worker, uint32_t below) {
    worker->random = worker->random * 1664525u + 1013904223u;
    return (worker->random >> 8) % below;
}

static struct mc2_call any_call(struct worker *worker) {
    static const uint32_t first[] = {MC2_ENQ, MC2_ALLOC, MC2_PUT, MC2_READY}, words[] = {4, 3, 3, 5};
    uint32_t word = first[worker->kind] + draw(worker, words[worker->kind]);
    return mc2_call_of(word, draw(worker, 16), draw(worker, 16));
}

/* Performs the call and releases the lock, which the caller holds. */
static void apply_and_release(struct worker *worker, struct mc2_cell_note *note) {
    note->result = mc2_apply(worker->caller, note->asked.calls, note->replies.replies);
    must(mc2_release(worker->caller), MC2_DONE, "release");
}

static void acquire_and_apply(struct worker *worker, struct mc2_cell_note *note) {
    must(mc2_acquire(worker->caller), MC2_DONE, "acquire");
    note->looks = mc2_caller_looks(worker->caller);
    apply_and_release(worker, note);
}

static void call_whole(struct worker *worker, struct mc2_cell_note *note) {
    note->result = mc2_cell_call(worker->caller, note->asked.calls, note->replies.replies);
    note->looks = mc2_caller_looks(worker->caller);
}

static void try_and_apply(struct worker *worker, struct mc2_cell_note *note) {
    uint32_t tried = mc2_try_acquire(worker->caller);
    note->looks = 1;
    if (tried == MC2_DONE) {
        apply_and_release(worker, note);
    } else {
        must(tried, MC2_BUSY, "try");
        acquire_and_apply(worker, note);
    }
}

static void try_whole(struct worker *worker, struct mc2_cell_note *note) {
    note->looks = 1;
    note->result = mc2_cell_try_call(worker->caller, note->asked.calls, note->replies.replies);
    if (note->result == MC2_BUSY)
        call_whole(worker, note);
}

static void call_batch(struct worker *worker, struct mc2_cell_note *note) {
    note->result = mc2_cell_batch(worker->caller, &note->asked, &note->replies);
    note->looks = mc2_caller_looks(worker->caller);
}

static void call(struct worker *worker, struct mc2_cell_note *note, uint32_t way) {
    note->asked.count = way >= 5 ? 1 + draw(worker, MC2_MOST_CALLS) : 1;
    for (uint32_t at = 0; at < note->asked.count; at++)
        note->asked.calls[at] = any_call(worker);
    note->replies.count = 1;
    if (way < 2)
        call_whole(worker, note);
    else if (way == 2)
        acquire_and_apply(worker, note);
    else if (way == 3)
        try_and_apply(worker, note);
    else if (way == 4)
        try_whole(worker, note);
    else
        call_batch(worker, note);
    if (note->result != MC2_LOG_FULL)
        must(note->result, MC2_DONE, "call");
}

static void *work(void *given) {
    struct worker *worker = given;
    for (uint32_t at = 0; at < worker->calls; at++)
        call(worker, &worker->notes[at], at % 8);
    return NULL;
}

static void run(struct mc2_cell *cell, struct worker *workers, uint32_t threads) {
    must(mc2_cell_close(cell, NULL, 0), MC2_REFUSED, "closing too early");
    for (uint32_t at = 0; at < threads; at++)
        if (pthread_create(&workers[at].thread, NULL, work, &workers[at]) != 0)
            must(MC2_NO_MEMORY, MC2_DONE, "a thread");
    for (uint32_t at = 0; at < threads; at++)
        pthread_join(workers[at].thread, NULL);
    for (uint32_t at = 0; at < threads; at++)
        must(mc2_release(workers[at].caller), MC2_REFUSED, "releasing a lock that isn't held");
}

static void print_record(struct mc2_cell *cell, const struct mc2_object *object, const struct worker *workers, uint32_t threads) {
    struct mc2_cell_noted noted[MOST_THREADS];
    for (uint32_t at = 0; at < threads; at++)
        noted[at] = (struct mc2_cell_noted){workers[at].notes, workers[at].calls};
    must((uint32_t)mc2_cell_write_record(cell, object, noted, threads, stdout), MC2_DONE, "writing");
}

static int place_of(const char *word, const char *const *words, int count) {
    int at = 0;
    while (at < count && strcmp(word, words[at]) != 0)
        at++;
    return at;
}

int main(int count, char **words) {
    static const char *const locks[] = {"ticket", "mcs"}, *const kinds[] = {"queue", "pool", "console", "sched"};
    static struct worker workers[MOST_THREADS];
    static struct mc2_caller callers[MOST_THREADS];
    int lock = count > 2 ? place_of(words[1], locks, 2) : 2, kind = count > 2 ? place_of(words[2], kinds, 4) : 4;
    long threads = count > 3 ? atol(words[3]) : 8, calls = count > 4 ? atol(words[4]) : 10000;
    if (lock == 2 || kind == 4 || count > 5 || threads < 1 || threads > MOST_THREADS || calls < 1 || calls > MOST_CALLS) {
        fputs("use: c_cells ticket|mcs queue|pool|console|sched [THREADS [CALLS]]\n", stderr);
        return 2;
    }
    struct mc2_object object = {"shared", (uint32_t)kind, (uint32_t)lock, MC2_MOST_EVENTS, 12, kind == MC2_SCHED ? 4 : 0, NULL};
    for (uint32_t at = 0; at < (uint32_t)threads; at++) {
        struct mc2_cell_note *notes = calloc((size_t)calls, sizeof *notes);
        must(notes ? MC2_DONE : MC2_NO_MEMORY, MC2_DONE, "memory");
        workers[at] = (struct worker){.caller = &callers[at], .kind = (uint32_t)kind, .calls = (uint32_t)calls, .random = at};
        workers[at].notes = notes;
    }
    struct mc2_cell cell;
    must(mc2_cell_open(&cell, &object, callers, (uint32_t)threads), MC2_DONE, "opening");
    run(&cell, workers, (uint32_t)threads);
    must(mc2_cell_close(&cell, callers, (uint32_t)threads), MC2_DONE, "closing");
    print_record(&cell, &object, workers, (uint32_t)threads);
    mc2_cell_free(&cell, NULL, 0);
    for (uint32_t at = 0; at < (uint32_t)threads; at++)
        free(workers[at].notes);
    return 0;
}
