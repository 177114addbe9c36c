/* use: unkept ticket|mcs [CALLS]

   Two threads call one queue, whose log isn't kept in memory. Each makes half of CALLS calls (default: 200,000): however many they
   are, all are performed. Prints how many were performed, and by how many KiB the memory grew in the second half.

   Status: 0; 1 if a call returns a result that it can't, or if the memory grew by more than 1 MiB; 2 for wrong words; 3 if there
   is no memory or no thread. */
#include "mc2_cells.h"
#include <pthread.h>
#include <stdio.h>
#include <stdlib.h>
#include <string.h>
#include <sys/resource.h>

enum { THREADS = 2, QUEUE = 8, MOST_GROWTH = 1024 };

struct worker {
    pthread_t thread;
    struct mc2_caller caller;
    uint32_t calls, done;
    /* The threads that it has enqueued, less those that it has dequeued. */
    int64_t put;
};

static void must(uint32_t result, uint32_t wanted, const char *what) {
    if (result == wanted)
        return;
    fprintf(stderr, "unkept: %s: %s\n", what, mc2_result_text(result));
    exit(result == MC2_NO_MEMORY ? 3 : 1);
}

static struct mc2_reply call(struct mc2_caller *caller, uint32_t word, uint32_t thread) {
    struct mc2_call asked = {word, thread, 0};
    struct mc2_reply reply = {0, 0};
    must(mc2_cell_call(caller, &asked, &reply), MC2_DONE, "call");
    return reply;
}

static void *work(void *given) {
    struct worker *worker = given;
    for (uint32_t at = 0; at < worker->calls; at++, worker->done++)
        if (at % 2 == 0)
            worker->put += call(&worker->caller, MC2_ENQ, at % QUEUE).word == MC2_OK;
        else
            worker->put -= call(&worker->caller, MC2_DEQ, 0).word == MC2_THREAD;
    return NULL;
}

/* Has each worker make `calls` calls. Returns the most memory that the process has had, in KiB. */
static long after_calls(struct worker *workers, uint32_t calls) {
    for (int at = 0; at < THREADS; at++) {
        workers[at].calls = calls;
        if (pthread_create(&workers[at].thread, NULL, work, &workers[at]) != 0)
            must(MC2_NO_MEMORY, MC2_DONE, "a thread");
    }
    for (int at = 0; at < THREADS; at++)
        pthread_join(workers[at].thread, NULL);
    struct rusage used;
    getrusage(RUSAGE_SELF, &used);
    return used.ru_maxrss;
}

/* Opening for more events than can be kept fails, and so does opening a queue of no threads. Nothing is left to be freed. */
static void open_wrongly(struct mc2_object object) {
    struct mc2_cell cell;
    object.events = MC2_MOST_EVENTS + 1;
    must(mc2_cell_open(&cell, &object, NULL, THREADS), MC2_BAD_PARAM, "opening for too many events");
    object.events = 0;
    object.size = 0;
    must(mc2_cell_open(&cell, &object, NULL, THREADS), MC2_BAD_PARAM, "opening a queue of no threads");
}

/* Closes the cell, whose log has no step to be read. */
static void end(struct mc2_cell *cell, struct worker *workers) {
    struct mc2_logged_step step;
    for (int at = 0; at < THREADS; at++)
        must(mc2_caller_close(cell, &workers[at].caller), MC2_DONE, "closing a caller");
    must(mc2_cell_read_step(cell, 0, 0, &step), MC2_NOT_FOUND, "a step of an open cell");
    must(mc2_cell_close(cell, NULL, 0), MC2_DONE, "closing");
    must(mc2_cell_read_step(cell, 0, 0, &step), MC2_NOT_FOUND, "the first step of a log that isn't kept");
    mc2_cell_free(cell, NULL, 0);
}

int main(int count, char **words) {
    static struct worker workers[THREADS];
    bool is_mcs = count > 1 && strcmp(words[1], "mcs") == 0;
    long calls = count > 2 ? atol(words[2]) : 200000;
    if (count < 2 || count > 3 || (!is_mcs && strcmp(words[1], "ticket") != 0) || calls < 1 || calls > 1000000000) {
        fputs("use: unkept ticket|mcs [CALLS]\n", stderr);
        return 2;
    }
    struct mc2_object object = {"shared", MC2_QUEUE, is_mcs ? MC2_MCS : MC2_TICKET, 0, QUEUE, 0, NULL};
    struct mc2_cell cell;
    open_wrongly(object);
    must(mc2_cell_open(&cell, &object, NULL, THREADS), MC2_DONE, "opening");
    for (int at = THREADS; at-- > 0;)
        must(mc2_caller_open(&cell, &workers[at].caller), MC2_DONE, "a caller");
    uint32_t half = (uint32_t)calls / (2 * THREADS);
    long before = after_calls(workers, half), grown = after_calls(workers, (uint32_t)calls / THREADS - half) - before;
    struct mc2_reply left = call(&workers[0].caller, MC2_LEN, 0);
    must(left.number, (uint32_t)(workers[0].put + workers[1].put), "the threads in the queue");
    end(&cell, workers);
    printf("%u calls, %ld KiB more\n", workers[0].done + workers[1].done, grown);
    return grown > MOST_GROWTH;
}
