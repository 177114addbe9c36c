/* Four threads share a queue of threads behind a lock: each enqueues its number and dequeues one. Then the cell is closed, and its
   log shows in which order the calls were made. The first comment of mc2_cells.h says how to link it.

   Status: 0; 1 if something failed. */
#include "mc2_cells.h"
#include <pthread.h>
#include <stdio.h>

enum { CPUS = 4 };

static struct mc2_caller callers[CPUS];

/* One CPU, which has its own caller. Returns NULL unless a call failed. */
static void *run(void *caller) {
    uint32_t cpu = (uint32_t)((struct mc2_caller *)caller - callers);
    struct mc2_reply reply;
    uint32_t failed = mc2_queue_enq(caller, cpu, &reply);
    if (!failed)
        failed = mc2_queue_deq(caller, &reply);
    if (failed)
        fprintf(stderr, "CPU %u: %s\n", (unsigned)cpu, mc2_result_text(failed));
    else
        printf("CPU %u dequeued thread %u\n", (unsigned)cpu, (unsigned)reply.number);
    return failed ? caller : NULL;
}

int main(void) {
    struct mc2_object queue = {"runq", MC2_QUEUE, MC2_MCS, 100, CPUS, 0, NULL};
    struct mc2_cell cell;
    pthread_t threads[CPUS];
    bool failed = false;
    int started = 0;
    if (mc2_cell_open(&cell, &queue, callers, CPUS))
        return 1;
    while (started < CPUS && !pthread_create(&threads[started], NULL, run, &callers[started]))
        started++;
    for (int at = 0; at < started; at++) {
        void *result;
        failed |= pthread_join(threads[at], &result) || result;
    }
    failed |= mc2_cell_close(&cell, callers, CPUS) != MC2_DONE;

    struct mc2_logged_step logged;
    for (size_t event = 0; !mc2_cell_read_step(&cell, event, 0, &logged); event++)
        printf("event %zu: CPU %u, %s\n", event, (unsigned)logged.cpu, logged.step.call.word == MC2_ENQ ? "enq" : "deq");
    mc2_cell_free(&cell, callers, CPUS);
    return failed || started < CPUS;
}
