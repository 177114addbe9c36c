/* use: speed KIND THREADS CALLS [unkept]

   THREADS threads call one queue of 8 threads CALLS times each, `enq` and `deq` in turn, and each call is an event of a log.
   Prints the nanoseconds from the first thread's start to the last one's end, and the page faults in between. The memory of
   each kind's log is written before, so only the threads' stacks fault.

   KIND    name-ticket, name-mcs: a cell of crates/cells, by calls with names (mc2_queue_enq, mc2_queue_deq)
           cell-ticket, cell-mcs: the same by whole calls (mc2_cell_call)
           steps-ticket, steps-mcs: the same by single steps (mc2_acquire, mc2_apply, mc2_release)
           mutex: a queue in C with a log, as simple as one would write it, behind a pthread_mutex_t
           ck-ticket, ck-mcs: the same queue behind a lock of Concurrency Kit, with WITH_CK
   unkept  no kind keeps a log

   Status: 0; 1 if a call returns a result that it can't; 2 for wrong words. */
#include "mc2_cells.h"
#include <pthread.h>
#include <stdio.h>
#include <stdlib.h>
#include <string.h>
#include <sys/resource.h>
#include <time.h>
#ifdef WITH_CK
#include <ck_spinlock.h>
#endif

enum { MOST_THREADS = 8, QUEUE = 8 };

/* ---- the baseline: a queue with its log, or without */

struct event { uint32_t cpu; struct mc2_call call; struct mc2_reply reply; };

static struct {
    uint32_t ring[QUEUE], first, count;
    unsigned char in[QUEUE];
    struct event log[MC2_MOST_EVENTS];
    size_t events;
} plain;

static int is_kept;

static struct mc2_reply queue_call(const struct mc2_call *call) {
    struct mc2_reply reply = {MC2_OK, 0};
    uint32_t thread = call->first;
    if (call->word == MC2_DEQ) {
        if (plain.count == 0) {
            reply.word = MC2_EMPTY;
            return reply;
        }
        reply.word = MC2_THREAD;
        reply.number = plain.ring[plain.first];
        plain.first = (plain.first + 1) % QUEUE;
        plain.count--;
        plain.in[reply.number] = 0;
    } else if (thread >= QUEUE) {
        reply.word = MC2_BADTHREAD;
    } else if (plain.in[thread]) {
        reply.word = MC2_ALREADY;
    } else {
        plain.ring[(plain.first + plain.count++) % QUEUE] = thread;
        plain.in[thread] = 1;
    }
    return reply;
}

static void call_plain(uint32_t cpu, const struct mc2_call *call, struct mc2_reply *reply) {
    *reply = queue_call(call);
    if (is_kept)
        plain.log[plain.events++] = (struct event){cpu, *call, *reply};
}

/* ---- the kinds */

static struct mc2_cell cell;
static struct mc2_caller callers[MOST_THREADS];
static pthread_mutex_t mutex = PTHREAD_MUTEX_INITIALIZER;
#ifdef WITH_CK
static ck_spinlock_ticket_t ck_ticket = CK_SPINLOCK_TICKET_INITIALIZER;
static ck_spinlock_mcs_t ck_mcs = CK_SPINLOCK_MCS_INITIALIZER;
#endif

typedef int (*caller_t)(uint32_t cpu, const struct mc2_call *call, struct mc2_reply *reply);

static int by_name(uint32_t cpu, const struct mc2_call *call, struct mc2_reply *reply) {
    struct mc2_caller *caller = &callers[cpu];
    if (call->word == MC2_ENQ)
        return mc2_queue_enq(caller, call->first, reply) == MC2_DONE;
    return mc2_queue_deq(caller, reply) == MC2_DONE;
}

static int by_cell(uint32_t cpu, const struct mc2_call *call, struct mc2_reply *reply) {
    return mc2_cell_call(&callers[cpu], call, reply) == MC2_DONE;
}

static int by_steps(uint32_t cpu, const struct mc2_call *call, struct mc2_reply *reply) {
    if (mc2_acquire(&callers[cpu]))
        return 0;
    uint32_t result = mc2_apply(&callers[cpu], call, reply);
    return mc2_release(&callers[cpu]) == MC2_DONE && result == MC2_DONE;
}

static int by_mutex(uint32_t cpu, const struct mc2_call *call, struct mc2_reply *reply) {
    pthread_mutex_lock(&mutex);
    call_plain(cpu, call, reply);
    pthread_mutex_unlock(&mutex);
    return 1;
}

#ifdef WITH_CK
static int by_ck_ticket(uint32_t cpu, const struct mc2_call *call, struct mc2_reply *reply) {
    ck_spinlock_ticket_lock(&ck_ticket);
    call_plain(cpu, call, reply);
    ck_spinlock_ticket_unlock(&ck_ticket);
    return 1;
}

static int by_ck_mcs(uint32_t cpu, const struct mc2_call *call, struct mc2_reply *reply) {
    ck_spinlock_mcs_context_t context;
    ck_spinlock_mcs_lock(&ck_mcs, &context);
    call_plain(cpu, call, reply);
    ck_spinlock_mcs_unlock(&ck_mcs, &context);
    return 1;
}
#endif

static const struct { const char *name; caller_t call; int lock; } KINDS[] = {
    {"name-ticket", by_name, MC2_TICKET}, {"name-mcs", by_name, MC2_MCS},
    {"cell-ticket", by_cell, MC2_TICKET}, {"cell-mcs", by_cell, MC2_MCS}, {"mutex", by_mutex, -1},
    {"steps-ticket", by_steps, MC2_TICKET}, {"steps-mcs", by_steps, MC2_MCS},
#ifdef WITH_CK
    {"ck-ticket", by_ck_ticket, -1}, {"ck-mcs", by_ck_mcs, -1},
#endif
};

/* ---- the run */

static caller_t call;
static long calls;
static pthread_barrier_t start;

static void *work(void *given) {
    uint32_t cpu = (uint32_t)(size_t)given;
    pthread_barrier_wait(&start);
    for (long at = 0; at < calls; at++) {
        struct mc2_call asked = mc2_call_of(at % 2 ? MC2_DEQ : MC2_ENQ, at % 2 ? 0 : cpu, 0);
        struct mc2_reply reply;
        if (!call(cpu, &asked, &reply))
            exit(1);
    }
    return NULL;
}

static void open_cell(int lock, uint32_t threads) {
    struct mc2_object object = {"shared", MC2_QUEUE, (uint32_t)lock, is_kept ? MC2_MOST_EVENTS : 0, QUEUE, 0, NULL};
    if (mc2_cell_open(&cell, &object, callers, threads))
        exit(1);
}

static long long now(void) {
    struct timespec time;
    clock_gettime(CLOCK_MONOTONIC, &time);
    return time.tv_sec * 1000000000LL + time.tv_nsec;
}

static long faults(void) {
    struct rusage used;
    getrusage(RUSAGE_SELF, &used);
    return used.ru_minflt;
}

static int run(long threads) {
    pthread_t started[MOST_THREADS];
    pthread_barrier_init(&start, NULL, (unsigned)threads + 1);
    for (long at = 0; at < threads; at++)
        if (pthread_create(&started[at], NULL, work, (void *)(size_t)at) != 0)
            return 1;
    long met = faults();
    long long began = now();
    pthread_barrier_wait(&start);
    for (long at = 0; at < threads; at++)
        pthread_join(started[at], NULL);
    long long took = now() - began;
    printf("%lld %ld\n", took, faults() - met);
    return 0;
}

int main(int count, char **words) {
    size_t kind = 0, kinds = sizeof KINDS / sizeof *KINDS;
    while (count > 3 && kind < kinds && strcmp(words[1], KINDS[kind].name) != 0)
        kind++;
    long threads = count > 3 ? atol(words[2]) : 0;
    calls = count > 3 ? atol(words[3]) : 0;
    is_kept = count != 5 || strcmp(words[4], "unkept") != 0;
    if (count != (is_kept ? 4 : 5) || kind == kinds || threads < 1 || threads > MOST_THREADS || calls < 1)
        return 2;
    if (is_kept && calls > MC2_MOST_EVENTS / threads)
        return 2;
    call = KINDS[kind].call;
    /* a cell that is opened writes its log's memory, so the baseline's is written too */
    if (KINDS[kind].lock >= 0)
        open_cell(KINDS[kind].lock, (uint32_t)threads);
    memset(plain.log, 1, sizeof plain.log);
    return run(threads);
}
