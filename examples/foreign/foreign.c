// A small kernel with a queue, a page pool and a console behind locks of its own. Threads act as its CPUs. It records what they do
// by include/mc2_record.h, and prints the record; docs/RECORDS.md explains it. Nothing here is proved.
//
//     cc -std=c11 -O2 -pthread -o /tmp/foreign examples/foreign/foreign.c
//     /tmp/foreign LOCK [FAULT [CPUS [SECTIONS [EVENTS]]]]
//
// LOCK is mutex, ticket or mcs. FAULT is right (no fault, the default), or a fault to plant:
//     unlocked  no CPU acquires the lock
//     early     the lock is released before the work is done
//     outside   events are noted after the lock was released
//     drops     each hundredth enq gets a reply, and its thread is lost
//     twice     a deq is noted twice
//     swapped   a CPU notes two entries in the wrong order
// CPUS is 1 to 64 (4), with a fault 2 to 64; SECTIONS the critical sections of each CPU, of 1 to 3 calls, 1 to 9,000 (1,000); EVENTS
// the most events of each log, 1 to 65,536 (65,536). The status is 0, 2 for wrong words, and 3 where something is refused.
#define _POSIX_C_SOURCE 200809L
#include "locks.h"
#include "objects.h"

enum fault { RIGHT, UNLOCKED, EARLY, OUTSIDE, DROPS, TWICE, SWAPPED, FAULTS };
// A CPU has at most 3 entries more than sections, and one event is noted twice.
enum { MOST_ASKED = 3, MORE_ENTRIES = 4 };

static const char *const lock_words[] = {"mutex", "ticket", "mcs"};
static const char *const fault_words[] = {"right", "unlocked", "early", "outside", "drops", "twice", "swapped"};

static enum fault fault;
static unsigned cpus = 4, sections = 1000, events = MC2_MOST_EVENTS;
static struct lock locks[OBJECTS];
static struct mc2_recorder recorder;
// The stage of the opening.
static atomic_uint stage;

// The calls of a CPU, and what was done.
struct work {
    unsigned cpu, object, asked, done;
    uint64_t looks;
    struct mc2_call calls[MOST_ASKED];
    struct mc2_step steps[MOST_ASKED];
};

static void refuse(const char *what, int status) {
    fprintf(stderr, "foreign: %s\n", what);
    exit(status);
}

static void must(int result) {
    if (result != MC2_DONE)
        refuse(mc2_result_text(result), 3);
}

static void await(unsigned wanted) {
    while (atomic_load(&stage) < wanted)
        sched_yield();
}

// Does the calls, up to the first that is refused.
static void do_calls(struct work *work) {
    do
        work->steps[work->done] = answer(work->object, work->calls[work->done]);
    while (!mc2_refuses(work->steps[work->done++].reply) && work->done < work->asked);
}

// One critical section, with its event.
static void do_work(struct work *work) {
    struct lock *lock = &locks[work->object];
    ck_spinlock_mcs_context_t node;
    work->looks = acquire(lock, &node);
    int room = mc2_recorder_room(&recorder, work->object, work->cpu);
    if (room == MC2_DONE) {
        do_calls(work);
        must(mc2_recorder_event(&recorder, work->object, work->cpu, work->steps, work->done));
    }
    release(lock, &node);
    if (room != MC2_LOG_FULL)
        must(room);
}

// Notes the entry. If the log had no room, nothing was done.
static void note(const struct work *work) {
    must(mc2_recorder_entry(&recorder, work->object, work->cpu, work->looks, work->calls, work->asked, work->steps, work->done));
}

// Lets CPU 1 do its part of the opening, if it hasn't done it yet.
static void let_the_other_in(void) {
    unsigned none = 0;
    if (atomic_compare_exchange_strong(&stage, &none, 1))
        await(2);
}

static int note_event(const struct work *work) {
    return mc2_recorder_event(&recorder, work->object, work->cpu, work->steps, work->done);
}

// Returns whether this is the first deq that took a thread. Called under the queue's lock.
static bool is_first_taken(const struct work *work) {
    static bool is_taken;
    bool is_first = !is_taken && work->steps[0].reply == MC2_THREAD;
    is_taken = is_taken || is_first;
    return is_first;
}

// As do_work, with one of the faults.
static void do_wrongly(struct work *work) {
    struct lock *lock = &locks[work->object];
    ck_spinlock_mcs_context_t node;
    if (fault != UNLOCKED)
        work->looks = acquire(lock, &node);
    int room = mc2_recorder_room(&recorder, work->object, work->cpu);
    if (fault == EARLY)
        release(lock, &node);
    if (room == MC2_DONE)
        do_calls(work);
    if (fault == OUTSIDE) {
        release(lock, &node);
        let_the_other_in();
    }
    must(room == MC2_DONE ? note_event(work) : room == MC2_LOG_FULL ? MC2_DONE : room);
    if (fault == TWICE) {
        if (room == MC2_DONE && work->object == QUEUE && is_first_taken(work))
            must(note_event(work));
        release(lock, &node);
    }
}

static void do_and_note(struct work *work) {
    if (fault == RIGHT || fault == DROPS || fault == SWAPPED)
        do_work(work);
    else
        do_wrongly(work);
    note(work);
}

static void do_one(unsigned cpu, unsigned object, struct mc2_call call) {
    struct work work = {.cpu = cpu, .object = object, .asked = 1, .calls = {call}};
    do_and_note(&work);
}

// CPU 0 does two sections on two objects, with both sections of CPU 1 between them, and notes the second one first.
static void do_two_swapped(void) {
    struct work first = {.object = QUEUE, .asked = 1, .calls = {mc2_call_of(MC2_ENQ, 3, 0)}};
    struct work second = {.object = POOL, .asked = 1, .calls = {mc2_call_of(MC2_ALLOC, 0, 0)}};
    do_work(&first);
    let_the_other_in();
    do_work(&second);
    note(&second);
    note(&first);
}

// The first sections of CPUs 0 and 1, in the same order in each run. So a fault that depends on timing always shows: CPU 0 waits in
// the middle of it, until CPU 1 has done its part.
static void do_opening(unsigned cpu) {
    if (cpu == 0) {
        if (fault == SWAPPED)
            do_two_swapped();
        else {
            do_one(0, QUEUE, mc2_call_of(MC2_ENQ, 3, 0));
            do_one(0, QUEUE, mc2_call_of(MC2_DEQ, 0, 0));
        }
        if (cpus > 1)
            let_the_other_in();
        atomic_store(&stage, 3);
    } else if (cpu == 1) {
        await(1);
        do_one(1, QUEUE, mc2_call_of(MC2_DEQ, 0, 0));
        do_one(1, POOL, mc2_call_of(MC2_LEFT, 0, 0));
        atomic_store(&stage, 2);
    }
    await(3);
}

// Returns a number below the bound. The same seed gives the same numbers.
static unsigned below(unsigned bound, uint64_t *seed) {
    *seed ^= *seed << 13;
    *seed ^= *seed >> 7;
    *seed ^= *seed << 17;
    return (unsigned)((*seed >> 24) % bound);
}

// Returns a call on the object, and now and then one of another kind, or with a number that is out of range.
static struct mc2_call any_call(unsigned object, uint64_t *seed) {
    static const unsigned words[OBJECTS][4] = {{MC2_ENQ, MC2_DEQ, MC2_REMOVE, MC2_LEN},
                                               {MC2_ALLOC, MC2_FREE, MC2_LEFT, MC2_ALLOC},
                                               {MC2_PUT, MC2_GET, MC2_LEVEL, MC2_PUT}};
    static const unsigned chances[8] = {0, 0, 0, 1, 1, 2, 3, 3};
    unsigned of = below(64, seed) > 0 ? object : below(OBJECTS, seed);
    unsigned word = words[of][chances[below(8, seed)]];
    unsigned bound = of == QUEUE ? THREADS + 1 : of == CONSOLE ? 256 : below(16, seed) > 0 ? 2 : OWNERS + 1;
    return mc2_call_of(word, below(bound, seed), below(PAGES + 1, seed));
}

static struct work any_work(unsigned cpu, uint64_t *seed) {
    struct work work = {.cpu = cpu, .object = below(OBJECTS, seed), .asked = 1 + below(MOST_ASKED, seed)};
    for (unsigned at = 0; at < work.asked; at++)
        work.calls[at] = any_call(work.object, seed);
    return work;
}

static void *run_cpu(void *argument) {
    unsigned cpu = *(const unsigned *)argument;
    uint64_t seed = 88172645463325252u + 1000003u * cpu;
    do_opening(cpu);
    for (unsigned section = 0; section < sections; section++) {
        struct work work = any_work(cpu, &seed);
        do_and_note(&work);
    }
    return NULL;
}

static void start_cpus(pthread_t *threads) {
    static unsigned numbers[MC2_MOST_CPUS];
    for (unsigned cpu = 0; cpu < cpus; cpu++) {
        numbers[cpu] = cpu;
        if (pthread_create(&threads[cpu], NULL, run_cpu, &numbers[cpu]) != 0)
            refuse("a thread wasn't started", 3);
    }
}

static unsigned word_of(const char *word, const char *const *words, unsigned count, const char *what) {
    unsigned place = 0;
    while (place < count && strcmp(word, words[place]) != 0)
        place++;
    if (place == count)
        refuse(what, 2);
    return place;
}

static unsigned number_of(const char *word, unsigned long least, unsigned long most, const char *what) {
    char *end = NULL;
    unsigned long number = strtoul(word, &end, 10);
    if (word[0] < '0' || word[0] > '9' || *end || number < least || number > most)
        refuse(what, 2);
    return (unsigned)number;
}

static enum lock_kind read_words(int count, char **words) {
    if (count < 2 || count > 6)
        refuse("the words are LOCK [FAULT [CPUS [SECTIONS [EVENTS]]]]", 2);
    enum lock_kind kind = (enum lock_kind)word_of(words[1], lock_words, LOCK_KINDS, "LOCK is mutex, ticket or mcs");
    if (kind == MCS && !has_mcs)
        refuse("mcs is left out, as there was no ck_spinlock.h", 3);
    if (count > 2)
        fault = (enum fault)word_of(words[2], fault_words, FAULTS,
                                    "FAULT is right, unlocked, early, outside, drops, twice or swapped");
    if (count > 3)
        cpus = number_of(words[3], fault == RIGHT ? 1 : 2, MC2_MOST_CPUS, "CPUS is 1 to 64, with a fault 2 to 64");
    if (count > 4)
        sections = number_of(words[4], 1, 9000, "SECTIONS is 1 to 9,000");
    if (count > 5)
        events = number_of(words[5], 1, MC2_MOST_EVENTS, "EVENTS is 1 to 65,536");
    return kind;
}

static void open_objects(enum lock_kind kind) {
    unsigned lock = kind == MCS ? MC2_MCS : MC2_TICKET;
    const struct mc2_object objects[OBJECTS] = {{"threads", MC2_QUEUE, lock, events, THREADS, 0, NULL},
                                                {"pages", MC2_POOL, lock, events, PAGES, 0, NULL},
                                                {"console", MC2_CONSOLE, lock, events, BYTES, 0, NULL}};
    for (unsigned at = 0; at < OBJECTS; at++)
        if (!lock_open(&locks[at], kind))
            refuse("no mutex", 3);
    queue.drops = fault == DROPS;
    queue.in_the_middle = fault == UNLOCKED || fault == EARLY ? let_the_other_in : NULL;
    must(mc2_recorder_open(&recorder, objects, OBJECTS, cpus, sections + MORE_ENTRIES));
}

int main(int count, char **words) {
    pthread_t threads[MC2_MOST_CPUS];
    open_objects(read_words(count, words));
    start_cpus(threads);
    for (unsigned cpu = 0; cpu < cpus; cpu++)
        pthread_join(threads[cpu], NULL);
    // Threads that enqs have lost show here at the latest.
    do_one(0, QUEUE, mc2_call_of(MC2_LEN, 0, 0));
    must(mc2_recorder_write(&recorder, stdout));
    mc2_recorder_close(&recorder);
    return 0;
}
