// A small kernel with a queue and a page pool behind ticket locks of its own. Threads act as its CPUs. It records what they do by
// include/mc2_note.h, the smaller recorder of docs/RECORDS.md, and prints the record. Nothing here is proved.
//
//     cc -std=c11 -O2 -pthread -o /tmp/noted examples/foreign/noted.c
//     /tmp/noted [FAULT [CPUS [SECTIONS [EVENTS [PIECES]]]]]
//
// FAULT is right (no fault, the default), or a fault to plant:
//     unlocked  no CPU acquires the lock
//     early     the lock is released before the work is done
//     unnoted   CPU 1 doesn't note its first event
//     swapped   CPU 0 notes two sequence numbers of one object in the wrong order
// CPUS is 2 to 64 (4); SECTIONS the critical sections of each CPU, of 1 to 3 calls, 1 to 9,000 (1,000); EVENTS the most events of
// each log, 1 to 65,536 (65,536); PIECES the memory of each CPU, in pieces of 16 bytes, 9 to 40,000 (40,000). If a log or a memory
// is full, the kernel continues without notes. The status is 0, 2 for wrong words, and 3 where something is refused.
#define _POSIX_C_SOURCE 200809L
#include "locks.h"
#include "objects.h"
#include "../../include/mc2_note.h"

enum fault { RIGHT, UNLOCKED, EARLY, UNNOTED, SWAPPED, FAULTS };
enum { NOTED_OBJECTS = POOL + 1, MOST_ASKED = 3, MOST_PIECES = 40000 };

static const char *const fault_words[] = {"right", "unlocked", "early", "unnoted", "swapped"};
static enum fault fault;
static unsigned cpus = 4, sections = 1000, events = MC2_MOST_EVENTS, pieces = MOST_PIECES;
static struct lock locks[NOTED_OBJECTS];
static struct mc2_sequence sequences[NOTED_OBJECTS];
static struct mc2_notes notes[MC2_MOST_CPUS];
static union mc2_note_piece memory[MC2_MOST_CPUS][MOST_PIECES];
// The stage of the opening.
static atomic_uint stage;

// The calls of a CPU, what was done, and its sequence number.
struct work {
    unsigned object, asked, done;
    uint32_t seq;
    uint64_t looks;
    struct mc2_step steps[MOST_ASKED];
};

static void refuse(const char *what, int status) {
    fprintf(stderr, "noted: %s\n", what);
    exit(status);
}

static void must(int result) {
    if (result != MC2_DONE)
        refuse(mc2_result_text(result), 3);
}

static void await(unsigned wanted) {
    while (atomic_load(&stage) < wanted)
        sched_yield();
}

// Does the calls, up to the first that is refused.
static void do_calls(struct work *work) {
    do
        work->steps[work->done] = answer(work->object, work->steps[work->done].call);
    while (!mc2_refuses(work->steps[work->done++].reply) && work->done < work->asked);
}

// One critical section: the CPU takes its sequence number under the lock, and notes nothing there.
static void do_work(unsigned cpu, struct work *work) {
    struct lock *lock = &locks[work->object];
    ck_spinlock_mcs_context_t node;
    if (fault != UNLOCKED)
        work->looks = acquire(lock, &node);
    work->seq = mc2_next_seq(&sequences[work->object], &notes[cpu]);
    if (fault == EARLY)
        release(lock, &node);
    do_calls(work);
    if (fault != UNLOCKED && fault != EARLY)
        release(lock, &node);
}

// Notes the event. Work without a sequence number isn't noted.
static void note(unsigned cpu, const struct work *work) {
    int result = mc2_note(&notes[cpu], work->object, work->seq, work->looks, work->steps, work->asked, work->done);
    must(work->seq == MC2_NO_SEQ && result == MC2_LOG_FULL ? MC2_DONE : result);
}

static struct work work_of(unsigned object, struct mc2_call call) {
    struct work work = {.object = object, .asked = 1, .steps = {{call, 0, 0}}};
    return work;
}

static void do_one(unsigned cpu, unsigned object, struct mc2_call call) {
    struct work work = work_of(object, call);
    do_work(cpu, &work);
    note(cpu, &work);
}

// Lets CPU 1 do its part of the opening, if it hasn't done it yet.
static void let_the_other_in(void) {
    unsigned none = 0;
    if (atomic_compare_exchange_strong(&stage, &none, 1))
        await(2);
}

static void do_two_swapped(void) {
    struct work first = work_of(QUEUE, mc2_call_of(MC2_ENQ, 3, 0)), second = work_of(QUEUE, mc2_call_of(MC2_DEQ, 0, 0));
    do_work(0, &first);
    do_work(0, &second);
    note(0, &second);
    note(0, &first);
}

// The first sections of CPUs 0 and 1, in the same order in each run, so that each fault always shows: CPU 0 waits in the middle of
// its work until CPU 1 has done its part.
static void do_opening(unsigned cpu) {
    if (cpu == 0) {
        if (fault == SWAPPED)
            do_two_swapped();
        do_one(0, QUEUE, mc2_call_of(MC2_ENQ, 3, 0));
        do_one(0, QUEUE, mc2_call_of(MC2_DEQ, 0, 0));
        let_the_other_in();
        atomic_store(&stage, 3);
    } else if (cpu == 1) {
        await(1);
        struct work unnoted = work_of(POOL, mc2_call_of(MC2_LEFT, 0, 0));
        if (fault == UNNOTED)
            do_work(1, &unnoted);
        do_one(1, QUEUE, mc2_call_of(MC2_DEQ, 0, 0));
        atomic_store(&stage, 2);
    }
    await(3);
}

// Returns a number below the bound. The same seed gives the same numbers.
static unsigned below(unsigned bound, uint64_t *seed) {
    *seed ^= *seed << 13;
    *seed ^= *seed >> 7;
    *seed ^= *seed << 17;
    return (unsigned)((*seed >> 24) % bound);
}

static struct work any_work(uint64_t *seed) {
    static const unsigned words[NOTED_OBJECTS][4] = {{MC2_ENQ, MC2_DEQ, MC2_REMOVE, MC2_LEN},
                                                     {MC2_ALLOC, MC2_FREE, MC2_LEFT, MC2_ALLOC}};
    struct work work = {.object = below(NOTED_OBJECTS, seed), .asked = 1 + below(MOST_ASKED, seed)};
    for (unsigned at = 0; at < work.asked; at++)
        work.steps[at].call = mc2_call_of(words[work.object][below(4, seed)], below(THREADS + 1, seed), below(PAGES + 1, seed));
    return work;
}

static void *run_cpu(void *argument) {
    unsigned cpu = *(const unsigned *)argument;
    uint64_t seed = 88172645463325252u + 1000003u * cpu;
    do_opening(cpu);
    for (unsigned section = 0; section < sections; section++) {
        struct work work = any_work(&seed);
        do_work(cpu, &work);
        note(cpu, &work);
    }
    return NULL;
}

static unsigned number_of(const char *word, unsigned long least, unsigned long most, const char *what) {
    char *end = NULL;
    unsigned long number = strtoul(word, &end, 10);
    if (word[0] < '0' || word[0] > '9' || *end || number < least || number > most)
        refuse(what, 2);
    return (unsigned)number;
}

static void read_words(int count, char **words) {
    if (count > 6)
        refuse("the words are [FAULT [CPUS [SECTIONS [EVENTS [PIECES]]]]]", 2);
    while (count > 1 && fault < FAULTS && strcmp(words[1], fault_words[fault]) != 0)
        fault = (enum fault)(fault + 1);
    if (fault == FAULTS)
        refuse("FAULT is right, unlocked, early, unnoted or swapped", 2);
    if (count > 2)
        cpus = number_of(words[2], 2, MC2_MOST_CPUS, "CPUS is 2 to 64");
    if (count > 3)
        sections = number_of(words[3], 1, 9000, "SECTIONS is 1 to 9,000");
    if (count > 4)
        events = number_of(words[4], 1, MC2_MOST_EVENTS, "EVENTS is 1 to 65,536");
    if (count > 5)
        pieces = number_of(words[5], MC2_NOTE_PIECES, MOST_PIECES, "PIECES is 9 to 40,000");
}

static void open_all(void) {
    queue.in_the_middle = fault == UNLOCKED || fault == EARLY ? let_the_other_in : NULL;
    for (unsigned at = 0; at < NOTED_OBJECTS; at++) {
        if (!lock_open(&locks[at], TICKET))
            refuse("no lock", 3);
        must(mc2_open_sequence(&sequences[at], events));
    }
    for (unsigned cpu = 0; cpu < cpus; cpu++)
        must(mc2_open_notes(&notes[cpu], memory[cpu], pieces));
}

static int write_record(void) {
    const struct mc2_object objects[] = {{"threads", MC2_QUEUE, MC2_TICKET, events, THREADS, 0, NULL},
                                         {"pages", MC2_POOL, MC2_TICKET, events, PAGES, 0, NULL}};
    struct mc2_sequence *const each[] = {&sequences[QUEUE], &sequences[POOL]};
    const struct mc2_noted noted = {objects, each, NOTED_OBJECTS, notes, cpus};
    return mc2_write_notes(&noted, mc2_write_to_file, stdout);
}

int main(int count, char **words) {
    static unsigned numbers[MC2_MOST_CPUS];
    pthread_t threads[MC2_MOST_CPUS];
    read_words(count, words);
    open_all();
    for (unsigned cpu = 0; cpu < cpus; cpu++) {
        numbers[cpu] = cpu;
        if (pthread_create(&threads[cpu], NULL, run_cpu, &numbers[cpu]) != 0)
            refuse("a thread wasn't started", 3);
    }
    for (unsigned cpu = 0; cpu < cpus; cpu++)
        pthread_join(threads[cpu], NULL);
    must(write_record());
    if (fflush(stdout) != 0)
        refuse("write failed", 3);
    return 0;
}
