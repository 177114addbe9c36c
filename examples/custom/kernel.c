// A small kernel with a buddy allocator with free lists, and a pipe, each behind a ticket lock. Threads act as its CPUs. It records
// what they do by include/mc2_custom_note.h, and prints the record 3, which custom.c judges by the models of models.h. Nothing is
// proved.
//
//     cc -std=c11 -O2 -pthread -Iinclude -o /tmp/kernel examples/custom/kernel.c
//     /tmp/kernel [FAULT [CPUS [CALLS]]]
//
// FAULT is right (no fault, the default), or a fault to plant:
//     early  the pipe's lock is released before the last byte is moved
//     drops  every 40th block that is freed is lost
// CPUS is 2 to 64 (4), and CALLS the calls of each CPU, 1 to 1,000,000 (200). The status is 0, 2 for wrong words, and 3 where
// something is refused.
#define _POSIX_C_SOURCE 200809L
#include "mc2_custom_note.h"
#include <pthread.h>
#include <sched.h>
#include <stdatomic.h>

enum { HEIGHT = 8, PAGES = 1 << HEIGHT, BYTES = 64, WHOLE = 8, MOST_HELD = 16, LOST_EACH = 40, MOST_CPUS = 64 };
enum { ZONE, PIPE, OBJECTS };
enum { ALLOC, FREE, LEFT, PAGE, NONE, OK, COUNT, WRITE, READ, WROTE, FULL, GOT, EMPTY, WORDS };
enum fault { RIGHT, EARLY, DROPS, FAULTS };

static const char *const words[WORDS] = {"alloc", "free", "left",  "page", "none", "ok",   "count",
                                         "write", "read", "wrote", "full", "got",  "empty"};
static const char *const fault_words[FAULTS] = {"right", "early", "drops"};

struct lock {
    atomic_uint next, served;
};

// `order` has a block's order at its first page while it is free, and -1 otherwise. The block that was freed last is allocated first.
static struct {
    struct lock lock;
    int head[HEIGHT + 1], link[PAGES];
    signed char order[PAGES];
    unsigned left, freed;
} zone;

static struct {
    struct lock lock;
    atomic_uint first, count;
    _Atomic unsigned char bytes[BYTES];
} ring;

// A CPU, with the blocks that it has allocated.
struct cpu {
    unsigned number, held;
    int pages[MOST_HELD], orders[MOST_HELD];
    uint64_t seed;
};

static struct mc2_notes notes[MOST_CPUS];
static struct mc2_sequence sequences[OBJECTS];
static struct cpu all[MOST_CPUS];
static unsigned cpus = 4, calls = 200;
static enum fault fault;
// The stage of the opening.
static atomic_uint stage;

static void refuse(const char *what, int status) {
    fprintf(stderr, "kernel: %s\n", what);
    exit(status);
}

static void must(int result) {
    if (result != MC2_DONE)
        refuse(mc2_result_text(result), 3);
}

static void await(unsigned wanted) {
    while (atomic_load(&stage) < wanted)
        sched_yield();
}

static uint64_t acquire(struct lock *lock) {
    unsigned ticket = atomic_fetch_add(&lock->next, 1);
    uint64_t looks = 1;
    for (; atomic_load(&lock->served) != ticket; looks++)
        sched_yield();
    return looks;
}

static void release(struct lock *lock) { atomic_fetch_add(&lock->served, 1); }

static unsigned below(unsigned bound, uint64_t *seed) {
    *seed ^= *seed << 13;
    *seed ^= *seed >> 7;
    *seed ^= *seed << 17;
    return (unsigned)((*seed >> 24) % bound);
}

// ---- The allocator

static void push(int page, int order) {
    zone.link[page] = zone.head[order];
    zone.head[order] = page;
    zone.order[page] = (signed char)order;
}

static void unlink_block(int page) {
    int *at = &zone.head[(int)zone.order[page]];
    while (*at != page)
        at = &zone.link[*at];
    *at = zone.link[page];
    zone.order[page] = -1;
}

static int buddy_alloc(int order) {
    int found = order;
    while (found <= HEIGHT && zone.head[found] < 0)
        found++;
    if (found > HEIGHT)
        return -1;
    int page = zone.head[found];
    unlink_block(page);
    while (found-- > order)
        push(page + (1 << found), found);
    zone.left -= 1u << order;
    return page;
}

static void buddy_free(int page, int order) {
    zone.left += 1u << order;
    for (; order < HEIGHT && zone.order[page ^ (1 << order)] == order; order++) {
        unlink_block(page ^ (1 << order));
        page &= ~(1 << order);
    }
    if (fault != DROPS || ++zone.freed % LOST_EACH != 0)
        push(page, order);
}

// Allocates a block, and asks how many pages are left, which isn't done if there was no block.
static void allocate(struct cpu *cpu, int order) {
    uint64_t looks = acquire(&zone.lock);
    int page = buddy_alloc(order);
    unsigned left = zone.left;
    uint32_t seq = mc2_next_seq(&sequences[ZONE], &notes[cpu->number]);
    release(&zone.lock);
    struct mc2_term_step steps[] = {{mc2_term_of(ALLOC, 1, (uint64_t)order, 0), mc2_term_of(NONE, 0, 0, 0)},
                                      {mc2_term_of(LEFT, 0, 0, 0), mc2_term_of(COUNT, 1, left, 0)}};
    if (page >= 0) {
        steps[0].reply = mc2_term_of(PAGE, 1, (uint64_t)page, 0);
        cpu->pages[cpu->held] = page;
        cpu->orders[cpu->held++] = order;
    }
    must(mc2_note_custom(&notes[cpu->number], ZONE, seq, looks, steps, 2, page >= 0 ? 2 : 1));
}

static void release_block(struct cpu *cpu) {
    int page = cpu->pages[--cpu->held];
    uint64_t looks = acquire(&zone.lock);
    buddy_free(page, cpu->orders[cpu->held]);
    uint32_t seq = mc2_next_seq(&sequences[ZONE], &notes[cpu->number]);
    release(&zone.lock);
    struct mc2_term_step step = {mc2_term_of(FREE, 1, (uint64_t)page, 0), mc2_term_of(OK, 0, 0, 0)};
    must(mc2_note_custom(&notes[cpu->number], ZONE, seq, looks, &step, 1, 1));
}

// ---- The pipe

// A write or a read of `wanted` bytes, of which at most `part` are moved.
struct transfer {
    bool writes, lets_in;
    unsigned byte, wanted, part, done;
    uint64_t sum;
};

// With the fault the lock is released before the last byte, and in the opening another CPU comes in then.
static void release_early(const struct transfer *it) {
    release(&ring.lock);
    if (it->lets_in) {
        atomic_store(&stage, 1);
        await(2);
    } else {
        sched_yield();
    }
}

static void move(struct transfer *it) {
    unsigned count = atomic_load(&ring.count), first = atomic_load(&ring.first), room = it->writes ? BYTES - count : count;
    bool is_whole = it->writes && it->wanted <= WHOLE;
    it->done = is_whole ? (it->wanted <= room ? it->wanted : 0) : it->part < room ? it->part : room;
    for (unsigned at = 0; at < it->done; at++) {
        if (fault == EARLY && at + 1 == it->done)
            release_early(it);
        if (it->writes)
            atomic_store(&ring.bytes[(first + count + at) % BYTES], (unsigned char)(it->byte + at));
        else
            it->sum = it->sum * 31 + atomic_load(&ring.bytes[(first + at) % BYTES]);
    }
    atomic_store(&ring.first, it->writes ? first : (first + it->done) % BYTES);
    atomic_store(&ring.count, it->writes ? count + it->done : count - it->done);
}

static void do_transfer(const struct cpu *cpu, struct transfer *it) {
    uint64_t looks = acquire(&ring.lock);
    uint32_t seq = mc2_next_seq(&sequences[PIPE], &notes[cpu->number]);
    move(it);
    if (fault != EARLY || it->done == 0)
        release(&ring.lock);
    struct mc2_term_step step = {mc2_term_of(READ, 1, it->wanted, 0), mc2_term_of(EMPTY, 0, 0, 0)};
    if (it->writes)
        step.call = mc2_term_of(WRITE, 2, it->byte, it->wanted);
    if (it->writes)
        step.reply = it->done > 0 ? mc2_term_of(WROTE, 1, it->done, 0) : mc2_term_of(FULL, 0, 0, 0);
    else if (it->done > 0)
        step.reply = mc2_term_of(GOT, 2, it->done, it->sum);
    must(mc2_note_custom(&notes[cpu->number], PIPE, seq, looks, &step, 1, 1));
}

// CPUs with even numbers write, the others read.
static struct transfer any_transfer(struct cpu *cpu) {
    struct transfer it = {.writes = cpu->number % 2 == 0, .byte = below(256, &cpu->seed), .wanted = 1 + below(20, &cpu->seed)};
    it.part = 1 + below(it.wanted, &cpu->seed);
    return it;
}

// ---- The CPUs

// The first calls of CPUs 0 and 1, so that the fault `early` always shows: CPU 0 writes 4 bytes, and CPU 1 reads. With the fault it
// reads before the last of them is written.
static void do_opening(struct cpu *cpu) {
    struct transfer writes = {.writes = true, .lets_in = true, .byte = 10, .wanted = 4, .part = 4};
    struct transfer reads = {.wanted = 4, .part = 4};
    if (cpu->number == 0) {
        do_transfer(cpu, &writes);
        atomic_store(&stage, fault == EARLY ? 3 : 1);
    } else if (cpu->number == 1) {
        await(1);
        do_transfer(cpu, &reads);
        atomic_store(&stage, fault == EARLY ? 2 : 3);
    }
    await(3);
}

static void do_one(struct cpu *cpu) {
    struct transfer transfer = any_transfer(cpu);
    if (below(2, &cpu->seed))
        do_transfer(cpu, &transfer);
    else if (cpu->held == MOST_HELD || (cpu->held > 0 && below(2, &cpu->seed)))
        release_block(cpu);
    else
        allocate(cpu, (int)below(4, &cpu->seed));
}

static void *work(void *at) {
    struct cpu *cpu = at;
    do_opening(cpu);
    for (unsigned call = 0; call < calls; call++)
        do_one(cpu);
    return NULL;
}

static void release_all_blocks(void) {
    for (unsigned at = 0; at < cpus; at += all[at].held == 0)
        if (all[at].held > 0)
            release_block(&all[at]);
}

// The last calls, so that the fault `drops` always shows: all blocks are freed, and 40 more that CPU 0 allocates for this. Then it
// allocates all pages at once.
static void do_closing(void) {
    release_all_blocks();
    for (unsigned at = 0; at < LOST_EACH; at++) {
        allocate(&all[0], 0);
        if (all[0].held > 0)
            release_block(&all[0]);
    }
    allocate(&all[0], HEIGHT);
}

// ---- The start and the end

static unsigned number_of(const char *word, unsigned long least, unsigned long most, const char *what) {
    char *end = NULL;
    unsigned long number = strtoul(word, &end, 10);
    if (word[0] < '0' || word[0] > '9' || *end || number < least || number > most)
        refuse(what, 2);
    return (unsigned)number;
}

static void read_words(int count, char **given) {
    if (count > 4)
        refuse("the words are [FAULT [CPUS [CALLS]]]", 2);
    while (count > 1 && fault < FAULTS && strcmp(given[1], fault_words[fault]) != 0)
        fault = (enum fault)(fault + 1);
    if (fault == FAULTS)
        refuse("FAULT is right, early or drops", 2);
    if (count > 2)
        cpus = number_of(given[2], 2, MOST_CPUS, "CPUS is 2 to 64");
    if (count > 3)
        calls = number_of(given[3], 1, 1000000, "CALLS is 1 to 1,000,000");
}

// A note here takes at most 6 pieces. After its calls CPU 0 may note 16 times for each CPU, and some 90 times more.
static void open_all(void) {
    size_t pieces = 6 * ((size_t)calls + MOST_HELD * MOST_CPUS + 100) + MC2_CUSTOM_NOTE_PIECES;
    memset(zone.head, -1, sizeof zone.head);
    memset(zone.order, -1, sizeof zone.order);
    push(0, HEIGHT);
    zone.left = PAGES;
    must(mc2_open_custom_sequence(&sequences[ZONE], UINT32_MAX - 1));
    must(mc2_open_custom_sequence(&sequences[PIPE], UINT32_MAX - 1));
    for (unsigned at = 0; at < cpus; at++) {
        all[at] = (struct cpu){.number = at, .seed = 88172645463325252u + 7919u * at};
        union mc2_note_piece *memory = calloc(pieces, sizeof *memory);
        must(memory ? mc2_open_custom_notes(&notes[at], memory, pieces) : MC2_NO_MEMORY);
    }
}

static int write_record(void) {
    static const uint64_t zone_numbers[] = {HEIGHT}, pipe_numbers[] = {BYTES, WHOLE};
    static const char *const refusing[] = {"none", "full", "empty"};
    const struct mc2_noted_object objects[] = {{"zone", "ticket", "buddy", zone_numbers, 1, &sequences[ZONE]},
                                               {"p", "ticket", "pipe", pipe_numbers, 2, &sequences[PIPE]}};
    const struct mc2_custom_noted noted = {objects, OBJECTS, notes, cpus, words, WORDS, refusing, 3};
    return mc2_write_custom_notes(&noted, mc2_write_to_file, stdout);
}

int main(int count, char **given) {
    pthread_t threads[MOST_CPUS];
    read_words(count, given);
    open_all();
    for (unsigned at = 0; at < cpus; at++)
        if (pthread_create(&threads[at], NULL, work, &all[at]) != 0)
            refuse("a thread wasn't started", 3);
    for (unsigned at = 0; at < cpus; at++)
        pthread_join(threads[at], NULL);
    do_closing();
    must(write_record());
    for (unsigned at = 0; at < cpus; at++)
        free(notes[at].memory);
    if (fflush(stdout) != 0)
        refuse("write failed", 3);
    return 0;
}
