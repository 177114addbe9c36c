// load.c - a Linux module whose CPUs call cells. Each CPU has a kthread that makes calls and waits for the lock. Every few calls it
// interrupts the next CPU. The handler there tries a call in hard interrupt context and schedules a tasklet, which tries a call in
// softirq context. Each caller notes its calls in its own memory (mc2_note.h). /proc/mc2_record has the record, and the kernel's log
// a summary. Nothing here is proved.
//
// insmod runs the whole load. It fails if any result is wrong. No CPU may go offline or come online meanwhile.
#define pr_fmt(text) "mc2_load: " text

#include <linux/completion.h>
#include <linux/interrupt.h>
#include <linux/kthread.h>
#include <linux/module.h>
#include <linux/proc_fs.h>
#include <linux/sched/task_stack.h>
#include <linux/seq_file.h>
#include <linux/spinlock.h>
#include <linux/timekeeping.h>
#include "mc2_linux.h"
#include "mc2_note.h"
#include "queue_in_c.h"

#define PARAM(name, type, text) \
    module_param(name, type, 0444); \
    MODULE_PARM_DESC(name, text)

static uint calls = 1000;
PARAM(calls, uint, "the number of calls that each kthread makes, 1 to 10,000");
static char *lock = "cells";
PARAM(lock, charp, "cells; spin: a queue in C behind the kernel's spinlock; wrong: the same queue behind no lock");
static bool tries;
PARAM(tries, bool, "kthreads retry mc2_try_acquire in place of waiting in line");
static bool stays = true;
PARAM(stays, bool, "0: kthreads may be preempted while they are in line, and sometimes yield while they hold the lock");
static bool speed;
PARAM(speed, bool, "measures stack, and the time of calls and of the queue in C behind the kernel's spinlock, in place of the load");
PARAM(mc2_refused, uint, "n > 0: the n-th allocation fails; then insmod fails, and nothing leaks");

// Each CPU has a number for each context in which it makes calls. For the cells each number is a CPU, with its own callers.
enum { TASK, HARD, SOFT, CONTEXTS };
enum { MOST_LINUX_CPUS = MC2_MOST_CPUS / CONTEXTS, NUMBERS = MOST_LINUX_CPUS * CONTEXTS, OBJECTS = 4 };
enum { CALLS_TO_INTERRUPT = 4, CALLS_TO_YIELD = 16, CALLS_TO_RESCHEDULE = 64, MOST_PAUSES = 64 };
enum { THREADS = 18, SIZE = 16, BYTES = 32, CHANNELS = 4 };

// begin() sets the capacity of the logs: the calls of all numbers, or 65,536.
static struct mc2_object objects[OBJECTS] = {
    {"threads", MC2_QUEUE, MC2_TICKET, 0, SIZE, 0, NULL},
    {"pages", MC2_POOL, MC2_MCS, 0, SIZE, 0, NULL},
    {"bytes", MC2_CONSOLE, MC2_TICKET, 0, BYTES, 0, NULL},
    {"tasks", MC2_SCHED, MC2_MCS, 0, SIZE, CHANNELS, NULL},
};

// The state of one number, in a cache line of its own.
//   done, busy   calls that were made, and tries that found the lock taken
//   full         calls that were left out, as there was no room for a note
//   lost         how often the kthread lost its CPU during a call
//   wrong        wrong results
static struct state {
    u32 random, done, busy, full, lost, wrong;
    u64 took;
} ____cacheline_aligned_in_smp state[NUMBERS];

static u32 cpus, numbers, object_count;
static struct mc2_cell cells[OBJECTS];
static struct mc2_caller callers[OBJECTS][NUMBERS];
static struct tasklet_struct tasklets[MOST_LINUX_CPUS];
static struct mc2_notes notes[NUMBERS];
static struct mc2_sequence sequences[OBJECTS];
static struct mc2_sequence *const all_sequences[OBJECTS] = {&sequences[0], &sequences[1], &sequences[2], &sequences[3]};
static struct mc2_noted noted = {objects, all_sequences, 0, notes, 0};
static atomic_t ready;
static DECLARE_COMPLETION(done);

// ---- Calls

enum how { WAITS, TRIES, RETRIES };

static u32 draw(u32 number, u32 below) {
    state[number].random = state[number].random * 1664525u + 1013904223u;
    return (state[number].random >> 8) % below;
}

// Returns a random call on the object. The object refuses a few of them.
static struct mc2_call any_call(u32 object, u32 number) {
    static const u32 first[] = {MC2_ENQ, MC2_ALLOC, MC2_PUT, MC2_READY}, words[] = {4, 3, 3, 5};
    u32 word = draw(number, way == CELLS ? words[object] : PLAIN_WORDS);
    return mc2_call_of(first[object] + word, draw(number, THREADS), draw(number, THREADS));
}

// Makes the step's call on a cell, and stores the reply in the step and the event's sequence number in *seq. The cell's log and the
// sequence have the same capacity, so either both are full or neither.
// Returns  false if a try found the lock taken: nothing was done.
static bool call_cell(u32 object, u32 number, enum how how, struct mc2_step *step, u64 *looks, u32 *seq) {
    struct mc2_caller *caller = &callers[object][number];
    struct mc2_reply reply = {MC2_REPLY_WORDS, 0};
    u32 result = how == WAITS ? mc2_acquire(caller) : mc2_try_acquire(caller);
    for (; how == RETRIES && result == MC2_BUSY; result = mc2_try_acquire(caller))
        cpu_relax();
    if (result == MC2_BUSY)
        return false;
    state[number].wrong += result != MC2_DONE;
    if (how == WAITS)
        *looks = mc2_caller_looks(caller);
    *seq = mc2_next_seq(&sequences[object], &notes[number]);
    if (!stays && how == WAITS && *seq % CALLS_TO_YIELD == 0)
        yield();
    result = mc2_apply(caller, &step->call, &reply);
    state[number].wrong += result != (*seq == MC2_NO_SEQ ? MC2_LOG_FULL : MC2_DONE);
    state[number].wrong += mc2_release(caller) != MC2_DONE;
    *step = mc2_step_of(step->call, reply.word, reply.number);
    return true;
}

// The same on the queue in C.
static bool call_plain(u32 number, enum how how, struct mc2_step *step, u32 *seq) {
    unsigned long flags = 0;
    if (way == SPIN && how == WAITS)
        raw_spin_lock_irqsave(&spinlock, flags);
    else if (way == SPIN && !raw_spin_trylock_irqsave(&spinlock, flags))
        return false;
    *seq = mc2_next_seq(&sequences[0], &notes[number]);
    *step = plain_answer(number, step->call);
    if (way == SPIN)
        raw_spin_unlock_irqrestore(&spinlock, flags);
    return true;
}

// Makes one call on a random object, and notes it after the release. A try that finds the lock taken does nothing. A number without
// room for a note makes no call: if mc2_next_seq failed for it, nothing more would be noted of that object by any number.
static void call(u32 number, enum how how) {
    u32 object = draw(number, object_count), seq = MC2_NO_SEQ;
    struct mc2_step step = {any_call(object, number), MC2_REPLY_WORDS, 0};
    u64 looks = 1;
    bool is_done;
    if (!mc2_has_note_room(&notes[number])) {
        state[number].full++;
        return;
    }
    is_done = way == CELLS ? call_cell(object, number, how, &step, &looks, &seq) : call_plain(number, how, &step, &seq);
    state[number].done += is_done;
    state[number].busy += !is_done;
    if (is_done && seq != MC2_NO_SEQ)
        state[number].wrong += mc2_note(&notes[number], object, seq, looks, &step, 1, 1) != MC2_DONE;
}

#include "measured.h"

// ---- Kthreads and handlers

static u32 number_of(u32 context, u32 cpu) { return context * cpus + cpu; }

static void call_in_softirq(struct tasklet_struct *tasklet) {
    u32 cpu = smp_processor_id(), number = number_of(SOFT, cpu);
    state[number].wrong += tasklet != &tasklets[cpu] || !in_serving_softirq() || in_hardirq();
    call(number, TRIES);
}

// (An idle CPU may run this outside of an interrupt.)
static void call_in_interrupt(void *unused) {
    u32 cpu = smp_processor_id();
    if (!in_hardirq())
        return;
    call(number_of(HARD, cpu), TRIES);
    tasklet_schedule(&tasklets[cpu]);
}

static void do_nothing(void *unused) {}

// Makes one call with preemption disabled. With stays=0 it counts how often the kthread lost its CPU during the call.
static void call_in_task(u32 number) {
    unsigned long lost = current->nivcsw + current->nvcsw;
    if (stays)
        preempt_disable();
    call(number, tries ? RETRIES : WAITS);
    state[number].lost += current->nivcsw + current->nvcsw - lost;
    if (stays)
        preempt_enable();
}

// A kthread does this between two calls.
static void pause_and_interrupt(u32 number, u32 at) {
    if (!speed && cpus > 1 && at % CALLS_TO_INTERRUPT == 0)
        state[number].wrong += smp_call_function_single((number + 1) % cpus, call_in_interrupt, NULL, 0) != 0;
    for (u32 pauses = speed ? 0 : draw(number, MOST_PAUSES); pauses > 0; pauses--)
        cpu_relax();
    if (at % CALLS_TO_RESCHEDULE == 0)
        cond_resched();
}

static void wait_for_all(void) {
    atomic_inc(&ready);
    while (atomic_read(&ready) < cpus)
        cond_resched();
}

static int work(void *at) {
    u32 number = (struct state *)at - state;
    wait_for_all();
    state[number].took = now();
    for (u32 call = 0; call < calls; call++) {
        if (speed)
            call_timed(number, call % 2 == 0);
        else
            call_in_task(number);
        pause_and_interrupt(number, call);
    }
    state[number].took = now() - state[number].took;
    kthread_complete_and_exit(&done, 0);
}

// Runs a kthread on each CPU, and waits until all of them are done.
static int run_all(void) {
    struct task_struct *tasks[MOST_LINUX_CPUS];
    u32 made = 0;
    while (made < cpus && !IS_ERR(tasks[made] = kthread_create_on_cpu(work, &state[made], made, "mc2/%u")))
        made++;
    atomic_set(&ready, 0);
    for (u32 cpu = 0; cpu < made; cpu++) {
        if (made == cpus)
            wake_up_process(tasks[cpu]);
        else
            kthread_stop(tasks[cpu]);
    }
    for (u32 cpu = 0; cpu < cpus && made == cpus; cpu++)
        wait_for_completion(&done);
    return made == cpus ? 0 : PTR_ERR(tasks[made]);
}

// Waits for the handlers. A CPU handles these interrupts in order, so that each earlier one has scheduled its tasklet by then.
static void end_interrupts(void) {
    for (u32 cpu = 0; cpu < cpus; cpu++) {
        smp_call_function_single(cpu, do_nothing, NULL, 1);
        tasklet_kill(&tasklets[cpu]);
    }
}

// ---- Before and after the load

static int open_notes(void) {
    size_t pieces = 2 * (size_t)calls + MC2_NOTE_PIECES;
    for (u32 number = 0; number < numbers; number++) {
        struct mc2_allocation memory = rattle_alloc(pieces * sizeof(union mc2_note_piece), 0);
        if (!memory.is_there || mc2_open_notes(&notes[number], memory.at, pieces) != MC2_DONE)
            return -ENOMEM;
        state[number].random = number + 1;
    }
    for (u32 object = 0; object < object_count; object++)
        if (mc2_open_sequence(&sequences[object], objects[object].events) != MC2_DONE)
            return -EINVAL;
    return 0;
}

static void free_notes(void) {
    for (u32 number = 0; number < NUMBERS; number++) {
        rattle_dealloc(notes[number].memory);
        notes[number].memory = NULL;
    }
}

static int open_cells(void) {
    for (u32 object = 0; object < object_count && way == CELLS; object++) {
        u32 result = mc2_cell_open(&cells[object], &objects[object], callers[object], numbers);
        if (result != MC2_DONE)
            return result == MC2_NO_MEMORY ? -ENOMEM : -EINVAL;
    }
    return 0;
}

// Closes the cells, and returns the number of wrong results up to then. Each log has to have as many events as the sequence.
static u32 close_cells(void) {
    struct mc2_logged_step step;
    u32 wrong = 0;
    for (u32 object = 0; object < object_count && way == CELLS; object++) {
        u32 events = sequences[object].next;
        wrong += mc2_cell_close(&cells[object], callers[object], numbers) != MC2_DONE;
        wrong += events > 0 && mc2_cell_read_step(&cells[object], events - 1, 0, &step) != MC2_DONE;
        wrong += mc2_cell_read_step(&cells[object], events, 0, &step) != MC2_NOT_FOUND;
    }
    for (u32 number = 0; number < numbers; number++)
        wrong += state[number].wrong;
    return wrong;
}

static void say_calls(u32 wrong) {
    u32 calls_in[CONTEXTS] = {0}, busy = 0, full = 0, lost = 0;
    for (u32 number = 0; number < numbers; number++) {
        calls_in[number / cpus] += state[number].done;
        busy += state[number].busy;
        full += state[number].full;
        lost += state[number].lost;
    }
    pr_notice("calls of kthreads: %u, of hard interrupts: %u, of softirqs: %u\n", calls_in[TASK], calls_in[HARD], calls_in[SOFT]);
    pr_notice("%u busy, %u without room, %u lost their CPU, %u wrong results\n", busy, full, lost, wrong);
}

static int load(void) {
    u32 wrong = 0;
    int failure = open_notes() ?: open_cells() ?: run_all();
    end_interrupts();
    if (!failure) {
        wrong = close_cells();
        say_calls(wrong);
    }
    for (u32 object = 0; object < OBJECTS; object++)
        mc2_cell_free(&cells[object], callers[object], numbers);
    return failure ?: wrong ? -EIO : 0;
}

// ---- The module

static bool take_piece(void *to, const char *piece, size_t length) { return seq_write(to, piece, length) == 0; }

static int show_record(struct seq_file *file, void *unused) {
    int result = mc2_write_notes(&noted, take_piece, file);
    return result == MC2_DONE || seq_has_overflowed(file) ? 0 : -EIO;
}

// Returns an error message if a parameter is out of range, or NULL.
static const char *check_parameters(void) {
    if (calls < 1 || calls > MC2_MOST_ENTRIES)
        return "calls has to be 1 to 10,000";
    if (strcmp(lock, "cells") && strcmp(lock, "spin") && strcmp(lock, "wrong"))
        return "lock has to be cells, spin or wrong";
    if (cpus > MOST_LINUX_CPUS || cpumask_last(cpu_online_mask) >= cpus)
        return "there have to be at most 21 CPUs, and all online";
    return NULL;
}

static void begin(void) {
    way = !strcmp(lock, "cells") ? CELLS : !strcmp(lock, "spin") ? SPIN : WRONG;
    numbers = cpus * CONTEXTS;
    object_count = way == CELLS ? OBJECTS : 1;
    noted.object_count = object_count;
    noted.cpus = numbers;
    for (u32 object = 0; object < OBJECTS; object++)
        objects[object].events = min_t(u32, MC2_MOST_EVENTS, numbers * calls);
    for (u32 cpu = 0; cpu < cpus; cpu++)
        tasklet_setup(&tasklets[cpu], call_in_softirq);
}

static int __init load_init(void) {
    const char *error;
    int failure;
    cpus = num_online_cpus();
    error = check_parameters();
    if (error) {
        pr_err("%s\n", error);
        return -EINVAL;
    }
    begin();
    failure = speed ? say_stack() ?: time_all() : load();
    if (!speed && !failure)
        failure = proc_create_single("mc2_record", 0400, NULL, show_record) ? 0 : -ENOMEM;
    if (failure) {
        free_notes();
        pr_notice("failed: %d; %ld blocks not freed\n", failure, atomic_long_read(&mc2_blocks));
    }
    return failure;
}

static void __exit load_exit(void) {
    if (!speed)
        remove_proc_entry("mc2_record", NULL);
    free_notes();
    pr_notice("unloaded; %ld blocks not freed\n", atomic_long_read(&mc2_blocks));
}

module_init(load_init);
module_exit(load_exit);
MODULE_LICENSE(MC2_LICENSE);
MODULE_DESCRIPTION("Calls proved cells from kthreads and interrupts");
