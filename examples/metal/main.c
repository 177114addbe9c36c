// A kernel without a C library. Its CPUs share a queue, a page pool, a console and a scheduler, which are cells of libcells.a. Each
// CPU makes CALLS calls and waits for the lock. Its timer interrupts also make calls, but only try, and may come between any two
// calls of the library. Each CPU notes its calls in its own memory (mc2_note.h). At the end CPU 0 writes the record to the serial
// port, and statistics to qemu's debug console. See docs/IN_A_KERNEL.md. Nothing here is proved.
//
// The Makefile has the settings: CPUS, CALLS, TIMER_COUNT, MASKED, JUDGE, NO_SSE and STAND_IN.
#include "machine.h"

// Disables interrupts around each call of the library. With MASKED=0 interrupts may come within a call too.
#define MC2_IRQ_OFF(call) \
    ({ \
        uint64_t irq_flags = MASKED ? interrupts_save() : 0; \
        uint32_t irq_result = (call); \
        MASKED ? interrupts_restore(irq_flags) : (void)0; \
        irq_result; \
    })
#include "mc2_cells.h"
#include "mc2_heap.h"
#include "mc2_note.h"

// Number k < CPUS is CPU k, and number CPUS + k is CPU k's interrupts. For the cells each number is a CPU: it has its own callers,
// and its own notes, with room for ENTRIES entries of one call.
enum { NUMBERS = TIMER_COUNT > 0 ? 2 * CPUS : CPUS, ENTRIES = CALLS + 1000, EVENTS = CPUS * ENTRIES };
enum { PIECES = 2 * ENTRIES + MC2_NOTE_PIECES - 1 };
_Static_assert((int)ENTRIES <= (int)MC2_MOST_ENTRIES, "a record has 10,000 entries of a CPU at most: fewer CALLS");
_Static_assert((int)EVENTS <= (int)MC2_MOST_EVENTS, "a log has 65,536 events at most: fewer CALLS, or fewer CPUS");

#ifdef STAND_IN
// stand_in.c, which takes the library's place, has no scheduler and no quotas.
enum { OBJECTS = 3, CHANNELS = 0 };
#define QUOTAS NULL
#else
enum { OBJECTS = 4, CHANNELS = 4 };
#define QUOTAS quotas
static const uint32_t quotas[MC2_OWNERS] = {16, 3, 2, 16, 16, 16, 16, 16, 16, 16, 16, 16, 16, 16, 16, 16};
#endif

static const struct mc2_object objects[4] = {
    {"threads", MC2_QUEUE, MC2_TICKET, EVENTS, 16, 0, NULL},
    {"pages", MC2_POOL, MC2_MCS, EVENTS, 16, 0, QUOTAS},
    {"bytes", MC2_CONSOLE, MC2_TICKET, CALLS / 2, 32, 0, NULL},     // on purpose: its log becomes full if there are enough CPUs
    {"tasks", MC2_SCHED, MC2_MCS, EVENTS, 16, CHANNELS, NULL},
};

static struct mc2_cell cells[OBJECTS];
static struct mc2_caller callers[OBJECTS][NUMBERS];
static struct mc2_notes notes[NUMBERS];
static struct mc2_sequence sequences[4];
static struct mc2_sequence *const all_sequences[4] = {&sequences[0], &sequences[1], &sequences[2], &sequences[3]};
static const struct mc2_noted noted = {objects, all_sequences, OBJECTS, notes, NUMBERS};
// The logs that the library kept, noted in the same way at the end, for comparison.
static struct mc2_notes logged_notes[NUMBERS];
static struct mc2_sequence logged_sequences[4];
static struct mc2_sequence *const all_logged[4] = {&logged_sequences[0], &logged_sequences[1], &logged_sequences[2],
                                                   &logged_sequences[3]};
static const struct mc2_noted logged = {objects, all_logged, OBJECTS, logged_notes, NUMBERS};
static uint32_t cpus_ready, cpus_done, random[NUMBERS];
// Calls of each number that did nothing, because the object's log was full.
static uint32_t without_room[NUMBERS];
static volatile uint64_t interrupts[CPUS];
// Wrong results. They are only counted, so that the record is written and judged all the same.
static uint32_t wrong;

static uint32_t draw(uint32_t number, uint32_t below) {
    random[number] = random[number] * 1664525u + 1013904223u;
    return (random[number] >> 8) % below;
}

// Returns a random call on the object. The object refuses a few of them.
static struct mc2_call any_call(uint32_t object, uint32_t number) {
    static const uint32_t first[] = {MC2_ENQ, MC2_ALLOC, MC2_PUT, MC2_READY}, words[] = {4, 3, 3, 5};
    uint32_t word = first[object] + draw(number, words[object]);
    return mc2_call_of(word, draw(number, 18), draw(number, 18));
}

// Performs the step's call, and stores its reply in the step. The number holds the lock. Returns the event's sequence number. If
// the log is full that is MC2_NO_SEQ: the library's log is full too, so nothing was done, and the reply is none that can be noted.
static uint32_t apply(uint32_t object, uint32_t number, struct mc2_step *step) {
    struct mc2_reply reply = {MC2_REPLY_WORDS, 0};
    uint32_t seq = mc2_next_seq(&sequences[object], &notes[number]);
    uint32_t result = mc2_apply(&callers[object][number], &step->call, &reply);
    *step = mc2_step_of(step->call, reply.word, reply.number);
    wrong += result != (seq == MC2_NO_SEQ ? MC2_LOG_FULL : MC2_DONE);
    return seq;
}

// Makes one call on the object, and notes it after the release. A try that finds the lock taken does nothing. A number without
// room for a note makes no call: if mc2_next_seq failed for it, nothing more would be noted of that object by any number.
static void call(uint32_t object, uint32_t number, bool waits) {
    struct mc2_caller *caller = &callers[object][number];
    struct mc2_step step = {any_call(object, number), MC2_REPLY_WORDS, 0};
    if (!mc2_has_note_room(&notes[number]))
        return;
    uint32_t result = waits ? mc2_acquire(caller) : mc2_try_acquire(caller);
    if (result == MC2_BUSY)
        return;
    must(result == MC2_DONE, "acquire", result);
    uint64_t looks = waits ? mc2_caller_looks(caller) : 1;
    uint32_t seq = apply(object, number, &step);
    result = mc2_release(caller);
    must(result == MC2_DONE, "release", result);
    if (seq == MC2_NO_SEQ)
        without_room[number]++;
    else
        wrong += mc2_note(&notes[number], object, seq, looks, &step, 1, 1) != MC2_DONE;
}

void interrupt(struct frame *frame) {
    if (frame->vector == 255)
        return;
    must(frame->vector == TIMER, "an exception", frame->vector);
    uint32_t cpu = cpu_here();
    interrupts[cpu]++;
    call(draw(CPUS + cpu, OBJECTS), CPUS + cpu, false);
    interrupt_done();
}

static void work(uint32_t cpu) {
    if (TIMER_COUNT > 0) {
        timer_start(TIMER_COUNT + 1000 * cpu);
        interrupts_on();
        while (interrupts[cpu] == 0)
            __builtin_ia32_pause();
    }
    for (uint32_t at = 0; at < CALLS; at++) {
        call(draw(cpu, OBJECTS), cpu, true);
        for (uint32_t pauses = draw(cpu, 64); pauses > 0; pauses--)
            __builtin_ia32_pause();
    }
    interrupts_off();
    timer_stop();
}

static void *take(size_t size) {
    struct mc2_allocation taken = rattle_alloc(size, 16);
    must(taken.is_there, "memory", size);
    return taken.at;
}

// Opens notes for all numbers, and a sequence for each object with room for as many events as the library's log of it.
static void open_notes(struct mc2_notes *all, struct mc2_sequence *sequence) {
    for (uint32_t number = 0; number < NUMBERS; number++) {
        int result = mc2_open_notes(&all[number], take(PIECES * sizeof(union mc2_note_piece)), PIECES);
        must(result == MC2_DONE, "opening notes", (uint64_t)result);
    }
    for (uint32_t object = 0; object < OBJECTS; object++) {
        int result = mc2_open_sequence(&sequence[object], objects[object].events);
        must(result == MC2_DONE, "opening a sequence", (uint64_t)result);
    }
}

static void open_cells(void) {
    for (uint32_t object = 0; object < OBJECTS; object++) {
        uint32_t result = mc2_cell_open(&cells[object], &objects[object], callers[object], NUMBERS);
        must(result == MC2_DONE, "opening a cell", result);
    }
    for (uint32_t number = 0; number < NUMBERS; number++)
        random[number] = number * 7919;
}

// A record in memory.
struct text { char *at; size_t length, room; };

static bool text_take(void *to, const char *piece, size_t length) {
    struct text *text = to;
    if (length > text->room - text->length)
        return false;
    memcpy(text->at + text->length, piece, length);
    text->length += length;
    return true;
}

static struct text text_of(const struct mc2_noted *written) {
    enum { ROOM = 128 * NUMBERS * ENTRIES };
    struct text text = {take(ROOM), 0, ROOM};
    must(mc2_write_notes(written, text_take, &text) == MC2_DONE, "the record as a text", text.length);
    return text;
}

// Returns the length of the part of a record that comes before the entries: the objects and their logs.
static size_t length_of_logs(const struct text *text) {
    static const char entries[] = "\ncpu 0 ";
    size_t at = 0, same = 0;
    for (; at < text->length && same < sizeof entries - 1; at++)
        same = text->at[at] == entries[same] ? same + 1 : text->at[at] == entries[0];
    return at;
}

static bool have_same_logs(const struct text *one, const struct text *other) {
    size_t length = length_of_logs(one), at = 0;
    while (at < length && at < other->length && one->at[at] == other->at[at])
        at++;
    return at == length && length == length_of_logs(other);
}

// Closes a cell and frees it. Notes the log that the library kept of it, each event for the number that the log names.
static void end_cell(uint32_t object) {
    struct mc2_logged_step event;
    uint32_t result = mc2_cell_close(&cells[object], callers[object], NUMBERS);
    must(result == MC2_DONE, "closing a cell", result);
    for (uint32_t at = 0; mc2_cell_read_step(&cells[object], at, 0, &event) == MC2_DONE; at++) {
        must(event.cpu < NUMBERS, "the CPU of an event", event.cpu);
        uint32_t seq = mc2_next_seq(&logged_sequences[object], &logged_notes[event.cpu]);
        wrong += mc2_note(&logged_notes[event.cpu], object, seq, 0, &event.step, 1, 1) != MC2_DONE;
    }
    mc2_cell_free(&cells[object], NULL, 0);
}

// Ends all cells. The logs of the record that the numbers noted have to be the logs that the library kept.
static void end_cells(void) {
    open_notes(logged_notes, logged_sequences);
    for (uint32_t object = 0; object < OBJECTS; object++)
        end_cell(object);
    struct text by_numbers = text_of(&noted), by_library = text_of(&logged);
    wrong += !have_same_logs(&by_numbers, &by_library);
    rattle_dealloc(by_numbers.at);
    rattle_dealloc(by_library.at);
    for (uint32_t number = 0; number < NUMBERS; number++)
        rattle_dealloc(logged_notes[number].memory);
}

// Prints how much was noted, and frees the notes.
static void end_notes(void) {
    uint64_t calls = 0, pieces = 0, not_noted = 0;
    for (uint32_t number = 0; number < NUMBERS; number++) {
        calls += notes[number].count;
        pieces += notes[number].used;
        not_noted += without_room[number];
        rattle_dealloc(notes[number].memory);
    }
    say_both("# calls noted in # bytes, ", calls, pieces * sizeof(union mc2_note_piece));
    say("# without room\n", not_noted);
}

#ifdef JUDGE
#include "mc2_judge.h"

// Judges the record in the kernel, by the library of crates/judge.
static void judge(void) {
    enum { MOST = NUMBERS * ENTRIES };
    struct text text = text_of(&noted);
    struct mc2_entry_id *order = take(MOST * sizeof *order);
    struct mc2_report audited, merged;
    stack_forget(0);
    mc2_audit((const uint8_t *)text.at, text.length, &audited);
    mc2_merge((const uint8_t *)text.at, text.length, order, MOST, &merged);
    say("judged here: kind #, ", audited.kind);
    say_both("merged: kind #, # entries\n", merged.kind, merged.first);
    say("stack of the judge: #\n", stack_used(0));
    rattle_dealloc(order);
    rattle_dealloc(text.at);
}
#else
static void judge(void) {}
#endif

static void end_all(size_t free_before) {
    end_cells();
    judge();
    int written = mc2_write_notes(&noted, serial_take, NULL);
    must(written == MC2_DONE, "the record", (uint64_t)written);
    end_notes();
    size_t blocks, left = mc2_heap_available(&blocks);
    for (uint32_t cpu = 0; cpu < CPUS; cpu++)
        say_both("cpu #: # interrupts\n", cpu, interrupts[cpu]);
    say_both("heap: # bytes lost, # blocks free\n", free_before - left, blocks);
    say("# wrong results\n", wrong);
}

#ifdef STAND_IN
static void say_whole_calls(void) {}
#else
// Raises *most to the stack that was used since the last stack_forget, and calls stack_forget.
static void note_stack(size_t *most) {
    size_t used = stack_used(0);
    *most = used > *most ? used : *most;
    stack_forget(0);
}

// Measures the stack that a whole call, a try and a batch take, on a cell that keeps no log, and frees the cell.
static void try_whole_calls(struct mc2_object object, size_t *of_calls, size_t *of_batches) {
    static struct mc2_cell cell;
    static struct mc2_caller caller;
    static struct mc2_batch batch = {MC2_MOST_CALLS, {{0, 0, 0}}};
    static struct mc2_replies replies;
    struct mc2_reply reply;
    object.events = 0;
    must(mc2_cell_open(&cell, &object, &caller, 1) == MC2_DONE, "opening a cell without a log", object.kind);
    for (uint32_t at = 0; at < MC2_MOST_CALLS; at++)
        batch.calls[at] = any_call(object.kind, 0);
    stack_forget(0);
    uint32_t called = mc2_cell_call(&caller, &batch.calls[0], &reply);
    uint32_t tried = mc2_cell_try_call(&caller, &batch.calls[0], &reply);
    note_stack(of_calls);
    uint32_t together = mc2_cell_batch(&caller, &batch, &replies);
    note_stack(of_batches);
    must(called == MC2_DONE && tried == called && together == called, "whole calls", object.kind);
    mc2_cell_free(&cell, &caller, 1);
}

// Prints the most stack that they take, over all objects and both locks. The calls that CPUs make later are single steps.
static void say_whole_calls(void) {
    size_t of_calls = 0, of_batches = 0;
    for (uint32_t at = 0; at < 2 * OBJECTS; at++) {
        struct mc2_object object = objects[at / 2];
        object.lock = at % 2;
        try_whole_calls(object, &of_calls, &of_batches);
    }
    say_both("stack of whole calls: #, of batches: #\n", of_calls, of_batches);
}
#endif

// CPU 0 does this before the other CPUs start: it opens the heap, the notes and the cells.
static size_t begin(void) {
    size_t blocks;
    serial_open();
    uint32_t result = mc2_heap_add(kernel_end, (size_t)(memory_end - kernel_end));
    must(result == MC2_DONE, "adding memory", result);
    size_t free_before = mc2_heap_available(&blocks);
    open_notes(notes, sequences);
    stack_forget(0);
    open_cells();
    say("stack of an opening: #\n", stack_used(0));
    say_whole_calls();
    start_cpus();
    stack_forget(0);
    return free_before;
}

void cpu_main(uint32_t cpu) {
    interrupts_open(cpu, HAS_STACK);
    size_t free_before = cpu == 0 ? begin() : 0;
    __atomic_fetch_add(&cpus_ready, 1, __ATOMIC_SEQ_CST);
    while (__atomic_load_n(&cpus_ready, __ATOMIC_SEQ_CST) < CPUS)
        __builtin_ia32_pause();
    work(cpu);
    __atomic_fetch_add(&cpus_done, 1, __ATOMIC_SEQ_CST);
    while (cpu != 0)
        __asm__ volatile("hlt");
    while (__atomic_load_n(&cpus_done, __ATOMIC_SEQ_CST) < CPUS)
        __builtin_ia32_pause();
    for (uint32_t at = 0; at < CPUS; at++)
        say_both("stack of calls: #, of interrupts: #\n", stack_used(at), interrupt_stack_used(at));
    end_all(free_before);
    leave(33);
}
