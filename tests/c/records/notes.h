// The checks that note.c and custom_note.c share. A program that includes this file defines the header's names for OPEN_NOTES,
// OPEN_SEQUENCE, NOTE and STEP, with NOTE_PIECES, MOST_OBJECTS and MOST_NUMBERS. It defines the functions declared here.
#include "check.h"

enum { CPUS = 3, OBJECTS = 2, PIECES = 400, EVENTS = 40 };

static struct mc2_notes notes[CPUS];
static struct mc2_sequence sequences[OBJECTS];
static union mc2_note_piece memory[CPUS][PIECES];

// Steps that are right in each order: one by a number, and the longest.
static STEP step_of(uint32_t number);
static STEP longest_step(void);
// Writes both objects and all CPUs.
static int write_all(const void *unused, mc2_write_fn take, void *to);

static const char *text_now(void) { return text_by(write_all, NULL); }

static void open_all(size_t pieces) {
    for (unsigned cpu = 0; cpu < CPUS; cpu++)
        GIVES(OPEN_NOTES(&notes[cpu], memory[cpu], pieces), MC2_DONE);
    for (unsigned object = 0; object < OBJECTS; object++)
        GIVES(OPEN_SEQUENCE(&sequences[object], EVENTS), MC2_DONE);
}

static uint32_t next_seq(uint32_t cpu, uint32_t object) { return mc2_next_seq(&sequences[object], &notes[cpu]); }

static int note_one(uint32_t cpu, uint32_t object, uint32_t seq) {
    STEP step = step_of(0);
    return NOTE(&notes[cpu], object, seq, 1, &step, 1, 1);
}

static void work(uint32_t cpu, uint32_t object) {
    GIVES(note_one(cpu, object, next_seq(cpu, object)), MC2_DONE);
}

static void check_opening(void) {
    GIVES(OPEN_NOTES(NULL, memory[0], PIECES), MC2_BAD_POINTER);
    GIVES(OPEN_NOTES(&notes[0], NULL, PIECES), MC2_BAD_POINTER);
    GIVES(OPEN_NOTES(&notes[0], memory[0], NOTE_PIECES - 1), MC2_NO_MEMORY);
    CHECK(!mc2_has_note_room(&notes[0]) && !mc2_has_note_room(NULL));
    GIVES(note_one(0, 0, 0), MC2_TRANSCRIPT_FULL);
    GIVES(OPEN_NOTES(&notes[0], memory[0], NOTE_PIECES), MC2_DONE);
    GIVES(OPEN_SEQUENCE(NULL, 1), MC2_BAD_POINTER);
    GIVES(OPEN_SEQUENCE(&sequences[0], 0), MC2_BAD_COUNT);
    GIVES(next_seq(0, 0), MC2_NO_SEQ);
    GIVES(OPEN_SEQUENCE(&sequences[0], MOST_NUMBERS + 1), MC2_BAD_COUNT);
    GIVES(OPEN_SEQUENCE(&sequences[0], MOST_NUMBERS), MC2_DONE);
    GIVES(mc2_next_seq(NULL, &notes[0]), MC2_NO_SEQ);
    GIVES(mc2_next_seq(&sequences[0], NULL), MC2_NO_SEQ);
    // A CPU that got no number has ended the notes of the object.
    GIVES(next_seq(0, 0), MC2_NO_SEQ);
    CHECK(sizeof(union mc2_note_piece) == 16);
}

// A note that isn't one is refused. `spoil` makes bad one of the calls, or the reply of a step.
static void check_bad_notes(void (*spoil)(STEP *step, bool reply)) {
    STEP steps[9];
    const char *before = text_now();
    for (unsigned at = 0; at < 9; at++)
        steps[at] = step_of(at);
    GIVES(NOTE(NULL, 0, 0, 0, steps, 1, 1), MC2_BAD_POINTER);
    GIVES(NOTE(&notes[0], 0, 0, 0, NULL, 1, 1), MC2_BAD_POINTER);
    GIVES(NOTE(&notes[0], MOST_OBJECTS, 0, 0, steps, 1, 1), MC2_BAD_OBJECT);
    GIVES(NOTE(&notes[0], UINT32_MAX, 0, 0, steps, 1, 1), MC2_BAD_OBJECT);
    GIVES(NOTE(&notes[0], 0, MC2_NO_SEQ, 0, steps, 1, 1), MC2_LOG_FULL);
    GIVES(NOTE(&notes[0], 0, 0, 0, steps, 0, 0), MC2_BAD_COUNT);
    GIVES(NOTE(&notes[0], 0, 0, 0, steps, 1, 0), MC2_BAD_COUNT);
    GIVES(NOTE(&notes[0], 0, 0, 0, steps, 1, 2), MC2_BAD_COUNT);
    GIVES(NOTE(&notes[0], 0, 0, 0, steps, 9, 1), MC2_BAD_COUNT);
    GIVES(NOTE(&notes[0], 0, 0, 0, steps, UINT32_MAX, UINT32_MAX), MC2_BAD_COUNT);
    spoil(&steps[7], false);
    GIVES(NOTE(&notes[0], 0, 0, 0, steps, 8, 1), MC2_BAD_STEP);
    spoil(&steps[1], true);
    GIVES(NOTE(&notes[0], 0, 0, 0, steps, 2, 2), MC2_BAD_STEP);
    CHECK(strcmp(before, text_now()) == 0);
    // The reply of a call that wasn't done is ignored.
    GIVES(NOTE(&notes[0], 0, next_seq(0, 0), UINT64_MAX, steps, 2, 1), MC2_DONE);
}

// A CPU gets a number only if the longest note fits, after those whose numbers it took before.
static void check_room(void) {
    STEP steps[8];
    for (unsigned at = 0; at < 8; at++)
        steps[at] = longest_step();
    open_all(2 * NOTE_PIECES + 1);
    uint32_t first = next_seq(0, 0), second = next_seq(0, 1);
    CHECK(first == 0 && second == 0 && !mc2_has_note_room(&notes[0]) && mc2_has_note_room(&notes[1]));
    GIVES(NOTE(&notes[0], 0, first, 0, steps, 8, 8), MC2_DONE);
    CHECK(notes[0].used == NOTE_PIECES && !mc2_has_note_room(&notes[0]));
    // The first CPU that gets no number ends the notes of that object, for the others too, and of no other object.
    GIVES(next_seq(0, 0), MC2_NO_SEQ);
    GIVES(next_seq(1, 0), MC2_NO_SEQ);
    GIVES(next_seq(1, 1), 1);
    GIVES(NOTE(&notes[0], 1, second, 0, steps, 8, 8), MC2_DONE);
    GIVES(note_one(0, 1, 2), MC2_TRANSCRIPT_FULL);
    GIVES(note_one(1, 1, 1), MC2_DONE);
}

// A number that mc2_next_seq can't have returned is refused when the record is written, and the others aren't.
static void check_numbers_of_no_sequence(void) {
    static const uint32_t beyond[] = {2, EVENTS - 1, EVENTS, MOST_NUMBERS - 1};
    for (unsigned at = 0; at < sizeof beyond / sizeof *beyond; at++) {
        open_all(PIECES);
        work(0, 0);
        GIVES(note_one(0, 0, beyond[at]), MC2_DONE);
        GIVES(write_all(NULL, take_piece, NULL), MC2_BAD_COUNT);
    }
    // With as many events the number would be right, but for the log's end.
    open_all(PIECES);
    for (uint32_t seq = 0; seq <= EVENTS; seq++)
        GIVES(note_one(seq % CPUS, 0, seq), MC2_DONE);
    GIVES(write_all(NULL, take_piece, NULL), MC2_BAD_COUNT);
    sequences[0].events++;
    CHECK(strstr(text_now(), "\nlog q 41\n") != NULL);
    sequences[0].events--;
}

// Two CPUs get the same number, as the lock lets both in.
static void take_one_number(uint32_t first, uint32_t second) {
    struct mc2_sequence seen = sequences[0];
    uint32_t one = next_seq(first, 0), other = mc2_next_seq(&seen, &notes[second]);
    CHECK(one == other);
    GIVES(note_one(first, 0, one), MC2_DONE);
    GIVES(note_one(second, 0, other), MC2_DONE);
}

static void note_late(void) {
    uint32_t first = next_seq(0, 0), second = next_seq(0, 0);
    STEP other = step_of(9);
    GIVES(note_one(0, 0, second), MC2_DONE);
    GIVES(NOTE(&notes[0], 0, first, 1, &other, 1, 1), MC2_DONE);
}

// A note fits in this memory, and then none.
static void fill_memory(void) {
    GIVES(next_seq(0, 0), MC2_NO_SEQ);
    GIVES(note_one(0, 0, MC2_NO_SEQ), MC2_LOG_FULL);
    work(2, 1);
}

// Prints the record of a case: right, twice, twins, unnoted, last, late or full_memory.
static void print_case(const char *name) {
    bool is_full = strcmp(name, "full_memory") == 0, is_last = strcmp(name, "last") == 0;
    open_all(is_full ? NOTE_PIECES + 1 : PIECES);
    work(0, 0);
    work(1, 1);
    if (strcmp(name, "twice") == 0 || strcmp(name, "twins") == 0)
        take_one_number(strcmp(name, "twice") == 0 ? 1 : 2, 2);
    else if (is_last || strcmp(name, "unnoted") == 0)
        next_seq(2, 0);
    else if (strcmp(name, "late") == 0)
        note_late();
    else if (is_full)
        fill_memory();
    if (!is_last && !is_full)
        work(1, 0);
    GIVES(write_all(NULL, mc2_write_to_file, stdout), MC2_DONE);
}
