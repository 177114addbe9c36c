// Checks include/mc2_custom_note.h, as C11 and as C++17: that each bad use returns a refusal, and that what was noted
// before is written as before. Then it prints a record of three CPUs on two objects of the kind `any`.
//
//     custom_note right|twice|twins|unnoted|last|late|full_memory
//
// Of all but right and full_memory the record must be unsound, though every reply is right. The status is 0, or 1 at the first
// check that fails, which a line on standard error names.
#include "mc2_custom_note.h"

#define STEP struct mc2_term_step
#define OPEN_NOTES mc2_open_custom_notes
#define OPEN_SEQUENCE mc2_open_custom_sequence
#define NOTE mc2_note_custom
#define NOTE_PIECES MC2_CUSTOM_NOTE_PIECES
#define MOST_OBJECTS MC2_NOTED_OBJECTS
#define MOST_NUMBERS (UINT32_MAX - 1)
#include "notes.h"

enum { PUT, TAKE, OK, NO, NUMBERS, WORDS };

static const char *const words[] = {"put", "take", "ok", "no", "numbers"};
static const char *const refusing[] = {"no", "none"};
static const uint64_t numbers[] = {7, UINT64_MAX};
static struct mc2_noted_object objects[] = {{"q", "ticket", "any", numbers, 2, &sequences[0]},
                                            {"r", "mcs", "any", NULL, 0, &sequences[1]}};
static struct mc2_custom_noted noted = {objects, OBJECTS, notes, CPUS, words, WORDS, refusing, 2};

static struct mc2_term_step step_of(uint32_t number) {
    struct mc2_term_step step = {mc2_term_of(PUT, 1, number, 0), mc2_term_of(OK, 0, 0, 0)};
    return step;
}

// A word with that many numbers, from 1.
static struct mc2_term with_numbers(uint32_t count) {
    struct mc2_term it = mc2_term_of(NUMBERS, count, 0, 0);
    for (uint32_t at = 0; at < MC2_TERM_NUMBERS; at++)
        it.numbers[at] = at + 1;
    return it;
}

static struct mc2_term_step longest_step(void) {
    struct mc2_term_step step = {with_numbers(6), with_numbers(6)};
    return step;
}

static int write_all(const void *unused, mc2_write_fn take, void *to) {
    (void)unused;
    return mc2_write_custom_notes(&noted, take, to);
}

static void spoil(struct mc2_term_step *step, bool reply) {
    if (reply)
        step->reply.count = MC2_TERM_NUMBERS + 1;
    else
        step->call.word = UINT16_MAX + 1;
}

static void check_notes(void) {
    open_all(PIECES);
    CHECK(strcmp(text_now(), "record 3\ncpus 3\nobjects 2\nobject q ticket 40 any 7 18446744073709551615\nobject r mcs 40 any\n"
                             "refuses no none\nlog q 0\nlog r 0\ncpu 0 0\ncpu 1 0\ncpu 2 0\nend\n") == 0);
    check_bad_notes(spoil);
    CHECK(strstr(text_now(), "\nq 18446744073709551615 put 0 ; put 1 | put 0 = ok\n") != NULL);
}

// Each number of numbers, of calls and of replies.
static void check_numbers(void) {
    static const char *const all[] = {"numbers", "numbers 1", "numbers 1 2", "numbers 1 2 3", "numbers 1 2 3 4",
                                      "numbers 1 2 3 4 5", "numbers 1 2 3 4 5 6"};
    char wanted[100];
    for (uint32_t in = 0; in <= 6; in++)
        for (uint32_t out = 0; out <= 6; out++) {
            struct mc2_term_step step = {with_numbers(in), with_numbers(out)};
            open_all(PIECES);
            GIVES(mc2_note_custom(&notes[1], 0, next_seq(1, 0), 5, &step, 1, 1), MC2_DONE);
            snprintf(wanted, sizeof wanted, "\nlog q 1\n1 %s = %s\nlog r 0\n", all[in], all[out]);
            CHECK(notes[1].used == 3 + in / 2 + out / 2 && strstr(text_now(), wanted) != NULL);
        }
}

// In memory that was opened for short notes, no longer one is noted: it would take the room that is kept for others.
static void check_short_notes(void) {
    struct mc2_term_step steps[] = {longest_step(), longest_step()};
    GIVES(mc2_open_notes(&notes[0], memory[0], 2 * MC2_NOTE_PIECES), MC2_DONE);
    GIVES(mc2_open_custom_sequence(&sequences[0], EVENTS), MC2_DONE);
    CHECK(next_seq(0, 0) == 0 && next_seq(0, 0) == 1 && next_seq(0, 0) == MC2_NO_SEQ);
    GIVES(mc2_note_custom(&notes[0], 0, 0, 0, steps, 2, 2), MC2_TRANSCRIPT_FULL);
    GIVES(mc2_note_custom(&notes[0], 0, 0, 0, steps, 1, 1), MC2_DONE);
    CHECK(notes[0].used == MC2_NOTE_PIECES && notes[0].waiting == 1);
}

#define REFUSES(field, value, result)                                     \
    do {                                                                  \
        struct mc2_custom_noted spoilt = noted;                           \
        spoilt.field = value;                                             \
        GIVES(mc2_write_custom_notes(&spoilt, take_piece, NULL), result); \
    } while (0)

static void check_writing(void) {
    static const char *const twice[] = {"no", "no"}, *const no_word[] = {"no", "No"};
    struct mc2_noted_object wrong[] = {objects[0], objects[1]};
    open_all(PIECES);
    GIVES(mc2_write_custom_notes(NULL, take_piece, NULL), MC2_BAD_POINTER);
    GIVES(mc2_write_custom_notes(&noted, NULL, NULL), MC2_BAD_POINTER);
    REFUSES(objects, NULL, MC2_BAD_POINTER);
    REFUSES(notes, NULL, MC2_BAD_POINTER);
    REFUSES(words, NULL, MC2_BAD_POINTER);
    REFUSES(refusing, NULL, MC2_BAD_POINTER);
    REFUSES(object_count, 0, MC2_BAD_COUNT);
    REFUSES(object_count, MC2_NOTED_OBJECTS + 1, MC2_BAD_COUNT);
    REFUSES(cpus, 0, MC2_BAD_COUNT);
    REFUSES(cpus, MC2_NOTED_CPUS + 1, MC2_BAD_COUNT);
    REFUSES(refusing_count, MC2_NOTED_REFUSING + 1, MC2_BAD_COUNT);
    REFUSES(refusing, twice, MC2_BAD_STEP);
    REFUSES(refusing, no_word, MC2_BAD_STEP);
    wrong[1].name = "q";
    REFUSES(objects, wrong, MC2_BAD_OBJECT);
    wrong[1] = objects[1], wrong[1].kind = "Any";
    REFUSES(objects, wrong, MC2_BAD_OBJECT);
    wrong[1] = objects[1], wrong[1].count = 1;
    REFUSES(objects, wrong, MC2_BAD_OBJECT);
    wrong[1] = objects[1], wrong[1].sequence = NULL;
    REFUSES(objects, wrong, MC2_BAD_OBJECT);
    // A note of an object that isn't described, and one with a word that isn't in the table.
    work(0, 1);
    REFUSES(object_count, 1, MC2_BAD_OBJECT);
    REFUSES(word_count, OK, MC2_BAD_OBJECT);
    // Notes of one form aren't written in the other.
    const struct mc2_object plain[] = {{"q", MC2_QUEUE, MC2_TICKET, 9, 4, 0, NULL},
                                       {"r", MC2_QUEUE, MC2_TICKET, 9, 4, 0, NULL}};
    struct mc2_sequence *const each[] = {&sequences[0], &sequences[1]};
    const struct mc2_noted others = {plain, each, OBJECTS, notes, CPUS};
    GIVES(mc2_write_notes(&others, take_piece, NULL), MC2_BAD_OBJECT);
}

int main(int count, char **given) {
    CHECK(count == 2);
    check_opening();
    check_notes();
    check_room();
    check_numbers_of_no_sequence();
    check_numbers();
    check_short_notes();
    check_writing();
    print_case(given[1]);
    return 0;
}
