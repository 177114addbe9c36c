// Checks include/mc2_note.h, as C11 and as C++17: that each bad use returns a refusal, and that what was noted before
// is written as before. Then it prints a record.
//
//     note right|twice|twins|unnoted|last|late|full_memory
//     note random SEED
//
// Of all but right and full_memory the record must be unsound, though each reply in it is right. With `random` there are some notes
// on two queues, a few of them noted twice, out of order or not at all. The status is 0, or 1 at the first check that fails, which
// a line on standard error names; with `random` it is 4 if the record has to be unsound.
#include "mc2_note.h"

#define STEP struct mc2_step
#define OPEN_NOTES mc2_open_notes
#define OPEN_SEQUENCE mc2_open_sequence
#define NOTE mc2_note
#define NOTE_PIECES MC2_NOTE_PIECES
#define MOST_OBJECTS MC2_MOST_OBJECTS
#define MOST_NUMBERS MC2_MOST_EVENTS
#include "notes.h"

static struct mc2_step step_of(uint32_t number) {
    return number == 9 ? mc2_step_of(mc2_call_of(MC2_DEQ, 0, 0), MC2_EMPTY, 0) : mc2_step_of(mc2_call_of(MC2_LEN, 0, 0), MC2_COUNT, 0);
}

static struct mc2_step longest_step(void) { return step_of(0); }

static int write_all(const void *unused, mc2_write_fn take, void *to) {
    static const struct mc2_object objects[] = {{"q", MC2_QUEUE, MC2_TICKET, EVENTS, 4, 0, NULL},
                                                {"r", MC2_QUEUE, MC2_MCS, EVENTS, 4, 0, NULL}};
    static struct mc2_sequence *const each[] = {&sequences[0], &sequences[1]};
    struct mc2_noted noted = {objects, each, OBJECTS, notes, CPUS};
    (void)unused;
    return mc2_write_notes(&noted, take, to);
}

static void spoil(struct mc2_step *step, bool reply) {
    if (reply)
        step->reply = MC2_REPLY_WORDS;
    else
        step->call.word = MC2_CALL_WORDS;
}

static void check_notes(void) {
    struct mc2_step steps[8];
    open_all(PIECES);
    for (unsigned at = 0; at < 8; at++)
        steps[at] = step_of(0);
    CHECK(strcmp(text_now(), "record 2\ncpus 3\nobjects 2\nobject q ticket 40 queue 4\nobject r mcs 40 queue 4\nlog q 0\nlog r 0\n"
                             "cpu 0 0\ncpu 1 0\ncpu 2 0\nend\n") == 0);
    GIVES(mc2_note(&notes[0], 0, MC2_MOST_EVENTS, 0, steps, 1, 1), MC2_BAD_COUNT);
    steps[7] = mc2_step_of(mc2_call_of(MC2_PUT, 256, 0), MC2_OK, 0);
    GIVES(mc2_note(&notes[0], 0, 0, 0, steps, 8, 1), MC2_BAD_STEP);
    check_bad_notes(spoil);
    CHECK(strstr(text_now(), "\nq 18446744073709551615 len ; len | len = count 0\n") != NULL);
}

static void check_writing(void) {
    struct mc2_object objects[] = {{"q", MC2_QUEUE, MC2_TICKET, 9, 4, 0, NULL}, {"q", MC2_QUEUE, MC2_TICKET, 9, 4, 0, NULL}};
    struct mc2_sequence *each[] = {&sequences[0], NULL};
    struct mc2_noted noted = {objects, each, 1, notes, CPUS}, wrong = noted;
    open_all(PIECES);
    FILE *nowhere = fopen("/dev/null", "w");
    CHECK(nowhere != NULL);
    GIVES(mc2_write_notes(&noted, mc2_write_to_file, nowhere), MC2_DONE);
    GIVES(mc2_write_notes(&noted, NULL, nowhere), MC2_BAD_POINTER);
    GIVES(mc2_write_notes(NULL, mc2_write_to_file, nowhere), MC2_BAD_POINTER);
    wrong.objects = NULL;
    GIVES(mc2_write_notes(&wrong, mc2_write_to_file, nowhere), MC2_BAD_POINTER);
    wrong = noted, wrong.object_count = 2;
    GIVES(mc2_write_notes(&wrong, mc2_write_to_file, nowhere), MC2_BAD_POINTER);
    each[1] = &sequences[1];
    GIVES(mc2_write_notes(&wrong, mc2_write_to_file, nowhere), MC2_BAD_OBJECT);
    wrong.object_count = MC2_MOST_OBJECTS + 1;
    GIVES(mc2_write_notes(&wrong, mc2_write_to_file, nowhere), MC2_BAD_COUNT);
    wrong = noted, wrong.cpus = MC2_MOST_CPUS + 1;
    GIVES(mc2_write_notes(&wrong, mc2_write_to_file, nowhere), MC2_BAD_COUNT);
    wrong.cpus = 0;
    GIVES(mc2_write_notes(&wrong, mc2_write_to_file, nowhere), MC2_BAD_COUNT);
    // A sequence that is longer than a log may be. A note of an object that isn't described.
    sequences[0].events = MC2_MOST_EVENTS + 1;
    GIVES(mc2_write_notes(&noted, mc2_write_to_file, nowhere), MC2_BAD_COUNT);
    sequences[0].events = EVENTS;
    work(0, 1);
    GIVES(mc2_write_notes(&noted, mc2_write_to_file, nowhere), MC2_BAD_OBJECT);
    fclose(nowhere);
}

static void check_most_notes(void) {
    static union mc2_note_piece many[MC2_MOST_ENTRIES * 3];
    open_all(PIECES);
    GIVES(mc2_open_sequence(&sequences[0], MC2_MOST_EVENTS), MC2_DONE);
    GIVES(mc2_open_notes(&notes[0], many, sizeof many / sizeof many[0]), MC2_DONE);
    for (unsigned at = 0; at < MC2_MOST_ENTRIES; at++)
        work(0, 0);
    GIVES(next_seq(0, 0), MC2_NO_SEQ);
    GIVES(note_one(0, 0, MC2_MOST_ENTRIES), MC2_TRANSCRIPT_FULL);
    CHECK(notes[0].used == 2 * MC2_MOST_ENTRIES && notes[0].count == MC2_MOST_ENTRIES);
}

static unsigned below(unsigned bound, uint64_t *seed) {
    *seed ^= *seed << 13;
    *seed ^= *seed >> 7;
    *seed ^= *seed << 17;
    return (unsigned)((*seed >> 24) % bound);
}

struct chosen {
    uint32_t cpu, object, seq;
};

// Whether each number of the object was noted once, and by each CPU in order.
static bool is_right(const struct chosen *chosen, unsigned count, uint32_t object) {
    unsigned of_number[EVENTS] = {0}, last[CPUS] = {0}, most = sequences[object].next;
    bool is_so = true;
    for (unsigned at = 0; at < count; at++)
        if (chosen[at].object == object) {
            is_so = is_so && chosen[at].seq >= last[chosen[at].cpu];
            last[chosen[at].cpu] = chosen[at].seq;
            of_number[chosen[at].seq]++;
            most = most > chosen[at].seq ? most : chosen[at].seq + 1;
        }
    for (unsigned seq = 0; seq < most; seq++)
        is_so = is_so && of_number[seq] == 1;
    return is_so;
}

// Some notes, of which a few are left out, noted again, or change places.
static int print_random(uint64_t seed) {
    struct chosen chosen[EVENTS];
    unsigned count = 1 + below(12, &seed), harm = below(3, &seed), kept = 0;
    open_all(PIECES);
    for (unsigned at = 0; at < count; at++) {
        struct chosen it = {below(CPUS, &seed), below(OBJECTS, &seed), 0};
        it.seq = next_seq(it.cpu, it.object);
        if (harm == 0 || below(8, &seed) > 0)
            chosen[kept++] = it;
        if (harm > 0 && below(8, &seed) == 0) {
            it.cpu = below(CPUS, &seed);
            chosen[kept++] = it;
        }
    }
    if (harm == 2 && kept > 1) {
        unsigned place = below(kept - 1, &seed);
        struct chosen it = chosen[place];
        chosen[place] = chosen[place + 1];
        chosen[place + 1] = it;
    }
    for (unsigned at = 0; at < kept; at++)
        GIVES(note_one(chosen[at].cpu, chosen[at].object, chosen[at].seq), MC2_DONE);
    GIVES(write_all(NULL, mc2_write_to_file, stdout), MC2_DONE);
    return is_right(chosen, kept, 0) && is_right(chosen, kept, 1) ? 0 : 4;
}

int main(int count, char **words) {
    CHECK(count == 2 || count == 3);
    check_opening();
    check_notes();
    check_writing();
    check_room();
    check_numbers_of_no_sequence();
    check_most_notes();
    if (count == 3)
        return print_random(88172645463325252u + strtoul(words[2], NULL, 10) * 1000003u);
    print_case(words[1]);
    return 0;
}
