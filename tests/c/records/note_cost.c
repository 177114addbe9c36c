// Measures what a note costs by include/mc2_note.h, and an event with its entry by include/mc2_record.h, on one thread, one call each.
//
//     gcc -std=c11 -O2 -Iinclude -o /tmp/note_cost tests/c/records/note_cost.c && /tmp/note_cost
//
// A round notes 10,000 times by each, in memory that was touched before. It prints the median and the least of ROUNDS rounds.
#define _POSIX_C_SOURCE 200809L
#include <stdlib.h>
#include <time.h>

#include "mc2_note.h"

enum { CALLS = MC2_MOST_ENTRIES, ROUNDS = 101, PIECES = 2 * CALLS + 8 };

static const struct mc2_object object = {"q", MC2_QUEUE, MC2_TICKET, CALLS, 1024, 0, NULL};
static union mc2_note_piece memory[PIECES];
static struct mc2_recorder recorder;
static struct mc2_notes notes;
static struct mc2_sequence sequence;

static struct mc2_step step_of(volatile uint32_t *thread) {
    *thread = (*thread + 7) % 1024;
    return mc2_step_of(mc2_call_of(MC2_ENQ, *thread, 0), MC2_OK, 0);
}

static int note_all(volatile uint32_t *thread) {
    int failed = 0;
    for (uint32_t call = 0; call < CALLS; call++) {
        uint32_t seq = mc2_next_seq(&sequence, &notes);
        struct mc2_step step = step_of(thread);
        failed |= mc2_note(&notes, 0, seq, call, &step, 1, 1);
    }
    return failed;
}

static int record_all(volatile uint32_t *thread) {
    int failed = 0;
    for (uint32_t call = 0; call < CALLS; call++) {
        failed |= mc2_recorder_room(&recorder, 0, 0);
        struct mc2_step step = step_of(thread);
        failed |= mc2_recorder_event(&recorder, 0, 0, &step, 1);
        failed |= mc2_recorder_entry(&recorder, 0, 0, call, &step.call, 1, &step, 1);
    }
    return failed;
}

static int make_all(volatile uint32_t *thread) {
    uint32_t all = 0;
    for (uint32_t call = 0; call < CALLS; call++) {
        struct mc2_step step = step_of(thread);
        all += step.call.first;
    }
    *thread = all;
    return MC2_DONE;
}

static double nanoseconds_of(int (*work)(volatile uint32_t *thread)) {
    static volatile uint32_t thread;
    struct timespec began, ended;
    clock_gettime(CLOCK_MONOTONIC, &began);
    int failed = work(&thread);
    clock_gettime(CLOCK_MONOTONIC, &ended);
    if (failed != MC2_DONE)
        exit(1);
    return ((double)(ended.tv_sec - began.tv_sec) * 1e9 + (double)(ended.tv_nsec - began.tv_nsec)) / CALLS;
}

static int is_less(const void *one, const void *other) {
    double first = *(const double *)one, second = *(const double *)other;
    return (first > second) - (first < second);
}

static void print(const char *what, size_t bytes, double *rounds) {
    qsort(rounds, ROUNDS, sizeof *rounds, is_less);
    printf("%s: %zu bytes, %.1f ns, least %.1f ns\n", what, bytes, rounds[ROUNDS / 2], rounds[0]);
}

int main(void) {
    static double noted[ROUNDS], recorded[ROUNDS], made[ROUNDS];
    for (unsigned round = 0; round < ROUNDS; round++) {
        if (mc2_recorder_open(&recorder, &object, 1, 1, CALLS) != MC2_DONE || mc2_open_sequence(&sequence, CALLS) != MC2_DONE ||
            mc2_open_notes(&notes, memory, PIECES) != MC2_DONE)
            return 1;
        noted[round] = nanoseconds_of(note_all);
        recorded[round] = nanoseconds_of(record_all);
        made[round] = nanoseconds_of(make_all);
        mc2_recorder_close(&recorder);
    }
    print("mc2_note.h", notes.used / CALLS * sizeof *memory, noted);
    print("mc2_record.h", sizeof(struct mc2_priv_event) + sizeof(struct mc2_priv_entry), recorded);
    print("the call alone", 0, made);
    return 0;
}
