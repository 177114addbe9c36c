// Checks include/mc2_record.h, as C11 and as C++17: that each bad use returns an error and changes nothing, that the limits are
// those of docs/FORMATS.md, and that a recorder in memory of the caller's prints the same. Then it prints a record that has each
// call and each reply.
//
// The status is 0, or 1 at the first check that fails, which a line on standard error names.
#include <stdbool.h>
#include <stdlib.h>

static bool is_memory_refused;

static void *malloc_or_not(size_t size) { return is_memory_refused ? NULL : malloc(size); }

#define malloc malloc_or_not
#include "mc2_record.h"
#undef malloc
#include "check.h"
#include "every_word.h"
#include "pages.h"

static struct mc2_object object_of(const char *name, uint32_t kind, uint32_t events, uint32_t size, uint32_t channels) {
    struct mc2_object object = {name, kind, MC2_MCS, events, size, channels, NULL};
    return object;
}

// Returns what mc2_recorder_open returns for one object.
static int opened(const char *name, uint32_t kind, uint32_t events, uint32_t size, uint32_t channels) {
    struct mc2_recorder recorder;
    struct mc2_object object = object_of(name, kind, events, size, channels);
    int result = mc2_recorder_open(&recorder, &object, 1, 1, 1);
    mc2_recorder_close(&recorder);
    return result;
}

static void check_names(void) {
    static const char *const wrong[] = {"abcdefghijklmnop9", NULL, "", "9q", "qQ", "q q", "q\n"};
    GIVES(opened("q", MC2_QUEUE, 1, 1, 0), MC2_DONE);
    GIVES(opened("abcdefghijklmno9", MC2_QUEUE, 1, 1, 0), MC2_DONE);
    for (unsigned at = 0; at < sizeof wrong / sizeof *wrong; at++)
        GIVES(opened(wrong[at], MC2_QUEUE, 1, 1, 0), MC2_BAD_OBJECT);
}

static void check_sizes(void) {
    static const uint32_t right[][4] = {{MC2_QUEUE, 65536, 1024, 0}, {MC2_POOL, 1, 4096, 0}, {MC2_CONSOLE, 1, 4096, 0},
                                        {MC2_SCHED, 1, 1024, 64}};
    static const uint32_t wrong[][4] = {
        {MC2_KINDS, 1, 1, 0},    {MC2_QUEUE, 0, 1, 0},      {MC2_QUEUE, 65537, 1, 0}, {MC2_QUEUE, 1, 0, 0},
        {MC2_QUEUE, 1, 1025, 0}, {MC2_QUEUE, 1, 1, 1},      {MC2_POOL, 1, 0, 0},      {MC2_POOL, 1, 4097, 0},
        {MC2_CONSOLE, 1, 4097, 0}, {MC2_SCHED, 1, 1025, 1}, {MC2_SCHED, 1, 1, 0},     {MC2_SCHED, 1, 1, 65}};
    for (unsigned at = 0; at < sizeof right / sizeof *right; at++)
        GIVES(opened("q", right[at][0], right[at][1], right[at][2], right[at][3]), MC2_DONE);
    for (unsigned at = 0; at < sizeof wrong / sizeof *wrong; at++)
        GIVES(opened("q", wrong[at][0], wrong[at][1], wrong[at][2], wrong[at][3]), MC2_BAD_OBJECT);
    CHECK(sizeof(struct mc2_priv_event) == 164 && sizeof(struct mc2_priv_entry) == 272);
}

static void check_counts(void) {
    struct mc2_recorder recorder;
    struct mc2_object objects[17];
    static char names[17][2];
    static const uint32_t wrong[][3] = {{0, 1, 1}, {17, 1, 1}, {1, 0, 1}, {1, 65, 1}, {1, 1, 0}, {1, 1, 10001},
                                        {1, UINT32_MAX, UINT32_MAX}};
    for (unsigned at = 0; at < 17; at++) {
        names[at][0] = (char)('a' + at);
        objects[at] = object_of(names[at], MC2_QUEUE, 1, 1, 0);
    }
    for (unsigned at = 0; at < sizeof wrong / sizeof *wrong; at++)
        GIVES(mc2_recorder_open(&recorder, objects, wrong[at][0], wrong[at][1], wrong[at][2]), MC2_BAD_COUNT);
    GIVES(mc2_recorder_open(&recorder, NULL, 1, 1, 1), MC2_BAD_POINTER);
    GIVES(mc2_recorder_open(NULL, objects, 1, 1, 1), MC2_BAD_POINTER);
    GIVES(mc2_recorder_open(&recorder, objects, 16, 8, 10000), MC2_DONE);
    mc2_recorder_close(&recorder);
    objects[16].name = "a";
    GIVES(mc2_recorder_open(&recorder, &objects[15], 2, 1, 1), MC2_DONE);
    mc2_recorder_close(&recorder);
    objects[15].name = "a";
    GIVES(mc2_recorder_open(&recorder, &objects[15], 2, 1, 1), MC2_BAD_OBJECT);
    objects[0].lock = MC2_LOCKS;
    GIVES(mc2_recorder_open(&recorder, objects, 1, 1, 1), MC2_BAD_OBJECT);
    mc2_recorder_close(NULL);
}

// A recorder that was never opened, or not with success, or that is closed, refuses every call.
static void check_unopened(struct mc2_recorder *recorder) {
    struct mc2_call call = mc2_call_of(MC2_LEN, 0, 0);
    struct mc2_step step = mc2_step_of(call, MC2_COUNT, 0);
    GIVES(mc2_recorder_room(recorder, 0, 0), MC2_BAD_OBJECT);
    GIVES(mc2_recorder_event(recorder, 0, 0, &step, 1), MC2_BAD_OBJECT);
    GIVES(mc2_recorder_entry(recorder, 0, 0, 1, &call, 1, &step, 1), MC2_BAD_OBJECT);
    GIVES(mc2_recorder_write(recorder, stdout), MC2_BAD_COUNT);
}

static void check_memory(void) {
    struct mc2_object object = object_of("q", MC2_QUEUE, 1, 1, 0);
    static struct mc2_recorder recorder;
    check_unopened(&recorder);
    is_memory_refused = true;
    GIVES(mc2_recorder_open(&recorder, &object, 1, 1, 1), MC2_NO_MEMORY);
    check_unopened(&recorder);
    is_memory_refused = false;
    GIVES(mc2_recorder_open(&recorder, &object, 1, 1, 1), MC2_DONE);
    mc2_recorder_close(&recorder);
    check_unopened(&recorder);
}

static int write_record(const void *recorder, mc2_write_fn take, void *to) {
    return mc2_recorder_write_to((const struct mc2_recorder *)recorder, take, to);
}

// Returns the text of the record, which has to be the same in a file. It stays until the second call from here.
static const char *text_of(const struct mc2_recorder *recorder) {
    static char in_file[sizeof((struct text *)0)->bytes];
    const char *text = text_by(write_record, recorder);
    FILE *file = tmpfile();
    CHECK(file != NULL);
    GIVES(mc2_recorder_write(recorder, file), MC2_DONE);
    rewind(file);
    size_t length = fread(in_file, 1, sizeof in_file, file);
    fclose(file);
    CHECK(length == strlen(text) && memcmp(in_file, text, length) == 0);
    return text;
}

// Opens a recorder in memory that isn't zero. One byte too few is refused, and nothing is written after its end.
static void check_own_memory(void) {
    static uint64_t memory[(272 + 164) / 8 + 2];
    struct mc2_object object = object_of("q", MC2_QUEUE, 1, 1, 0);
    struct mc2_recorder recorder;
    size_t size = mc2_recorder_size(&object, 1, 1, 1);
    CHECK(size == 272 + 164);
    memset(memory, 0xff, sizeof memory);
    GIVES(mc2_recorder_open_in(&recorder, &object, 1, 1, 1, memory, size - 1), MC2_NO_MEMORY);
    check_unopened(&recorder);
    GIVES(mc2_recorder_open_in(&recorder, &object, 1, 1, 1, NULL, size), MC2_NO_MEMORY);
    GIVES(mc2_recorder_open_in(&recorder, NULL, 1, 1, 1, memory, size), MC2_BAD_POINTER);
    GIVES(mc2_recorder_open_in(NULL, &object, 1, 1, 1, memory, size), MC2_BAD_POINTER);
    GIVES(mc2_recorder_open_in(&recorder, &object, 1, 0, 1, memory, size), MC2_BAD_COUNT);
    CHECK(mc2_recorder_size(&object, 1, 0, 1) == 0 && mc2_recorder_size(&object, 1, 1, 10001) == 0);
    CHECK(mc2_recorder_size(NULL, 1, 1, 1) == 0);
    GIVES(mc2_recorder_write_to(&recorder, NULL, NULL), MC2_BAD_POINTER);
    GIVES(mc2_recorder_open_in(&recorder, &object, 1, 1, 1, memory, size), MC2_DONE);
    CHECK(strcmp(text_of(&recorder), "record 2\ncpus 1\nobjects 1\nobject q mcs 1 queue 1\nlog q 0\ncpu 0 0\nend\n") == 0);
    for (size_t at = size; at < sizeof memory; at++)
        CHECK(((unsigned char *)memory)[at] == 0xff);
    object.size = 0;
    CHECK(mc2_recorder_size(&object, 1, 1, 1) == 0);
    GIVES(mc2_recorder_open_in(&recorder, &object, 1, 1, 1, memory, size), MC2_BAD_OBJECT);
}

static int opened_with(uint32_t kind, const uint32_t *quotas) {
    struct mc2_recorder recorder;
    struct mc2_object object = object_of("p", kind, 1, 7, kind == MC2_SCHED ? 1 : 0);
    object.quotas = quotas;
    int result = mc2_recorder_open(&recorder, &object, 1, 1, 1);
    mc2_recorder_close(&recorder);
    return result;
}

static void check_quotas(void) {
    uint32_t quotas[MC2_OWNERS] = {0};
    struct mc2_recorder recorder;
    struct mc2_object pool = object_of("p", MC2_POOL, 1, 7, 0);
    for (unsigned owner = 0; owner < MC2_OWNERS; owner++) {
        quotas[owner] = 4097;
        GIVES(opened_with(MC2_POOL, quotas), MC2_BAD_OBJECT);
        quotas[owner] = 4096;
        GIVES(opened_with(MC2_POOL, quotas), MC2_DONE);
    }
    GIVES(opened_with(MC2_QUEUE, quotas), MC2_BAD_OBJECT);
    GIVES(opened_with(MC2_CONSOLE, quotas), MC2_BAD_OBJECT);
    GIVES(opened_with(MC2_SCHED, quotas), MC2_BAD_OBJECT);
    GIVES(opened_with(MC2_SCHED, NULL), MC2_DONE);
    GIVES(mc2_recorder_open(&recorder, &pool, 1, 1, 1), MC2_DONE);
    CHECK(strcmp(text_of(&recorder), "record 2\ncpus 1\nobjects 1\nobject p mcs 1 pool 7 7 7 7 7 7 7 7 7 7 7 7 7 7 7 7 7\n"
                                     "log p 0\ncpu 0 0\nend\n") == 0);
    mc2_recorder_close(&recorder);
}

// A kernel that continues when there is no room notes nothing more of that object.
static void check_going_on(void) {
    static struct mc2_recorder recorder;
    struct mc2_object objects[2] = {object_of("q", MC2_QUEUE, 1, 1, 0), object_of("r", MC2_QUEUE, 9, 1, 0)};
    struct mc2_call call = mc2_call_of(MC2_LEN, 0, 0);
    struct mc2_step step = mc2_step_of(call, MC2_COUNT, 0);
    CHECK(!mc2_recorder_can_note(&recorder, 0, 0) && !mc2_recorder_can_note(NULL, 0, 0));
    GIVES(mc2_recorder_open(&recorder, objects, 2, 2, 2), MC2_DONE);
    CHECK(!mc2_recorder_can_note(&recorder, 2, 0) && !mc2_recorder_can_note(&recorder, 0, 2));
    for (unsigned object = 0; object < 2; object++) {
        CHECK(mc2_recorder_can_note(&recorder, object, 0));
        GIVES(mc2_recorder_event(&recorder, object, 0, &step, 1), MC2_DONE);
        GIVES(mc2_recorder_entry(&recorder, object, 0, 0, &call, 1, &step, 1), MC2_DONE);
    }
    // The first log is full, and so is this CPU's transcript: so the second log ends for the other CPU too.
    CHECK(!mc2_recorder_can_note(&recorder, 0, 1));
    CHECK(mc2_recorder_can_note(&recorder, 1, 1));
    CHECK(!mc2_recorder_can_note(&recorder, 1, 0));
    CHECK(!mc2_recorder_can_note(&recorder, 1, 1));
    CHECK(strcmp(text_of(&recorder), "record 2\ncpus 2\nobjects 2\nobject q mcs 1 queue 1\nobject r mcs 9 queue 1\n"
                                     "log q 1\n0 len = count 0\nlog r 1\n0 len = count 0\ncpu 0 2\nq 0 len | len = count 0\n"
                                     "r 0 len | len = count 0\ncpu 1 0\nend\n") == 0);
    mc2_recorder_close(&recorder);
}

static void check_events(struct mc2_recorder *recorder) {
    struct mc2_step steps[9];
    const struct mc2_step wrong[] = {
        mc2_step_of(mc2_call_of(MC2_CALL_WORDS, 0, 0), MC2_OK, 0), mc2_step_of(mc2_call_of(MC2_LEN, 0, 0), MC2_REPLY_WORDS, 0),
        mc2_step_of(mc2_call_of(MC2_PUT, 256, 0), MC2_OK, 0), mc2_step_of(mc2_call_of(MC2_GET, 0, 0), MC2_BYTE, 256),
        mc2_step_of(mc2_call_of(MC2_PUT, 0, 0), MC2_DROPPED, 256)};
    for (unsigned at = 0; at < 9; at++)
        steps[at] = mc2_step_of(mc2_call_of(MC2_LEN, 0, 0), MC2_COUNT, 0);
    GIVES(mc2_recorder_room(NULL, 0, 0), MC2_BAD_POINTER);
    GIVES(mc2_recorder_room(recorder, 2, 0), MC2_BAD_OBJECT);
    GIVES(mc2_recorder_room(recorder, 0, 2), MC2_BAD_CPU);
    GIVES(mc2_recorder_event(NULL, 0, 0, steps, 1), MC2_BAD_POINTER);
    GIVES(mc2_recorder_event(recorder, 0, 0, NULL, 1), MC2_BAD_POINTER);
    GIVES(mc2_recorder_event(recorder, 2, 0, steps, 1), MC2_BAD_OBJECT);
    GIVES(mc2_recorder_event(recorder, UINT32_MAX, 0, steps, 1), MC2_BAD_OBJECT);
    GIVES(mc2_recorder_event(recorder, 0, 2, steps, 1), MC2_BAD_CPU);
    GIVES(mc2_recorder_event(recorder, 0, UINT32_MAX, steps, 1), MC2_BAD_CPU);
    GIVES(mc2_recorder_event(recorder, 0, 0, steps, 0), MC2_BAD_COUNT);
    GIVES(mc2_recorder_event(recorder, 0, 0, steps, 9), MC2_BAD_COUNT);
    for (unsigned at = 0; at < sizeof wrong / sizeof *wrong; at++)
        GIVES(mc2_recorder_event(recorder, 0, 0, &wrong[at], 1), MC2_BAD_STEP);
    steps[7].reply = MC2_REPLY_WORDS;
    GIVES(mc2_recorder_event(recorder, 0, 0, steps, 8), MC2_BAD_STEP);
}

static void check_entries(struct mc2_recorder *recorder) {
    struct mc2_call calls[9], none = mc2_call_of(MC2_CALL_WORDS, 0, 0);
    struct mc2_step steps[9], no_reply = mc2_step_of(mc2_call_of(MC2_LEN, 0, 0), UINT32_MAX, 0);
    for (unsigned at = 0; at < 9; at++) {
        calls[at] = mc2_call_of(MC2_LEN, 0, 0);
        steps[at] = mc2_step_of(calls[at], MC2_COUNT, 0);
    }
    GIVES(mc2_recorder_entry(NULL, 0, 0, 1, calls, 1, steps, 1), MC2_BAD_POINTER);
    GIVES(mc2_recorder_entry(recorder, 0, 0, 1, NULL, 1, steps, 1), MC2_BAD_POINTER);
    GIVES(mc2_recorder_entry(recorder, 0, 0, 1, calls, 1, NULL, 1), MC2_BAD_POINTER);
    GIVES(mc2_recorder_entry(recorder, 2, 0, 1, calls, 1, steps, 1), MC2_BAD_OBJECT);
    GIVES(mc2_recorder_entry(recorder, 0, 2, 1, calls, 1, steps, 1), MC2_BAD_CPU);
    GIVES(mc2_recorder_entry(recorder, 0, 0, 1, calls, 0, steps, 1), MC2_BAD_COUNT);
    GIVES(mc2_recorder_entry(recorder, 0, 0, 1, calls, 9, steps, 1), MC2_BAD_COUNT);
    GIVES(mc2_recorder_entry(recorder, 0, 0, 1, calls, 8, steps, 9), MC2_BAD_COUNT);
    GIVES(mc2_recorder_entry(recorder, 0, 0, 1, &none, 1, steps, 1), MC2_BAD_STEP);
    GIVES(mc2_recorder_entry(recorder, 0, 0, 1, calls, 1, &no_reply, 1), MC2_BAD_STEP);
}

static const char full_text[] = "record 2\ncpus 2\nobjects 2\n"
                                "object abcdefghijklmno9 mcs 1 queue 1024\nobject s mcs 2 sched 3 4\n"
                                "log abcdefghijklmno9 1\n0 len = count 0\nlog s 1\n1 len = count 0\ncpu 0 2\n"
                                "abcdefghijklmno9 18446744073709551615 len | noroom\n"
                                "abcdefghijklmno9 0 len | len = count 0\ncpu 1 2\n"
                                "s 7 len | len = count 0\ns 8 len | len = count 0\nend\n";

// Fills a log and a transcript of a small recorder, and tries to continue.
static void check_full(struct mc2_recorder *recorder) {
    struct mc2_call call = mc2_call_of(MC2_LEN, 0, 0);
    struct mc2_step step = mc2_step_of(call, MC2_COUNT, 0);
    GIVES(mc2_recorder_room(recorder, 0, 0), MC2_DONE);
    GIVES(mc2_recorder_event(recorder, 0, 0, &step, 1), MC2_DONE);
    GIVES(mc2_recorder_room(recorder, 0, 0), MC2_LOG_FULL);
    GIVES(mc2_recorder_event(recorder, 0, 0, &step, 1), MC2_LOG_FULL);
    GIVES(mc2_recorder_entry(recorder, 0, 0, UINT64_MAX, &call, 1, NULL, 0), MC2_DONE);
    // There is room for one entry, and that is kept for an event.
    GIVES(mc2_recorder_room(recorder, 1, 0), MC2_TRANSCRIPT_FULL);
    GIVES(mc2_recorder_event(recorder, 1, 0, &step, 1), MC2_TRANSCRIPT_FULL);
    GIVES(mc2_recorder_entry(recorder, 0, 0, 1, &call, 1, NULL, 0), MC2_TRANSCRIPT_FULL);
    GIVES(mc2_recorder_entry(recorder, 0, 0, 0, &call, 1, &step, 1), MC2_DONE);
    GIVES(mc2_recorder_entry(recorder, 0, 0, 0, &call, 1, &step, 1), MC2_TRANSCRIPT_FULL);
    // The other CPU has its own room, and the last of its entries is of no event.
    GIVES(mc2_recorder_event(recorder, 1, 1, &step, 1), MC2_DONE);
    GIVES(mc2_recorder_entry(recorder, 1, 1, 7, &call, 1, &step, 1), MC2_DONE);
    GIVES(mc2_recorder_room(recorder, 1, 1), MC2_DONE);
    GIVES(mc2_recorder_entry(recorder, 1, 1, 8, &call, 1, &step, 1), MC2_DONE);
    GIVES(mc2_recorder_room(recorder, 1, 1), MC2_TRANSCRIPT_FULL);
    CHECK(strcmp(text_of(recorder), full_text) == 0);
}

// Writes where nothing can be written, and events that two CPUs may have written at the same time.
static void check_writing(struct mc2_recorder *recorder) {
    FILE *full = fopen("/dev/full", "w"), *nowhere = fopen("/dev/null", "w");
    CHECK(full != NULL && nowhere != NULL);
    GIVES(mc2_recorder_write(recorder, NULL), MC2_BAD_POINTER);
    GIVES(mc2_recorder_write(NULL, stdout), MC2_BAD_POINTER);
    GIVES(mc2_recorder_write(recorder, full), MC2_WRITE_FAILED);
    recorder->logs[0].events[0].cpu = 2;
    GIVES(mc2_recorder_write(recorder, nowhere), MC2_MIXED);
    recorder->logs[0].events[0].cpu = 0;
    recorder->logs[0].events[0].count = 9;
    GIVES(mc2_recorder_write(recorder, nowhere), MC2_MIXED);
    recorder->logs[0].events[0].count = 1;
    recorder->logs[0].events[0].steps[0].reply = MC2_REPLY_WORDS;
    GIVES(mc2_recorder_write(recorder, nowhere), MC2_MIXED);
    fclose(full);
    fclose(nowhere);
    CHECK(strcmp(mc2_result_text(MC2_WRITE_FAILED), "write failed") == 0 && strcmp(mc2_result_text(-1), mc2_result_text(99)) == 0);
    CHECK(strstr(mc2_result_text(MC2_BAD_COUNT), "1 to 16 objects, 1 to 64 CPUs, 1 to 10,000 entries") != NULL);
}

// A record of one queue, with room for this number of events, and of two CPUs.
static void open_small(struct mc2_recorder *recorder, uint32_t events) {
    struct mc2_object object = object_of("q", MC2_QUEUE, events, 1, 0);
    GIVES(mc2_recorder_open(recorder, &object, 1, 2, 4), MC2_DONE);
}

// Two CPUs are both promised the last room, as a lock lets them in at the same time, and both work.
static void check_mixed(void) {
    static struct mc2_recorder recorder;
    struct mc2_call call = mc2_call_of(MC2_LEN, 0, 0);
    struct mc2_step step = mc2_step_of(call, MC2_COUNT, 0), no_reply = mc2_step_of(call, MC2_REPLY_WORDS, 0);
    static struct text pieces = {{0}, 0, SIZE_MAX};
    open_small(&recorder, 1);
    GIVES(mc2_recorder_room(&recorder, 0, 0), MC2_DONE);
    GIVES(mc2_recorder_room(&recorder, 0, 1), MC2_DONE);
    GIVES(mc2_recorder_event(&recorder, 0, 0, &no_reply, 1), MC2_BAD_STEP);
    GIVES(mc2_recorder_event(&recorder, 0, 0, &step, 1), MC2_DONE);
    GIVES(mc2_recorder_write_to(&recorder, take_piece, &pieces), MC2_DONE);
    GIVES(mc2_recorder_event(&recorder, 0, 1, &step, 1), MC2_MIXED);
    GIVES(mc2_recorder_event(&recorder, 0, 1, &step, 1), MC2_MIXED);
    GIVES(mc2_recorder_entry(&recorder, 0, 0, 0, &call, 1, &step, 1), MC2_DONE);
    GIVES(mc2_recorder_entry(&recorder, 0, 1, 0, &call, 1, NULL, 0), MC2_DONE);
    // As the record would be sound, it isn't written.
    pieces.length = 0;
    GIVES(mc2_recorder_write_to(&recorder, take_piece, &pieces), MC2_MIXED);
    CHECK(pieces.length == 0);
    mc2_recorder_close(&recorder);
}

// A log that is full is no fault of a lock if the CPU wasn't promised room, has noted an event since, or was refused room later.
static void check_unmixed(void) {
    static struct mc2_recorder recorder;
    struct mc2_call call = mc2_call_of(MC2_LEN, 0, 0);
    struct mc2_step step = mc2_step_of(call, MC2_COUNT, 0);
    static struct text pieces = {{0}, 0, SIZE_MAX};
    open_small(&recorder, 2);
    GIVES(mc2_recorder_room(&recorder, 0, 0), MC2_DONE);
    GIVES(mc2_recorder_room(&recorder, 0, 1), MC2_DONE);
    GIVES(mc2_recorder_event(&recorder, 0, 0, &step, 1), MC2_DONE);
    GIVES(mc2_recorder_event(&recorder, 0, 1, &step, 1), MC2_DONE);
    GIVES(mc2_recorder_event(&recorder, 0, 1, &step, 1), MC2_LOG_FULL);
    GIVES(mc2_recorder_room(&recorder, 0, 0), MC2_LOG_FULL);
    GIVES(mc2_recorder_event(&recorder, 0, 0, &step, 1), MC2_LOG_FULL);
    GIVES(mc2_recorder_entry(&recorder, 0, 0, 0, &call, 1, &step, 1), MC2_DONE);
    GIVES(mc2_recorder_entry(&recorder, 0, 1, 0, &call, 1, &step, 1), MC2_DONE);
    GIVES(mc2_recorder_write_to(&recorder, take_piece, &pieces), MC2_DONE);
    mc2_recorder_close(&recorder);
    open_small(&recorder, 1);
    // It was promised room, did no work, and was refused room later.
    GIVES(mc2_recorder_room(&recorder, 0, 1), MC2_DONE);
    GIVES(mc2_recorder_event(&recorder, 0, 0, &step, 1), MC2_DONE);
    GIVES(mc2_recorder_room(&recorder, 0, 1), MC2_LOG_FULL);
    GIVES(mc2_recorder_event(&recorder, 0, 1, &step, 1), MC2_LOG_FULL);
    GIVES(mc2_recorder_write_to(&recorder, take_piece, &pieces), MC2_DONE);
    mc2_recorder_close(&recorder);
}

static void check_notes(void) {
    struct mc2_recorder recorder;
    char name[] = "abcdefghijklmno9";
    struct mc2_object objects[2] = {object_of(name, MC2_QUEUE, 1, 1024, 0), object_of("s", MC2_SCHED, 2, 3, 4)};
    GIVES(mc2_recorder_open(&recorder, objects, 2, 2, 2), MC2_DONE);
    // The recorder has copied the names.
    name[0] = 'X';
    const char *before = text_of(&recorder);
    check_events(&recorder);
    check_entries(&recorder);
    CHECK(strcmp(before, text_of(&recorder)) == 0);
    check_full(&recorder);
    check_writing(&recorder);
    mc2_recorder_close(&recorder);
}

int main(void) {
    check_names();
    check_sizes();
    check_counts();
    check_memory();
    check_going_on();
    check_page_names();
    check_many_pages();
    check_own_memory();
    check_quotas();
    check_notes();
    check_mixed();
    check_unmixed();
    print_record();
    return 0;
}
