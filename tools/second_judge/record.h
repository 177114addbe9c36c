/* What the judge knows of a record. */
#ifndef SECOND_JUDGE_RECORD_H
#define SECOND_JUDGE_RECORD_H

#include "kernel.h"

enum { SLOTS = 1024, NOBODY = UINT16_MAX };
/* No event. */
#define NONE_LEFT UINT32_MAX

/* The most CPUs, objects, events of a log and entries of a transcript in each form. */
struct limits {
    const char *head;
    uint64_t cpus, objects, events, entries;
};

static const struct limits limits_of[] = {[1] = {"record 1\n", 8, 16, 65536, 10000},
                                          [2] = {"record 2\n", 64, 16, 65536, 10000},
                                          [3] = {"record 3\n", MC2_CUSTOM_CPUS, MC2_CUSTOM_OBJECTS, UINT32_MAX, UINT32_MAX}};

struct event {
    /* Where its steps begin in the text, their bytes and their number, its CPU, and the next event of the same CPU in the same
       log. */
    uint64_t at;
    uint16_t length;
    uint8_t count, cpu;
    uint32_t next;
};

/* The object, and one bit more for an entry without room. */
enum { NO_ROOM_BIT = 256 };

struct record {
    const uint8_t *text, *end, *p;
    /* The line that comes next. */
    uint64_t line;
    struct limits most;
    uint32_t form, cpus, objects, refusing;
    struct name names[MC2_CUSTOM_OBJECTS], refuses[MC2_CUSTOM_REFUSING];
    uint16_t slots[SLOTS];
    uint64_t limits[MC2_CUSTOM_OBJECTS], steps[MC2_CUSTOM_OBJECTS];
    /* All events, and where those of each log begin. */
    struct event *events;
    size_t event_count, event_room, begins[MC2_CUSTOM_OBJECTS + 1];
    /* For each object and each CPU its next event there that no entry has. */
    uint32_t *next;
    /* All entries, if they are kept, and where those of each CPU begin. */
    uint16_t *entries;
    size_t entry_count, entry_room, firsts[MC2_CUSTOM_CPUS + 1];
    bool keeps_entries, has_no_memory;
    /* The counts that the caller gives for a record 3. */
    const uint64_t *right;
    size_t counts;
    /* The parameters of the objects of a record 1 or 2, and the object whose log is read. */
    struct params params[16];
    struct object object;
    /* The first fault. */
    struct mc2_report fault;
};

static void report(struct mc2_report *out, uint32_t kind, uint64_t first, uint64_t second, uint64_t third) {
    out->kind = kind;
    out->first = first;
    out->second = second;
    out->third = third;
}

#endif
