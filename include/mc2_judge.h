// mc2_judge.h - judges the text of a record (docs/FORMATS.md), and puts its entries in one order, for C11 and C++17.
//
//     struct mc2_report report;
//     mc2_audit(text, length, &report);
//     if (report.kind == MC2_SOUND) ..
//
// `tools/develop/library judge --unproved` compiles the library in a minute or two, to .unproved/libjudge.a. Without the last word
// it proves the library, to crates/judge/out/libjudge.a. Link either with the kit's heap (malloc and free):
//
//     gcc -Iinclude examples/judge/judge.c .unproved/libjudge.a KIT/c/liblibc_c.a -pthread
//
// Compiles with -ffreestanding. A kernel without a C library links only libjudge.a, and provides memcpy, memmove, memset,
// rattle_alloc, rattle_realloc and rattle_dealloc; mc2_heap.h has the last three.
//
// See also  mc2_custom.h: records of objects of your own.
//
// CALLER OBLIGATIONS (not checked)
//
//   1. `text` points to `length` bytes, `order` to `capacity` places and `report` to one report. During the call no other thread
//      writes `text`, or touches `order` and `report`.
//   2. The three don't overlap: no byte of one is a byte of another.
//   3. No pointer is NULL, even if its length or capacity is 0. `order` and `report` are aligned to 8 bytes, as C aligns them.
//   4. The text and the places have at most PTRDIFF_MAX bytes each, as every array in C.
//
// WHAT IS PROVED
//
//   Both functions, by the contracts of crates/judge/README.md. The figures of stack and memory below aren't proved;
//   tools/check/metal and tests/c/judge check calls against them.
//
// CONTEXT
//
//   Any number of threads may call the functions at the same time: nothing is kept between two calls. They use the heap, and
//   otherwise don't block. A call takes at most 4 bytes of memory for each byte of the text and 1,100,000 more, all of which it
//   frees before it returns. In the proved library it takes at most 6,144 bytes of stack; unproved ones take more.
#ifndef MC2_JUDGE_H
#define MC2_JUDGE_H

#include "mc2_result.h"

#ifdef __cplusplus
extern "C" {
#endif

// The kinds of reports. After each colon are its numbers, in the order `first`, `second`, `third`. Objects, events, steps, CPUs
// and entries are numbered from 0, in the order of the record.
enum mc2_verdict {
    MC2_SOUND = 0, // the record is sound; from mc2_merge: the number of entries, all of which are in `order`

    // ---- Faults: the record is unsound. The first one is reported.
    MC2_TOO_LONG = 1,      // a log has more events than its limit: the object
    MC2_WRONG_STEP = 2,    // a step has a wrong reply, or follows a step of its event that refused: the object, the event, the step
    MC2_ROOM_WAS_LEFT = 3, // an entry says that the log had no room, but it had: the CPU, the entry
    MC2_NOT_ITS_EVENT = 4, // an entry's steps aren't those of the CPU's next event on that object, or there is no next one: the
                           // CPU, the entry
    MC2_NOT_ASKED = 5,     // an entry's steps aren't the calls that were asked for: the CPU, the entry
    MC2_UNCLAIMED = 6,     // an event has no entry: the object, the event

    // ---- Other reports
    MC2_CYCLE = 7,         // the record is sound, but its entries have no order: the number of entries, all in `order`, that wait
                           // for one another
    MC2_BAD_LINE = 8,      // the text isn't a record: the first line, from 1, that can't follow the lines before it
    MC2_OUT_OF_MEMORY = 9,
    MC2_NO_ROOM = 10,      // the order or the cycle has more entries than `capacity`: their number. Nothing was written to `order`.
    MC2_WRONG_COUNTS = 11  // only from mc2_custom.h: the text is a record, but a count is missing, there is one too many, or one is
                           // above the number of steps of its log: the first such object
};

// A report: one of mc2_verdict, and its numbers. The numbers that a kind doesn't have are 0.
struct mc2_report {
    uint32_t kind;
    uint64_t first, second, third;
};

// An entry: its CPU, and its place among that CPU's entries.
struct mc2_entry_id {
    uint64_t cpu, entry;
};

// Judges a record.
// Returns  in `report`: MC2_SOUND; the first fault; MC2_BAD_LINE; MC2_OUT_OF_MEMORY.
void mc2_audit(const uint8_t *text, size_t length, struct mc2_report *report);

// Judges a record, and puts the entries of a sound one in one order. Each CPU's entries are in the order of its transcript, and
// those with an event on an object are in the order of its log. Where several entries could be next, the lowest CPU's is.
//   order, capacity   places that receive the order or the cycle; the others aren't written. Records 1 and 2 have at most 640,000.
// Returns  in `report`: as mc2_audit; MC2_CYCLE; MC2_NO_ROOM.
void mc2_merge(const uint8_t *text, size_t length, struct mc2_entry_id *order, size_t capacity, struct mc2_report *report);

#ifdef __cplusplus
}
#endif

// Internal: the structs are laid out as the library has them. tests/c/judge compares its sources with this header, name by name.
#define MC2_PRIV_LAYOUT(name, size, fields) typedef char mc2_priv_same_layout[sizeof(struct name) == (size) && (fields) ? 1 : -1]
#define MC2_PRIV_AT(place, name, field) (offsetof(struct name, field) == (place))

MC2_PRIV_LAYOUT(mc2_report, 32, MC2_PRIV_AT(0, mc2_report, kind) && MC2_PRIV_AT(8, mc2_report, first) &&
                MC2_PRIV_AT(16, mc2_report, second) && MC2_PRIV_AT(24, mc2_report, third));
MC2_PRIV_LAYOUT(mc2_entry_id, 16, MC2_PRIV_AT(0, mc2_entry_id, cpu) && MC2_PRIV_AT(8, mc2_entry_id, entry));

#endif
