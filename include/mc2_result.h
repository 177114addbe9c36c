// mc2_result.h - the results of the functions of mc2 headers: 0 for success, and a positive number otherwise. mc2_judge.h and
// mc2_custom.h return verdicts instead. All headers take their types from here.
#ifndef MC2_RESULT_H
#define MC2_RESULT_H

// A kernel whose types come from a header of its own, as in Linux, defines MC2_TYPES as that header's name, in quotes.
#ifdef MC2_TYPES
#include MC2_TYPES
#else
#include <stdbool.h>
#include <stddef.h>
#include <stdint.h>
#endif

enum mc2_result {
    MC2_DONE = 0, // success

    // ---- Cells, callers and locks. The library returns these numbers: a contract pins each of them.
    MC2_AGAIN = 1,            // the caller is in line and its turn hasn't come: pause, then call again
    MC2_ACQUIRED = 2,         // the caller holds the lock: it entered an empty MCS queue, without a look
    MC2_ACQUIRED_BY_LOOK = 3, // the caller holds the lock: a look showed that its turn has come
    MC2_RELEASED = 4,         // the lock is released, and the caller is idle
    MC2_REFUSED = 5,          // the cell or the caller isn't in a state that allows the call, or a batch has 0 or more than 8
                              // calls. Nothing was changed.
    MC2_BUSY = 6,             // a try: another caller holds the lock or is in line for it; closing: the library still shares the
                              // cell, which doesn't happen if the obligations of mc2_cells.h are met
    MC2_STEPPED = 7,          // one step of the lock is done: take the next without a pause
    MC2_LOG_FULL = 8,         // the log has no room for another event: the call was not performed
    MC2_NOT_FOUND = 9,        // there is no such call, or no such step in the log
    MC2_NO_MEMORY = 10,       // opening: the allocator had no memory, or the memory given is too small. Nothing was opened.
    MC2_BAD_PARAM = 11,       // opening: an argument is out of range. Nothing was opened.
    MC2_DONE_HELD = 12,       // whole calls without waiting: as MC2_DONE and MC2_LOG_FULL, but the caller still holds the lock and
    MC2_LOG_FULL_HELD = 13,   // has to release it

    // ---- Recorders
    MC2_TRANSCRIPT_FULL = 32, // the CPU's memory for its notes is full. Nothing was noted.
    MC2_BAD_POINTER = 33,     // a pointer is NULL
    MC2_BAD_OBJECT = 34,      // there is no such object, or its description is wrong
    MC2_BAD_CPU = 35,         // there is no such CPU
    MC2_BAD_COUNT = 36,       // a number of calls, steps, objects, CPUs or entries is out of range, or the recorder isn't open
    MC2_BAD_STEP = 37,        // there is no such call or reply, or a byte is above 255
    MC2_MIXED = 38,           // two CPUs were inside one lock at the same time
    MC2_WRITE_FAILED = 39     // writing the record failed. It may have been written in part.
};

// Returns a short English text for a result, such as "out of memory". The text is constant; don't free it. `long long` takes each
// type of result without a cast.
static inline const char *mc2_result_text(long long result) {
    static const char *const cells[] = {"done", "in line, call again", "acquired", "acquired by a look", "released",
        "not allowed in this state", "busy", "one step done", "the log is full", "no such call or step", "out of memory",
        "an argument is out of range", "done, the lock is still held", "the log is full, the lock is still held"};
    static const char *const recorders[] = {"the transcript is full", "a pointer is NULL", "no such object, or a wrong one",
        "no such CPU",
        ("too few or too many: there are 1 to 16 objects, 1 to 64 CPUs, 1 to 10,000 entries of each, 1 to 8 calls of an entry and "
         "1 to 8 steps of an event; or the recorder isn't open"),
        "no such call or reply, or a byte above 255", "a lock let two CPUs in at the same time", "write failed"};
    if (result >= MC2_DONE && result <= MC2_LOG_FULL_HELD)
        return cells[result];
    return result >= MC2_TRANSCRIPT_FULL && result <= MC2_WRITE_FAILED ? recorders[result - MC2_TRANSCRIPT_FULL] : "no such result";
}

// Internal: whether two texts are the same.
static inline bool mc2_priv_are_alike(const char *one, const char *other) {
    size_t at = 0;
    while (one[at] && one[at] == other[at])
        at++;
    return one[at] == other[at];
}

#endif
