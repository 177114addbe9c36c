// Checks include/mc2_wait.h, as C11 and as C++17: how a waiter backs off after each failed look, which callers are throttled and
// for how long, and that no waiter is counted at the end. With SLEEPS, MC2_USLEEP is defined; without it there is none, as without
// an operating system.
//
// The status is 0, or 1 at the first check that fails, which a line on standard error names.
#include <stdbool.h>
#include <stdint.h>
#include <stdio.h>
#include <stdlib.h>

// Counted since the last call of were().
static uint64_t pauses, paused_after, sleeps, microseconds;

#define MC2_PAUSE(looks) (pauses++, paused_after = (looks))
#ifdef SLEEPS
#define MC2_USLEEP(time) (sleeps++, microseconds += (time))
#else
#define MC2_FREESTANDING
#endif
#include "mc2_wait.h"

#define CHECK(what) check(what, #what, __LINE__)

static void check(bool is_so, const char *what, int line) {
    if (!is_so) {
        fprintf(stderr, "wait.c:%d: not so: %s\n", line, what);
        exit(1);
    }
}

// Whether there were this many sleeps, microseconds of them, and pauses, since the last call.
static bool were(uint64_t some_sleeps, uint64_t time, uint64_t some_pauses) {
    bool are_same = sleeps == some_sleeps && microseconds == time && pauses == some_pauses;
    sleeps = microseconds = pauses = 0;
    return are_same;
}

#ifdef SLEEPS
enum { HAS_SLEEPS = 1 };
#else
enum { HAS_SLEEPS = 0 };
#endif

// A waiter whose turn comes after a number of failed looks.
static void check_line(uint64_t looks) {
    struct mc2_waiters waiters = {0};
    uint64_t long_wait = HAS_SLEEPS ? 120 : UINT64_MAX;
    for (uint64_t failed = 1; failed <= looks; failed++) {
        mc2_backoff(&waiters, failed);
        CHECK(failed < long_wait ? were(0, 0, 1) && paused_after == failed : were(1, 100, 0));
        CHECK(waiters.word == (failed >= long_wait));
    }
    mc2_backoff_end(&waiters, looks);
    CHECK(waiters.word == 0 && were(0, 0, 0));
}

// A caller that comes while waiters sleep in line, and others are throttled.
static void check_throttle(uint64_t sleepers, uint64_t others) {
    struct mc2_waiters waiters = {others << 32 | sleepers};
    mc2_throttle(&waiters);
    uint64_t counted = others < 64 ? others : 64;
    CHECK(HAS_SLEEPS && sleepers > 0 ? were(1, 1000 + 250 * counted, 0) : were(0, 0, 0));
    CHECK(waiters.word == (others << 32 | sleepers));
}

int main(void) {
    for (uint64_t looks = 0; looks < 300; looks++)
        check_line(looks);
    for (uint64_t sleepers = 0; sleepers < 3; sleepers++)
        for (uint64_t others = 0; others < 70; others++)
            check_throttle(sleepers, others);
    return 0;
}
