// mc2_wait.h - how callers of a cell wait. mc2_cells.h includes it. Nothing here is proved.
//
// A FIFO lock is handed on only as fast as each waiter is scheduled, so there should be no more waiters in line than processors.
// Between its looks a waiter spins, and from the 120th failed look on it sleeps: this shows that there are more waiters than
// processors. While a waiter sleeps, callers that come later are throttled: each sleeps once before it joins the line. No one is
// woken: each sleep ends by itself. The locks for Rattle wait in the same way (crates/word_rule/src/resting.rt).
//
// To wait in another way, define MC2_PAUSE or MC2_USLEEP before this header.
#ifndef MC2_WAIT_H
#define MC2_WAIT_H

#include "mc2_result.h"

// Internal: cold paths, never inlined.
#define MC2_PRIV_COLD __attribute__((__noinline__, __cold__, __unused__)) static

// Sleeps for about this many microseconds, or less. The default, thrd_sleep, is a cancellation point. There is no default without
// an operating system: waiters then only spin, and no one is throttled.
#if !defined MC2_USLEEP && __STDC_HOSTED__ && !defined MC2_FREESTANDING && !defined __STDC_NO_THREADS__
#include <threads.h>
#include <time.h>

#define MC2_USLEEP(microseconds) mc2_priv_usleep(microseconds)

static inline void mc2_priv_usleep(uint32_t microseconds) {
    struct timespec time = {microseconds / 1000000, microseconds % 1000000 * 1000};
    thrd_sleep(&time, NULL);
}
#endif

// Pauses after a failed look, the `looks`-th in a row. The default executes 2 to the power of (looks mod 6) pause instructions.
#ifndef MC2_PAUSE
#define MC2_PAUSE(looks) mc2_priv_pause(looks)
#endif

// Internal: the failed look from which a waiter sleeps, for how many microseconds, and the looks in a round of pauses.
enum { MC2_PRIV_LONG_WAIT = 120, MC2_PRIV_SLEEP_IN_LINE = 100, MC2_PRIV_ROUND = 6 };

// Internal: the microseconds of a throttled caller, those for each other one, and the most others that are counted.
enum { MC2_PRIV_THROTTLE = 1000, MC2_PRIV_THROTTLE_EACH = 250, MC2_PRIV_MOST_OTHERS = 64 };

// The waiters of a cell: the low half of the word counts those that sleep in line, the high half those that are throttled. Only
// speed depends on it, so its accesses are relaxed.
struct mc2_waiters { uint64_t word; };

static inline void mc2_priv_pause(uint64_t looks) {
    for (uint32_t left = (uint32_t)1 << looks % MC2_PRIV_ROUND; left > 0; left--) {
#if defined __x86_64__ || defined __i386__
        __builtin_ia32_pause();
#else
        __asm__ volatile("" : : : "memory");
#endif
    }
}

// Internal: whether waiters sleep, and how.
#ifdef MC2_USLEEP
#define MC2_PRIV_SLEEP(microseconds) MC2_USLEEP(microseconds)
enum { MC2_PRIV_SLEEPS = 1 };
#else
#define MC2_PRIV_SLEEP(microseconds) ((void)(microseconds))
enum { MC2_PRIV_SLEEPS = 0 };
#endif

MC2_PRIV_COLD void mc2_priv_throttle_sleep(struct mc2_waiters *waiters) {
    const uint64_t throttled = (uint64_t)1 << 32;
    uint32_t others = (uint32_t)(__atomic_fetch_add(&waiters->word, throttled, __ATOMIC_RELAXED) / throttled);
    others = others > MC2_PRIV_MOST_OTHERS ? (uint32_t)MC2_PRIV_MOST_OTHERS : others;
    MC2_PRIV_SLEEP(MC2_PRIV_THROTTLE + MC2_PRIV_THROTTLE_EACH * others);
    __atomic_fetch_sub(&waiters->word, throttled, __ATOMIC_RELAXED);
}

// Throttles a caller that is about to join the line: sleeps once if a waiter sleeps in line.
static inline void mc2_throttle(struct mc2_waiters *waiters) {
    if (MC2_PRIV_SLEEPS && (uint32_t)__atomic_load_n(&waiters->word, __ATOMIC_RELAXED) != 0)
        mc2_priv_throttle_sleep(waiters);
}

// Waits after a failed look: pauses, or sleeps.
//   failed   the failed looks in a row, this one included: 1, 2, 3 ..
static inline void mc2_backoff(struct mc2_waiters *waiters, uint64_t failed) {
    if (MC2_PRIV_SLEEPS && failed == MC2_PRIV_LONG_WAIT)
        __atomic_fetch_add(&waiters->word, 1, __ATOMIC_RELAXED);
    if (MC2_PRIV_SLEEPS && failed >= MC2_PRIV_LONG_WAIT)
        MC2_PRIV_SLEEP(MC2_PRIV_SLEEP_IN_LINE);
    else
        MC2_PAUSE(failed);
}

// Ends a wait. Call it once the waiter's turn has come, with the number of failed looks, which may be 0.
static inline void mc2_backoff_end(struct mc2_waiters *waiters, uint64_t failed) {
    if (MC2_PRIV_SLEEPS && failed >= MC2_PRIV_LONG_WAIT)
        __atomic_fetch_sub(&waiters->word, 1, __ATOMIC_RELAXED);
}

#endif
