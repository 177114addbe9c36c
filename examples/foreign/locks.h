// Three locks with one interface: the system's mutex, a ticket lock in C11 atomics, and the MCS lock of Concurrency Kit (libck-dev
// on Debian), which is left out if its header isn't installed.
#pragma once
#include <pthread.h>
#include <sched.h>
#include <stdatomic.h>
#include <stdbool.h>
#include <stdint.h>
#if defined(__has_include)
#if __has_include(<ck_spinlock.h>)
#include <ck_spinlock.h>
#define HAS_CK
#endif
#endif

enum lock_kind { MUTEX, TICKET, MCS, LOCK_KINDS };

#ifdef HAS_CK
static const bool has_mcs = true;
#else
static const bool has_mcs = false;
typedef struct { int none; } ck_spinlock_mcs_context_t;
typedef ck_spinlock_mcs_context_t *ck_spinlock_mcs_t;
static void ck_spinlock_mcs_lock(ck_spinlock_mcs_t *lock, ck_spinlock_mcs_context_t *node) { (void)lock, (void)node; }
static void ck_spinlock_mcs_unlock(ck_spinlock_mcs_t *lock, ck_spinlock_mcs_context_t *node) { (void)lock, (void)node; }
#endif

// All zero bytes are a free lock of each kind, except a mutex, which lock_open initializes.
struct lock {
    enum lock_kind kind;
    pthread_mutex_t mutex;
    atomic_uint next, served;
    ck_spinlock_mcs_t mcs;
};

static bool lock_open(struct lock *lock, enum lock_kind kind) {
    lock->kind = kind;
    return pthread_mutex_init(&lock->mutex, NULL) == 0;
}

// Draws a ticket, and looks until it is served. A long wait yields the processor.
static uint64_t ticket_acquire(struct lock *lock) {
    unsigned ticket = atomic_fetch_add_explicit(&lock->next, 1, memory_order_relaxed);
    uint64_t looks = 1;
    for (; atomic_load_explicit(&lock->served, memory_order_acquire) != ticket; looks++)
        if (looks % 64 == 0)
            sched_yield();
    return looks;
}

static void ticket_release(struct lock *lock) {
    unsigned served = atomic_load_explicit(&lock->served, memory_order_relaxed);
    atomic_store_explicit(&lock->served, served + 1, memory_order_release);
}

// Acquires the lock. Returns the number of looks, or 0 if it isn't known. The node is in use until the release.
static uint64_t acquire(struct lock *lock, ck_spinlock_mcs_context_t *node) {
    if (lock->kind == TICKET)
        return ticket_acquire(lock);
    if (lock->kind == MUTEX)
        pthread_mutex_lock(&lock->mutex);
    else
        ck_spinlock_mcs_lock(&lock->mcs, node);
    return 0;
}

static void release(struct lock *lock, ck_spinlock_mcs_context_t *node) {
    if (lock->kind == TICKET)
        ticket_release(lock);
    else if (lock->kind == MUTEX)
        pthread_mutex_unlock(&lock->mutex);
    else
        ck_spinlock_mcs_unlock(&lock->mcs, node);
}
