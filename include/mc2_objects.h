// mc2_objects.h - the kinds of objects, their calls and replies, and their limits. mc2_cells.h and mc2_record.h include it.
#ifndef MC2_OBJECTS_H
#define MC2_OBJECTS_H

#include "mc2_result.h"

// The limits of objects and of records. tests/c/records compares them with the definitions that the proofs use.
enum { MC2_OWNERS = 16, MC2_MOST_CPUS = 64, MC2_MOST_OBJECTS = 16, MC2_MOST_NAME = 16, MC2_MOST_EVENTS = 65536, MC2_MOST_CALLS = 8,
       MC2_MOST_ENTRIES = 10000, MC2_MOST_THREADS = 1024, MC2_MOST_CHANNELS = 64, MC2_MOST_PAGES = 4096, MC2_MOST_BYTES = 4096 };

// A FIFO queue of threads; a pool of pages with quotas; a ring buffer of bytes; a scheduler's ready queue with sleep channels.
enum mc2_kind { MC2_QUEUE, MC2_POOL, MC2_CONSOLE, MC2_SCHED, MC2_KINDS };

// The lock of an object. `mc2 audit` ignores it: for a lock of another sort write either.
enum mc2_lock_kind { MC2_TICKET, MC2_MCS, MC2_LOCKS };

// The calls of a queue (MC2_ENQ to MC2_LEN), a pool (MC2_ALLOC to MC2_LEFT), a console (MC2_PUT to MC2_LEVEL) and a scheduler
// (MC2_READY to MC2_WAKEALL). mc2_by_name.h describes each, with its arguments and replies.
enum mc2_call_word {
    MC2_ENQ, MC2_DEQ, MC2_REMOVE, MC2_LEN, MC2_ALLOC, MC2_FREE, MC2_LEFT,
    MC2_PUT, MC2_GET, MC2_LEVEL, MC2_READY, MC2_NEXT, MC2_SLEEP, MC2_WAKE, MC2_WAKEALL, MC2_CALL_WORDS
};

// Replies. Those from MC2_BADTHREAD on are refusals: the object is unchanged, and the call ends its batch.
enum mc2_reply_word {
    MC2_OK, MC2_THREAD, MC2_COUNT, MC2_PAGE, MC2_DROPPED, MC2_BYTE,
    MC2_BADTHREAD, MC2_ALREADY, MC2_EMPTY, MC2_ABSENT, MC2_BADOWNER, MC2_NONE, MC2_OVERQUOTA, MC2_BADPAGE, MC2_NOTTAKEN,
    MC2_NOTYOURS, MC2_BADCHANNEL, MC2_BADCALL, MC2_REPLY_WORDS
};

// Describes an object.
//   name      1 to 16 lower-case letters and digits, the first a letter. Objects of one record have different names.
//   kind      enum mc2_kind
//   lock      enum mc2_lock_kind
//   events    the capacity of its log, 1 to 65,536; for a cell also 0: no log is kept
//   size      the threads of a queue or a scheduler, 1 to 1,024, numbered from 0; a pool's pages or a console's bytes, 1 to 4,096
//   channels  1 to 64 for a scheduler, 0 otherwise
//   quotas    a pool: how many pages each of the 16 owners may have, 0 to 4,096, or NULL if each may have all. NULL otherwise.
struct mc2_object {
    const char *name;
    uint32_t kind, lock, events, size, channels;
    const uint32_t *quotas;
};

// A call: an enum mc2_call_word, and the arguments of the function of that name in mc2_by_name.h, without caller and reply.
// Arguments that the call doesn't have are ignored.
struct mc2_call { uint32_t word, first, second; };

// A reply: an enum mc2_reply_word, and its number, or 0 if that word has none.
struct mc2_reply { uint32_t word, number; };

// A call with its reply: an enum mc2_reply_word, and its number, which is ignored if that word has none.
struct mc2_step {
    struct mc2_call call;
    uint32_t reply, number;
};

// 1 to 8 calls that are performed as one event, and the replies to those that were performed.
struct mc2_batch {
    uint32_t count;
    struct mc2_call calls[MC2_MOST_CALLS];
};

struct mc2_replies {
    uint32_t count;
    struct mc2_reply replies[MC2_MOST_CALLS];
};

// One step of a log, and the CPU that performed it.
struct mc2_logged_step {
    uint32_t cpu;
    struct mc2_step step;
};

// Returns the call with these arguments.
static inline struct mc2_call mc2_call_of(uint32_t word, uint32_t first, uint32_t second) {
    struct mc2_call call = {word, first, second};
    return call;
}

// Returns the step with this call, reply and number.
static inline struct mc2_step mc2_step_of(struct mc2_call call, uint32_t reply, uint32_t number) {
    struct mc2_step step = {call, reply, number};
    return step;
}

// Returns whether a reply word is a refusal.
static inline bool mc2_refuses(uint32_t reply) { return reply >= MC2_BADTHREAD; }

#endif
