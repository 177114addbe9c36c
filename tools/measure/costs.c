/* use: sizes queue|sched|pool cell|plain SIZE CALLS

   Makes CALLS random calls, the same in each run, on an object of SIZE threads or pages: `cell` is a cell with a ticket lock, whose
   log isn't kept, `plain` lists and a table that are searched. Prints how many calls were refused, and the sum of the numbers in
   the other replies. Status: 0; 1 if a call returns a result that it can't; 2 for wrong words. */
#include "mc2_cells.h"
#include <stdio.h>
#include <stdlib.h>
#include <string.h>

enum { CHANNELS = 8, LISTS = 1 + CHANNELS, OWNER = 1 };

/* The first list is the queue, or the ready threads, and the others are the sleepers of each channel. */
static struct { uint32_t threads[MC2_MOST_THREADS], count; } lists[LISTS];
/* One page more than there can be, for an allocation that finds none. */
static bool taken[MC2_MOST_PAGES + 1];

static struct mc2_reply take_at(uint32_t list, uint32_t at) {
    uint32_t *threads = lists[list].threads, thread = threads[at];
    memmove(threads + at, threads + at + 1, (--lists[list].count - at) * sizeof *threads);
    return (struct mc2_reply){MC2_THREAD, thread};
}

/* Returns the thread's index in the list, or the list's length. */
static uint32_t find(uint32_t list, uint32_t thread) {
    uint32_t at = 0;
    for (; at < lists[list].count && lists[list].threads[at] != thread; at++);
    return at;
}

static uint32_t put(uint32_t list, uint32_t thread) {
    for (uint32_t other = 0; other < LISTS; other++)
        if (find(other, thread) < lists[other].count)
            return MC2_ALREADY;
    lists[list].threads[lists[list].count++] = thread;
    return MC2_OK;
}

static struct mc2_reply plain(struct mc2_call it, uint32_t size) {
    struct mc2_reply reply = {MC2_OK, 0};
    uint32_t at = 0, list = it.word == MC2_SLEEP || it.word == MC2_WAKE ? 1 + it.first : 0;
    switch (it.word) {
    case MC2_ENQ: case MC2_READY: case MC2_SLEEP: reply.word = put(list, list > 0 ? it.second : it.first); break;
    case MC2_REMOVE: if ((at = find(0, it.first)) < lists[0].count) take_at(0, at); else reply.word = MC2_ABSENT; break;
    case MC2_DEQ: case MC2_NEXT: case MC2_WAKE:
        reply = lists[list].count > 0 ? take_at(list, 0) : (struct mc2_reply){MC2_EMPTY, 0};
        if (it.word == MC2_WAKE && reply.word == MC2_THREAD)
            lists[0].threads[lists[0].count++] = reply.number;
        break;
    case MC2_ALLOC:
        for (; at < size && taken[at]; at++);
        reply = (struct mc2_reply){at < size ? MC2_PAGE : MC2_NONE, at}, taken[at] = true;
        break;
    case MC2_FREE: reply.word = taken[it.second] ? MC2_OK : MC2_NOTTAKEN, taken[it.second] = false; break;
    case MC2_LEFT: for (reply.word = MC2_COUNT; at < size; at++) reply.number += !taken[at];
    }
    return reply;
}

/* Of 16 calls on a queue 8 enqueue a thread, 5 dequeue one and 3 remove one. Of those on a scheduler 5 make a thread ready, 5 put
   one to sleep, 2 wake one and 4 take the next. Of those on a pool 7 allocate a page, 8 free one, and 1 counts the free ones. */
static struct mc2_call random_call(uint32_t kind, uint32_t size) {
    static uint64_t state = 88172645463325252;
    state ^= state << 13, state ^= state >> 7, state ^= state << 17;
    uint32_t way = state >> 60, channel = (state >> 57) % CHANNELS, one = (uint32_t)(state >> 24) % size;
    if (kind == MC2_QUEUE)
        return mc2_call_of(way < 8 ? MC2_ENQ : way < 13 ? MC2_DEQ : MC2_REMOVE, one, 0);
    if (kind == MC2_POOL)
        return mc2_call_of(way < 7 ? MC2_ALLOC : way < 15 ? MC2_FREE : MC2_LEFT, OWNER, one);
    return way < 9 ? mc2_call_of(way < 5 ? MC2_READY : MC2_NEXT, one, 0) : mc2_call_of(way < 14 ? MC2_SLEEP : MC2_WAKE, channel, one);
}

int main(int count, char **words) {
    if (count != 5)
        return 2;
    uint32_t kind = words[1][0] == 'q' ? MC2_QUEUE : words[1][0] == 's' ? MC2_SCHED : MC2_POOL;
    uint32_t size = (uint32_t)atol(words[3]), calls = (uint32_t)atol(words[4]), refused = 0;
    struct mc2_object object = {"one", kind, MC2_TICKET, 0, size, kind == MC2_SCHED ? CHANNELS : 0, NULL};
    struct mc2_cell cell;
    struct mc2_caller caller;
    if (mc2_cell_open(&cell, &object, &caller, 1))
        return 1;
    uint64_t sum = 0;
    bool is_cell = strcmp(words[2], "cell") == 0;
    for (; calls > 0; calls--) {
        struct mc2_call call = random_call(kind, size);
        struct mc2_reply reply = is_cell ? (struct mc2_reply){0, 0} : plain(call, size);
        if (is_cell && mc2_cell_call(&caller, &call, &reply))
            return 1;
        refused += mc2_refuses(reply.word);
        sum += mc2_refuses(reply.word) ? 0 : reply.number;
    }
    return printf("%u %llu\n", (unsigned)refused, (unsigned long long)sum) < 0;
}
