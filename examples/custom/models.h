/* Three models of objects that may reply in more than one way: a buddy allocator may return any free block, a pipe may write or
   read only a part, and a run queue may return any thread of the highest priority. And a model that calls every reply right. For
   C11 and C++17. Nothing is proved. */
#ifndef MODELS_H
#define MODELS_H

#include "mc2_custom.h"
#include <stdio.h>
#include <stdlib.h>

#define NO_SUCH_CALL "there is no such call, or no such reply to it"

static void close_state(void *state) { free(state); }

static unsigned long long wide(uint64_t number) { return number; }

/* ---- runq THREADS: threads wait, each with a priority. Threads are numbered from 0 to THREADS - 1.

     put T P = ok         thread T, which didn't wait, waits with priority P
     take = thread T      T waited with the highest priority of all, and doesn't wait any more
     take = empty         no thread waits */

enum { RUNQ_THREADS = 1 << 16 };

struct runq {
    uint64_t threads;
    /* One more than the priority of a thread that waits, and else 0. */
    uint64_t rank[RUNQ_THREADS];
};

static void *runq_open(const uint64_t *numbers, uint64_t count) {
    struct runq *q = count == 1 && numbers[0] <= RUNQ_THREADS ? (struct runq *)calloc(1, sizeof *q) : NULL;
    if (q)
        q->threads = numbers[0];
    return q;
}

static uint64_t runq_highest(const struct runq *q) {
    uint64_t highest = 0;
    for (uint64_t thread = 0; thread < q->threads; thread++)
        highest = q->rank[thread] > highest ? q->rank[thread] : highest;
    return highest;
}

static const char *runq_take(struct runq *q, uint64_t thread) {
    if (thread >= q->threads || q->rank[thread] == 0)
        return "the thread doesn't wait";
    if (q->rank[thread] < runq_highest(q))
        return "a thread of a higher priority waits";
    q->rank[thread] = 0;
    return NULL;
}

static const char *runq_step(void *state, const struct mc2_custom_step *step) {
    struct runq *q = (struct runq *)state;
    const uint64_t *in = step->call.numbers;
    if (mc2_custom_is(&step->call, "take", 0) && mc2_custom_is(&step->reply, "thread", 1))
        return runq_take(q, step->reply.numbers[0]);
    if (mc2_custom_is(&step->call, "take", 0) && mc2_custom_is(&step->reply, "empty", 0))
        return runq_highest(q) == 0 ? NULL : "a thread waits";
    if (!mc2_custom_is(&step->call, "put", 2) || !mc2_custom_is(&step->reply, "ok", 0) || in[0] >= q->threads ||
        in[1] == UINT64_MAX)
        return NO_SUCH_CALL;
    if (q->rank[in[0]] > 0)
        return "the thread waits";
    q->rank[in[0]] = in[1] + 1;
    return NULL;
}

static void runq_says(void *state, const struct mc2_custom_term *call, char *out, size_t room) {
    struct runq *q = (struct runq *)state;
    uint64_t highest = runq_highest(q), thread = 0;
    while (highest > 0 && q->rank[thread] < highest)
        thread++;
    if (mc2_custom_is(call, "take", 0) && highest > 0)
        snprintf(out, room, "thread %llu, or another that waits with priority %llu", wide(thread), wide(highest - 1));
    else if (mc2_custom_is(call, "take", 0))
        snprintf(out, room, "empty");
}

/* ---- buddy HEIGHT: 2^HEIGHT pages. A block of order K is 2^K pages, the first a multiple of 2^K.

     alloc K = page P     P is any block of order K whose pages are all free
     alloc K = none       there is no such block
     alloc K = badorder   K is above HEIGHT
     free P = ok          a block that begins with P was given; its pages are free, and merge with free buddies at once
     free P = notgiven    none was
     left = count N       N pages are free

   A block is a node of a tree: node 1 has all pages, and nodes 2n and 2n + 1 the halves of node n. A step takes HEIGHT turns. */

enum { BUDDY_HEIGHT = 16 };

struct buddy {
    uint32_t height, left;
    /* Of each order, how many blocks are free as a whole. */
    uint32_t free_blocks[BUDDY_HEIGHT + 1];
    /* Of each node, how many pages are given. */
    uint32_t used[2 << BUDDY_HEIGHT];
    /* One more than the order of the given block that begins with the page. */
    uint8_t given[1 << BUDDY_HEIGHT];
};

static void *buddy_open(const uint64_t *numbers, uint64_t count) {
    struct buddy *b = count == 1 && numbers[0] <= BUDDY_HEIGHT ? (struct buddy *)calloc(1, sizeof *b) : NULL;
    if (!b)
        return NULL;
    b->height = (uint32_t)numbers[0];
    b->left = 1u << b->height;
    for (uint32_t order = 0; order <= b->height; order++)
        b->free_blocks[order] = 1u << (b->height - order);
    return b;
}

static uint32_t buddy_node(const struct buddy *b, uint64_t page, uint32_t order) {
    return (1u << (b->height - order)) + (uint32_t)(page >> order);
}

/* Whether a block is free: none of its pages is given, and no block that it is a part of. */
static bool buddy_is_free(const struct buddy *b, uint64_t page, uint32_t order) {
    bool is_free = b->used[buddy_node(b, page, order)] == 0;
    for (uint32_t it = order; it <= b->height; it++)
        is_free = is_free && b->given[page >> it << it] <= it;
    return is_free;
}

/* Counts the block at its node and at those above. A node with a page given isn't free as a whole. */
static void buddy_count(struct buddy *b, uint64_t page, uint32_t order, bool gives) {
    uint32_t pages = 1u << order, node = buddy_node(b, page, order);
    for (uint32_t it = order; it <= b->height; it++, node /= 2) {
        b->free_blocks[it] -= gives && b->used[node] == 0;
        b->used[node] += gives ? pages : -pages;
        b->free_blocks[it] += !gives && b->used[node] == 0;
    }
}

/* Allocates a block or frees it, with all smaller blocks in it. */
static void buddy_mark(struct buddy *b, uint64_t page, uint32_t order, bool gives) {
    b->given[page] = (uint8_t)(gives ? order + 1 : 0);
    b->left += gives ? -(1u << order) : 1u << order;
    for (uint32_t it = 0; it < order; it++)
        b->free_blocks[it] += gives ? -(1u << (order - it)) : 1u << (order - it);
    buddy_count(b, page, order, gives);
}

static const char *buddy_alloc(struct buddy *b, uint64_t order, const struct mc2_custom_term *reply) {
    bool is_order = order <= b->height;
    if (mc2_custom_is(reply, "badorder", 0))
        return is_order ? "there are blocks of this order" : NULL;
    if (!is_order)
        return "there is no such order";
    if (mc2_custom_is(reply, "none", 0))
        return b->free_blocks[order] == 0 ? NULL : "a block of this order is free";
    uint64_t page = reply->numbers[0];
    if (!mc2_custom_is(reply, "page", 1) || page >> b->height || page % (1u << order))
        return "no block of this order begins there";
    if (!buddy_is_free(b, page, (uint32_t)order))
        return "the block, or a part of it, is given";
    buddy_mark(b, page, (uint32_t)order, true);
    return NULL;
}

static const char *buddy_free(struct buddy *b, uint64_t page, const struct mc2_custom_term *reply) {
    bool is_given = page >> b->height == 0 && b->given[page] > 0;
    if (mc2_custom_is(reply, "notgiven", 0))
        return is_given ? "a block that begins there is given" : NULL;
    if (!is_given || !mc2_custom_is(reply, "ok", 0))
        return "no block that begins there is given";
    buddy_mark(b, page, b->given[page] - 1u, false);
    return NULL;
}

static const char *buddy_step(void *state, const struct mc2_custom_step *step) {
    struct buddy *b = (struct buddy *)state;
    if (mc2_custom_is(&step->call, "alloc", 1))
        return buddy_alloc(b, step->call.numbers[0], &step->reply);
    if (mc2_custom_is(&step->call, "free", 1))
        return buddy_free(b, step->call.numbers[0], &step->reply);
    if (!mc2_custom_is(&step->call, "left", 0) || !mc2_custom_is(&step->reply, "count", 1))
        return NO_SUCH_CALL;
    return step->reply.numbers[0] == b->left ? NULL : "another number of pages is free";
}

/* The first free block of the order. There is one. */
static uint64_t buddy_first(const struct buddy *b, uint32_t order) {
    uint64_t page = 0;
    while (!buddy_is_free(b, page, order))
        page += 1u << order;
    return page;
}

static void buddy_says(void *state, const struct mc2_custom_term *call, char *out, size_t room) {
    struct buddy *b = (struct buddy *)state;
    uint64_t number = call->numbers[0];
    if (mc2_custom_is(call, "left", 0))
        snprintf(out, room, "count %u", b->left);
    else if (mc2_custom_is(call, "free", 1))
        snprintf(out, room, "%s", number >> b->height == 0 && b->given[number] > 0 ? "ok" : "notgiven");
    else if (mc2_custom_is(call, "alloc", 1) && number > b->height)
        snprintf(out, room, "badorder");
    else if (mc2_custom_is(call, "alloc", 1) && b->free_blocks[number] == 0)
        snprintf(out, room, "none");
    else if (mc2_custom_is(call, "alloc", 1))
        snprintf(out, room, b->free_blocks[number] == 1 ? "page %llu" : "page %llu, or another free block of this order",
                 wide(buddy_first(b, (uint32_t)number)));
}

/* ---- pipe BYTES WHOLE: at most BYTES bytes wait. A write of at most WHOLE bytes is done as a whole or not at all.

     write B N = wrote M  the M bytes B, B + 1, .. (modulo 256) came to the end, and there was room for them. M is N; or 1 to N,
                          if N is above WHOLE
     write B N = full     there was no room for N, if N is at most WHOLE, and else none at all
     read N = got M S     1 to N bytes, M of them, came from the front; S is their sum, times 31 for each byte that follows
     read N = empty       none waits */

enum { PIPE_BYTES = 65536 };

struct pipe {
    uint64_t room, whole, first, count;
    uint8_t bytes[PIPE_BYTES];
};

static void *pipe_open(const uint64_t *numbers, uint64_t count) {
    bool is_right = count == 2 && numbers[0] >= 1 && numbers[0] <= PIPE_BYTES;
    struct pipe *p = is_right ? (struct pipe *)calloc(1, sizeof *p) : NULL;
    if (p) {
        p->room = numbers[0];
        p->whole = numbers[1];
    }
    return p;
}

static const char *pipe_write(struct pipe *p, uint64_t byte, uint64_t count, const struct mc2_custom_term *reply) {
    uint64_t room = p->room - p->count, least = count <= p->whole ? count : 1, wrote = reply->numbers[0];
    if (mc2_custom_is(reply, "full", 0))
        return room < least ? NULL : "there is room";
    if (!mc2_custom_is(reply, "wrote", 1) || wrote > count)
        return "there is no such reply";
    if (wrote < least)
        return "it may write all or nothing";
    if (wrote > room)
        return "there isn't so much room";
    while (wrote-- > 0)
        p->bytes[(p->first + p->count++) % PIPE_BYTES] = (uint8_t)byte++;
    return NULL;
}

static uint64_t pipe_sum(const struct pipe *p, uint64_t count) {
    uint64_t sum = 0;
    for (uint64_t at = 0; at < count; at++)
        sum = sum * 31 + p->bytes[(p->first + at) % PIPE_BYTES];
    return sum;
}

static const char *pipe_read(struct pipe *p, uint64_t count, const struct mc2_custom_term *reply) {
    uint64_t got = reply->numbers[0];
    if (mc2_custom_is(reply, "empty", 0))
        return p->count == 0 ? NULL : "bytes wait";
    if (!mc2_custom_is(reply, "got", 2) || got < 1 || got > count)
        return "there is no such reply";
    if (got > p->count)
        return "fewer bytes wait";
    if (pipe_sum(p, got) != reply->numbers[1])
        return "other bytes wait";
    p->first = (p->first + got) % PIPE_BYTES;
    p->count -= got;
    return NULL;
}

static const char *pipe_step(void *state, const struct mc2_custom_step *step) {
    struct pipe *p = (struct pipe *)state;
    const uint64_t *in = step->call.numbers;
    if (mc2_custom_is(&step->call, "write", 2))
        return pipe_write(p, in[0], in[1], &step->reply);
    return mc2_custom_is(&step->call, "read", 1) ? pipe_read(p, in[0], &step->reply) : NO_SUCH_CALL;
}

static void pipe_says(void *state, const struct mc2_custom_term *call, char *out, size_t room) {
    struct pipe *p = (struct pipe *)state;
    bool writes = mc2_custom_is(call, "write", 2), reads = mc2_custom_is(call, "read", 1);
    uint64_t wanted = call->numbers[writes], has = writes ? p->room - p->count : p->count, most = wanted < has ? wanted : has;
    uint64_t least = writes && wanted <= p->whole ? wanted : 1;
    if ((writes || reads) && (has < least || wanted == 0))
        snprintf(out, room, "%s", reads ? "empty" : wanted > 0 ? "full" : "wrote 0");
    else if (reads)
        snprintf(out, room, "got %llu %llu, or fewer bytes of these", wide(most), wide(pipe_sum(p, most)));
    else if (writes)
        snprintf(out, room, least == most ? "wrote %llu" : "wrote %llu, or fewer", wide(most));
}

/* ---- any: every reply is right. It is for records whose replies you don't want to judge. */

static void *any_open(const uint64_t *numbers, uint64_t count) {
    (void)numbers, (void)count;
    return malloc(1);
}

static const char *any_step(void *state, const struct mc2_custom_step *step) {
    (void)state, (void)step;
    return NULL;
}

static const struct mc2_model models[] = {
    {"runq", runq_open, runq_step, close_state, runq_says},
    {"buddy", buddy_open, buddy_step, close_state, buddy_says},
    {"pipe", pipe_open, pipe_step, close_state, pipe_says},
    {"any", any_open, any_step, close_state, NULL},
};

enum { MODELS = sizeof models / sizeof *models };

#endif
