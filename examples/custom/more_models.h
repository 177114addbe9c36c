/* Two more models, of a buffer and of references, for custom.c: -DMC2_MODELS='"more_models.h"'. tests/c/judge judges records with
   planted faults by them. For C11 and C++17. Nothing is proved.

   buffer ITEMS                     refs SLOTS: who calls, C, is a number of the call
     put A B = ok | full              make C S = now 1     C has one reference to a slot that nobody has
     get = item A B | empty           keep C S = now N     C has one more, and all together N
     level = count N                  drop C S = now N     C has one less */
#ifndef MORE_MODELS_H
#define MORE_MODELS_H

#include "mc2_custom.h"
#include <inttypes.h>
#include <stdio.h>
#include <stdlib.h>

enum { CALLERS = 8, SLOTS = 64, ITEMS = 64 };

struct buffer {
    uint64_t most, first, count, items[ITEMS][2];
};

static void *buffer_open(const uint64_t *numbers, uint64_t count) {
    struct buffer *b = count == 1 && numbers[0] <= ITEMS ? (struct buffer *)calloc(1, sizeof *b) : NULL;
    if (b)
        b->most = numbers[0];
    return b;
}

static const char *buffer_put(struct buffer *b, const struct mc2_custom_step *step) {
    if (mc2_custom_is(&step->reply, "full", 0))
        return b->count == b->most ? NULL : "there is room";
    if (b->count == b->most)
        return "the buffer is full";
    uint64_t *item = b->items[(b->first + b->count++) % ITEMS];
    item[0] = step->call.numbers[0];
    item[1] = step->call.numbers[1];
    return NULL;
}

static const char *buffer_get(struct buffer *b, const struct mc2_custom_term *reply) {
    const uint64_t *item = b->items[b->first % ITEMS];
    if (mc2_custom_is(reply, "empty", 0))
        return b->count == 0 ? NULL : "an item is there";
    if (b->count == 0)
        return "no item is there";
    if (reply->numbers[0] != item[0] || reply->numbers[1] != item[1])
        return "another item is the first";
    b->first++;
    b->count--;
    return NULL;
}

static const char *buffer_step(void *state, const struct mc2_custom_step *step) {
    struct buffer *b = (struct buffer *)state;
    if (mc2_custom_is(&step->call, "level", 0))
        return step->reply.numbers[0] == b->count ? NULL : "the level is another";
    return mc2_custom_is(&step->call, "put", 2) ? buffer_put(b, step) : buffer_get(b, &step->reply);
}

static void buffer_says(void *state, const struct mc2_custom_term *call, char *out, size_t room) {
    const struct buffer *b = (struct buffer *)state;
    const uint64_t *item = b->items[b->first % ITEMS];
    if (mc2_custom_is(call, "level", 0))
        snprintf(out, room, "count %" PRIu64, b->count);
    else if (mc2_custom_is(call, "put", 2) || b->count == 0)
        snprintf(out, room, "%s", call->count == 0 ? "empty" : b->count == b->most ? "full" : "ok");
    else
        snprintf(out, room, "item %" PRIu64 " %" PRIu64, item[0], item[1]);
}

struct refs {
    uint64_t held[SLOTS][CALLERS], all[SLOTS];
};

static void *refs_open(const uint64_t *numbers, uint64_t count) {
    return count == 1 && numbers[0] <= SLOTS ? calloc(1, sizeof(struct refs)) : NULL;
}

static const char *refs_step(void *state, const struct mc2_custom_step *step) {
    struct refs *r = (struct refs *)state;
    uint64_t caller = step->call.numbers[0] % CALLERS, slot = step->call.numbers[1] % SLOTS;
    bool drops = mc2_custom_is(&step->call, "drop", 2), makes = mc2_custom_is(&step->call, "make", 2);
    if (makes ? r->all[slot] > 0 : r->all[slot] == 0)
        return makes ? "the slot is in use" : "nobody has the slot";
    if (drops && r->held[slot][caller] == 0)
        return "this caller has no reference to drop";
    if (step->reply.numbers[0] != r->all[slot] + (drops ? UINT64_MAX : 1))
        return "the count is another";
    r->held[slot][caller] += drops ? UINT64_MAX : 1;
    r->all[slot] = step->reply.numbers[0];
    return NULL;
}

static void refs_says(void *state, const struct mc2_custom_term *call, char *out, size_t room) {
    const struct refs *r = (struct refs *)state;
    uint64_t all = r->all[call->numbers[1] % SLOTS];
    snprintf(out, room, "now %" PRIu64, mc2_custom_is(call, "drop", 2) ? all - 1 : all + 1);
}

static const struct mc2_model models[] = {
    {"buffer", buffer_open, buffer_step, free, buffer_says},
    {"refs", refs_open, refs_step, free, refs_says},
};

#endif
