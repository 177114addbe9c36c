/* A model of a cell for one thread: either lock, its callers, and a queue. model.c compares libcells.a with it. */
#ifndef MODEL_H
#define MODEL_H

#include "mc2_cells_raw.h"
#include <string.h>

enum { CALLERS = 6, THREADS = 8 };

/* How far a caller has come. At a ticket lock a caller is idle, waiting or holding the lock. */
enum stage {
    IDLE,
    READY,   /* its `next` is clear, and it isn't in the queue yet */
    BEHIND,  /* it is in the queue, after another */
    ARMED,   /* the same, and its `locked` is set */
    WAITING, /* the same, and its predecessor's `next` names it; or it has a ticket */
    HOLDING,
    ALONE,   /* it is releasing the lock, and saw no successor */
    LEAVING, /* the same, and it isn't the last in the queue */
    PASSING, /* it is releasing the lock, and saw its successor */
    STAGES
};

struct model_caller {
    enum stage stage;
    uint32_t ticket;
    /* its successor and its predecessor in an MCS queue: a caller's number plus 1, or 0 */
    uint32_t next, ahead;
    bool locked;
};

struct model {
    uint32_t lock, next_ticket, served_ticket, tail;
    struct model_caller callers[CALLERS];
    uint32_t length, queue[THREADS];
};

/* The result of a call, how many looks it added, and the replies that it wrote. */
struct answer {
    uint32_t result, count;
    uint64_t looks;
    struct mc2_reply replies[MC2_MOST_CALLS];
};

/* ---- the queue */

static inline struct mc2_reply reply_of(uint32_t word, uint32_t number) { return (struct mc2_reply){word, number}; }

static inline struct mc2_reply model_take(struct model *model, uint32_t place, uint32_t word, uint32_t number) {
    model->length--;
    memmove(&model->queue[place], &model->queue[place + 1], (model->length - place) * sizeof model->queue[0]);
    return reply_of(word, number);
}

static inline struct mc2_reply model_perform(struct model *model, struct mc2_call call) {
    bool names_thread = call.word == MC2_ENQ || call.word == MC2_REMOVE;
    uint32_t place = 0;
    if (call.word > MC2_LEN)
        return reply_of(MC2_BADCALL, 0);
    if (names_thread && call.first >= THREADS)
        return reply_of(MC2_BADTHREAD, 0);
    while (names_thread && place < model->length && model->queue[place] != call.first)
        place++;
    switch (call.word) {
    case MC2_ENQ:
        if (place < model->length)
            return reply_of(MC2_ALREADY, 0);
        model->queue[model->length++] = call.first;
        return reply_of(MC2_OK, 0);
    case MC2_DEQ: return model->length > 0 ? model_take(model, 0, MC2_THREAD, model->queue[0]) : reply_of(MC2_EMPTY, 0);
    case MC2_REMOVE: return place < model->length ? model_take(model, place, MC2_OK, 0) : reply_of(MC2_ABSENT, 0);
    default: return reply_of(MC2_COUNT, model->length);
    }
}

static inline bool model_has_call(struct mc2_call call) {
    return call.word < MC2_CALL_WORDS && (call.word != MC2_PUT || call.first <= UINT8_MAX);
}

/* ---- steps of the locks */

static inline uint32_t go_to(struct model_caller *caller, enum stage stage, uint32_t result) {
    caller->stage = stage;
    return result;
}

static inline uint32_t model_acquire_ticket(struct model *model, struct model_caller *caller) {
    if (caller->stage == WAITING)
        return caller->ticket == model->served_ticket ? go_to(caller, HOLDING, MC2_ACQUIRED_BY_LOOK) : (uint32_t)MC2_AGAIN;
    if (caller->stage != IDLE)
        return MC2_REFUSED;
    caller->ticket = model->next_ticket++;
    return go_to(caller, WAITING, MC2_STEPPED);
}

static inline uint32_t model_acquire_step(struct model *model, uint32_t who) {
    struct model_caller *caller = &model->callers[who];
    if (model->lock == MC2_TICKET)
        return model_acquire_ticket(model, caller);
    switch (caller->stage) {
    case IDLE:
        caller->next = 0;
        return go_to(caller, READY, MC2_STEPPED);
    case READY:
        caller->ahead = model->tail;
        model->tail = who + 1;
        return caller->ahead == 0 ? go_to(caller, HOLDING, MC2_ACQUIRED) : go_to(caller, BEHIND, MC2_STEPPED);
    case BEHIND:
        caller->locked = true;
        return go_to(caller, ARMED, MC2_STEPPED);
    case ARMED:
        model->callers[caller->ahead - 1].next = who + 1;
        return go_to(caller, WAITING, MC2_STEPPED);
    case WAITING: return caller->locked ? (uint32_t)MC2_AGAIN : go_to(caller, HOLDING, MC2_ACQUIRED_BY_LOOK);
    default: return MC2_REFUSED;
    }
}

static inline uint32_t model_release_step(struct model *model, uint32_t who) {
    struct model_caller *caller = &model->callers[who];
    if (model->lock == MC2_TICKET && caller->stage == HOLDING) {
        model->served_ticket++;
        return go_to(caller, IDLE, MC2_RELEASED);
    }
    switch (caller->stage) {
    case HOLDING: return go_to(caller, caller->next == 0 ? ALONE : PASSING, MC2_STEPPED);
    case ALONE:
        if (model->tail != who + 1)
            return go_to(caller, LEAVING, MC2_STEPPED);
        model->tail = 0;
        return go_to(caller, IDLE, MC2_RELEASED);
    case LEAVING: return caller->next == 0 ? (uint32_t)MC2_AGAIN : go_to(caller, PASSING, MC2_STEPPED);
    case PASSING:
        model->callers[caller->next - 1].locked = false;
        return go_to(caller, IDLE, MC2_RELEASED);
    default: return MC2_REFUSED;
    }
}

/* ---- whole calls */

static inline uint32_t model_try(struct model *model, uint32_t who) {
    struct model_caller *caller = &model->callers[who];
    bool is_free = model->lock == MC2_TICKET ? model->next_ticket == model->served_ticket : model->tail == 0;
    if (caller->stage != IDLE || !is_free)
        return caller->stage != IDLE ? MC2_REFUSED : MC2_BUSY;
    caller->next = 0;
    caller->ticket = model->next_ticket;
    if (model->lock == MC2_TICKET)
        model->next_ticket++;
    else
        model->tail = who + 1;
    return go_to(caller, HOLDING, MC2_ACQUIRED_BY_LOOK);
}

/* Takes the steps of an idle or waiting caller up to its first look, or until it holds the lock. */
static inline uint32_t model_poll(struct model *model, uint32_t who, uint64_t *looks) {
    enum stage stage = model->callers[who].stage;
    uint32_t result = MC2_STEPPED;
    if (stage != IDLE && stage != WAITING)
        return MC2_REFUSED;
    while (result == MC2_STEPPED)
        result = model_acquire_step(model, who);
    *looks += result != MC2_ACQUIRED;
    return result;
}

/* Calls that the holder makes, up to the first that is refused. */
static inline void model_perform_all(struct model *model, const struct mc2_batch *batch, struct answer *answer) {
    bool is_refused = false;
    while (!is_refused && answer->count < batch->count) {
        struct mc2_reply reply = model_perform(model, batch->calls[answer->count]);
        answer->replies[answer->count++] = reply;
        is_refused = mc2_refuses(reply.word);
    }
}

/* A whole call, or a batch: by a try, or as mc2_poll_call. */
static inline struct answer model_call(struct model *model, uint32_t who, const struct mc2_batch *batch, bool tries) {
    struct answer answer = {MC2_REFUSED, 0, 0, {{0, 0}}};
    if (batch->count == 0 || batch->count > MC2_MOST_CALLS)
        return answer;
    answer.result = MC2_NOT_FOUND;
    for (uint32_t at = 0; at < batch->count; at++)
        if (!model_has_call(batch->calls[at]))
            return answer;
    answer.result = tries ? model_try(model, who) : model_poll(model, who, &answer.looks);
    if (answer.result != MC2_ACQUIRED && answer.result != MC2_ACQUIRED_BY_LOOK)
        return answer;
    model_perform_all(model, batch, &answer);
    do
        answer.result = model_release_step(model, who);
    while (answer.result == MC2_STEPPED);
    answer.result = answer.result == MC2_RELEASED ? MC2_DONE : MC2_DONE_HELD;
    return answer;
}

/* A call of the holder. */
static inline struct answer model_apply(struct model *model, uint32_t who, const struct mc2_batch *batch) {
    struct answer answer = {MC2_DONE, 0, 0, {{0, 0}}};
    if (!model_has_call(batch->calls[0]))
        answer.result = MC2_NOT_FOUND;
    else if (model->callers[who].stage != HOLDING)
        answer.result = MC2_REFUSED;
    else
        model_perform_all(model, batch, &answer);
    return answer;
}

#endif
