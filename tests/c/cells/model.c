/* use: model ticket|mcs [OPERATIONS [SEED]]

   Compares libcells.a with the model of model.h. One thread has six callers of one cell, which keeps no log. An operation is a
   random function of mc2_cells_raw.h for a random caller, whether the caller's state allows it or not. The model predicts the
   result, the replies and the number of looks. From time to time all callers release the lock and are returned, and the cell is
   closed and reopened, sometimes with the other lock. Prints the number of operations at each lock.

   OPERATIONS  how many at the given lock, default: 200000. From 200000 on each result that one thread can get has to occur
   SEED        default: 1

   Status: 0; 1 if the library and the model differ, if a result wasn't reached, or if memory is lost; 2 for wrong words. */
#include "counted.h"
#include "model.h"

enum operation {
    ACQUIRE_STEP, RELEASE_STEP, TRY_ACQUIRE, APPLY, POLL_CALL, POLL_ENQ, POLL_DEQ, POLL_READY, POLL_NEXT, POLL_BATCH, TRY_CALL,
    RETURN_CALLER, FREE_CALLER, CLOSE_CELL, OPEN_CALLER, KINDS
};

static const char *const functions[KINDS] = {
    "mc2_acquire_step", "mc2_release_step", "mc2_poll_try_acquire", "mc2_handle_apply", "mc2_poll_call", "mc2_poll_enq",
    "mc2_poll_deq", "mc2_poll_ready", "mc2_poll_next", "mc2_poll_batch", "mc2_poll_try_call", "mc2_handle_return_caller",
    "mc2_handle_free_caller", "mc2_handle_close_cell", "mc2_handle_open_caller"};
static const char *const stages[STAGES] = {"idle",    "ready", "behind",  "armed",  "waiting",
                                           "holding", "alone", "leaving", "passing"};

struct asked {
    enum operation operation;
    uint32_t who;
    struct mc2_batch batch;
};

enum { UNWRITTEN = 77, ENOUGH = 200000 };

static struct mc2_cell cell;
static struct mc2_caller callers[CALLERS];
static struct model model;
static uint64_t seed, drawn, done, done_by[MC2_LOCKS];
/* The callers of this life that call: the first of them, and how many. The lock is free more often if they are few. */
static uint32_t first_active, active = CALLERS;
/* The results of each function so far, by their bits. */
static uint32_t reached[KINDS];

static uint32_t below(uint32_t limit) {
    drawn ^= drawn << 13, drawn ^= drawn >> 7, drawn ^= drawn << 17;
    return (uint32_t)(drawn * UINT64_C(0x2545f4914f6cdd1d) >> 33) % limit;
}

/* ---- what is printed if the two differ */

static void print_answer(const char *whose, const struct answer *answer) {
    fprintf(stderr, "  %s: %u (%s), %llu looks", whose, (unsigned)answer->result, mc2_result_text(answer->result),
            (unsigned long long)answer->looks);
    for (uint32_t at = 0; at < answer->count && at < MC2_MOST_CALLS; at++)
        fprintf(stderr, ", reply %u %u", (unsigned)answer->replies[at].word, (unsigned)answer->replies[at].number);
    fputs("\n", stderr);
}

static void print_model(const struct model *at) {
    fprintf(stderr, "  before: %s lock, next ticket %u, served ticket %u, tail %u, queue",
            at->lock == MC2_MCS ? "MCS" : "ticket", (unsigned)at->next_ticket, (unsigned)at->served_ticket, (unsigned)at->tail);
    for (uint32_t place = 0; place < at->length; place++)
        fprintf(stderr, " %u", (unsigned)at->queue[place]);
    for (uint32_t who = 0; who < CALLERS; who++)
        fprintf(stderr, "\n    caller %u: %s, ticket %u, next %u, ahead %u, locked %d", (unsigned)who,
                stages[at->callers[who].stage], (unsigned)at->callers[who].ticket, (unsigned)at->callers[who].next,
                (unsigned)at->callers[who].ahead, at->callers[who].locked);
    fputs("\n", stderr);
}

static bool are_same(const struct answer *one, const struct answer *other) {
    bool same = one->result == other->result && one->looks == other->looks && one->count == other->count;
    for (uint32_t at = 0; same && at < one->count; at++)
        same = one->replies[at].word == other->replies[at].word && one->replies[at].number == other->replies[at].number;
    return same;
}

static void compare(const struct asked *asked, const struct answer *library, const struct answer *wanted,
                    const struct model *before) {
    if (are_same(library, wanted))
        return;
    fprintf(stderr, "operation %llu of seed %llu: %s of caller %u, %u calls", (unsigned long long)done,
            (unsigned long long)seed, functions[asked->operation], (unsigned)asked->who, (unsigned)asked->batch.count);
    for (uint32_t at = 0; at < asked->batch.count && at < MC2_MOST_CALLS; at++)
        fprintf(stderr, ", %u %u", (unsigned)asked->batch.calls[at].word, (unsigned)asked->batch.calls[at].first);
    fputs("\n", stderr);
    print_answer("the library", library);
    print_answer("the model", wanted);
    print_model(before);
    exit(1);
}

/* ---- one operation */

static struct mc2_call random_call(void) {
    uint32_t what = below(16), first = below(THREADS + 2);
    if (what == 0)
        return mc2_call_of(MC2_CALL_WORDS + below(3), first, 0);
    if (what == 1)
        return mc2_call_of(MC2_PUT, 254 + below(4), 0);
    if (what == 2)
        return mc2_call_of(below(MC2_CALL_WORDS), first, below(THREADS));
    if (what == 3)
        return mc2_call_of(below(2) ? MC2_ENQ : MC2_REMOVE, UINT32_MAX - below(2), UINT32_MAX);
    return mc2_call_of(what < 9 ? MC2_ENQ : what < 13 ? MC2_DEQ : what < 15 ? MC2_REMOVE : MC2_LEN, first, 0);
}

/* An operation of a caller. Those that would end an idle caller, or the cell, are asked only where they are refused. */
static struct asked random_operation(void) {
    static const enum operation often[] = {ACQUIRE_STEP, ACQUIRE_STEP, ACQUIRE_STEP, ACQUIRE_STEP, RELEASE_STEP, RELEASE_STEP,
                                           RELEASE_STEP, POLL_CALL, POLL_BATCH, APPLY};
    static const uint32_t words[KINDS] = {
        [POLL_ENQ] = MC2_ENQ, [POLL_DEQ] = MC2_DEQ, [POLL_READY] = MC2_READY, [POLL_NEXT] = MC2_NEXT};
    uint32_t kind = below(KINDS + 10);
    struct asked asked = {kind < KINDS ? (enum operation)kind : often[kind - KINDS],
                          (first_active + below(active)) % CALLERS, {1, {{0, 0, 0}}}};
    bool is_idle = model.callers[asked.who].stage == IDLE;
    if ((asked.operation == FREE_CALLER && is_idle) || (asked.operation == RETURN_CALLER && is_idle && asked.who == 0))
        asked.operation = CLOSE_CELL;
    if (asked.operation == POLL_BATCH)
        asked.batch.count = below(24) ? 1 + below(MC2_MOST_CALLS) : below(2) ? 0 : MC2_MOST_CALLS + 1 + below(2);
    for (uint32_t at = 0; at < MC2_MOST_CALLS; at++)
        asked.batch.calls[at] = random_call();
    /* (most calls of a batch exist, and are of a queue) */
    for (uint32_t at = 0; asked.operation == POLL_BATCH && below(4) && at < MC2_MOST_CALLS; at++)
        asked.batch.calls[at] = mc2_call_of(MC2_ENQ + below(4), below(THREADS), 0);
    if (asked.operation >= POLL_ENQ && asked.operation <= POLL_NEXT)
        asked.batch.calls[0].word = words[asked.operation];
    return asked;
}

static struct answer answer_of_model(const struct asked *asked) {
    struct answer answer = {MC2_REFUSED, 0, 0, {{0, 0}}};
    switch (asked->operation) {
    case ACQUIRE_STEP: answer.result = model_acquire_step(&model, asked->who); return answer;
    case RELEASE_STEP: answer.result = model_release_step(&model, asked->who); return answer;
    case TRY_ACQUIRE: answer.result = model_try(&model, asked->who); return answer;
    case APPLY: return model_apply(&model, asked->who, &asked->batch);
    case RETURN_CALLER: case FREE_CALLER: case CLOSE_CELL: case OPEN_CALLER: return answer;
    default: return model_call(&model, asked->who, &asked->batch, asked->operation == TRY_CALL);
    }
}

static struct answer answer_of_library(const struct asked *asked) {
    struct mc2_caller *caller = &callers[asked->who];
    const struct mc2_call *call = &asked->batch.calls[0];
    struct mc2_replies replies = {UNWRITTEN, {{UNWRITTEN, UNWRITTEN}}};
    struct mc2_reply *reply = &replies.replies[0];
    struct mc2_handle handle = {caller->impl};
    uint64_t before = UINT64_MAX - below(3), looks = before;
    struct answer answer = {0, 0, 0, {{0, 0}}};
    switch (asked->operation) {
    case ACQUIRE_STEP: answer.result = mc2_acquire_step(caller); break;
    case RELEASE_STEP: answer.result = mc2_release_step(caller); break;
    case TRY_ACQUIRE: answer.result = mc2_poll_try_acquire(caller); break;
    case APPLY: answer.result = mc2_handle_apply(caller, call, reply); break;
    case POLL_CALL: answer.result = mc2_poll_call(caller, call, reply, &looks); break;
    case POLL_ENQ: answer.result = mc2_poll_enq(caller, call->first, reply, &looks); break;
    case POLL_DEQ: answer.result = mc2_poll_deq(caller, reply, &looks); break;
    case POLL_READY: answer.result = mc2_poll_ready(caller, call->first, reply, &looks); break;
    case POLL_NEXT: answer.result = mc2_poll_next(caller, reply, &looks); break;
    case POLL_BATCH: answer.result = mc2_poll_batch(caller, &asked->batch, &replies, &looks); break;
    case TRY_CALL: answer.result = mc2_poll_try_call(caller, call, reply); break;
    case RETURN_CALLER: answer.result = mc2_handle_return_caller(&cell, caller); break;
    case FREE_CALLER: answer.result = mc2_handle_free_caller(handle); break;
    case CLOSE_CELL: answer.result = mc2_handle_close_cell(&cell); break;
    default: answer.result = mc2_handle_open_caller(&cell, caller); break;
    }
    answer.looks = looks - before;
    if (asked->operation == POLL_BATCH)
        answer.count = replies.count == UNWRITTEN ? 0 : replies.count;
    else
        answer.count = reply->word != UNWRITTEN || reply->number != UNWRITTEN;
    memcpy(answer.replies, replies.replies, sizeof answer.replies);
    return answer;
}

static void perform(const struct asked *asked) {
    struct model before = model;
    struct answer library = answer_of_library(asked), wanted = answer_of_model(asked);
    done++;
    done_by[model.lock]++;
    reached[asked->operation] |= UINT32_C(1) << wanted.result;
    compare(asked, &library, &wanted, &before);
}

/* ---- lives of the callers */

static void must_return(uint32_t result, uint32_t wanted, const char *what) {
    if (result != wanted) {
        fprintf(stderr, "operation %llu of seed %llu\n", (unsigned long long)done, (unsigned long long)seed);
        print_model(&model);
    }
    must(result, wanted, what);
}

static void open_callers(void) {
    for (uint32_t who = CALLERS; who-- > 0;)
        must_return(mc2_handle_open_caller(&cell, &callers[who]), MC2_DONE, "opening a caller");
    must_return(mc2_handle_open_caller(&cell, &callers[0]), MC2_REFUSED, "opening a caller twice");
}

/* Has each caller take its steps until all are idle, in random order. */
static void release_all(void) {
    for (uint32_t busy = 1; busy > 0;) {
        struct asked asked = random_operation();
        enum stage stage = model.callers[asked.who].stage;
        asked.operation = stage >= HOLDING ? RELEASE_STEP : stage == WAITING && below(2) ? POLL_CALL : ACQUIRE_STEP;
        asked.batch.count = 1;
        if (stage != IDLE)
            perform(&asked);
        busy = 0;
        for (uint32_t who = 0; who < CALLERS; who++)
            busy += model.callers[who].stage != IDLE;
    }
}

static void return_callers(void) {
    for (uint32_t who = 0; who < CALLERS; who++) {
        must_return(mc2_handle_close_cell(&cell), MC2_REFUSED, "closing too early");
        if (who + 1 < CALLERS)
            must_return(mc2_handle_return_caller(&cell, &callers[CALLERS - 1]), MC2_REFUSED, "returning out of turn");
        must_return(mc2_handle_return_caller(&cell, &callers[who]), MC2_DONE, "returning a caller");
        must_return(mc2_acquire_step(&callers[who]), MC2_REFUSED, "a step of a caller that was returned");
    }
    must_return(mc2_handle_open_caller(&cell, &callers[0]), MC2_REFUSED, "opening a caller that was returned");
}

/* A reopened cell has a new lock and the same queue. */
static void reopen_cell(uint32_t lock) {
    must_return(mc2_handle_close_cell(&cell), MC2_DONE, "closing");
    must_return(mc2_handle_reopen_cell(&cell, lock, CALLERS), MC2_DONE, "reopening");
    memset(model.callers, 0, sizeof model.callers);
    model.lock = lock;
    model.next_ticket = model.served_ticket = model.tail = 0;
}

static void open_cell(uint32_t lock) {
    struct mc2_cell_opening opening = {lock, MC2_QUEUE, 0, CALLERS, THREADS, 0, {0}};
    must_return(mc2_handle_alloc_cell(&cell.impl), MC2_DONE, "a handle of a cell");
    must_return(mc2_handle_open_cell(&cell, &opening), MC2_DONE, "opening");
    for (uint32_t who = 0; who < CALLERS; who++)
        must_return(mc2_handle_alloc_caller(&callers[who].impl), MC2_DONE, "a handle of a caller");
    model.lock = lock;
    open_callers();
}

static void free_all(void) {
    for (uint32_t who = 0; who < CALLERS; who++)
        must_return(mc2_handle_free_caller((struct mc2_handle){callers[who].impl}), MC2_DONE, "freeing a caller");
    must_return(mc2_handle_free_cell((struct mc2_handle){cell.impl}), MC2_DONE, "freeing the cell");
    must_be(blocks == 0, "all memory is freed");
}

/* ---- what the operations reached */

#define RESULT(name) (UINT32_C(1) << MC2_##name)

/* The results that one thread can get. Of a try the lock is always released, since no other caller comes meanwhile. */
static void check_reached(void) {
    const uint32_t whole = RESULT(DONE) | RESULT(AGAIN) | RESULT(DONE_HELD) | RESULT(REFUSED), none = RESULT(NOT_FOUND);
    const uint32_t wanted[KINDS] = {
        [ACQUIRE_STEP] = RESULT(STEPPED) | RESULT(AGAIN) | RESULT(ACQUIRED) | RESULT(ACQUIRED_BY_LOOK) | RESULT(REFUSED),
        [RELEASE_STEP] = RESULT(STEPPED) | RESULT(AGAIN) | RESULT(RELEASED) | RESULT(REFUSED),
        [TRY_ACQUIRE] = RESULT(ACQUIRED_BY_LOOK) | RESULT(BUSY) | RESULT(REFUSED),
        [APPLY] = RESULT(DONE) | RESULT(REFUSED) | none,
        [POLL_CALL] = whole | none, [POLL_ENQ] = whole, [POLL_DEQ] = whole, [POLL_READY] = whole, [POLL_NEXT] = whole,
        [POLL_BATCH] = whole | none,
        [TRY_CALL] = RESULT(DONE) | RESULT(BUSY) | RESULT(REFUSED) | none,
        [RETURN_CALLER] = RESULT(REFUSED), [FREE_CALLER] = RESULT(REFUSED), [CLOSE_CELL] = RESULT(REFUSED),
        [OPEN_CALLER] = RESULT(REFUSED)};
    for (uint32_t kind = 0; kind < KINDS; kind++)
        must(reached[kind], wanted[kind], functions[kind]);
}

int main(int count, char **words) {
    uint64_t operations = count > 2 ? strtoull(words[2], NULL, 10) : 200000;
    seed = count > 3 ? strtoull(words[3], NULL, 10) : 1;
    if (count < 2 || count > 4 || (strcmp(words[1], "ticket") != 0 && strcmp(words[1], "mcs") != 0) || operations == 0) {
        fputs("use: model ticket|mcs [OPERATIONS [SEED]]\n", stderr);
        return 2;
    }
    uint32_t lock = strcmp(words[1], "mcs") == 0 ? MC2_MCS : MC2_TICKET;
    /* (a state of 0 would stay 0) */
    drawn = (seed + 1) * UINT64_C(0x9e3779b97f4a7c15) | 1;
    open_cell(lock);
    while (done_by[lock] < operations) {
        first_active = below(CALLERS);
        active = 1 + below(CALLERS);
        for (uint32_t left_of_life = 1 + below(2000); left_of_life > 0; left_of_life--) {
            struct asked asked = random_operation();
            perform(&asked);
        }
        release_all();
        return_callers();
        /* (most lives are with the lock that was asked for) */
        reopen_cell(below(3) > 0 ? lock : !lock);
        open_callers();
    }
    free_all();
    if (operations >= ENOUGH)
        check_reached();
    printf("%llu operations at a ticket lock, %llu at an MCS lock\n", (unsigned long long)done_by[MC2_TICKET],
           (unsigned long long)done_by[MC2_MCS]);
    return 0;
}
