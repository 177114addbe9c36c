// Prints a record that has each call and each reply, by include/mc2_record.h. header.c includes it.

// The steps of the record that is printed: the object, a call with its numbers, and its reply with its number.
enum { Q, P, C, S };
static const struct {
    uint32_t object, word, first, second, reply, number;
} printed[] = {
    {Q, MC2_ENQ, 0, 0, MC2_OK, 0},           {Q, MC2_ENQ, 0, 0, MC2_ALREADY, 0},        {Q, MC2_ENQ, 2, 0, MC2_BADTHREAD, 0},
    {Q, MC2_REMOVE, 1, 0, MC2_ABSENT, 0},    {Q, MC2_REMOVE, 0, 0, MC2_OK, 0},          {Q, MC2_DEQ, 0, 0, MC2_EMPTY, 0},
    {Q, MC2_ENQ, 1, 0, MC2_OK, 0},           {Q, MC2_LEN, 0, 0, MC2_COUNT, 1},          {Q, MC2_DEQ, 0, 0, MC2_THREAD, 1},
    {Q, MC2_ALLOC, UINT32_MAX, 0, MC2_BADCALL, 0},
    {P, MC2_ALLOC, 16, 0, MC2_BADOWNER, 0},  {P, MC2_FREE, 0, 2, MC2_BADPAGE, 0},       {P, MC2_FREE, 0, 0, MC2_NOTTAKEN, 0},
    {P, MC2_ALLOC, 15, 0, MC2_PAGE, 0},      {P, MC2_FREE, 0, 0, MC2_NOTYOURS, 0},      {P, MC2_ALLOC, 15, 0, MC2_OVERQUOTA, 0},
    {P, MC2_ALLOC, 0, 0, MC2_PAGE, 1},       {P, MC2_ALLOC, 0, 0, MC2_NONE, 0},         {P, MC2_LEFT, 0, 0, MC2_COUNT, 0},
    {P, MC2_FREE, 15, 0, MC2_OK, 0},
    {C, MC2_GET, 0, 0, MC2_EMPTY, 0},        {C, MC2_PUT, 255, 0, MC2_OK, 0},           {C, MC2_PUT, 0, 0, MC2_DROPPED, 255},
    {C, MC2_LEVEL, 0, 0, MC2_COUNT, 1},      {C, MC2_GET, 0, 0, MC2_BYTE, 0},
    {S, MC2_NEXT, 0, 0, MC2_EMPTY, 0},       {S, MC2_READY, 0, 0, MC2_OK, 0},           {S, MC2_NEXT, 0, 0, MC2_THREAD, 0},
    {S, MC2_SLEEP, 1, 0, MC2_BADCHANNEL, 0}, {S, MC2_SLEEP, 0, 1, MC2_OK, 0},           {S, MC2_SLEEP, 0, 0, MC2_OK, 0},
    {S, MC2_WAKE, 0, 0, MC2_THREAD, 1},      {S, MC2_WAKEALL, 0, 0, MC2_COUNT, 1},      {S, MC2_WAKE, 0, 0, MC2_EMPTY, 0},
    {S, MC2_NEXT, 0, 0, MC2_THREAD, 1}};
enum { PRINTED = sizeof printed / sizeof printed[0], OF_THE_POOL = 10 };

// A CPU that meets no other looks once at a ticket lock, and never at an MCS lock.
static void note(struct mc2_recorder *recorder, uint32_t object, const struct mc2_call *calls, uint32_t asked,
                 const struct mc2_step *steps, uint32_t done) {
    uint64_t looks = object == Q || object == C ? 1 : 0;
    if (done > 0)
        GIVES(mc2_recorder_event(recorder, object, 0, steps, done), MC2_DONE);
    GIVES(mc2_recorder_entry(recorder, object, 0, looks, calls, asked, steps, done), MC2_DONE);
}

static void note_groups(struct mc2_recorder *recorder) {
    struct mc2_call calls[8], left = mc2_call_of(MC2_LEFT, 0, 0);
    struct mc2_step steps[8];
    for (unsigned at = 0; at < 8; at++) {
        calls[at] = mc2_call_of(MC2_LEN, 0, 0);
        steps[at] = mc2_step_of(calls[at], MC2_COUNT, 0);
    }
    note(recorder, Q, calls, 8, steps, 8);
    calls[0] = calls[1] = mc2_call_of(MC2_ENQ, 1, 0);
    steps[0] = mc2_step_of(calls[0], MC2_OK, 0);
    steps[1] = mc2_step_of(calls[1], MC2_ALREADY, 0);
    note(recorder, Q, calls, 3, steps, 2);
    GIVES(mc2_recorder_room(recorder, P, 0), MC2_LOG_FULL);
    note(recorder, P, &left, 1, NULL, 0);
}

static void print_record(void) {
    struct mc2_recorder recorder;
    uint32_t quotas[MC2_OWNERS] = {1, 0, 4096, 2, 2, 2, 2, 2, 2, 2, 2, 2, 2, 2, 2, 1};
    const struct mc2_object objects[4] = {{"threads", MC2_QUEUE, MC2_TICKET, 100, 2, 0, NULL},
                                          {"pages", MC2_POOL, MC2_MCS, OF_THE_POOL, 2, 0, quotas},
                                          {"c", MC2_CONSOLE, MC2_TICKET, 65536, 1, 0, NULL},
                                          {"s9", MC2_SCHED, MC2_MCS, 10, 2, 1, NULL}};
    GIVES(mc2_recorder_open(&recorder, objects, 4, 2, PRINTED + 3), MC2_DONE);
    // The recorder has copied the quotas.
    quotas[15] = 9;
    for (unsigned at = 0; at < PRINTED; at++) {
        struct mc2_call call = mc2_call_of(printed[at].word, printed[at].first, printed[at].second);
        struct mc2_step step = mc2_step_of(call, printed[at].reply, printed[at].number);
        CHECK(mc2_refuses(step.reply) == (step.reply >= MC2_BADTHREAD));
        note(&recorder, printed[at].object, &call, 1, &step, 1);
    }
    note_groups(&recorder);
    GIVES(mc2_recorder_write(&recorder, stdout), MC2_DONE);
    mc2_recorder_close(&recorder);
}
