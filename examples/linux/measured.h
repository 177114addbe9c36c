// measured.h - speed=1 of load.c: measures the stack that the library takes, and the time of calls, compared with the queue in C
// behind the kernel's spinlock.
enum { MARK = 0x5a, NEAR = 128 };

static int run_all(void);

static struct mc2_cell measured;
static struct mc2_caller measured_callers[MOST_LINUX_CPUS];

// mark_stack fills the unused part of this task's stack. stack_used returns how many bytes were used at most since then.
static noinline void mark_stack(void) {
    u8 *from = (u8 *)(end_of_stack(current) + 1);
    unsigned long flags;
    local_irq_save(flags);
    memset(from, MARK, (u8 *)__builtin_frame_address(0) - NEAR - from);
    local_irq_restore(flags);
}

static noinline size_t stack_used(void) {
    const u8 *at = (const u8 *)(end_of_stack(current) + 1), *top = (const u8 *)__builtin_frame_address(0);
    while (at < top && *at == MARK)
        at++;
    return top - at;
}

// Makes the call and returns whether it succeeded. Raises `most` to the stack that it used.
#define USES(most, call) \
    ({ \
        bool uses_is_done; \
        mark_stack(); \
        uses_is_done = (call) == MC2_DONE; \
        most = max(most, stack_used()); \
        uses_is_done; \
    })

static int say_stack(void) {
    static struct mc2_batch batch = {MC2_MOST_CALLS};
    static struct mc2_replies replies;
    size_t openings = 0, whole = 0, batches = 0;
    struct mc2_reply reply;
    bool is_right = true;
    for (u32 at = 0; at < OBJECTS && is_right; at++) {
        batch.calls[0] = any_call(at, 0);
        is_right = USES(openings, mc2_cell_open(&measured, &objects[at], measured_callers, 1)) &&
                   USES(whole, mc2_cell_call(measured_callers, &batch.calls[0], &reply)) &&
                   USES(batches, mc2_cell_batch(measured_callers, &batch, &replies));
        mc2_cell_free(&measured, measured_callers, 1);
    }
    pr_notice("stack of openings %zu, of whole calls %zu, of batches %zu, of %lu\n", openings, whole, batches, THREAD_SIZE);
    return is_right ? 0 : -ENOMEM;
}

static u64 now(void) {
    struct timespec64 time;
    ktime_get_raw_ts64(&time);
    return timespec64_to_ns(&time);
}

static void call_timed(u32 number, bool puts) {
    struct mc2_caller *caller = &measured_callers[number];
    struct mc2_reply reply;
    unsigned long flags;
    u32 result;
    if (way == CELLS) {
        preempt_disable();
        result = puts ? mc2_queue_enq(caller, number % SIZE, &reply) : mc2_queue_deq(caller, &reply);
        state[number].wrong += result != MC2_DONE;
        preempt_enable();
    } else {
        raw_spin_lock_irqsave(&spinlock, flags);
        plain_answer(number, mc2_call_of(puts ? MC2_ENQ : MC2_DEQ, number % SIZE, 0));
        raw_spin_unlock_irqrestore(&spinlock, flags);
    }
}

// Measures calls on a queue that keeps its log, behind this lock or the kernel's spinlock.
static int time_one(const char *name, u32 lock_word) {
    struct mc2_object object = objects[MC2_QUEUE];
    u64 longest = 1;
    int failure;
    object.lock = lock_word;
    if (way == CELLS && mc2_cell_open(&measured, &object, measured_callers, cpus) != MC2_DONE)
        return -ENOMEM;
    failure = run_all();
    mc2_cell_free(&measured, measured_callers, cpus);
    for (u32 cpu = 0; cpu < cpus; cpu++) {
        longest = max(longest, state[cpu].took);
        failure = failure ?: state[cpu].wrong ? -EIO : 0;
    }
    pr_notice("%s: %u CPUs, %llu ns a call of each, %llu calls a second\n", name, cpus, div_u64(longest, calls),
              div64_u64((u64)cpus * calls * NSEC_PER_SEC, longest));
    return failure;
}

static int time_all(void) {
    int failure = time_one("ticket cell", MC2_TICKET) ?: time_one("mcs cell", MC2_MCS);
    way = SPIN;
    return failure ?: time_one("the kernel's spinlock", MC2_TICKET);
}
