/* use: witness SEEDS

   Checks include/mc2_custom_witness.h: makes that many logs of run queues, allocators and pipes, the last step of which is wrong
   by its model, and finds a witness of each. The kept steps have to be right in their order, and the last step wrong for the reason
   that is returned, where the reply that is returned would have been right. Without any one of the kept steps but the last this
   mustn't hold, unless the search ended early, which is tried too. Of another report there is no witness.
   Prints how many steps there were and how many were kept. The status is 0, or 1 at the first check that fails. */
#include "../../../examples/custom/models.h"
#include "mc2_custom_witness.h"
#include <string.h>

enum { MOST_STEPS = 60, MOST_TEXT = 1 << 14, PLENTY = 1 << 20 };

static struct {
    char bytes[MOST_TEXT];
    size_t length;
} text;

static uint64_t seed;

#define CHECK(what) check(what, #what, __LINE__)

static void check(bool is_so, const char *what, int line) {
    if (!is_so) {
        fprintf(stderr, "witness.c:%d: not so of this: %s\n%.*s", line, what, (int)text.length, text.bytes);
        exit(1);
    }
}

static unsigned below(unsigned bound) {
    seed ^= seed << 13;
    seed ^= seed >> 7;
    seed ^= seed << 17;
    return (unsigned)((seed >> 24) % bound);
}

/* A line of one step, which may be right. */
static void make_line(unsigned kind, char *line, size_t room) {
    static const char *const forms[3][5] = {
        {"put %u %u = ok", "put %u %u = ok", "take = thread %u", "take = thread %u", "take = empty"},
        {"alloc %u = page %u", "alloc %u = page %u", "free %u = ok", "left = count %u", "alloc %u = none"},
        {"write %u 2 = wrote 2", "write %u 5 = wrote %u", "read %u = got 1 %u", "read %u = empty", "write %u 3 = full"}};
    char step[100];
    unsigned first = below(kind == 1 ? 9 : 5);
    snprintf(step, sizeof step, forms[kind][below(5)], first, below(6));
    snprintf(line, room, "%u %s\n", below(2), step);
}

/* Whether the model calls the step of the line right. */
static bool is_right(const struct mc2_model *model, void *state, const char *line) {
    struct mc2_custom_line read;
    mc2_custom_line((const uint8_t *)line, strlen(line), 0, &read);
    CHECK(read.kind == MC2_CUSTOM_EVENT && read.count == 1);
    return !model->step(state, &read.steps[0]);
}

static void add(const char *line) {
    size_t length = strlen(line);
    CHECK(length < sizeof text.bytes - text.length);
    memcpy(text.bytes + text.length, line, length);
    text.length += length;
}

/* Makes a log whose last step is wrong, and returns how many steps are before it. */
static uint64_t make_log(unsigned kind, const struct mc2_model *model, void *state) {
    static const char *const heads[] = {"object o ticket 99 runq 5\nlog o 99\n", "object o ticket 99 buddy 3\nlog o 99\n",
                                        "object o ticket 99 pipe 8 4\nlog o 99\n"};
    char line[120];
    uint64_t count = 0, wanted = 1 + below(MOST_STEPS);
    bool has_more = true;
    text.length = 0;
    add(heads[kind]);
    while (has_more) {
        make_line(kind, line, sizeof line);
        bool right = is_right(model, state, line);
        has_more = right || count < wanted;
        if (right || !has_more)
            add(line);
        count += right;
        has_more = has_more && count < 2 * MOST_STEPS;
    }
    return count;
}

/* Why the last step is wrong after the others but one, or NULL; and what would have been right. */
static const char *reason_without(const struct mc2_model *model, const struct mc2_custom_witness *witness, size_t left_out,
                                  char *right) {
    struct mc2_custom_line line;
    mc2_custom_line((const uint8_t *)text.bytes, text.length, 0, &line);
    void *state = model->open(line.numbers, line.count);
    const char *why = NULL;
    size_t at = 0;
    for (; at <= witness->count && !why; at++) {
        mc2_custom_line((const uint8_t *)text.bytes, text.length, (size_t)witness->steps[at].line, &line);
        right[0] = 0;
        model->says(state, &line.steps[witness->steps[at].step].call, right, MC2_CUSTOM_RIGHT);
        why = at == left_out ? NULL : model->step(state, &line.steps[witness->steps[at].step]);
    }
    model->close(state);
    return at == witness->count + 1 ? why : NULL;
}

static void check_witness(const struct mc2_model *model, const struct mc2_custom_witness *witness, const char *reason,
                          bool is_whole) {
    char right[MC2_CUSTOM_RIGHT];
    const char *why = reason_without(model, witness, SIZE_MAX, right);
    CHECK(reason && why && strcmp(why, reason) == 0);
    CHECK(witness->is_by_reason || strcmp(right, witness->right) == 0);
    for (size_t at = 0; is_whole && at + 1 < witness->count; at++) {
        why = reason_without(model, witness, at, right);
        CHECK(!why || strcmp(why, reason) != 0 || (!witness->is_by_reason && strcmp(right, witness->right) != 0));
    }
}

static const char *find(const struct mc2_custom_logs *logs, const struct mc2_report *report, struct mc2_custom_witness *witness) {
    return mc2_custom_find_witness((const uint8_t *)text.bytes, text.length, models, MODELS, logs, report, witness);
}

/* Finds a witness of the last step by at most that many questions, and returns how many steps it keeps. */
static size_t find_last(const struct mc2_model *model, const struct mc2_custom_logs *logs, uint64_t left) {
    struct mc2_custom_place steps[2 * MOST_STEPS + 1];
    struct mc2_custom_witness witness = {steps, 0, left, "", false};
    struct mc2_report report = {MC2_WRONG_STEP, 0, logs->right[0], 0};
    check_witness(model, &witness, find(logs, &report, &witness), left == PLENTY);
    return witness.count;
}

/* There is no witness of another fault, of another step, or of an object whose kind no model has. */
static void check_none(const struct mc2_custom_logs *logs) {
    struct mc2_custom_place steps[2 * MOST_STEPS + 1];
    struct mc2_custom_witness witness = {steps, 0, PLENTY, "", false};
    struct mc2_report report = {MC2_UNCLAIMED, 0, logs->right[0], 0};
    CHECK(!find(logs, &report, &witness));
    report = (struct mc2_report){MC2_WRONG_STEP, 0, logs->right[0], 1};
    CHECK(!find(logs, &report, &witness));
    report = (struct mc2_report){MC2_WRONG_STEP, 0, logs->right[0] - 1, 0};
    CHECK(!find(logs, &report, &witness));
    report = (struct mc2_report){MC2_WRONG_STEP, 0, logs->right[0], 0};
    CHECK(!mc2_custom_find_witness((const uint8_t *)text.bytes, text.length, models, 0, logs, &report, &witness));
}

static void check_one(size_t *all, size_t *kept) {
    static struct mc2_custom_logs logs;
    static const uint64_t numbers[3][2] = {{5, 0}, {3, 0}, {8, 4}};
    unsigned kind = below(3);
    void *state = models[kind].open(numbers[kind], kind == 2 ? 2 : 1);
    CHECK(state != NULL);
    uint64_t right = make_log(kind, &models[kind], state);
    models[kind].close(state);
    if (right == 2 * MOST_STEPS)
        return;
    CHECK(mc2_priv_ask_all((const uint8_t *)text.bytes, text.length, models, MODELS, &logs) == 1);
    CHECK(logs.right[0] == right);
    check_none(&logs);
    find_last(&models[kind], &logs, below(300));
    *kept += find_last(&models[kind], &logs, PLENTY);
    *all += (size_t)right;
}

int main(int count, char **words) {
    size_t all = 0, kept = 0, seeds = count == 2 ? strtoul(words[1], NULL, 10) : 0;
    for (size_t at = 1; at <= seeds; at++) {
        seed = 88172645463325252u + 1000003u * at;
        check_one(&all, &kept);
    }
    printf("%zu of %zu steps kept\n", kept, all);
    return 0;
}
