/* The functions of include/mc2_custom.h in plain C. They are linked where the proved library isn't built. tests/c/judge compares
   them with it, and tools/measure/judges measures both. Nothing here is proved.

   For a line that isn't an event mc2_custom_line may write a part of one, which the caller must not read. */
#define IS_CUSTOM 1
#include "judge.h"
#include "order.h"

/* ---- Lines */

static const uint8_t *term_in(const uint8_t *p, struct mc2_custom_term *it) {
    memset(it->numbers, 0, sizeof it->numbers);
    return numbers(word_in(p, it->word), MC2_CUSTOM_NUMBERS, &it->count, it->numbers);
}

static bool event_in(const uint8_t *p, struct mc2_custom_line *line) {
    uint64_t cpu;
    p = space(number(p, 0, MC2_CUSTOM_CPUS - 1, &cpu));
    line->cpu = (uint32_t)cpu;
    line->count = 0;
    for (const uint8_t *more = p; line->count == 0 || (more && line->count < MC2_CUSTOM_CALLS); more = mark(p, ';')) {
        struct mc2_custom_step *step = &line->steps[line->count++];
        p = term_in(mark(term_in(more, &step->call), '='), &step->reply);
    }
    return end_of(p) != NULL;
}

void mc2_custom_line(const uint8_t *text, size_t length, size_t at, struct mc2_custom_line *line) {
    const uint8_t *end = at < length ? memchr(text + at, '\n', length - at) : NULL;
    uint8_t lock[MC2_CUSTOM_LETTERS];
    line->kind = MC2_CUSTOM_NONE;
    if (!end)
        return;
    line->next = (uint64_t)(end - text) + 1;
    line->kind = MC2_CUSTOM_OTHER;
    if (sorts[text[at]] == DIGIT && event_in(text + at, line))
        line->kind = MC2_CUSTOM_EVENT;
    else if (text[at] == 'l' && log_in(text + at, line))
        line->kind = MC2_CUSTOM_LOG;
    else if (text[at] == 'o' && object_in(text + at, line, lock))
        line->kind = MC2_CUSTOM_OBJECT;
}

/* ---- The kinds that mc2 has */

/* Whether this is the word of the entry, with numbers in its range. */
static bool fits(const struct mc2_custom_term *term, const struct spelling *it) {
    for (uint64_t at = 0; at < term->count; at++)
        if (term->numbers[at] > it->most)
            return false;
    return it->length > 0 && term->word[it->length] == 0 && term->count == it->numbers;
}

static bool is_right_step(struct object *object, const struct mc2_custom_step *step) {
    uint32_t word = find_word(call_words, first_calls, step->call.word);
    struct call call = {word, step->call.numbers[0], step->call.numbers[1]};
    if (!fits(&step->call, &call_words[word]))
        return false;
    word = find_word(reply_words, first_replies, step->reply.word);
    struct reply reply = {word, step->reply.numbers[0]};
    return fits(&step->reply, &reply_words[word]) && are_same_replies(answer(object, &call), reply);
}

static uint64_t count_log(const uint8_t *text, size_t length, struct mc2_custom_line *line, struct object *object) {
    uint64_t right = 0, in_event = 0;
    for (uint64_t events = line->limit; events > 0; events--) {
        mc2_custom_line(text, length, (size_t)line->next, line);
        for (in_event = 0; line->kind == MC2_CUSTOM_EVENT && in_event < line->count; in_event++)
            if (!is_right_step(object, &line->steps[in_event]))
                return right + in_event;
        if (line->kind != MC2_CUSTOM_EVENT)
            return right;
        right += in_event;
    }
    return right;
}

void mc2_custom_kernel(const uint8_t *text, size_t length, size_t object, size_t log, struct mc2_report *out) {
    struct mc2_custom_line line;
    struct params params;
    struct object *it = NULL;
    report(out, MC2_NO_MODEL, 0, 0, 0);
    mc2_custom_line(text, length, object, &line);
    if (line.kind != MC2_CUSTOM_OBJECT || !take_params(line.object_kind, line.numbers, line.count, &params))
        return;
    mc2_custom_line(text, length, log, &line);
    if (line.kind != MC2_CUSTOM_LOG)
        return;
    report(out, MC2_OUT_OF_MEMORY, 0, 0, 0);
    if (!(it = malloc(sizeof *it)))
        return;
    open_object(it, &params);
    report(out, MC2_CUSTOM_COUNTED, count_log(text, length, &line, it), 0, 0);
    free(it);
}

/* ---- Records */

void mc2_custom_audit(const uint8_t *text, size_t length, const uint64_t *right, size_t objects, struct mc2_report *out) {
    struct record *r = malloc(sizeof *r);
    report(out, MC2_OUT_OF_MEMORY, 0, 0, 0);
    if (!r)
        return;
    judge(r, text, length, right, objects, false);
    *out = r->fault;
    drop(r);
    free(r);
}

static void report_order(const struct record *r, const struct front *front, struct mc2_entry_id *order, size_t capacity,
                         struct mc2_report *out) {
    uint64_t at[MC2_CUSTOM_CPUS] = {0};
    report(out, r->entry_count > capacity ? MC2_NO_ROOM : MC2_SOUND, r->entry_count, 0, 0);
    for (size_t n = 0; n < r->entry_count && r->entry_count <= capacity; n++) {
        order[n].cpu = front->order[n];
        order[n].entry = at[front->order[n]]++;
    }
}

void mc2_custom_merge(const uint8_t *text, size_t length, const uint64_t *right, size_t objects, struct mc2_entry_id *order,
                      size_t capacity, struct mc2_report *out) {
    struct record *r = malloc(sizeof *r);
    struct front *front = NULL;
    size_t placed = 0;
    report(out, MC2_OUT_OF_MEMORY, 0, 0, 0);
    if (!r)
        return;
    judge(r, text, length, right, objects, true);
    *out = r->fault;
    if (out->kind == MC2_SOUND && !(front = put_in_order(r, &placed)))
        report(out, MC2_OUT_OF_MEMORY, 0, 0, 0);
    else if (out->kind == MC2_SOUND && placed == r->entry_count)
        report_order(r, front, order, capacity, out);
    else if (out->kind == MC2_SOUND)
        report_cycle(r, front, order, capacity, out);
    free(front);
    drop(r);
    free(r);
}
