// mc2_custom_witness.h - explains a step that a model of mc2_custom.h calls wrong: why, and by which steps before it.
//
// A *witness* of a wrong step is a few of the steps before it, after which it is wrong for the same reason, and the same reply
// would have been right. If this takes more than 14 steps, only the reason has to be the same.
//
//     mc2_custom_judge(text, length, models, 1, &logs, NULL, 0, &report);
//     if (report.kind == MC2_WRONG_STEP) {
//         struct mc2_custom_place *steps = calloc(logs.right[report.first] + 1, sizeof *steps);
//         struct mc2_custom_witness witness = {steps, 0, 20000000, "", false};
//         const char *reason = mc2_custom_find_witness(text, length, models, 1, &logs, &report, &witness);
//
// The search leaves steps out: first those with other numbers, for example on another slot, then pieces of the log, the oldest
// first. The last step that the first part keeps stays: where two CPUs were inside a lock at the same time, it often is the other
// CPU's. Steps that were left out may have changed the results of the others. So the kept steps and the wrong one can't all be
// right, but they needn't be the cause.
//
// Nothing here is proved. The obligations are those of mc2_custom.h.
#ifndef MC2_CUSTOM_WITNESS_H
#define MC2_CUSTOM_WITNESS_H

#include "mc2_custom.h"

// A step: the byte where its line begins, the event of the log, and the step of the event, from 0.
struct mc2_custom_place {
    uint64_t line, event, step;
};

// The room for a right reply in text, with the final 0; and the most steps of a witness after which the same reply is right.
enum { MC2_CUSTOM_RIGHT = 200, MC2_CUSTOM_SHORT = 14 };

struct mc2_custom_witness {
    // In: room for one place more than the log has right steps. Out: the `count` steps that are kept, and after them the wrong one.
    struct mc2_custom_place *steps;
    size_t count;
    uint64_t left; // in: how many steps the model may be asked about, so that the search ends in time; out: how many are left
    // Out: what would have been right in place of the wrong reply after the whole log, as the model says it; empty if it doesn't.
    char right[MC2_CUSTOM_RIGHT];
    bool is_by_reason; // out: whether another reply may be right after only the kept steps
};

// Internal: the steps that a trial leaves out: those from `from` on up to `to`; or, in one of the ways below, each that has a
// number from `least` up to `most`.
struct mc2_priv_without {
    unsigned way;
    size_t from, to;
    uint64_t least, most;
};

// Internal: by place; by the call's number at one of 6 places, or else the reply's; by the reply's, or else the call's.
enum { MC2_PRIV_BY_PLACE, MC2_PRIV_BY_CALL, MC2_PRIV_BY_REPLY = MC2_PRIV_BY_CALL + MC2_CUSTOM_NUMBERS,
       MC2_PRIV_WAYS = MC2_PRIV_BY_REPLY + MC2_CUSTOM_NUMBERS };

// Internal: a search: the record, the object's line and its model; why its wrong step is wrong; and what is kept. `line` is the
// line that begins at `read`, the last one that was read.
struct mc2_priv_search {
    const uint8_t *text;
    size_t length;
    const struct mc2_model *model;
    const char *reason;
    struct mc2_custom_witness *witness;
    uint64_t read;
    struct mc2_custom_line object, line;
};

// Internal: finds this many steps, from the first of the log on. Returns how many there are.
static inline size_t mc2_priv_places(struct mc2_priv_search *search, size_t log, struct mc2_custom_place *steps, size_t wanted) {
    struct mc2_custom_line *line = &search->line;
    struct mc2_custom_place at = {0, 0, 0};
    size_t found = 0;
    mc2_custom_line(search->text, search->length, log, line);
    while (found < wanted && line->kind != MC2_CUSTOM_NONE && (at.line == 0 || line->kind == MC2_CUSTOM_EVENT)) {
        if (at.line > 0 && at.step < line->count) {
            steps[found++] = at;
            at.step++;
            continue;
        }
        at.event += at.line > 0;
        at.line = line->next;
        at.step = 0;
        mc2_custom_line(search->text, search->length, (size_t)at.line, line);
    }
    search->read = at.line;
    return found;
}

// Internal: the step of the witness at that index, which is valid until another one is read.
static inline const struct mc2_custom_step *mc2_priv_step_at(struct mc2_priv_search *search, size_t at) {
    const struct mc2_custom_place *place = &search->witness->steps[at];
    if (search->read != place->line)
        mc2_custom_line(search->text, search->length, (size_t)place->line, &search->line);
    search->read = place->line;
    return &search->line.steps[place->step];
}

// Internal: whether the step has a number in that way, and which.
static inline bool mc2_priv_number(const struct mc2_custom_step *step, unsigned way, uint64_t *number) {
    bool is_by_call = way < MC2_PRIV_BY_REPLY;
    unsigned place = way - (is_by_call ? MC2_PRIV_BY_CALL : MC2_PRIV_BY_REPLY);
    const struct mc2_custom_term *first = is_by_call ? &step->call : &step->reply;
    const struct mc2_custom_term *term = place < first->count ? first : is_by_call ? &step->reply : &step->call;
    *number = term->numbers[place];
    return place < term->count;
}

static inline bool mc2_priv_is_out(struct mc2_priv_search *search, const struct mc2_priv_without *without, size_t at) {
    uint64_t number = 0;
    if (without->way == MC2_PRIV_BY_PLACE)
        return at >= without->from && at < without->to;
    return mc2_priv_number(mc2_priv_step_at(search, at), without->way, &number) && number >= without->least &&
           number <= without->most;
}

// Internal: why the last step is wrong, if the others that aren't left out are right; else NULL. Writes the right reply.
static inline const char *mc2_priv_reason(struct mc2_priv_search *search, const struct mc2_priv_without *without, char *right) {
    const struct mc2_model *model = search->model;
    size_t at = 0, last = search->witness->count;
    uint64_t *left = &search->witness->left;
    void *state = model->open(search->object.numbers, search->object.count);
    const char *why = NULL;
    right[0] = 0;
    *left -= *left <= last ? *left : last + 1;
    while (state && at < last && (mc2_priv_is_out(search, without, at) || !model->step(state, mc2_priv_step_at(search, at))))
        at++;
    if (state && at == last) {
        if (model->says)
            model->says(state, &mc2_priv_step_at(search, last)->call, right, MC2_CUSTOM_RIGHT);
        why = model->step(state, mc2_priv_step_at(search, last));
    }
    if (state)
        model->close(state);
    return why;
}

// Internal: leaves these steps out for good if the last one is wrong for the same reason without them. Returns whether it did.
static inline bool mc2_priv_leave_out(struct mc2_priv_search *search, const struct mc2_priv_without *without) {
    struct mc2_custom_witness *witness = search->witness;
    char right[MC2_CUSTOM_RIGHT];
    const char *why = mc2_priv_reason(search, without, right);
    size_t kept = 0;
    if (!why || !mc2_priv_are_alike(why, search->reason) || (!witness->is_by_reason && !mc2_priv_are_alike(right, witness->right)))
        return false;
    for (size_t at = 0; at < witness->count; at++) {
        bool is_out = mc2_priv_is_out(search, without, at);
        witness->steps[kept] = witness->steps[at];
        kept += !is_out;
    }
    witness->steps[kept] = witness->steps[witness->count];
    witness->count = kept;
    return true;
}

// Internal: whether a kept step has a number from `least` on in that way; then the lowest and the highest of these numbers.
static inline bool mc2_priv_next_number(struct mc2_priv_search *search, unsigned way, uint64_t *least, uint64_t *highest) {
    uint64_t number = 0, from = *least;
    bool has_number = false;
    *least = UINT64_MAX;
    *highest = 0;
    for (size_t at = 0; at < search->witness->count; at++)
        if (mc2_priv_number(mc2_priv_step_at(search, at), way, &number) && number >= from) {
            *least = number < *least ? number : *least;
            *highest = number > *highest ? number : *highest;
            has_number = true;
        }
    return has_number;
}

// Internal: tries to leave out all steps with one number in that way, or with one of several, from the lowest on: twice as many
// numbers after a success, and half as many after a failure.
static inline void mc2_priv_thin_way(struct mc2_priv_search *search, unsigned way) {
    uint64_t least = 0, highest = 0, width = UINT64_MAX;
    bool has_more = true;
    while (has_more && search->witness->left > 0 && mc2_priv_next_number(search, way, &least, &highest)) {
        width = width < highest - least ? width : highest - least;
        struct mc2_priv_without without = {way, 0, 0, least, least + width};
        bool is_out = mc2_priv_leave_out(search, &without);
        has_more = is_out || width > 0 || least < UINT64_MAX;
        least += !is_out && width == 0;
        width = !is_out ? width / 2 : width < UINT64_MAX / 2 ? 2 * width + 1 : UINT64_MAX;
    }
}

// Internal: of more steps than these, pieces are left out whose sizes are halves of one another; else the most from each place on.
enum { MC2_PRIV_FEW = 1024 };

// Internal: tries to leave out each piece of that many steps, the oldest first, but not the last step. Returns whether some went.
static inline bool mc2_priv_thin(struct mc2_priv_search *search, size_t size) {
    const struct mc2_custom_witness *witness = search->witness;
    struct mc2_priv_without without = {MC2_PRIV_BY_PLACE, 0, 0, 0, 0};
    bool went = false;
    while (without.from + 1 < witness->count && witness->left > 0) {
        without.to = size < witness->count - 1 - without.from ? without.from + size : witness->count - 1;
        bool is_out = mc2_priv_leave_out(search, &without);
        went = went || is_out;
        without.from += is_out ? 0 : (size + 1) / 2;
    }
    return went;
}

// Internal: tries to leave out as many steps as possible from that place on, but not the last one. Returns whether some went.
static inline bool mc2_priv_thin_from(struct mc2_priv_search *search, size_t from) {
    struct mc2_priv_without without = {MC2_PRIV_BY_PLACE, from, search->witness->count - 1, 0, 0};
    bool is_out = false;
    for (; !is_out && without.to > from && search->witness->left > 0; without.to--)
        is_out = mc2_priv_leave_out(search, &without);
    return is_out;
}

// Internal: leaves out as many steps as possible. The oldest go first: of two steps that do the same, the later one stays.
static inline void mc2_priv_shorten(struct mc2_priv_search *search) {
    const struct mc2_custom_witness *witness = search->witness;
    bool went = true;
    for (unsigned way = MC2_PRIV_BY_CALL; way < MC2_PRIV_WAYS; way++)
        mc2_priv_thin_way(search, way);
    while (went && witness->left > 0) {
        went = false;
        for (size_t size = witness->count; size > 0 && witness->count > MC2_PRIV_FEW; size /= 2)
            went = mc2_priv_thin(search, size) || went;
        for (size_t from = 0; from + 1 < witness->count && witness->count <= MC2_PRIV_FEW; from++)
            went = mc2_priv_thin_from(search, from) || went;
    }
}

// Explains the wrong step that mc2_custom_judge reported, and finds a witness of it. Without any one of the kept steps but the last
// it would be no witness, unless the search ended early because `left` came to 0.
//   models, count, logs, report   as mc2_custom_judge got and wrote them
//   witness                       the caller sets `steps` and `left`
// Returns  why the step is wrong, in its model's words. NULL: the report isn't MC2_WRONG_STEP; the step is wrong only because it
//          follows a step that refused; no model in `models` has the object's kind; or the model has no memory.
// Context  Opens and closes the model many times. Takes no memory itself.
static inline const char *mc2_custom_find_witness(const uint8_t *text, size_t length, const struct mc2_model *models, size_t count,
                                                  const struct mc2_custom_logs *logs, const struct mc2_report *report,
                                                  struct mc2_custom_witness *witness) {
    struct mc2_priv_search search;
    struct mc2_priv_without nothing = {MC2_PRIV_BY_PLACE, 0, 0, 0, 0};
    if (report->kind != MC2_WRONG_STEP)
        return NULL;
    search.text = text;
    search.length = length;
    search.witness = witness;
    mc2_custom_line(text, length, (size_t)logs->object[report->first], &search.object);
    search.model = mc2_priv_model_of(&search.object, models, count);
    witness->count = (size_t)logs->right[report->first];
    size_t found = mc2_priv_places(&search, (size_t)logs->log[report->first], witness->steps, witness->count + 1);
    const struct mc2_custom_place *wrong = &witness->steps[witness->count];
    if (!search.model || found <= witness->count || wrong->event != report->second || wrong->step != report->third)
        return NULL;
    witness->is_by_reason = false;
    search.reason = mc2_priv_reason(&search, &nothing, witness->right);
    uint64_t half = witness->left / 2;
    witness->left -= half;
    if (search.reason)
        mc2_priv_shorten(&search);
    witness->left += half;
    witness->is_by_reason = search.reason && witness->count > MC2_CUSTOM_SHORT && witness->right[0];
    if (witness->is_by_reason)
        mc2_priv_shorten(&search);
    return search.reason;
}

#endif
