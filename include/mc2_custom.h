// mc2_custom.h - judges records of objects of your own, by models that you write, for C11 and C++17. docs/FORMATS.md has the form
// of these records (records 3); mc2_judge.h says how to link the library, and has the verdicts.
//
// The library knows what a record is, and which CPU did what, in which order. It doesn't know your objects. For each kind of them
// you write a *model* (struct mc2_model), which says of each step whether it is right. mc2_custom_judge asks the models about each
// log, from its first step on, and passes on one number per object: how many steps are right. The library never calls a model.
//
//     struct mc2_model models[] = {{"counter", open_counter, step_counter, close_counter, NULL}};
//     static struct mc2_custom_logs logs;
//     mc2_custom_judge(text, length, models, 1, &logs, NULL, 0, &report);
//
// See also  mc2_custom_witness.h: explains a wrong step. mc2_custom_note.h: writes these records. examples/custom: models.
//
// CALLER OBLIGATIONS (not checked)
//
//   1. `text` points to `length` bytes, `right` to `objects` numbers, `models` to `count` models, `order` to `capacity` places, and
//      each other pointer to one struct. During the call no other thread writes `text`, `right` and `models`, or touches the rest.
//   2. None of them overlaps another: no byte of one is a byte of another.
//   3. No pointer is NULL, even if its size is 0, unless its comment allows it. All but `text` are aligned to 8 bytes, as in C.
//   4. All that a pointer points to has at most PTRDIFF_MAX bytes, as each array in C. `at`, `object` and `log` may be any numbers.
//   5. A model keeps to what struct mc2_model says.
//
// WHAT IS PROVED
//
//   The four functions of the library, by the contracts of crates/judge/README.md. Suppose that `right` has the counts of a model:
//   the first right[x] steps of log x are right by it, each after those before it, and the next one, if there is one, isn't. Then
//   - mc2_custom_audit reports that the record is sound if and only if it is sound by that model, and otherwise its first fault;
//   - mc2_custom_merge also reports an order of a sound record, or a cycle that excludes an order.
//   Both hold for every model. mc2_custom_line reports exactly what the line is. The counts of mc2_custom_kernel are those of the
//   library's own model, of the kinds of objects that mc2 has.
//
//   Not proved: the inline functions here. So it isn't proved that your counts are your model's: a count that is too small makes a
//   log unsound, and one that is too large may hide a wrong step.
//
// CONTEXT
//
//   Any number of threads may call the functions at the same time, if the models allow it: nothing is kept between two calls. All
//   but mc2_custom_line and mc2_custom_is use the heap. Otherwise they don't block, unless a model does.
//   - Memory, at most: mc2_custom_audit and mc2_custom_merge 4 bytes for each byte of the text, 8 for each count and 1,300,000
//     more; mc2_custom_kernel 300,000. All of it is freed before the call returns. For large records it was less than the text.
//   - Bytes of stack in the proved library, at most (unproved ones take more):
//     mc2_custom_audit 12,288, mc2_custom_merge 12,288, mc2_custom_line 6,144, mc2_custom_kernel 7,168.
//   These figures aren't proved; tests/c/judge checks calls against them.
#ifndef MC2_CUSTOM_H
#define MC2_CUSTOM_H

#include "mc2_judge.h"

#ifdef __cplusplus
extern "C" {
#endif

// The limits of a record 3: CPUs, objects, calls of an event, numbers after a word, numbers of an object, words that refuse, and
// letters of a word. A log has at most 4,294,967,295 events, and a transcript as many entries.
enum { MC2_CUSTOM_CPUS = 256, MC2_CUSTOM_OBJECTS = 256, MC2_CUSTOM_CALLS = 8, MC2_CUSTOM_NUMBERS = 6, MC2_CUSTOM_SIZES = 32 };
enum { MC2_CUSTOM_REFUSING = 32, MC2_CUSTOM_LETTERS = 16 };

// The kinds of reports other than enum mc2_verdict.
enum {
    // From mc2_custom_judge: the text is a record, but no model has the object's kind, or its model refused the object's numbers or
    // had no memory: the object. From mc2_custom_kernel: no line of an object of mc2's kinds begins there, or no head of a log.
    MC2_NO_MODEL = 12,
    MC2_CUSTOM_COUNTED = 13 // from mc2_custom_kernel: the number of right steps
};

enum mc2_custom_line_kind {
    MC2_CUSTOM_NONE = 0,   // no line begins there, or it has no end
    MC2_CUSTOM_OBJECT = 1, // object NAME LOCK EVENTS KIND NUMBERS
    MC2_CUSTOM_LOG = 2,    // log NAME K
    MC2_CUSTOM_EVENT = 3,  // CPU CALL = REPLY ; CALL = REPLY
    MC2_CUSTOM_OTHER = 4   // any other line
};

// A call or a reply: a word, with zeros after it if it has fewer than 16 letters, and `count` numbers.
struct mc2_custom_term {
    uint8_t word[16];
    uint64_t numbers[6];
    uint64_t count;
};

// A call, and the reply to it.
struct mc2_custom_step {
    struct mc2_custom_term call, reply;
};

// A line. Each field is written for the kinds of lines that its comment names, and otherwise unchanged.
struct mc2_custom_line {
    uint32_t kind;                   // always: one of mc2_custom_line_kind
    uint32_t cpu;                    // event: the CPU
    uint64_t next;                   // all kinds but MC2_CUSTOM_NONE: where the next line begins, if there is one
    uint64_t limit;                  // object: EVENTS, the most events of its log; log: K, the number of its event lines
    uint64_t count;                  // object: how many numbers it has; event: how many steps
    uint8_t name[16];                // object and log: the name, with zeros after it
    uint8_t object_kind[16];         // object: the kind, with zeros after it
    uint64_t numbers[32];            // object: its numbers
    struct mc2_custom_step steps[8]; // event: its steps
};

// Reads the line that begins at byte `at`. The rest of the text doesn't matter, and needn't be a record.
void mc2_custom_line(const uint8_t *text, size_t length, size_t at, struct mc2_custom_line *line);

// Counts how many steps of a log, from the first on, are right for an object of mc2's kinds: queue, pool, console, sched.
//   object, log   the bytes where the object's line and the head of its log begin
// Returns  in `report`: MC2_CUSTOM_COUNTED; MC2_NO_MODEL; MC2_OUT_OF_MEMORY.
void mc2_custom_kernel(const uint8_t *text, size_t length, size_t object, size_t log, struct mc2_report *report);

// Judges a record, given how many steps of each log are right. The next step of a log, if there is one, is then wrong.
// Returns  in `report`: as mc2_audit; MC2_WRONG_COUNTS.
void mc2_custom_audit(const uint8_t *text, size_t length, const uint64_t *right, size_t objects, struct mc2_report *report);

// The same, and puts the entries of a sound record in one order, as mc2_merge does.
// Returns  in `report`: as mc2_merge; MC2_WRONG_COUNTS.
void mc2_custom_merge(const uint8_t *text, size_t length, const uint64_t *right, size_t objects, struct mc2_entry_id *order,
                      size_t capacity, struct mc2_report *report);

#ifdef __cplusplus
}
#endif

// A model of one kind of object: a state that gets each call with its reply, and says whether the object may have replied so. It
// may allow several replies, or none. A right step leads to the next state.
//
// The model must depend on nothing but the numbers that it was opened with and the steps that it got since. If call and reply don't
// determine the next state, keep all states that are possible, and call a step wrong that leaves none. The model doesn't get the
// CPU: if it matters which CPU called, for example which one releases a lock, make the CPU a number of the call.
struct mc2_model {
    const char *kind; // the word that a record has for this kind of object
    // Returns the state before the first event, or NULL: no object has these numbers, or there is no memory.
    void *(*open)(const uint64_t *numbers, uint64_t count);
    // Returns NULL if the step is right, and otherwise why it isn't, in a few words. After a wrong step the model is closed.
    const char *(*step)(void *state, const struct mc2_custom_step *step);
    void (*close)(void *state);
    // Prints a right reply to the call into `out`, which has `room` bytes with the final 0. May be NULL.
    void (*says)(void *state, const struct mc2_custom_term *call, char *out, size_t room);
};

// Internal: whether that is the word.
static inline bool mc2_priv_is_word(const uint8_t *padded, const char *word) {
    size_t same = 0;
    while (same < MC2_CUSTOM_LETTERS && word[same] && padded[same] == (uint8_t)word[same])
        same++;
    return !word[same] && (same == MC2_CUSTOM_LETTERS || !padded[same]);
}

// Returns whether a call or a reply has this word and this many numbers.
static inline bool mc2_custom_is(const struct mc2_custom_term *term, const char *word, uint64_t numbers) {
    return term->count == numbers && mc2_priv_is_word(term->word, word);
}

// For each object: the bytes where its line and the head of its log begin, and how many steps of the log are right.
struct mc2_custom_logs {
    size_t objects;
    uint64_t object[MC2_CUSTOM_OBJECTS], log[MC2_CUSTOM_OBJECTS], right[MC2_CUSTOM_OBJECTS];
};

// Internal: the byte where the line begins that is this many lines further on.
static inline size_t mc2_priv_skip_lines(const uint8_t *text, size_t length, size_t at, uint64_t lines) {
    while (lines > 0 && at < length)
        lines -= text[at++] == '\n';
    return at;
}

// Internal: finds the lines of objects and of their logs; only some if the text isn't a record, which the library then refuses.
static inline void mc2_priv_find_logs(const uint8_t *text, size_t length, struct mc2_custom_logs *logs) {
    struct mc2_custom_line line;
    size_t at = 0, found = 0;
    logs->objects = 0;
    mc2_custom_line(text, length, at, &line);
    while (line.kind != MC2_CUSTOM_NONE && (found == 0 || line.kind == MC2_CUSTOM_LOG)) {
        if (line.kind == MC2_CUSTOM_OBJECT && logs->objects < MC2_CUSTOM_OBJECTS) {
            logs->log[logs->objects] = length;
            logs->object[logs->objects++] = at;
        }
        if (line.kind == MC2_CUSTOM_LOG && found < logs->objects)
            logs->log[found] = at;
        found += line.kind == MC2_CUSTOM_LOG;
        at = mc2_priv_skip_lines(text, length, (size_t)line.next, line.kind == MC2_CUSTOM_LOG ? line.limit : 0);
        mc2_custom_line(text, length, at, &line);
    }
}

// Internal: the model of the object that has this line, or NULL.
static inline const struct mc2_model *mc2_priv_model_of(const struct mc2_custom_line *object, const struct mc2_model *models,
                                                        size_t count) {
    size_t at = 0;
    while (at < count && !mc2_priv_is_word(object->object_kind, models[at].kind))
        at++;
    return at < count ? &models[at] : NULL;
}

// Internal: how many steps of the log are right, from the first on.
static inline uint64_t mc2_priv_count_steps(const uint8_t *text, size_t length, size_t log, const struct mc2_model *model,
                                            void *state) {
    struct mc2_custom_line line;
    uint64_t right = 0;
    mc2_custom_line(text, length, log, &line);
    bool is_right = line.kind == MC2_CUSTOM_LOG;
    while (is_right) {
        mc2_custom_line(text, length, (size_t)line.next, &line);
        is_right = line.kind == MC2_CUSTOM_EVENT;
        for (uint64_t at = 0; is_right && at < line.count; at++) {
            is_right = !model->step(state, &line.steps[at]);
            right += is_right;
        }
    }
    return right;
}

// Internal: counts the right steps of an object's log by its model, or else by the library's. Returns whether there is a model.
static inline bool mc2_priv_ask(const uint8_t *text, size_t length, const struct mc2_model *models, size_t count,
                                struct mc2_custom_logs *logs, size_t object) {
    struct mc2_custom_line line;
    struct mc2_report report;
    mc2_custom_line(text, length, (size_t)logs->object[object], &line);
    const struct mc2_model *model = mc2_priv_model_of(&line, models, count);
    if (!model) {
        mc2_custom_kernel(text, length, (size_t)logs->object[object], (size_t)logs->log[object], &report);
        logs->right[object] = report.kind == MC2_CUSTOM_COUNTED ? report.first : 0;
        return report.kind == MC2_CUSTOM_COUNTED;
    }
    void *state = model->open(line.numbers, line.count);
    logs->right[object] = state ? mc2_priv_count_steps(text, length, (size_t)logs->log[object], model, state) : 0;
    if (state)
        model->close(state);
    return state != NULL;
}

// Internal: counts the right steps of each log in turn. Returns the first object without a model, or the number of objects.
static inline size_t mc2_priv_ask_all(const uint8_t *text, size_t length, const struct mc2_model *models, size_t count,
                                      struct mc2_custom_logs *logs) {
    size_t object = 0;
    mc2_priv_find_logs(text, length, logs);
    while (object < logs->objects && mc2_priv_ask(text, length, models, count, logs, object))
        object++;
    return object;
}

// Judges a record by `count` models, and by the library's for objects of the kinds that mc2 has, unless a model has that kind.
//   logs              out: the objects, and the counts of right steps that the verdict rests on
//   order, capacity   receive the order or the cycle, as in mc2_merge. `order` may be NULL: then none is made.
// Returns  in `report`: as mc2_audit, and with `order` as mc2_merge; MC2_NO_MODEL.
static inline void mc2_custom_judge(const uint8_t *text, size_t length, const struct mc2_model *models, size_t count,
                                    struct mc2_custom_logs *logs, struct mc2_entry_id *order, size_t capacity,
                                    struct mc2_report *report) {
    size_t with_model = mc2_priv_ask_all(text, length, models, count, logs);
    if (order && with_model == logs->objects)
        mc2_custom_merge(text, length, logs->right, logs->objects, order, capacity, report);
    else
        mc2_custom_audit(text, length, logs->right, with_model, report);
    if (with_model < logs->objects && report->kind != MC2_BAD_LINE && report->kind != MC2_OUT_OF_MEMORY) {
        report->kind = MC2_NO_MODEL;
        report->first = with_model;
        report->second = report->third = 0;
    }
}

// Internal: the layouts, as in mc2_judge.h.
MC2_PRIV_LAYOUT(mc2_custom_term, 72, MC2_PRIV_AT(0, mc2_custom_term, word) && MC2_PRIV_AT(16, mc2_custom_term, numbers) &&
                MC2_PRIV_AT(64, mc2_custom_term, count));
MC2_PRIV_LAYOUT(mc2_custom_step, 144, MC2_PRIV_AT(0, mc2_custom_step, call) && MC2_PRIV_AT(72, mc2_custom_step, reply));
MC2_PRIV_LAYOUT(mc2_custom_line, 1472, MC2_PRIV_AT(0, mc2_custom_line, kind) && MC2_PRIV_AT(4, mc2_custom_line, cpu) &&
                MC2_PRIV_AT(8, mc2_custom_line, next) && MC2_PRIV_AT(16, mc2_custom_line, limit) &&
                MC2_PRIV_AT(24, mc2_custom_line, count) && MC2_PRIV_AT(32, mc2_custom_line, name) &&
                MC2_PRIV_AT(48, mc2_custom_line, object_kind) && MC2_PRIV_AT(64, mc2_custom_line, numbers) &&
                MC2_PRIV_AT(320, mc2_custom_line, steps));

#endif
