/* The calls of entries and the steps of events. Of a record 3 they are words with numbers; of a record 1 or 2 they are those of
   the four kinds, which are needed as values. */
#ifndef SECOND_JUDGE_STEPS_H
#define SECOND_JUDGE_STEPS_H

#include "record.h"

static inline struct name name_of(const struct record *r, struct span span) {
    uint8_t bytes[MC2_CUSTOM_LETTERS];
    if (!IS_CUSTOM || r->end - span.at >= MC2_CUSTOM_LETTERS)
        return name_at(span.at, span.length);
    memcpy(bytes, span.at, span.length);
    return name_at(bytes, span.length);
}

static bool is_refusing(const struct record *r, struct span reply) {
    struct name name = name_of(r, reply);
    uint32_t at = 0;
    while (at < r->refusing && !are_same(r->refuses[at], name))
        at++;
    return at < r->refusing;
}

/* The calls of an entry, each with its numbers. */
struct calls {
    uint32_t count;
    struct span each[MC2_CUSTOM_CALLS];
};

/* A step. Of a record 3 only the word of the reply is kept. */
struct step {
    struct span word;
    struct call call;
    struct reply reply;
};

struct steps {
    uint32_t count;
    struct step each[MC2_CUSTOM_CALLS];
};

static inline const uint8_t *read_call(const uint8_t *p, struct step *step) {
    return IS_CUSTOM ? read_term(p, &step->word) : kernel_call(p, &step->call);
}

/* A record 1 has no quotas, and so none of their replies. */
static inline const uint8_t *read_reply(const struct record *r, const uint8_t *p, struct step *step) {
    if (IS_CUSTOM)
        return read_term(p, &step->word);
    if (!p || !(p = kernel_reply(p, &step->reply)))
        return NULL;
    return step->reply.word == OVERQUOTA && r->form == 1 ? NULL : p;
}

static inline bool has_refused(const struct record *r, const struct step *step) {
    return IS_CUSTOM ? is_refusing(r, step->word) : reply_words[step->reply.word].of;
}

static inline const uint8_t *read_calls(const uint8_t *p, struct calls *all) {
    const uint8_t *more = p;
    struct step step;
    all->count = 0;
    do {
        const uint8_t *from = more;
        if (!(p = read_call(from, &step)))
            return NULL;
        all->each[all->count++] = (struct span){from, (uint32_t)(p - from)};
        more = mark(p, ';');
    } while (more && all->count < MC2_CUSTOM_CALLS);
    return p;
}

static inline const uint8_t *read_steps(const struct record *r, const uint8_t *p, struct steps *all) {
    const uint8_t *more = p;
    all->count = 0;
    do {
        struct step *step = &all->each[all->count++];
        p = read_reply(r, mark(read_call(more, step), '='), step);
        more = mark(p, ';');
    } while (more && all->count < MC2_CUSTOM_CALLS);
    return p;
}

#endif
