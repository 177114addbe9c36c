/* Words and numbers, and the lines that all records have. Each reader gets the place where something begins, and returns where it
   ends, or NULL. The text ends with a line end, and only end_of passes one, so no reader looks for the end of the text. */
#ifndef SECOND_JUDGE_TEXT_H
#define SECOND_JUDGE_TEXT_H

#include "mc2_custom.h"
#include <string.h>

enum { DIGIT = 1, LETTER = 2, MOST_DIGITS = 20 };

/* A word, with zeros after it. */
struct name {
    uint64_t low, high;
};

static inline bool are_same(struct name one, struct name other) { return one.low == other.low && one.high == other.high; }

/* The first bytes of 16, with zeros after them. */
static inline struct name name_at(const uint8_t *p, uint32_t length) {
    static const uint8_t ones[2 * MC2_CUSTOM_LETTERS] = {255, 255, 255, 255, 255, 255, 255, 255,
                                                      255, 255, 255, 255, 255, 255, 255, 255};
    struct name name, mask;
    memcpy(&name, p, sizeof name);
    memcpy(&mask, ones + MC2_CUSTOM_LETTERS - length, sizeof mask);
    return (struct name){name.low & mask.low, name.high & mask.high};
}

struct span {
    const uint8_t *at;
    uint32_t length;
};

static const uint8_t sorts[256] = {
    ['0'] = DIGIT,  ['1'] = DIGIT,  ['2'] = DIGIT,  ['3'] = DIGIT,  ['4'] = DIGIT,  ['5'] = DIGIT,  ['6'] = DIGIT,
    ['7'] = DIGIT,  ['8'] = DIGIT,  ['9'] = DIGIT,  ['a'] = LETTER, ['b'] = LETTER, ['c'] = LETTER, ['d'] = LETTER,
    ['e'] = LETTER, ['f'] = LETTER, ['g'] = LETTER, ['h'] = LETTER, ['i'] = LETTER, ['j'] = LETTER, ['k'] = LETTER,
    ['l'] = LETTER, ['m'] = LETTER, ['n'] = LETTER, ['o'] = LETTER, ['p'] = LETTER, ['q'] = LETTER, ['r'] = LETTER,
    ['s'] = LETTER, ['t'] = LETTER, ['u'] = LETTER, ['v'] = LETTER, ['w'] = LETTER, ['x'] = LETTER, ['y'] = LETTER,
    ['z'] = LETTER};

/* Exactly these bytes. */
static inline const uint8_t *exactly(const uint8_t *p, const char *bytes) {
    while (*bytes && *p == (uint8_t)*bytes)
        p++, bytes++;
    return *bytes ? NULL : p;
}

/* All readers below accept NULL, from a reader that failed, and then return NULL. */
static inline const uint8_t *space(const uint8_t *p) { return p && *p == ' ' ? p + 1 : NULL; }

/* One of `=`, `;` and `|` between spaces. */
static inline const uint8_t *mark(const uint8_t *p, char which) {
    return p && p[0] == ' ' && p[1] == (uint8_t)which && p[2] == ' ' ? p + 3 : NULL;
}

static inline const uint8_t *end_of(const uint8_t *p) { return p && *p == '\n' ? p + 1 : NULL; }

static inline const uint8_t *word(const uint8_t *p, struct span *span) {
    const uint8_t *from = p;
    if (!p || sorts[*p] != LETTER)
        return NULL;
    while (sorts[*p])
        p++;
    span->at = from;
    span->length = (uint32_t)(p - from);
    return p - from <= MC2_CUSTOM_LETTERS ? p : NULL;
}

/* A number of 64 bits in its one spelling, whose value isn't needed. */
static inline const uint8_t *digits(const uint8_t *p) {
    const uint8_t *from = p;
    if (!p || sorts[*p] != DIGIT || (*p == '0' && sorts[p[1]] == DIGIT))
        return NULL;
    while (sorts[*p] == DIGIT)
        p++;
    if (p - from < MOST_DIGITS)
        return p;
    return p - from == MOST_DIGITS && memcmp(from, "18446744073709551615", MOST_DIGITS) <= 0 ? p : NULL;
}

static inline const uint8_t *number(const uint8_t *p, uint64_t least, uint64_t most, uint64_t *value) {
    const uint8_t *from = p;
    uint64_t sum = 0;
    if (!p)
        return NULL;
    for (uint8_t digit; (digit = (uint8_t)(*p - '0')) < 10; p++)
        sum = sum * 10 + digit;
    *value = sum;
    if (p - from >= MOST_DIGITS)
        p = digits(from);
    return p != from && (*from != '0' || p - from == 1) && sum >= least && sum <= most ? p : NULL;
}

/* Numbers after spaces. */
static inline const uint8_t *numbers(const uint8_t *p, uint32_t most, uint64_t *count, uint64_t *values) {
    *count = 0;
    while (p && *p == ' ' && sorts[p[1]] == DIGIT)
        p = *count < most ? number(p + 1, 0, UINT64_MAX, &values[(*count)++]) : NULL;
    return p;
}

/* A call or a reply of a record 3: a word and its numbers, whose values aren't needed. */
static inline const uint8_t *read_term(const uint8_t *p, struct span *span) {
    uint32_t count = 0;
    p = word(p, span);
    while (p && *p == ' ' && sorts[p[1]] == DIGIT)
        p = count++ < MC2_CUSTOM_NUMBERS ? digits(p + 1) : NULL;
    return p;
}

/* ---- With values. */

/* Writes the word, with zeros after it. */
static inline void put_word(struct span span, uint8_t *padded) {
    memset(padded, 0, MC2_CUSTOM_LETTERS);
    for (uint32_t at = 0; at < span.length; at++)
        padded[at] = span.at[at];
}

static inline const uint8_t *word_in(const uint8_t *p, uint8_t *padded) {
    struct span span = {p, 0};
    p = word(p, &span);
    if (p)
        put_word(span, padded);
    return p;
}

static inline bool object_in(const uint8_t *p, struct mc2_custom_line *line, uint8_t *lock) {
    p = space(word_in(exactly(p, "object "), line->name));
    p = number(space(word_in(p, lock)), 1, UINT32_MAX, &line->limit);
    p = word_in(space(p), line->object_kind);
    return end_of(numbers(p, MC2_CUSTOM_SIZES, &line->count, line->numbers)) != NULL;
}

static inline bool log_in(const uint8_t *p, struct mc2_custom_line *line) {
    p = word_in(exactly(p, "log "), line->name);
    return end_of(number(space(p), 0, UINT32_MAX, &line->limit)) != NULL;
}

#endif
