/* use: judged < CASES

   Judges texts by the functions of mc2_custom.h, for CTest. Each case is, as numbers of 64 bits, the length of a text, the number
   of counts and the number of places for an order; then the counts, and the text. For each case it prints a line: the kind and the
   numbers of the report of mc2_custom_audit, and of mc2_custom_merge, the places that mc2_custom_merge wrote, and a digest of what
   mc2_custom_line writes for each line, at its beginning and one byte further on.

   The text ends at the beginning of a page that can't be read, and nothing may be written after the places. The status is 0; 1 at
   the first answer that is impossible; 3 if the system refuses something. */
#define _DEFAULT_SOURCE
#include "mc2_custom.h"
#include <stdio.h>
#include <stdlib.h>
#include <string.h>
#include <sys/mman.h>

enum { PAGE = 4096, MOST_TEXT = 1 << 16, MOST_PLACES = 128, UNTOUCHED = 0xa5 };

static uint8_t *text_end;
static struct mc2_entry_id order[MOST_PLACES + 1];
static uint64_t counts[2 * MC2_CUSTOM_OBJECTS];

static void fail(const char *what, int status) {
    fprintf(stderr, "judged: %s\n", what);
    exit(status);
}

static bool get(void *to, size_t bytes) { return fread(to, 1, bytes, stdin) == bytes; }

/* The memory of the text, with a page after it that can't be read. */
static void open_text(void) {
    uint8_t *memory = mmap(NULL, MOST_TEXT + PAGE, PROT_READ | PROT_WRITE, MAP_PRIVATE | MAP_ANONYMOUS, -1, 0);
    if (memory == MAP_FAILED || mprotect(memory + MOST_TEXT, PAGE, PROT_NONE) != 0)
        fail("memory", 3);
    text_end = memory + MOST_TEXT;
}

/* ---- The digest */

static void add(uint64_t *digest, uint64_t number) { *digest = (*digest ^ number) * 0x100000001b3u + (*digest >> 29); }

static void add_word(uint64_t *digest, const uint8_t *word) {
    for (size_t at = 0; at < MC2_CUSTOM_LETTERS; at++)
        add(digest, word[at]);
}

static void add_numbers(uint64_t *digest, const uint64_t *numbers, uint64_t count) {
    for (uint64_t at = 0; at < count; at++)
        add(digest, numbers[at]);
}

static void add_term(uint64_t *digest, const struct mc2_custom_term *term) {
    add_word(digest, term->word);
    add(digest, term->count);
    add_numbers(digest, term->numbers, term->count);
}

static void add_event(uint64_t *digest, const struct mc2_custom_line *line) {
    add(digest, line->cpu);
    add(digest, line->count);
    for (uint64_t at = 0; at < line->count; at++) {
        add_term(digest, &line->steps[at].call);
        add_term(digest, &line->steps[at].reply);
    }
}

static void add_object(uint64_t *digest, const struct mc2_custom_line *line) {
    add_word(digest, line->object_kind);
    add(digest, line->count);
    add_numbers(digest, line->numbers, line->count);
}

/* Adds the fields that are written for the line at that byte. */
static void add_line(uint64_t *digest, const uint8_t *text, size_t length, size_t at) {
    struct mc2_custom_line line;
    memset(&line, UNTOUCHED, sizeof line);
    mc2_custom_line(text, length, at, &line);
    add(digest, line.kind);
    if (line.kind != MC2_CUSTOM_NONE)
        add(digest, line.next);
    if (line.kind == MC2_CUSTOM_OBJECT || line.kind == MC2_CUSTOM_LOG) {
        add_word(digest, line.name);
        add(digest, line.limit);
    }
    if (line.kind == MC2_CUSTOM_OBJECT)
        add_object(digest, &line);
    if (line.kind == MC2_CUSTOM_EVENT)
        add_event(digest, &line);
}

static uint64_t digest_of(const uint8_t *text, size_t length) {
    uint64_t digest = 0xcbf29ce484222325u;
    add_line(&digest, text, length, SIZE_MAX);
    add_line(&digest, text, length, length);
    for (size_t at = 0; at < length; at++)
        if (at == 0 || text[at - 1] == '\n') {
            add_line(&digest, text, length, at);
            add_line(&digest, text, length, at + 1);
        }
    return digest;
}

/* ---- The cases */

static void put(const struct mc2_report *report) {
    printf("%u %llu %llu %llu|", (unsigned)report->kind, (unsigned long long)report->first, (unsigned long long)report->second,
           (unsigned long long)report->third);
}

static void put_places(size_t count) {
    for (size_t at = 0; at < count; at++)
        printf("%llu.%llu ", (unsigned long long)order[at].cpu, (unsigned long long)order[at].entry);
}

static void check_untouched(size_t from) {
    const uint8_t *bytes = (const uint8_t *)(order + from);
    for (size_t at = 0; at < sizeof order - from * sizeof *order; at++)
        if (bytes[at] != UNTOUCHED)
            fail("it wrote after the places that it reported", 1);
}

static void judge(const uint8_t *text, size_t length, size_t objects, size_t capacity) {
    struct mc2_report report;
    memset(order, UNTOUCHED, sizeof order);
    memset(&report, UNTOUCHED, sizeof report);
    mc2_custom_audit(text, length, counts, objects, &report);
    put(&report);
    memset(&report, UNTOUCHED, sizeof report);
    mc2_custom_merge(text, length, counts, objects, order, capacity, &report);
    put(&report);
    size_t written = report.kind == MC2_SOUND || report.kind == MC2_CYCLE ? (size_t)report.first : 0;
    if (written > capacity)
        fail("it reported more places than there are", 1);
    check_untouched(written);
    put_places(written);
    printf("|%016llx\n", (unsigned long long)digest_of(text, length));
}

int main(void) {
    uint64_t sizes[3];
    open_text();
    while (get(sizes, sizeof sizes)) {
        if (sizes[0] > MOST_TEXT || sizes[1] > sizeof counts / sizeof *counts || sizes[2] > MOST_PLACES)
            fail("a case is too large", 1);
        uint8_t *text = text_end - sizes[0];
        if (!get(counts, sizes[1] * sizeof *counts) || !get(text, sizes[0]))
            fail("a case is cut", 1);
        judge(text, sizes[0], sizes[1], sizes[2]);
    }
    return fflush(stdout) != 0;
}
