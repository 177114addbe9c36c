/* use: custom audit|merge|counts [FILE]

   Judges a record 3 by the models of models.h, as `mc2` judges a record 2, from a file or from standard input. After the verdict
   on a wrong step it prints why the step is wrong, in the model's words, and a few of the steps before it, after which it is
   wrong for the same reason. `merge` prints the entries of a sound record in one order, or a cycle of them. `counts` prints how
   many steps of each log its model calls right.

       gcc -std=c11 -O2 -Iinclude -o /tmp/custom examples/custom/custom.c .unproved/libjudge.a KIT/c/liblibc_c.a -pthread

   With -I. -DMC2_MODELS='"mine.h"' it judges by the models of mine.h, which must define an array `models` as models.h does.

   Status: 0; 1 if the record is unsound, or has a cycle; 2 for wrong words, if the text isn't a record, or if an object has no
   model; 3 if the file can't be read, or memory is refused. */
#include "mc2_custom_witness.h"
#include <inttypes.h>
#include <stdio.h>
#include <stdlib.h>
#include <string.h>
#ifndef MC2_MODELS
#define MC2_MODELS "models.h"
#endif
#include MC2_MODELS

enum { MODEL_COUNT = sizeof models / sizeof *models };

/* How many steps the search for a witness may ask the model about. */
#define MOST_ASKED 20000000u

static char *text;
static size_t length;
static struct mc2_custom_logs logs;

static const uint8_t *bytes(void) { return (const uint8_t *)text; }

static void fail(const char *what) {
    perror(what);
    exit(3);
}

static void *get(size_t count, size_t size) {
    void *memory = calloc(count + 1, size);
    if (!memory)
        fail("memory");
    return memory;
}

static void read_text(FILE *file) {
    size_t room = 1 << 16, got = 1;
    text = get(room, 1);
    while (file && got > 0) {
        got = fread(text + length, 1, room - length, file);
        length += got;
        text = length < room ? text : realloc(text, room *= 2);
        if (!text)
            fail("memory");
    }
    if (!file || ferror(file))
        fail("custom");
}

/* ---- What is printed */

static void put_line(uint64_t at) {
    while (at < length && text[at] != '\n')
        putchar(text[at++]);
    putchar('\n');
}

static void put_name(uint64_t object) {
    struct mc2_custom_line line;
    mc2_custom_line(bytes(), length, (size_t)logs.object[object], &line);
    printf("%.*s", MC2_CUSTOM_LETTERS, (const char *)line.name);
}

/* Prints the line of each event that has one of these steps. */
static void put_steps(const struct mc2_custom_place *steps, size_t count) {
    for (size_t at = 0; at < count; at++)
        if (at == 0 || steps[at].line != steps[at - 1].line) {
            printf("  event %" PRIu64 ": ", steps[at].event + 1);
            put_line(steps[at].line);
        }
}

/* Whether a model of models.h has the object's kind. */
static bool has_model(uint64_t object) {
    struct mc2_custom_line line;
    size_t at = 0;
    mc2_custom_line(bytes(), length, (size_t)logs.object[object], &line);
    while (at < MODEL_COUNT && strncmp(models[at].kind, (const char *)line.object_kind, MC2_CUSTOM_LETTERS) != 0)
        at++;
    return at < MODEL_COUNT;
}

/* Prints why the step is wrong. The library's model gives no reasons. */
static void put_reason(const struct mc2_report *report) {
    struct mc2_custom_place *steps = get((size_t)logs.right[report->first] + 1, sizeof *steps);
    struct mc2_custom_witness witness = {steps, 0, MOST_ASKED, "", false};
    const char *reason = mc2_custom_find_witness(bytes(), length, models, MODEL_COUNT, &logs, report, &witness);
    if (reason) {
        printf("%s:\n", reason);
        put_steps(steps, witness.count + 1);
        if (witness.right[0])
            printf("right would have been%s: %s\n", witness.is_by_reason ? ", after the whole log" : "", witness.right);
    } else if (has_model(report->first)) {
        puts("it follows a step that refused");
    }
    free(steps);
}

static void put_fault(const struct mc2_report *report) {
    static const char *const words[] = {"", "too long", "wrong step", "room was left", "not its event", "not what was asked",
                                        "unclaimed"};
    bool is_of_cpu = report->kind >= MC2_ROOM_WAS_LEFT && report->kind <= MC2_NOT_ASKED;
    printf("unsound: ");
    if (is_of_cpu) {
        printf("cpu %" PRIu64 " entry %" PRIu64, report->first, report->second + 1);
    } else {
        printf("log ");
        put_name(report->first);
    }
    if (report->kind == MC2_WRONG_STEP || report->kind == MC2_UNCLAIMED)
        printf(" event %" PRIu64, report->second + 1);
    if (report->kind == MC2_WRONG_STEP)
        printf(" step %" PRIu64, report->third + 1);
    printf(": %s\n", words[report->kind]);
}

static void refuse_object(uint64_t object) {
    struct mc2_custom_line line;
    mc2_custom_line(bytes(), length, (size_t)logs.object[object], &line);
    fprintf(stderr, "custom: object %" PRIu64 ", of kind %.*s: ", object + 1, MC2_CUSTOM_LETTERS, (const char *)line.object_kind);
    fputs(has_model(object) ? "its model refuses its numbers, or got no memory\n" : "there is no model of it with these numbers\n",
          stderr);
}

static int refuse(const struct mc2_report *report) {
    if (report->kind == MC2_BAD_LINE)
        fprintf(stderr, "custom: line %" PRIu64 ": this isn't a record\n", report->first);
    else if (report->kind == MC2_NO_MODEL)
        refuse_object(report->first);
    else
        fprintf(stderr, "custom: kind %u\n", (unsigned)report->kind);
    return report->kind == MC2_BAD_LINE || report->kind == MC2_NO_MODEL ? 2 : 3;
}

static int put_verdict(const struct mc2_report *report) {
    if (report->kind == MC2_SOUND)
        return puts("sound") < 0;
    if (report->kind > MC2_UNCLAIMED)
        return refuse(report);
    put_fault(report);
    if (report->kind == MC2_WRONG_STEP)
        put_reason(report);
    return 1;
}

static int put_order(const struct mc2_report *report, const struct mc2_entry_id *order) {
    if (report->kind == MC2_CYCLE)
        puts("cycle:");
    for (uint64_t at = 0; at < report->first; at++)
        printf("cpu %" PRIu64 " entry %" PRIu64 "\n", order[at].cpu, order[at].entry + 1);
    return report->kind == MC2_CYCLE;
}

static int put_counts(const struct mc2_report *report) {
    if (report->kind > MC2_UNCLAIMED)
        return refuse(report);
    for (size_t at = 0; at < logs.objects; at++)
        printf("%" PRIu64 "%c", logs.right[at], at + 1 < logs.objects ? ',' : '\n');
    return 0;
}

/* An entry has no shorter line than `a 0 a | a = a`. */
static size_t most_entries(void) { return length / 14; }

int main(int count, char **words) {
    struct mc2_report report;
    bool merges = count > 1 && strcmp(words[1], "merge") == 0;
    bool counts = count > 1 && strcmp(words[1], "counts") == 0;
    if (count < 2 || count > 3 || (!merges && !counts && strcmp(words[1], "audit") != 0)) {
        fputs("use: custom audit|merge|counts [FILE]\n", stderr);
        return 2;
    }
    read_text(count > 2 ? fopen(words[2], "rb") : stdin);
    struct mc2_entry_id *order = merges ? get(most_entries(), sizeof *order) : NULL;
    mc2_custom_judge(bytes(), length, models, MODEL_COUNT, &logs, order, merges ? most_entries() : 0, &report);
    bool has_order = merges && (report.kind == MC2_SOUND || report.kind == MC2_CYCLE);
    int status = counts ? put_counts(&report) : has_order ? put_order(&report, order) : put_verdict(&report);
    free(order);
    free(text);
    return status;
}
