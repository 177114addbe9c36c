/* use: stack AUDIT MERGE LINE KERNEL FILE..

   Prints the most bytes of stack that mc2_custom_audit, mc2_custom_merge, mc2_custom_line and mc2_custom_kernel take to judge these
   records. They are called on a stack of their own that was filled before. None may take more than its number among the words.
   Each count is the number of steps of its log, so each log is judged to its end. Status: 0; 1 if one takes more; 3 if the
   system refuses something. */
#define _GNU_SOURCE
#include "mc2_custom.h"
#include "text.h"
#include <string.h>
#include <ucontext.h>

enum { STACK = 1 << 20, FILLED = 0xa5, EXPORTS = 4 };

static uint8_t stack[STACK] __attribute__((aligned(64)));
static ucontext_t back, there;
static struct mc2_custom_logs logs;
static struct mc2_entry_id *order;
static int export;

/* How many steps each log has. */
static void count_all(void) {
    struct mc2_custom_line line;
    mc2_priv_find_logs(text.bytes, text.length, &logs);
    for (size_t at = 0; at < logs.objects; at++) {
        logs.right[at] = 0;
        mc2_custom_line(text.bytes, text.length, (size_t)logs.log[at], &line);
        for (uint64_t left = line.kind == MC2_CUSTOM_LOG ? line.limit : 0; left > 0; left--) {
            mc2_custom_line(text.bytes, text.length, (size_t)line.next, &line);
            logs.right[at] += line.kind == MC2_CUSTOM_EVENT ? line.count : 0;
        }
    }
}

static void call(void) {
    struct mc2_report report;
    struct mc2_custom_line line;
    if (export == 0)
        mc2_custom_audit(text.bytes, text.length, logs.right, logs.objects, &report);
    if (export == 1)
        mc2_custom_merge(text.bytes, text.length, logs.right, logs.objects, order, text.length, &report);
    for (size_t at = 0; export == 2 && at < text.length; at = (size_t)line.next)
        mc2_custom_line(text.bytes, text.length, at, &line);
    for (size_t at = 0; export == 3 && at < logs.objects; at++)
        mc2_custom_kernel(text.bytes, text.length, (size_t)logs.object[at], (size_t)logs.log[at], &report);
}

/* The bytes of stack that the call of an export takes. */
static size_t taken(void) {
    size_t untouched = 0;
    memset(stack, FILLED, STACK);
    if (getcontext(&there) != 0)
        fail("getcontext");
    there.uc_stack.ss_sp = stack;
    there.uc_stack.ss_size = STACK;
    there.uc_link = &back;
    makecontext(&there, call, 0);
    swapcontext(&back, &there);
    while (untouched < STACK && stack[untouched] == FILLED)
        untouched++;
    return STACK - untouched;
}

int main(int count, char **words) {
    size_t most[EXPORTS] = {0}, bytes;
    bool is_more = count < 1 + EXPORTS;
    for (int at = 1 + EXPORTS; at < count; at++) {
        read_text(words[at]);
        order = malloc(text.length * sizeof *order + 1);
        if (!order)
            fail("memory");
        count_all();
        for (export = 0; export < EXPORTS; export++)
            most[export] = (bytes = taken()) > most[export] ? bytes : most[export];
        free(text.bytes);
        free(order);
    }
    for (int at = 0; at < EXPORTS; at++) {
        printf("%zu%s", most[at], at + 1 < EXPORTS ? " " : "\n");
        is_more = is_more || most[at] > strtoul(words[1 + at], NULL, 10);
    }
    return is_more;
}
