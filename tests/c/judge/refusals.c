/* use: refusals each|none FILE..

   Judges the record of each file by libjudge.a with a heap that counts; a record 3 with the counts of the models of examples/custom.
   With `each`, each block is refused in turn: then the report is MC2_OUT_OF_MEMORY, the places are unchanged, and no block is
   lost. And a merge gets too few places, and just enough. No call takes more memory than include/mc2_judge.h says, or
   include/mc2_custom.h for a record 3. Prints how many files and blocks there were, and of the largest text its bytes and the most
   that were allocated at any time; and the most above 4 for each byte of the text, of records 1 and 2, and of records 3.

   Status: 0; 1 at the first answer that is impossible, which a line on standard error names; 2 for wrong words; 3 if a file can't
   be read, or the system refuses memory. */
#include "../../../examples/custom/models.h"
#include "mc2_judge.h"
#include "text.h"
#include <string.h>

enum { MOST_PLACES = 640000, AFTER = 3, UNTOUCHED = 0xa5 };
/* The most bytes that a call takes for each byte of the text, and how many more: of records 1 and 2, and of records 3. */
enum { MOST_OF_A_BYTE = 4 };
static const size_t most_more[2] = {1100000, 1300000};
/* What mc2_custom_kernel takes. */
enum { MOST_OF_KERNEL = 300000 };

/* ---- The heap, which refuses one block */

struct allocation {
    bool is_given;
    void *at;
};

/* A block's head. */
struct block {
    size_t size, unused;
};

static struct {
    size_t asked, refused, blocks, bytes, most;
} heap;

struct allocation rattle_alloc(size_t size, size_t align);
struct allocation rattle_realloc(void *old, size_t kept, size_t size, size_t align);
void rattle_dealloc(void *at);

struct allocation rattle_alloc(size_t size, size_t align) {
    static size_t nowhere;
    if (++heap.asked == heap.refused)
        return (struct allocation){false, &nowhere};
    size = size > 0 ? size : align;
    struct block *block = malloc(sizeof *block + size);
    if (!block)
        fail("memory");
    block->size = size;
    heap.blocks++;
    heap.bytes += size;
    heap.most = heap.bytes > heap.most ? heap.bytes : heap.most;
    return (struct allocation){true, block + 1};
}

void rattle_dealloc(void *at) {
    struct block *block = (struct block *)at - 1;
    heap.blocks--;
    heap.bytes -= block->size;
    free(block);
}

struct allocation rattle_realloc(void *old, size_t kept, size_t size, size_t align) {
    struct allocation it = rattle_alloc(size, align);
    if (it.is_given) {
        memcpy(it.at, old, kept);
        rattle_dealloc(old);
    }
    return it;
}

/* ---- The calls */

static struct mc2_custom_logs logs;
static bool is_custom;

/* A call, with `capacity` places and some after them, and its report. */
struct call {
    bool merges;
    size_t capacity;
    struct mc2_entry_id *order;
    struct mc2_report report;
};

#define CHECK(what) check(what, #what, __LINE__)

static void check(bool is_so, const char *what, int line) {
    if (!is_so) {
        fprintf(stderr, "refusals.c:%d: not so of %s: %s\n", line, text.name, what);
        exit(1);
    }
}

static void open_call(struct call *call, bool merges, size_t capacity) {
    *call = (struct call){merges, capacity, malloc((capacity + AFTER) * sizeof *call->order), {0, 0, 0, 0}};
    if (!call->order)
        fail("memory");
}

/* Judges the text, where the block of that number is refused, or none. */
static void judge(struct call *call, size_t refused) {
    memset(call->order, UNTOUCHED, (call->capacity + AFTER) * sizeof *call->order);
    memset(&call->report, UNTOUCHED, sizeof call->report);
    heap.asked = 0;
    heap.refused = refused;
    if (is_custom && call->merges)
        mc2_custom_merge(text.bytes, text.length, logs.right, logs.objects, call->order, call->capacity, &call->report);
    else if (is_custom)
        mc2_custom_audit(text.bytes, text.length, logs.right, logs.objects, &call->report);
    else if (call->merges)
        mc2_merge(text.bytes, text.length, call->order, call->capacity, &call->report);
    else
        mc2_audit(text.bytes, text.length, &call->report);
    CHECK(heap.blocks == 0 && heap.bytes == 0);
}

static bool are_untouched(const struct mc2_entry_id *places, size_t count) {
    const uint8_t *bytes = (const uint8_t *)places;
    size_t at = 0;
    while (at < count * sizeof *places && bytes[at] == UNTOUCHED)
        at++;
    return at == count * sizeof *places;
}

static bool is_report(const struct mc2_report *report, uint32_t kind, uint64_t first) {
    return report->kind == kind && report->first == first && report->second == 0 && report->third == 0;
}

static bool has_places(const struct mc2_report *report) { return report->kind == MC2_SOUND || report->kind == MC2_CYCLE; }

/* Refuses each block of a call in turn, or none, and returns how many there are. */
static size_t check_memory(bool merges, bool refuses) {
    struct call call;
    open_call(&call, merges, merges ? MOST_PLACES : 0);
    judge(&call, 0);
    CHECK(call.report.kind != MC2_OUT_OF_MEMORY && call.report.kind != MC2_NO_ROOM);
    size_t blocks = heap.asked, written = merges && has_places(&call.report) ? call.report.first : 0;
    CHECK(are_untouched(call.order + written, call.capacity + AFTER - written));
    call.capacity = written < 100 ? written : 100;
    for (size_t at = 1; refuses && at <= blocks; at++) {
        judge(&call, at);
        CHECK(is_report(&call.report, MC2_OUT_OF_MEMORY, 0) && are_untouched(call.order, call.capacity + AFTER));
    }
    free(call.order);
    return blocks;
}

/* Merges with that many places. `whole` had enough. */
static void check_places(const struct call *whole, size_t capacity) {
    struct call call;
    size_t needed = whole->report.first;
    open_call(&call, true, capacity);
    judge(&call, 0);
    if (capacity < needed) {
        CHECK(is_report(&call.report, MC2_NO_ROOM, needed) && are_untouched(call.order, capacity + AFTER));
    } else {
        CHECK(is_report(&call.report, whole->report.kind, needed) && are_untouched(call.order + needed, capacity + AFTER - needed));
        CHECK(memcmp(call.order, whole->order, needed * sizeof *call.order) == 0);
    }
    free(call.order);
}

static void check_capacity(void) {
    struct call whole;
    open_call(&whole, true, MOST_PLACES);
    judge(&whole, 0);
    size_t needed = whole.report.first;
    for (size_t capacity = 0; has_places(&whole.report) && capacity <= needed + 1; capacity++)
        if (capacity < 3 || capacity + 3 > needed)
            check_places(&whole, capacity);
    free(whole.order);
}

/* Counts the right steps of a record 3. mc2_custom_line takes no memory. */
static void count_steps(void) {
    struct mc2_custom_line line;
    heap.asked = 0;
    for (size_t at = 0; at < text.length; at = (size_t)line.next) {
        line.next = text.length;
        mc2_custom_line(text.bytes, text.length, at, &line);
    }
    CHECK(heap.asked == 0);
    heap.most = 0;
    mc2_priv_ask_all(text.bytes, text.length, models, MODELS, &logs);
    CHECK(heap.most <= MOST_OF_KERNEL);
}

/* The most bytes that a call took above MOST_OF_A_BYTE for each byte of the text: of records 1 and 2, and of records 3. */
static size_t above[2];

static void check_most(void) {
    size_t bound = MOST_OF_A_BYTE * text.length;
    CHECK(heap.most <= bound + most_more[is_custom]);
    if (heap.most > bound + above[is_custom])
        above[is_custom] = heap.most - bound;
}

/* Checks one file, and returns how many blocks its calls took. */
static size_t check_file(const char *name, bool refuses) {
    static const char head[] = "record 3\n";
    read_text(name);
    is_custom = text.length >= strlen(head) && memcmp(text.bytes, head, strlen(head)) == 0;
    heap.refused = 0;
    if (is_custom)
        count_steps();
    heap.most = 0;
    size_t blocks = check_memory(false, refuses) + check_memory(true, refuses);
    if (refuses)
        check_capacity();
    check_most();
    free(text.bytes);
    return blocks;
}

int main(int count, char **words) {
    bool refuses = count > 1 && strcmp(words[1], "each") == 0;
    size_t blocks = 0, largest = 0, most = 0;
    if (count < 3 || (!refuses && strcmp(words[1], "none") != 0)) {
        fputs("use: refusals each|none FILE..\n", stderr);
        return 2;
    }
    for (int at = 2; at < count; at++) {
        blocks += check_file(words[at], refuses);
        most = text.length >= largest ? heap.most : most;
        largest = text.length >= largest ? text.length : largest;
    }
    printf("%d texts, %zu blocks; of the largest, %zu bytes take %zu; at most %zu and %zu above %d a byte\n", count - 2, blocks,
           largest, most, above[0], above[1], MOST_OF_A_BYTE);
    return 0;
}
