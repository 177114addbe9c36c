/* use: second_judge audit|merge [FILE]

   Judges a record 1 or 2 of FILE, or of standard input: `audit` prints its verdict, `merge` one order of its entries. Streams
   and statuses are those of mc2. */
#define IS_CUSTOM 0
#include "judge.h"
#include "order.h"
#include <errno.h>
#include <fcntl.h>
#include <stdio.h>
#include <unistd.h>

enum { PAD = 16, AT_ONCE = 1 << 16, LONGEST_LINE = 1024 };

static int refuse(int status, const char *line) {
    fprintf(stderr, "mc2: %s\n", line);
    return status;
}

/* ---- The text */

struct text {
    uint8_t *bytes;
    size_t length, room;
};

/* Room for as many bytes more, and zeros after them. */
static bool make_text(struct text *text, size_t more) {
    size_t room = text->room;
    while (text->length + more + PAD > room)
        room = room ? 2 * room : 4 * AT_ONCE;
    uint8_t *bytes = room > text->room ? realloc(text->bytes, room) : text->bytes;
    text->bytes = bytes ? bytes : text->bytes;
    text->room = bytes ? room : text->room;
    return bytes != NULL;
}

/* Returns 0, or the status of a refusal. */
static int read_text(const char *name, struct text *text) {
    int file = name ? open(name, O_RDONLY) : STDIN_FILENO;
    ssize_t got = file < 0 ? -1 : 1;
    while (got > 0) {
        if (!make_text(text, AT_ONCE))
            return refuse(3, "E1 out of memory");
        do
            got = read(file, text->bytes + text->length, text->room - PAD - text->length);
        while (got < 0 && errno == EINTR);
        text->length += got > 0 ? (size_t)got : 0;
    }
    if (got < 0)
        return refuse(3, "E12 read failed");
    memset(text->bytes + text->length, 0, PAD);
    return 0;
}

/* ---- Verdicts */

static const char *name_of_object(const struct record *r, uint64_t x, char *name) {
    memcpy(name, &r->names[x], MC2_CUSTOM_LETTERS);
    name[MC2_CUSTOM_LETTERS] = 0;
    return name;
}

static void describe(const struct record *r, char *out, size_t room) {
    char name[MC2_CUSTOM_LETTERS + 1];
    unsigned long long of = r->fault.first, place = r->fault.second + 1, step = r->fault.third + 1;
    switch (r->fault.kind) {
    case MC2_TOO_LONG:
        snprintf(out, room, "log %s: too long", name_of_object(r, of, name));
        break;
    case MC2_WRONG_STEP:
        snprintf(out, room, "log %s event %llu step %llu: wrong step", name_of_object(r, of, name), place, step);
        break;
    case MC2_UNCLAIMED:
        snprintf(out, room, "log %s event %llu: unclaimed", name_of_object(r, of, name), place);
        break;
    default:
        snprintf(out, room, "cpu %llu entry %llu: %s", of, place,
                 r->fault.kind == MC2_ROOM_WAS_LEFT   ? "room was left"
                 : r->fault.kind == MC2_NOT_ITS_EVENT ? "not its event"
                                                      : "not what was asked");
    }
}

static int audit(const struct record *r) {
    bool is_sound = r->fault.kind == MC2_SOUND;
    char fault[128] = "";
    if (!is_sound)
        describe(r, fault, sizeof fault);
    printf("%s%s\n", is_sound ? "sound" : "unsound: ", fault);
    return fflush(stdout) != 0 ? refuse(3, "E13 write failed") : !is_sound;
}

/* ---- Orders */

struct output {
    bool failed;
    size_t count;
    char bytes[AT_ONCE];
};

static void flush(struct output *out) {
    for (size_t at = 0; at < out->count && !out->failed;) {
        ssize_t taken = write(STDOUT_FILENO, out->bytes + at, out->count - at);
        at += taken > 0 ? (size_t)taken : 0;
        out->failed = taken == 0 || (taken < 0 && errno != EINTR);
    }
    out->count = 0;
}

/* How a line begins, for each CPU and object: a fixed number of bytes is copied faster. */
struct start {
    char bytes[24];
    size_t length;
};

static void make_starts(const struct record *r, struct start starts[64][16]) {
    char name[MC2_CUSTOM_LETTERS + 1];
    for (uint32_t cpu = 0; cpu < r->cpus; cpu++)
        for (uint32_t x = 0; x < r->objects; x++)
            starts[cpu][x].length = (size_t)snprintf(starts[cpu][x].bytes, sizeof starts[cpu][x].bytes, "%u %s ", (unsigned)cpu,
                                                     name_of_object(r, x, name));
}

static int print_order(const struct record *r, const struct front *front) {
    static struct output out;
    static struct start starts[64][16];
    size_t at[64] = {0}, placed[16] = {0};
    make_starts(r, starts);
    for (size_t n = 0; n < r->entry_count; n++) {
        uint32_t cpu = front->order[n], entry = r->entries[r->firsts[cpu] + at[cpu]++], x = entry % NO_ROOM_BIT;
        const struct event *event = entry & NO_ROOM_BIT ? NULL : &r->events[r->begins[x] + placed[x]++];
        if (out.count > AT_ONCE - LONGEST_LINE)
            flush(&out);
        memcpy(out.bytes + out.count, starts[cpu][x].bytes, sizeof starts[cpu][x].bytes);
        out.count += starts[cpu][x].length;
        const void *steps = event ? (const void *)(r->text + event->at) : "noroom\n";
        size_t length = event ? event->length + 1u : strlen("noroom\n");
        memcpy(out.bytes + out.count, steps, length);
        out.count += length;
    }
    flush(&out);
    return out.failed ? refuse(3, "E13 write failed") : 0;
}

static int refuse_cycle(const struct record *r, const struct front *front) {
    struct mc2_entry_id order[64];
    struct mc2_report out;
    report_cycle(r, front, order, 64, &out);
    fprintf(stderr, "mc2: E11 cycle:");
    for (uint64_t at = 0; at < out.first; at++) {
        unsigned long long cpu = order[at].cpu, entry = order[at].entry + 1;
        fprintf(stderr, "%s cpu %llu entry %llu", at > 0 ? "," : "", cpu, entry);
    }
    fprintf(stderr, "\n");
    return 1;
}

static int merge(const struct record *r) {
    char fault[128];
    size_t placed;
    if (r->fault.kind != MC2_SOUND) {
        describe(r, fault, sizeof fault);
        fprintf(stderr, "mc2: E10 unsound: %s\n", fault);
        return 1;
    }
    struct front *front = put_in_order(r, &placed);
    if (!front)
        return refuse(3, "E1 out of memory");
    int status = placed == r->entry_count ? print_order(r, front) : refuse_cycle(r, front);
    free(front);
    return status;
}

static int judge_text(struct record *r, const struct text *text, bool merges) {
    judge(r, text->bytes, text->length, NULL, 0, merges);
    if (r->fault.kind == MC2_OUT_OF_MEMORY)
        return refuse(3, "E1 out of memory");
    if (r->fault.kind != MC2_BAD_LINE)
        return merges ? merge(r) : audit(r);
    fprintf(stderr, "mc2: E9 record: line %llu\n", (unsigned long long)r->fault.first);
    return 2;
}

int main(int count, char **words) {
    static struct record record;
    struct text text = {NULL, 0, 0};
    bool merges = count >= 2 && strcmp(words[1], "merge") == 0;
    if (count < 2 || count > 3 || (!merges && strcmp(words[1], "audit") != 0))
        return refuse(2, "E14 bad words");
    int status = read_text(count > 2 ? words[2] : NULL, &text);
    if (status == 0) {
        status = judge_text(&record, &text, merges);
        drop(&record);
    }
    free(text.bytes);
    return status;
}
