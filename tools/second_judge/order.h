/* One order of a sound record's entries, or a cycle. Each place goes to the lowest CPU whose next entry can come. */
#ifndef SECOND_JUDGE_ORDER_H
#define SECOND_JUDGE_ORDER_H

#include "record.h"
#include <stdlib.h>

enum { SET_WORDS = (IS_CUSTOM ? MC2_CUSTOM_CPUS : 64) / 64 };

/* A set of CPUs. */
struct set {
    uint64_t bits[SET_WORDS];
};

struct front {
    /* How many entries of each CPU were placed, and how many events of each object. */
    uint64_t at[MC2_CUSTOM_CPUS], placed[MC2_CUSTOM_OBJECTS];
    /* The CPUs whose next entry can come, and those that wait until an object's log is at its end. */
    struct set ready, waiting[MC2_CUSTOM_OBJECTS];
    /* The CPU of each place. */
    uint8_t order[];
};

static void add(struct set *set, uint32_t cpu) { set->bits[cpu / 64] |= (uint64_t)1 << cpu % 64; }

static void add_all(struct set *set, const struct set *more) {
    for (uint32_t at = 0; at < SET_WORDS; at++)
        set->bits[at] |= more->bits[at];
}

/* Takes the lowest CPU; MC2_CUSTOM_CPUS if there is none. */
static uint32_t take_least(struct set *set) {
    uint32_t at = 0;
    while (at < SET_WORDS && set->bits[at] == 0)
        at++;
    if (at == SET_WORDS)
        return MC2_CUSTOM_CPUS;
    uint32_t bit = (uint32_t)__builtin_ctzll(set->bits[at]);
    set->bits[at] &= set->bits[at] - 1;
    return 64 * at + bit;
}

/* The CPU's next entry. */
static bool next_entry(const struct record *r, const struct front *front, uint32_t cpu, uint16_t *entry) {
    size_t at = r->firsts[cpu] + front->at[cpu];
    *entry = at < r->firsts[cpu + 1] ? r->entries[at] : 0;
    return at < r->firsts[cpu + 1];
}

/* The CPU of the object's next event; MC2_CUSTOM_CPUS if it has none. */
static uint32_t next_of(const struct record *r, const struct front *front, uint32_t x) {
    size_t at = r->begins[x] + front->placed[x];
    return at < r->begins[x + 1] ? r->events[at].cpu : MC2_CUSTOM_CPUS;
}

/* The CPU's next entry can come, or waits for its object. */
static void look(const struct record *r, struct front *front, uint32_t cpu) {
    uint16_t entry;
    if (!next_entry(r, front, cpu, &entry))
        return;
    uint32_t x = entry % NO_ROOM_BIT, next = next_of(r, front, x);
    bool has_no_room = entry & NO_ROOM_BIT;
    if (next == (has_no_room ? MC2_CUSTOM_CPUS : cpu))
        add(&front->ready, cpu);
    else if (has_no_room)
        add(&front->waiting[x], cpu);
}

/* Places the CPU's next entry, and looks which CPUs can come now. */
static void place(const struct record *r, struct front *front, uint32_t cpu) {
    uint16_t entry, other;
    next_entry(r, front, cpu, &entry);
    front->at[cpu]++;
    if (!(entry & NO_ROOM_BIT)) {
        front->placed[entry]++;
        uint32_t next = next_of(r, front, entry);
        if (next == MC2_CUSTOM_CPUS)
            add_all(&front->ready, &front->waiting[entry]);
        else if (next != cpu && next_entry(r, front, next, &other) && other == entry)
            add(&front->ready, next);
    }
    look(r, front, cpu);
}

/* Places entries as long as one can come, and counts them. Returns the places, which the caller frees, or NULL without
   memory. */
static struct front *put_in_order(const struct record *r, size_t *count) {
    struct front *front = malloc(sizeof *front + r->entry_count);
    *count = 0;
    if (!front)
        return NULL;
    memset(front, 0, sizeof *front);
    for (uint32_t cpu = 0; cpu < r->cpus; cpu++)
        look(r, front, cpu);
    for (uint32_t cpu = take_least(&front->ready); cpu < MC2_CUSTOM_CPUS; cpu = take_least(&front->ready)) {
        front->order[(*count)++] = (uint8_t)cpu;
        place(r, front, cpu);
    }
    return front;
}

/* The CPU that this one waits for. It has an entry left. */
static uint32_t waits_for(const struct record *r, const struct front *front, uint32_t cpu) {
    uint16_t entry;
    next_entry(r, front, cpu, &entry);
    return next_of(r, front, entry % NO_ROOM_BIT);
}

static uint32_t first_left(const struct record *r, const struct front *front) {
    uint16_t entry;
    uint32_t cpu = 0;
    while (!next_entry(r, front, cpu, &entry))
        cpu++;
    return cpu;
}

/* A CPU of the cycle that is found from the lowest CPU with entries left: it is in the cycle after as many steps as there are CPUs. */
static uint32_t one_of_cycle(const struct record *r, const struct front *front) {
    uint32_t cpu = first_left(r, front);
    for (uint32_t it = 0; it < r->cpus; it++)
        cpu = waits_for(r, front, cpu);
    return cpu;
}

static uint32_t least_of_cycle(const struct record *r, const struct front *front) {
    uint32_t cpu = one_of_cycle(r, front), least = cpu;
    for (uint32_t it = waits_for(r, front, cpu); it != cpu; it = waits_for(r, front, it))
        least = it < least ? it : least;
    return least;
}

static void report_cycle(const struct record *r, const struct front *front, struct mc2_entry_id *order, size_t capacity,
                         struct mc2_report *out) {
    uint32_t least = least_of_cycle(r, front), cpu = least, count = 1;
    while ((cpu = waits_for(r, front, cpu)) != least)
        count++;
    report(out, count > capacity ? MC2_NO_ROOM : MC2_CYCLE, count, 0, 0);
    for (uint32_t at = 0; at < count && count <= capacity; at++, cpu = waits_for(r, front, cpu)) {
        order[at].cpu = cpu;
        order[at].entry = front->at[cpu];
    }
}

#endif
