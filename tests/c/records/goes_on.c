// A kernel that doesn't stop where a log is full, and whose pages have numbers of their own: four threads stand for its CPUs, with
// a pool behind a mutex. It notes by mc2_recorder_can_note and names its pages by mc2_page_names, and prints the record.
//
//     goes_on named|real SECTIONS
//
// With `real` it notes the numbers of its pages, which no pool of a record gives out in that order. The status is 0, or 3 where
// something is refused.
#include <pthread.h>
#include <stdlib.h>
#include <string.h>

#include "mc2_record.h"

enum { CPUS = 4, PAGES = 6, EVENTS = 500 };

static struct mc2_recorder recorder;
static struct mc2_page_names names = {PAGES, {0}, {0}};
static pthread_mutex_t lock = PTHREAD_MUTEX_INITIALIZER;
// The free pages, the one that came back last given out first; and how many there are.
static uint64_t free_pages[PAGES] = {40, 11, 12, 99, 3, 8};
static unsigned free_count = PAGES, sections;
static bool is_named;
static pthread_barrier_t start;

struct work {
    bool is_noted;
    struct mc2_call call;
    struct mc2_step step;
};

static void must(int result) {
    if (result != MC2_DONE) {
        fprintf(stderr, "goes_on: %s\n", mc2_result_text(result));
        exit(3);
    }
}

static struct mc2_step take_page(uint32_t owner, uint64_t *page) {
    struct mc2_call call = mc2_call_of(MC2_ALLOC, owner, 0);
    if (free_count == 0)
        return mc2_step_of(call, MC2_NONE, 0);
    *page = free_pages[--free_count];
    return mc2_step_of(call, MC2_PAGE, is_named ? mc2_page_given(&names, *page) : (uint32_t)*page);
}

static struct mc2_step give_back(uint32_t owner, uint64_t page) {
    free_pages[free_count++] = page;
    uint32_t name = is_named ? mc2_page_returned(&names, page, true) : (uint32_t)page;
    return mc2_step_of(mc2_call_of(MC2_FREE, owner, name), MC2_OK, 0);
}

// One section: a page is taken, or the one that the CPU has goes back.
static struct work section(uint32_t cpu, bool *has_page, uint64_t *page) {
    struct work work;
    pthread_mutex_lock(&lock);
    work.is_noted = mc2_recorder_can_note(&recorder, 0, cpu);
    work.step = *has_page ? give_back(cpu, *page) : take_page(cpu, page);
    *has_page = work.step.reply == MC2_PAGE;
    work.call = work.step.call;
    if (work.is_noted)
        must(mc2_recorder_event(&recorder, 0, cpu, &work.step, 1));
    pthread_mutex_unlock(&lock);
    return work;
}

static void *run_cpu(void *number) {
    uint32_t cpu = *(uint32_t *)number;
    bool has_page = false;
    uint64_t page = 0;
    pthread_barrier_wait(&start);
    for (unsigned at = 0; at < sections; at++) {
        struct work work = section(cpu, &has_page, &page);
        if (work.is_noted)
            must(mc2_recorder_entry(&recorder, 0, cpu, 0, &work.call, 1, &work.step, 1));
    }
    return NULL;
}

int main(int count, char **words) {
    if (count != 3)
        return 3;
    is_named = strcmp(words[1], "named") == 0;
    sections = (unsigned)atoi(words[2]);
    const struct mc2_object pool = {"pages", MC2_POOL, MC2_TICKET, EVENTS, PAGES, 0, NULL};
    must(mc2_recorder_open(&recorder, &pool, 1, CPUS, EVENTS));
    pthread_barrier_init(&start, NULL, CPUS);
    pthread_t threads[CPUS];
    uint32_t numbers[CPUS];
    for (uint32_t cpu = 0; cpu < CPUS; cpu++) {
        numbers[cpu] = cpu;
        if (pthread_create(&threads[cpu], NULL, run_cpu, &numbers[cpu]) != 0)
            return 3;
    }
    for (uint32_t cpu = 0; cpu < CPUS; cpu++)
        pthread_join(threads[cpu], NULL);
    must(mc2_recorder_write(&recorder, stdout));
    mc2_recorder_close(&recorder);
    return 0;
}
