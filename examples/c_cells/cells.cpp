// use: cells ticket|mcs THREADS CALLS
//
// THREADS threads call the queue of one cell, CALLS times each, by mc2_cells.hpp. Of eight calls, one is performed after acquire,
// one after try_acquire (or acquire, if the lock is busy), one by try_call (or call), one by batch, and the others by call. Prints
// the record, which `mc2 audit` judges. It is built without exceptions.
//
// Status: 0; 1 if a call returns a wrong result; 2 for wrong arguments; 3 if there is too little memory.
#include "mc2_cells.hpp"
#include <cstdio>
#include <cstdlib>
#include <cstring>
#include <thread>
#include <vector>

enum { QUEUE = 12 };

static void must(mc2_result result, mc2_result wanted, const char *what) {
    if (result == wanted)
        return;
    std::fprintf(stderr, "cells: %s: %s\n", what, mc2_result_text(result));
    std::exit(result == MC2_NO_MEMORY ? 3 : 1);
}

// Returns a call of the queue, which depends on the CPU and the number of the call.
static mc2_call call_of(uint32_t cpu, uint32_t number) {
    static const uint32_t words[] = {MC2_ENQ, MC2_DEQ, MC2_LEN, MC2_REMOVE, MC2_ENQ};
    return mc2_call_of(words[(number * 7 + cpu * 3) % 5], (number + cpu * 5) % (QUEUE + 1), 0);
}

static void write(mc2_cell_note &note, mc2::expected<mc2_reply> reply) {
    note.result = reply.result();
    note.replies.count = reply ? 1 : 0;
    note.replies.replies[0] = reply ? *reply : mc2_reply();
}

static void call_batch(mc2::caller &caller, mc2_cell_note &note) {
    mc2::expected<mc2_replies> replies = caller.batch(note.asked);
    note.result = replies.result();
    note.replies = replies ? *replies : mc2_replies();
}

// Performs the note's call while it holds the lock, which is released at the end.
static void call_held(mc2::caller &caller, bool is_try, mc2_cell_note &note) {
    mc2::expected<mc2::hold> held = is_try ? caller.try_acquire() : caller.acquire();
    if (held.result() == MC2_BUSY)
        held = caller.acquire();
    must(held.result(), MC2_DONE, "acquiring");
    must(caller.acquire().result(), MC2_REFUSED, "acquiring twice");
    must(caller.try_acquire().result(), MC2_REFUSED, "trying while it holds the lock");
    write(note, held->apply(note.asked.calls[0]));
}

static mc2_cell_note call(mc2::caller &caller, uint32_t cpu, uint32_t number) {
    mc2_cell_note note = {0, {1, {}}, {}, MC2_BUSY};
    uint32_t way = number % 8;
    note.asked.count = way == 3 ? 1 + number / 8 % MC2_MOST_CALLS : 1;
    for (uint32_t at = 0; at < note.asked.count; at++)
        note.asked.calls[at] = call_of(cpu, number + at);
    if (way == 0 || way == 7)
        call_held(caller, way == 7, note);
    else if (way == 3)
        call_batch(caller, note);
    else if (way == 5)
        write(note, caller.try_call(note.asked.calls[0]));
    if (note.result == MC2_BUSY)
        write(note, caller.call(note.asked.calls[0]));
    note.looks = caller.looks();
    return note;
}

static void print_record(mc2::cell &cell, const mc2_object &object, const std::vector<std::vector<mc2_cell_note>> &notes) {
    std::vector<mc2_cell_noted> noted;
    for (const std::vector<mc2_cell_note> &of_cpu : notes)
        noted.push_back({of_cpu.data(), (uint32_t)of_cpu.size()});
    mc2_result result = cell.write_record_to(object, noted.data(), (uint32_t)noted.size(), mc2_write_to_file, stdout);
    must(result, MC2_DONE, "writing");
}

// Lets each caller make its calls on a thread. Returns the notes of each.
static std::vector<std::vector<mc2_cell_note>> run(std::vector<mc2::caller> &callers, uint32_t calls) {
    std::vector<std::vector<mc2_cell_note>> notes(callers.size());
    std::vector<std::thread> threads;
    for (uint32_t cpu = 0; cpu < callers.size(); cpu++)
        threads.emplace_back([&, cpu] {
            for (uint32_t number = 0; number < calls; number++)
                notes[cpu].push_back(call(callers[cpu], cpu, number));
        });
    for (std::thread &thread : threads)
        thread.join();
    return notes;
}

// Closes the callers in order of CPU, and the cell. The other cell refuses them.
static void close(mc2::cell &cell, mc2::cell &other, std::vector<mc2::caller> &callers) {
    for (mc2::caller &caller : callers) {
        must(cell.close(), MC2_REFUSED, "closing a cell before its callers");
        must(caller.close(other), MC2_REFUSED, "closing a caller of another cell");
        must(caller.close(cell), MC2_DONE, "closing a caller");
        must(caller.acquire().result(), MC2_REFUSED, "acquiring by a closed caller");
        must(caller.call(mc2_call_of(MC2_LEN, 0, 0)).result(), MC2_REFUSED, "calling by a closed caller");
    }
    must(cell.close(), MC2_DONE, "closing the cell");
}

int main(int count, char **words) {
    bool is_mcs = count > 1 && std::strcmp(words[1], "mcs") == 0;
    long cpus = count == 4 ? std::atol(words[2]) : 0, calls = count == 4 ? std::atol(words[3]) : 0;
    bool are_right = cpus >= 1 && cpus <= MC2_MOST_CPUS && calls >= 1 && calls <= MC2_MOST_ENTRIES;
    if (!are_right || (!is_mcs && std::strcmp(words[1], "ticket") != 0)) {
        std::fputs("use: cells ticket|mcs THREADS CALLS\n", stderr);
        return 2;
    }
    mc2_object object = {"shared", MC2_QUEUE, is_mcs ? (uint32_t)MC2_MCS : (uint32_t)MC2_TICKET, MC2_MOST_EVENTS, QUEUE, 0, NULL};
    std::vector<mc2::caller> callers((size_t)cpus);
    mc2::caller other_caller;
    must(mc2::cell::open(object, nullptr, MC2_MOST_CPUS + 1).result(), MC2_BAD_PARAM, "opening for too many CPUs");
    mc2::expected<mc2::cell> cell = mc2::cell::open(object, callers.data(), (uint32_t)cpus);
    must(cell.result(), MC2_DONE, "opening");
    mc2::expected<mc2::cell> other = mc2::cell::open(object, &other_caller, 1);
    must(other.result(), MC2_DONE, "opening");
    must(mc2::caller::open(*cell).result(), MC2_REFUSED, "opening a caller too many");
    std::vector<std::vector<mc2_cell_note>> notes = run(callers, (uint32_t)calls);
    close(*cell, *other, callers);
    print_record(*cell, object, notes);
    return 0;
}
