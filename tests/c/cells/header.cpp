// mc2_cells.h compiles as C++, and empty cells, callers and holds of mc2_cells.hpp are refused.
#include "mc2_cells.hpp"
#include <cstdio>

static unsigned failed;

static void must(mc2_result result, mc2_result wanted, const char *what) {
    if (result == wanted)
        return;
    std::printf("%s: %s, not %s\n", what, mc2_result_text(result), mc2_result_text(wanted));
    failed++;
}

static const mc2_call len = {MC2_LEN, 0, 0};

static uint32_t call_once(mc2_caller *caller, mc2_reply *reply) {
    uint32_t result = mc2_cell_call(caller, &len, reply);
    return mc2_caller_looks(caller) <= 1 ? result : (uint32_t)MC2_AGAIN;
}

static void call_from_c() {
    mc2_object object = {"queue", MC2_QUEUE, MC2_TICKET, 4, 8, 0, nullptr};
    mc2_cell cell;
    mc2_caller caller;
    mc2_reply reply;
    must((mc2_result)mc2_cell_open(&cell, &object, &caller, 1), MC2_DONE, "mc2_cell_open");
    must((mc2_result)call_once(&caller, &reply), MC2_DONE, "mc2_cell_call");
    must((mc2_result)mc2_cell_close(&cell, &caller, 1), MC2_DONE, "mc2_cell_close");
    mc2_cell_free(&cell, nullptr, 0);
}

static void refuse_hold(mc2::hold &hold) {
    must(hold.apply(len).result(), MC2_REFUSED, "apply of an empty hold");
    must(hold.release(), MC2_REFUSED, "release of an empty hold");
}

static void refuse_caller(mc2::caller &caller, mc2::cell &cell) {
    mc2_batch batch = {1, {len}};
    must(caller.acquire().result(), MC2_REFUSED, "acquire of an empty caller");
    must(caller.try_acquire().result(), MC2_REFUSED, "try_acquire of an empty caller");
    must(caller.call(len).result(), MC2_REFUSED, "call of an empty caller");
    must(caller.batch(batch).result(), MC2_REFUSED, "batch of an empty caller");
    must(caller.try_call(len).result(), MC2_REFUSED, "try_call of an empty caller");
    must(caller.close(cell), MC2_REFUSED, "close of an empty caller");
    must(caller.free(), MC2_DONE, "free of an empty caller");
}

static void refuse_cell(mc2::cell &cell, mc2::caller &caller, const mc2_object &object) {
    mc2_cell_noted noted = {nullptr, 0};
    must(mc2::caller::open(cell).result(), MC2_REFUSED, "caller::open at an empty cell");
    must(caller.close(cell), MC2_REFUSED, "caller::close at an empty cell");
    must(cell.close(), MC2_REFUSED, "close of an empty cell");
    must(cell.close(&caller, 1), MC2_REFUSED, "close of an empty cell with a caller");
    must(cell.read_step(0, 0).result(), MC2_REFUSED, "read_step of an empty cell");
    must(cell.drop_log(), MC2_REFUSED, "drop_log of an empty cell");
    must(cell.reopen(MC2_MCS, nullptr, 1), MC2_REFUSED, "reopen of an empty cell");
    must(cell.write_record_to(object, &noted, 1, mc2_write_to_file, stdout), MC2_REFUSED, "write_record_to of an empty cell");
    cell.free();
}

// Each class by a move to a new object, and by a move to an object that had another value, which is freed or released.
static void move_all(const mc2_object &object) {
    mc2::caller callers[2], other[1];
    mc2::expected<mc2::cell> opened = mc2::cell::open(object, callers, 2), second = mc2::cell::open(object, other, 1);
    must(opened.result(), MC2_DONE, "cell::open");
    must(second.result(), MC2_DONE, "cell::open of the second");
    mc2::cell cell = std::move(*opened);
    refuse_cell(*opened, callers[0], object);

    mc2::caller caller = std::move(callers[0]);
    refuse_caller(callers[0], cell);
    must(callers[0].looks() == 0 ? MC2_DONE : MC2_AGAIN, MC2_DONE, "looks of a caller that was moved from");
    callers[0] = std::move(caller);
    refuse_caller(caller, cell);
    must(callers[0].call(len).result(), MC2_DONE, "call of a moved caller");
    must(callers[0].close(*second), MC2_REFUSED, "close at another cell");

    mc2::expected<mc2::hold> held = callers[0].acquire(), held_second = other[0].acquire();
    must(callers[0].acquire().result(), MC2_REFUSED, "a second acquire");
    must(callers[1].try_acquire().result(), MC2_BUSY, "try_acquire beside a hold");
    mc2::hold hold = std::move(*held);
    refuse_hold(*held);
    must(hold.apply(len).result(), MC2_DONE, "apply of a moved hold");
    hold = std::move(*held_second);
    refuse_hold(*held_second);
    must(callers[1].try_call(len).result(), MC2_DONE, "the hold that was assigned to is released");
    must(cell.close(callers, 2), MC2_DONE, "close");
    must(other[0].free(), MC2_REFUSED, "free of a caller that holds the lock");
    must(hold.release(), MC2_DONE, "release of a moved hold");
    refuse_hold(hold);
    other[0] = std::move(callers[1]);
    *second = std::move(cell);
    refuse_cell(cell, callers[0], object);
    must(second->read_step(2, 0).result(), MC2_DONE, "read_step of a moved cell");
}

// The functions that follow a close, and a cell that is freed while a caller exists.
static void end(const mc2_object &object) {
    mc2::caller callers[3];
    must(mc2::cell::open(object, callers, MC2_MOST_CPUS + 1).result(), MC2_BAD_PARAM, "open for too many CPUs");
    mc2::expected<mc2::cell> cell = mc2::cell::open(object, callers, 3);
    must(mc2::caller::open(*cell).result(), MC2_REFUSED, "a caller too many");
    must(callers[1].close(*cell), MC2_REFUSED, "close before a lower CPU");
    must(callers[0].close(*cell), MC2_DONE, "close of CPU 0");
    {
        mc2::expected<mc2::hold> hold = callers[2].acquire();
        must(cell->close(callers, 3), MC2_REFUSED, "close of a cell that is held");
        must(cell->drop_log(), MC2_REFUSED, "drop_log of an open cell");
    }
    must(cell->close(callers, 3), MC2_DONE, "close again");
    must(cell->close(callers, 3), MC2_REFUSED, "close of a closed cell");
    must(cell->read_step(0, 0).result(), MC2_NOT_FOUND, "read_step of an empty log");
    must(cell->drop_log(), MC2_DONE, "drop_log");
    must(cell->reopen(MC2_LOCKS, callers, 3), MC2_BAD_PARAM, "reopen with no such lock");
    must(cell->reopen(MC2_MCS, callers, 3), MC2_DONE, "reopen with callers");
    must(callers[2].call(len).result(), MC2_DONE, "call of the reopened cell");
    must(cell->close(callers, 3), MC2_DONE, "close of the reopened cell");
    must(cell->reopen(MC2_TICKET, nullptr, 1), MC2_DONE, "reopen");
    mc2::expected<mc2::caller> caller = mc2::caller::open(*cell);
    must(caller->call(len).result(), MC2_DONE, "call of the reopened cell");
    cell->free(&*caller, 1);
    refuse_caller(*caller, *cell);
    refuse_cell(*cell, *caller, object);
}

int main() {
    mc2_object object = {"queue", MC2_QUEUE, MC2_MCS, 8, 8, 0, nullptr};
    call_from_c();
    move_all(object);
    end(object);
    if (failed == 0)
        std::puts("empty cells, callers and holds are refused");
    return failed == 0 ? 0 : 1;
}
