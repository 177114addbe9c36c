// mc2_cells.hpp - cells, callers and holds as classes of C++17, over mc2_cells.h.
//
// Each function does what its function in mc2_cells.h does, with the same context and ordering: cell::open is mc2_cell_open,
// caller::call mc2_cell_call, caller::acquire mc2_acquire, hold::apply mc2_apply. There are no calls by name: use mc2_call_of.
// Destructors free cells and callers, and release locks.
//
//     std::vector<mc2::caller> callers(cpus);
//     mc2::expected<mc2::cell> cell = mc2::cell::open(run_queue, callers.data(), cpus);
//     if (!cell) return cell.result();
//     mc2::expected<mc2_reply> reply = callers[cpu].call(mc2_call_of(MC2_ENQ, 3, 0));
//     cell->close(callers.data(), cpus);
//
// A cell, caller or hold is empty if it was moved from, freed, closed (a caller), released (a hold) or never opened. Its functions
// then return MC2_REFUSED; free() does nothing. Nothing here throws, and it compiles with -fno-exceptions. Nothing here is proved.
//
// The caller obligations of mc2_cells.h apply, but a cell and an idle caller may be moved while no other thread uses them. Also: a
// caller outlives its hold, and isn't moved or freed while the hold exists. After a cell's destructor its callers may only be
// freed, destroyed or assigned to.
#ifndef MC2_CELLS_HPP
#define MC2_CELLS_HPP

#if __cplusplus < 201703L
#error "mc2_cells.hpp is for C++17: g++ -std=c++17"
#endif

#include "mc2_cells_record.h"
#include <memory>
#include <new>
#include <optional>
#include <utility>

namespace mc2 {

// A value, or the result that says why there is none. Use * and -> only if there is one.
template <typename Value> class [[nodiscard]] expected {
  public:
    expected(Value value) : value_(std::move(value)), result_(MC2_DONE) {}
    expected(mc2_result error) : result_(error) {}
    explicit operator bool() const { return value_.has_value(); }
    Value &operator*() { return *value_; }
    Value *operator->() { return &*value_; }
    // Returns MC2_DONE if there is a value, and the error otherwise.
    mc2_result result() const { return result_; }

  private:
    std::optional<Value> value_;
    mc2_result result_;
};

// Internal: a C result, without and with the value that is valid if it is MC2_DONE.
inline mc2_result priv_result(uint32_t result) { return static_cast<mc2_result>(result); }
template <typename Value> expected<Value> priv_result(uint32_t result, const Value &value) {
    return result == MC2_DONE ? expected<Value>(value) : expected<Value>(priv_result(result));
}

// A caller that holds the lock. The destructor releases it.
class hold {
  public:
    expected<mc2_reply> apply(const mc2_call &call) {
        mc2_reply reply = {};
        return caller_ ? priv_result(mc2_apply(caller_.get(), &call, &reply), reply) : MC2_REFUSED;
    }
    // Releases the lock now.
    mc2_result release() {
        mc2_caller *held = caller_.release();
        return held ? priv_result(mc2_release(held)) : MC2_REFUSED;
    }

  private:
    friend class caller;
    struct releaser {
        void operator()(mc2_caller *caller) const { mc2_release(caller); }
    };
    explicit hold(mc2_caller *caller) : caller_(caller) {}
    std::unique_ptr<mc2_caller, releaser> caller_;
};

// One CPU's right to use a cell, for one thread at a time. The destructor frees it. That fails while the caller is in line or
// holds the lock, and its memory is lost.
class caller {
  public:
    caller() : impl_() {}
    caller(caller &&other) noexcept : impl_(std::exchange(other.impl_, {})) {}
    caller &operator=(caller &&other) noexcept {
        caller moved(std::move(other));
        return std::swap(impl_, moved.impl_), *this;
    }
    ~caller() { free(); }

    // Creates the caller of the highest CPU that has none.
    static expected<caller> open(class cell &cell);
    // A caller of another cell is refused.
    mc2_result close(class cell &cell);
    // Returns MC2_DONE for an empty caller.
    mc2_result free() { return priv_result(mc2_caller_free(&impl_)); }

    expected<hold> acquire() { return held(impl_.impl ? priv_result(mc2_acquire(&impl_)) : MC2_REFUSED); }
    expected<hold> try_acquire() { return held(impl_.impl ? priv_result(mc2_try_acquire(&impl_)) : MC2_REFUSED); }
    expected<mc2_reply> call(const mc2_call &call) { return perform(mc2_cell_call, call); }
    expected<mc2_replies> batch(const mc2_batch &batch) { return perform(mc2_cell_batch, batch); }
    expected<mc2_reply> try_call(const mc2_call &call) { return perform(mc2_cell_try_call, call); }
    uint64_t looks() const { return mc2_caller_looks(&impl_); }

  private:
    friend class cell;
    explicit caller(const mc2_caller &opened) : impl_(opened) {}
    template <typename Call, typename Reply>
    expected<Reply> perform(uint32_t (*function)(mc2_caller *, const Call *, Reply *), const Call &call) {
        Reply reply = {};
        return impl_.impl ? priv_result(function(&impl_, &call, &reply), reply) : MC2_REFUSED;
    }
    expected<hold> held(mc2_result result) {
        return result == MC2_DONE ? expected<hold>(hold(&impl_)) : expected<hold>(result);
    }
    mc2_caller impl_;
};

// An object behind a lock. The destructor frees the cell.
class cell {
  public:
    static expected<cell> open(const mc2_object &object, caller *callers, uint32_t cpus) {
        cell made(new (std::nothrow) mc2_cell());
        mc2_result result = made.impl_ ? priv_result(mc2_cell_open(made.impl_.get(), &object, nullptr, cpus)) : MC2_NO_MEMORY;
        expected<cell> opened = result == MC2_DONE ? expected<cell>(std::move(made)) : expected<cell>(result);
        for (uint32_t cpu = callers ? cpus : 0; opened && cpu > 0;) {
            expected<caller> next = caller::open(*opened);
            if (next)
                callers[--cpu] = std::move(*next);
            else
                opened->free(callers + cpu, cpus - cpu), opened = next.result();
        }
        return opened;
    }

    mc2_result close(caller *callers = nullptr, uint32_t count = 0) {
        mc2_result result = get() ? MC2_DONE : MC2_REFUSED;
        for (uint32_t at = 0; at < count && result == MC2_DONE; at++)
            result = callers[at].impl_.impl ? callers[at].close(*this) : MC2_DONE;
        return result == MC2_DONE ? priv_result(mc2_cell_close(get(), nullptr, 0)) : result;
    }
    void free(caller *callers = nullptr, uint32_t count = 0) {
        for (uint32_t at = 0; at < count; at++)
            callers[at].free();
        if (get())
            mc2_cell_free(get(), nullptr, 0);
    }

    expected<mc2_logged_step> read_step(size_t event, size_t index) {
        mc2_logged_step step = {};
        return get() ? priv_result(mc2_cell_read_step(get(), event, index, &step), step) : MC2_REFUSED;
    }
    mc2_result drop_log() { return get() ? priv_result(mc2_cell_drop_log(get())) : MC2_REFUSED; }
    mc2_result reopen(uint32_t lock, caller *callers, uint32_t cpus) {
        mc2_caller opened[MC2_MOST_CPUS];
        uint32_t result = get() ? mc2_cell_reopen(get(), lock, callers ? opened : nullptr, cpus) : (uint32_t)MC2_REFUSED;
        for (uint32_t cpu = 0; callers && result == MC2_DONE && cpu < cpus; cpu++)
            callers[cpu] = caller(opened[cpu]);
        return priv_result(result);
    }
    mc2_result write_record_to(const mc2_object &object, const mc2_cell_noted *noted, uint32_t cpus, mc2_write_fn write, void *to) {
        return get() ? static_cast<mc2_result>(mc2_cell_write_record_to(get(), &object, noted, cpus, write, to)) : MC2_REFUSED;
    }

  private:
    friend class caller;
    struct deleter {
        void operator()(mc2_cell *cell) const { mc2_cell_free(cell, nullptr, 0), delete cell; }
    };
    explicit cell(mc2_cell *opened) : impl_(opened) {}
    mc2_cell *get() const { return impl_ && impl_->impl ? impl_.get() : nullptr; }
    std::unique_ptr<mc2_cell, deleter> impl_;
};

inline expected<caller> caller::open(class cell &cell) {
    caller opened;
    mc2_result result = cell.get() ? priv_result(mc2_caller_open(cell.get(), &opened.impl_)) : MC2_REFUSED;
    return result == MC2_DONE ? expected<caller>(std::move(opened)) : expected<caller>(result);
}

inline mc2_result caller::close(class cell &cell) {
    bool is_of_cell = impl_.impl && cell.get() && impl_.waiters == &cell.get()->waiters;
    return is_of_cell ? priv_result(mc2_caller_close(cell.get(), &impl_)) : MC2_REFUSED;
}

} // namespace mc2

#endif
