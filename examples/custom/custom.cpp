// use: custom FILE
//
// Judges a record 3 in C++17: a run queue by a class, and a buddy allocator and a pipe by the models of models.h. It prints the
// verdict. From the top of the repository:
//
//     g++ -std=c++17 -O2 -Iinclude -o /tmp/custom examples/custom/custom.cpp crates/judge/out/libjudge.a KIT/c/liblibc_c.a -pthread
//
// Status: 0; 1 if the record is unsound; 2 for wrong words, if the text isn't a record, or if an object has no model.
#include "mc2_custom.h"
#include "models.h"
#include <fstream>
#include <iostream>
#include <iterator>
#include <map>
#include <memory>
#include <set>
#include <string>
#include <vector>

// A model of mc2_custom.h, made of a class: its constructor throws if no object has these numbers, and it has `step`.
template <class State> struct mc2_model model_of(const char *kind) {
    return {kind,
            [](const uint64_t *numbers, uint64_t count) -> void * {
                try {
                    return new State(std::vector<uint64_t>(numbers, numbers + count));
                } catch (const std::exception &) {
                    return nullptr;
                }
            },
            [](void *state, const mc2_custom_step *step) { return static_cast<State *>(state)->step(step->call, step->reply); },
            [](void *state) { delete static_cast<State *>(state); },
            nullptr};
}

// The threads of each priority. Any thread of the highest priority may be taken.
class RunQueue {
    uint64_t threads;
    std::map<uint64_t, std::set<uint64_t>> waiting;
    std::set<uint64_t> all;

    const char *put(uint64_t thread, uint64_t priority) {
        if (thread >= threads)
            return "there is no such thread";
        if (!all.insert(thread).second)
            return "the thread waits";
        waiting[priority].insert(thread);
        return nullptr;
    }

    const char *take(uint64_t thread) {
        if (all.erase(thread) == 0)
            return "the thread doesn't wait";
        auto highest = std::prev(waiting.end());
        if (highest->second.erase(thread) == 0)
            return "a thread of a higher priority waits";
        if (highest->second.empty())
            waiting.erase(highest);
        return nullptr;
    }

public:
    explicit RunQueue(const std::vector<uint64_t> &numbers) : threads(numbers.at(0)) {
        if (numbers.size() != 1)
            throw std::invalid_argument("a run queue has one number");
    }

    const char *step(const mc2_custom_term &call, const mc2_custom_term &reply) {
        if (mc2_custom_is(&call, "put", 2) && mc2_custom_is(&reply, "ok", 0))
            return put(call.numbers[0], call.numbers[1]);
        if (mc2_custom_is(&call, "take", 0) && mc2_custom_is(&reply, "thread", 1))
            return take(reply.numbers[0]);
        if (mc2_custom_is(&call, "take", 0) && mc2_custom_is(&reply, "empty", 0))
            return all.empty() ? nullptr : "a thread waits";
        return NO_SUCH_CALL;
    }
};

static const char *const faults[] = {"sound", "too long", "wrong step", "room was left", "not its event", "not what was asked",
                                     "unclaimed"};

static std::string name_of(const std::string &text, size_t at) {
    struct mc2_custom_line line;
    mc2_custom_line(reinterpret_cast<const uint8_t *>(text.data()), text.size(), at, &line);
    std::string name(reinterpret_cast<const char *>(line.name), MC2_CUSTOM_LETTERS);
    return name.substr(0, name.find('\0'));
}

static std::string place_of(const std::string &text, const mc2_custom_logs &logs, const mc2_report &report) {
    if (report.kind >= MC2_ROOM_WAS_LEFT && report.kind <= MC2_NOT_ASKED)
        return "cpu " + std::to_string(report.first) + " entry " + std::to_string(report.second + 1);
    std::string place = "log " + name_of(text, static_cast<size_t>(logs.object[report.first]));
    if (report.kind != MC2_TOO_LONG)
        place += " event " + std::to_string(report.second + 1);
    return report.kind == MC2_WRONG_STEP ? place + " step " + std::to_string(report.third + 1) : place;
}

int main(int count, char **words) {
    if (count != 2) {
        std::cerr << "use: custom FILE\n";
        return 2;
    }
    std::ifstream file(words[1], std::ios::binary);
    const std::string text(std::istreambuf_iterator<char>(file), {});
    const mc2_model kinds[] = {model_of<RunQueue>("runq"), {"buddy", buddy_open, buddy_step, close_state, buddy_says},
                               {"pipe", pipe_open, pipe_step, close_state, pipe_says},
                               {"any", any_open, any_step, close_state, nullptr}};
    auto logs = std::make_unique<mc2_custom_logs>();
    mc2_report report;
    mc2_custom_judge(reinterpret_cast<const uint8_t *>(text.data()), text.size(), kinds, std::size(kinds), logs.get(), nullptr, 0,
                  &report);
    if (report.kind > MC2_UNCLAIMED) {
        std::cerr << "custom: kind " << report.kind << ", number " << report.first << "\n";
        return 2;
    }
    if (report.kind != MC2_SOUND)
        std::cout << "unsound: " << place_of(text, *logs, report) << ": ";
    std::cout << faults[report.kind] << "\n";
    return report.kind != MC2_SOUND;
}
