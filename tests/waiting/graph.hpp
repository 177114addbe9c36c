// All states that can be reached, each step between them, and the search for a run in which a call never ends.
#pragma once
#include "steps.hpp"
#include <algorithm>
#include <string_view>
#include <type_traits>
#include <unordered_map>
#include <utility>
#include <vector>

static const uint32_t NONE = UINT32_MAX;
using Way = std::vector<uint32_t>;

class Graph {
public:
    const Waiting &waiting;
    std::vector<State> states;

    explicit Graph(const Waiting &its) : waiting(its) { find(State{}, NONE); }

    // Finds all states, the nearest first, until a step is wrong. Answers the way to that, its step the last; or none.
    template <class IsWrong> Way search(IsWrong is_wrong) {
        for (uint32_t at = 0; at < states.size(); at++)
            for (int i = 0; i < waiting.callers; i++) {
                State after = states[at];
                const bool steps = waiting.step(after, i);
                const uint32_t found = steps ? find(after, at) : NONE;
                to.push_back(found);
                if (!steps || !is_wrong(states[at], i, after)) continue;
                Way way = way_to(at);
                way.push_back(found);
                return way;
            }
        return {};
    }

    // Where the caller's step leads, if it has one.
    uint32_t next(uint32_t at, int i) const { return to[size_t(at) * waiting.callers + i]; }

    // The states on the shortest way to this one.
    Way way_to(uint32_t at) const {
        Way way;
        for (; at != NONE; at = from[at]) way.push_back(at);
        std::reverse(way.begin(), way.end());
        return way;
    }

private:
    static_assert(std::has_unique_object_representations_v<State>, "equal states have equal bytes");
    static std::string_view bytes(const State &s) { return {reinterpret_cast<const char *>(&s), sizeof s}; }
    struct Hash {
        size_t operator()(const State &s) const { return std::hash<std::string_view>()(bytes(s)); }
    };
    struct Same {
        bool operator()(const State &s, const State &t) const { return bytes(s) == bytes(t); }
    };

    std::unordered_map<State, uint32_t, Hash, Same> numbers;
    std::vector<uint32_t> to, from;

    // The number of a state, a new one if it wasn't there.
    uint32_t find(const State &s, uint32_t before) {
        const auto [at, is_new] = numbers.try_emplace(s, states.size());
        if (is_new) states.push_back(s), from.push_back(before);
        return at->second;
    }
};

// Looks for a fair run in which a call of caller 0 never ends. There is one exactly if, the ends of those calls left out, some
// strongly connected part of the graph has caller 0 in a call, and each caller steps in it, is idle in it, or can't step.
class Endless {
public:
    explicit Endless(const Graph &its)
        : graph(its), callers(its.waiting.callers), order(its.states.size()), low(order), part(order.size(), NONE) {}

    // The first state of such a part, or NONE.
    uint32_t search() {
        for (uint32_t at = 0; at < order.size(); at++)
            if (!order[at]) search_from(at);
        return found;
    }

private:
    const Graph &graph;
    const int callers;
    std::vector<uint32_t> order, low, part, open;
    std::vector<std::pair<uint32_t, int>> trail;
    uint32_t count = 0, found = NONE;

    bool is_idle(uint32_t at, int i) const { return graph.states[at].callers[i].is_idle(); }

    // Where the caller's step leads, if it has one that isn't the end of a call of caller 0.
    uint32_t next(uint32_t at, int i) const {
        const uint32_t after = graph.next(at, i);
        return i == 0 && after != NONE && !is_idle(at, 0) && is_idle(after, 0) ? NONE : after;
    }

    bool stays(uint32_t at, int i) const {
        const uint32_t after = next(at, i);
        return after != NONE && part[after] == part[at];
    }

    // Tarjan's search for strongly connected parts. Its calls are a list, since they nest deeply.
    void search_from(uint32_t first) {
        enter(first);
        while (!trail.empty()) {
            const uint32_t at = trail.back().first;
            if (trail.back().second < callers) {
                const uint32_t after = next(at, trail.back().second++);
                if (after == NONE) continue;
                if (!order[after]) enter(after);
                else if (part[after] == NONE) low[at] = std::min(low[at], order[after]);
                continue;
            }
            trail.pop_back();
            if (!trail.empty()) low[trail.back().first] = std::min(low[trail.back().first], low[at]);
            if (low[at] == order[at]) close(at);
        }
    }

    void enter(uint32_t at) {
        order[at] = low[at] = ++count;
        open.push_back(at);
        trail.push_back({at, 0});
    }

    // The states from this one on are a whole part.
    void close(uint32_t first) {
        const auto begin = std::find(open.rbegin(), open.rend(), first).base() - 1;
        for (auto at = begin; at != open.end(); ++at) part[*at] = first;
        int fair = 0;
        for (auto at = begin; at != open.end(); ++at)
            for (int i = 0; i < callers; i++)
                if (stays(*at, i) || is_idle(*at, i) || graph.next(*at, i) == NONE) fair |= 1 << i;
        if (fair == (1 << callers) - 1 && !is_idle(first, 0)) found = std::min(found, *std::min_element(begin, open.end()));
        open.erase(begin, open.end());
    }
};
