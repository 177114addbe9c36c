// The properties of single steps. states.cpp says them in words.
#pragma once
#include "steps.hpp"

#define PROPERTIES(P) P(all) P(order) P(naps) P(stays) P(door) P(once) P(awake) P(turn) P(forever)
enum Property { PROPERTIES(ALONE) };

class Judge {
public:
    const Waiting &waiting;
    Property property;

    bool asks(Property one) const { return property == all || property == one; }

    // Whether the caller's step breaks a property that is asked for.
    bool is_wrong(const State &before, int i, const State &after) const {
        const Caller &was = before.callers[i], &is = after.callers[i];
        return (asks(order) && !is_order(after)) || (asks(naps) && after.resting % OUTSIDE != naps_of(after)) ||
               (asks(stays) && after.resting / OUTSIDE != stays_of(after)) ||
               (asks(door) && was.place == IDLE && (is.place == GO_OUT) != (naps_of(before) != 0)) ||
               (asks(once) && is.place == GO_OUT && is.stays != 0) ||
               (asks(awake) && is.place == ASLEEP && after.is_in_line(i)) || (asks(turn) && !gets_turn(before, i, after));
    }

private:
    // Who has the object is the first in line.
    bool is_order(const State &s) const {
        for (int j = 0; j < waiting.callers; j++)
            if (s.callers[j].has_object() && s.line[0] != j) return false;
        return true;
    }

    // How many are between the beginning of their first nap and their rising.
    int naps_of(const State &s) const {
        int count = 0;
        for (const Caller &c : s.callers)
            count += c.place == NAP || c.place == RISE || (c.place == LOOK && c.looks > waiting.long_wait);
        return count;
    }

    int stays_of(const State &s) const {
        int count = 0;
        for (const Caller &c : s.callers) count += c.place == ASLEEP || c.place == COME_IN;
        return count;
    }

    // How many of its own steps bring a caller to the end of its next look. It has to be in line, and linked.
    static int to_look(const Caller &c) { return c.place == LOOK ? 1 : c.place == NAP ? 2 : c.place == LIE_DOWN ? 3 : 4; }

    // Nobody takes a turn away, and each step of the caller whose turn it is brings it nearer to the look that gets the object.
    bool gets_turn(const State &before, int i, const State &after) const {
        for (int j = 0; j < waiting.callers; j++) {
            if (!waiting.has_turn(before, j) || after.callers[j].has_object()) continue;
            if (!waiting.has_turn(after, j)) return false;
            if (j == i && to_look(after.callers[j]) >= to_look(before.callers[j])) return false;
        }
        return true;
    }
};
