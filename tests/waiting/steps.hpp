// The steps of callers at one lock: crates/word_rule/src/resting.rt and, of each lock's crate, src/whole.rt and src/steps.rt.
// Two things of the code are left out, as they change no word: pauses, since a caller may be late with any step; and the word
// on which a sleeper parks, since it is always 0.
#pragma once
#include <cstdint>
#include <cstring>

enum { MOST = 4, TICKETS = 8, OUTSIDE = 16 };

// Where a caller is, by its next step: one operation on one word, or its timer, which ends its sleep. It has the object from
// RISE on.
#define PLACES(P) \
    P(IDLE, "resting.load") P(GO_OUT, "resting.fetch_add(OUTSIDE)") P(ASLEEP, "its timer") \
    P(COME_IN, "resting.fetch_sub(OUTSIDE)") P(DRAW, "draw") P(CLEAR, "clear") P(ENTER, "enter") P(ARM, "arm") P(LINK, "link") \
    P(LOOK, "look") P(LIE_DOWN, "resting.fetch_add(1)") P(NAP, "its timer") P(RISE, "resting.fetch_sub(1)") \
    P(SERVE, "serve") P(SEE, "see") P(EMPTY, "empty") P(SEE_AGAIN, "see again") P(PASS_ON, "pass on")

// In what a wrong form may differ, and how the code has it.
#define CHOICES(C) \
    C(go_out, OUTSIDE) C(come_in, -OUTSIDE) C(lie_down, 1) C(rise, -1) /* what these steps add to the word `resting` */ \
    C(door, SHUT_BY_NAPS)   /* when who comes stays outside */ \
    C(stays, BEFORE_LINE)   /* when it does */ \
    C(stays_again, 0)       /* whether it then asks anew, and doesn't arrive in any case */ \
    C(stay_ends, 1) C(nap_ends, 1) \
    C(nap_looks, 1) C(nap_takes, 0) /* whether a look, or the object, is behind a nap */ \
    C(each_nap, 0)          /* whether each nap is counted */ \
    C(rises_behind, 0)      /* how much later than by the first look behind a nap it rises */ \
    C(serves, 1)            /* by how many tickets a serve goes on */ \
    C(passes, FOLLOWER)     /* whose `locked` a pass clears */ \
    C(waits_follower, 1) C(arms_first, 1)
enum Door { OPEN, SHUT, SHUT_BY_NAPS, SHUT_BY_STAYS, SHUT_BY_BOTH };
enum Moment { BEFORE_LINE, AT_ENTER, IN_LINE, ELSE };
enum Heir { NOBODY, ITSELF, FOLLOWER };

#define NAMED(name, text) name,
#define ALONE(name) name,
#define FIELD(name, value) int name = value;
enum Place : uint8_t { PLACES(NAMED) };
struct Form {
    CHOICES(FIELD)
};

struct Caller {
    Place place;
    uint8_t looks;  // the number of its next look; those behind the first nap are one
    uint8_t other;  // its ticket; or the CPU before it, and then the one behind it
    uint8_t stays;  // how often it has slept outside in this call, until it arrives

    bool has_object() const { return place >= RISE; }
    bool is_idle() const { return place == IDLE && stays == 0; }
};

// The words, where each caller is, and, which is no word, who is in line in order of arrival. Tickets are counted from the one
// that is served.
struct State {
    Caller callers[MOST];
    uint8_t resting, tickets, tail, next[MOST], locked[MOST];
    uint8_t line[MOST], length;

    bool is_in_line(int i) const { return memchr(line, i, length) != nullptr; }
};

class Waiting {
public:
    bool is_mcs;
    int callers, long_wait;
    Form form;

    // The caller's next step. False if it has none.
    bool step(State &s, int i) const {
        Caller &c = s.callers[i];
        if ((c.place == ASLEEP && !form.stay_ends) || (c.place == NAP && !form.nap_ends)) return false;
        if (c.place <= COME_IN) stay_outside(s, i);
        else if (c.place <= LINK) arrive(s, i);
        else if (c.place <= RISE) look_on(s, i);
        else release(s, i);
        return true;
    }

    // Whether the words say that it is the turn of a caller in line that hasn't the object yet.
    bool has_turn(const State &s, int i) const {
        const Caller &c = s.callers[i];
        if (c.has_object() || !s.is_in_line(i)) return false;
        return is_mcs ? c.place != ARM && c.place != LINK && !s.locked[i] : c.other == 0;
    }

private:
    bool is_shut(const State &s) const {
        if (form.door == SHUT_BY_NAPS) return s.resting % OUTSIDE;
        return form.door == SHUT_BY_STAYS ? s.resting / OUTSIDE : form.door == SHUT_BY_BOTH ? s.resting : form.door;
    }

    // Goes on there, or stays outside before, if this is the moment.
    void go_on(const State &s, Caller &c, Moment now, Place to) const {
        c.place = now == form.stays && is_shut(s) ? GO_OUT : to;
        if (c.place != GO_OUT) c.stays = 0;
    }

    // `stay_outside` of Resting.
    void stay_outside(State &s, int i) const {
        Caller &c = s.callers[i];
        const Place first = is_mcs ? CLEAR : DRAW;
        if (c.place == IDLE) {
            go_on(s, c, BEFORE_LINE, first);
        } else if (c.place == GO_OUT) {
            s.resting += form.go_out;
            c.place = ASLEEP;
        } else if (c.place == ASLEEP) {
            c.stays = 1;
            c.place = COME_IN;
        } else {
            s.resting += form.come_in;
            c.stays = form.stays_again;
            c.place = form.stays_again ? IDLE : form.stays == BEFORE_LINE ? first : form.stays == AT_ENTER ? ARM : LOOK;
        }
    }

    // `draw` of a ticket lock; `clear`, `enter`, `arm` and `link` of an MCS lock.
    void arrive(State &s, int i) const {
        Caller &c = s.callers[i];
        const Place step = c.place, last = is_mcs ? form.arms_first ? LINK : ARM : DRAW;
        c.looks = 1;
        if (step == DRAW || step == ENTER) s.line[s.length++] = i;
        if (step == DRAW) c.other = s.tickets++;
        if (step == CLEAR) s.next[i] = 0;
        if (step == ARM) s.locked[i] = 1;
        if (step == LINK) s.next[c.other] = i + 1, c.other = 0;
        if (step == ENTER) {
            const int found = s.tail;
            s.tail = i + 1;
            if (found == 0) return hold(c);
            c.other = found - 1;
        }
        const Place to = step == last ? LOOK : step == CLEAR ? ENTER : (step == ENTER) == form.arms_first ? ARM : LINK;
        go_on(s, c, step == last ? IN_LINE : step == ENTER ? AT_ENTER : ELSE, to);
    }

    // A look with `rest` and `rise` of Resting.
    void look_on(State &s, int i) const {
        Caller &c = s.callers[i];
        if (c.place == LOOK) {
            if (has_turn(s, i)) return take(c);
            const int look = c.looks;
            if (look <= long_wait + (form.rises_behind > 0)) c.looks++;
            if (look >= long_wait) c.place = look == long_wait || form.each_nap ? LIE_DOWN : NAP;
        } else if (c.place == LIE_DOWN) {
            s.resting += form.lie_down;
            c.place = NAP;
        } else if (c.place == NAP) {
            if (form.nap_takes) take(c);
            else if (form.nap_looks) c.place = LOOK;
        } else {
            s.resting += form.rise;
            hold(c);
        }
    }

    // Has the object by this look.
    void take(Caller &c) const {
        if (c.looks > long_wait + form.rises_behind) c.place = RISE;
        else hold(c);
    }

    void hold(Caller &c) const { c = Caller{is_mcs ? SEE : SERVE, 0, 0, 0}; }

    // `serve` of a ticket lock, `release` of an MCS lock.
    void release(State &s, int i) const {
        Caller &c = s.callers[i];
        if (c.place == SEE || c.place == SEE_AGAIN) {
            if (s.next[i]) c.other = s.next[i] - 1;
            c.place = s.next[i] ? PASS_ON : c.place == SEE ? EMPTY : SEE_AGAIN;
        } else if (c.place == EMPTY && s.tail != i + 1 && form.waits_follower) {
            c.place = SEE_AGAIN;
        } else {
            if (c.place == SERVE) serve(s);
            if (c.place == EMPTY && s.tail == i + 1) s.tail = 0;
            if (c.place == PASS_ON && form.passes != NOBODY) s.locked[form.passes == ITSELF ? i : c.other] = 0;
            leave(s, i);
        }
    }

    // All tickets are counted from the served one, so each is that much smaller.
    void serve(State &s) const {
        s.tickets = (s.tickets + TICKETS - form.serves) % TICKETS;
        for (int k = 0; k < s.length; k++) {
            Caller &c = s.callers[s.line[k]];
            c.other = (c.other + TICKETS - form.serves) % TICKETS;
        }
    }

    static void leave(State &s, int i) {
        uint8_t *at = static_cast<uint8_t *>(memchr(s.line, i, s.length));
        memmove(at, at + 1, s.line + s.length - at - 1);
        s.line[--s.length] = 0;
        s.callers[i] = Caller{};
    }
};
