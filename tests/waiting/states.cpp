// use: states LOCK CALLERS LONG_WAIT all|PROPERTY [CHOICE=NUMBER]..
//
// Tries a model of the waiting at a ticket lock or an MCS lock: every interleaving of 2 to 4 callers, each with any number of
// calls. Prints `accepted STATES` if that form of the waiting has the property, or else `refused STEPS` and the shortest way
// there, a step a line. The status is 0 or 1, or 2 for wrong words. CMakeLists.txt has the forms that are tried.
//
// The model is written by hand from crates/word_rule/src/resting.rt and, of each lock's crate, src/whole.rt, src/lock.rt and
// src/steps.rt. It isn't proved to be that code: read steps.hpp beside it. digest.sh sees that no function that waits has
// changed since. If you change one, read both again, and write its digest into CMakeLists.txt.
//
// A step is one operation on one word, of the lock or `resting`, or the end of a sleep. The steps have one order, as the kit's
// atomics do. A sleep ends at any time, early or arbitrarily late, but it ends. Between two calls a caller may begin another,
// or never do. Tries are left out, since they wait for nothing. The properties, in all states that can be reached:
//
//   order    who has the object is the first of those in line: of those who came by a draw or an enter, in that order, and haven't
//            given it back; so one has it at a time
//   naps     the low half of `resting` is the number of callers between their first nap and their rising
//   stays    its high half is the number of callers asleep outside; so both are 0 once all calls are done
//   door     who comes goes outside exactly if somebody naps in line at that moment
//   once     nobody sleeps outside twice in one call
//   awake    nobody in line sleeps outside
//   turn     whose turn has come keeps it, and has the object by its next look: that is its next step, or the one after its timer, or
//            a nap that it was about to begin comes before
//   forever  every call ends, in every fair run
//
// A run is a way through the graph whose points are the states and whose arrows are the steps of callers. It is fair if no
// caller is in a call and has a step from some point on without ever taking one. Let c be a caller, and take from the graph
// the arrows by which a call of c ends. A fair run in which a call of c never ends stays in one strongly connected part of
// what is left from some point on. In that part c is in a call; and each caller has an arrow in it, is between two calls at
// some state of it, or has no step at some state of it. Conversely a part of this kind is such a run, as one way goes through
// all its arrows again and again. A state in which nobody has a step, though a call hasn't ended, is a part of one point. So
// the property holds exactly if there is no such part. Since callers are alike, c is the first one.
//
// In the code a caller naps after look 120, here after look 1 or 2. Take out all looks in vain before a call's first nap but
// one or two, and a run of the code is one of the model: they differ in their number alone. With one caller more a wrong form
// is refused too, as that one may never call. Nothing follows for five callers, nor of how long anything takes.
#include "graph.hpp"
#include "judge.hpp"
#include <cstdio>
#include <cstdlib>
#include <string>

#define NAME(name, text) #name,
#define STEP(name, text) text,
#define PROPERTY(name) #name,
#define CHOOSE(name, value) \
    if (word.substr(0, at) == #name) return form.name = number, true;
static const char *const PLACE_NAMES[] = {PLACES(NAME)}, *const STEP_NAMES[] = {PLACES(STEP)};
static const std::string PROPERTY_NAMES[] = {PROPERTIES(PROPERTY)};

// Makes a choice, if the word is one.
static bool choose(Form &form, const std::string &word) {
    const size_t at = word.find('=');
    const int number = atoi(word.c_str() + at + 1);
    CHOICES(CHOOSE)
    return false;
}

static void print_way(const Graph &graph, const Way &way) {
    for (size_t k = 1; k < way.size(); k++) {
        int i = 0;
        while (graph.next(way[k - 1], i) != way[k]) i++;
        const State &s = graph.states[way[k]];
        printf("caller %d: %-28s", i, STEP_NAMES[graph.states[way[k - 1]].callers[i].place]);
        for (int j = 0; j < graph.waiting.callers; j++) printf(" %-9s", PLACE_NAMES[s.callers[j].place]);
        printf(" resting %d and %d\n", s.resting % OUTSIDE, s.resting / OUTSIDE);
    }
}

static int refuse(const Graph &graph, const Way &way) {
    printf("refused %zu\n", way.size() - 1);
    print_way(graph, way);
    return 1;
}

int main(int count, char **words) {
    if (count < 5) return 2;
    Waiting waiting{words[1] == std::string("mcs"), atoi(words[2]), atoi(words[3]), {}};
    for (int k = 5; k < count; k++)
        if (!choose(waiting.form, words[k])) return 2;
    int property = all;
    while (PROPERTY_NAMES[property] != words[4])
        if (++property > forever) return 2;
    const Judge judge{waiting, Property(property)};
    Graph graph(waiting);
    auto is_wrong = [&](const State &before, int i, const State &after) { return judge.is_wrong(before, i, after); };
    const Way way = graph.search(is_wrong);
    if (!way.empty()) return refuse(graph, way);
    const uint32_t found = judge.asks(forever) ? Endless(graph).search() : NONE;
    if (found == NONE) return printf("accepted %zu\n", graph.states.size()), 0;
    refuse(graph, graph.way_to(found));
    return puts("and from there on a call of caller 0 may never end"), 1;
}
