/* The four kinds of objects that mc2 has: how their calls and replies are spelled, and what an object answers.
   docs/FORMATS.md has both. */
#ifndef SECOND_JUDGE_KERNEL_H
#define SECOND_JUDGE_KERNEL_H

#include "text.h"

enum { MOST_THREADS = 1024, MOST_PAGES = 4096, MOST_BYTES = 4096, MOST_CHANNELS = 64, OWNERS = 16 };
enum kind { QUEUE, POOL, CONSOLE, SCHED, KINDS };

/* ---- Words. Both lists are in the order of the first letters, no word begins a later one, and an empty one is at each end. */

enum call_word {
    NO_CALL, ALLOC, DEQ, ENQ, FREE, GET, LEN, LEFT, LEVEL, NEXT, PUT, READY, REMOVE, SLEEP, WAKEALL, WAKE, CALL_WORDS
};

enum reply_word {
    NO_REPLY, ALREADY, ABSENT, BYTE, BADCALL, BADCHANNEL, BADOWNER, BADPAGE, BADTHREAD, COUNT, DROPPED, EMPTY,
    NONE, NOTTAKEN, NOTYOURS, OK, OVERQUOTA, PAGE, THREAD, REPLY_WORDS
};

/* A word, and ones in the place of its first 8 bytes; how many numbers follow and the most that each may be; the kind of object
   that answers the call, or whether the reply refuses. */
struct spelling {
    uint64_t ones;
    char word[12];
    uint8_t length, numbers;
    uint16_t of;
    uint32_t most;
};

#define SPELL(word, numbers, most, of)                                                                                         \
    {sizeof word > 8 ? UINT64_MAX : UINT64_MAX >> (72 - 8 * sizeof word) % 64, word, sizeof word - 1, numbers, of, most}

static const struct spelling call_words[] = {
    [ALLOC] = SPELL("alloc", 1, UINT32_MAX, POOL),   [DEQ] = SPELL("deq", 0, 0, QUEUE),
    [ENQ] = SPELL("enq", 1, UINT32_MAX, QUEUE),      [FREE] = SPELL("free", 2, UINT32_MAX, POOL),
    [GET] = SPELL("get", 0, 0, CONSOLE),             [LEN] = SPELL("len", 0, 0, QUEUE),
    [LEFT] = SPELL("left", 0, 0, POOL),              [LEVEL] = SPELL("level", 0, 0, CONSOLE),
    [NEXT] = SPELL("next", 0, 0, SCHED),             [PUT] = SPELL("put", 1, UINT8_MAX, CONSOLE),
    [READY] = SPELL("ready", 1, UINT32_MAX, SCHED),  [REMOVE] = SPELL("remove", 1, UINT32_MAX, QUEUE),
    [SLEEP] = SPELL("sleep", 2, UINT32_MAX, SCHED),  [WAKEALL] = SPELL("wakeall", 1, UINT32_MAX, SCHED),
    [WAKE] = SPELL("wake", 1, UINT32_MAX, SCHED),    [CALL_WORDS] = SPELL("", 0, 0, 0)};

static const struct spelling reply_words[] = {
    [ALREADY] = SPELL("already", 0, 0, true),        [ABSENT] = SPELL("absent", 0, 0, true),
    [BYTE] = SPELL("byte", 1, UINT8_MAX, false),     [BADCALL] = SPELL("badcall", 0, 0, true),
    [BADCHANNEL] = SPELL("badchannel", 0, 0, true),  [BADOWNER] = SPELL("badowner", 0, 0, true),
    [BADPAGE] = SPELL("badpage", 0, 0, true),        [BADTHREAD] = SPELL("badthread", 0, 0, true),
    [COUNT] = SPELL("count", 1, UINT32_MAX, false),  [DROPPED] = SPELL("dropped", 1, UINT8_MAX, false),
    [EMPTY] = SPELL("empty", 0, 0, true),            [NONE] = SPELL("none", 0, 0, true),
    [NOTTAKEN] = SPELL("nottaken", 0, 0, true),      [NOTYOURS] = SPELL("notyours", 0, 0, true),
    [OK] = SPELL("ok", 0, 0, false),                 [OVERQUOTA] = SPELL("overquota", 0, 0, true),
    [PAGE] = SPELL("page", 1, UINT32_MAX, false),    [THREAD] = SPELL("thread", 1, UINT32_MAX, false),
    [REPLY_WORDS] = SPELL("", 0, 0, 0)};

/* The first word with that letter. */
static const uint8_t first_calls[256] = {['a'] = ALLOC, ['d'] = DEQ,  ['e'] = ENQ, ['f'] = FREE,  ['g'] = GET,  ['l'] = LEN,
                                         ['n'] = NEXT,  ['p'] = PUT, ['r'] = READY, ['s'] = SLEEP, ['w'] = WAKEALL};
static const uint8_t first_replies[256] = {['a'] = ALREADY, ['b'] = BYTE, ['c'] = COUNT, ['d'] = DROPPED, ['e'] = EMPTY,
                                           ['n'] = NONE,    ['o'] = OK,   ['p'] = PAGE,  ['t'] = THREAD};

struct call {
    uint32_t word;
    uint64_t first, second;
};

struct reply {
    uint32_t word;
    uint64_t number;
};

static inline bool are_same_replies(struct reply one, struct reply other) {
    return one.word == other.word && one.number == other.number;
}

static inline uint64_t first_bytes(const void *p) {
    uint64_t bytes;
    memcpy(&bytes, p, sizeof bytes);
    return bytes;
}

/* The first word that the text at `p` begins with, or 0. At least 8 bytes must follow. */
static inline uint32_t find_word(const struct spelling *words, const uint8_t *first, const uint8_t *p) {
    uint32_t at = first[*p];
    do {
        const struct spelling *it = &words[at];
        if ((first_bytes(p) & it->ones) == first_bytes(it->word) &&
            (it->length <= 8 || memcmp(p + 8, it->word + 8, it->length - 8u) == 0))
            return at;
    } while (words[++at].word[0] == (char)*p);
    return 0;
}

/* A number of up to 10 digits after a space. */
static inline const uint8_t *short_number(const uint8_t *p, uint32_t most, uint64_t *value) {
    uint64_t sum = 0;
    if (*p++ != ' ')
        return NULL;
    const uint8_t *from = p;
    for (uint8_t digit; (digit = (uint8_t)(*p - '0')) < 10; p++)
        sum = sum * 10 + digit;
    *value = sum;
    return sum <= most && (p - from == 1 || (*from != '0' && p - from > 1 && p - from <= 10)) ? p : NULL;
}

static inline const uint8_t *kernel_call(const uint8_t *p, struct call *call) {
    uint32_t word = find_word(call_words, first_calls, p);
    const struct spelling *it = &call_words[word];
    *call = (struct call){word, 0, 0};
    if (!word)
        return NULL;
    p += it->length;
    if (it->numbers > 0)
        p = short_number(p, it->most, &call->first);
    return it->numbers > 1 && p ? short_number(p, it->most, &call->second) : p;
}

static inline const uint8_t *kernel_reply(const uint8_t *p, struct reply *reply) {
    uint32_t word = find_word(reply_words, first_replies, p);
    const struct spelling *it = &reply_words[word];
    *reply = (struct reply){word, 0};
    if (!word)
        return NULL;
    p += it->length;
    return it->numbers > 0 ? short_number(p, it->most, &reply->number) : p;
}

/* ---- What an object is opened with: pages, bytes or threads; then channels, or the quotas of the owners. */

struct params {
    enum kind kind;
    uint32_t size, more[OWNERS];
};

static bool take_numbers(const uint64_t *numbers, uint64_t count, uint64_t least, uint64_t most, uint32_t *to) {
    for (uint64_t at = 0; at < count; at++) {
        if (numbers[at] < least || numbers[at] > most)
            return false;
        to[at] = (uint32_t)numbers[at];
    }
    return true;
}

/* Whether an object is opened with these. */
static bool take_params(const uint8_t *kind, const uint64_t *numbers, uint64_t count, struct params *params) {
    static const struct {
        const char *word;
        uint64_t most, others, least_other, most_other;
    } kinds[] = {[QUEUE] = {"queue", MOST_THREADS, 0, 0, 0},
                 [POOL] = {"pool", MOST_PAGES, OWNERS, 0, MOST_PAGES},
                 [CONSOLE] = {"console", MOST_BYTES, 0, 0, 0},
                 [SCHED] = {"sched", MOST_THREADS, 1, 1, MOST_CHANNELS}};
    uint32_t at = QUEUE;
    while (at < KINDS && !mc2_priv_is_word(kind, kinds[at].word))
        at++;
    params->kind = (enum kind)at;
    return at < KINDS && count == 1 + kinds[at].others && take_numbers(numbers, 1, 1, kinds[at].most, &params->size) &&
           take_numbers(numbers + 1, count - 1, kinds[at].least_other, kinds[at].most_other, params->more);
}

/* ---- Answers */

/* Lists of threads, each thread in one at most: the lists of the channels, and last the ready list, or the queue. The places at
   the end are the heads of the lists. */
enum { LISTS = MOST_CHANNELS + 1, READY_LIST = MOST_CHANNELS, PLACES = MOST_THREADS + LISTS, OUT = UINT16_MAX };
enum { FREE_PAGE = UINT8_MAX };

struct lists {
    uint16_t after[PLACES], before[PLACES];
    uint32_t counts[LISTS];
};

struct pool {
    uint8_t owners[MOST_PAGES];
    /* How many pages are free, and a page below which none is. */
    uint32_t left, lowest;
};

struct console {
    uint8_t bytes[MOST_BYTES];
    uint32_t first, count;
};

struct object {
    /* `more` of a pool is how many more each owner may have. */
    struct params params;
    union {
        struct lists lists;
        struct pool pool;
        struct console console;
    };
};

static inline void link_places(struct lists *lists, uint32_t one, uint32_t other) {
    lists->after[one] = (uint16_t)other;
    lists->before[other] = (uint16_t)one;
}

static void open_object(struct object *object, const struct params *params) {
    object->params = *params;
    if (params->kind == POOL) {
        memset(object->pool.owners, FREE_PAGE, sizeof object->pool.owners);
        object->pool.left = params->size;
        object->pool.lowest = 0;
    } else if (params->kind == CONSOLE) {
        object->console.first = object->console.count = 0;
    } else {
        memset(object->lists.after, 0xff, sizeof object->lists.after);
        memset(object->lists.counts, 0, sizeof object->lists.counts);
        for (uint32_t list = 0; list < LISTS; list++)
            link_places(&object->lists, MOST_THREADS + list, MOST_THREADS + list);
    }
}

static inline struct reply say(uint32_t word, uint64_t number) { return (struct reply){word, number}; }

static inline struct reply add_thread(struct object *object, uint64_t list, uint64_t thread) {
    struct lists *lists = &object->lists;
    uint32_t head = MOST_THREADS + (uint32_t)list;
    if (thread >= object->params.size)
        return say(BADTHREAD, 0);
    if (lists->after[thread] != OUT)
        return say(ALREADY, 0);
    link_places(lists, lists->before[head], (uint32_t)thread);
    link_places(lists, (uint32_t)thread, head);
    lists->counts[list]++;
    return say(OK, 0);
}

static inline void take_thread(struct lists *lists, uint64_t list, uint64_t thread) {
    link_places(lists, lists->before[thread], lists->after[thread]);
    lists->after[thread] = OUT;
    lists->counts[list]--;
}

static inline struct reply take_first(struct lists *lists, uint64_t list) {
    uint32_t thread = lists->after[MOST_THREADS + list];
    if (thread >= MOST_THREADS)
        return say(EMPTY, 0);
    take_thread(lists, list, thread);
    return say(THREAD, thread);
}

static inline struct reply remove_thread(struct object *object, uint64_t thread) {
    if (thread >= object->params.size)
        return say(BADTHREAD, 0);
    if (object->lists.after[thread] == OUT)
        return say(ABSENT, 0);
    take_thread(&object->lists, READY_LIST, thread);
    return say(OK, 0);
}

static inline struct reply wake(struct object *object, uint64_t channel) {
    struct reply reply = take_first(&object->lists, channel);
    if (reply.word == THREAD)
        add_thread(object, READY_LIST, reply.number);
    return reply;
}

static struct reply wake_all(struct lists *lists, uint64_t channel) {
    uint32_t moved = lists->counts[channel], from = MOST_THREADS + (uint32_t)channel, to = MOST_THREADS + READY_LIST;
    if (moved > 0) {
        link_places(lists, lists->before[to], lists->after[from]);
        link_places(lists, lists->before[from], to);
        link_places(lists, from, from);
        lists->counts[READY_LIST] += moved;
        lists->counts[channel] = 0;
    }
    return say(COUNT, moved);
}

static inline struct reply alloc_page(struct pool *pool, uint32_t *more, uint64_t owner) {
    if (owner >= OWNERS)
        return say(BADOWNER, 0);
    if (pool->left == 0)
        return say(NONE, 0);
    if (more[owner] == 0)
        return say(OVERQUOTA, 0);
    while (pool->owners[pool->lowest] != FREE_PAGE)
        pool->lowest++;
    pool->owners[pool->lowest] = (uint8_t)owner;
    pool->left--;
    more[owner]--;
    return say(PAGE, pool->lowest++);
}

static inline struct reply free_page(struct object *object, uint64_t owner, uint64_t page) {
    struct pool *pool = &object->pool;
    if (owner >= OWNERS)
        return say(BADOWNER, 0);
    if (page >= object->params.size)
        return say(BADPAGE, 0);
    if (pool->owners[page] == FREE_PAGE)
        return say(NOTTAKEN, 0);
    if (pool->owners[page] != owner)
        return say(NOTYOURS, 0);
    pool->owners[page] = FREE_PAGE;
    pool->left++;
    object->params.more[owner]++;
    pool->lowest = page < pool->lowest ? (uint32_t)page : pool->lowest;
    return say(OK, 0);
}

static inline uint8_t take_byte(struct console *console) {
    console->count--;
    return console->bytes[console->first++ % MOST_BYTES];
}

static inline struct reply put_byte(struct object *object, uint64_t byte) {
    struct console *console = &object->console;
    struct reply reply = say(OK, 0);
    if (console->count == object->params.size)
        reply = say(DROPPED, take_byte(console));
    console->bytes[(console->first + console->count++) % MOST_BYTES] = (uint8_t)byte;
    return reply;
}

static inline struct reply answer_sched(struct object *object, const struct call *call) {
    if (call->first >= object->params.more[0])
        return say(BADCHANNEL, 0);
    if (call->word == SLEEP)
        return add_thread(object, call->first, call->second);
    return call->word == WAKE ? wake(object, call->first) : wake_all(&object->lists, call->first);
}

static inline struct reply answer(struct object *object, const struct call *call) {
    if (call_words[call->word].of != object->params.kind)
        return say(BADCALL, 0);
    switch (call->word) {
    case ENQ:
    case READY:
        return add_thread(object, READY_LIST, call->first);
    case DEQ:
    case NEXT:
        return take_first(&object->lists, READY_LIST);
    case REMOVE:
        return remove_thread(object, call->first);
    case LEN:
        return say(COUNT, object->lists.counts[READY_LIST]);
    case ALLOC:
        return alloc_page(&object->pool, object->params.more, call->first);
    case FREE:
        return free_page(object, call->first, call->second);
    case LEFT:
        return say(COUNT, object->pool.left);
    case PUT:
        return put_byte(object, call->first);
    case GET:
        return object->console.count > 0 ? say(BYTE, take_byte(&object->console)) : say(EMPTY, 0);
    case LEVEL:
        return say(COUNT, object->console.count);
    default:
        return answer_sched(object, call);
    }
}

#endif
