"""Calls and replies, as scripts and records have them."""
from texts.line import MOST_NUMBER, shown

# Each kind of object: what its calls take, and the replies that each may get beside `badcall`.
KINDS = {
    "queue": {"enq T": "ok badthread already", "deq": "thread empty", "remove T": "ok badthread absent", "len": "count"},
    "pool": {"alloc O": "page badowner none overquota", "free O P": "ok badowner badpage nottaken notyours", "left": "count"},
    "console": {"put B": "ok dropped", "get": "byte empty", "level": "count"},
    "sched": {"ready T": "ok badthread already", "next": "thread empty", "sleep C T": "ok badchannel badthread already",
              "wake C": "thread badchannel empty", "wakeall C": "count badchannel"},
}
# What replies take. All others take nothing, and refuse but for `ok`.
TAKES = {"thread": "T", "count": "N", "page": "P", "dropped": "B", "byte": "B"}
GOING_ON = {"ok", *TAKES}
CALLS = {word.encode(): (kind, takes) for kind, calls in KINDS.items() for word, *takes in map(str.split, calls)}
# Calls that change nothing.
LOOKS = {call for calls in KINDS.values() for call, replies in calls.items() if replies == "count"}
WORDS = dict.fromkeys(it for calls in KINDS.values() for replies in calls.values() for it in replies.split())
REFUSING = [it for it in WORDS if it not in GOING_ON] + ["badcall"]
REPLIES = {it.encode(): list(TAKES.get(it, "")) for it in [*(it for it in WORDS if it in GOING_ON), *REFUSING]}
NAMES = {"T": "a thread", "O": "an owner", "P": "a page", "B": "a byte", "C": "a channel", "N": "a count"}
MOST_CALLS = 8


def call_forms(kind=None):
    """The calls of that kind of object, or of all, as one writes them."""
    forms = [" ".join([word.decode(), *takes]) for word, (of, takes) in CALLS.items() if kind in (None, of)]
    return ", ".join(f"`{it}`" for it in forms)


def read_numbers(line, names):
    return [line.number_up_to(NAMES[it], 0, 255 if it == "B" else MOST_NUMBER) for it in names]


def read_call(line, kind=None):
    """A call of any kind. The kind is that of its object, to say which calls are of use there."""
    other = f" of this {kind}, or one of another kind, which is answered `badcall`" if kind else ""
    wanted = f"a call: {call_forms(kind)}{other}"
    word = line.take(wanted, lambda it: it in CALLS)
    read_numbers(line, CALLS[word][1])


def read_step(line, form, kind=None):
    """A call with its reply."""
    read_call(line, kind)
    line.key(b"=", "`=` and the reply")
    replies = [it for it in REPLIES if form == 2 or it != b"overquota"]
    forms = ", ".join(f"`{' '.join([it.decode(), *REPLIES[it]])}`" for it in replies)
    word = line.take(f"a reply: {forms}", lambda it: it in replies)
    read_numbers(line, REPLIES[word])


def read_list(line, read_one, ends, wanted_end):
    """One to eight, parted by semicolons, up to the end or the mark that `ends` tells."""
    count = 1
    read_one(line)
    while not ends(line.left()):
        more = "`;` and one more" if count < MOST_CALLS else None
        wanted = " or ".join(it for it in (more, wanted_end) if it)
        why = f"{shown(b';')}, though {MOST_CALLS} is the most" if count == MOST_CALLS else None
        line.take(wanted, lambda it: it == b";" and count < MOST_CALLS, lambda word: why if word == b";" else None)
        read_one(line)
        count += 1
