"""The four kinds of objects in plain Python: what each answers to a call (docs/FORMATS.md). Calls and replies are a word and its
numbers, as ("enq", 3). The checks of `view` answer by it."""

from texts.calls import CALLS, GOING_ON


def refuses(reply):
    return reply[0] not in GOING_ON


def value_of(text):
    """A call or a reply as a word and its numbers."""
    word, *numbers = text.split(" ")
    return (word, *map(int, numbers))


def steps_of(text):
    """The steps of an event, each a call and its reply."""
    return [tuple(map(value_of, step.split(" = "))) for step in text.split(" ; ")]


class Queue:
    def __init__(self, threads):
        self.threads, self.list = threads, []

    def enq(self, t):
        if t >= self.threads:
            return ("badthread",)
        if t in self.list:
            return ("already",)
        self.list.append(t)
        return ("ok",)

    def deq(self):
        return ("thread", self.list.pop(0)) if self.list else ("empty",)

    def remove(self, t):
        if t >= self.threads:
            return ("badthread",)
        if t not in self.list:
            return ("absent",)
        self.list.remove(t)
        return ("ok",)

    def len(self):
        return ("count", len(self.list))


class Pool:
    def __init__(self, pages, *quotas):
        self.owners, self.quotas = [None] * pages, quotas

    def alloc(self, o):
        if o > 15:
            return ("badowner",)
        if None not in self.owners:
            return ("none",)
        if self.owners.count(o) >= self.quotas[o]:
            return ("overquota",)
        p = self.owners.index(None)
        self.owners[p] = o
        return ("page", p)

    def free(self, o, p):
        if o > 15:
            return ("badowner",)
        if p >= len(self.owners):
            return ("badpage",)
        if self.owners[p] is None:
            return ("nottaken",)
        if self.owners[p] != o:
            return ("notyours",)
        self.owners[p] = None
        return ("ok",)

    def left(self):
        return ("count", self.owners.count(None))


class Console:
    def __init__(self, room):
        self.room, self.bytes = room, []

    def put(self, b):
        self.bytes.append(b)
        return ("ok",) if len(self.bytes) <= self.room else ("dropped", self.bytes.pop(0))

    def get(self):
        return ("byte", self.bytes.pop(0)) if self.bytes else ("empty",)

    def level(self):
        return ("count", len(self.bytes))


class Sched:
    def __init__(self, threads, channels):
        self.threads, self.ready_list, self.channels = threads, [], [[] for _ in range(channels)]
        self.stands = set()

    def put(self, t, place):
        if t >= self.threads:
            return ("badthread",)
        if t in self.stands:
            return ("already",)
        self.stands.add(t)
        place.append(t)
        return ("ok",)

    def ready(self, t):
        return self.put(t, self.ready_list)

    def next(self):
        if not self.ready_list:
            return ("empty",)
        t = self.ready_list.pop(0)
        self.stands.remove(t)
        return ("thread", t)

    def sleep(self, c, t):
        return ("badchannel",) if c >= len(self.channels) else self.put(t, self.channels[c])

    def wake(self, c):
        if c >= len(self.channels):
            return ("badchannel",)
        if not self.channels[c]:
            return ("empty",)
        t = self.channels[c].pop(0)
        self.ready_list.append(t)
        return ("thread", t)

    def wakeall(self, c):
        if c >= len(self.channels):
            return ("badchannel",)
        count = len(self.channels[c])
        self.ready_list += self.channels[c]
        self.channels[c] = []
        return ("count", count)


KINDS = {"queue": Queue, "pool": Pool, "console": Console, "sched": Sched}


def apply(target, call):
    name, *numbers = call
    kind, _ = CALLS[name.encode()]
    return getattr(target, name)(*numbers) if isinstance(target, KINDS[kind]) else ("badcall",)


def opened(named):
    """An object of a record, as it is at its first event."""
    return KINDS[named.kind](*named.numbers)
