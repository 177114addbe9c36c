"""What logs and transcripts say of each other, whatever the replies are: which event is which entry's, an order that keeps all
of them, and of a record 3 that nobody judged its first fault or a cycle."""
import heapq
from array import array
from collections import defaultdict

from texts.record import steps_of
from view.verdict import Verdict, places


class Claims:
    """Of each CPU's entries the events in the log, from 1, and of each log's events the CPU's entries; 0 where there is none. A
    CPU's done entries on an object, in order, have its events there, in order. Where the record is unsound some have none, and
    an entry without room may have come too early: an event of its CPU was left."""

    def __init__(self, record):
        self.record, self.early = record, set()
        self.events = [array("I", bytes(4 * len(its))) for its in record.transcripts]
        self.entries = [array("I", bytes(4 * len(log))) for log in record.logs]
        # (of each CPU's events on an object the first is the last here)
        left = defaultdict(lambda: array("I"))
        for number, log in enumerate(record.logs):
            for event in range(len(log), 0, -1):
                left[number, log[event - 1].cpu].append(event)
        for cpu, transcript in enumerate(record.transcripts):
            for entry, it in enumerate(transcript, 1):
                its = left[it.object, cpu]
                if its and it.done is None:
                    self.early.add((cpu, entry))
                elif its:
                    event = its.pop()
                    self.events[cpu][entry - 1], self.entries[it.object][event - 1] = event, entry

    def event_of(self, cpu, entry):
        return self.events[cpu][entry - 1]

    def entry_of(self, number, event):
        return self.entries[number][event - 1]


class Placing:
    """Places entries as long as one can come, at each place that of the least CPU. With an event an entry comes behind all that
    have an earlier one in its log, and without an event behind all that have one."""

    def __init__(self, claims):
        self.claims, self.record, self.order = claims, claims.record, places()
        # (how many entries of each CPU are placed, and how many events of each log are behind)
        self.placed, self.behind = ([0] * len(its) for its in (self.record.transcripts, self.record.logs))
        # (at least these CPUs' next entries can come)
        ready = list(range(len(self.placed)))
        while ready:
            cpu = heapq.heappop(ready)
            if self.is_left(cpu) and self.first(cpu) == self.next(cpu):
                for it in self.place(cpu):
                    heapq.heappush(ready, it)

    def is_left(self, cpu):
        return self.placed[cpu] < len(self.record.transcripts[cpu])

    def next(self, cpu):
        return cpu, self.placed[cpu] + 1

    def next_of_log(self, number):
        """The entry of the log's next event, or None behind its last. An event without an entry is passed over."""
        cpus, entries = self.record.logs[number].columns[0], self.claims.entries[number]
        while self.behind[number] < len(entries):
            if entry := entries[self.behind[number]]:
                return cpus[self.behind[number]], entry
            self.behind[number] += 1
        return None

    def object(self, cpu):
        return self.record.transcripts[cpu].columns[0][self.placed[cpu]]

    def first(self, cpu):
        """The entry that has to come before this CPU's next one, or that one itself."""
        return self.next_of_log(self.object(cpu)) or self.next(cpu)

    def place(self, cpu):
        """Places this CPU's next entry. The CPUs whose next entries may come now."""
        number = self.object(cpu)
        self.order.append(*self.next(cpu))
        self.placed[cpu] += 1
        if not self.next_of_log(number):
            return [cpu]
        self.behind[number] += 1
        first = self.next_of_log(number)
        return [cpu, first[0]] if first else range(len(self.placed))

    def is_whole(self):
        return not any(map(self.is_left, range(len(self.placed))))

    def cycle(self):
        """From the least CPU with entries left on each is followed by the one that holds it up, until one comes again."""
        cpu, walk = next(filter(self.is_left, range(len(self.placed)))), []
        while cpu not in walk:
            walk.append(cpu)
            cpu = self.first(cpu)[0]
        walk = walk[walk.index(cpu):]
        least = walk.index(min(walk))
        return [self.next(cpu) for cpu in walk[least:] + walk[:least]]


def verdict_by_claims(record, claims):
    """The verdict on a record 3 without a judge: as if each reply were right, but those of steps behind one that refused."""
    fault, placing = next(faults(record, claims), None), Placing(claims)
    found = {"fault": fault} if fault else {"order": placing.order} if placing.is_whole() else {"cycle": placing.cycle()}
    return Verdict(**found, is_judged=False)


def faults(record, claims):
    for named, log in zip(record.objects, record.logs):
        if len(log) > named.events:
            yield f"log {named.name}: too long"
        for event, (_, steps) in enumerate(log, 1):
            for step, (_, reply) in enumerate(steps_of(steps)[:-1], 2):
                if reply.split(" ", 1)[0] in record.refuses:
                    yield f"log {named.name} event {event} step {step}: wrong step"
    for cpu, transcript in enumerate(record.transcripts):
        for number, it in enumerate(transcript, 1):
            what = entry_fault(record, claims, (cpu, number), it)
            if what:
                yield f"cpu {cpu} entry {number}: {what}"
    for number, log in enumerate(record.logs):
        for event in range(1, len(log) + 1):
            if not claims.entry_of(number, event):
                yield f"log {record.objects[number].name} event {event}: unclaimed"


def entry_fault(record, claims, place, entry):
    log, event = record.logs[entry.object], claims.event_of(*place)
    if entry.done is None:
        return "room was left" if len(log) < record.objects[entry.object].events or place in claims.early else None
    if not event or log[event - 1].steps != entry.done:
        return "not its event"
    asked, done = entry.asked.split(" ; "), steps_of(entry.done)
    calls = [call for call, _ in done]
    is_whole = len(calls) == len(asked) or done[-1][1].split(" ", 1)[0] in record.refuses
    return None if calls == asked[: len(calls)] and is_whole else "not what was asked"
