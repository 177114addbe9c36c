"""What is drawn: rows, and boxes in them, each at a place from left to right. Pictures, pages and traces draw just these.

With an order (`is_order`) the rows are CPUs, and a box's place is its entry's place in the order. A sound record's order is the
judge's. For one that is unsound it is one that the logs allow whatever the replies are. Without an order, for a cycle above
all, there is a row for each log and one for each CPU; a box's place is then its number in its row."""
from array import array
from functools import cached_property, lru_cache
from typing import NamedTuple

from texts.record import KEYS, Columns
from view.asked import bad_verdict
from view.claims import Claims, Placing, verdict_by_claims
from view.held import held_at, held_before, right_reply
from view.verdict import cut

MOST_HELD, MOST_LETTERS = 3000, 180  # the most events of whose objects a page says what they held; and how much of each


class Box(NamedTuple):
    row: int
    at: int      # the place in its row, from 1
    cpu: int
    entry: int   # the number in the CPU's transcript, from 1; 0 if no entry claims this event
    object: int
    looks: int
    event: int   # the number in the object's log, from 1; 0 if there is none
    text: str    # what was asked and answered

    def is_noroom(self):
        return " = " not in self.text


def kept(boxes):
    found = Columns(Box, *map(array, "HIBIBQI"), [])
    for box in boxes:
        found.append(*box)
    return found


class Model:
    all_entries = "all entries"

    def __init__(self, record, verdict, mc2=None):
        """Without a verdict the record is one of objects of the writer's own. mc2 is asked for a right reply."""
        self.record, self.mc2, self.claims, self.right = record, mc2, Claims(record), None
        self.verdict = verdict or verdict_by_claims(record, self.claims)
        if not self.verdict.is_of(record):
            raise bad_verdict("it is of another record")
        self.note = "note" if record.form == 3 else "looks"

    @cached_property
    def order(self):
        """An order of all entries in which each log and each transcript keeps its own, or None if there is none, or if the
        first fault is an event without an entry. It is that of `mc2 merge`, if the record is sound."""
        if self.verdict.order is not None:
            return self.verdict.order
        if self.verdict.cycle or self.verdict.fault and self.verdict.fault.what in ("unclaimed", "too long"):
            return None
        placing = Placing(self.claims)
        return placing.order if placing.is_whole() else None

    @cached_property
    def is_order(self):
        return self.order is not None

    @cached_property
    def rows(self):
        cpus = [f"CPU {cpu}" for cpu in range(self.record.cpus)]
        return cpus if self.is_order else [f"log {named.name}" for named in self.record.objects] + cpus

    @cached_property
    def boxes(self):
        return kept(self.in_order() if self.is_order else self.apart())

    @cached_property
    def marked(self):
        return [at for at, box in enumerate(self.boxes) if self.is_marked(box, not self.is_order)]

    def entry(self, row, at, cpu, number):
        it, event = self.record.transcripts[cpu][number - 1], self.claims.event_of(cpu, number)
        text, logged = worded(it.asked, it.done), self.record.logs[it.object][event - 1].steps if event else None
        if event and logged != it.done:  # (then the record is unsound)
            text = f"{it.asked} | {it.done} | {logged}"
        return Box(row, at, cpu, self.entry_number(cpu, number), it.object, it.looks, self.number_of(event, it.object), text)

    def in_order(self):
        for at, (cpu, number) in enumerate(self.order, 1):
            yield self.entry(cpu, at, cpu, number)

    def apart(self):
        for number, log in enumerate(self.record.logs):
            for event, (cpu, steps) in enumerate(log, 1):
                entry = self.claims.entry_of(number, event)
                looks = self.record.transcripts[cpu][entry - 1].looks if entry else 0
                named = self.entry_number(cpu, entry), number, looks, self.number_of(event, number)
                yield Box(number, event, cpu, *named, steps)
        for cpu, transcript in enumerate(self.record.transcripts):
            for number in range(1, len(transcript) + 1):
                yield self.entry(len(self.record.logs) + cpu, number, cpu, number)

    def number_of(self, event, number):
        """The number of an event in its log, and below that of an entry in its transcript, as they are shown."""
        return event

    def entry_number(self, cpu, entry):
        return entry

    def events_of(self, number):
        return len(self.record.logs[number])

    def mark(self):
        """What a box is that is marked."""
        return "in the cycle" if self.verdict.cycle else "the first fault"

    def is_marked(self, box, is_apart):
        """Whether the box has the first fault, or is an entry of the cycle. Apart, an event has a box in its log too."""
        fault, cycle = self.verdict.fault, self.verdict.cycle
        is_log = is_apart and box.row < len(self.record.logs)
        if not fault or fault.log is None:
            wanted = cycle or [(fault.cpu, fault.entry)] if fault or cycle else []
            return not is_log and (box.cpu, box.entry) in wanted
        named = self.record.objects[box.object]
        return is_log >= is_apart and named.name == fault.log and box.event == (fault.event or named.events + 1)

    def is_bad(self):
        return self.verdict.order is None

    def title(self):
        cpus, entries = self.record.cpus, sum(map(len, self.record.transcripts))
        many = f"{cpus} CPU{'s' * (cpus != 1)}, {entries:,} entr{'ies' if entries != 1 else 'y'}"
        told = f"{many}, in their one order"
        if self.verdict.fault:
            told = self.verdict.line
        elif self.verdict.cycle:
            told = f"A cycle of {len(self.verdict.cycle)} entries: this record has no order"
        return told if self.verdict.is_judged else f"{told}; replies not judged"

    def means(self):
        """What left to right is."""
        if not self.is_order:
            return "There is no one order: each row counts its own events or entries."
        order = "an order that the logs allow" if self.verdict.fault else f"the one order of {self.all_entries}"
        return f"From left to right is {order}, and no time."

    def held(self):
        """For each object what it held before each of its events, where there are few; else nothing."""
        if sum(map(len, self.record.logs)) > MOST_HELD:
            return []
        return [[cut(it, MOST_LETTERS) for it in held_before(named, log)] if self.is_known(named) else []
                for named, log in zip(self.record.objects, self.record.logs)]

    def right_reply(self, number, event, step, call):
        """What an object of mc2's should have answered there, if that can be told. It is asked once."""
        named = self.record.objects[number]
        if self.right is None and self.is_known(named) and self.mc2:
            before, _ = held_at(named, self.record.logs[number], event, step)
            self.right = right_reply(self.mc2, named, before, call)
        return self.right

    def is_known(self, named):
        """Whether the object is one of mc2's."""
        return self.record.form < 3 and named.kind in KEYS


@lru_cache(1000)
def worded(asked, done):
    """What was asked and answered, in one text: calls that weren't done have no reply. Where what was done isn't a beginning
    of what was asked, both are there with a bar between."""
    if done is None:
        return asked
    calls, steps = asked.split(" ; "), done.split(" ; ")
    if [step.split(" = ")[0] for step in steps] != calls[: len(steps)]:
        return f"{asked} | {done}"
    return " ; ".join([done, *calls[len(steps) :]]) if calls[len(steps) :] else done
