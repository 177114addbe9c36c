"""The part of a record around an event, so that a large one is seen soon: the event's neighbours in its log, their entries, and
what the same CPUs did in between. Of all other lines just the front is read, and no reply is judged.

The part is read as a record of its own. Where it is drawn each event and each entry has the number that it has in the whole."""
import re
from array import array
from collections import Counter

from texts.line import Copying, Fault
from texts.record import Reader, read_record
from view.asked import Refused
from view.claims import Claims, Placing
from view.model import Model
from view.verdict import Verdict

EVENT = re.compile(r"(?:(?:unsound: )?log )?([a-z][a-z0-9]{0,15})(?::| event )([1-9][0-9]{0,9})(?:(?: step [1-8])?: [a-z ]+)?")
MOST_BETWEEN = 1000  # if a CPU did more in between, this is left out
NOROOM = -1


class Fronts(Reader):
    """Of each log its events' CPUs, and of each transcript its entries' objects, or NOROOM."""

    def log(self, named):
        known = {b"%d" % cpu: cpu for cpu in range(self.cpus)}
        return self.fronts(self.log_head(named), known, lambda line: self.event(line, named.kind))

    def transcript(self, cpu):
        return self.fronts(self.transcript_head(cpu), self.place, self.entry)

    def fronts(self, count, known, refuse):
        found = array("h")
        for done in range(count):
            row = self.rows.seen()
            front = known.get(row.partition(b" ")[0])
            if front is None or not row.endswith(b"\n"):
                refuse(self.item("an event or an entry", done))
            self.rows.go_on()
            found.append(NOROOM if row.endswith(b" | noroom\n") else front)
        return found


def chosen(fronts, number, event, near):
    """Of each log and of each transcript the numbers, from 1, of what is drawn."""
    log = fronts.logs[number]
    low, high = max(0, event - 1 - near), min(len(log), event + near)
    before, inside = Counter(log[:low]), Counter(log[low:high])
    entries, claimed = [], [set() for _ in fronts.logs]
    for cpu, its in enumerate(fronts.transcripts):
        on = [at for at, x in enumerate(its) if x == number][before[cpu] : before[cpu] + inside[cpu]] if inside[cpu] else []
        drawn = range(on[0], on[-1] + 1) if on and on[-1] - on[0] <= MOST_BETWEEN else on
        entries.append([at + 1 for at in drawn])
        # (how many entries on each object come before)
        seen, at = Counter(its[: drawn[0]] if drawn else []), 0
        for at in drawn:
            claimed[its[at]].add((cpu, seen[its[at]])) if its[at] != NOROOM else None
            seen[its[at]] += 1
    events = [claimed_by(log, wanted) for log, wanted in zip(fronts.logs, claimed)]
    events[number] = range(low + 1, high + 1)
    return events, entries


def claimed_by(log, wanted):
    """The numbers of these events of a log: each is a CPU, and how many events of that CPU come before."""
    seen, found = Counter(), []
    for number, cpu in enumerate(log if wanted else [], 1):
        if (cpu, seen[cpu]) in wanted:
            found.append(number)
        seen[cpu] += 1
    return found


def part_of(copy, fronts, events, entries):
    """The record of just these events and entries."""
    front, logs = 3 + len(fronts.objects) + (fronts.form == 3), [fronts.heads["log", it.name] for it in fronts.objects]
    # (of each line that is taken its number; a head is another one then)
    heads = {at: b"log %b %d\n" % (it.name.encode(), len(its)) for at, it, its in zip(logs, fronts.objects, events)}
    heads |= {fronts.heads["cpu", cpu]: b"cpu %d %d\n" % (cpu, len(its)) for cpu, its in enumerate(entries)}
    numbers = {*range(1, front + 1), *heads, fronts.rows.at}
    numbers |= {head + at for head, its in zip(heads, [*events, *entries]) for at in its}
    copy.seek(0)
    taken = [(at, heads.get(at, row)) for at, row in enumerate(copy, 1) if at in numbers]
    try:
        return read_record(b"".join(row for _, row in taken))
    except Fault as fault:
        raise Fault(taken[fault.line - 1][0], fault.column, fault.found, fault.wanted) from None


class Part(Model):
    all_entries = "these entries"

    def __init__(self, record, fronts, place, events, entries):
        placing = Placing(Claims(record))
        order = {"order": placing.order} if placing.is_whole() else {"cycle": placing.cycle()}
        self.fronts, self.place, self.events, self.entries = fronts, place, events, entries
        super().__init__(record, Verdict(**order, is_judged=False))

    def number_of(self, event, number):
        return self.events[number][event - 1] if event else 0

    def entry_number(self, cpu, entry):
        return self.entries[cpu][entry - 1] if entry else 0

    def events_of(self, number):
        return len(self.fronts.logs[number])

    def is_marked(self, box, is_apart):
        is_log = is_apart and box.row < len(self.record.logs)
        return is_log >= is_apart and (box.object, box.event) == self.place

    def mark(self):
        return "the event that was named"

    def is_known(self, named):
        """What an object held isn't told, as its first events aren't there."""
        return False

    def title(self):
        number, event = self.place
        drawn, all_of = (f"{sum(map(len, its)):,}" for its in (self.record.transcripts, self.fronts.transcripts))
        return f"Around event {event:,} of {self.record.objects[number].name}: {drawn} of {all_of} entries; replies not judged"


def around(file, copy, named, near, most):
    """What is drawn of the record in this file around an event, named as `q0:17` or as a verdict names it: so many events at
    each side, or fewer where more entries than `most` would be drawn. The copy gets what is read."""
    name, event = EVENT.fullmatch(named).groups()
    fronts, event = Fronts(Copying(file, copy), (b"1", b"2", b"3")), int(event)
    fronts.all()
    number = fronts.place.get(name.encode())
    if number is None or event > len(fronts.logs[number]):
        raise Refused(f"E18 around: the record has no event {event} of {name}", 2)
    events, entries = chosen(fronts, number, event, near)
    while near and sum(map(len, entries)) > most:
        near //= 2
        events, entries = chosen(fronts, number, event, near)
    return Part(part_of(copy, fronts, events, entries), fronts, (number, event), events, entries)
