"""What a judge says of a record: the verdict, and the one order of all entries or a cycle of some.

The judge is the proved `mc2`, or a program of one's own. That one takes the words `audit` and `merge` and reads the record from
standard input. Of what it prints these lines count, and all others are the judge's reasons, which are shown as they are:

    sound                 the verdict
    unsound: FAULT        the verdict; lines behind it are reasons. One as `  event 4: ..` names an event of a witness
    cpu C entry N         of `merge`: this entry is next; behind a line `cycle:` it is one of the cycle
    CPU NAME ..           of `merge` too, as `mc2` prints it: the next entry of this CPU is next
"""
import io
import itertools
import re
from array import array
from typing import NamedTuple

from texts.record import Columns
from view.asked import Refused, ask_judge, bad_verdict

FAULT = re.compile(r"(?:log (?P<log>\w{1,16})(?: event (?P<event>[1-9]\d{0,18}))?(?: step (?P<step>[1-9]))?"
                   r"|cpu (?P<cpu>\d{1,18}) entry (?P<entry>[1-9]\d{0,18})): (?P<what>[a-z ]{1,40})")
FAULTS = {"too long": ["log"], "wrong step": ["log", "event", "step"], "unclaimed": ["log", "event"],
          **dict.fromkeys(("room was left", "not its event", "not what was asked"), ["cpu"])}
MOST_REASONS, MOST_LETTERS = 40, 300


class Place(NamedTuple):
    """Where an entry is; its number is from 1."""

    cpu: int
    entry: int


def places():
    return Columns(Place, array("Q"), array("Q"))


class Fault:
    """Where the first fault is. What isn't named is None."""

    def __init__(self, text):
        found = FAULT.fullmatch(text)
        has = [part for part in ("log", "event", "step", "cpu") if found and found[part]]
        if not has or has != FAULTS.get(found["what"]):
            raise bad_verdict(f"this names no fault: {cut(text, 80)}")
        self.log, self.what = found["log"], found["what"]
        self.event, self.step, self.cpu, self.entry = (
            None if found[part] is None else int(found[part]) for part in ("event", "step", "cpu", "entry"))


class Verdict:
    """`line` is the verdict; `order` and `cycle` have (CPU, entry), entries from 1. `refusal` is what `trace` says."""

    def __init__(self, fault=None, reasons=(), order=None, cycle=None, is_judged=True):
        self.line = f"unsound: {fault}" if fault else "sound"
        self.fault = Fault(fault) if fault else None
        self.order, self.cycle, self.is_judged = order, cycle, is_judged
        reasons = iter(reasons)
        self.reasons = [cut(line, MOST_LETTERS) for line in itertools.islice(reasons, MOST_REASONS)]
        if more := sum(1 for _ in reasons):
            self.reasons.append(f"and {more:,} more lines")

    def refusal(self):
        if self.fault:
            return f"E10 {self.line}"
        return "E11 cycle: " + ", ".join(f"cpu {cpu} entry {entry}" for cpu, entry in self.cycle) if self.cycle else None

    def is_of(self, record):
        """Whether all that it names is in the record, and an order has each entry once."""
        has = [len(its) for its in record.transcripts]
        if self.order is not None:
            left = [bytearray(b"1") * count for count in has]
            for cpu, entry in self.order:
                if cpu >= len(has) or not 1 <= entry <= has[cpu] or not left[cpu][entry - 1]:
                    return False
                left[cpu][entry - 1] = 0
            return not any(map(any, left))
        fault = self.fault
        if self.cycle or fault.log is None:
            named = self.cycle or [(fault.cpu, fault.entry)]
            return all(cpu < len(has) and 1 <= entry <= has[cpu] for cpu, entry in named)
        logs = {named.name: log for named, log in zip(record.objects, record.logs)}
        if fault.log not in logs or (fault.event or 1) > max(1, len(logs[fault.log])):
            return False
        return fault.step is None or fault.step <= logs[fault.log][fault.event - 1].steps.count(" ; ") + 1


def cut(text, most):
    """A judge's words without letters that can't be seen, and no more of them than one reads."""
    text = "".join(it if it.isprintable() else " " if it == "\t" else "?" for it in text[: most + 1])
    return text if len(text) <= most else text[: most - 1] + "…"


def by_mc2(mc2, text):
    """The verdict of the proved program: `merge` names the order, the first fault or a cycle."""
    try:
        return Verdict(order=counted(lines_of(mc2.ask(["merge"], text))))
    except Refused as refused:
        kind, _, named = (refused.line or "").partition(": ")
        if kind == "E10 unsound":
            return Verdict(named)
        if kind == "E11 cycle":
            return Verdict(cycle=list(named_entries([named])))
        raise


def by_judge(words, text):
    """The verdict of a program of one's own."""
    audited = ask_judge([*words, "audit"], text)
    merged = ask_judge([*words, "merge"], text) if next(lines_of(audited), "") == "sound" else b""
    return by_said(audited.rstrip(b"\n") + b"\n" + merged)


def by_said(said):
    """The verdict that such a program printed, for `audit` and then for `merge`. Of an unsound record both print the same."""
    lines = lines_of(said)
    line = next(lines, "")
    if line.startswith("unsound: "):
        return Verdict(line.removeprefix("unsound: "), itertools.takewhile(lambda it: it != line, lines))
    if line != "sound":
        raise bad_verdict(f"this is none: {cut(line, 80)}")
    named = named_entries(lines)
    if b"cycle" in said[: said.find(b"cpu") if b"cpu" in said else None]:
        return Verdict(cycle=list(named))
    return Verdict(order=named or counted(itertools.islice(lines_of(said), 1, None)))


def lines_of(said):
    return (it.rstrip("\n") for it in io.TextIOWrapper(io.BytesIO(said), "utf-8", "replace"))


def named_entries(lines):
    named = places()
    for line in lines:
        for cpu, entry in re.findall(r"\bcpu (\d{1,18}) entry (\d{1,18})\b", line):
            named.append(int(cpu), int(entry))
    return named


def counted(lines):
    """The entries of the lines of `mc2 merge`, each the next one of its CPU."""
    reached, order = {}, places()
    for line in lines:
        cpu = line[:20].split(" ", 1)[0]
        if not re.fullmatch(r"\d{1,18}", cpu):
            raise bad_verdict(f"this is no entry of an order: {cut(line, 80)}")
        reached[cpu] = reached.get(cpu, 0) + 1
        order.append(int(cpu), reached[cpu])
    return order
