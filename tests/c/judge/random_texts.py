#!/usr/bin/env python3
"""use: random_texts.py small|crossed|changed COUNT JUDGED [OTHER] | planted SEEDS CUSTOM | wide CUSTOM | refused REFUSALS

Compares the reports on random records 3, and on texts that are nearly records.

  small    small records by judged.c: each fault by its definition, orders by trying all
  crossed  sound records whose entries are in another order than they were done, with enough places and with few
  changed  texts on which two programs of judged.c have to report the same; each tenth is read by tools/lib/texts too
  planted  ten faults in a buffer and in counts of references: custom.c prints at most 15 steps of each, and names the culprit
  wide     a record of 256 CPUs and 256 objects, whose order by custom.c has to be one
  refused  the records of examples/custom and a large one by refusals.c, where each block of memory is refused
"""
import random
import re
import struct
import sys
import tempfile
from collections import Counter
from pathlib import Path

sys.dont_write_bytecode = True
sys.path.insert(1, str(Path(__file__).resolve().parents[3] / "tools/lib"))
import record_definitions as definitions
import made_records as made
from common import ROOT, Stop, end, run
from large_records import large_record
from texts.record import record_fault

PLACES, SECONDS = 64, 1200
BAD_LINE = 8
# One in this many is read by the tools' reader too; and how many are judged at once.
READ_EACH, AT_ONCE = 10, 20_000
KINDS = ["sound", "too long", "wrong step", "room was left", "not its event", "not asked", "unclaimed", "a cycle", "a bad line",
         "out of memory", "no room", "wrong counts"]
# The most steps that are printed for a planted fault.
MOST_LINES = 15
WIDE = 256, 256, 20_000
RECORDS = sorted((ROOT / "examples/custom/records").iterdir())
PLACE = re.compile(r"cpu (\d+) entry (\d+)")


# ---- Cases of judged.c


def case(text, counts, capacity):
    return struct.pack(f"<3Q{len(counts)}Q", len(text), len(counts), capacity, *counts) + text


def answer_of(line):
    """The reports of mc2_custom_audit and mc2_custom_merge, and the places that were written."""
    audit, merge, places, _digest = line.split("|")
    pairs = [tuple(int(number) for number in place.split(".")) for place in places.split()]
    return *(tuple(int(number) for number in it.split()) for it in (audit, merge)), pairs


def lines_of(program, cases):
    """A line for each case."""
    lines = run([program], input=b"".join(cases), timeout=SECONDS).stdout.decode().splitlines()
    if len(lines) != len(cases):
        raise Stop(f"{program} printed {len(lines)} lines for {len(cases)} cases")
    return lines


def shown(kinds):
    return ", ".join(f"{KINDS[kind]} {count:,}" for kind, count in sorted(kinds.items()))


# ---- Small records


def has_right_order(record, merge, places, capacity):
    """Whether the report of a merge is the least order, or a cycle if there is none; or that there are too few places."""
    least = definitions.least_order(record)
    kind, first = merge[:2]
    if kind == definitions.NO_ROOM:
        return first > capacity and (least is None or first == len(least))
    if least is not None:
        return kind == definitions.SOUND and first == len(least) and places == least
    return kind == definitions.CYCLE and first == len(places) and definitions.is_cycle(record, places)


def judge_small(program, records, all_counts, capacity):
    """Compares the report on each record with the definitions, and counts the kinds."""
    lines = lines_of(program, [case(record.spell(), counts, capacity) for record, counts in zip(records, all_counts)])
    kinds = Counter()
    for record, counts, line in zip(records, all_counts, lines):
        audit, merge, places = answer_of(line)
        wanted = definitions.verdict(record, counts)
        is_right = audit == wanted
        if wanted[0] == definitions.SOUND:
            is_right = is_right and has_right_order(record, merge, places, capacity)
        elif merge != wanted or places:
            is_right = False
        if not is_right:
            raise Stop(f"{line} in place of {wanted} of these counts {counts} and this record:\n{record.spell().decode()}")
        kinds[merge[0]] += 1
    return kinds


def small(count, program):
    chosen = random.Random(11)
    records = [made.make(chosen) for _ in range(int(count))]
    return shown(judge_small(program, records, [made.draw_counts(it, chosen) for it in records], PLACES))


def crossed(count, program):
    chosen = random.Random(12)
    records = [made.crossed(chosen) for _ in range(int(count))]
    counts = [[record.count(x) for x in range(len(record.logs))] for record in records]
    return "; ".join(f"{shown(judge_small(program, records, counts, most))} with {most} places" for most in (PLACES, 4, 0))


# ---- Changed texts


def check_form(texts, lines):
    """The tools' reader finds the same first line that isn't a record's."""
    for text, line in zip(texts, lines):
        fault, report = record_fault(text, (b"3",)), answer_of(line)[0]
        bad = fault and fault.line
        if (report[0] == BAD_LINE) != (bad is not None) or (bad is not None and report != (BAD_LINE, bad, 0, 0)):
            raise Stop(f"the report is {report} on a text whose first bad line is {bad}: {text!r}")


def counts_for(text, chosen):
    """The numbers of steps of the logs, if the text is a record; now and then one is another number, missing, or one too many."""
    counts = [log.partition(b"\ncpu ")[0].count(b" = ") for log in text.split(b"\nlog ")[1:]]
    what = chosen.randrange(8)
    if what == 0:
        counts.append(chosen.randrange(4))
    elif what == 1 and counts:
        counts.pop()
    elif what < 5 and counts:
        counts[chosen.randrange(len(counts))] = chosen.choice([0, 1, 2, 5, chosen.randrange(12)])
    return counts


def judge_both(one, two, texts, chosen):
    """The kinds of the reports of both programs on the texts."""
    cases = [case(it, counts_for(it, chosen), chosen.choice([PLACES, PLACES, chosen.randrange(8)])) for it in texts]
    first, second = lines_of(one, cases), lines_of(two, cases)
    for text, one_line, other in zip(texts, first, second):
        if one_line != other:
            raise Stop(f"{one_line} and {other} are the reports on {text!r}")
    check_form(texts[::READ_EACH], first[::READ_EACH])
    return Counter(int(line.split(" ", 1)[0]) for line in first)


def changed(count, one, two):
    chosen, kinds, count = random.Random(11), Counter(), int(count)
    records = [file.read_bytes() for file in RECORDS]
    records += [made.make(chosen).spell() for _ in range(200)]
    for begin in range(0, count, AT_ONCE):
        texts = [made.mutant(records, chosen) for _ in range(min(AT_ONCE, count - begin))]
        kinds += judge_both(one, two, texts, chosen)
    return f"{count:,}, with these reports: {shown(kinds)}"


# ---- Planted faults, and a wide record


def lines_of_fault(custom, kind, fault, seed):
    """How many steps are printed for the fault. They have to be few, with the culprits and the reply that would have been right."""
    text, lines, culprits = made.planted(kind, fault, seed)
    said = run([custom, "audit"], wanted=(1,), input=text, timeout=120).stdout.decode()
    steps = [it for it in said.splitlines() if it.startswith("  event ")]
    missing = [lines[it - 1] for it in culprits if f"  event {it}: {lines[it - 1]}" not in steps]
    if len(steps) > MOST_LINES or missing or "right would have been: " not in said:
        raise Stop(f"{fault}, seed {seed}: {len(steps)} lines, without {missing}\n{said[:2000]}")
    return len(steps)


def planted(seeds, custom):
    faults = [(kind, fault, seed) for kind in made.FAULTS for fault in made.FAULTS[kind] for seed in range(int(seeds))]
    found = [lines_of_fault(custom, *fault) for fault in faults]
    return f"{len(found)} records with ten faults, at most {max(found)} lines of each"


def parts(text, word):
    """The lines of each log, or of each transcript, by its name."""
    found, part = {}, None
    for line in text.splitlines():
        if re.match(r"(log|cpu) \w+ \d+$", line):
            part = found.setdefault(line.split()[1], []) if line.startswith(f"{word} ") else None
        elif part is not None and line != "end":
            part.append(line)
    return found


def wide(custom):
    """The order has each CPU's entries in the order of its transcript, and each object's events in the order of its log."""
    text = large_record(*WIDE)
    logs, transcripts = parts(text.decode(), "log"), parts(text.decode(), "cpu")
    said = run([custom, "merge"], input=text, timeout=300).stdout.decode()
    order = [tuple(map(int, it)) for it in PLACE.findall(said)]
    if sorted(order) != sorted((int(cpu), n + 1) for cpu, entries in transcripts.items() for n in range(len(entries))):
        raise Stop("the order hasn't each entry once")
    nexts, at = dict.fromkeys(transcripts, 0), dict.fromkeys(logs, 0)
    for cpu, n in order:
        entry = transcripts[str(cpu)][n - 1]
        name, steps = entry.split(" ", 1)[0], entry.partition(" | ")[2]
        if nexts[str(cpu)] != n - 1 or logs[name][at[name]] != f"{cpu} {steps}":
            raise Stop(f"cpu {cpu} entry {n} is out of order")
        nexts[str(cpu)], at[name] = n, at[name] + 1
    return f"{len(order):,} entries in order"


def refused(program):
    with tempfile.NamedTemporaryFile() as file:
        file.write(large_record(4, 6, 3000))
        file.flush()
        return run([program, "each", *RECORDS, file.name], text=True, timeout=SECONDS).stdout.strip()


def main():
    name, *words = sys.argv[1:]
    checks = {it.__name__: it for it in (small, crossed, changed, planted, wide, refused)}
    print(checks[name](*words))
    return 0


if __name__ == "__main__":
    end(main, tells=False)
