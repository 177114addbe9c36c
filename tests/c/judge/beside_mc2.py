#!/usr/bin/env python3
"""use: beside_mc2.py [--each N] audit|merge|refusals|rust|custom PROGRAM

Judges texts by a program over libjudge.a, and compares its reports with the answers of $MC2. The texts are the records of
examples/, and each text that a row has mc2 audit, merge or upgrade, good or bad. With --each only each N-th of them.

  audit, merge  by examples/judge/judge.c, eight texts at once, each on its own thread
  refusals      by refusals.c, where each block of memory is refused; and texts that take much memory
  rust          by examples/judge/judge.rs, which ends with 0 if the record is sound, and otherwise with 1
  custom        by examples/custom/custom.c the records 2 of rows, made records 3
"""
import os
import sys
import tempfile
from pathlib import Path

sys.dont_write_bytecode = True
sys.path.insert(0, str(Path(__file__).resolve().parents[3] / "tools/lib"))
from common import ROOT, Stop, Words, end, number, run
from like_mc2 import like_mc2
from rows import rows_of

MC2, AT_ONCE = os.environ.get("MC2"), 8
SOUND, CYCLE, BAD_LINE = 0, 7, 8
# The words of mc2 for each fault, with its place.
FAULTS = {
    1: "log {x}: too long",
    2: "log {x} event {b} step {c}: wrong step",
    3: "cpu {a} entry {b}: room was left",
    4: "cpu {a} entry {b}: not its event",
    5: "cpu {a} entry {b}: not what was asked",
    6: "log {x} event {b}: unclaimed",
}


def texts():
    """Each text by a name."""
    found = {}
    for row in rows_of("mc2"):
        # (rows without a name upgrade what others audit)
        if row.words[:1] in (["audit"], ["merge"]) or row.name and row.words[:1] == ["upgrade"]:
            found[row.place] = row.text()
    for record in sorted((ROOT / "examples").glob("*/record")):
        found[f"examples/{record.parent.name}"] = record.read_bytes()
    return found


# ---- Texts that take much memory for their length. A list of 8,193 has room for twice as many.


def record_of(cpus, entries, events=False):
    """A sound record with this many entries of each CPU, whose lines are the shortest that are allowed. Each is an event; or all
    but the first have no room."""
    step, limit = ("len = count 0", 65536) if events else ("deq = empty", 1)
    call, log = step.split(" ")[0], cpus * entries if events else 1
    text = f"record 2\ncpus {cpus}\nobjects 1\nobject a ticket {limit} queue 1\nlog a {log}\n"
    text += "".join(f"{cpu} {step}\n" * entries for cpu in range(cpus)) if events else f"0 {step}\n"
    for cpu in range(cpus):
        noted = entries if events else cpu == 0
        text += f"cpu {cpu} {entries}\n" + f"a 0 {call} | {step}\n" * noted + f"a 0 {call} | noroom\n" * (entries - noted)
    return text + "end\n"


def record_of_objects():
    """A sound record of the most and the largest objects, without an event."""
    names = "abcdefghijklmnop"
    text = "record 2\ncpus 1\nobjects 16\n" + "".join(f"object {name} ticket 65536 sched 1024 64\n" for name in names)
    return text + "".join(f"log {name} 0\n" for name in names) + "cpu 0 0\nend\n"


def cut_record(form, cpus, objects, of, count):
    """A record that ends after the head of its last log, which says that this many events follow. The logs before it are empty."""
    names = [f"o{x}" for x in range(objects)]
    heads = "".join(f"object {name} ticket {max(count, 65536)} {of}\n" for name in names) + ("refuses\n" if form == 3 else "")
    logs = "".join(f"log {name} 0\n" for name in names[:-1]) + f"log {names[-1]} {count}\n"
    return f"record {form}\ncpus {cpus}\nobjects {objects}\n{heads}{logs}"


def large_texts():
    """Each text by a name."""
    large = {"entries": record_of(8, 10_000), "list": record_of(1, 8_193), "events": record_of(8, 8_192, True)}
    large |= {"scheds": record_of_objects(), "one head": cut_record(2, 1, 1, "queue 8", 65535)}
    large |= {"16 objects": cut_record(2, 64, 16, "sched 1024 64", 65536), "any": cut_record(3, 256, 1, "any", 4294967295)}
    return large | {"256 objects": cut_record(3, 256, 256, "any", 4294967295)}


# ---- Reports


def reports(program, command, files):
    """What the program in C prints for each file: the kind with its numbers, and the entries that follow."""
    lines = run([program, command, *files], text=True).stdout.splitlines()
    answers = []
    while lines:
        kind, *numbers = map(int, lines.pop(0).split())
        count = numbers[0] if command == "merge" and kind in (SOUND, CYCLE) else 0
        answers.append((kind, numbers, [tuple(map(int, line.split())) for line in lines[:count]]))
        del lines[:count]
    if len(answers) != len(files):
        raise Stop(f"{program} printed {len(answers)} answers for {len(files)} files")
    return answers


def parts(text):
    """The names of the record's objects, and the lines of each CPU's entries."""
    lines = text.decode().splitlines()
    names = [line.split()[1] for line in lines if line.startswith("object ")]
    entries = []
    for line in lines:
        if line.startswith("cpu "):
            entries.append([])
        elif entries and line != "end":
            entries[-1].append(line)
    return names, entries


def order_of(text, places):
    """What mc2 prints for these entries in order."""
    entries = parts(text)[1]
    lines = [(cpu, entries[cpu][entry]) for cpu, entry in places]
    return "".join(f"{cpu} {line.split()[0]} {line.partition(' | ')[2]}\n" for cpu, line in lines)


def wanted(command, text, kind, numbers, places):
    """What mc2 has to answer if this is the report: the status, standard output and standard error."""
    if kind == BAD_LINE:
        return 2, "", f"mc2: E9 record: line {numbers[0]}\n"
    if kind == CYCLE:
        cycle = ", ".join(f"cpu {cpu} entry {entry + 1}" for cpu, entry in places)
        return 1, "", f"mc2: E11 cycle: {cycle}\n"
    if kind in FAULTS:
        a, b, c = numbers
        name = "" if kind in (3, 4, 5) else parts(text)[0][a]
        fault = f"unsound: {FAULTS[kind].format(x=name, a=a, b=b + 1, c=c + 1)}\n"
        return (1, fault, "") if command == "audit" else (1, "", f"mc2: E10 {fault}")
    return 0, order_of(text, places) if command == "merge" else "sound\n", ""


def agree(command, text, answer):
    """Whether mc2 answers what it has to. A wrong report may name an object or an entry that the text hasn't."""
    said = run([MC2, command], wanted=None, input=text)
    try:
        return (said.returncode, said.stdout.decode(), said.stderr.decode()) == wanted(command, text, *answer)
    except (IndexError, KeyError, ValueError):
        return False


def refuse(program, files, folder):
    """Prints what refusals.c sees, and ends the tool at the first answer that is impossible."""
    large = large_texts()
    for name, text in large.items():
        (folder / name).write_text(text)
    for how, these in ("each", files), ("none", [folder / name for name in large]):
        print(run([program, how, *these], text=True, timeout=1200).stdout.strip())


def judge(command, program, named, files):
    """A line for each text on which the program in C and mc2 differ."""
    wrong = []
    for begin in range(0, len(files), AT_ONCE):
        answers = reports(program, command, files[begin : begin + AT_ONCE])
        for (name, text), answer in zip(list(named.items())[begin:], answers):
            if not agree(command, text, answer):
                wrong.append(f"{command} of {name}: C reports {answer[:2]}")
    return wrong


def judge_by_rust(program, named, files):
    sound = [run([MC2, "audit"], wanted=None, input=text).returncode == 0 for text in named.values()]
    rust = [run([program, file], wanted=(0, 1)).returncode == 0 for file in files]
    return [f"{name}: Rust and mc2 differ" for name, one, other in zip(named, sound, rust) if one != other]


def main():
    words = Words(__doc__)
    words.add_argument("--each", type=number(1, 1000), default=1)
    words.add_argument("how", choices=("audit", "merge", "refusals", "rust", "custom"))
    words.add_argument("program")
    given = words.parse_args()
    if given.how == "custom":
        print(like_mc2(given.program))
        return 0
    named, wrong = dict(list(texts().items())[:: given.each]), []
    with tempfile.TemporaryDirectory() as folder:
        files = [Path(folder) / str(at) for at in range(len(named))]
        for file, text in zip(files, named.values()):
            file.write_bytes(text)
        if given.how == "refusals":
            refuse(given.program, files, Path(folder))
        elif given.how == "rust":
            wrong = judge_by_rust(given.program, named, files)
        else:
            wrong = judge(given.how, given.program, named, files)
    print(*wrong, f"{len(named)} texts, of which {len(wrong)} are judged otherwise", sep="\n")
    return 1 if wrong else 0


if __name__ == "__main__":
    end(main, tells=False)
