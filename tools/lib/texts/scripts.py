"""Scripts and schedules: where the first fault of such a text is."""
from texts.calls import read_call, read_list
from texts.line import MOST_ENTRIES, MOST_LINE, Fault, Line, Rows, entry_lines, is_number, shown

MOST_STEPS = 100_000


def known_cpu(cpus):
    return f"a CPU of the settings, 0 to {cpus - 1}" if cpus > 1 else "the CPU of the settings, which is 0"


def missing(word):
    return f"CPU {word.decode()[:60]}, which the settings don't have" if word and is_number(word) else None


def read_entry(line, cpus, kinds):
    """An entry: its CPU. The kinds are those of the objects, by their names."""
    cpu = line.take(known_cpu(cpus), lambda it: is_number(it) and int(it) < cpus, missing)
    names = ", ".join(shown(it) for it in kinds)
    name = line.take(f"an object of the settings: {names}", lambda it: it in kinds)
    read_list(line, lambda it: read_call(it, kinds[name]), lambda word: word is None, "the end of the line")
    return int(cpu)


def scripts_fault(text, cpus, kinds):
    """The first fault of scripts, if there is one."""
    entries = [0] * cpus
    try:
        for line in entry_lines(text):
            cpu = read_entry(line, cpus, kinds)
            entries[cpu] += 1
            if entries[cpu] > MOST_ENTRIES:
                raise Fault(line.number, 1, f"entry {entries[cpu]:,} of CPU {cpu}", f"no more entries of that CPU, as {MOST_ENTRIES:,} is the most")
    except Fault as fault:
        return fault
    return None


def schedule_parts(file):
    """A schedule in parts that end behind a word: the line's number, how much of it came before, and the part."""
    number, before, left, more = 1, 0, b"", True
    while more:
        more = file.readline(MOST_LINE // 2)
        row = left + more
        is_whole = row.endswith(b"\n") or not more
        # (a word as long as that is wrong, and may be cut)
        end = len(row) if is_whole else row.rfind(b" ") + 1 or len(row)
        if row != b"\n":
            yield number, before, row[:end].removesuffix(b"\n")
        number, before, left = number + is_whole, 0 if is_whole else before + end, row[end:]


def schedule_fault(text, cpus):
    """The number of the first word that is wrong, from 1, and the fault; or None."""
    count = 0
    for number, before, row in schedule_parts(Rows(text).file):
        line = Line(number, row)
        for at, word in enumerate(line.words):
            if word == b"":
                continue
            count += 1
            line.at = at
            try:
                if not (is_number(word) and int(word) < cpus):
                    line.refuse(known_cpu(cpus), missing(word))
                if count > MOST_STEPS:
                    line.refuse("the end of the schedule", f"word {count:,}, though {MOST_STEPS:,} is the most")
            except Fault as fault:
                fault.column += before
                return count, fault
    return None
