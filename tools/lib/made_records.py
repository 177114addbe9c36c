"""Random records 3 and texts that are nearly records, each made from a random.Random, so from its seed."""
import random
import re
import zlib
from dataclasses import dataclass

CALLS, REPLIES, REFUSING = ["a", "b 1"], ["ok", "no", "ok 7"], {"no"}
# One step in this many is wrong by the model.
WRONG_OF = 12

# ---- Small records: a model is a function from steps to right or wrong.


@dataclass
class Small:
    """Steps are pairs of call and reply, an event is a CPU with its steps, an entry an object with the calls that were asked for and
    the steps that were done. Without a seed each step is right."""

    seed: int | None
    limits: list
    logs: list
    transcripts: list

    def spell(self):
        lines = ["record 3", f"cpus {len(self.transcripts)}", f"objects {len(self.logs)}"]
        lines += [f"object o{x} any {most} k 3" for x, most in enumerate(self.limits)] + [f"refuses {' '.join(REFUSING)}"]
        for x, log in enumerate(self.logs):
            lines += [f"log o{x} {len(log)}"] + [f"{cpu} {spelled(steps)}" for cpu, steps in log]
        for cpu, entries in enumerate(self.transcripts):
            lines.append(f"cpu {cpu} {len(entries)}")
            lines += [f"o{x} 0 {' ; '.join(asked)} | {'noroom' if done is None else spelled(done)}" for x, asked, done in entries]
        return ("\n".join([*lines, "end"]) + "\n").encode()

    def is_right(self, x, steps):
        """The model: whether the last of these steps is right."""
        return self.seed is None or zlib.crc32(repr((self.seed, x, steps)).encode()) % WRONG_OF > 0

    def count(self, x):
        steps = [step for _, event in self.logs[x] for step in event]
        wrong = (n for n in range(len(steps)) if not self.is_right(x, steps[: n + 1]))
        return next(wrong, len(steps))


def spelled(steps):
    return " ; ".join(f"{call} = {reply}" for call, reply in steps)


def answers(asked, chosen):
    """Steps that answer these calls, up to one that refuses."""
    steps = []
    for call in asked:
        steps.append((call, chosen.choice(REPLIES)))
        if steps[-1][1] in REFUSING:
            break
    return steps


def do_entry(record, chosen):
    cpu, x = chosen.randrange(len(record.transcripts)), chosen.randrange(len(record.logs))
    asked = [chosen.choice(CALLS) for _ in range(chosen.randrange(1, 4))]
    done = None if len(record.logs[x]) == record.limits[x] else answers(asked, chosen)
    if done is not None:
        record.logs[x].append((cpu, done))
    record.transcripts[cpu].append((x, asked, done))


def shuffle(record, chosen):
    """Puts each CPU's entries in another order, but for those on one object: then the record is sound, and may have a cycle."""
    for entries in record.transcripts:
        queues = [[it for it in entries if it[0] == x] for x in range(len(record.logs))]
        entries[:] = [chosen.choice([it for it in queues if it]).pop(0) for _ in entries]


def swap(items, at):
    items[at], items[at + 1] = items[at + 1], items[at]


def spoil(record, chosen):
    """Changes one thing, if the record has it."""
    entries, x = chosen.choice(record.transcripts), chosen.randrange(len(record.logs))
    log, what = record.logs[x], chosen.randrange(11)
    if what in (0, 9, 10) and len(entries) > 1:
        swap(entries, chosen.randrange(len(entries) - 1))
    elif what == 1 and len(log) > 1:
        swap(log, 0)
    elif what == 2 and entries:
        entries.pop(chosen.randrange(len(entries)))
    elif what == 3 and log:
        log.pop(chosen.randrange(len(log)))
    elif what == 4:
        record.limits[x] = max(1, record.limits[x] + chosen.choice([-1, 1]))
    elif what == 5 and entries:
        entries[-1] = (entries[-1][0], entries[-1][1], None)
    elif what == 6 and entries:
        entries[-1] = (entries[-1][0], entries[-1][1] + ["a"], entries[-1][2])
    elif what == 7 and log:
        log[-1] = (log[-1][0], log[-1][1] + [("a", "ok")])
    elif what == 8 and entries:
        entries.append(entries[-1])


def make(chosen):
    cpus, objects = chosen.randrange(1, 4), chosen.randrange(1, 4)
    limits = [chosen.randrange(1, 5) for _ in range(objects)]
    record = Small(chosen.randrange(1 << 30), limits, [[] for _ in range(objects)], [[] for _ in range(cpus)])
    for _ in range(chosen.randrange(7)):
        do_entry(record, chosen)
    if chosen.random() < 0.4:
        shuffle(record, chosen)
    for _ in range(chosen.choice([0, 0, 1, 1, 2])):
        spoil(record, chosen)
    return record


def draw_counts(record, chosen):
    """The counts of the model; now and then one is missing, one too many, or above the steps of its log."""
    counts = [record.count(x) for x in range(len(record.logs))]
    what = chosen.randrange(40)
    if what == 0:
        counts.pop()
    elif what == 1:
        counts.append(0)
    elif what == 2:
        x = chosen.randrange(len(counts))
        counts[x] = sum(len(steps) for _, steps in record.logs[x]) + chosen.choice([1, 2, 1 << 63])
    return counts


def crossed(chosen):
    """A record without a fault, of two or three CPUs and objects, whose entries are in another order than they were done."""
    limits = [chosen.randrange(2, 6) for _ in range(chosen.randrange(2, 4))]
    record = Small(None, limits, [[] for _ in limits], [[] for _ in range(chosen.randrange(2, 4))])
    for _ in range(chosen.randrange(4, 8)):
        do_entry(record, chosen)
    shuffle(record, chosen)
    return record


# ---- Texts that are nearly records: a few changes of bytes, words, numbers and lines.
BYTES = b"\n\n 0019az=|;-A\t\r\x00\xff"
NUMBERS = [0, 1, 2, 3, 7, 8, 9, 31, 32, 33, 255, 256, 257, 4294967294, 4294967295, 4294967296, 18446744073709551614]
NUMBERS += [18446744073709551615, 18446744073709551616, 99999999999999999999, 100000000000000000000]
WORDS = [b"noroom", b"object", b"log", b"cpu", b"end", b"refuses", b"record", b"a", b"a1", b"1a", b"007", b""]
WORDS += [b"=", b";", b"|", b" "]
WORDS += [b"abcdefghijklmnop", b"abcdefghijklmnopq", b"= ok", b"; a", b"a 1 2 3 4 5 6", b"a 1 2 3 4 5 6 7", b"a" + 8 * b" ; a"]
WORDS += [b"a = b" + 7 * b" ; a = b"]
# A word or a number with what is before it.
PART = re.compile(rb"[^ \n]+")


def change_byte(text, chosen):
    at, byte = chosen.randrange(len(text) + 1), bytes([chosen.choice(BYTES)])
    return text[:at] + chosen.choice([byte, b""]) + text[at + chosen.randrange(2) :]


def change_part(text, chosen):
    found = chosen.choice(list(PART.finditer(text)) or [None])
    if found is None:
        return text
    new = chosen.choice([str(chosen.choice(NUMBERS)).encode(), chosen.choice(WORDS), chosen.choice(PART.findall(text))])
    return text[: found.start()] + new + text[found.end() :]


def change_number(text, chosen):
    """Makes a number one more or one less, or one of those at the limits."""
    found = chosen.choice(list(re.finditer(rb"\b[0-9]+\b", text)) or [None])
    if found is None:
        return text
    number = max(0, int(found[0]) + chosen.choice([-1, 1]))
    new = str(chosen.choice([number, number, chosen.choice(NUMBERS)])).encode()
    return text[: found.start()] + new + text[found.end() :]


def change_lines(text, chosen):
    lines = text.splitlines(keepends=True)
    if not lines:
        return text
    at, other = chosen.randrange(len(lines)), chosen.randrange(len(lines))
    what = chosen.randrange(4)
    if what == 0:
        lines.pop(at)
    elif what == 1:
        lines.insert(other, lines[at])
    elif what == 2:
        lines[at], lines[other] = lines[other], lines[at]
    else:
        lines[at:] = []
    return b"".join(lines)


CHANGES = [change_byte, change_byte, change_part, change_number, change_number, change_lines]


def mutant(texts, chosen):
    text = chosen.choice(texts)
    for _ in range(chosen.choice([0, 1, 1, 1, 2, 3])):
        text = chosen.choice(CHANGES)(text, chosen)
    return text


# ---- Faults planted in a buffer and in counts of references, by the models of examples/custom/more_models.h. Each record is of
# thousands of steps by four CPUs, and goes wrong late.
CPUS, STEPS, ROOM, SLOTS, MOST_REFS = 4, 6000, 8, 16, 4
FAULTS = {"buffer": ("lost", "overtaken", "one too many", "torn", "twice"),
          "refs": ("keep lost", "drop lost", "dropped twice", "gone too early", "kept when gone")}


def buffer(fault, chosen):
    """The lines of a buffer with that fault, and the numbers of the lines that have to be named. An item is its line and a number."""
    items, lines, culprits = [], [], set()
    while not culprits or len(lines) < max(culprits) + 4 * ROOM:
        due, now, what = not culprits and len(lines) > STEPS, len(lines) + 1, chosen.choice(("put", "put", "get", "get", "level"))
        line = f"level = count {len(items)}" if what == "level" else "get = empty"
        if what == "put":
            is_full = len(items) == ROOM + (due and fault == "one too many")
            line = f"put {now} {now * 7} = {'full' if is_full else 'ok'}"
            if due and (fault == "lost" and 1 < len(items) < 4 or len(items) == ROOM and not is_full):
                culprits = {now}
            # (a lost item isn't in the buffer)
            items += [now] if not is_full and culprits != {now} or fault == "one too many" and not is_full else []
        elif what == "get" and items and due and fault == "overtaken":
            culprits = {items[0], now}
        elif what == "get" and len(items) > 1 and due and fault == "torn":
            line, culprits = f"get = item {items[0]} {items[1] * 7}", {items[0], now}
        elif what == "get" and items:
            line = f"get = item {items[0]} {items[0] * 7}"
            if due and fault == "twice" and len(items) > 1:
                lines.append(f"{chosen.randrange(CPUS)} {line}")
                culprits = {now + 1, items[1]}
            items.pop(0)
        lines.append(f"{chosen.randrange(CPUS)} {line}")
    return lines, culprits


def refs(fault, chosen):
    """The same of references. The last line has a wrong reply, or the line before it of that slot had."""
    held, lines, culprits, last = [[0] * CPUS for _ in range(SLOTS)], [], set(), {}
    while not culprits:
        cpu, slot, due = chosen.randrange(CPUS), chosen.randrange(SLOTS), len(lines) > STEPS
        whole, (before, by, at) = sum(held[slot]), last.get(slot, ("", 0, 0))
        drops = held[slot][cpu] and (whole == MOST_REFS or chosen.random() < 0.5)
        what, now = ("drop", whole - 1) if drops else ("keep" if whole else "make", whole + 1)
        if now > MOST_REFS:
            continue
        if due and f"{what} lost" == f"{before} lost" == fault and now > 0:
            now, culprits = now + (1 if drops else -1), {at, len(lines) + 1}
        elif due and fault == "dropped twice" and before == "drop" and held[slot][by] == 0 and whole > 1:
            cpu, what, now, culprits = by, "drop", whole - 1, {len(lines) + 1}
        elif due and (fault, what, now) == ("gone too early", "drop", 1):
            now, culprits = 0, {len(lines) + 1}
        elif due and (fault, what, before) == ("kept when gone", "make", "drop"):
            what, culprits = "keep", {len(lines) + 1}
        held[slot][cpu] += -1 if what == "drop" else 1
        lines.append(f"{cpu} {what} {cpu} {slot} = now {now}")
        last[slot] = what, cpu, len(lines)
    return lines, culprits


def planted(kind, fault, seed):
    """The record 3 of a fault, its events, and the numbers of those that have to be named."""
    lines, culprits = (buffer if kind == "buffer" else refs)(fault, random.Random(f"{fault} {seed}"))
    text = f"record 3\ncpus {CPUS}\nobjects 1\nobject x ticket 65536 {kind} {ROOM if kind == 'buffer' else SLOTS}\nrefuses\n"
    text += f"log x {len(lines)}\n" + "".join(f"{it}\n" for it in lines)
    for cpu in range(CPUS):
        entries = [it.partition(" ")[2] for it in lines if it.startswith(f"{cpu} ")]
        text += f"cpu {cpu} {len(entries)}\n" + "".join(f"x 1 {it.partition(' = ')[0]} | {it}\n" for it in entries)
    return (text + "end\n").encode(), lines, culprits
