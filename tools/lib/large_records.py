"""Large sound records 3 of run queues, page allocators and pipes that CPUs use in turn. An entry has one call."""
import random
from bisect import insort

PAGES, BYTES, WHOLE, THREADS = 12, 4096, 16, 1024
REFUSING = ["none", "full", "empty"]


class RunQueue:
    settings = f"runq {THREADS}"

    def __init__(self):
        self.waiting, self.idle = [], list(range(THREADS))

    def step(self, chosen):
        if self.idle and (not self.waiting or chosen.random() < 0.5):
            thread, priority = self.idle.pop(chosen.randrange(len(self.idle))), chosen.randrange(140)
            insort(self.waiting, (priority, thread))
            return f"put {thread} {priority}", "ok"
        if not self.waiting:
            return "take", "empty"
        thread = self.waiting.pop()[1]
        self.idle.append(thread)
        return "take", f"thread {thread}"


class Pages:
    settings = f"buddy {PAGES}"

    def __init__(self):
        self.free, self.given = list(range(1 << PAGES)), []

    def step(self, chosen):
        what = chosen.random()
        if what < 0.1:
            return "left", f"count {len(self.free)}"
        if what < 0.55:
            if not self.free:
                return "alloc 0", "none"
            self.given.append(self.free.pop(chosen.randrange(len(self.free))))
            return "alloc 0", f"page {self.given[-1]}"
        if not self.given:
            return "left", f"count {len(self.free)}"
        self.free.append(self.given.pop(chosen.randrange(len(self.given))))
        return f"free {self.free[-1]}", "ok"


class Pipe:
    settings = f"pipe {BYTES} {WHOLE}"

    def __init__(self):
        self.bytes = []

    def step(self, chosen):
        count, byte = chosen.randrange(1, 25), chosen.randrange(256)
        if chosen.random() < 0.5:
            room = BYTES - len(self.bytes)
            done = (count if count <= room else 0) if count <= WHOLE else min(chosen.randrange(1, count + 1), room)
            self.bytes += [(byte + at) % 256 for at in range(done)]
            return f"write {byte} {count}", f"wrote {done}" if done else "full"
        got = self.bytes[: chosen.randrange(1, count + 1)]
        del self.bytes[: len(got)]
        total = 0
        for it in got:
            total = (total * 31 + it) % (1 << 64)
        return f"read {count}", f"got {len(got)} {total}" if got else "empty"


KINDS = [RunQueue, Pages, Pipe]


def large_record(cpus, objects, entries):
    """The text of a record of so many entries, each on an object at random, always the same."""
    chosen = random.Random(7)
    names = [f"object{x}" for x in range(objects)]
    states = [KINDS[x % len(KINDS)]() for x in range(objects)]
    logs, transcripts = [[] for _ in names], [[] for _ in range(cpus)]
    for _ in range(entries):
        cpu, x = chosen.randrange(cpus), chosen.randrange(objects)
        call, reply = states[x].step(chosen)
        logs[x].append(f"{cpu} {call} = {reply}\n")
        transcripts[cpu].append(f"{names[x]} {chosen.randrange(1 << 60)} {call} | {call} = {reply}\n")
    lines = [f"record 3\ncpus {cpus}\nobjects {objects}\n"]
    lines += [f"object {name} ticket 4294967295 {state.settings}\n" for name, state in zip(names, states)]
    lines.append(f"refuses {' '.join(REFUSING)}\n")
    for name, log in zip(names, logs):
        lines += [f"log {name} {len(log)}\n", *log]
    for cpu, own in enumerate(transcripts):
        lines += [f"cpu {cpu} {len(own)}\n", *own]
    return "".join([*lines, "end\n"]).encode()
