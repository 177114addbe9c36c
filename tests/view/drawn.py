"""Records of runs that are drawn, changed ones, and large ones."""
import random
import subprocess

from drawn_runs import draw_objects, draw_reply, draw_scripts, scripts_text
from texts.record import Object, record_fault


def drawn_record(program, folder, draw, cpus, most):
    """A sound record of a run. The program does it on threads, so it may be another one each time."""
    kinds, tables = draw_objects(draw)
    asked = draw_scripts(draw, cpus, kinds, most)
    settings = folder / f"settings{draw.randrange(10**9)}"
    settings.write_text(f"cpus = {cpus}\n{tables}", encoding="ascii")
    how = {"input": scripts_text(asked).encode(), "capture_output": True, "check": True}
    return subprocess.run([program, "run", "--settings", settings], **how).stdout


def changed(record, draw):
    """The text of a record with one line changed, so that it mostly isn't sound, but is a record."""
    text = "no record"
    while record_fault(text.encode()):
        text = with_a_change(record, draw)
    return text


def with_a_change(record, draw):
    lines = record.text.split("\n")
    way = draw.randrange(8)
    logs = [(at, named) for at, named in enumerate(record.objects) if record.logs[at]]
    entries = [cpu for cpu, its in enumerate(record.transcripts) if its]
    if way < 3 and logs:
        at, named = draw.choice(logs)
        first = record.heads["log", named.name]
        place = first + draw.randrange(len(record.logs[at]))
        if way == 0:
            other = first + draw.randrange(len(record.logs[at]))
            lines[place], lines[other] = lines[other], lines[place]
        else:
            lines[place] = with_reply(lines[place], draw_reply(draw, named.kind), draw)
    elif way == 3 and logs:
        at, named = draw.choice(logs)
        lines[3 + at] = lines[3 + at].replace(f" {named.events} ", f" {max(1, len(record.logs[at]) - 1)} ", 1)
    elif entries:
        cpu = draw.choice(entries)
        head = record.heads["cpu", cpu]
        place = head + draw.randrange(len(record.transcripts[cpu]))
        if way < 6:
            del lines[place]
            lines[head - 1] = f"cpu {cpu} {len(record.transcripts[cpu]) - 1}"
            return "\n".join(lines)
        asked, _, done = lines[place].partition(" | ")
        other = with_reply(done, "ok", draw)
        lines[place] = draw.choice([f"{asked} | noroom", f"{asked} ; len | {done}", f"{asked} | {other}"])
    return "\n".join(lines)


def shown_run(program, folder):
    """The record of the picture of a page: 8 CPUs on a queue, a pool and a sched, by a schedule, so it is always the same."""
    draw, files = random.Random(8), [folder / name for name in ("settings", "scripts", "schedule")]
    calls = {"q0": ["enq {}", "deq", "len"], "p0": ["alloc {}", "left", "alloc {}"],
             "s0": ["ready {}", "sleep 0 {}", "wake 0", "next"]}
    objects = [Object("q0", "mcs", 60, "queue", (16,)), Object("p0", "ticket", 60, "pool", (40, *[40] * 16)),
               Object("s0", "mcs", 60, "sched", (16, 2))]
    files[0].write_text("cpus = 8\n" + "".join(it.table() for it in objects))
    entries = [(cpu, draw.choice([*calls])) for cpu in range(8) for _ in range(draw.randint(14, 30))]
    asked = ((cpu, name, draw.choice(calls[name]).format(draw.randrange(16))) for cpu, name in entries)
    files[1].write_text("".join(f"{cpu} {name} {call}\n" for cpu, name, call in asked))
    files[2].write_text("".join(f"{draw.randrange(8)}\n" for _ in range(8_000)))
    return subprocess.run([program, "sim", "--settings", *files], capture_output=True, check=True).stdout


def with_reply(line, reply, draw):
    """The line with this reply in place of one of its own."""
    steps = line.split(" ; ")
    at = draw.randrange(len(steps))
    steps[at] = f"{steps[at].partition(' = ')[0]} = {reply}" if " = " in steps[at] else steps[at]
    return " ; ".join(steps)


def drawn_entries(draw, cpus, objects, count):
    """Entries by chance, each (CPU, object), at most 10,000 of each CPU."""
    entries = [(cpu, draw.randrange(objects)) for cpu in range(cpus) for _ in range(count // cpus)]
    draw.shuffle(entries)
    return entries


def record_of(cpus, objects, entries):
    """A sound record whose entries are done in this order: each asks how many threads wait."""
    logs, transcripts = [[] for _ in range(objects)], [[] for _ in range(cpus)]
    for number, (cpu, x) in enumerate(entries):
        logs[x].append(f"{cpu} len = count 0\n")
        transcripts[cpu].append(f"o{x} {number % 7} len | len = count 0\n")
    return text_of(logs, transcripts)


def text_of(logs, transcripts, limit=65536):
    """The record of these lines, on queues behind ticket locks."""
    lines = [f"record 2\ncpus {len(transcripts)}\nobjects {len(logs)}\n"]
    lines += [f"object o{x} ticket {limit} queue 8\n" for x in range(len(logs))]
    for x, log in enumerate(logs):
        lines += [f"log o{x} {len(log)}\n", *log]
    for cpu, entries in enumerate(transcripts):
        lines += [f"cpu {cpu} {len(entries)}\n", *entries]
    return "".join([*lines, "end\n"])


def round_of(cpus):
    """A record with a cycle through all CPUs: each did its entry on the next object before that on its own."""
    logs = [[f"{x} len = count 0\n", f"{(x - 1) % cpus} len = count 0\n"] for x in range(cpus)]
    transcripts = [[f"o{(c + 1) % cpus} 0 len | len = count 0\n", f"o{c} 0 len | len = count 0\n"] for c in range(cpus)]
    return text_of(logs, transcripts)
