"""Trace events for Perfetto and chrome://tracing: one process has the CPUs and what each did, the other the objects and who had
them. An entry lasts 1 at its place in the order, so lengths are no times."""
import json

from view.pictures import tail_of

CPUS, OBJECTS = 1, 2


def trace(model):
    """The text of a model with an order, an event a line, in parts."""
    names, last = {CPUS: model.rows, OBJECTS: [named.said() for named in model.record.objects]}, {}
    threads = [({"pid": pid, "tid": tid}, "thread", name) for pid in names for tid, name in enumerate(names[pid], 1)]
    named = [({"pid": CPUS}, "process", "CPUs"), ({"pid": OBJECTS}, "process", "objects"), *threads]
    head = [{"ph": "M", **it, "name": f"{kind}_name", "args": {"name": name}} for it, kind, name in named]
    yield '{"traceEvents":[\n' + ",\n".join(map(spelled, head))
    for box in model.boxes:
        yield "".join(f",\n{spelled(it)}" for it in slices(model, box, last.get(box.cpu, 0)))
        last[box.cpu] = box.at
    yield "\n]}\n"


spelled = json.JSONEncoder(separators=(",", ":")).encode


def slices(model, box, last):
    """What an entry is in the trace: itself, its object's hold if it had room, and its waiting if it looked."""
    name, at = model.record.objects[box.object].name, 1000 * (box.at - 1)
    text = f"{box.text}: no room" if box.is_noroom() else box.text
    wait = int(1000 * (tail_of(model, box, last) - 0.12))
    of_cpu = {"ph": "X", "cat": name, "pid": CPUS, "tid": box.cpu + 1}
    if wait > 0:
        yield {**of_cpu, "ts": at - wait, "dur": wait, "name": f"waits for {name}", "args": {"looks": box.looks}}
    of_cpu |= {"ts": at, "dur": 1000, "args": {"entry": box.entry, "event": box.event, model.note: box.looks}}
    yield {**of_cpu, "name": f"{name} {text}"}
    if not box.is_noroom():
        yield {**of_cpu, "pid": OBJECTS, "tid": box.object + 1, "name": f"CPU {box.cpu}: {text}"}
