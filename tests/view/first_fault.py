"""The first fault of a record by its definition (docs/FORMATS.md), in plain Python."""
from texts.answers import apply, opened, refuses, steps_of, value_of


def log_fault(named, log):
    if len(log) > named.events:
        return f"log {named.name}: too long"
    target = opened(named)
    for e, (_, steps) in enumerate(log, 1):
        refused = False
        for s, (call, reply) in enumerate(steps_of(steps), 1):
            if refused or apply(target, call) != reply:
                return f"log {named.name} event {e} step {s}: wrong step"
            refused = refuses(reply)
    return None


def fulfils(asked, done):
    steps, asked = steps_of(done), [value_of(it) for it in asked.split(" ; ")]
    calls = [call for call, _ in steps]
    return calls == asked[: len(calls)] and (len(calls) == len(asked) or refuses(steps[-1][1]))


def transcript_fault(cpu, transcript, objects, logs, own, taken):
    for n, (x, _, asked, done) in enumerate(transcript, 1):
        mine = own[x][cpu]
        place = f"cpu {cpu} entry {n}"
        if done is None:
            if len(logs[x]) < objects[x].events or taken[x] < len(mine):
                return f"{place}: room was left"
            continue
        if taken[x] == len(mine) or logs[x][mine[taken[x]]][1] != done:
            return f"{place}: not its event"
        if not fulfils(asked, done):
            return f"{place}: not what was asked"
        taken[x] += 1
    return None


def first_fault(record):
    cpus, objects, logs, transcripts = record.cpus, record.objects, record.logs, record.transcripts
    for object_, log in zip(objects, logs):
        fault = log_fault(object_, log)
        if fault:
            return fault
    own = [[[] for _ in range(cpus)] for _ in logs]
    for x, log in enumerate(logs):
        for j, (cpu, _) in enumerate(log):
            own[x][cpu].append(j)
    unclaimed = {}
    for cpu, transcript in enumerate(transcripts):
        taken = [0] * len(logs)
        fault = transcript_fault(cpu, transcript, objects, logs, own, taken)
        if fault:
            return fault
        for x, count in enumerate(taken):
            if count < len(own[x][cpu]):
                unclaimed.setdefault(x, []).append(own[x][cpu][count])
    if unclaimed:
        x = min(unclaimed)
        return f"log {objects[x].name} event {min(unclaimed[x]) + 1}: unclaimed"
    return None
