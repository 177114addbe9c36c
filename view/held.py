"""What an object of `mc2` held before an event, and what it should have answered.

No answer is computed here. Up to the first wrong step all replies are right, and they tell what the object held. The right
reply to the call of that step comes from the proved program: it does the same calls once more, on one CPU."""
import tempfile

from texts.calls import GOING_ON, LOOKS
from texts.record import read_record, steps_of

MOST_CALLS, MOST_EVENTS = 80_000, 65_536  # of one CPU: 10,000 entries of 8 calls; and of a log


class Held:
    """What an object holds, as its replies tell it. Threads and bytes are in lines: a sched has one for each channel, and one,
    `None`, of the ready ones."""

    def __init__(self, kind):
        self.kind, self.lines, self.owners = kind, {None: []}, {}

    def step(self, call, reply):
        (word, *of), (said, *got) = (part.split(" ") for part in (call, reply))
        if said not in GOING_ON or word in LOOKS:
            return
        line = self.lines[None]
        if word == "alloc":
            self.owners[int(got[0])] = of[0]
        elif word == "free":
            del self.owners[int(of[1])]
        elif word == "remove":
            line.remove(of[0])
        elif word == "sleep":
            self.lines.setdefault(of[0], []).append(of[1])
        elif word in ("wake", "wakeall"):
            asleep = self.lines.get(of[0], [])
            count = 1 if word == "wake" else len(asleep)
            line += asleep[:count]
            del asleep[:count]
        elif word in ("deq", "get", "next"):
            del line[0]
        else:
            line += of
            del line[: said == "dropped"]

    def __str__(self):
        what = {"queue": "threads", "console": "bytes", "sched": "ready"}.get(self.kind)
        groups = {what: self.lines[None]}
        for page, owner in sorted(self.owners.items()):
            groups.setdefault(f"pages of owner {owner}:", []).append(str(page))
        for channel in sorted(filter(None, self.lines), key=int):
            groups[f"asleep at channel {channel}:"] = self.lines[channel]
        return "; ".join(f"{name} {', '.join(line)}" for name, line in groups.items() if line) or "nothing"


def held_before(named, log):
    """What the object held before each of these events, as long as the replies can be right."""
    held = Held(named.kind)
    try:
        for _, steps in log:
            yield str(held)
            for step in steps_of(steps):
                held.step(*step)
    except (LookupError, ValueError):
        return


def held_at(named, log, event, step):
    """The steps before this one, all of which are right, and what they left in the object."""
    before = [it for _, steps in log[: event - 1] for it in steps_of(steps)]
    before += steps_of(log[event - 1].steps)[: step - 1] if event <= len(log) else []
    held = Held(named.kind)
    for it in before:
        held.step(*it)
    return before, str(held)


def right_reply(mc2, named, before, call):
    """What the object answers to this call after these steps; or None where they are too many. Those that refused changed
    nothing, so they are left out."""
    calls = [done for done, reply in before if reply.split(" ")[0] in GOING_ON]
    if len(calls) > MOST_CALLS - 8:
        return None
    entries = [" ; ".join(calls[at:at + 8]) for at in range(0, len(calls), 8)] + [call]
    with tempfile.NamedTemporaryFile("w", suffix=".toml") as file:
        file.write("cpus = 1\n" + named._replace(name="x", events=MOST_EVENTS).table())
        file.flush()
        scripts = "".join(f"0 x {entry}\n" for entry in entries)
        said = mc2.ask(["run", "--settings", file.name], scripts.encode())
    return steps_of(read_record(said).logs[0][-1].steps)[0][1]
