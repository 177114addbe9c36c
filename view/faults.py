"""A record's first fault: what the object held, what there should have been, and the picture of what stands around it."""
import re
from contextlib import suppress

from texts.record import steps_of
from view.held import held_at
from view.model import kept
from view.svg import LETTER

NEAR = 3  # how many neighbours a fault has at each side


def about(model, box):
    number = f"entry {box.entry}, " if box.entry else "no entry, "
    event = f"event {box.event}, " if box.event else ""
    return f"CPU {box.cpu}, {number}{model.record.objects[box.object].name}, {event}{model.note} {box.looks}: {box.text}"


def strip(drawn, model, boxes, name, marked, witness=()):
    """Some boxes side by side with their numbers; the marked one in a frame, and those of a witness. Where some are left out
    there is a gap."""
    drawn.y += 36
    x, y, last = 16, drawn.y + 6, None
    for box in boxes:
        if last is not None and box.at > last + 1:
            drawn.text(x + 8, y + 21, "…", "grey", "middle")
            x += 22
        wide = max(96, min(len(box.text), 26) * LETTER + 12)
        is_marked = (box.row, box.at) in marked
        drawn.text(x + wide / 2, y - 9, f"{name} {box.at}", "bad" if is_marked else "grey", "middle")
        drawn.box(x, y, wide, 30, box.object, box.text, about(model, box), box.is_noroom())
        below = f"by CPU {box.cpu}" if name == "event" else f"on {model.record.objects[box.object].name}"
        drawn.text(x + wide / 2, y + 50, below, "grey", "middle")
        if is_marked or box.at in witness:
            drawn.add("rect", class_="frame" if is_marked else "kept", x=x - 4, y=y - 4, width=wide + 8, height=38, rx=4)
        x, last = x + wide + 12, box.at
    drawn.width, drawn.y = max(drawn.width, int(x + 8)), y + 56


def near(boxes, row, at):
    return [box for box in boxes if box.row == row and abs(box.at - at) <= NEAR]


def fault(drawn, model, it):
    record, apart = model.record, kept(model.apart())
    marked = {(box.row, box.at) for box in apart if model.is_marked(box, True)}
    number, event = place_of(model, it)
    if it.log is not None:
        witness = {int(event) for event in re.findall(r"^ *event (\d{1,9}):", "\n".join(model.verdict.reasons), re.M)}
        named = [box for box in apart if box.row == number and box.at in witness | {event}]
        shown = named if witness else near(apart, number, event)
        drawn.say(f"The log of {it.log}" + (", as far as it shows the fault:" if witness else ", around the first fault:"))
        strip(drawn, model, shown, "event", marked, witness)
    else:
        drawn.say(f"The entries of CPU {it.cpu}, around the first fault:")
        strip(drawn, model, near(apart, len(record.logs) + it.cpu, it.entry), "entry", marked)
        drawn.say(f"The log of {record.objects[number].name} there:")
        strip(drawn, model, near(apart, number, event or len(record.logs[number])), "event", marked)
    for words, kind in told(model, it):
        drawn.say(words, kind)


def place_of(model, it):
    """The numbers of the object that the fault is at, and of its event: the first too many, if a log is too long."""
    if it.log is None:
        return model.record.transcripts[it.cpu][it.entry - 1].object, model.claims.event_of(it.cpu, it.entry) or None
    number = [named.name for named in model.record.objects].index(it.log)
    return number, it.event or model.record.objects[number].events + 1


def told(model, it):
    """What the object held at the fault, and what there should have been: lines of text with their kinds."""
    number, event = place_of(model, it)
    place = it, model.record.objects[number], model.record.logs[number], event
    yield from said_held(model, *place)
    yield from explained(model, number, *place)


def said_held(model, it, named, log, event):
    """What the object held there, as lines of text with their kinds."""
    if model.is_known(named):
        place = f"Before step {it.step or 1} of event {event}" if event else "Behind its last event"
        # (a log that is too long may have wrong replies too)
        with suppress(LookupError, ValueError):
            yield f"{place} {named.name} held: {held_at(named, log, event or len(log) + 1, it.step or 1)[1]}.", None
    elif not model.verdict.reasons:
        yield f"What {named.name} held, only its model knows.", None


def explained(model, number, it, named, log, event):
    """What the fault means."""
    if model.verdict.reasons:
        yield from ((line, "mono") for line in model.verdict.reasons)
    elif it.what == "wrong step":
        yield wrong_step(model, number, it, *steps_of(log[event - 1].steps)[it.step - 1]), "bad"
    elif it.what == "too long":
        yield f"The log has {len(log)} events, and may have {named.events}.", "bad"
    elif it.what == "unclaimed":
        cpu = log[event - 1].cpu
        done = sum(entry.object == number and entry.done is not None for entry in model.record.transcripts[cpu])
        yield f"CPU {cpu} has {done} entries that were done on {named.name}, and none is left for this event.", "bad"
    elif it.what == "room was left":
        yield f"The entry found no room. The log has {len(log)} events, and may have {named.events}.", "bad"
        yield "If it is full, it has an event of this CPU that no earlier entry took.", None
    else:
        yield from wrong_entry(model.record.transcripts[it.cpu][it.entry - 1], it, named, log, event)


def wrong_step(model, number, it, call, reply):
    right = model.right_reply(number, it.event, it.step, call)
    if right == reply or not model.verdict.is_judged:
        return f"A step before it in this event refused, so it wasn't to be done. The record has: {call} = {reply}."
    return (f"It should have answered: {call} = {right}. " if right else "") + f"The record has: {call} = {reply}."


def wrong_entry(entry, it, named, log, event):
    if it.what == "not its event":
        next_one = f"event {event}: {log[event - 1].steps}" if event else "none"
        yield f"The entry has: {entry.done}. The CPU's next event on {named.name} is {next_one}.", "bad"
    else:
        yield f"Asked was: {entry.asked}. Done was: {entry.done}.", "bad"
        yield "What is done is all that was asked, or ends with a call that refused.", None
