"""The part of a record around an event: whether it has what is around it, as the whole record has it."""
import io
import tempfile

from models import check_picture, drawn, page_boxes, page_data, same
from texts.line import Fault
from view.around import MOST_BETWEEN, around
from view.asked import Refused
from view.pages import timeline


def part_of(text, named, near, most=1_000_000):
    with tempfile.TemporaryFile() as copy:
        return around(io.BytesIO(text), copy, named, near, most)


def check_part(model, text, draw, near):
    """The part around an event by chance, beside the model of the whole record."""
    number = draw.choice([at for at, log in enumerate(model.record.logs) if log])
    log, name = model.record.logs[number], model.record.objects[number].name
    event = draw.randrange(len(log)) + 1
    part = part_of(text, f"{name}:{event}", near)
    around_it = range(max(1, event - near), min(len(log), event + near) + 1)
    wanted = wanted_entries(model, number, around_it)
    mine = [box for box in part.boxes if part.is_order or box.row >= len(model.record.logs)]
    same(sorted((box.cpu, box.entry) for box in mine) == wanted, f"other entries are around {name}:{event}")
    for box in mine:
        same(box[2:] == model.entry(0, 0, box.cpu, box.entry)[2:], f"another box is around {name}:{event}: {box}")
    if not part.is_order:
        same([box.event for box in part.boxes if box.row == number] == [*around_it], "other events are in the log")
    marked = [part.boxes[at] for at in part.marked]
    claimed = model.claims.entry_of(number, event)
    is_drawn = bool(claimed or not part.is_order)
    same([(box.object, box.event, box.entry) for box in marked] == [(number, event, claimed)] * is_drawn,
         f"{marked} is marked in place of {name}:{event}")
    return part


def wanted_entries(model, number, events):
    """The entries that have these events, and those of the same CPUs in between."""
    wanted, log = [], model.record.logs[number]
    for cpu in range(model.record.cpus):
        on = [model.claims.entry_of(number, event) for event in events if log[event - 1].cpu == cpu]
        on = [entry for entry in on if entry]
        wanted += [(cpu, entry) for entry in (range(on[0], on[-1] + 1) if on and on[-1] - on[0] <= MOST_BETWEEN else on)]
    return sorted(wanted)


def check_shown(model, text, draw):
    """The page and the picture of a part."""
    part = check_part(model, text, draw, 30)
    data = page_data(timeline(part))
    same(page_boxes(data) == list(map(drawn, part.boxes)), "the page of a part has other boxes")
    same(data["marked"] == part.marked and data["mark"] == part.mark(), "the page of a part marks another place")
    same([it["events"] for it in data["objects"]] == [*map(len, model.record.logs)], "the page of a part has other logs")
    check_picture(part)


def check_few(text):
    """Where too many entries would be drawn, fewer are; at least the one that was named."""
    for most, wanted in (1_000, 61), (60, 31), (2, 1), (0, 1):
        part = part_of(text, "o0:50", 30, most)
        same(len(part.boxes) == wanted and len(part.marked) == 1, f"{len(part.boxes)} entries are drawn where {most} may be")


def check_refused(text):
    """Where the event isn't there, and where a line of the part, or the front of another, is wrong."""
    for named in "nothere:1", "o0:9999":
        try:
            part_of(text, named, 1)
            same(False, "an event that isn't there is drawn")
        except Refused as refused:
            name, _, event = named.partition(":")
            same((refused.line, refused.status) == (f"E18 around: the record has no event {event} of {name}", 2), refused.line)
    lines = text.split(b"\n")
    first = next(at for at, line in enumerate(lines) if line.startswith(b"log o0 ")) + 1
    for at, line, is_seen in (first + 4, lines[first + 4] + b" x", True), (first + 40, lines[first + 40] + b" x", False), \
            (first + 40, b"x", True), (len(lines) - 3, b"end", True):
        try:
            part_of(b"\n".join([*lines[:at], line, *lines[at + 1 :]]), "o0:5", 3)
            same(not is_seen, f"line {at + 1} isn't refused")
        except Fault as fault:
            same(is_seen and fault.line == at + 1, f"line {fault.line} is refused in place of {at + 1}")
