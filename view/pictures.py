"""The pictures of a record: of its order, entry by entry or in parts, of its first fault, or of a cycle."""
import math

from view.cycles import cycle
from view.faults import about, fault
from view.svg import LETTER, Picture, colour

MOST, PARTS = 200, 120  # above so many entries an order is cut into so many parts


def picture(model, is_apart=True):
    """The picture of this record. At the head of a page it isn't apart, and has neither heading nor legend."""
    drawn = Picture(1000, "no" if is_apart else "top")
    if is_apart:
        drawn.y = 28
        drawn.text(16, 28, model.title(), "head bad" if model.is_bad() else "head")
    if model.verdict.fault:
        fault(drawn, model, model.verdict.fault)
    elif model.verdict.cycle:
        cycle(drawn, model)
    elif len(model.boxes) <= MOST:
        order(drawn, model)
    else:
        parts(drawn, model)
    if is_apart:
        drawn.y += 10
        drawn.legend(model.record.objects)
    return drawn.whole(model.title(), model.record.objects, is_apart)


def rows(drawn, model, height):
    """The names of the CPUs and their lines; the middle of each."""
    middles = []
    for name in model.rows:
        y = drawn.y + height / 2
        drawn.text(16, y + 4, name)
        drawn.add("path", class_="line", d=f"M76 {y:g}H{drawn.width - 16}")
        middles.append(y)
        drawn.y += height
    return middles


def order(drawn, model):
    """Each entry in a column of its own, wide enough for its words if there are few."""
    longest = max((len(box.text) for box in model.boxes), default=0)
    wide = min(longest * LETTER + 30, 180) if len(model.boxes) <= 24 else 28
    drawn.width = max(1000, int(92 + wide * len(model.boxes)))
    top = drawn.y = drawn.y + 34
    middles, last = rows(drawn, model, 36), {}
    for box in model.boxes:
        left, y = 80 + (box.at - 0.88) * wide, middles[box.cpu]
        tail = tail_of(model, box, last.get(box.cpu, 0)) * wide
        if tail > 0:
            drawn.add("rect", x=left - tail, y=y - 6, width=tail, height=12, fill=colour(box.object), fill_opacity=0.35)
        drawn.box(left, y - 13, wide * 0.88, 26, box.object, box.text, f"{box.at}: {about(model, box)}", box.is_noroom())
        if box.at - 1 in model.marked:
            drawn.add("rect", class_="frame", x=left - 3, y=y - 16, width=wide * 0.88 + 6, height=32, rx=4)
        if wide > 28 or box.at % 5 == 0:
            drawn.text(left + wide * 0.44, top - 6, str(box.at), "grey", "middle")
        last[box.cpu] = box.at
    drawn.y += 14
    drawn.say(model.means() + " A pale tail grows with an entry's looks at the lock." * (model.note == "looks"), "grey")
    if any(box.is_noroom() for box in model.boxes):
        drawn.say("Hatched: the log had no room, and nothing was done.", "grey")


def tail_of(model, box, last):
    """How long an entry's tail is, in columns: each doubling of the looks adds the same, as far as there is room."""
    return 0 if model.note != "looks" else min(0.25 * math.log2(1 + box.looks), box.at - 1 - last + 0.12)


def parts(drawn, model):
    """The order cut into parts; of each part every CPU has a bar, as high as it has entries there, of the objects' colours."""
    wide, top = (drawn.width - 96) / PARTS, drawn.y + 20
    drawn.y = top
    high = max(8, min(36, 900 // len(model.rows)))
    middles, has = rows(drawn, model, high), {}
    for at, box in enumerate(model.boxes):
        part = has.setdefault((box.cpu, at * PARTS // len(model.boxes)), {})
        part[box.object, box.is_noroom()] = part.get((box.object, box.is_noroom()), 0) + 1
    for (number, is_noroom), path in sorted(bars(model, has, middles, high, wide).items()):
        stroke = drawn.hatched(number) if is_noroom else colour(number)
        drawn.add("path", d="".join(path), stroke=stroke, stroke_width=wide * 0.9)
    drawn.y += 8
    drawn.say(f"{model.means()} Of {PARTS} parts, a bar is the higher the more entries its CPU has there.", "grey")


def bars(model, has, middles, high, wide):
    """Of each object, and of its entries without room, the strokes of all bars."""
    full = 2 * len(model.boxes) / len(has)  # (so that one crowded part doesn't flatten all others)
    paths = {}
    for (cpu, at), part in has.items():
        y, unit = middles[cpu] + high / 2 - 1, (high - 2) / max(full, sum(part.values()))
        for key in sorted(part):
            y -= part[key] * unit
            paths.setdefault(key, []).append(f"M{80 + at * wide:.4g} {y:.4g}v{part[key] * unit:.2g}")
    return paths
