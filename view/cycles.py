"""The picture of a cycle: entries of which each had to come before another, all around."""
import math

from view.faults import about

LEFT, RIGHT, WIDE = 84, 560, 360
TIP, EDGE = LEFT + WIDE - 20, RIGHT + WIDE + 44  # where arrows end, beyond what stands above a box; and where one leads down


def cycle(drawn, model):
    """A row for each CPU of the cycle: its next entry at the left, and at the right the event of its that another one's next
    entry has to follow. Arrows lead from what comes first to what comes behind it."""
    around, places = model.verdict.cycle, []
    drawn.say("Each arrow leads from what comes first to what comes behind it, and they lead in a circle.", "grey")
    for place, (cpu, number) in enumerate(around):
        first = holds_up(model, cpu, number, around[place - 1])
        places.append(row(drawn, model, cpu, number, first))
    for (y, _), (from_y, from_x) in zip(places, places[1:]):
        start, middle, tip = from_x + WIDE - 20, y + 50, y + 36
        arrow(drawn, f"M{start} {from_y}C{start} {middle} {TIP} {middle} {TIP} {tip + 8}", TIP, tip, True)
    (last, _), (first, x) = places[-1], places[0]
    path = f"M{x + WIDE} {first + 15}H{EDGE - 10}q10 0 10 10V{last + 46}q0 10 -10 10H{TIP + 10}q-10 0 -10 -10"
    arrow(drawn, path, TIP, last + 36, True)


def row(drawn, model, cpu, number, first):
    """The two entries of a CPU, the first of which is the later one. Where its row is, and where that one stands."""
    y, right = drawn.y + 34, RIGHT if first != number else LEFT
    drawn.text(16, y + 20, f"CPU {cpu}")
    for x, at in {LEFT: number, right: first}.items():
        box = model.entry(0, at, cpu, at)
        event = f"event {box.event}" if box.event else "no room"
        drawn.text(x, y - 10, f"entry {box.entry} on {model.record.objects[box.object].name}, {event}", "grey")
        drawn.box(x, y, WIDE, 30, box.object, box.text, about(model, box), box.is_noroom())
    drawn.add("rect", class_="frame", x=LEFT - 4, y=y - 4, width=WIDE + 8, height=38, rx=4)
    if first != number:
        arrow(drawn, f"M{LEFT + WIDE + 6} {y + 15}H{RIGHT - 10}", RIGHT - 2, y + 15)
        drawn.text((LEFT + WIDE + RIGHT) / 2, y + 9, "then", "link", "middle")
    drawn.y = y + 62
    return y, right


def holds_up(model, cpu, number, waiting):
    """The first entry of this CPU, from this one on, whose event the waiting entry has to follow, on the same object."""
    its, claims = model.record.transcripts[cpu], model.claims
    on, limit = model.record.transcripts[waiting[0]][waiting[1] - 1].object, claims.event_of(*waiting) or math.inf
    found = (at for at in range(number, len(its) + 1) if its[at - 1].object == on and 0 < claims.event_of(cpu, at) < limit)
    return next(found, number)  # (a judge of one's own may name what is no cycle)


def arrow(drawn, path, x, y, is_up=False):
    """A line with a head at its end, which leads up or to the right."""
    drawn.add("path", class_="arrow", d=path)
    drawn.add("path", class_="link", d=f"M{x} {y}l-5 9h10z" if is_up else f"M{x} {y}l-9 -5v10z")
