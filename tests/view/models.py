"""Whether what is drawn of a record is what is in it: boxes, the data of the page, the picture and the trace."""
import base64
import json
import re
import xml.etree.ElementTree as xml
import zlib
from collections import Counter

from texts.answers import apply, opened, steps_of
from view.pages import timeline
from view.pictures import MOST, picture
from view.trace import CPUS, OBJECTS, trace

SVG = "{http://www.w3.org/2000/svg}"


class Wrong(Exception):
    """What differs."""


def same(is_so, what):
    if not is_so:
        raise Wrong(what)


def page_data(page):
    kind, text = re.search(r'<script type="application/(\w+)" id="data">(.*?)</script>', page, re.S).groups()
    return json.loads(zlib.decompress(base64.b64decode(text)) if kind == "deflate" else text)


def page_boxes(data):
    """The boxes as the page shows them: (row, cpu, entry, object, looks, event, words)."""
    has = data["boxes"]
    row, texts = has.get("row", has["cpu"]), (data["texts"][at] for at in has["text"])
    return list(zip(row, has["cpu"], has["entry"], has["object"], map(int, has["looks"]), has["event"], texts))


def drawn(it):
    return (it.row, it.cpu, it.entry, it.object, it.looks, it.event, it.text)


def check_boxes(model):
    """Each entry has its box once, in its CPU's order and its log's, with its own words."""
    record, boxes = model.record, model.boxes
    mine = [box for box in boxes if model.is_order or box.row >= len(record.logs)]
    wanted = {(cpu, at) for cpu, its in enumerate(record.transcripts) for at in range(1, len(its) + 1)}
    same(Counter((box.cpu, box.entry) for box in mine) == Counter(wanted), "an entry hasn't just one box")
    places = {}
    for box in boxes:
        same(box.at > places.get(box.row, 0), "a row is out of order")
        places[box.row] = box.at
    for box in mine:
        it = record.transcripts[box.cpu][box.entry - 1]
        same((box.object, box.looks, box.is_noroom()) == (it.object, it.looks, it.done is None), "a box isn't its entry's")
        same(all(step in box.text for step in (it.done or it.asked).split(" ; ")), "a box hasn't its entry's words")
    if model.is_order:
        same([box.at for box in boxes] == list(range(1, len(boxes) + 1)), "it isn't one order")


def check_sound(model):
    """Events are drawn in their logs' order, each once."""
    record, events = model.record, {}
    for box in model.boxes:
        if box.event:
            events.setdefault(box.object, []).append(box.event)
            done = record.transcripts[box.cpu][box.entry - 1].done
            same(record.logs[box.object][box.event - 1] == (box.cpu, done), "a box isn't its event's")
    same(all(events.get(at, []) == list(range(1, len(log) + 1)) for at, log in enumerate(record.logs)), "a log is out of order")


def check_trace(model):
    events = json.loads("".join(trace(model)))["traceEvents"]
    slices = [it for it in events if it["ph"] == "X" and "entry" in it["args"]]
    of_cpus = [(it["ts"], it["tid"] - 1, it["args"]["entry"]) for it in slices if it["pid"] == CPUS]
    same(of_cpus == [(1000 * (box.at - 1), box.cpu, box.entry) for box in model.boxes], "the trace has other entries")
    of_objects = [(it["tid"] - 1, it["args"]["event"]) for it in slices if it["pid"] == OBJECTS]
    same(of_objects == [(box.object, box.event) for box in model.boxes if not box.is_noroom()], "the trace has other holders")


def check_picture(model):
    """It is XML, nothing is beyond its edge, and an order that isn't cut has its boxes, none of which overlap."""
    root = xml.fromstring(picture(model))
    wide, high = float(root.get("width")), float(root.get("height"))
    titled = [it for it in root.iter(f"{SVG}rect") if it.find(f"{SVG}title") is not None]
    sides = "y", "x", "width", "height"
    rects = sorted((*(float(it.get(key)) for key in sides), it.find(f"{SVG}title").text) for it in titled)
    same(all(x + width <= wide and y + height <= high for y, x, width, height, _ in rects), "a box is beyond the edge")
    same(all(float(it.get("y")) <= high for it in root.iter(f"{SVG}text")), "words are beyond the picture's edge")
    for one, other in zip(rects, rects[1:]):
        same(one[0] != other[0] or one[1] + one[2] <= other[1], f"{one} and {other} overlap")
    if not model.is_bad() and len(model.boxes) <= MOST:
        said = Counter((int(it[0]), *map(int, it[1:3])) for it in
                       (re.match(r"(\d+): CPU (\d+), entry (\d+),", title).groups() for *_, title in rects))
        same(said == Counter((box.at, box.cpu, box.entry) for box in model.boxes), "the picture has other boxes")


def check_model(model):
    """All that can be said of a model without its fault. Returns the page's data."""
    check_boxes(model)
    if model.verdict.order is not None:
        check_sound(model)
        check_trace(model)
    data = page_data(timeline(model))
    same(page_boxes(data) == list(map(drawn, model.boxes)), "the page has other boxes")
    is_marked = model.is_bad() and bool(model.boxes)
    same(data["marked"] == model.marked and bool(model.marked) == is_marked, "the page marks another place")
    check_picture(model)
    return data


def check_fault(model, data, fault):
    """The page marks the place of the fault, which another judge named, and says the right reply that another model gives."""
    named = r"(?:log (\w+)(?: event (\d+)(?: step (\d+))?)?|cpu (\d+) entry (\d+)):"
    log, event, step, cpu, entry = re.match(named, fault).groups()
    names = [named.name for named in model.record.objects]
    marked = [page_boxes(data)[at] for at in data["marked"]]
    if log is None:
        same([(int(cpu), int(entry))] == [(it[1], it[2]) for it in marked], "the page marks another entry")
        return None
    at = int(event) if event else model.record.objects[names.index(log)].events + 1
    same([(names.index(log), at)] == [(it[3], it[5]) for it in marked], "the page marks another event")
    return right_reply(model.record, names.index(log), at, int(step)) if step else None


def right_reply(record, number, event, step):
    """What the object should have answered, by the kinds in plain Python; None behind a step that refused."""
    target, *before = opened(record.objects[number]), *record.logs[number][: event - 1]
    for _, steps in before:
        for call, _ in steps_of(steps):
            apply(target, call)
    steps = steps_of(record.logs[number][event - 1].steps)
    for call, _ in steps[: step - 1]:
        apply(target, call)
    reply = apply(target, steps[step - 1][0])
    return None if reply == steps[step - 1][1] else " ".join(map(str, reply))


def check_reply(picture_text, call, right):
    """The picture names the right reply, or that the step wasn't to be done."""
    wanted = f"It should have answered: {call} = {right}." if right else "A step before it in this event refused"
    same(wanted in "".join(xml.fromstring(picture_text).itertext()), f"{wanted!r} isn't in the picture")


