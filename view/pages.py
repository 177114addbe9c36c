"""Pages of one file: the frame of page.html with its scripts, its data, and at its head the picture of a fault or a cycle.
Nothing is loaded from elsewhere. Data above a size are compressed; the browser decompresses them."""
import base64
import json
import re
import zlib
from html import escape
from pathlib import Path

from view.asked import Refused
from view.model import Box
from view.pictures import picture
from view.svg import COLOURS, ink

PARTS = Path(__file__).parent / "page"
MOST_PLAIN, MOST_BOXES = 30_000, 1_500_000
SCRIPTS = ("rows.js", "draw.js", "parts.js", "strip.js", "cards.js", "moves.js", "keys.js")
STEP = re.compile(r"\d+ cpu (\d+) (?:idle|(\w+) (\w+)(?: ([a-z ]+))? \| ([a-z0-9 ]+))")


def whole(title, scripts, data, top=""):
    kind, text = "application/json", json.dumps({"colours": COLOURS, **data}, separators=(",", ":"), ensure_ascii=True)
    if len(text) > MOST_PLAIN:
        kind, text = "application/deflate", base64.b64encode(zlib.compress(text.encode(), 9)).decode()
    parts = {
        "TITLE": escape(title), "STYLE": (PARTS / "page.css").read_text(), "TOP": top, "KIND": kind,
        "DATA": text.replace("<", "\\u003c"),
        "SCRIPT": "".join((PARTS / name).read_text() for name in ("common.js", *scripts)),
    }
    return re.sub("<!--([A-Z]+)-->", lambda found: parts[found[1]], (PARTS / "page.html").read_text())


def timeline(model):
    """The page of a record."""
    if len(model.boxes) > MOST_BOXES:
        raise Refused(f"E17 page: {len(model.boxes)} boxes, at most {MOST_BOXES}; --svg draws them in parts", 2)
    data = {
        "title": model.title(), "isBad": model.is_bad(), "isOrder": model.is_order, "means": model.means(), "note": model.note,
        "objects": [{"name": named.name, "said": named.said(), "most": named.events, "events": model.events_of(number)}
                    for number, named in enumerate(model.record.objects)], "mark": model.mark(),
        "inks": [ink(number) for number in range(16)], "marked": model.marked, "rows": model.rows, "held": model.held(),
        "print": picture(model), **columns(model),
    }
    return whole(model.title(), SCRIPTS, data, picture(model, is_apart=False) if model.is_bad() else "")


def columns(model):
    """The boxes as columns of numbers; their words are in a list of their own. With an order a box's row is its CPU's."""
    texts, columns = {}, dict(zip(Box._fields, model.boxes.columns))
    has = {key: columns[key].tolist() for key in ("row", "cpu", "entry", "object", "event")[model.is_order:]}
    # (numbers that the browser would round)
    has["looks"] = [str(it) if it >= 2**53 else it for it in columns["looks"]]
    has["text"] = [texts.setdefault(it, len(texts)) for it in columns["text"]]
    return {"boxes": has, "texts": list(texts)}


def steps_page(text):
    """The page that plays the steps of the step machine, from the lines of `steps`."""
    words = (STEP.fullmatch(line).groups("") for line in text.splitlines())
    steps = [(int(cpu), name, step or "idle", *rest) for cpu, name, step, *rest in words]
    cpus, names = 1 + max((it[0] for it in steps), default=0), dict.fromkeys(it[1] for it in steps if it[1])
    title = f"{len(steps):,} step{'s' * (len(steps) != 1)} of {cpus} CPU{'s' * (cpus != 1)}"
    return whole(title, ["play.js"], {"cpus": cpus, "objects": list(names), "steps": steps})
