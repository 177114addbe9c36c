"""Pages in Chromium, each opened from its file: its boxes, keys, search and cards, its console, and how it looks."""
import tempfile
from pathlib import Path

from common import ROOT, run
from rows import row_named
from texts.record import read_record
from view.model import Model
from view.pages import steps_page, timeline
from view.verdict import by_mc2, by_said
from browser import Browser, Lost
from drawn import record_of, shown_run
from judges import MARKUP, CUSTOM, WRONG
from models import same
from parts import part_of

HERE = Path(__file__).parent
LOOKS = ROOT / "out"
DRAWN, REDRAWN = 5_000, 200  # milliseconds, on a machine that others use too


class Pages:
    def __init__(self, checks, browser, folder):
        self.checks, self.browser, self.folder = checks, browser, folder

    def open(self, page, fragment=""):
        """Opens the page and returns after how many milliseconds it was drawn."""
        path = self.folder / "page.html"
        path.write_text(page)
        took = self.browser.open(path, fragment)
        same(not self.browser.errors, f"its console says {self.browser.errors}")
        return took

    def judged(self, name):
        text = (ROOT / name).read_bytes()
        return Model(read_record(text), by_mc2(self.checks.mc2, text), self.checks.mc2)

    def walk(self, model, boxes=None):
        """Each box is where it should be, keys and search do what they should, and the paper has the picture."""
        self.open(timeline(model))
        found = self.browser.run((HERE / "timeline.js").read_text())
        same(found == f"{len(model.boxes) if boxes is None else boxes} boxes", f"it has {found}")
        count = "byId('print').querySelectorAll('svg rect').length"
        paper = self.browser.run(f"new Promise((done) => setTimeout(() => done({count}), 50))")
        same(paper > 0 and self.browser.paper().startswith(b"%PDF"), "there is nothing to print")
        same(not self.browser.errors, f"its console says {self.browser.errors}")

    def look(self, name, is_dark=False):
        LOOKS.mkdir(exist_ok=True)
        self.browser.dark(is_dark)
        self.browser.picture(LOOKS / f"view_{name}.png")
        self.browser.dark(False)


def check_card(pages):
    """The card of a named entry, by real keys; and the search."""
    pages.walk(pages.judged("examples/four_cpus/record"), 6)
    pages.open(timeline(pages.judged("examples/four_cpus/record")))
    pages.browser.press("/", *"cpu 2, get", "Enter")
    same(pages.browser.run("document.activeElement.value") == "cpu 2, get", "the search hasn't the words")
    pages.browser.run("search(byId('search').value); nextHit(1)")
    said = pages.browser.run("byId('one').innerText")
    words = "place 6/CPU 2/entry 2/= byte 65/c0: console, MCS lock/event 3 of 3/held before: bytes 65, 66"
    for part in words.split("/"):
        same(part in said, f"{part!r} isn't in the card: {said!r}")
    pages.look("four_cpus")


def check_large(pages):
    """The model of 80,000 entries of 64 CPUs: how soon they are drawn, and how fast again."""
    model = pages.checks.large_model
    pages.walk(model)
    took = pages.open(timeline(model))
    pages.look("80000_entries")
    speeds = pages.browser.run((HERE / "speed.js").read_text())
    again = ", ".join(f"{it:.1f}" for it in speeds)
    print(f"80,000 entries: drawn after {took:.0f} ms, and again in {again} ms, from far to near")
    same(took < DRAWN and max(speeds) < REDRAWN, "that is slow")
    pages.browser.press("r")
    pages.look("80000_entries_taller")


def check_fault(pages):
    pages.walk(pages.judged("rows/view/timeline_of_an_unsound_record/record.txt"))
    pages.look("unsound")
    pages.look("unsound_dark", True)


def check_cycle(pages):
    pages.walk(pages.judged("rows/view/timeline_of_a_cycle/record.txt"))
    pages.look("cycle")


def check_around(pages):
    """The part of a record around an event, with the numbers of the whole."""
    part = part_of(record_of(4, 1, [(at % 4, 0) for at in range(3_000)]).encode(), "log o0 event 1501 step 1: wrong step", 100)
    pages.walk(part)
    pages.browser.press("f")
    said = pages.browser.run("byId('one').innerText")
    for words in "CPU 0", "entry 376", "the event that was named", "event 1,501 of 3,000 in its log":
        same(words in said, f"{words!r} isn't in the card: {said!r}")


def check_markup(pages):
    """A judge's words don't become a part of the page."""
    text = (CUSTOM / "runq_lower_first").read_bytes()
    model = Model(read_record(text), by_said(f"{WRONG}\n{MARKUP}\n".encode()))
    pages.walk(model)
    same(pages.browser.run("document.title") == model.title(), "a judge's words were run")
    same(pages.browser.run("document.querySelectorAll('#top script, #top img').length") == 0, "a judge's words are elements")


def check_steps(pages):
    """The page that plays steps: each step by a key, and the lock's line behind the last one."""
    for name in ("at_a_ticket_lock", "at_an_mcs_lock"):
        lines = row_named("steps", name).stdout.decode()
        pages.open(steps_page(lines))
        count = len(lines.splitlines())
        pages.browser.press("End")
        said, last = pages.browser.run("byId('said').innerText"), lines.splitlines()[-1].split(" | ")[0].split(" ", 3)
        same(said.startswith(f"{count}: CPU {last[2]} ") and last[3].split()[-1] in said, f"the last step is {said!r}")
        pages.browser.press("ArrowLeft", "Home", "ArrowRight")
        same(pages.browser.run("now") == min(2, count), "the steps don't follow the keys")
        same(pages.browser.run("byId('said').innerText").startswith("2: CPU"), "no step is named")
        same(not pages.browser.errors, f"its console says {pages.browser.errors}")
    pages.look("steps")


def draw_documents(checks):
    """The pictures of pages in docs/SEEING.md: a run, and a kernel in C whose lock is released too early."""
    with tempfile.TemporaryDirectory(prefix="views-") as folder, Browser() as browser:
        pages, folder = Pages(checks, browser, Path(folder)), Path(folder)
        (folder / "run").write_bytes(shown_run(checks.program, folder))
        run(["cc", "-std=c11", "-O2", "-pthread", "-o", folder / "foreign", ROOT / "examples/foreign/foreign.c"])
        (folder / "early").write_bytes(run([folder / "foreign", "ticket", "early"]).stdout)
        shown = [("seen_page.png", "run", 500, "#from=30&to=64&at=46"), ("seen_fault.png", "early", 560, "")]
        for name, record, high, fragment in shown:
            browser.resize(1120, high)
            pages.open(timeline(pages.judged(folder / record)), fragment)
            browser.picture(ROOT / "docs" / name)


PAGES = {"a card": check_card, "80,000 entries": check_large, "a fault": check_fault, "a cycle": check_cycle,
         "a part": check_around, "markup": check_markup, "steps": check_steps}


def check_pages(checks):
    with tempfile.TemporaryDirectory(prefix="views-") as folder:
        for name, check in PAGES.items():
            try:
                with Browser() as browser:
                    checks.tried(f"in Chromium: {name}", check, Pages(checks, browser, Path(folder)))
            except Lost as lost:
                checks.note(f"in Chromium: {name}", [str(lost)])
