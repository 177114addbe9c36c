"""Looks at the schedules that `view schedule` makes: `mc2 sim` does their steps."""
import random
import re
import tempfile
from collections import Counter
from pathlib import Path
from unittest.mock import patch

from common import run
from drawn_runs import CPUS, draw_objects, draw_scripts, scripts_text
from view.asked import Refused
from view.schedule import WAITS, schedule, words_by

QUEUE = '[[object]]\nname = "q0"\nkind = "queue"\nlock = "{}"\nevents = 65536\nthreads = 8\n'


class Given:
    """Settings and scripts in a folder."""

    def __init__(self, mc2, folder, cpus, tables, scripts):
        self.mc2, self.schedule = mc2, Path(folder) / "schedule"
        self.files = [Path(folder) / name for name in ("settings", "scripts")]
        self.files[0].write_text(f"cpus = {cpus}\n{tables}")
        self.files[1].write_text(scripts)
        self.entries = Counter(it.split()[0] for it in scripts.splitlines())

    def made(self, seed, rounds=False):
        return schedule(*self.files, seed, rounds)

    def is_whole(self, words):
        """Whether `sim` does all entries by these words."""
        self.schedule.write_text(words)
        record = run([self.mc2, "sim", "--settings", *self.files, self.schedule]).stdout.decode()
        return self.entries == +Counter({cpu: int(count) for cpu, count in re.findall(r"^cpu (\d+) (\d+)$", record, re.MULTILINE)})

    def faults(self, words):
        """What is wrong with a schedule."""
        found = [] if self.is_whole(words) else ["it doesn't end all scripts"]
        return found + ["a shorter beginning ends all scripts"] * bool(words and self.is_whole(words[: words[:-1].rfind("\n") + 1]))


def by_chance(mc2, seed, count):
    """Schedules of settings and scripts that are drawn. Where no draw ends them, CPUs take turns."""
    for number in range(count):
        draw = random.Random(f"{seed} {number}")
        cpus, (kinds, tables) = draw.choice(CPUS[:-1]), draw_objects(draw)
        scripts = scripts_text(draw_scripts(draw, cpus, kinds, draw.choice([0, 1, 5, 160 // cpus])))
        with tempfile.TemporaryDirectory(prefix="schedules-") as folder:
            given = Given(mc2, folder, cpus, tables, scripts)
            words, is_closer = given.made(number), number % 4 == 0
            faults = given.faults(words) + ["the same seed makes another one"] * (is_closer and words != given.made(number))
            faults += ["another seed makes the same one"] * (cpus > 1 and len(words) > 200 and words == given.made(number + 1))
            yield f"schedule {number} of {cpus} CPUs", faults
            turns = given.made(number, True)
            with patch("view.schedule.words_by", lambda *how: None if WAITS in how else words_by(*how)):
                faults = ["no draw ends them, and others come"] * (is_closer and turns != given.made(number))
            yield f"schedule {number} of {cpus} CPUs by turns", given.faults(turns) + faults


def at_the_most(mc2, is_few):
    """Schedules of as many entries as are never refused, at one lock."""
    for lock, cpus in (("mcs", 8), ("ticket", 64)) if is_few else (("ticket", 8), ("mcs", 8), ("ticket", 64)):
        scripts = "".join(f"{number % cpus} q0 len\n" for number in range(100_000 // (9 * cpus)))
        with tempfile.TemporaryDirectory(prefix="schedules-") as folder:
            given, name = Given(mc2, folder, cpus, QUEUE.format(lock), scripts), f"as many entries of {cpus} CPUs at one {lock} lock"
            yield f"{name} by turns", given.faults(given.made(3, True))
            if not is_few:
                yield name, given.faults(given.made(3))


def too_many(mc2):
    """Scripts that can't end within 100,000 words."""
    with tempfile.TemporaryDirectory(prefix="schedules-") as folder:
        given = Given(mc2, folder, 4, QUEUE.format("ticket"), "".join(f"{cpu} q0 len\n" * 8_400 for cpu in range(4)))
        for rounds in False, True:
            try:
                given.made(0, rounds)
                faults = ["one was made"]
            except Refused as refused:
                faults = [] if (refused.status, refused.line[:3]) == (2, "E15") else [refused.line]
            yield f"a schedule of too many entries{' by turns' * rounds}", faults


def schedules(mc2, seed, is_few):
    """What is looked at, each with a list of what is wrong."""
    yield from by_chance(mc2, seed, 8 if is_few else 20)
    yield from at_the_most(mc2, is_few)
    yield from too_many(mc2)
