"""Makes a schedule that ends all scripts: CPUs are drawn, or take turns, and the program `steps` says what their steps do."""
import itertools
import random
import tempfile
from collections import Counter
from contextlib import suppress
from pathlib import Path

from texts.line import MOST_BYTES, MOST_ENTRIES, MOST_LINE, entry_lines
from view.asked import STEPS, Refused

MOST_WORDS, MOST_CPUS = 100_000, 64
LEAST_STEPS = 3  # what an entry takes at least: at a ticket lock it draws, looks and serves
ENDS = {"serve", "pass", "empty the lock is free"}
WAITS = {"look in vain", "see nobody"}  # what changes nothing if the CPU did it by its last step too


def settings_part(file):
    """As much of settings as `steps` may read."""
    yield file.read(MOST_BYTES + 1)


def scripts_part(file):
    """Scripts, as far as `steps` may take them: no further where a line is too long, or entries are too many."""
    left, is_skipped = MOST_CPUS * MOST_ENTRIES, False
    for row in iter(lambda: file.readline(MOST_LINE + 1), b""):
        is_skipped = is_skipped or row.startswith((b"#", b"\n"))
        left -= not is_skipped
        yield row
        if left < 0 or not is_skipped and len(row) > MOST_LINE:
            return
        is_skipped = is_skipped and not row.endswith(b"\n")


class Scripts:
    """The settings and scripts: how many CPUs there are, and the entries of each that has any."""

    def __init__(self, settings, scripts, folder):
        self.schedule, *copies = (Path(folder) / name for name in ("schedule", "settings", "scripts"))
        self.files = [settings, scripts]
        # (a copy can be read again and again, also of a pipe; if there is none, `steps` is to refuse the file itself)
        with suppress(OSError):
            for at, part in enumerate((settings_part, scripts_part)):
                with open(self.files[at], "rb") as file, open(copies[at], "wb") as copy:
                    copy.writelines(part(file))
                self.files[at] = copies[at]
        try:
            # Of these CPUs the last is never there, so where all else is good the first that isn't is refused.
            next(self.steps(range(MOST_CPUS + 1)))
        except Refused as refused:
            if not (refused.line or "").startswith("E8 schedule: word "):
                raise
            self.cpus = int(refused.line.split()[-1]) - 1
        with open(self.files[1], "rb") as file:
            self.entries = Counter(int(it.words[0]) for it in entry_lines(file))

    def steps(self, words):
        """What the step of each of these words is: a CPU, and the step's name with its outcome."""
        self.schedule.write_text("".join(f"{cpu}\n" for cpu in words), encoding="utf-8")
        for line in STEPS.ask(["--settings", *self.files, self.schedule]).decode().splitlines():
            _, _, cpu, *name = line.partition(" |")[0].split(" ", 4)
            yield int(cpu), name[-1]


def words_by(next_cpu, scripts, waits=()):
    """The words of a schedule, without a CPU that has nothing left, or None where they would be too many. Where a CPU waits,
    all but its first such step are left out."""
    words, left, size, last = [], +scripts.entries, MOST_CPUS, {}
    # (of each CPU an entry may be begun)
    while left and len(words) + LEAST_STEPS * (sum(left.values()) - len(left)) <= MOST_WORDS:
        size = min(2 * size + 16 * sum(left.values()), MOST_WORDS - len(words))
        open_cpus = sorted(left)
        more = [next_cpu(open_cpus) for _ in range(size)]
        kept = []
        for cpu, name in itertools.islice(scripts.steps(words + more), len(words), None):
            if name != "idle" and not (name in waits and last.get(cpu) == name):
                kept.append(cpu)
                left[cpu] -= name in ENDS
            last[cpu] = name
        if not kept:
            return None
        words, left = words + kept, +left
    return None if left else words


def schedule(settings, scripts, seed, rounds):
    """The text of a schedule: CPUs are drawn, or each that has something left takes its turn, from CPU 0 on. So many rounds as
    9 for each entry end all scripts, so where these fit, one is made."""
    with tempfile.TemporaryDirectory(prefix="schedule-") as folder:
        given = Scripts(settings, scripts, folder)
        # (of all that draws, `random` alone is the same in each version of Python)
        draw, around = random.Random(seed).random, itertools.cycle(range(given.cpus))
        words = None if rounds else words_by(lambda left: left[int(draw() * len(left))], given, WAITS)
        if words is None:
            words = words_by(lambda left: next(it for it in around if it in left), given)
    if words is None:
        raise Refused(f"E15 the scripts do not end within {MOST_WORDS} words", 2)
    return "".join(f"{cpu}\n" for cpu in words)
