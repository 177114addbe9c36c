"""What the tools of tools/measure print and keep: tables in Markdown, and the same figures as lines of CSV.

A line of CSV has the tool, what was done, which program or lock did it, what was counted with its unit, and the number:
`cells_speed,no log 2 threads,name-ticket,least ns,37`. tools/develop/pictures draws docs/speed_*.svg of such files."""
import csv
from statistics import median

from common import Words

HEAD = ["figure", "case", "kind", "measure", "value"]


class MeasureWords(Words):
    """The words of a tool that measures: `--csv FILE` names the file that its figures go to."""

    def __init__(self, text):
        super().__init__(text)
        self.add_argument("--csv", metavar="FILE")


class Figures:
    """The figures of a run, in the order in which they come."""

    def __init__(self, figure, file):
        self.figure, self.file, self.lines = figure, file, []

    def add(self, case, kind, **values):
        """Adds a line for each value. Its name is the measure, with `_` for a blank: `least_ns`."""
        for measure, value in values.items():
            number = f"{value:.3f}".rstrip("0").rstrip(".")
            self.lines.append([self.figure, case, kind, measure.replace("_", " "), number])

    def write(self):
        """Writes the file, if one was named."""
        if self.file:
            with open(self.file, "w", encoding="utf-8", newline="") as file:
                csv.writer(file, lineterminator="\n").writerows([HEAD, *self.lines])


def read_figures(path):
    """The value of each (case, kind, measure) of a file of figures."""
    with open(path, encoding="utf-8", newline="") as file:
        return {(it["case"], it["kind"], it["measure"]): float(it["value"]) for it in csv.DictReader(file)}


def least_and_middle(times):
    """Both as a cell of a table has them."""
    return f"{min(times):.1f} | {median(times):.1f}"


def head(*names):
    """Prints the head of a table."""
    print(f"| {' | '.join(names)} |\n|{'---|' * len(names)}")


def row(*cells):
    """Prints a row of it, at once."""
    print(f"| {' | '.join(map(str, cells))} |", flush=True)
