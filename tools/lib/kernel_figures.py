"""For the checks of kernels: the figures of tests/c/kernel/figures.h, and the checks of a library by linked.sh of that folder."""
import re

from common import ROOT, Stop, last_line, run

FIGURES = {name: int(it) for name, it in re.findall(r"(\w+) = (\d+)", (ROOT / "tests/c/kernel/figures.h").read_text())}


def linked(command, *words):
    ran = run([ROOT / "tests/c/kernel/linked.sh", command, *words], wanted=None, text=True)
    if ran.returncode:
        raise Stop(last_line(ran.stdout, ran.stderr))
    return last_line(ran.stdout)
