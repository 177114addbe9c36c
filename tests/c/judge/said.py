#!/usr/bin/env python3
"""use: said.py CUSTOM [OTHER]

Judges the records of examples/custom/records by custom.c. `merge` has to print the file `said`, and `audit` the same verdicts.
With OTHER, custom.cpp has to print the verdicts of custom.c.
"""
import re
import sys
from itertools import zip_longest
from pathlib import Path

sys.dont_write_bytecode = True
sys.path.insert(0, str(Path(__file__).resolve().parents[3] / "tools/lib"))
from common import ROOT, Stop, end, run

CUSTOM = ROOT / "examples/custom"
VERDICT = re.compile(r"^(== .*|sound|unsound: .*)$", re.MULTILINE)


def said_of(program, *words):
    """What the program prints of each record, below its name."""
    parts = []
    for record in sorted((CUSTOM / "records").iterdir()):
        ran = run([program, *words, record], wanted=(0, 1, 2), timeout=60)
        parts.append(f"== {record.name}\n{(ran.stdout + ran.stderr).decode()}")
    return "".join(parts)


def main():
    custom, *other = sys.argv[1:]
    wanted, audits = (CUSTOM / "said").read_text(), VERDICT.findall(said_of(custom, "audit"))
    if other:
        if VERDICT.findall(said_of(*other)) != audits:
            raise Stop("C and C++ have other verdicts")
    else:
        for at, (got, line) in enumerate(zip_longest(said_of(custom, "merge").splitlines(), wanted.splitlines()), 1):
            if got != line:
                raise Stop(f"line {at} of `said`: {got!r} in place of {line!r}")
        if [it for it in audits if it != "sound"] != VERDICT.findall(wanted):
            raise Stop("audit and merge have other verdicts")
    print(f"{wanted.count('== ')} records")
    return 0


if __name__ == "__main__":
    end(main, tells=False)
