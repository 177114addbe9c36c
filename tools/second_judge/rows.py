#!/usr/bin/env python3
"""use: rows.py PROGRAM

Has the second judge audit and merge the records that rows of mc2 do: it has to print what they want, and to end with their
status. Rows whose words are refused are left out, as the second judge has fewer words."""
import sys
from pathlib import Path

sys.dont_write_bytecode = True
sys.path.insert(0, str(Path(__file__).resolve().parents[2] / "tools/lib"))
from common import Words, end, run
from rows import rows_of


def is_judged(row):
    return row.words[:1] in (["audit"], ["merge"]) and not row.output and not (row.stderr or b"").startswith(b"mc2: E14")


def main():
    words = Words(__doc__)
    words.add_argument("program", type=lambda it: Path(it).resolve())
    program, rows, wrong = words.parse_args().program, [it for it in rows_of("mc2") if is_judged(it)], []
    for row in rows:
        with row.folder() as folder:
            ran = run([program, *row.words], wanted=None, input=row.stdin, cwd=folder, timeout=60)
        pairs = (row.status, ran.returncode), (row.stdout, ran.stdout), (row.stderr, ran.stderr)
        if any(wanted not in (None, got) for wanted, got in pairs):
            wrong.append(f"{row.place}: {row.name}: status {ran.returncode}, {ran.stdout[:80]!r}, {ran.stderr[:80]!r}")
    print(*wrong, f"{len(rows)} rows, of which {len(wrong)} are judged otherwise", sep="\n")
    return 1 if wrong or not rows else 0


if __name__ == "__main__":
    end(main)
