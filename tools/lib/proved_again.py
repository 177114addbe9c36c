"""Which crates a change proves again, and the chain of crates that takes longest, as each waits for the one before."""
from common import ROOT

PARTS = "src", "specs", "proofs"


def lines_of(name, top=ROOT):
    """The lines of a crate's sources, definitions and proofs."""
    files = (path for part in PARTS for path in (top / "crates" / name / part).rglob("*") if path.suffix in (".rt", ".antt"))
    return sum(path.read_bytes().count(b"\n") for path in files)


def above(names, below):
    """The crates and all that stand on them, each after those that it stands on."""
    found, order = set(names), []
    while grown := {it for it in below if found & set(below[it])} - found:
        found |= grown
    while len(order) < len(found):
        order += [it for it in below if it in found and it not in order and not found & set(below[it]) - set(order)]
    return order


def share(names, lines):
    """How many in 100 of all lines these crates have."""
    return f"{100 * sum(lines[it] for it in names) / sum(lines.values()):.0f}"


def longest_chain(order, below, lines):
    """The chain with the most lines among crates that come after those that they stand on, and its lines before it."""
    best = {}
    for name in order:
        before = max((best[it] for it in below[name] if it in best), default=(0, []))
        best[name] = (before[0] + lines[name], [*before[1], name])
    return max(best.values())
