"""Which edits a run of the gate tries beside those of must-fail/: a few of one crate by turns, and those of what changed."""
import re
import subprocess

from by_function import need_built
from common import ROOT, Stop
from edit_files import TOGETHER, changes_of, edits_of

# How many of the crate whose turn it is, and at most of what changed.
BY_TURNS, CHANGED = 6, 24
# Only `rt` counts these as refused: a proof file names what they take away, or they are refused in a closure that a thread gets
# (docs/GATE.md).
BY_RT_ALONE = {"acquires_twice", "passes_before_the_object_is_home", "passes_its_turn_twice", "release_takes_another_turn",
               "names_the_line_before", "each_caller_does_the_calls_of_the_first", "counts_no_calls"}
GREEN = re.compile(r"Last green as a whole: ([0-9a-f]{8,40})\.")


def git(*words):
    """What git prints, or None if it fails."""
    ran = subprocess.run(["git", "-C", ROOT, *words], capture_output=True, text=True, check=False)
    return ran.stdout if ran.returncode == 0 else None


def changed_files(commit):
    """The files that are otherwise than at the commit, in the work tree too. The commit has to be one that led to this."""
    if git("merge-base", "--is-ancestor", commit, "HEAD") is None:
        raise Stop(f"docs/GATE.md names the commit {commit} as the last that was green as a whole, and it didn't lead to this one")
    return [*git("diff", "--name-only", commit).splitlines(), *git("ls-files", "--others", "--exclude-standard").splitlines()]


def others(crate):
    """The crate's edits that aren't in must-fail/, and that tools/develop/edits can tell."""
    known = BY_RT_ALONE if crate in ("mcs_lock", "auditor", "guarded_cell") else set()
    return [it for it in edits_of(ROOT / "crates" / crate) if it.file == TOGETHER and it.name.removesuffix(".edit") not in known]


def is_built(crate):
    try:
        need_built(crate)
    except Stop:
        return False
    return True


def turn_of(crates):
    """The crate whose turn it is by the commit, and its edits."""
    head = git("rev-parse", "HEAD")
    number = int(head, 16) if head else 0
    able = [it for it in crates if others(it) and is_built(it)]
    if not able:
        raise Stop("no crate with edits stands on libraries that are built", 2)
    crate = able[number % len(able)]
    its, first = others(crate), number // len(able)
    return crate, [its[(first + it) % len(its)] for it in range(min(BY_TURNS, len(its)))]


def changed(crates):
    """The edits of files that changed since the last commit that was green as a whole, by crate; and how many more there are."""
    told = GREEN.search((ROOT / "docs/GATE.md").read_text(encoding="utf-8"))
    if not told or git("cat-file", "-e", told[1]) is None:
        return {}, 0
    files, found, count = {*changed_files(told[1])}, {}, 0
    for crate in filter(is_built, crates):
        for edit in others(crate):
            if any(f"crates/{crate}/{file}" in files for file, _, _ in changes_of(edit)):
                count += 1
                if count <= CHANGED:
                    found.setdefault(crate, []).append(edit)
    return found, max(0, count - CHANGED)


def turns(crates):
    """The names of the edits that are tried now, by crate."""
    found, left = changed(crates)
    crate, its = turn_of(crates)
    found.setdefault(crate, []).extend(it for it in its if it not in found.get(crate, []))
    print(f"by turns: {len(its)} edits of {crate}; of files that changed: {sum(map(len, found.values())) - len(its)}, and {left} not")
    return {crate: {it.name for it in edits} for crate, edits in found.items()}
