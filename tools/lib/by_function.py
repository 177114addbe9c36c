"""Edits of a crate, many in one check of the functions that they touch: which of them the prover refuses.

A function is checked against the contracts of those that it calls, and not against their bodies. So edits in the bodies of
different functions don't meet. One check reads these functions and what they call, over the libraries that `rt ci` left, and
tells of each. First the crate is checked as it is, into a folder from which each check takes what is the same.
"""
import re
import shutil
import tempfile
from collections import defaultdict
from pathlib import Path
from queue import SimpleQueue
from typing import NamedTuple

from common import ROOT, Stop, run
from edit_files import changes_of
from libraries import kit, stands_on, words_of

FN = re.compile(r"( *)(?:pub(?:\([a-z]+\))? )?(?:const )?(?:extern \"C\" )?fn (\w+)")
CONST = re.compile(r"(?:pub(?:\([a-z]+\))? )?const (\w+):")
IMPL = re.compile(r"impl(?:<.*?>)? (?:(\w+)(?:<.*>)? for )?(\w+)")
TRAIT = re.compile(r"(?:pub )?trait (\w+)")
TYPE = re.compile(r"^(?:pub(?:\([a-z]+\))? )?(?:struct|enum) (\w+)", re.MULTILINE)
TOLD = re.compile(r"fn (\S+): (.*)")
# What a check says of a function that it refuses for a goal of its own, and not for a function that it calls.
UNPROVED = "`search` did not prove"
# What it says of a proof file that names a goal, or a step of the code, that isn't there.
GONE = re.compile(r"^\./proofs/(\S+)/\w+\.antt:\d+:\d+: error: .*has no (?:field `|`\S+` that can be named)", re.MULTILINE)
# How many functions a check reads at most: one check of several reads what is below them once.
MOST_AT_ONCE = 6


class Edit(NamedTuple):
    """An edit that is to be tried: its name, its changes, and the paths of what it touches: of a function, or of the module
    with the functions of a trait's methods. None if it is elsewhere."""

    name: str
    changes: list
    paths: frozenset


class Body(NamedTuple):
    """The body of a function: its lines, and the path."""

    first: int
    last: int
    path: str


def module_of(file):
    """The words of a module's path, by its file."""
    module = file.removeprefix("src/").removesuffix(".rt")
    return () if module in ("lib", "main") else tuple(module.split("/"))


def homes_of_types(folder):
    """The words of the modules that have a type of each name."""
    homes = defaultdict(list)
    for file in sorted((folder / "src").rglob("*.rt")):
        for name in TYPE.findall(file.read_text(encoding="utf-8")):
            homes[name].append(module_of(str(file.relative_to(folder))))
    return homes


def path_in(line, module, homes):
    """The words of the path of the functions in a block that such a line opens, or None if it opens none."""
    if found := TRAIT.match(line):
        return (*module, found[1])
    found = IMPL.match(line)
    if not found:
        return None
    # (how the kit names the impl of a trait hangs on its types, so all of its module is taken)
    if found[1]:
        return ()
    # The type of that name is the module's own, or else the first one.
    return (*(module if module in homes[found[2]] or not homes[found[2]] else homes[found[2]][0]), found[2])


def bodies(file, text, homes):
    """The bodies in a formatted file: each ends with a brace that is as far in as its `fn`."""
    module = module_of(file)
    lines, found, owner = text.splitlines(), [], module
    for at, line in enumerate(lines):
        if line == "}":
            owner = module
        within = path_in(line, module, homes)
        owner = owner if within is None else within
        if fn := FN.match(line):
            ends = [it for it in range(at, len(lines)) if lines[it] == f"{fn[1]}}}"]
            opens = [it for it in range(at, len(lines)) if re.match(rf"{fn[1]}(\S.*)?{{$", lines[it])]
            if ends and opens and opens[0] < ends[0]:
                path = (*owner, fn[2]) if owner or not module else module
                found.append(Body(opens[0] + 1, ends[0], "::".join(path)))
    return found


def users(folder, files, name, homes):
    """The paths of the functions in these files whose bodies have the name."""
    found = set()
    for file in files:
        text = file.read_text(encoding="utf-8")
        lines = text.splitlines()
        for body in bodies(str(file.relative_to(folder)), text, homes):
            if re.search(rf"\b{name}\b", "\n".join(lines[body.first : body.last])):
                found.add(body.path)
    return found


def touched_by(folder, change, homes):
    """The paths of what a change is in. Of a constant these are the functions that name it, and of a `use` none."""
    file, old, new = change
    text = (folder / file).read_text(encoding="utf-8")
    if text.count(old) != 1:
        # (it reads what an earlier change of the edit made)
        return None
    line = text[: text.find(old)].count("\n")
    within = [it for it in bodies(file, text, homes) if it.first <= line < it.last]
    if within:
        return {within[-1].path}
    if const := CONST.match(old):
        return users(folder, (folder / "src").rglob("*.rt"), const[1], homes)
    if const := CONST.match(new):
        return users(folder, [folder / file], const[1], homes)
    return set() if old.startswith("use ") else None


def read_edits(folder, edits):
    """The edits of the crate in that folder, with what they touch: nothing is named of one of which a part is elsewhere."""
    homes, found = homes_of_types(folder), []
    for it in edits:
        paths = [touched_by(folder, change, homes) for change in changes_of(it)]
        found.append(Edit(it.name, changes_of(it), frozenset() if None in paths else frozenset().union(*paths)))
    return found


def is_in(path, other):
    return f"{path}::".startswith(f"{other}::")


def is_apart(edit, others):
    """Whether it touches nothing that one of the others does."""
    pairs = ((path, theirs) for other in others for path in edit.paths for theirs in other.paths)
    return not any(is_in(path, theirs) or is_in(theirs, path) for path, theirs in pairs)


def in_rounds(edits):
    """Rounds of edits, no two of which touch one function. One that is elsewhere has a round of its own."""
    rounds = []
    for edit in edits:
        free = (it for it in rounds if edit.paths and it[0].paths and len(it) < MOST_AT_ONCE and is_apart(edit, it))
        into = next(free, None)
        if into is None:
            rounds.append([edit])
        else:
            into.append(edit)
    return rounds


def refused_functions(crate, told):
    """The functions that a check refuses for goals of their own, and all that it names. One isn't among the first if a proof
    file of its own names what is gone, for that may be all that is wrong."""
    states = {path.removeprefix(f"{crate}::"): state for path, state in TOLD.findall(told)}
    gone = {it[1].replace("/", "::") for it in GONE.finditer(told)}
    refused = set()
    for path, state in states.items():
        own = f"`Rattle.{crate}.proofs.{path.replace('::', '.')}."
        if (UNPROVED in state or own in state) and path not in gone:
            refused.add(path)
    return refused, set(states)


def change(folder, edits):
    """Makes the edits in the folder. The changes of one alone may read what those before them made. Of several none reads what
    another writes, so those at the end of a file come first."""
    changes = defaultdict(list)
    for edit in edits:
        for file, old, new in edit.changes:
            changes[folder / file].append((old, new))
    for path, pairs in changes.items():
        text = path.read_text(encoding="utf-8")
        for old, new in sorted(pairs, key=lambda it: -text.find(it[0])) if len(edits) > 1 else pairs:
            text = text.replace(old, new, 1)
        path.write_text(text, encoding="utf-8")


def check(crate, kept, edits, paths, jobs=1):
    """What the check of a copy of the crate with the edits says. It reads the functions of these paths, or all. What was
    checked before it takes from the folder `kept`."""
    how = ["--logic-built", kit() / "logic_built", "--incremental", kept, "--jobs", str(jobs), "--allow-holes"]
    how += [word for it in sorted(paths) for word in ("--only", it)]
    with tempfile.TemporaryDirectory(prefix="edit-") as room:
        folder = Path(room) / crate
        shutil.copytree(ROOT / "crates" / crate, folder, ignore=shutil.ignore_patterns("out"))
        change(folder, edits)
        ran = run([kit() / "bin/rattle", "check", *words_of(crate), *how], wanted=None, cwd=folder)
    return (ran.stdout + ran.stderr).decode(errors="replace")


class Kept(NamedTuple):
    """The crate whose edits are tried, and the folders of checked parts that no check uses now, each for one check."""

    crate: str
    free: SimpleQueue

    def check(self, edits, paths):
        folder = self.free.get()
        try:
            return check(self.crate, folder, edits, paths)
        finally:
            self.free.put(folder)


def keep(crate, room, count, is_checked):
    """Makes that many folders in the room. If asked, it checks the crate as it is into the first, and copies that."""
    folders = [Path(room) / str(it) for it in range(count)]
    folders[0].mkdir()
    if is_checked:
        check(crate, folders[0], [], [], jobs=count)
    kept = Kept(crate, SimpleQueue())
    for it in folders:
        if it != folders[0]:
            shutil.copytree(folders[0], it)
        kept.free.put(it)
    return kept


def try_round(kept, edits):
    """Tries these edits in one check, or by halves if one of them leaves nothing that can be checked. Returns a line for each
    that was refused, and the others."""
    paths = frozenset().union(*(it.paths for it in edits))
    refused, functions = refused_functions(kept.crate, kept.check(edits, paths))
    half = len(edits) // 2
    if half and not functions:
        first, second = try_round(kept, edits[:half]), try_round(kept, edits[half:])
        return first[0] + second[0], first[1] + second[1]
    lines, others = [], []
    for edit in edits:
        where = sorted(it for it in refused if not edit.paths or any(is_in(it, path) for path in edit.paths))
        if where:
            lines.append(f"{kept.crate}/{edit.name}: refused, in {', '.join(where)}")
        else:
            others.append(edit)
    return lines, others


def try_whole(kept, edit):
    """Tries the edit in a check of the whole crate. Returns the line for it, and whether it was refused."""
    told = kept.check([edit], [])
    refused, _ = refused_functions(kept.crate, told)
    if refused:
        return f"{kept.crate}/{edit.name}: refused, in {', '.join(sorted(refused))}", True
    errors = [it for it in told.splitlines() if re.search(r"\berror[:[]", it)]
    why = errors[0] if errors else "no clause is against it, or it was refused for its form alone"
    return f"{kept.crate}/{edit.name}: NOT REFUSED: {why}", False


def below(crate):
    """The crates of this repository that the crate reaches."""
    crates = stands_on()
    return {it for name in crates[crate] if name in crates for it in [name, *below(name)]}


def need_built(crate):
    """Stops if a library below the crate isn't built, or a file of one has changed since."""
    for name in sorted(below(crate)):
        built = ROOT / f"crates/{name}/out/rlib/{name}.rlib/format"
        parts = [ROOT / "crates" / name / it for it in ("src", "specs", "proofs")]
        newest = max(it.stat().st_mtime for part in parts for it in part.rglob("*") if it.is_file())
        if not built.is_file() or built.stat().st_ctime < newest:
            raise Stop(f"{name} isn't built from what is there: `rt lib` in crates/{name} builds it, and so does `rt ci`", 2)
