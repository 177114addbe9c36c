"""The edits of a crate: those that the gate tries, each a file of must-fail/, and all others, which are in its edits.txt."""
import re
from typing import NamedTuple

TOGETHER = "edits.txt"


class Edit(NamedTuple):
    """An edit: the file that it is in, its name, which ends in .edit, and its lines."""

    file: str
    name: str
    lines: list


def edits_in(text):
    """The edits of an edits.txt: each has a line with its name before its own, and empty lines are between them. What begins
    with # is passed over."""
    texts = re.split(r"\n\n+", re.sub(r"^#.*\n?", "", text, flags=re.MULTILINE).strip("\n"))
    for name, *lines in (it.split("\n") for it in texts if it):
        yield Edit(TOGETHER, f"{name}.edit", lines)


def edits_of(crate):
    """The crate's edits, and first those that the gate tries."""
    files = (it for it in sorted(crate.glob("must-fail/*.*")) if it.suffix != ".md")
    found = [Edit(f"must-fail/{it.name}", it.name, it.read_text("utf-8", "replace").splitlines()) for it in files]
    others = crate / TOGETHER
    return [*found, *edits_in(others.read_text(encoding="utf-8"))] if others.is_file() else found


def wrong_form(edit):
    """Says what rt would pass over in silence: another name, a line of no kind, or an `old:` without its `new:`."""
    if not re.fullmatch(r"[\w.-]+\.edit", edit.name):
        return "its name doesn't end in .edit" if edit.file != TOGETHER else "this is no name of an edit"
    kinds = [re.match(r"file: |old: |new:|$", line) for line in edit.lines]
    if None in kinds:
        return f"line {kinds.index(None) + 1} begins with none of `file: `, `old: ` and `new:`"
    if not re.fullmatch(r"(file: (old: new:)+)+", "".join(it[0] for it in kinds)):
        return "it isn't made of a `file:` with pairs of `old:` and `new:` after it"
    return None


def changes_of(edit):
    """The edit's changes: for each the file, the old text and the new one."""
    file, old, changes = "", "", []
    for line in edit.lines:
        kind, _, text = line.partition(": ") if not line.startswith("new:") else ("new", "", line[5:])
        if kind == "file":
            file = text
        elif kind == "old":
            old = text
        elif kind == "new":
            changes.append((file, old, text))
    return changes


def wrong_place(crate, edit):
    """Says which of the edit's changes can't be made in the crate's files as they are. Each sees what those before it made."""
    texts = {}
    for file, old, new in changes_of(edit):
        if not file.startswith("src/"):
            return f"{file} isn't in src/"
        if file not in texts:
            if not (crate / file).is_file():
                return f"there is no file {file}"
            texts[file] = (crate / file).read_text(encoding="utf-8")
        count = texts[file].count(old)
        if count != 1:
            return f"{file} has it {count} times, and not once: {old.strip()}"
        if old == new:
            return f"it changes nothing in {file}: {old.strip()}"
        texts[file] = texts[file].replace(old, new)
    return None


def wrong_edits(crate):
    """A line for each of the crate's edits that can't be made any more, or that has the name of another."""
    seen, said = set(), []
    for edit in edits_of(crate):
        why = "there are two of this name" if edit.name in seen else wrong_form(edit) or wrong_place(crate, edit)
        seen.add(edit.name)
        if why:
            where = edit.file if edit.file != TOGETHER else f"{TOGETHER}: {edit.name.removesuffix('.edit')}"
            said.append(f"{crate.name}/{where}: {why}")
    return said
