"""Whether links and paths of a document go to what is there, and its lines are narrow. Each check gives (line, what is wrong)."""
import fnmatch
import os
import re

from docs_checks.document import Document

PATH = re.compile(r"(?:[\w.-]+/)+(?:[\w.-]*\w)?|\w[\w-]*\.(?:rt|antt|md|toml|txt|py|rs|c|h|cpp|hpp|edit)")
SOURCE = re.compile(r"[\w./-]*\w\.(?:rt|antt)\b")
BOTH_LOCKS = re.compile(r"\b(?:(?:both|either|each|every) locks?|the locks)\b")
COLUMNS = 128
# Folders without sources, or of what is built; files of the kit and of readers. A path of these isn't looked for.
PASSED_OVER = {".git", "out", "__pycache__", ".unproved"}
NOT_HERE = {"specs/Table.antt", "mine.h"}


class Places:
    """The files and folders below the top, and the folders that a document may mean by their names."""

    def __init__(self, top):
        self.all = set()
        for folder, names, files in os.walk(top):
            names[:] = sorted(set(names) - PASSED_OVER)
            self.all |= {os.path.relpath(os.path.join(folder, it), top) for it in [*names, *files]}
        self.crates = {it.split("/")[1] for it in self.all if re.fullmatch("crates/[^/.]+", it)}
        self.folders = {it for it in self.all if "/" not in it and (top / it).is_dir()}

    def named_in(self, text, own):
        """The folders whose files a text may name by the ends of their paths: of crates, and at the top."""
        crates = {it for it in re.findall(r"\w+", text) if it in self.crates}
        crates |= {"ticket_lock", "mcs_lock"} if BOTH_LOCKS.search(text) else set()
        return tuple({f"{own}/", *(f"crates/{it}/" for it in crates), *(f"{it}/" for it in self.folders if f"{it}/" in text)})

    def has(self, path, folder, named):
        """Whether it is a file or folder from the top, from crates/ or from the document's folder, or the end of the path of
        one in a folder that is named. A folder of capitals is any folder, and `X/` may be that of any crate."""
        pattern = re.sub(r"(?<![^/])[A-Z]+(?![^/])", "*", path.rstrip("/"))
        tried = {os.path.normpath(f"{base}{pattern}") for base in ("", "crates/", f"{folder}/")}
        if path.endswith("/") and "/" not in pattern:
            tried.add(f"crates/*/{pattern}")
        if "*" in "".join(tried):
            return any(fnmatch.filter(self.all, it) for it in tried | {f"{base}*/{pattern}" for base in named})
        return not tried.isdisjoint(self.all) or any(it.endswith(f"/{pattern}") for it in self.all if it.startswith(named))


def wrong_links(document, top):
    for line, target in document.links():
        path, _, anchor = target.partition("#")
        file = (document.path.parent / path).resolve() if path else document.path
        if re.match(r"[a-z]+:", target):
            continue
        if path.startswith("/") or not file.exists() or not file.is_relative_to(top):
            yield line, f"the link {target} goes to nothing"
        elif anchor and (file.suffix != ".md" or anchor not in Document(file, "").anchors()):
            yield line, f"the link {target} goes to no heading"


def paths_in(document, start, end):
    """(line, path) of the words in spans that are paths, and of all files of sources, in code too."""
    for line, text in document.spans(start, end):
        yield from ((line, it.strip(",;:")) for it in text.split() if PATH.fullmatch(it.strip(",;:")))
    for found in SOURCE.finditer(document.text, start, end):
        yield document.line_at(found.start()), found[0]


def wrong_paths(document, places, excused):
    """Paths that aren't there. What a section names by crates and folders is in sight; `excused` are lines of excerpts."""
    folder = document.name.rpartition("/")[0]
    for start, end in document.sections():
        named = places.named_in(document.text[start:end], folder or ".")
        for line, path in sorted({*paths_in(document, start, end)}):
            known = path in NOT_HERE or path.startswith("/") or PASSED_OVER & {*path.split("/")} or line in excused
            if not known and not places.has(path, folder, named):
                yield line, f"there is no {path}"


def wide_lines(document):
    lines = enumerate(map(str.rstrip, document.prose.split("\n")), start=1)
    wide = ((at, it) for at, it in lines if len(it) > COLUMNS and not it.startswith(("|", "    ")))
    return [(at, f"the line has {len(it)} columns") for at, it in wide]


def unread_names(document, top):
    """Names that a table with the columns File and Read says to read, and that no file of their row has. A path there goes on
    from crates/ or from the folder of the one before it."""
    is_in = False
    for line, text in enumerate(document.prose.split("\n"), start=1):
        is_in = text.startswith("| File | Read |") or is_in and text.startswith("|")
        folder, read, cells = top / "crates", "", text.split("|")
        for word in re.findall(r"`([^`]+)`", cells[1]) if is_in else []:
            path = next((it for it in (base / word for base in (top / "crates", folder, *folder.parents)) if it.exists()), top)
            files, folder = (path.rglob("*.antt"), path) if path.is_dir() else ([path], path.parent)
            read += "".join(it.read_text(encoding="utf-8") for it in files)
        names = re.findall(r"`(?:\w+::)*(\w+)`", cells[2]) if is_in else []
        yield from ((line, f"no file of this row has {it}") for it in names if not re.search(rf"\b{it}\b", read))
