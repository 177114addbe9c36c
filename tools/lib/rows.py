"""Reads rows: starts of a program, each with what it must do.

A row is a line of a file rows/cases/PROGRAM/NAME.jsonl, an object in JSON. Its keys, each of which may be left out:

  name    what the row is about
  words   the program's words, a list; default: none
  files   the files of its folder: names and texts
  stdin   what standard input gives; default: nothing
  change  in `stdin` or in a file, named as the key: [old, new], and the first `old` there becomes `new`
  output  the file to which standard output goes; default: none, and it is read
  status, stdout, stderr   what is wanted; default: 0, nothing, nothing. null: anything
  refused the line of a refusal: standard error is to be `PROGRAM: REFUSED` as a line
  echo    true: standard output is to be standard input again
  counts  for a record that can be another one each time: a list of [number, ending], where `number` lines of the record end
          with `ending`; `stdout` is what `audit` prints of the record

A text is a string, or a list whose parts are put together: strings, and [string, times], which repeats the string, with 0, 1,
2 .. in place of `{i}`. A byte that is no text is written as "\\udcXX". A line {"given": {..}} has the keys that the lines below
it take where they leave them out, up to the next such line.

A row whose texts are long, or whose files are named elsewhere, is a folder rows/PROGRAM/NAME. Its files `stdin`, `output`,
`status`, `stdout` and `stderr` are those keys, `words` has a word a line, and `counts` a number and an ending a line. All
others are the row's files. An example is a folder examples/NAME with `settings.toml`, `scripts`, `schedule` and the wanted
`record`.
"""
import json
import tempfile
from contextlib import contextmanager
from pathlib import Path

from common import ROOT

KEYS = {"name", "words", "files", "stdin", "change", "output", "status", "stdout", "stderr", "refused", "echo", "counts"}


def decoded(text):
    return text.decode("utf-8", "surrogateescape")


def text_of(parts):
    """The bytes of a text."""
    parts = [parts] if isinstance(parts, str) else parts
    return "".join(it if isinstance(it, str) else repeated(*it) for it in parts).encode("utf-8", "surrogateescape")


def repeated(text, times):
    return "".join(text.replace("{i}", str(i)) for i in range(times)) if "{i}" in text else text * times


def changed(text, pair, where):
    """The text with the new part in place of the old one."""
    old, new = map(text_of, pair)
    if old not in text:
        raise ValueError(f"{where} doesn't have {old!r}")
    return text.replace(old, new, 1)


class Row:
    """One start of a program: its name and place, words, files and standard input, and what is wanted of it."""

    def __init__(self, program, place, keys):
        if unknown := sorted({*keys} - KEYS):
            raise ValueError(f"unknown keys {', '.join(unknown)}")
        self.name = keys.get("name", "")
        self.place = place
        self.words = keys.get("words", [])
        self.files = {name: text_of(text) for name, text in keys.get("files", {}).items()}
        self.stdin = text_of(keys.get("stdin", ""))
        for where, pair in keys.get("change", {}).items():
            if where == "stdin":
                self.stdin = changed(self.stdin, pair, where)
            else:
                self.files[where] = changed(self.files[where], pair, where)
        self.output = keys.get("output")
        self.counts = [(number, text_of(ending)) for number, ending in keys.get("counts", [])]
        refusal = f"{program}: {keys['refused']}\n" if "refused" in keys else ""
        stdout = self.stdin if keys.get("echo") else keys.get("stdout", "")
        self.status = keys.get("status", 0)
        self.stdout, self.stderr = (
            text_of(it) if isinstance(it, (str, list)) else it for it in (stdout, keys.get("stderr", refusal))
        )

    @contextmanager
    def folder(self):
        """A folder with the row's files, for a time."""
        with tempfile.TemporaryDirectory(prefix="row-") as folder:
            for name, text in self.files.items():
                Path(folder, name).write_bytes(text)
            yield folder

    def text(self):
        """The text that a command reads: the first file that its words name, or standard input."""
        return next((self.files[it] for it in self.words[1:] if it in self.files), self.stdin)


def folder_row(program, folder):
    """The row of a folder."""
    texts = {it.name: decoded(it.read_bytes()) for it in sorted(folder.iterdir())}
    keys = {"name": folder.name, "words": texts.pop("words").split("\n")[:-1], "status": int(texts.pop("status"))}
    keys |= {it: texts.pop(it) for it in ("stdin", "stdout", "stderr") if it in texts}
    if "output" in texts:
        keys["output"] = texts.pop("output").strip()
    counts = [it.split(" ", 1) for it in texts.pop("counts", "").splitlines()]
    keys["counts"] = [(int(number), ending) for number, ending in counts]
    return Row(program, str(folder.relative_to(ROOT)), {**keys, "files": texts})


def example_row(folder):
    """The row of an example: its simulation prints the record."""
    files = {name: decoded((folder / name).read_bytes()) for name in ("settings.toml", "scripts", "schedule", "record")}
    words = ["sim", "--settings", "settings.toml", "scripts", "schedule"]
    keys = {"name": folder.name, "words": words, "files": files, "stdout": files["record"]}
    return Row("mc2", str(folder.relative_to(ROOT)), keys)


def read(make, place, *words):
    """The row that `make` makes, or what is wrong with it."""
    try:
        return make(*words)
    except (OSError, ValueError, KeyError, TypeError, AttributeError) as error:
        return ValueError(f"{place}: {error}")


def lines_of(program, file):
    """The rows of a file, a line each, or what is wrong with a line."""
    given, found = {}, []
    for number, line in enumerate(file.read_text(encoding="utf-8").splitlines(), start=1):
        place = f"{file.relative_to(ROOT)}:{number}"
        try:
            keys = {**given, **json.loads(line)}
        except (ValueError, TypeError) as error:
            found.append(ValueError(f"{place}: {error}"))
            continue
        if "given" in keys:
            given = keys["given"]
        else:
            found.append(read(Row, place, program, place, keys))
    return found


def read_rows(program):
    """The rows of mc2 with the examples, of steps or of view; what is wrong with a row in place of one that can't be read."""
    folders = sorted(ROOT.glob(f"rows/{program}/*/"))
    found = [read(folder_row, it, program, it) for it in folders]
    for file in sorted(ROOT.glob(f"rows/cases/{program}/*.jsonl")):
        found += lines_of(program, file)
    examples = [it.parent for it in sorted(ROOT.glob("examples/*/schedule"))] if program == "mc2" else []
    return found + [read(example_row, it, it) for it in examples]


def rows_of(program):
    """The rows of mc2 with the examples, of steps or of view."""
    rows = read_rows(program)
    for row in rows:
        if isinstance(row, ValueError):
            raise row
    return rows


def row_named(program, name):
    """The row of that name."""
    return next(it for it in rows_of(program) if it.name == name)
