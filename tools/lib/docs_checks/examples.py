"""Commands with what they print, and excerpts of files. Each check gives (line, what is wrong)."""
import re
import shutil
import subprocess
from typing import NamedTuple

# Commands begin with one of these, with a path to a program here, or with a tool. Only the first can be run.
RUN = re.compile(r"(?:cd|printf|echo|cat|(?:\./|\.\./|\.\./\.\./)mc2) ")
COMMAND = re.compile(r"(?:rt|git|ulimit|\S*tools/\S+|\S*\.ci/run)(?: |$)|\.\.?/\S")
EXCERPT = re.compile(r"\[?`(?P<path>[\w./-]+)`(?:\]\([^()]*\))?(?P<part>, in part)?:")
SECONDS = 60
# What is copied for commands.
FOLDERS = ["README.md", "docs", "examples", "rows"]


class Example(NamedTuple):
    """Commands with the line of the first, and what they print with its line, or None."""

    line: int
    commands: list
    output_line: int
    output: list

    def can_run(self):
        lines = joined(self.commands)
        return all(RUN.match(it) for it in lines) and any("mc2 " in it for it in lines)


def joined(lines):
    """The lines, those that end with a backslash together with the next, without the empty ones."""
    return [it for it in "\n".join(lines).replace("\\\n", " ").split("\n") if it]


def commands_in(lines):
    """How many of the lines are commands: those up to an empty line, and so on as long as all are commands."""
    count = 0
    while count < len(lines):
        stop = next((k for k in range(count, len(lines)) if not lines[k].strip()), len(lines))
        if not all(RUN.match(it) or COMMAND.match(it) for it in joined(lines[count:stop])):
            break
        count = stop + 1
    return min(count, len(lines))


def examples_of(document):
    """All commands. What they print is the rest of their code; or else the next code, if no heading and at most one paragraph
    stands between, and it is no command."""
    for code, after in zip(document.code, [*document.code[1:], None]):
        count = commands_in(code.lines)
        if 0 < count < len(code.lines):
            yield Example(code.line, code.lines[:count], code.line + count, code.lines[count:])
        elif count:
            between = document.text[code.end : after.start].strip() if after else ""
            is_output = after and not re.search(r"\n\s*\n|^#", between) and not commands_in(after.lines)
            yield Example(code.line, code.lines, *((after.line, after.lines) if is_output else (0, None)))


class Room:
    """A folder with a copy of the documents' folders, in which `mc2` is the program."""

    def __init__(self, path, top, program):
        self.path = path
        for name in FOLDERS:
            copy = shutil.copytree if (top / name).is_dir() else shutil.copy
            copy(top / name, path / name, **({"ignore": shutil.ignore_patterns("out")} if (top / name).is_dir() else {}))
        (path / "mc2").symlink_to(program)

    def wrong(self, example):
        """(line, what is wrong) for commands that print something else, or that fail and have no output to show. sh runs them in
        the top folder, without an input; both streams count."""
        how = {"stdin": subprocess.DEVNULL, "stdout": subprocess.PIPE, "stderr": subprocess.STDOUT, "timeout": SECONDS}
        try:
            ran = subprocess.run(["sh", "-c", "\n".join(example.commands)], cwd=self.path, check=False, **how)
        except subprocess.TimeoutExpired:
            return example.line, f"the command hadn't ended after {SECONDS} seconds"
        got = ran.stdout.decode(errors="replace").splitlines()
        if example.output is None:
            last = got[-1] if got else "it printed nothing"
            return (example.line, f"the command ends with status {ran.returncode}: {last}") if ran.returncode else None
        place = first_difference(got, example.output)
        if place is None:
            return None
        one, other = (repr(it[place]) if place < len(it) else "nothing more" for it in (got, example.output))
        return example.output_line + place, f"the command in line {example.line} prints {one} in place of {other}"


def first_difference(lines, others):
    """The place of the first line in which two lists of lines differ, or None."""
    least = min(len(lines), len(others))
    return next((at for at in range(least) if lines[at] != others[at]), None if len(lines) == len(others) else least)


def excerpts_of(document):
    """(code, match) of each code after a paragraph that is just `PATH`: or `PATH`, in part:"""
    for code in document.code:
        before = re.split(r"\n\s*\n", document.prose[: code.start].rstrip())[-1]
        found = EXCERPT.fullmatch(re.sub(r"\s+", " ", before.strip()))
        if found:
            yield code, found


def wrong_excerpt(code, found, top):
    """(line, what is wrong) for code that isn't the file to the letter, or lines that stand together in it with more or less
    indent."""
    file = top / found["path"]
    if not file.is_file():
        return code.line, f"there is no {found['path']}"
    lines = file.read_text(encoding="utf-8").splitlines()
    if not found["part"]:
        place = first_difference(code.lines, lines)
        return None if place is None else (code.line + place, f"this isn't line {place + 1} of {found['path']}")
    part = without_indent(code.lines)
    if any(without_indent(lines[it : it + len(part)]) == part for it in range(len(lines) - len(part) + 1)):
        return None
    return code.line, f"these lines don't stand together in {found['path']}"


def without_indent(lines):
    """The lines without the indent that all have."""
    least = min((len(it) - len(it.lstrip()) for it in lines if it.strip()), default=0)
    return [it[least:].rstrip() for it in lines]
