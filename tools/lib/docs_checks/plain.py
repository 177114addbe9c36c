"""Forms of sentences that documents and comments shouldn't have; forms.txt lists them, with the words to write instead.

A line that is right English all the same may say `plain-ok`, in the last resort."""
import re
from pathlib import Path
from typing import NamedTuple

FILE = Path(__file__).with_name("forms.txt")


class Form(NamedTuple):
    """A form: its name, what it looks like, what to write, and a sentence with it."""

    name: str
    pattern: re.Pattern
    better: str
    wrong: str


def read_forms(text):
    """The forms, and the right sentences."""
    text = re.sub(r"^#.*\n", "", text, flags=re.M).replace("\n      ", "")
    *parts, (_, *right) = ([it.strip() for it in part.splitlines()] for part in text.strip().split("\n\n"))
    forms = [(*head.split(": ", 1), better.removeprefix("write: "), patterns) for head, better, *patterns in parts]
    return [Form(name, re.compile("|".join(patterns)), better, wrong) for name, wrong, better, patterns in forms], right


FORMS, RIGHT = read_forms(FILE.read_text(encoding="utf-8"))
# Files that have one form in their prose, and other forms in code, in a table's head or in a line that is excused.
PLANTED = {
    "planted.md": "It goes on, by `tells`.\n\n    it tells code\n\n| Who tells |\n|---|\nIt tells. <!-- plain-ok -->\n",
    "planted.c": "const char *text = \"it tells\"; /* It goes\n   on, and it goes on. */ int tells;\n",
    "planted.rs": "let text = \"it tells\"; // It goes on.\n",
}
COMMENT = {".rs": re.compile(r"//[/!]? ?(.*)")}
C_SUFFIXES = (".h", ".hpp", ".c", ".cpp")
C_TEXT = re.compile(r"\"(?:\\.|[^\"\\\n])*\"|//[^\n]*|/\*.*?\*/|[^\n]", re.DOTALL)
SUFFIXES = (".md", ".rs", *C_SUFFIXES)


def comments_of(text):
    """The text of a file in C with blanks in place of all but comments."""
    return C_TEXT.sub(lambda it: it[0] if it[0].startswith(("//", "/*")) else " " * len(it[0]), text)


def prose_of(name, text):
    """The (line, prose) of a file: of a document all but code and the head of a table, otherwise the comments."""
    suffix = "." + name.rpartition(".")[2]
    lines = (comments_of(text) if suffix in C_SUFFIXES else text).split("\n")
    for number, (line, after) in enumerate(zip(lines, [*lines[1:], ""]), start=1):
        found = COMMENT[suffix].search(line) if suffix in COMMENT else None
        prose = (found[1] if found else "") if suffix in COMMENT else line
        is_passed = "plain-ok" in line or suffix == ".md" and (line.startswith("    ") or after.startswith("|-"))
        yield number, "" if is_passed else re.sub(r"`[^`]*`", "`", prose).strip(" /*")


def forms_in(line):
    """The (form, words) that a line of prose has."""
    return ((form, found[0].strip()) for form in FORMS for found in form.pattern.finditer(line))


def odd_forms(name, text):
    """(line, what is wrong) for each form in the prose of a file."""
    for number, line in prose_of(name, text):
        yield from ((number, f'"{words}" is the form {form.name}: write {form.better}') for form, words in forms_in(line))


def wrong_forms():
    """What is wrong with the forms: one isn't found in its sentence, or is found in right English or in code."""
    for form in FORMS:
        if form.name not in {it.name for it, _ in forms_in(form.wrong)}:
            yield f"{FILE.name}: {form.name} isn't found in its sentence"
    for line in RIGHT:
        yield from (f"{FILE.name}: {form.name} is found in {line!r}" for form, _ in forms_in(line))
    for name, text in PLANTED.items():
        found = [*odd_forms(name, text)]
        if len(found) != 1 or "goes-on" not in found[0][1]:
            yield f"{FILE.name}: of {name} was found {found}"
