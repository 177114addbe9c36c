"""A document in Markdown: its prose, which has blanks in place of code, and its code with the lines that it stands in.

Code is between fences, or has an indent of 4 after an empty line. Spans between backticks are part of the prose."""
import re
from typing import NamedTuple

CODE = re.compile(
    r"^ {0,3}(?P<fence>```|~~~).*\n(?P<fenced>(?:.*\n)*?) {0,3}(?P=fence).*$"
    r"|(?<=\n\n)(?P<indented> {4}.*\n(?:(?: {4}.*)?\n)*)", re.MULTILINE)
SPAN = re.compile(r"(?<!`)(`+)(?!`)((?:(?!\n\n).)+?)(?<!`)\1(?!`)", re.DOTALL)
HEADING = re.compile(r"^#{1,6} (.*)$", re.MULTILINE)
LINKS = [
    re.compile(r"\[[^\[\]]*\]\(([^()\s]+)[^()]*\)"), re.compile(r"\b(?:href|src)=\"([^\"]+)\""),
    re.compile(r"^ {0,3}\[[^\]]+\]: *(\S+)", re.MULTILINE),
]


class Code(NamedTuple):
    """Lines of code without their indent: where they begin and end in the text, and the line of the first."""

    start: int
    end: int
    line: int
    lines: list


def blank(text):
    """As many blanks, with the line ends where they are."""
    return re.sub(r"[^\n]", " ", text)


class Document:
    def __init__(self, path, name):
        self.path, self.name = path, name
        self.text = path.read_text(encoding="utf-8").rstrip("\n") + "\n"
        self.code = [self.code_of(it) for it in CODE.finditer(self.text)]
        self.prose = CODE.sub(lambda it: blank(it[0]), self.text)
        self.headings = [*HEADING.finditer(self.prose)]

    def line_at(self, place):
        """The line in which a character of the text stands."""
        return self.text.count("\n", 0, place) + 1

    def code_of(self, found):
        kind = "fenced" if found["fence"] else "indented"
        lines = found[kind].rstrip("\n").split("\n")
        lines = lines if found["fence"] else [it[4:] for it in lines]
        return Code(found.start(), found.end(), self.line_at(found.start(kind)), lines)

    def spans(self, start, end):
        """The (line, text) of each span of code between two places, on one line."""
        for found in SPAN.finditer(self.prose, start, end):
            yield self.line_at(found.start()), re.sub(r"\s+", " ", found[2].strip())

    def links(self):
        """The (line, target) of each link."""
        text = SPAN.sub(lambda it: blank(it[0]), self.prose)
        for found in (it for pattern in LINKS for it in pattern.finditer(text)):
            yield self.line_at(found.start()), found[1]

    def sections(self):
        """Where each section begins and ends: what stands before the first heading, and each heading with what is below it."""
        places = [0, *(it.start() for it in self.headings), len(self.text)]
        return zip(places, places[1:])

    def anchors(self):
        """The anchors of the headings by GitHub's rule: lower case, no marks but `-` and `_`, `-` for a blank, and -1 after the
        second of two alike."""
        seen = []
        for heading in self.headings:
            text = re.sub(r"!?\[([^\[\]]*)\]\([^()]*\)", r"\1", heading[1].strip())
            seen.append(re.sub(r"[^\w\- ]", "", text.lower()).replace(" ", "-"))
        return {f"{it}-{seen[:at].count(it)}" if it in seen[:at] else it for at, it in enumerate(seen)}
