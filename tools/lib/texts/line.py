"""A line of a text, read word by word, as far as it is right."""
import io
import re

# The most bytes of a line. The longest right one, an entry of a record 3, has 3,515. (And no number is longer than Python takes.)
MOST_LINE = 4096
MOST_NUMBER = 4_294_967_295
# The most entries of a CPU in scripts, and the most bytes of settings.
MOST_ENTRIES, MOST_BYTES = 10_000, 65_536
# Bytes that no text has, and what they mostly come from.
STRANGE = {
    13: "a carriage return (byte 13), as Windows ends lines; `tr -d '\\r'` takes them all out",
    9: "a tab (byte 9)",
    0xEF: "a byte order mark (bytes 239, 187 and 191), as some editors put in front of a text",
}


class Fault(Exception):
    """The first fault of a text: its line and column, from 1 and in bytes, what was found there, and what could stand there."""

    def __init__(self, line, column, found, wanted):
        super().__init__(f"line {line}, column {column}: {found}")
        self.line, self.column, self.found, self.wanted = line, column, found, wanted


def shown(word):
    return f"`{word.decode(errors='backslashreplace')[:60]}`"


def is_number(word):
    return re.fullmatch(rb"0|[1-9][0-9]*", word) is not None


def is_spelled_wrongly(word):
    return re.fullmatch(rb"[+-]?[0-9][0-9_,.]*", word) is not None


class Line:
    """The words of a line, of which those before `at` were right."""

    def __init__(self, number, text):
        self.number, self.text, self.words, self.at = number, text, text.split(b" "), 0

    def column(self, at=None):
        """Where the word begins."""
        at = self.at if at is None else at
        return 1 + sum(len(it) + 1 for it in self.words[:at])

    def left(self):
        """What is left of the line, or None behind its last word."""
        return self.words[self.at] if self.at < len(self.words) else None

    def refuse(self, wanted, why=None):
        """Names the next word as the fault. What no text has goes before why it was refused."""
        word = self.left()
        if word is None:
            raise Fault(self.number, len(self.text) + 1, "the end of the line", wanted)
        if word == b"":
            raise Fault(self.number, self.column(), self.space(), wanted)
        for place, byte in enumerate(word):
            if byte in STRANGE or not 32 < byte < 127:
                found = STRANGE.get(byte, f"the byte {byte}, which no word has")
                raise Fault(self.number, self.column() + place, found, wanted)
        raise Fault(self.number, self.column(), why or self.spelled(word), wanted)

    def space(self):
        """Which space the empty word shows."""
        if self.text == b"":
            return "an empty line"
        if self.at == 0:
            return "a space at the front of the line"
        return "a space at the end of the line" if self.at == len(self.words) - 1 else "a second space"

    def spelled(self, word):
        if is_spelled_wrongly(word) and not is_number(word):
            return f"{shown(word)}: a number has no sign, no leading zero, no point and no comma"
        return shown(word)

    def take(self, wanted, test, why=None):
        """The next word, if it meets the test."""
        word = self.left()
        if word is None or not test(word):
            self.refuse(wanted, why and why(word))
        self.at += 1
        return word

    def key(self, word, wanted=None):
        return self.take(wanted or shown(word), lambda it: it == word)

    def number_up_to(self, what, least, most):
        """The next word as a number in its range."""
        wanted = f"{what}, {least} to {most:,}"

        def why(word):
            return f"{word.decode()[:60]}, which isn't in that range" if word and is_number(word) else None

        return int(self.take(wanted, lambda it: is_number(it) and least <= int(it) <= most, why))

    def end(self, wanted="the end of the line"):
        if self.left() is not None:
            self.refuse(wanted)


class Copying:
    """A file that is read line by line, and to which file all goes that was read of it."""

    def __init__(self, file, copy):
        self.file, self.copy = file, copy

    def readline(self, most):
        row = self.file.readline(most)
        self.copy.write(row)
        return row


class Rows:
    """The lines of a text or of a file, which is read one by one."""

    def __init__(self, text):
        self.file, self.at, self.row = io.BytesIO(text) if isinstance(text, bytes) else text, 0, None

    def seen(self):
        """The next line with its end, as far as it has one and isn't too long; nothing behind the last."""
        if self.row is None:
            self.row = self.file.readline(MOST_LINE + 1)
        return self.row

    def go_on(self):
        self.row, self.at = None, self.at + 1

    def take(self):
        """The next line, or None behind the last that has an end."""
        row = self.seen()
        if not row.endswith(b"\n"):
            return None
        self.go_on()
        return row

    def refuse_unended(self):
        """The next line, if there is one, has no end."""
        if len(self.seen()) > MOST_LINE:
            raise Fault(self.at + 1, MOST_LINE + 1, "more of the line", "the end of the line, as no right one is so long")
        if self.row:
            raise Fault(self.at + 1, len(self.row) + 1, "the end of the text",
                        "the end of the line (byte 10), which each line has, the last too")


def entry_lines(text):
    """The lines of scripts that are neither empty nor skipped. One that is skipped may have any length."""
    rows = Rows(text)
    while row := rows.seen():
        while row.startswith(b"#") and len(row) > MOST_LINE and not row.endswith(b"\n"):
            row = rows.row = b"#" + rows.file.readline(MOST_LINE)
        if rows.take() is None:
            rows.refuse_unended()
        if row != b"\n" and not row.startswith(b"#"):
            yield Line(rows.at, row[:-1])
