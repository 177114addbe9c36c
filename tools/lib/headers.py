"""The headers of include/ as text: what each says of itself, and its public types, macros and functions with their comments.

Names with mc2_priv_ or MC2_PRIV_ are helpers of inline code, and are left out."""
import re
from pathlib import Path
from typing import NamedTuple

FUNCTION = re.compile(r"(?:static inline )?[\w *]*?[ *]((?:mc2|rattle)_\w+)\(")
TYPE = re.compile(r"(?:typedef|struct|enum|union)\b")
PRIVATE = re.compile(r"mc2_priv_|MC2_PRIV_")
# A label with its text: `Returns  ..`, `Ordering ..`, or an argument or a field, which has an indent.
LABEL = re.compile(
    r"(?P<indent> *)(?P<name>Ordering(?= )|[A-Z][a-z]+(?: also)?(?=  )|(?<=  )[a-z]\w*(?:, \w+)*(?=  )) +(?P<text>\S.*)")
# A result in a list of results, one on each line.
RESULT = re.compile(r"MC2_\w+(?:, MC2_\w+)*:")
CAPITALS = re.compile(r"([A-Z][A-Z ]+[A-Z])(?: \(.*\))?")
GROUP = re.compile(r"-{4} (?P<title>[^.]*)\.? ?(?P<text>.*)")


class Item(NamedTuple):
    """A public part of a header: "function", "type" or "macro", the group that it is in, its comment and its code."""

    kind: str
    group: str
    comment: str
    code: str

    def names(self):
        """The functions of these lines."""
        return [it[1] for it in map(FUNCTION.match, self.code.splitlines()) if it] if self.kind == "function" else []


def comment_text(lines):
    """The words of a comment, by // or by /* */, with the indent of what is code."""
    text = "\n".join(lines)
    text = re.sub(r"^ ?/\*+ ?|\s*\*/$", "", text, flags=re.M)
    return re.sub(r"^// ?", "", re.sub(r"^   (?=\S|    )", "", text, flags=re.M), flags=re.M).strip("\n")


def take_comment(lines):
    """Removes the comment that the lines begin with, and returns its lines."""
    count = 0
    if lines[0].startswith("/*"):
        count = next(at for at, it in enumerate(lines, 1) if it.rstrip().endswith("*/"))
    while count < len(lines) and lines[count].startswith("//"):
        count += 1
    taken, lines[:] = lines[:count], lines[count:]
    return taken


def take_code(lines):
    """Removes a declaration or definition, up to where its brackets are closed. Prototypes on adjacent lines are one."""
    taken, depth = [], 0
    while lines:
        line = lines.pop(0)
        taken.append(line)
        code = re.sub(r"//.*|/\*.*?\*/|\"(?:\\.|[^\"])*\"", "", line)
        depth += len(re.findall(r"[({]", code)) - len(re.findall(r"[)}]", code))
        is_closed = depth == 0 and re.search(r"[;}]\s*$", code)
        if is_closed and not (lines and re.search(r"\);\s*$", code) and FUNCTION.match(lines[0])):
            break
    return "\n".join(taken)


def take_directive(lines):
    """Removes a line that begins with #, with those that continue it."""
    taken = [lines.pop(0)]
    while taken[-1].endswith("\\"):
        taken.append(lines.pop(0))
    return "\n".join(taken)


def prototype(code):
    """A declaration in lines of at most 78 columns, if its parameters are short enough."""
    first, *parts = re.split(r"(?<=,) ", re.sub(r"\s+", " ", code.removeprefix("static inline ")))
    lines = [first]
    for part in parts:
        longer = f"{lines[-1]} {part}"
        lines[-1:] = [longer] if len(longer) <= 78 else [lines[-1], f"    {part}"]
    return "\n".join(lines)


def item_of(group, comment, code):
    """The item, or None if it isn't public."""
    text, first = comment_text(comment), code.partition("\n")[0]
    if text.startswith("Internal"):
        return None
    if TYPE.match(code) and not FUNCTION.match(first):
        named = re.match(r"(?:struct|union) (\w+)", code)
        if PRIVATE.search(code.partition("{")[0] if named else code):
            return None
        return Item("type", group, text, f"{named[0]};" if PRIVATE.search(code) else code)
    if FUNCTION.match(first) and not PRIVATE.search(re.split(r"\(", first)[0]):
        declared = code if code.endswith(";") else code.partition(" {")[0] + ";"
        return Item("function", group, text, "\n".join(map(prototype, re.findall(r"\S[^;]*;", declared))))
    return None


def macro_of(group, comment, guard, directive):
    """The macro that a comment is about, or None. It is defined below the comment or its guard, or by a program."""
    found = re.match(r"#(?:define|ifdef) ((MC2_\w+)(?:\([^)]*\))?)", directive)
    text = comment_text(comment or (guard.get(found[2], []) if found and directive.startswith("#define") else []))
    if not found or not text or PRIVATE.match(found[1]) or found[1].endswith("_H") or text.startswith("Internal"):
        return None
    return Item("macro", group, text, f"#define {found[1]} ..")


def items_of(text):
    """The public parts of a header, in their order."""
    lines, comment, group, guard = text.splitlines(), [], "", {}
    while lines:
        if lines[0].startswith(("//", "/*")):
            comment = take_comment(lines)
            found = GROUP.match(comment_text(comment[:1]))
            if found:
                group, comment = found["title"], [f"// {found['text']}".rstrip(), *comment[1:]]
        elif not lines[0].strip():
            comment = []
            lines.pop(0)
        elif lines[0].startswith("#"):
            directive = take_directive(lines)
            item = macro_of(group, comment, guard, directive)
            guard |= {it: comment for it in re.findall(r"MC2_\w+", directive) if comment and directive.startswith("#if")}
            comment = [] if item else comment
            yield from [item] if item else []
        elif re.match(r"extern \"C\"|\}", lines[0]):
            lines.pop(0)
        else:
            item = item_of(group, comment, take_code(lines))
            comment = []
            yield from [item] if item else []


def head_of(text):
    """What a header says of itself, without its name."""
    lines = [it for it in text.partition("\n#ifndef")[0].splitlines() if not it.startswith("#include")]
    return re.sub(r"\A\w+\.h - (.)", lambda it: it[1].upper(), comment_text(lines))


def labelled(found, lines):
    """An entry of a list: a label with its text, which goes on in lines with more indent. Those are removed."""
    text, indent = found["text"], len(found["indent"]) + 2
    while lines and re.match(rf" {{{indent},}}\S", lines[0]) and not LABEL.fullmatch(lines[0]):
        part = lines.pop(0).strip()
        text += f"\\\n    {part}" if RESULT.match(part) else f"\n    {part}"
    return f"\n**{found['name']}**\n\n:   {escaped(text)}\n"


def escaped(text):
    """The text with marks that Markdown would take for its own: of a pointer, or of a file between < and >."""
    return re.sub(r"(?<!\w)\*(?=[a-z])(?![\w ]*\w\*(?!\w))|<(?=[a-z])", r"\\\g<0>", text)


def marked(text):
    """A comment in Markdown: heads in capitals as headings, and its labels as a list."""
    lines, made = text.splitlines(), []
    while lines:
        line = lines.pop(0)
        label, head = LABEL.fullmatch(line), CAPITALS.fullmatch(line)
        if head:
            made.append(f"### {head[1].capitalize()}{line[len(head[1]):]}")
        elif label and len(label["indent"]) < 4:
            made.append(labelled(label, lines))
        else:
            made.append(line if line.startswith("    ") else escaped(line))
    return "\n".join(made)


def parts_of(items):
    """The items in Markdown: types, macros, and functions by groups. A function that is declared and then defined is one."""
    seen = set()
    for kind, title in ("type", "Types"), ("macro", "Macros"), ("function", "Functions"):
        group, chosen = "", [it for it in items if it.kind == kind]
        yield from [f"## {title}\n"] if chosen else []
        for item in chosen:
            if item.names() and seen.issuperset(item.names()):
                continue
            seen.update(item.names())
            if kind == "function" and item.group != group:
                group = item.group
                yield f"### {group}\n"
            yield f"```c\n{item.code}\n```\n\n{marked(item.comment)}\n"


def header_page(paths, library):
    """A page about headers, in Markdown: how they are included, what they say of themselves, and their items."""
    texts = [Path(path).read_text(encoding="utf-8") for path in paths]
    includes = "\n".join(f"#include <{Path(path).name}>" for path in paths)
    made = [f"## Synopsis\n\n```c\n{includes}\n```\n"]
    if library:
        made.append(f"    cc program.c $(pkg-config --cflags --libs {library})\n")
    heads = [marked(head_of(text)) for text in texts]
    made.append("## Description\n\n" + "\n\n".join(it for it in heads if it.strip()) + "\n")
    made += parts_of([it for text in texts for it in items_of(text)])
    return "\n".join(made)
