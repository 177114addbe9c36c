"""Says in C what the sources of a static library have that crosses: its structs, numbers and functions.

The text that comes of it includes the library's header, and compiles only if both sides are the same: each field has the same type
and the same place, each number the same value, each function the same arguments.
"""
import re

from common import Stop

STRUCT = re.compile(r"#\[repr\(C\)\]\npub struct (\w+) \{\n(.*?)\n\}", re.DOTALL)
FIELD = re.compile(r"^    pub (\w+): (?:\[(\w+); (\w+)\]|(\w+)),$", re.MULTILINE)
NUMBER = re.compile(r"^pub const (\w+): \w+ = (\d+);$", re.MULTILINE)
EXPORT = re.compile(r'^pub extern "C" fn (\w+)\((.*?)\)(?: -> (\w+))?\s', re.MULTILINE | re.DOTALL)
# A `Global` takes nothing.
NUMBERS = {"u8": "uint8_t", "u16": "uint16_t", "u32": "uint32_t", "u64": "uint64_t", "usize": "size_t"}


def type_of(word, names):
    """The type of C for a number or for a struct that has a name in C."""
    if word in NUMBERS:
        return NUMBERS[word]
    if word in names:
        return f"struct {names[word]}"
    raise Stop(f"no type of C is known for {word}")


def arguments(parameter, names):
    """The arguments of C for a parameter."""
    name, _, kind = (it.strip() for it in parameter.partition(":"))
    if kind == "Global":
        return []
    whole = re.fullmatch(r"(&mut |&)?(\[)?(\w+)\]?", kind)
    if not whole:
        raise Stop(f"no argument of C is known for {parameter.strip()}")
    pointer, is_slice, word = whole[1], whole[2], whole[3]
    own = type_of(word, names)
    if not pointer:
        return [f"{own} {name}"]
    first = f"{'const ' if pointer == '&' else ''}{own} *{name}"
    return [first, f"size_t {name}_count"] if is_slice else [first]


def structs(source, names, numbers):
    """Each struct that crosses, once more, and that it is the header's. A length may be the name of a number."""
    lines = []
    for name, body in STRUCT.findall(source):
        fields = FIELD.findall(body)
        if name not in names or len(fields) != len([it for it in body.splitlines() if not it.strip().startswith("//")]):
            raise Stop(f"struct {name} isn't as it was when this was written")
        lines.append(f"struct of_{name} {{")
        for field, item, length, plain in fields:
            lines.append(f"{type_of(item or plain, names)} {field}{f'[{numbers.get(length, length)}]' if length else ''};")
        mine, theirs = f"struct of_{name}", f"struct {names[name]}"
        lines.append(f"}}; IS_SO(sizeof({mine}) == sizeof({theirs}));")
        for field, item, length, plain in fields:
            one = f"&(({theirs} *)0)->{field}{'[0]' if length else ''}"
            lines.append(f"IS_SO(offsetof({mine}, {field}) == offsetof({theirs}, {field}));")
            lines.append(f"IS_SO(sizeof((({mine} *)0)->{field}) == sizeof((({theirs} *)0)->{field}));")
            lines.append(f"IS_SO(_Generic({one}, {type_of(item or plain, names)} *: 1, default: 0));")
    return lines


def functions(source, names):
    """Each function, declared once more."""
    lines = []
    for name, parameters, result in EXPORT.findall(source):
        given = [it for part in parameters.split(",") if part.strip() for it in arguments(part, names)]
        lines.append(f"{type_of(result, names) if result else 'void'} {name}({', '.join(given)});")
    return lines


def text_of(header, source, names, spelled):
    """The text in C. `names` has what C calls the structs, and `spelled` what it calls the numbers of the source."""
    numbers = dict(NUMBER.findall(source))
    if missing := [it for it in spelled if it not in numbers]:
        raise Stop(f"the sources have no {', '.join(missing)}")
    lines = [f'#include "{header}"', "#include <stddef.h>", "#define IS_SO(what) _Static_assert(what, #what)"]
    same = [f"IS_SO({there} == {numbers[here]});" for here, there in spelled.items()]
    return "\n".join([*lines, *structs(source, names, numbers), *same, *functions(source, names), ""])
