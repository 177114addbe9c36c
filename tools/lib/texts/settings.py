"""Settings: the first fault of such a text, and the line where it stands."""
import re
from typing import NamedTuple

from texts.line import MOST_BYTES, Fault

try:
    import tomllib
except ImportError:
    # (before Python 3.11: nobody can tell whether settings are right)
    tomllib = None

# How many tables and arrays in each other the program's reader of TOML takes.
MOST_DEEP = 80
TOO_DEEP = "too many tables or arrays in each other", f"at most {MOST_DEEP} of them"
KINDS = {"queue": ["threads"], "pool": ["pages", "quotas"], "console": ["bytes"], "sched": ["threads", "channels"]}
MOST = {"cpus": 64, "events": 65_536, "threads": 1_024, "channels": 64, "pages": 4_096, "bytes": 4_096}
OBJECT_KEYS = ["name", "kind", "lock", "events"]
WORDS = {"kind": list(KINDS), "lock": ["ticket", "mcs"]}
NAME = "1 to 16 lower-case letters and digits in quotes, the first a letter, as no earlier object has it"
QUOTAS = "16 whole numbers in brackets, each 0 to 4,096: how many pages each owner may have"


class Settings(NamedTuple):
    cpus: int
    # The kind of each object, by its name.
    kinds: dict


# What `run` takes without settings.
BUILT_IN = 'cpus = 2\n[[object]]\nname = "q0"\nkind = "queue"\nlock = "ticket"\nevents = 100\nthreads = 8\n'


class BadKey(Exception):
    """A fault of a key: which object's, from 1, or None at the top; the key; the cause, in the program's words; and the key
    as it is written, if that is another."""

    def __init__(self, place, key, cause, written=None):
        super().__init__(f"{'top' if place is None else f'object {place}'}: {key}: {cause}")
        self.place, self.key, self.cause, self.written = place, key, cause, written or key


def integer(table, place, key, most=None):
    value = wanted(table, place, key)
    if type(value) is not int:
        raise BadKey(place, key, "wrong type")
    if not 1 <= value <= (most or MOST[key]):
        raise BadKey(place, key, "out of range")
    return value


def wanted(table, place, key):
    if key not in table:
        raise BadKey(place, key, "missing")
    return table[key]


def word(table, place, key):
    value = wanted(table, place, key)
    if not isinstance(value, str):
        raise BadKey(place, key, "wrong type")
    if value not in WORDS[key]:
        raise BadKey(place, key, "bad word")
    return value


def name(table, place, taken):
    value = wanted(table, place, "name")
    if not isinstance(value, str):
        raise BadKey(place, "name", "wrong type")
    if not re.fullmatch(r"[a-z][a-z0-9]{0,15}", value):
        raise BadKey(place, "name", "bad word")
    if value.encode() in taken:
        raise BadKey(place, "name", "repeated")
    return value


def quotas(table, place):
    value = table.get("quotas", [0] * 16)
    if not isinstance(value, list) or any(type(it) is not int for it in value):
        raise BadKey(place, "quotas", "wrong type")
    if len(value) != 16 or any(not 0 <= it <= 4096 for it in value):
        raise BadKey(place, "quotas", "out of range")


def refuse_others(table, place, keys):
    other = next((it for it in table if it not in keys), None)
    if other is not None:
        raise BadKey(place, "other", "unknown", other)


def read_object(table, place, taken):
    if not isinstance(table, dict):
        raise BadKey(place, "object", "wrong type")
    own = name(table, place, taken)
    kind = word(table, place, "kind")
    word(table, place, "lock")
    integer(table, place, "events")
    for key in KINDS[kind]:
        quotas(table, place) if key == "quotas" else integer(table, place, key)
    refuse_others(table, place, OBJECT_KEYS + KINDS[kind])
    taken[own.encode()] = kind


def place_of(text, at):
    """The line and column of a byte."""
    return text.count(b"\n", 0, at) + 1, at - text.rfind(b"\n", 0, at)


def refuse_beyond(text):
    """Refuses what is too long, or so deep that Python would take much time and memory for it."""
    if len(text) > MOST_BYTES:
        end = f"the end of the text, as {MOST_BYTES:,} bytes are the most"
        raise Fault(*place_of(text, MOST_BYTES), f"byte {MOST_BYTES + 1:,}", end)
    for number, line in enumerate(text.split(b"\n"), start=1):
        if sum(map(line.partition(b"#")[0].count, (b".", b"[", b"{"))) > MOST_DEEP:
            raise Fault(number, 1, *TOO_DEEP)


def has_long_number(value):
    if isinstance(value, (dict, list)):
        return any(map(has_long_number, value.values() if isinstance(value, dict) else value))
    return type(value) is int and not -(2**63) <= value < 2**63


def read_settings(text):
    """What the settings say. A BadKey is their first fault, in the program's words; a Fault one of TOML's."""
    refuse_beyond(text)
    try:
        table = tomllib.loads(text.decode("utf-8-sig"))
        if has_long_number(table):
            raise ValueError
    except UnicodeDecodeError as error:
        found = f"the byte {text[error.start]}, which isn't UTF-8 there"
        raise Fault(*place_of(text, error.start), found, "a text in UTF-8") from None
    except tomllib.TOMLDecodeError as error:
        at = re.search(r"\(at line (\d+), column (\d+)\)", str(error))
        line, column = (int(at[1]), int(at[2])) if at else (text.count(b"\n") + 1, 1)
        raise Fault(line, column, str(error).partition(" (at ")[0], "TOML, https://toml.io") from None
    except ValueError:
        found = re.search(rb"\b[0-9][0-9a-fobx_]{17}", text, re.I)
        raise Fault(*place_of(text, found.start() if found else 0), "a number above 63 bits", "a smaller one") from None
    except RecursionError:
        raise Fault(1, 1, *TOO_DEEP) from None
    cpus = integer(table, None, "cpus")
    objects = wanted(table, None, "object")
    if not isinstance(objects, list):
        raise BadKey(None, "object", "wrong type")
    if not 1 <= len(objects) <= 16:
        raise BadKey(None, "object", "out of range")
    kinds = {}
    for place, it in enumerate(objects, start=1):
        read_object(it, place, kinds)
    refuse_others(table, None, ["cpus", "object"])
    return Settings(cpus, kinds)


def could_stand(key, written):
    """What a key may have."""
    if key in MOST:
        return f"a whole number, 1 to {MOST[key]:,}"
    if key in WORDS:
        return " or ".join(f'"{it}"' for it in WORDS[key])
    return {"name": NAME, "quotas": QUOTAS, "object": "1 to 16 tables, each headed by `[[object]]`",
            "other": f"nothing: no key {written!r} is known there"}[key]


def line_of(text, bad):
    """The line and column where the key of the fault stands, or where its table begins, if it is written in the usual way."""
    place, head = 0, (1, 1)
    for number, line in enumerate(text.decode(errors="replace").splitlines(), start=1):
        if re.match(r"\s*\[\[\s*object\s*\]\]", line):
            place += 1
            if place == bad.place:
                head = number, 1
        elif place == (bad.place or 0) and (found := re.match(rf"\s*[\"']?{re.escape(bad.written)}[\"']?\s*=\s*", line)):
            return number, found.end() + 1
    return head


def key_fault(text, bad):
    """The fault of a key as one with a line."""
    line, column = line_of(text, bad)
    row = text.decode(errors="replace").splitlines()[line - 1 : line]
    value = row[0][column - 1 :].strip() if row else ""
    found = f"no key `{bad.key}`" if bad.cause == "missing" else f"{bad.written} {bad.cause}: `{value}`"
    return Fault(line, column, found, could_stand(bad.key, bad.written))
