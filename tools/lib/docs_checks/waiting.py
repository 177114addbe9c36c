"""Whether callers wait in the same way from Rattle, C and Rust: each number of the waiting is the same in the three sources."""
import re

RATTLE, C, RUST = "crates/word_rule/src/resting.rt", "include/mc2_wait.h", "bindings/rust/src/waiting.rs"
# It has the number that the source in Rattle takes from another crate.
LIMITS = "crates/sound_run/src/limits.rt"
# Each number: what it is, and its name in Rattle, in C and in Rust.
NUMBERS = [
    ("the failed look from which a waiter sleeps", "LONG_WAIT", "MC2_PRIV_LONG_WAIT", "LONG_WAIT"),
    ("the looks in a round of pauses", "ROUND", "MC2_PRIV_ROUND", "ROUND"),
    ("the microseconds of a sleep in line", "NAP", "MC2_PRIV_SLEEP_IN_LINE", "SLEEP_IN_LINE"),
    ("the microseconds of a throttled caller", "STAY", "MC2_PRIV_THROTTLE", "THROTTLE"),
    ("the microseconds more for each other throttled caller", "STAY_LONGER", "MC2_PRIV_THROTTLE_EACH", "THROTTLE_EACH"),
    ("the most throttled callers that are counted", "MOST_CPUS", "MC2_PRIV_MOST_OTHERS", "MOST_OTHERS"),
    ("what a throttled caller adds to the count", "OUTSIDE", "throttled", "THROTTLED"),
]
# Forms of sentences that have a number, and the number's name in C. The header has the first two.
SENTENCES = [
    (r"from the (\d+)th failed look", "MC2_PRIV_LONG_WAIT"),
    (r"\(looks mod (\d+)\)", "MC2_PRIV_ROUND"),
    (r"\blook\s+(\d+)\s+on\b", "MC2_PRIV_LONG_WAIT"),
    (r"After\s+(\d+)\s+failed\s+looks", "MC2_PRIV_LONG_WAIT"),
]


def value_of(name, text):
    """The number that a source gives this name, or nothing. It may be a power of two, as `1 << 32` or `(uint64_t)1 << 32`."""
    found = re.search(rf"\b{name}(?:: \w+)? = (?:\(\w+\))?([\d_]+)(?: << (\d+))?(?=[;, ])", text)
    return found and int(found[1]) << int(found[2] or 0)


def wrong_waiting(top):
    """Each number that isn't in a source, isn't the same in all of them, or is another one in a sentence."""
    texts = {file: (top / file).read_text(encoding="utf-8") for file in (RATTLE, C, RUST, LIMITS)}
    for what, *names in NUMBERS:
        files = LIMITS if names[0] == "MOST_CPUS" else RATTLE, C, RUST
        values = {f"{name} of {file}": value_of(name, texts[file]) for file, name in zip(files, names)}
        missing = [it for it, value in values.items() if value is None]
        yield from (f"there is no {it}, {what}" for it in missing)
        if not missing and len({*values.values()}) > 1:
            yield f"{what} should be the same: " + ", ".join(f"{it} is {value}" for it, value in values.items())
    documents = {str(it.relative_to(top)): it.read_text(encoding="utf-8") for it in sorted(top.glob("docs/*.md"))}
    for file, text in {C: texts[C], **documents}.items():
        for pattern, name in SENTENCES:
            said = [int(it) for it in re.findall(pattern, text)]
            if said and {*said} != {value_of(name, texts[C])}:
                yield f"{file}: {said[0]} where {name} is {value_of(name, texts[C])}, in a sentence as `{pattern}`"
    missing = [pattern for pattern, _ in SENTENCES[:2] if not re.search(pattern, texts[C])]
    yield from (f"{C} has no sentence as `{it}`" for it in missing)
