#!/usr/bin/env python3
"""use: limits.py

Compares the limits of include/mc2_objects.h with those of crates/, by which the judge is proved. The header has exactly these.
"""
import re
import sys
from pathlib import Path

TOP = Path(__file__).resolve().parents[3]
# Where each limit is defined for the judge, and by which line. The header has one for the threads of a queue and of a sched.
LIMITS = [
    ("MC2_MOST_CPUS", "sound_run/specs/Limits.antt", r"most_cpus = (\d+)"),
    ("MC2_MOST_OBJECTS", "sound_run/specs/Limits.antt", r"most_cells = (\d+)"),
    ("MC2_MOST_NAME", "records/src/settings.rt", r"    name: ArrayString<(\d+)>,"),
    ("MC2_MOST_EVENTS", "event_log/specs/Limits.antt", r"most_events = (\d+)"),
    ("MC2_MOST_ENTRIES", "scripts/specs/Limits.antt", r"most_entries = (\d+)"),
    ("MC2_MOST_CALLS", "event_log/specs/Limits.antt", r"most_calls = (\d+)"),
    ("MC2_MOST_THREADS", "shared_queue/src/queue.rt", r"pub const MOST_THREADS: u32 = (\d+);"),
    ("MC2_MOST_THREADS", "wake_list/src/sched.rt", r"pub const MOST_THREADS: u32 = (\d+);"),
    ("MC2_MOST_CHANNELS", "wake_list/src/sched.rt", r"pub const MOST_CHANNELS: u32 = (\d+);"),
    ("MC2_MOST_PAGES", "page_pool/src/params.rt", r"pub const MOST_PAGES: u32 = (\d+);"),
    ("MC2_MOST_BYTES", "console_ring/src/console.rt", r"pub const MOST_BYTES: u32 = (\d+);"),
    ("MC2_OWNERS", "page_pool/src/params.rt", r"pub const OWNERS: usize = (\d+);"),
]

header = (TOP / "include/mc2_objects.h").read_text()
have = {(name, int(number)) for name, number in re.findall(r"\b(MC2_MOST_\w+|MC2_OWNERS) = (\d+)\b", header)}
wanted = set()
for name, path, line in LIMITS:
    found = re.findall(f"^{line}$", (TOP / "crates" / path).read_text(), re.MULTILINE)
    if len(found) != 1:
        sys.exit(f"crates/{path} has {len(found)} lines {line!r} and not one")
    wanted.add((name, int(found[0])))
if have != wanted:
    sys.exit(f"one of header and crates has these limits, and the other doesn't: {sorted(have ^ wanted)}")
print(f"{len(wanted)} limits, as crates/ has them")
