#!/usr/bin/env python3
"""use: sides.py mc2_judge.h|mc2_custom.h

Compares the structs, numbers and arguments of the exports in the sources of crates/judge with those of the header. The header must
not fit once two of them are swapped.
"""
import sys
from pathlib import Path

sys.dont_write_bytecode = True
sys.path.insert(0, str(Path(__file__).resolve().parents[3] / "tools/lib"))
from common import ROOT, Stop, end, run
from other_side import EXPORT, text_of

REPORTS = {"Report": "mc2_report", "Turn": "mc2_entry_id"}
LINES = {"SaidReport": "mc2_custom_term", "StepReport": "mc2_custom_step", "LineReport": "mc2_custom_line"}
VERDICTS = "SOUND TOO_LONG WRONG_STEP ROOM_WAS_LEFT NOT_ITS_EVENT NOT_ASKED UNCLAIMED CYCLE BAD_LINE OUT_OF_MEMORY NO_ROOM".split()
CUSTOM_NUMBERS = {"NO_LINE": "NONE", "OBJECT_LINE": "OBJECT", "LOG_LINE": "LOG", "EVENT_LINE": "EVENT", "OTHER_LINE": "OTHER",
               "MOST_CUSTOM_CPUS": "CPUS", "MOST_CUSTOM_OBJECTS": "OBJECTS", "MOST_SIZES": "SIZES", "MOST_WORDS": "REFUSING",
               "MOST_LETTERS": "LETTERS", "MOST_NUMBERS": "NUMBERS", "MOST_CALLS": "CALLS", "COUNTED": "COUNTED"}
NUMBERS = {it: f"MC2_{it}" for it in VERDICTS} | {"MISTOLD": "MC2_WRONG_COUNTS"}
CUSTOM_NUMBERS = {here: f"MC2_CUSTOM_{there}" for here, there in CUSTOM_NUMBERS.items()}
CUSTOM_NUMBERS |= {"MISTOLD": "MC2_WRONG_COUNTS", "NO_MODEL": "MC2_NO_MODEL"}
# Of each header: the files of crates/ with the exports and their types, the exports, the names in C of structs and numbers, and
# swaps.
HEADERS = {
    "mc2_judge.h": (
        [f"judge/src/{it}.rt" for it in ("report", "merge", "audit")], {"mc2_audit", "mc2_merge"}, REPORTS,
        NUMBERS, {
            "fields of Report": ("    pub second: u64,\n    pub third: u64,", "    pub third: u64,\n    pub second: u64,"),
            "fields of Turn": ("    pub cpu: u64,\n    pub entry: u64,", "    pub entry: u64,\n    pub cpu: u64,"),
            "a field's type": ("    pub kind: u32,", "    pub kind: u64,"),
            "a number": ("pub const CYCLE: u32 = 7;", "pub const CYCLE: u32 = 8;"),
            "arguments": ("text: &[u8], report: &mut Report)", "report: &mut Report, text: &[u8])"),
            "what is written": ("room: &mut [Turn], report: &mut Report)", "room: &[Turn], report: &mut Report)"),
        }),
    "mc2_custom.h": (
        ["judge/src/*.rt", "custom_records/src/*.rt", "event_log/src/*.rt"],
        {"mc2_custom_line", "mc2_custom_audit", "mc2_custom_merge", "mc2_custom_kernel"}, REPORTS | LINES,
        CUSTOM_NUMBERS, {
            "fields of LineReport": ("    pub next: u64,\n    pub limit: u64,", "    pub limit: u64,\n    pub next: u64,"),
            "lengths": ("    pub numbers: [u64; MOST_NUMBERS],", "    pub numbers: [u64; MOST_SIZES],"),
            "fields of StepReport": ("    pub call: SaidReport,\n    pub reply", "    pub reply: SaidReport,\n    pub call"),
            "a field's type": ("    pub cpu: u32,", "    pub cpu: u64,"),
            "a number": ("pub const EVENT_LINE: u32 = 3;", "pub const EVENT_LINE: u32 = 4;"),
            "arguments": ("text: &[u8], at: usize", "at: usize, text: &[u8]"),
        }),
}
WARNINGS = ["-Wall", "-Wextra", "-pedantic", "-Werror"]
COMPILER = ["gcc", "-std=c11", *WARNINGS, f"-I{ROOT / 'include'}", "-fsyntax-only", "-x", "c", "-"]


def main():
    header = sys.argv[1]
    files, exports, structs, numbers, swaps = HEADERS[header]
    paths = [path for pattern in files for path in sorted((ROOT / "crates").glob(pattern))]
    source = "\n".join(path.read_text() for path in paths)
    if missing := exports - {found[0] for found in EXPORT.findall(source)}:
        raise Stop(f"the sources don't have the exports {', '.join(sorted(missing))}")

    def compiled(text):
        return run(COMPILER, wanted=None, input=text_of(header, text, structs, numbers).encode())

    if (ended := compiled(source)).returncode:
        raise Stop(f"{header} isn't what the sources of judge have: {ended.stderr.decode()[:500]}")
    for name, (old, new) in swaps.items():
        if old not in source or compiled(source.replace(old, new)).returncode == 0:
            raise Stop(f"{header} fits sources in which {name} are swapped")
    print(f"{header} is what the sources have, and {len(swaps)} swaps are refused: {', '.join(swaps)}")
    return 0


if __name__ == "__main__":
    end(main, tells=False)
