"""Hostile texts, which are endless, long or deep, for the scripts `view` and tools/develop/why. None may take much memory, or end
otherwise than by the program's line."""
import os
import shlex
import subprocess
import sys
import tempfile
from pathlib import Path

from common import ROOT
from texts.settings import BUILT_IN
from drawn import drawn_entries, record_of

MEBIBYTE = 2**20
# The most addresses and memory of a script; and if what it reads is right, ten times that in addition.
ADDRESSES, MOST = 1024 * MEBIBYTE, 36 * MEBIBYTE
ENDLESS, DIGITS, NOT_TOML = Path("/dev/zero"), b"9" * 10_000, "E6 settings: top: text: not toml"
CUSTOM = b"record 3\ncpus 2\nobjects 1\nobject q lock 9 kind\nrefuses\n"
# Starts the process that is measured. (The most memory of a process is at least that of the one that started it.)
MEASURED = f"""import os, resource, sys
resource.setrlimit(resource.RLIMIT_AS, ({ADDRESSES}, {ADDRESSES}))
_, status, used = os.wait4(os.posix_spawn(sys.argv[2], sys.argv[2:], os.environ), 0)
open(sys.argv[1], "w").write(str(used.ru_maxrss))
sys.exit(os.waitstatus_to_exitcode(status))"""
# For each kind, texts and the program's line.
REFUSED = {
    "record": [
        (ENDLESS, "E9 record: line 1"),
        (b"record 2\n" + b"x" * (32 * MEBIBYTE), "E9 record: line 2"),
        (CUSTOM.replace(b"9", DIGITS), "E9 record: line 4"),
        (CUSTOM + b"log q 1\n0 put " + DIGITS + b" = ok\n", "E9 record: line 7"),
        (CUSTOM + b"log q 0\ncpu 0 1\nq " + DIGITS + b" put | noroom\n", "E9 record: line 8"),
    ],
    "settings": [
        (ENDLESS, NOT_TOML),
        (BUILT_IN.encode() + b"#" * (32 * MEBIBYTE), NOT_TOML),
        (b"cpus" + b".a" * 30_000 + b" = 1\n", NOT_TOML),
        (b"cpus = " + b"[" * 30_000, NOT_TOML),
        (b"cpus = " + DIGITS, NOT_TOML),
        (b"cpus = 9223372036854775808\n", NOT_TOML),
    ],
    "scripts": [
        (ENDLESS, "E7 scripts: line 1"),
        (b"x" * (32 * MEBIBYTE), "E7 scripts: line 1"),
        (DIGITS + b" q0 deq\n", "E7 scripts: line 1"),
        (b"0 q0 enq " + DIGITS + b"\n", "E7 scripts: line 1"),
        (b"#\n" * 200_000 + b"x", "E7 scripts: line 200001"),
    ],
    "schedule": [
        (ENDLESS, "E8 schedule: word 1"),
        (b"0" * (32 * MEBIBYTE), "E8 schedule: word 1"),
        (DIGITS, "E8 schedule: word 1"),
    ],
}


def ended(words, environment=None):
    """The status, the two outputs, and the most memory of a process that is started with these words."""
    with tempfile.NamedTemporaryFile("r") as used:
        ran = subprocess.run([sys.executable, "-S", "-c", MEASURED, used.name, *words], stdin=subprocess.DEVNULL,
                             capture_output=True, env=environment, check=False)
        return ran.returncode, ran.stdout.decode(), ran.stderr.decode(errors="replace"), int(used.read()) * 1024


def given(text, path):
    """The file of a text."""
    if isinstance(text, Path):
        return text
    path.write_bytes(text)
    return path


def unlike(got, wanted, most):
    """What is wrong with how a process ended. Each output has to begin as wanted, and may be empty only if that is."""
    status, out, faults, used = got
    is_so = all(it.startswith(what) and bool(it) == bool(what) for it, what in zip((out, faults), wanted[1:]))
    if is_so and status == wanted[0] and used <= most:
        return None
    return f"{status}, {out[:200]!r}, {faults[-200:]!r}, {used // MEBIBYTE} MiB, at most {most // MEBIBYTE}"


def after_estimate(name, kind, text, said):
    """The lines after the one that says how long a large text takes."""
    if kind != "record" or isinstance(text, Path) or len(text) < 5e6:
        return said
    line, _, rest = said.partition("\n")
    return rest if line.startswith(f"{name}: {len(text) / 1e6:,.0f} MB take about ") else f"no time: {said}"


def why_refused(program, kind, text, refusal, folder):
    """What is wrong with the output of tools/develop/why for this text, or None."""
    path = given(text, folder / "text")
    got = ended([ROOT / "tools/develop/why", "--program", program, "--as", kind, path])
    status, out, faults, used = got
    faults = after_estimate("tools/develop/why", kind, text, faults)
    place, _, rest = out.removeprefix(f"{path}:").partition(": ")
    is_placed = place.replace(":", "").isdigit() and rest.startswith(f"{refusal}\n    ") and "\nwanted: " in rest
    return unlike((status, "placed" if is_placed else out, faults, used), (1, "placed", ""), MOST)


def view_refused(kind, text, refusal, environment, folder):
    """The same of `view`, which leaves a schedule to `steps`."""
    path, settings = given(text, folder / "text"), given(BUILT_IN.encode(), folder / "settings")
    words = {"record": ["timeline", path], "settings": ["schedule", "--settings", path, "/dev/null"],
             "scripts": ["schedule", "--settings", settings, path]}
    status, out, faults, used = ended([ROOT / "view/view", *words[kind]], environment)
    faults = after_estimate("view", kind, text, faults)
    return unlike((status, out, faults, used), (2, "", f"view: {refusal}\n"), MOST)


def view_tried(program, steps, draw):
    """What is wrong with what `view` makes of all these and of right ones: for each a name, and that or None."""
    environment = {**os.environ, "MC2": shlex.quote(str(program)), "MC2_STEPS": shlex.quote(str(steps))}
    view, custom = ROOT / "view/view", ROOT / "examples/custom/records/runq_lower_first"
    tries = [(kind, *it) for kind in ("record", "settings", "scripts") for it in REFUSED[kind]]
    for kind, text, refusal in tries:
        # (a short text that isn't a record is for `steps` only)
        if kind == "record" or isinstance(text, Path) or len(text) > MEBIBYTE:
            with tempfile.TemporaryDirectory(prefix="views-") as folder:
                yield named(kind, text), view_refused(kind, text, refusal, environment, Path(folder))
    # (the program would need longer for it than `view`)
    record = large(draw).replace(b"record 2", b"record 3", 1).replace(b"log o0 ", b"refuses\nlog o0 ", 1)
    reasons = b"unsound: log ready event 6 step 1: wrong step\n" + b"ab\n" * MEBIBYTE
    right = [(["timeline", None], record, "<!doctype"), (["timeline", "--svg", None], record, "<svg"),
             (["trace", None], record, "{"), (["timeline", "--said", None, custom], reasons, "<!doctype")]
    for words, text, begins in right:
        with tempfile.TemporaryDirectory(prefix="views-") as folder:
            yield f"a large text for {words[:-1]}", held_too_much([view, *words], text, begins, Path(folder), environment)
    refused = 2, "", "view: E16 verdict: it has more than 67108864 bytes\n"
    yield "an endless verdict", unlike(ended([view, "timeline", "--said", ENDLESS, custom]), refused, 128 * MEBIBYTE)


def named(kind, text):
    return f"{kind} {text if isinstance(text, Path) else text[:40]}"


def large(draw):
    """A right record of 40,000 entries."""
    return record_of(64, 16, drawn_entries(draw, 64, 16, 40_000)).encode()


def held_too_much(words, text, begins, folder, environment=None):
    """What is wrong with a script's end after this right text, or None."""
    path = given(text, folder / "text")
    got = ended([*(path if it is None else it for it in words)], environment)
    return unlike(got, (0, str(begins).replace("FILE", str(path)), ""), MOST + 10 * len(text))
