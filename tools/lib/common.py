"""What the tools share: their words, the programs that they start, and how they end.

The status of a tool is 0 or 1 as its help says, 1 too if something that it starts fails, 2 for wrong words and for what
is missing, and 130 after an interrupt. What went wrong is a line on standard error, and no traceback.

Each tool finds this folder by `sys.path[0] += "/../lib"`, since sys.path[0] is the folder of the tool that was started.
"""
import argparse
import importlib.machinery
import importlib.util
import os
import re
import shlex
import shutil
import signal
import subprocess
import sys
from datetime import datetime, timezone
from pathlib import Path

ROOT = Path(__file__).resolve().parent.parent.parent
sys.path.append(str(ROOT))
from view.streams import tell_time  # (of the folder at the top)

# The tool's name; an installed one is started under another.
TOOL = os.environ.get("MC2_TOOL") or os.path.relpath(Path(sys.argv[0]).resolve(), ROOT)
MC2 = ROOT / "crates/mc2/out/mc2"
BENCH = ROOT / "crates/bench/out/bench"
STEPS = ROOT / "crates/steps/out/steps"
# The most CPUs of a cell.
MOST_CPUS = 64
# What `rt version` prints of the logic that all is proved in.
LOGIC = "logic dac8208d650f15bf"
HOW_TO_BUILD = {
    MC2: "`rt run` in crates/mc2 builds crates/mc2/out/mc2, and so does `rt ci`",
    BENCH: "`rt run` in crates/bench builds crates/bench/out/bench",
    STEPS: "`rt run` in crates/steps builds crates/steps/out/steps, and so does `rt ci`",
}
HOW_TO_GET = {
    "rt": "it is the command of the kit that README.md names",
    "gcc": "on Debian `apt-get install gcc` installs it",
    "ar": "on Debian `apt-get install binutils` installs it",
    "dpkg-deb": "it is a program of Debian's package dpkg",
    "pkg-config": "on Debian `apt-get install pkgconf` installs it",
    "pandoc": "on Debian `apt-get install pandoc` installs it",
    "hyperfine": "on Debian `apt-get install hyperfine` installs it",
    "dot": "on Debian `apt-get install graphviz` installs it",
    "gnuplot": "on Debian `apt-get install gnuplot-nox` installs it",
    "g++": "on Debian `apt-get install g++` installs it",
    "make": "on Debian `apt-get install make` installs it",
    "qemu-system-x86_64": "on Debian `apt-get install qemu-system-x86` installs it",
    "rustc": "on Debian `apt-get install rustc` installs it, and rustup elsewhere",
    "valgrind": "on Debian `apt-get install valgrind` installs it",
}


class Stop(Exception):
    """Ends the tool: a line for standard error, and a status."""

    def __init__(self, line, status=1):
        super().__init__(line)
        self.status = status


class Words(argparse.ArgumentParser):
    """Reads a tool's words. The help is the first comment of the tool, whose first line has the form of the words."""

    def __init__(self, text):
        super().__init__(allow_abbrev=False)
        self.text = text

    def format_help(self):
        return self.text

    def error(self, message):
        form = self.text.partition("\n")[0]
        raise Stop(f"{message.removeprefix('argument ')}\n{form}   (--help says more)", 2)


def number(least, most):
    """A reader of whole numbers from the least to the most."""

    def read(word):
        try:
            value = int(word)
        except ValueError:
            value = None
        if value is None or not least <= value <= most:
            raise argparse.ArgumentTypeError(f"{word!r} is no whole number from {least:,} to {most:,}")
        return value

    return read


def built(word, program):
    """The path of a built program: what the word names, or else the program in its place."""
    path = program if word is None else Path(word)
    if not path.exists():
        raise Stop(f"there is no program {path}: {HOW_TO_BUILD[program]}", 2)
    if path.is_dir():
        raise Stop(f"{path} is a folder, and no program: {HOW_TO_BUILD[program]}", 2)
    if not os.access(path, os.X_OK):
        raise Stop(f"{path} isn't executable: {HOW_TO_BUILD[program]}", 2)
    return path.resolve()


def need(*commands):
    """Ends the tool if one of the commands isn't on the PATH."""
    for command in commands:
        if shutil.which(command) is None:
            raise Stop(f"{command} isn't on the PATH: {HOW_TO_GET[command]}", 2)


def ending(status):
    """How a process ended, in words."""
    try:
        return f"was ended by {signal.Signals(-status).name}" if status < 0 else f"ended with status {status}"
    except ValueError:
        return f"was ended by signal {-status}"


def last_line(*streams):
    """The last line of the first stream that has one, valgrind's own lines left out."""
    texts = (it.decode(errors="replace") if isinstance(it, bytes) else it or "" for it in streams)
    lines = ([it for it in text.splitlines() if it.strip() and not it.startswith("==")] for text in texts)
    return next((it[-1].strip() for it in lines if it), "it said nothing")


def shown(words):
    """A command as one types it."""
    return shlex.join(str(it) for it in words)


def run(words, wanted=(0,), **how):
    """Runs a command to its end. The tool ends if it can't be started, or has none of the wanted statuses (None: any)."""
    how = {"stdout": subprocess.PIPE, "stderr": subprocess.PIPE, **how}
    try:
        ran = subprocess.run(words, check=False, **how)
    except subprocess.TimeoutExpired as late:
        raise Stop(f"{shown(words)} had not ended after {late.timeout:.0f} seconds") from None
    except OSError as error:
        raise Stop(f"{shown(words)} can't be started: {error.strerror}") from None
    if wanted is not None and ran.returncode not in wanted:
        raise Stop(f"{shown(words)} {ending(ran.returncode)}: {last_line(ran.stderr, ran.stdout)}")
    return ran


def instructions(words, **how):
    """All instructions of a run, counted by valgrind, and what it printed."""
    ran = run(["valgrind", "--tool=callgrind", "--callgrind-out-file=/dev/null", *words], text=True, errors="replace", **how)
    count = re.search(r"Collected : (\d+)", ran.stderr)
    if not count:
        raise Stop(f"valgrind told no count: {last_line(ran.stderr)}")
    return int(count[1]), ran.stdout


def record_of(words, **how):
    """The record that a run of mc2 writes. An earlier program writes one of the first form."""
    record = run(words, **how).stdout
    if not record.startswith((b"record 1\n", b"record 2\n")) or not record.endswith(b"\nend\n"):
        raise Stop(f"{shown(words)} wrote no record")
    return record


def load_tool(name):
    """The code of a tool, by its path in tools/."""
    loader = importlib.machinery.SourceFileLoader(Path(name).name, str(ROOT / "tools" / name))
    module = importlib.util.module_from_spec(importlib.util.spec_from_loader(loader.name, loader))
    loader.exec_module(module)
    return module


def load():
    """The load of the machine, over 1, 5 and 15 minutes."""
    return " ".join(f"{it:.2f}" for it in os.getloadavg())


def machine():
    """When something was measured, and on how many processors."""
    return f"{datetime.now(timezone.utc):%Y-%m-%d %H:%M} UTC, {os.cpu_count()} processors"


def end(main, tells=True):
    """Calls the tool's main, and ends the process with its status. At a terminal it tells the time meanwhile."""
    try:
        try:
            if tells:
                tell_time(TOOL)
            status = main()
        except Stop as stop:
            print(f"{TOOL}: {stop}", file=sys.stderr)
            status = stop.status
        sys.stdout.flush()
    except KeyboardInterrupt:
        status = 130
    except BrokenPipeError:
        # Who reads the output has left, so nothing more can be printed there.
        os.dup2(os.open(os.devnull, os.O_WRONLY), sys.stdout.fileno())
        status = 1
    except OSError as error:
        what = f"{error.filename}: {error.strerror}" if error.filename else error.strerror or error
        print(f"{TOOL}: {what}", file=sys.stderr)
        status = 1
    sys.exit(status)
