"""How the proved programs and a judge of one's own are asked, and what `view` refuses."""
import os
import re
import resource
import shlex
import signal
import subprocess
import tempfile
from contextlib import contextmanager
from functools import partial
from pathlib import Path

from view.streams import say

ROOT = Path(__file__).resolve().parent.parent
SECONDS, MOST_BYTES = 60, 1 << 26  # how long a judge of one's own may take, and how much it may write


class Refused(Exception):
    """A refusal: its line, without the name `view`, or None if it was told already; and the status."""

    def __init__(self, line, status):
        super().__init__(line)
        self.line, self.status = line, status


def bad_verdict(cause):
    return Refused(f"E16 verdict: {cause}", 2)


@contextmanager
def started(words, text, refusal, **how):
    """The program as it runs on this text, or on this file from its front on, and the file of what it prints; or a refusal."""
    with tempfile.TemporaryFile() as own, tempfile.NamedTemporaryFile() as said:
        given = own if isinstance(text, bytes) else text
        if given is own:
            given.write(text)
        given.flush()
        # (the file's own `seek` may move just within what it has read)
        os.lseek(given.fileno(), 0, os.SEEK_SET)
        try:
            program = subprocess.Popen(words, stdin=given, stdout=said, **how)
        except OSError as error:
            raise refusal(f"{words[0]} can't be started: {error.strerror}") from None
        with program:
            yield program, Path(said.name)


class Program:
    """A program of this project. Its refusals are this script's; any other line that it says is passed on, once."""

    def __init__(self, words):
        self.words, self.told = words, set()

    def ask(self, words, text=b""):
        """What it prints, or its refusal."""
        refusal = None
        with started([*self.words, *words], text, partial(Refused, status=125), stderr=subprocess.PIPE) as (program, said):
            for line in program.stderr:
                found = re.fullmatch(rb"\w+: (E\d+ .*)\n", line)
                refusal = found[1].decode() if found else refusal
                if not found and line not in self.told:
                    say(line.decode(errors="replace").removesuffix("\n"))
                    self.told.add(line)
            status = program.wait()
            if status and not refusal:
                raise Refused(None if self.told else f"{self.words[0]} ended with status {status}", 125)
            if status:
                raise Refused(refusal, status)
            return said.read_bytes()


MC2, STEPS = (Program(shlex.split(os.environ.get(variable, shlex.quote(str(ROOT / name)))))
              for variable, name in {"MC2": "mc2", "MC2_STEPS": "steps"}.items())


def ask_judge(words, text):
    """What a judge of one's own prints. What it says on standard error goes there."""
    bound = partial(resource.setrlimit, resource.RLIMIT_FSIZE, (MOST_BYTES, MOST_BYTES))
    with started(words, text, bad_verdict, start_new_session=True, preexec_fn=bound) as (judge, said):
        try:
            status = judge.wait(SECONDS)
        except subprocess.TimeoutExpired:
            raise bad_verdict(f"the judge had not ended after {SECONDS} seconds; --said takes what it prints") from None
        finally:
            if judge.poll() is None:
                os.killpg(judge.pid, signal.SIGKILL)
        if status not in (0, 1):
            how = f"was ended by signal {-status}" if status < 0 else f"ended with status {status}"
            raise bad_verdict(f"the judge {how}")
        return said.read_bytes()
