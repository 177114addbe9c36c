"""Busy loops that run beside what is measured. They are processes of the same terminal, since the system shares processors out by
terminals. Each ends with the tool, however that ends, and after ten minutes of a processor at the latest."""
import contextlib
import subprocess

from common import Stop

MOST_SECONDS = 600
LOOP = ["setpriv", "--pdeathsig", "KILL", "sh", "-c", f"ulimit -t {MOST_SECONDS}; while :; do :; done"]


@contextlib.contextmanager
def busy_loops(count):
    """Runs that number of busy loops meanwhile."""
    loops = []
    try:
        for _ in range(count):
            loops.append(subprocess.Popen(LOOP, stdin=subprocess.DEVNULL))
        yield
        if any(it.poll() is not None for it in loops):
            raise Stop(f"a busy loop ended before the runs did: each takes {MOST_SECONDS} seconds of a processor at most")
    finally:
        for loop in loops:
            loop.kill()
            loop.wait()
