"""Debian's packages that checks need, by tools/packages.txt: which are missing, and how they come."""
import glob
import os
import shutil
import subprocess

from common import ROOT, last_line

LIST = ROOT / "tools/packages.txt"
SECONDS = 300
# Where examples/linux/get unpacks what the example boots, and by what.
UNPACKED = ROOT / "examples/linux/out/debian"
GET = ROOT / "examples/linux/get"
# A machine that reaches no mirror says so soon.
WORDS = ["apt-get", "-o", "Acquire::Retries=1", "-o", "Acquire::http::Timeout=20"]


def listed():
    """Each package, with what shows that it is there and what needs it."""
    lines = LIST.read_text(encoding="utf-8").splitlines()
    return [line.split(maxsplit=2) for line in lines if line and not line.startswith("#")]


def is_unpacked(mark):
    """Whether the package is unpacked in the repository, and not installed."""
    return mark.startswith(f"{UNPACKED.relative_to(ROOT)}/")


def is_there(mark):
    return bool(glob.glob(mark, root_dir=ROOT)) if "/" in mark else shutil.which(mark) is not None


def missing():
    """The packages that aren't there, with what needs each."""
    return [(package, need) for package, mark, need in listed() if not is_there(mark)]


def do(words, how):
    """Runs that, and prints what went wrong."""
    try:
        ran = subprocess.run(words, check=False, **how)
        said = last_line(ran.stderr, ran.stdout) if ran.returncode else ""
    except (OSError, subprocess.TimeoutExpired) as error:
        said = str(error)
    if said:
        print(f"{' '.join(str(it) for it in words)}: {said}", flush=True)


def install():
    """Installs what is missing by apt-get, unpacks what isn't to be installed, and returns what is still missing."""
    left = {package for package, _ in missing()}
    wanted = [package for package, mark, _ in listed() if package in left and not is_unpacked(mark)]
    how = {"stdin": subprocess.DEVNULL, "capture_output": True, "timeout": SECONDS, "env": {**os.environ, "DEBIAN_FRONTEND": "noninteractive"}}
    if left:
        do([*WORDS, "update"], how)
    if wanted:
        do([*WORDS, "install", "-y", "--no-install-recommends", *wanted], how)
    if len(wanted) < len(left):
        do([GET, UNPACKED], how)
    return [package for package, _ in missing()]
