"""Judges of custom objects, good and bad: what the script `view` makes of their answers, and of a full disk."""
import os
import re
import shlex
import subprocess
import sys
import tempfile
import xml.etree.ElementTree as xml
from pathlib import Path

from common import ROOT
from texts.record import read_record
from view import asked
from view.model import Model
from view.verdict import by_judge
from models import Wrong, check_model, same

CUSTOM = ROOT / "examples/custom/records"
RIGHT = CUSTOM / "runq_right"
# An answer as of examples/custom/custom.c on runq_lower_first.
WITNESS = """unsound: log ready event 6 step 1: wrong step
a thread of a higher priority waits:
  event 1: 0 put 3 1 = ok
  event 2: 1 put 5 9 = ok
  event 6: 1 take = thread 3
right would have been: thread 2, or another that waits with priority 4
"""
MARKUP = "<script>document.title = 'taken'</script><img src=x onerror=alert(1)> \"quoted\" & 'more' ]]> </svg> \x00\x1b[31m"
WRONG = WITNESS.partition("\n")[0]
# What a judge does, a script of sh that reads the record first; and the cause of the refusal.
BAD = {
    "echo sound; echo cpu 0 entry 1": "it is of another record",
    "echo unsound: log nothere event 1 step 1: wrong step": "it is of another record",
    "echo unsound: log ready event 99 step 1: wrong step": "it is of another record",
    "echo unsound: log ready event 6 step 8: wrong step": "it is of another record",
    "echo unsound: log ready event 1 step 1: wrongly stepped": "this names no fault: log ready event 1 step 1: wrongly stepped",
    "echo unsound: cpu 7 entry 1: not its event": "it is of another record",
    "echo right": "this is none: right",
    "true": "this is none: ",
    "echo sound; exit 3": "the judge ended with status 3",
    "kill -9 $$": "the judge was ended by signal 9",
    "exec yes": "the judge was ended by signal 25",
}


class Judge:
    """A judge that is a script, with a file for it."""

    def __init__(self, folder, program):
        self.file, self.environment = Path(folder) / "judge", {**os.environ, "MC2": shlex.quote(str(program))}

    def view(self, record, script, *words, **how):
        self.file.write_text(f"cat > /dev/null\n{script}\n")
        command = [ROOT / "view/view", *words, "--judge", f"sh '{self.file}'", record]
        return subprocess.run(command, capture_output=True, env=self.environment, **how)

    def said(self, record, said, *words):
        """What view prints, if the judge said this."""
        text = self.file.with_name("said")
        text.write_text(said)
        ran = subprocess.run([ROOT / "view/view", *words, "--said", text, record], capture_output=True, env=self.environment)
        same(ran.returncode == 0 and not ran.stderr, f"status {ran.returncode}, {ran.stderr[:200]!r}")
        return ran.stdout.decode()


def check_witness(judge):
    """Only the witness is drawn, in frames, and the judge's reasons."""
    picture = judge.said(CUSTOM / "runq_lower_first", WITNESS, "timeline", "--svg")
    words = [it.text for it in xml.fromstring(picture).iter("{http://www.w3.org/2000/svg}text")]
    events = [it for it in words if re.fullmatch(r"event \d+", it)]
    same(events == ["event 1", "event 2", "event 6"], f"other events: {events}")
    same(all(line.strip() in " ".join(words) for line in WITNESS.splitlines()), "a reason isn't there")
    same((picture.count('class="kept"'), picture.count('class="frame"')) == (2, 1), "other frames")


def check_markup(judge):
    """A judge's words are text, and of long ones only a part is shown."""
    said = f"{WRONG}\n{MARKUP}\n" + "reason " * 200_000 + "\n" + "more\n" * 100_000
    for words in ("timeline", "--svg"), ("timeline",):
        drawn = judge.said(CUSTOM / "runq_lower_first", said, *words)
        same(len(drawn) < 120_000, f"it has {len(drawn):,} letters")
        same("<script>document.title" not in drawn and "<img" not in drawn, "a judge's words are markup")
        same("\x00" not in drawn and "\x1b" not in drawn, "it has control characters")
    words = "".join(xml.fromstring(judge.said(CUSTOM / "runq_lower_first", said, "timeline", "--svg")).itertext())
    same("<script>document.title = 'taken'</script>" in words and "more lines" in words, "a judge's words aren't shown")


def check_refused(judge):
    """An answer that isn't a verdict on this record is refused by a line, and nothing is written."""
    for script, cause in BAD.items():
        ran = judge.view(CUSTOM / "runq_lower_first", script, "timeline", timeout=30)
        ended = (ran.returncode, ran.stdout, ran.stderr.decode())
        same(ended == (2, b"", f"view: E16 verdict: {cause}\n"), f"{script}: {ended}")


def check_never(_):
    """A judge that never ends is ended, with what it started."""
    usual, asked.SECONDS = asked.SECONDS, 1
    try:
        by_judge(["sh", "-c", "sleep 1000 & sleep 1000"], b"")
        raise Wrong("it answered")
    except asked.Refused as refused:
        same("had not ended after 1 seconds" in refused.line, refused.line)
    finally:
        asked.SECONDS = usual
    left = subprocess.run(["pgrep", "-f", "^sleep 1000$"], capture_output=True, check=False).stdout
    same(not left, f"processes are left: {left}")


def check_missing(judge):
    ran = subprocess.run([ROOT / "view/view", "timeline", "--judge", "./not_there", CUSTOM / "runq_right"], capture_output=True)
    same(b"E16 verdict: ./not_there can't be started" in ran.stderr and ran.returncode == 2, f"{ran.stderr!r}")


def check_orders(judge):
    """A judge's order and cycle are drawn, and its trace; without a judge they are the same."""
    for name, status in ("runq_right", 0), ("two_cycle", 1):
        record = CUSTOM / name
        alone = Model(read_record(record.read_bytes()), None)
        lines = "\n".join(f"cpu {cpu} entry {entry}" for cpu, entry in alone.order or alone.verdict.cycle)
        said = "sound\n" + ("" if alone.order else "cycle:\n") + f"{lines}\n"
        judged = judge.said(record, said, "timeline", "--svg")
        same("replies not judged" not in judged, "a judge's verdict isn't said to be judged")
        script = f"[ $1 = audit ] && echo sound && exit\ntail -n +2 {judge.file.with_name('said')}"
        same(judge.view(record, script, "timeline", "--svg").stdout.decode() == judged, "--judge and --said differ")
        ran = judge.view(record, script, "trace")
        is_so = ran.returncode == status and bool(ran.stdout) == (status == 0)
        same(is_so, f"the trace has status {ran.returncode}: {ran.stderr!r}")


def check_custom(_):
    """Each record of custom objects is drawn without a judge."""
    for file in sorted(CUSTOM.iterdir()):
        if file.name not in ("no_model_cut", "no_refuses_line"):
            check_model(Model(read_record(file.read_bytes()), None))


# What sh does to the standard streams, the words of view, its status, and its line, or None if it can't be seen.
STREAMS = [
    *((">/dev/full", [*it, RIGHT], 3, "E13 write failed") for it in (["timeline"], ["timeline", "--svg"], ["trace"])),
    ("<&-", ["timeline"], 3, "E12 read failed"),
    (">&-", ["timeline", RIGHT], 3, "E13 write failed"), (">&-", ["--help"], 3, "E13 write failed"),
    *((streams, *it, None) for streams in ("2>/dev/full", "2>&-") for it in
      ((["bogus"], 2), (["timeline", "/not/there"], 3), (["timeline", "/dev/null"], 2), (["timeline", RIGHT], 0))),
    ("<&- >&- 2>&-", ["timeline", RIGHT], 3, None), ("<&- 2>&-", ["timeline", RIGHT], 0, None),
]


# Whether a file that is opened later gets none of the three numbers.
PROBE = "import os; from view.streams import open_streams; open_streams(); print(os.open(os.devnull, os.O_RDONLY) > 2)"


def long_lines(count):
    """A record 3 of this many entries, each of some 5,500 bytes."""
    call = "a" * 16 + " 1234567890123456789" * 6
    asked, done = " ; ".join([call] * 8), " ; ".join([f"{call} = {call}"] * 8)
    log, entries = f"0 {done}\n" * count, f"q 0 {asked} | {done}\n" * count
    head = f"record 3\ncpus 1\nobjects 1\nobject q lock {count} kind\nrefuses\n"
    return f"{head}log q {count}\n{log}cpu 0 {count}\n{entries}end\n"


def check_streams(judge):
    """Standard streams that are full or closed."""
    # (the line about the time that a large record takes doesn't get into the copy that a judge reads)
    large = judge.file.with_name("large")
    large.write_text(long_lines(1_000))
    said = "unsound: log q event 1: unclaimed"
    judge.file.write_text(f"read -r line\n[ \"$line\" = 'record 3' ] || exit 9\ncat > /dev/null\necho {said}\n")
    words = [ROOT / "view/view", "timeline", "--svg", "--judge", f"sh '{judge.file}'", large]
    status = subprocess.run(["sh", "-c", 'exec "$@" <&- 2>&-', "sh", *words], stdout=subprocess.DEVNULL).returncode
    same(status == 0, f"a large record has status {status}")
    command = ["sh", "-c", 'exec "$@" <&- 2>&-', "sh", sys.executable, "-c", PROBE]
    said = subprocess.run(command, cwd=ROOT, stdout=subprocess.PIPE).stdout
    same(said == b"True\n", "a file gets the number of a closed stream")
    for streams, words, status, line in STREAMS:
        command = ["sh", "-c", f'exec "$@" {streams}', "sh", ROOT / "view/view", *words]
        ran = subprocess.run(command, capture_output=True, env=judge.environment)
        said = f"view: {line}\n".encode() if line else b""
        same((ran.returncode, ran.stderr) == (status, said), f"{words} {streams}: {ran.returncode}, {ran.stderr!r}")


CHECKS = {"a witness": check_witness, "markup": check_markup, "no verdict": check_refused,
          "a judge that never ends": check_never, "a judge that doesn't exist": check_missing,
          "a judge's order and cycle": check_orders, "records 3": check_custom, "closed and full streams": check_streams}


def check_judges(checks):
    with tempfile.TemporaryDirectory(prefix="views-") as folder:
        judge = Judge(folder, checks.program)
        for name, check in CHECKS.items():
            checks.tried(name, check, judge)
