"""Records of rows of mc2 that have a name, made records 3: custom.c has to say what mc2 says, but for limits."""
import os
import re

from common import Stop, run
from rows import rows_of
from texts.calls import REFUSING

# A record 3 has no such limits, or others.
OTHER_LIMITS = {
    "a_record_1_has_no_overquota",
    "a_record_1_has_no_overquota_in_an_entry",
    "a_record_1_has_no_quotas",
    "a_record_1_of_nine_cpus",
    "a_record_2_of_fifteen_quotas",
    "a_record_2_of_seventeen_quotas",
    "a_record_2_with_a_quota_of_4097",
    "a_record_2_without_quotas",
    "audit_refuses_10001_entries",
    "audit_refuses_65537_events",
    "audit_refuses_65_cpus",
}


def made_third(text):
    """The record with another first line and a line of the words that refuse. Quotas are those of record 1, if it is one."""
    if text.startswith("record 1"):
        text = re.sub(r"^(object \S+ \S+ \S+ pool (\d+))$", lambda it: it[1] + f" {it[2]}" * 16, text, flags=re.MULTILINE)
    lines = text.split("\n")
    lines[0] = "record 3"
    heads = [at for at, line in enumerate(lines) if line.startswith("object ")]
    if heads:
        lines.insert(heads[-1] + 1, f"refuses {' '.join(REFUSING)}")
    return "\n".join(lines)


def record_of(row):
    """The command and the text of a row that audits or merges a record."""
    command, text = "".join(row.words[:1]), row.text().decode(errors="replace")
    is_one = command in ("audit", "merge") and text.startswith(("record 1\n", "record 2\n")) and "\ufffd" not in text
    return command, text if is_one else None


def answer_of_mc2(row):
    return (row.stdout + row.stderr).decode(errors="replace")


def line_in(answer):
    found = re.search(r"\bline (\d+)", answer)
    return int(found[1]) if found else None


def agree(row, command, text, ran):
    """Whether the verdicts are the same. After the objects each line is one further down."""
    answer, wanted = ran.stdout.decode() + ran.stderr.decode(), answer_of_mc2(row)
    if line_in(wanted) is not None and "E9" in wanted:
        objects = [at for at, line in enumerate(text.split("\n"), 1) if line.startswith("object ")]
        return line_in(answer) == line_in(wanted) + (bool(objects) and line_in(wanted) > objects[-1])
    if "E11" in wanted:
        return answer.startswith("cycle:\n")
    if command == "merge" and "unsound" not in wanted:
        return answer.count("\n") == wanted.count("\n") and ran.returncode == 0
    return answer.split("\n")[0] == wanted.replace("mc2: E10 ", "").split("\n")[0]


def like_mc2(custom):
    """Judges these records, and says how many are judged alike."""
    alike = 0
    for row in rows_of("mc2"):
        command, text = record_of(row)
        if text is None or row.name in {"", *OTHER_LIMITS}:
            continue
        ran = run([custom, command], wanted=None, input=os.fsencode(made_third(text)), timeout=60)
        if not agree(row, command, text, ran):
            raise Stop(f"{row.place}: {(ran.stdout + ran.stderr).decode()[:200]!r}")
        alike += 1
    return f"{alike} records, and {len(OTHER_LIMITS)} left out for limits"
