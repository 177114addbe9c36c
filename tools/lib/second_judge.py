"""Builds the second judge of tools/second_judge, for tools that compare it with the proved one."""
from common import ROOT, run

FOLDER = ROOT / "tools/second_judge"
# Has the functions of include/mc2_custom.h.
SECOND_JUDGE = FOLDER / "second_judge.c"


def compile_c(out, *sources):
    """The program made of these sources and libraries."""
    run(["gcc", "-std=c11", "-O2", "-D_DEFAULT_SOURCE", f"-I{ROOT / 'include'}", "-o", out, *sources, "-pthread"])
    return out


def second_judge(folder):
    """The program that audits and merges records 1 and 2."""
    return compile_c(folder / "second_judge", FOLDER / "main.c")
