"""The charts of docs/SPEED.md, drawn by gnuplot of the figures in docs/figures."""
from textwrap import wrap

from common import ROOT, run
from figures import read_figures

FIGURES = ROOT / "docs/figures"
# Each lock with its colour and the kind of its line.
LOCKS = {
    "mutex": ("#24292f", 1), "name-ticket": ("#0969da", 1), "name-mcs": ("#cf222e", 1), "steps-ticket": ("#0969da", 3),
    "steps-mcs": ("#cf222e", 3), "ck-ticket": ("#1a7f37", 1), "ck-mcs": ("#bf8700", 1),
}
JUDGES = {"proved: mc2, libjudge.a": "#0969da", "second judge": "#8c959f"}
STYLE = """set terminal svg size {} background "white" font "sans-serif,13"
set border 3 lc rgb "#57606a"; set tics nomirror out; set grid ytics lc rgb "#d0d7de" lw 0.7
"""


def drawn(size, lines):
    return run(["gnuplot"], input=STYLE.format(size) + "\n".join(lines), text=True).stdout


def block(name, rows):
    """Data of gnuplot under a name."""
    return [f"{name} << END", *rows, "END"]


def panel(log, title):
    """The nanoseconds of a call by threads, with a log of that kind: a line through the least, bars up to the middle."""
    known, lines, plots = read_figures(FIGURES / "cells_speed.csv"), [], []
    for at, (kind, (colour, dash)) in enumerate(LOCKS.items()):
        rows = []
        for count in 1, 2, 4, 8:
            case = f"{log} {count} thread{'s' * (count > 1)}"
            took = [known.get((case, kind, it), "NaN") for it in ("least ns", "middle ns")]
            rows.append(f"{count * 1.035 ** (at - 3)} {took[0]} {took[1]}")
        name = f"${log.partition(' ')[0]}_{at}"
        lines += block(name, rows)
        plots.append(f'{name} using 1:2:(0):($3-$2) with vectors nohead lc rgb "{colour}" lw 0.6 notitle')
        plots.append(f'{name} using 1:2 with linespoints lc rgb "{colour}" dt {dash} lw 1.8 pt 7 ps 0.5 title "{kind}"')
    return [*lines, f'set title "{title}"', f"plot {', '.join(plots)}"]


def calls_chart():
    head = [
        "set multiplot layout 1,2 margins 0.095,0.845,0.18,0.9 spacing 0.05", "set logscale xy",
        "set xrange [0.85:9.6]; set yrange [15:800]", "set xtics (1,2,4,8); set ytics (20,50,100,200,500)",
        'set xlabel "threads that call one queue"; set ylabel "nanoseconds a call"', "unset key",
    ]
    legend = ["unset ylabel; set key at screen 0.99,0.85 right samplen 2 spacing 1.2"]
    panels = [*panel("no log", "without a log"), *legend, *panel("kept log", "with a log kept in memory")]
    return drawn("900,400", [*head, *panels])


def verdicts():
    """(what is below the bars, milliseconds a megabyte of the proved judge, of the second one) of each record."""
    known = read_figures(FIGURES / "judges.csv")
    for case, kind, measure in known:
        size, _, record = case.removesuffix(" audit").partition(" MB ")
        if case.endswith(" audit") and kind != "second judge" and measure == "least ms" and float(size) >= 1:
            label = "\\n".join([*wrap(record, 16), f"{size} MB"])
            yield label, *(known[case, it, measure] / float(size) for it in (kind, "second judge"))


def verdicts_chart():
    rows = [f'"{what}" {one:.2f} {other:.2f}' for what, one, other in verdicts()]
    judges = enumerate(JUDGES.items(), start=2)
    plots = [f'$verdicts using {at}:xtic(1) lc rgb "{colour}" title "{name}"' for at, (name, colour) in judges]
    head = ["set style data histogram; set style histogram clustered gap 1; set style fill solid", "set yrange [0:*]",
            'set ylabel "milliseconds of a processor a megabyte"', "set key top left; set xtics font ',11'; set bmargin 5"]
    return drawn("760,360", [*block("$verdicts", rows), *head, f"plot {', '.join(plots)}"])
