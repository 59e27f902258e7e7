#!/usr/bin/env python3
"""Tests tools/compare_reports.py on pairs of reports that differ in a few lines, with answers written by hand.

    python3 bench/two_reports.py

Each row below has what a report has before and after, further words, the lines that are wanted and the status. A report is
examples/block.report with some lines changed, `-LINE` out of it and `+LINE` at its end, or lines of its own. It prints how
many rows hold, and each that does not.
"""
import subprocess
import sys
import tempfile
from pathlib import Path

TOP = Path(__file__).resolve().parent.parent
HEAD = ["setup: worst slack 849.400 -> 849.400, checks below 0: 0 -> 0",
        "hold: worst slack 58.200 -> 58.200, checks below 0: 0 -> 0"]
CALM = ["nothing got worse"]
LATE = "check f1/D fall setup 849.400 851.500"
EARLY = "check f2/D fall hold 58.200 60.250"
WINDOW = "net bus[0] rise least 92.000 118.000 20.000 20.000 greatest 90.000 120.000 20.000 20.000"
COUPLING = "guilty n1 rise bus[0] 1.000 fast possible slow possible"
NOISE = ["nets 6 couplings 2 pairs 1 levels 3 bound 15", "period none"]
CASES = [
    ("the same", [], [], [], HEAD + CALM, 0),
    ("less slack", [], [f"-{LATE}", "+check f1/D fall setup 848.000 851.500"], [],
     ["setup: worst slack 849.400 -> 848.000, checks below 0: 0 -> 0", HEAD[1], "checks worse: 1",
      "  -1.400  f1/D fall setup: 849.400 -> 848.000", "worse: checks worse: 1"], 1),
    ("the least windows alone", [], [f"-{LATE}", "+check f1/D fall setup 849.400 850.000"], [], HEAD + CALM, 0),
    ("more slack, past 0", [f"-{EARLY}", "+check f2/D fall hold -0.100 0.000"], [f"-{EARLY}", "+check f2/D fall hold 0.000 0.000"],
     [], [HEAD[0], "hold: worst slack -0.100 -> 0.000, checks below 0: 1 -> 0", "checks better: 1",
          "  +0.100  f2/D fall hold: -0.100 -> 0.000", *CALM], 0),
    ("idle", [], [f"-{EARLY}", "+check f2/D fall hold idle"], [],
     HEAD + ["checks idle now: 1", "  f2/D fall hold: 58.200 -> idle", "worse: checks idle now: 1"], 1),
    ("idle no longer", [f"-{EARLY}", "+check f2/D fall hold idle"], [], [],
     HEAD + ["checks no longer idle: 1", "  f2/D fall hold: idle -> 58.200", *CALM], 0),
    ("gone and new", ["+check a rise hold 1.000 1.000", "+check a fall hold 1.500 1.500"],
     ["+check b rise hold -1.000 0.000", "+check b fall hold 1.000 2.000"], ["--top", "1"],
     [HEAD[0], "hold: worst slack 1.000 -> -1.000, checks below 0: 0 -> 1", "checks gone: 2", "  a rise hold: 1.000", "  .. 1 more",
      "checks new, below 0: 1", "  b rise hold: -1.000", "checks new: 1", "  b fall hold: 1.000",
      "worse: checks gone: 2; checks new, below 0: 1"], 1),
    ("several of a name", ["+check a rise hold 70.000 70.000", "+check a rise hold 80.000 80.000"],
     ["+check a rise hold 70.000 70.000", "+check a rise hold 79.999 80.000"], [],
     HEAD + ["checks worse: 1", "  -0.001  a rise hold (2): 80.000 -> 79.999", "worse: checks worse: 1"], 1),
    ("windows", [], [f"-{WINDOW}", "+net bus[0] rise least 92.000 118.000 20.000 20.000 greatest 88.500 118.000 20.000 21.000",
                     "-net y rise least 54.000 54.000 20.000 20.000 greatest 54.000 54.000 20.000 20.000", "+net y rise quiet"], [],
     HEAD + ["greatest windows moved: 1", "  bus[0] rise: earliest 90.000 -> 88.500 (-1.500), latest 120.000 -> 118.000 (-2.000), "
             "greatest slew 20.000 -> 21.000 (+1.000)", "edges that are quiet now: 1", "  y rise", *CALM], 0),
    ("couplings", ["+guilty y rise d 2.000 fast no slow sure"],
     [f"-{COUPLING}", "+guilty n1 rise bus[0] 1.000 fast no slow sure", "+guilty y fall d 0.500 fast possible slow no",
      "+guilty y fall q1 0.700 fast possible slow no"], [],
     HEAD + ["couplings that can matter now: 2", "  y fall q1 0.700: fast possible, slow no", "  y fall d 0.500: fast possible, slow no",
             "couplings that mattered before: 1", "  y rise d 2.000: fast no, slow sure",
             "couplings whose capacitance or marks changed: 1", "  n1 rise bus[0]: fast possible -> no, slow possible -> sure",
             *CALM], 0),
    ("inputs", ["+unconstrained a"], ["+unconstrained b"], [],
     HEAD + ["inputs without a window, new: 1", "  b", "inputs that have a window now: 1", "  a",
             "worse: inputs without a window, new: 1"], 1),
    ("the head", [], ["-nets 6 couplings 2 pairs 1 levels 3 bound 15", "+nets 6 couplings 3 pairs 2 levels 3 bound 27",
                      "-period 1000.000", "+period 900.000", "+miller 4 4 4"], [],
     ["couplings 2 -> 3", "pairs 1 -> 2", "period 1000.000 -> 900.000", "miller 0 4 8 -> 4 4 4", *HEAD, *CALM], 0),
    ("noise", [*NOISE, "noise a rise ppm 1000 at 1.000", "noise a fall ppm 500 at -1.000", "noise b rise ppm 7 at 0.000"],
     [*NOISE, "noise a rise ppm 999 at 2.000", "noise a fall ppm 501 at -1.000", "noise c rise ppm 8 at 3.000"], [],
     ["noise higher: 1", "  +1  a fall: ppm 500 at -1.000 -> 501 at -1.000", "noise lower: 1",
      "  -1  a rise: ppm 1000 at 1.000 -> 999 at 2.000", "noise new: 1", "  c rise: ppm 8 at 3.000", "noise gone: 1",
      "  b rise: ppm 7 at 0.000", "worse: noise higher: 1; noise new: 1"], 1),
    ("another kind", [*NOISE, "noise a rise ppm 1000 at 1.000"], [], [],
     ["compare_reports.py: one report is by --kind noise and the other is not"], 2),
    ("no report", ["nets"], [], [], None, 2),
]


def text_of(changes):
    """A whole report: the example with lines taken out and put in, or other lines."""
    lines = (TOP / "examples/block.report").read_text().splitlines()[1:-1]
    if changes and changes[0][0] not in "+-":
        lines = changes
    else:
        for change in changes:
            if change[0] == "-":
                lines.remove(change[1:])
            else:
                lines.append(change[1:])
    return "\n".join(["xtalk 1", *lines, "end", ""])


def main():
    held = 0
    with tempfile.TemporaryDirectory() as folder:
        for name, before, after, words, wanted, status in CASES:
            paths = [Path(folder) / part for part in ("before", "after")]
            for path, changes in zip(paths, (before, after)):
                path.write_text(text_of(changes))
            run = subprocess.run([sys.executable, TOP / "tools/compare_reports.py", *words, *paths], capture_output=True, text=True)
            said = (run.stdout or run.stderr).splitlines()
            if run.returncode == status and (wanted is None or said == wanted):
                held += 1
            else:
                print(f"{name}: status {run.returncode} in place of {status}", *said, sep="\n  ")
    print(f"{held} of {len(CASES)} rows hold")
    sys.exit(held < len(CASES))


if __name__ == "__main__":
    main()
