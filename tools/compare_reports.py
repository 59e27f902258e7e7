#!/usr/bin/env python3
"""Tells what differs between two xtalk reports of one block, before a change and after it.

    python3 tools/compare_reports.py [--top N] BEFORE AFTER

prints, each biggest first and at most N of each (10 unless said otherwise): checks that got worse and better, by their
slack in the greatest windows; checks that came, went, or became idle; greatest windows that moved, and edges that are
quiet in one report alone; couplings that can matter now or did before (`guilty`), and those whose marks changed; noise
lines that are higher, lower, new or gone; inputs without a window. Numbers are in ps and fF, as in the reports.

The status is 0 where nothing got worse and 1 where something did: a check has less slack, is gone or is idle now; a new
check is below 0; a noise line is higher or new; an input has no window that had one. Windows and couplings are shown
and not judged: a slower cell moves windows too, and what it costs is in the slacks. The status is 2 where one of the
files is not a report.
"""
import argparse
import sys

import reports
from reports import KINDS, is_live, shown


def signed(number):
    return ("+" if number > 0 else "") + shown(number)


def by_key(rows, length):
    """Rows by their first words; of several rows with the same words those after the first are numbered."""
    found, counts = {}, {}
    for row in rows:
        key = row[:length]
        counts[key] = counts.get(key, 0) + 1
        found[(*key, counts[key])] = row[length:]
    return found


def words_of(key):
    return " ".join(key[:-1]) + (f" ({key[-1]})" if key[-1] > 1 else "")


class Comparison:
    """Prints section by section, and knows whether something got worse."""

    def __init__(self, top, write):
        self.top, self.write, self.worse = top, write, []

    def section(self, title, rows, is_worse=False):
        """A title with the number of rows, and the first rows by size; each row is a size and a text."""
        if not rows:
            return
        if is_worse:
            self.worse.append(f"{title}: {len(rows):,}")
        self.write(f"{title}: {len(rows):,}")
        for _, text in sorted(rows, key=lambda row: -row[0])[:self.top]:
            self.write(f"  {text}")
        if len(rows) > self.top:
            self.write(f"  .. {len(rows) - self.top:,} more")


def compare_heads(a, b, write):
    for what in ("nets", "couplings", "pairs", "levels"):
        if getattr(a, what) != getattr(b, what):
            write(f"{what} {getattr(a, what):,} -> {getattr(b, what):,}")
    if a.period != b.period:
        periods = ["none" if report.period is None else shown(report.period) for report in (a, b)]
        write("period {} -> {}".format(*periods))
    if a.miller != b.miller:
        write("miller {} -> {}".format(*(" ".join(map(str, miller)) for miller in (a.miller, b.miller))))
    for kind in KINDS:
        slacks = [[check[3] for check in report.checks if check[2] == kind and check[3] is not None]
                  for report in (a, b)]
        if any(slacks):
            worst = [shown(min(own)) if own else "none" for own in slacks]
            below = [sum(slack < 0 for slack in own) for own in slacks]
            write(f"{kind}: worst slack {worst[0]} -> {worst[1]}, checks below 0: {below[0]:,} -> {below[1]:,}")


def compare_checks(a, b, to):
    before, after = by_key(a.checks, 3), by_key(b.checks, 3)
    both = [(key, before[key][0], after[key][0]) for key in before if key in after]
    moved = [(key, x, y) for key, x, y in both if None not in (x, y) and x != y]
    row = lambda key, x, y: (abs(y - x), f"{signed(y - x)}  {words_of(key)}: {shown(x)} -> {shown(y)}")
    to.section("checks worse", [row(key, x, y) for key, x, y in moved if y < x], is_worse=True)
    to.section("checks better", [row(key, x, y) for key, x, y in moved if y > x])
    to.section("checks idle now", [(-x, f"{words_of(key)}: {shown(x)} -> idle") for key, x, y in both
                                   if x is not None and y is None], is_worse=True)
    to.section("checks no longer idle, below 0", [(-y, f"{words_of(key)}: idle -> {shown(y)}") for key, x, y in both
                                                  if x is None and y is not None and y < 0], is_worse=True)
    to.section("checks no longer idle", [(-y, f"{words_of(key)}: idle -> {shown(y)}") for key, x, y in both
                                         if x is None and y is not None and y >= 0])
    text = lambda slack: "idle" if slack is None else shown(slack)
    size = lambda slack: -10 ** 18 if slack is None else -slack
    gone = [(size(before[key][0]), f"{words_of(key)}: {text(before[key][0])}") for key in before if key not in after]
    came = [(after[key][0], words_of(key)) for key in after if key not in before]
    to.section("checks gone", gone, is_worse=True)
    to.section("checks new, below 0", [(-slack, f"{words}: {shown(slack)}") for slack, words in came
                                       if slack is not None and slack < 0], is_worse=True)
    to.section("checks new", [(size(slack), f"{words}: {text(slack)}") for slack, words in came
                              if slack is None or slack >= 0])


def compare_windows(a, b, to):
    before, after = ({key: quads[1] for key, quads in report.windows.items() if quads and is_live(quads[1])}
                     for report in (a, b))
    rows = []
    for key, quad in before.items():
        moves = [(name, x, y) for name, x, y in zip(("earliest", "latest", "least slew", "greatest slew"),
                                                    quad, after.get(key, quad)) if x != y]
        if moves:
            told = ", ".join(f"{name} {shown(x)} -> {shown(y)} ({signed(y - x)})" for name, x, y in moves)
            rows.append((max(abs(y - x) for _, x, y in moves), f"{' '.join(key)}: {told}"))
    to.section("greatest windows moved", rows)
    old, new = (dict.fromkeys(name for name, _ in report.windows) for report in (a, b))
    to.section("edges that can switch now", [(0, " ".join(key)) for key in after if key not in before and key[0] in old])
    to.section("edges that are quiet now", [(0, " ".join(key)) for key in before if key not in after and key[0] in new])
    to.section("nets new", [(0, name) for name in new if name not in old])
    to.section("nets gone", [(0, name) for name in old if name not in new])


def compare_couplings(a, b, to):
    before, after = by_key(a.guilty, 3), by_key(b.guilty, 3)
    text = lambda key, cap, fast, slow: f"{words_of(key)} {shown(cap)}: fast {fast}, slow {slow}"
    to.section("couplings that can matter now", [(after[key][0], text(key, *after[key])) for key in after
                                                 if key not in before])
    to.section("couplings that mattered before", [(before[key][0], text(key, *before[key])) for key in before
                                                  if key not in after])
    rows = []
    for key in before:
        if key in after and before[key] != after[key]:
            cap, *marks = zip(before[key], after[key])
            told = [f"{shown(cap[0])} -> {shown(cap[1])}"] * (cap[0] != cap[1])
            told += [f"{word} {x} -> {y}" for word, (x, y) in zip(("fast", "slow"), marks) if x != y]
            rows.append((max(cap), f"{words_of(key)}: {', '.join(told)}"))
    to.section("couplings whose capacitance or marks changed", rows)


def compare_noise(a, b, to):
    before, after = by_key(a.noise, 2), by_key(b.noise, 2)
    both = [(key, *before[key], *after[key]) for key in before if key in after]
    row = lambda key, p, t, q, u: (
        abs(q - p), f"{q - p:+}  {words_of(key)}: ppm {p} at {shown(t)} -> {q} at {shown(u)}")
    text = lambda key, ppm, moment: (ppm, f"{words_of(key)}: ppm {ppm} at {shown(moment)}")
    to.section("noise higher", [row(*it) for it in both if it[3] > it[1]], is_worse=True)
    to.section("noise lower", [row(*it) for it in both if it[3] < it[1]])
    to.section("noise new", [text(key, *after[key]) for key in after if key not in before], is_worse=True)
    to.section("noise gone", [text(key, *before[key]) for key in before if key not in after])


def compare(a, b, top, write):
    """Prints what differs; whether something got worse."""
    to = Comparison(top, write)
    for x, y in ((a, b), (b, a)):
        if x.noise and (y.windows or y.checks):
            raise reports.NoReport("one report is by --kind noise and the other is not")
    compare_heads(a, b, write)
    without = [set(report.unconstrained) for report in (a, b)]
    to.section("inputs without a window, new", [(0, name) for name in b.unconstrained if name not in without[0]],
               is_worse=True)
    to.section("inputs that have a window now", [(0, name) for name in a.unconstrained if name not in without[1]])
    compare_checks(a, b, to)
    compare_noise(a, b, to)
    if a.windows and b.windows:
        compare_windows(a, b, to)
        compare_couplings(a, b, to)
    elif a.windows or b.windows:
        write("windows and couplings are not compared: one report has none")
    write("worse: " + "; ".join(to.worse) if to.worse else "nothing got worse")
    return bool(to.worse)


def main():
    parser = argparse.ArgumentParser(description=__doc__, formatter_class=argparse.RawDescriptionHelpFormatter,
                                     usage="compare_reports.py [--top N] BEFORE AFTER")
    parser.add_argument("before")
    parser.add_argument("after")
    parser.add_argument("--top", type=int, default=10)
    args = parser.parse_args()
    try:
        lines = []
        is_worse = compare(reports.read(args.before), reports.read(args.after), max(args.top, 0), lines.append)
    except reports.NoReport as fault:
        sys.stderr.write(f"compare_reports.py: {fault}\n")
        sys.exit(2)
    try:
        print("\n".join(lines), flush=True)
    except BrokenPipeError:
        sys.stderr.close()
    sys.exit(is_worse)


if __name__ == "__main__":
    main()
