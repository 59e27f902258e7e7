#!/usr/bin/env python3
"""Tells what a whole run of the gate costs, crate by crate, and which parts of a proof take long.

    python3 tools/costs.py table PROOFS TESTS EDITS

prints a table, in processor minutes, from three logs of timed commands: `rt check` in each crate, from nothing;
`rt check --test` in each crate with tests, from nothing; `rt must-fail NAME`. A line of a log that counts has the name of a
crate and after it `TIMES` with the seconds of the clock, of the user and of the system, as bash prints them where
TIMEFORMAT is 'TIMES %R %U %S'. Of several lines of a crate the dearest counts: a check that begins with what an earlier
one kept is cheap. A minus means that nothing was measured.

    python3 tools/costs.py watch PROCESS

watches the checks that the process and those below it make, until it ends or this command is told to (SIGTERM), and then
prints what they took, in processor minutes by crate, dearest first. `.ci/run` runs it beside the gate, so that growth is
seen when it comes; what the gate keeps from an earlier run costs nothing and has no line. The last second of each check is
not seen.

    python3 tools/costs.py parts [SECONDS [CRATE ..]]

prints the parts of checks that took longer, 10 seconds if nothing is said: `rt check --jobs 1` keeps each part of its
work in the crate's folder out/ when the part is done, and the times of these files tell how long each took. A part is
named after the function and what was made of it: `Proof`, with its goals; `Lts`, its steps, which grow with the ways
out of it and with what each of them drops.
"""
import os
import re
import signal
import sys
import time
from collections import Counter, defaultdict
from pathlib import Path

TOP = Path(__file__).resolve().parent.parent
TIMES = re.compile(r"TIMES\s+([\d.]+)\s+([\d.]+)\s+([\d.]+)")


def crates():
    """The names of the crates, in the order of crates.txt."""
    text = (TOP / "crates.txt").read_text(encoding="utf-8")
    heads = [line.partition("#")[0].partition(":") for line in text.splitlines()]
    return [head.split()[0] for head, colon, _ in heads if colon]


def lines_of(name):
    """How many lines of code, definitions and proofs a crate has."""
    folder = TOP / "crates" / name
    files = [file for part in ("src", "specs", "proofs") for file in (folder / part).rglob("*")]
    return sum(len(file.read_bytes().splitlines()) for file in files if file.suffix in (".rt", ".antt"))


def minutes(path, names):
    """The processor minutes of each crate that the log has."""
    found = {}
    for line in Path(path).read_text(encoding="utf-8", errors="replace").splitlines():
        times = TIMES.search(line)
        name = next((word for word in line.split() if word in names), None)
        if times and name:
            found[name] = max(found.get(name, 0), (float(times[2]) + float(times[3])) / 60)
    return found


def table(logs):
    names = crates()
    columns = [minutes(log, set(names)) for log in logs]
    shown = lambda value: "-" if value is None else f"{value:.1f}"
    print("| Crate | Lines | Proof | Tests | Edits | All | For 1,000 lines |")
    print("|---|---:|---:|---:|---:|---:|---:|")
    sums, all_lines = [0.0] * len(columns), 0
    rows = []
    for name in names:
        parts, lines = [column.get(name) for column in columns], lines_of(name)
        whole = sum(part or 0 for part in parts)
        rows.append((whole, name, lines, parts))
        sums, all_lines = [a + (b or 0) for a, b in zip(sums, parts)], all_lines + lines
    for whole, name, lines, parts in sorted(rows, reverse=True):
        cells = " | ".join(shown(part) for part in parts)
        print(f"| `{name}` | {lines:,} | {cells} | {whole:.1f} | {1000 * whole / max(lines, 1):.1f} |")
    whole, cells = sum(sums), " | ".join(shown(part) for part in sums)
    print(f"| all | {all_lines:,} | {cells} | {whole:.1f} | {1000 * whole / max(all_lines, 1):.1f} |")


def processes():
    """Of each process its number, its parent, the processor ticks that it took, and its words."""
    found = {}
    for number in filter(str.isdigit, os.listdir("/proc")):
        try:
            fields = Path(f"/proc/{number}/stat").read_text().rpartition(")")[2].split()
            words = Path(f"/proc/{number}/cmdline").read_text(errors="replace").split("\0")
            found[int(number)] = (int(fields[1]), int(fields[11]) + int(fields[12]), words)
        except (OSError, ValueError, IndexError):
            continue
    return found


def crate_and_kind(number, words):
    """The crate that a process checks, and what of it, or None where it is no check."""
    if Path(words[0]).name != "rattle" or "--crate-name" not in words:
        return None
    name = words[words.index("--crate-name") + 1]
    try:
        is_edit = os.readlink(f"/proc/{number}/cwd").startswith("/tmp/rt-edit")
    except OSError:
        return None
    return name, "edits" if is_edit else "tests" if "--test" in words or name.endswith("_tests") else "proof"


def checks_below(top, found):
    """The processes below `top` that check something, or work for one that does: their number, crate, kind and ticks."""
    for number, (_, ticks, _) in found.items():
        check, at = None, number
        while at in found and at != top:
            check = check or crate_and_kind(at, found[at][2])
            at = found[at][0]
        if check and at == top:
            yield number, *check, ticks


def watch(top):
    ended = []
    signal.signal(signal.SIGTERM, lambda *_: ended.append(True))
    taken = {}
    while not ended and Path(f"/proc/{top}").exists():
        for number, name, kind, ticks in checks_below(top, processes()):
            taken[number, name, kind] = max(taken.get((number, name, kind), 0), ticks)
        time.sleep(1)
    costs = defaultdict(Counter)
    for (_, name, kind), ticks in taken.items():
        costs[name][kind] += ticks / os.sysconf("SC_CLK_TCK") / 60
    print("processor minutes of this run by crate: all, proof, tests, edits")
    sums = sum(costs.values(), Counter())
    for name, cost in [*sorted(costs.items(), key=lambda it: -sum(it[1].values())), ("all", sums)]:
        cells = " ".join(f"{cost[kind]:7.1f}" for kind in ("proof", "tests", "edits"))
        print(f"{name:20} {sum(cost.values()):7.1f} {cells}")


def parts(least, names):
    rows = []
    for name in names:
        kept = (TOP / "crates" / name / "out" / "incremental").rglob(f"Rattle-{name}-*.oantt")
        ended = sorted((file.stat().st_mtime, file.stem) for file in kept if file.parent.name != "records")
        for (before, _), (end, part) in zip(ended, ended[1:]):
            if end - before >= least:
                rows.append((end - before, name, part.partition("-")[2].partition("-")[2]))
    for seconds, name, part in sorted(rows, reverse=True):
        print(f"{seconds:6.1f} s  {name}  {part}")


def main(words):
    if words[:1] == ["table"] and len(words) == 4:
        table(words[1:])
    elif words[:1] == ["watch"] and len(words) == 2:
        watch(int(words[1]))
    elif words[:1] == ["parts"]:
        parts(float(words[1]) if words[1:] else 10.0, words[2:] or crates())
    else:
        sys.exit(__doc__)


main(sys.argv[1:])
