"""Measures `xtalk solve --kind noise` on linked texts that this script makes.

    python3 bench/noise.py [PROGRAM] [--nets N]

PROGRAM is by default crates/xtalk_cli/out/xtalk_cli. The texts are made in a temporary folder, the same on each run:

  one    one net with 1,048,576 couplings to 200,000 sources whose windows lie anywhere: the most that one net may have
  many   N nets with 16 couplings each, 65,536 unless given, the most that a design may have of such nets: a tenth are
         sources, the others have one or two inverters before them
  clock  the same nets with a period, which many windows go round

For `one` a line tells the seconds of a run, the least of three, with the peaks and, by `--kind checks`, without; the
status is 1 where the first is 2 or more. For the others a line tells the instructions of `solve` by `--kind checks` (of
a design without checks, so nothing is printed of its windows), by `--kind noise` and of the whole report, by callgrind,
and what part of the last the peaks add to the first; the status is 1 where it is more than a tenth. Callgrind is some
fifty times slower than the program: `--nets 4096` takes a few minutes.
"""
import random
import re
import subprocess
import sys
import tempfile
import time
from pathlib import Path

from linked import Net, arc_lines, constant, linked

COUPLINGS = 16
MOST = 1_048_576


def many(rng, count):
    """Nets like those of bench/linked.py, each coupled with 16 of near numbers."""
    tables = [constant(rng.randint(5_000, 40_000)) for _ in range(1_000)]
    nets = [Net(f"n{number}", load=rng.randint(1_000, 20_000)) for number in range(count)]
    for number, net in enumerate(nets):
        net.couplings = [((number + step) % count, rng.randint(500, 5_000)) for step in near(rng)]
        net.sinks = [(f"u{number}/A", rng.randint(0, 10**10), rng.randint(0, 5_000_000))]
        if number < count // 10:
            start = rng.randint(0, 200_000)
            window = f"{start} {start + rng.randint(0, 50_000)} 5000 {rng.randint(5_000, 15_000)}"
            net.given = [f"rise {window}", f"fall {window}"]
        else:
            for _ in range(rng.randint(1, 2)):
                net.arcs += arc_lines(rng, nets, number, len(tables))
    return tables, nets


def near(rng):
    """Steps to 16 other nets, the half of them to lower numbers."""
    steps = rng.sample(range(1, 60), COUPLINGS // 2)
    return [*steps, *(-step for step in steps)]


def one(rng, count):
    """A quiet net and sources that it is coupled to, each of them often."""
    sources = min(count, 200_000)
    victim = Net("v", load=1_000, given=["rise quiet", "fall quiet"])
    victim.couplings = [(1 + number % sources, rng.randint(0, 1_000)) for number in range(count)]
    nets = [victim]
    for number in range(sources):
        start = rng.randint(-(10**9), 10**9)
        window = f"{start} {start + rng.randint(0, 10**6)} 5000 {rng.randint(5_000, 15_000)}"
        nets.append(Net(f"s{number}", given=[f"rise {window}", f"fall {window}"]))
    return [], nets


def instructions(program, path, kind, folder):
    """How many instructions a run takes, by callgrind."""
    callgrind = ["valgrind", "--tool=callgrind", f"--callgrind-out-file={folder}/out"]
    run = subprocess.run([*callgrind, program, "solve", path, f"--kind={kind}"], capture_output=True)
    if run.returncode != 0 or not run.stdout.endswith(b"\nend\n"):
        sys.exit(f"{kind}: status {run.returncode}: {run.stderr.decode()[-300:]}")
    return int(re.search(rb"Collected : (\d+)", run.stderr)[1]), run.stdout.count(b"\nnoise ")


def seconds(program, path, kind):
    """The seconds of a run, the least of three."""
    best = None
    for _ in range(3):
        start = time.perf_counter()
        run = subprocess.run([program, "solve", path, f"--kind={kind}"], capture_output=True)
        took = time.perf_counter() - start
        if run.returncode != 0 or not run.stdout.endswith(b"\nend\n"):
            sys.exit(f"{kind}: status {run.returncode}: {run.stderr.decode()[-300:]}")
        best = took if best is None else min(best, took)
    return best, run.stdout.count(b"\nnoise ")


def write(path, tables, nets, period):
    text = linked(tables, nets).replace("period none", f"period {period}", 1)
    path.write_text(text, encoding="ascii", newline="\n")


def main():
    words = sys.argv[1:]
    count = MOST // COUPLINGS
    if "--nets" in words:
        at = words.index("--nets")
        count = int(words[at + 1])
        del words[at : at + 2]
    here = Path(__file__).resolve().parent.parent
    program = Path(words[0] if words else here / "crates/xtalk_cli/out/xtalk_cli").resolve()
    failed = False
    with tempfile.TemporaryDirectory() as folder:
        path = Path(folder, "design.xt")
        write(path, *one(random.Random(2), MOST), "none")
        took, peaks = seconds(program, path, "noise")
        without, _ = seconds(program, path, "checks")
        print(f"one: {MOST} couplings, {peaks} peaks: {took:.2f} s with noise, {without:.2f} s without", flush=True)
        failed |= took >= 2
        for name, period in (("many", "none"), ("clock", "60000")):
            write(path, *many(random.Random(1), count), period)
            runs = {kind: instructions(program, path, kind, folder) for kind in ("checks", "noise", "all")}
            added = (runs["noise"][0] - runs["checks"][0]) / runs["all"][0]
            sizes = ", ".join(f"{kind} {number / 1e6:.0f} million" for kind, (number, _) in runs.items())
            print(f"{name}: {count} nets, {runs['noise'][1]} peaks: {sizes}: noise adds {added:.1%}", flush=True)
            failed |= added > 0.1
    sys.exit(failed)


if __name__ == "__main__":
    main()
