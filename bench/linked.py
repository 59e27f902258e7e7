"""Measures `xtalk solve` on linked texts that this script makes.

    python3 bench/linked.py [PROGRAM]

PROGRAM is by default the launcher `xtalk` at the top of the checkout, whose own look at the sources is then part of
each wall time. The texts are made in a temporary folder, the same ones on each run:

  hundred   100 nets, arcs forward in order of number, 100 couplings (50 pairs, each from both sides)
  thousand  1,000 nets like those, 1,000 couplings
  tables    1,000 nets like those, with 20 tables of 64 slews by 64 loads
  chain     1,000 nets, each with one arc from the one before and a coupling to the next but one, so that the least
            windows are found from the end of the chain to its front, one overlap a round
  deep      200,000 nets, each with one arc from the one before, and no coupling
  large     100,000 nets like the thousand, 100,000 couplings

A line for each run has the name, bytes, nets, couplings, wall time in ms and peak memory in MB. The status must be 0
and the report whole, else the script says so and ends with status 1. Needs Linux and Python 3.10 or later.
"""
import random
import re
import subprocess
import sys
import tempfile
import time
from dataclasses import dataclass, field
from pathlib import Path

@dataclass
class Net:
    name: str
    load: int = 0
    given: list = field(default_factory=list)  # the lines `rise` and `fall`, of a source
    couplings: list = field(default_factory=list)  # the other net's number and the capacitance
    sinks: list = field(default_factory=list)  # name, base and resistance in mΩ
    arcs: list = field(default_factory=list)  # whole lines

    def head(self):
        kind = "w" if self.arcs else "i"
        return f"net {self.name} {kind} {self.load} {len(self.couplings)} {len(self.sinks)} {len(self.arcs)}"

    def body(self):
        yield from self.given
        for other, cap in self.couplings:
            yield f"couple {other} {cap}"
        for name, base, resistance in self.sinks:
            yield " ".join(["sink", name, str(base), *(str(resistance * cap) for _, cap in self.couplings)])
        yield from self.arcs


def linked(tables, nets):
    """The linked text of a design; a table is its slews, its loads, and its values row by row."""
    lines = ["xtalk-design 1", f"counts {len(tables)} {len(nets)} 0", "period none"]
    for slews, loads, rows in tables:
        lines.append(f"table {len(slews)} {len(loads)}")
        lines += [" ".join([word, *map(str, numbers)]) for word, numbers in (("slews", slews), ("loads", loads))]
        lines += [" ".join(["row", *map(str, row)]) for row in rows]
    lines += [net.head() for net in nets]
    for net in nets:
        lines += net.body()
    return "\n".join([*lines, "end", ""])


def couple(rng, nets, couplings):
    """Couples pairs of nets of near numbers, each from both sides."""
    pairs = set()
    while 2 * len(pairs) < couplings:
        one = rng.randrange(len(nets) - 1)
        pairs.add((one, min(one + rng.randint(1, len(nets) // 5), len(nets) - 1)))
    for one, other in sorted(pairs):
        cap = rng.randint(500, 5_000)
        nets[one].couplings.append((other, cap))
        nets[other].couplings.append((one, cap))


def arc_lines(rng, nets, number, tables):
    """The two arcs of an inverter before a net, from a sink of a net about a tenth of all nets before it."""
    tenth = len(nets) // 10
    source = rng.randrange(number - tenth, number - tenth // 2)
    sink = rng.randrange(len(nets[source].sinks))
    delay, slew = rng.randrange(tables // 2), rng.randrange(tables // 2, tables)
    return [f"arc {source} {sink} {edges} {delay} {slew}" for edges in ("rise fall", "fall rise")]


def constant(value):
    return [0], [0], [[value]]


def sloped(rng, lines):
    """A table of so many slews by so many loads, whose values rise with both."""
    steps = [rng.randint(0, 1_000) for _ in range(2 * lines)]
    slews, loads = [2_000 * line for line in range(lines)], [1_500 * line for line in range(lines)]
    rise = [sum(steps[:row]) for row in range(lines)], [sum(steps[lines : lines + column]) for column in range(lines)]
    return slews, loads, [[5_000 + by_slew + by_load for by_load in rise[1]] for by_slew in rise[0]]


def mixed(rng, count, couplings, tables):
    """Tables and nets: a tenth are sources, the others have one or two inverters before them."""
    nets = [Net(f"n{number}", load=rng.randint(1_000, 20_000)) for number in range(count)]
    for number, net in enumerate(nets):
        for pin in range(rng.randint(1, 3)):
            net.sinks.append((f"u{number}/A{pin}", rng.randint(0, 10**10), rng.randint(0, 5_000_000)))
        if number < count // 10:
            start = rng.randint(0, 20_000)
            window = f"{start} {start + rng.randint(0, 5_000)} 5000 {rng.randint(5_000, 15_000)}"
            net.given = [f"rise {window}", f"fall {window}"]
        else:
            for _ in range(rng.randint(1, 2)):
                net.arcs += arc_lines(rng, nets, number, len(tables))
    couple(rng, nets, couplings)
    return tables, nets


def chain(count, coupled):
    # A slew of one wire and two gates: a net overlaps the next but one only if the wire between may be at its fastest
    # (or has no coupling, as at the end), so each overlap waits for the one behind it.
    wire, gate = 10_000, 20_000
    slew = wire + 2 * gate
    nets = []
    for number in range(count):
        net = Net(f"n{number}", sinks=[(f"u{number}/A", 0, wire * 1_000)])
        if coupled and number + 2 < count:
            net.couplings.append((number + 2, 1_000))
        if number == 0:
            net.given = [f"rise 0 0 {slew} {slew}", "fall quiet"]
        else:
            net.arcs.append(f"arc {number - 1} 0 rise rise 0 1")
        nets.append(net)
    return [constant(gate), constant(slew)], nets


def measured(program, path):
    """Runs the program on a file: status, report, faults, seconds, and peak memory in bytes where it was seen.

    The report is made whole before its first byte goes out, and is longer than the pipe: when that byte is here the
    program still stands, and has had its peak. (The peak that `wait4` tells is never below this script's own.)
    """
    start = time.perf_counter()
    with tempfile.TemporaryFile() as faults, subprocess.Popen(
        [program, "solve", path], stdout=subprocess.PIPE, stderr=faults, bufsize=0, pipesize=4_096
    ) as run:
        report = run.stdout.read(1)
        peak = re.search(r"VmHWM:\s*(\d+) kB", Path(f"/proc/{run.pid}/status").read_text())
        report += run.stdout.read()
        status = run.wait()
        seconds = time.perf_counter() - start
        faults.seek(0)
        return status, report, faults.read(), seconds, int(peak[1]) * 1_024 if peak else 0


def main():
    here = Path(__file__).resolve().parent.parent
    program = Path(sys.argv[1] if len(sys.argv) > 1 else here / "xtalk").resolve()
    rng = random.Random(1)
    designs = {
        "hundred": mixed(rng, 100, 100, [constant(rng.randint(5_000, 40_000)) for _ in range(100)]),
        "thousand": mixed(rng, 1_000, 1_000, [constant(rng.randint(5_000, 40_000)) for _ in range(1_000)]),
        "tables": mixed(rng, 1_000, 1_000, [sloped(rng, 64) for _ in range(20)]),
        "chain": chain(1_000, True),
        "deep": chain(200_000, False),
        "large": mixed(rng, 100_000, 100_000, [constant(rng.randint(5_000, 40_000)) for _ in range(1_000)]),
    }
    print(f"{'name':9}{'bytes':>11}{'nets':>8}{'couplings':>10}{'ms':>9}{'MB':>7}")
    with tempfile.TemporaryDirectory() as folder:
        for name, (tables, nets) in designs.items():
            path = Path(folder, f"{name}.xt")
            path.write_text(linked(tables, nets), encoding="ascii", newline="\n")
            if name == "hundred":
                measured(program, path)  # the launcher may have to build the program first
            status, report, faults, seconds, peak = measured(program, path)
            couplings = sum(len(net.couplings) for net in nets)
            sizes = f"xtalk 1\nnets {len(nets)} couplings {couplings} ".encode()
            if status != 0 or not report.startswith(sizes) or not report.endswith(b"\nend\n"):
                sys.exit(f"{name}: status {status}, {len(report)} bytes of report: {faults.decode().strip()}")
            size = path.stat().st_size
            print(f"{name:9}{size:11}{len(nets):8}{couplings:10}{seconds * 1e3:9.1f}{peak / 1e6:7.1f}", flush=True)


if __name__ == "__main__":
    main()
