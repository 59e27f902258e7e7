"""Measures `xtalk link` and `xtalk report` on blocks that this script makes.

    python3 bench/linking.py [PROGRAM [NAME ..]]

PROGRAM is by default the launcher `xtalk` at the top of the checkout. The files are made in a temporary folder, the
same ones on each run; of each kind there is one and one of twice its size:

  block      40,000, 80,000 and 160,000 cells of block.py, with two couplings a net
  chain      a net of 32,768 and 65,536 nodes, one behind another, with a capacitor at each
  star       a net of 32,768 and 65,536 nodes around its driver
  clock      a clock net with 50,000 and 100,000 flip-flops, nothing said of its wire
  instances  131,072 and 262,144 buffers, sixteen behind each input port

A line for each has the name, the bytes of its four files, the seconds of processor time that `link` took and that
`report` took, the peak memory of `report` in MB and its ratio to the files' bytes, where a report is long enough to
see it. `link` reads the four files, links them and prints the linked text; `report` solves besides. The status must be
0, else the script says so and ends with status 1. Needs Linux and Python 3.10 or later.
"""

import os
import random
import re
import subprocess
import sys
import tempfile
from pathlib import Path

import block

SPEF = '*SPEF "x" *C_UNIT 1 FF *R_UNIT 1 OHM\n'
CLOCK = "create_clock -period 1500 ck\nset_input_transition 20 [all_inputs]\n"
INPUTS = CLOCK + "set_input_delay 40 -clock ck [all_inputs]\n"


def drawn_block(cells):
    """The four files of a block."""
    rng = random.Random(1)
    drawn = block.Block(rng, cells, 12)
    return {"lib": block.library(), "v": "".join(drawn.verilog()),
            "spef": "".join(block.Extractor(rng, drawn, "mapped").text()), "sdc": block.constraints(drawn)}


def one_net(wire):
    """A block of one net of resistors and capacitors, from an input port to a gate."""
    netlist = "module m (ck, a, y); input ck, a; output y; BUF u (.A(a), .Y(y)); endmodule\n"
    return {"lib": block.library(), "v": netlist, "spef": SPEF + wire, "sdc": INPUTS}


def chain(nodes):
    names = ["a", *(f"a:{i}" for i in range(nodes - 2)), "u:A"]
    caps = "".join(f"{i} {name} 0.1\n" for i, name in enumerate(names))
    return one_net(f"*D_NET a 1\n*CAP\n{caps}*RES\n" + "".join(
        f"{i} {a} {b} 1\n" for i, (a, b) in enumerate(zip(names, names[1:]))) + "*END\n")


def star(nodes):
    names = [*(f"a:{i}" for i in range(nodes - 2)), "u:A"]
    caps = "".join(f"{i} {name} 0.1\n" for i, name in enumerate(names))
    return one_net(f"*D_NET a 1\n*CAP\n{caps}*RES\n" + "".join(
        f"{i} a {name} 1\n" for i, name in enumerate(names)) + "*END\n")


def clock(flops):
    cells = "".join(f"DFF r{i} (.CK(ck), .D(d), .Q(q{i}));\n" for i in range(flops))
    return {"lib": block.library(), "v": f"module m (ck, d); input ck, d;\n{cells}endmodule\n",
            "spef": SPEF, "sdc": INPUTS}


def instances(count):
    """Chains of sixteen buffers, the last of each without a net, and that before the last of all too."""
    cells = []
    for i in range(count):
        before = f"a[{i // 16}]" if i % 16 == 0 else f"n{i - 1 - (i == count - 1)}"
        after = "" if i % 16 == 15 or i == count - 2 else f"n{i}"
        cells.append(f"BUF u{i} (.A({before}), .Y({after}));\n")
    ports = f"input ck; input [{count // 16 - 1}:0] a;"
    return {"lib": block.library(), "v": f"module m (ck, a); {ports}\n{''.join(cells)}endmodule\n",
            "spef": SPEF, "sdc": INPUTS}


DESIGNS = {"block": (drawn_block, (40_000, 80_000, 160_000)), "chain": (chain, (32_768, 65_536)),
           "star": (star, (32_768, 65_536)), "clock": (clock, (50_000, 100_000)),
           "instances": (instances, (131_072, 262_144))}


def peak_of(pid):
    """The peak memory of a process in bytes."""
    peak = re.search(r"VmHWM:\s*(\d+) kB", Path(f"/proc/{pid}/status").read_text(encoding="ascii"))
    return int(peak[1]) * 1_024 if peak else 0


def measured(words):
    """Runs the program: processor seconds, and peak memory in bytes where it is seen.

    The text is made whole before its first byte goes out. Where it is longer than the pipe the program still stands
    when that byte is here, and has had its peak.
    """
    with tempfile.TemporaryFile() as faults:
        run = subprocess.Popen(words, stdout=subprocess.PIPE, stderr=faults, bufsize=0, pipesize=4_096)
        peak = peak_of(run.pid) if run.stdout.read(1) else 0
        while run.stdout.read(1 << 20):
            pass
        _, status, used = os.wait4(run.pid, 0)
        run.returncode = os.waitstatus_to_exitcode(status)
        if run.returncode != 0:
            faults.seek(0)
            sys.exit(f"{' '.join(words)}: status {run.returncode}: {faults.read().decode().strip()}")
        return used.ru_utime + used.ru_stime, peak


def main():
    here = Path(__file__).resolve().parent.parent
    program = str(Path(sys.argv[1] if len(sys.argv) > 1 else here / "xtalk").resolve())
    print(f"{'name':18}{'bytes':>11}{'link s':>8}{'report s':>9}{'MB':>7}{'ratio':>7}")
    for name in sys.argv[2:] or DESIGNS:
        make, sizes = DESIGNS[name]
        for size in sizes:
            with tempfile.TemporaryDirectory() as folder:
                files = []
                for kind, text in make(size).items():
                    files.append(f"{folder}/x.{kind}")
                    Path(files[-1]).write_text(text, encoding="ascii", newline="\n")
                length = sum(os.path.getsize(file) for file in files)
                linked, _ = measured([program, "link", *files])
                reported, peak = measured([program, "report", *files])
                memory = f"{peak / 1e6:7.1f}{peak / length:7.2f}" if peak else ""
                print(f"{name + ' ' + str(size):18}{length:11}{linked:8.2f}{reported:9.2f}{memory}", flush=True)


if __name__ == "__main__":
    main()
