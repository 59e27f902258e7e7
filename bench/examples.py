#!/usr/bin/env python3
"""Holds the reports of examples/ against the plain programs, and against the program.

    python3 bench/examples.py [PROGRAM]

Each linked text goes through plain.py, with the edits that it has also through eco.py, the block through link.py and then
plain.py; with PROGRAM, an executable that was built before or the launcher, also through that. What comes out has to be the report beside the text, byte for byte. It
prints a line for each difference, and how many reports hold.
"""
import subprocess
import sys
import tempfile
from pathlib import Path

TOP = Path(__file__).resolve().parent.parent
EXAMPLES = TOP / "examples"
KINDS = ("lib", "v", "spef", "sdc")


def files(netlist):
    """The files of a block; what it has none of its own of is that of block.v."""
    own = [netlist.with_suffix(f".{kind}") for kind in KINDS]
    return [path if path.is_file() else EXAMPLES / f"block{path.suffix}" for path in own]


def output(*words):
    return subprocess.run(words, capture_output=True).stdout


def by_plain(words, folder):
    """The report by the plain programs."""
    if words[0] == "report":
        text = folder / "block.xt"
        text.write_bytes(output(sys.executable, TOP / "bench/link.py", *words[1:]))
        words = ["solve", text]
    return output(sys.executable, TOP / "bench/plain.py", *words)


def main():
    if sys.argv[1:2] in (["-h"], ["--help"]):
        print(__doc__)
        return
    commands = {text.with_suffix(".report"): ["solve", text] for text in sorted(EXAMPLES.glob("*.xt"))}
    for edits in sorted(EXAMPLES.glob("*.edits")):
        commands[edits.with_suffix(".edits.report")] = ["eco", edits.with_suffix(".xt"), edits]
    for netlist in sorted(EXAMPLES.glob("*.v")):
        commands[netlist.with_suffix(".report")] = ["report", *files(netlist)]
    faults = [f"{path.name} is the report of no text" for path in EXAMPLES.glob("*.report") if path not in commands]
    with tempfile.TemporaryDirectory() as folder:
        for path, words in commands.items():
            if by_plain(words, Path(folder)) != path.read_bytes():
                faults.append(f"the plain programs do not print {path.name}")
            for program in sys.argv[1:]:
                if output(program, *words) != path.read_bytes():
                    faults.append(f"{program} does not print {path.name}")
    print(*faults, f"{len(commands)} reports of examples, {len(faults)} differences", sep="\n")
    sys.exit(bool(faults))


if __name__ == "__main__":
    main()
