#!/usr/bin/env python3
"""Tests tools/check_docs.py: plants one fault after another into a copy of the repository, each of which it has to find.

    python3 bench/check_docs.py

It prints what was not found, or found where nothing was planted, and how many of the faults were found.
"""
import shutil
import subprocess
import sys
import tempfile
from pathlib import Path

TOP = Path(__file__).resolve().parent.parent

# Two names that the code does not have, nor this file, which is searched too.
NO_FUNCTION, NO_PART = "no_such" + "_function", "no_such" + "_part"

# A file, a text that it has, what is put in its place, and words of the finding.
PLANTS = [
    ("README.md", "[docs/MAP.md](docs/MAP.md)", "[docs/MAP.md](docs/PLAN.md)", "the link docs/PLAN.md goes nowhere"),
    ("docs/FLOW.md", "REFUSALS.md#limits", "REFUSALS.md#limit", "has no heading #limit"),
    ("docs/MAP.md", "(`xtalk_top/src/top.rt`)", "(`xtalk_top/src/bottom.rt`)", "no file xtalk_top/src/bottom.rt"),
    ("docs/DECISIONS.md", "# ", "Of `nothing.rt`.\n\n# ", "there is no file nothing.rt"),
    ("docs/DECISIONS.md", "# ", "Of `xt_model/specs/Limitless`.\n\n# ", "there is no crates/xt_model/specs/Limitless"),
    ("docs/DECISIONS.md", "# ", "Of `tools/nothing`.\n\n# ", "there is no tools/nothing"),
    ("docs/DECISIONS.md", "# ", f"Of `{NO_FUNCTION}`.\n\n# ", f"the code has no {NO_FUNCTION}"),
    ("docs/DECISIONS.md", "# ", f"Of `Design::{NO_PART}`.\n\n# ", f"the code has no Design::{NO_PART}"),
    ("docs/DECISIONS.md", "# ", "Of `xt_io::Design`.\n\n# ", "the code has no xt_io::Design"),
    ("docs/MAP.md", "`Design::from_parts`:", "`Design::eval`:", "xt_model has no Design::eval"),
    ("docs/MAP.md", "| `drawn_numbers` |", "| `drawn_figures` |", "there is no crate drawn_figures"),
    ("docs/MAP.md", "| `drawn_numbers` |", "| `xt_lex` |", "the crate drawn_numbers has no row"),
    ("docs/MAP.md", "`xt_model/proofs/LoopLaws`", "`xt_model/proofs/WorkedDesigns`", "xt_model/proofs/LoopLaws, which is not listed"),
    ("docs/MAP.md", "`OrderLaws`, ", "`OrderLaw`, ", "no module OrderLaw among the proofs of xt_model"),
    ("docs/MAP.md", "`chaos_core/proofs/NoNets`", "`chaos_core/proofs/NoNets`, `Moves`", "no other crate imports chaos_core/proofs/Moves"),
    ("crates.txt", "xt_io: xt_model", "xt_io: xt_model xt_number", "docs/crates.svg:1: is not what"),
    ("examples/cross.report", "1.500 1.700", "1.400 1.700", "docs/cross.svg:1: is not what"),
    ("examples/cross.report", "nets 4", "nets 5", "is not the stored run of"),
    ("xtalk", "    xtalk link LIB", "    xtalk join LIB", "README.md:1: has no usage line: xtalk join LIB"),
    ("docs/xtalk.1", "\\fBxtalk link\\fP", "\\fBxtalk join\\fP", "docs/xtalk.1:1: has no usage line: xtalk link"),
    ("tools/xtalk.bash", "--miller", "--muller", "has no option --miller"),
    ("bench/run", '"hostile": ', '"hostel": ', "does not list hostile.py"),
    ("examples/one.report", None, None, "examples/one.xt:1: has no report beside it"),
    ("crates/xtalk_cli/data/cross.xt", "1000", "1001", "is not examples/cross.xt"),
]


def findings(top):
    run = subprocess.run([sys.executable, top / "tools/check_docs.py"], capture_output=True, text=True)
    assert run.returncode == bool(run.stderr) and not run.stdout, run
    return run.stderr.splitlines()


def main():
    found, faults = 0, []
    with tempfile.TemporaryDirectory() as folder:
        top = Path(folder) / "copy"
        shutil.copytree(TOP, top, ignore=shutil.ignore_patterns(".git", "out", "__pycache__"))
        faults += [f"found where nothing was planted: {line}" for line in findings(top)]
        for name, old, new, wanted in PLANTS:
            path = top / name
            text = path.read_text()
            if old is None:
                path.unlink()
            else:
                assert old in text, (name, old)
                path.write_text(text.replace(old, new))
            lines = findings(top)
            path.write_text(text)
            if any(wanted in line for line in lines):
                found += 1
            else:
                faults.append(f"not found: {name}, {old} as {new}: {lines}")
    print(*faults, f"{found} of {len(PLANTS)} faults were found", sep="\n")
    sys.exit(bool(faults))


if __name__ == "__main__":
    main()
