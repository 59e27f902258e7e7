#!/usr/bin/env python3
"""Looks through the documents for what is no longer there.

    python3 tools/check_docs.py

It prints a line for each finding and ends with status 1 if there is one; else it prints nothing. It finds

- links to files and headings that are not there;
- names of files, folders and modules that no file has;
- names of functions, types and modules that the code does not have, in a crate's row of docs/MAP.md: that this crate
  does not have;
- crates without a row on docs/MAP.md, and rows of no crate;
- modules of proofs that another crate imports and that docs/MAP.md does not list for it, and listed ones that are gone
  or that no other crate imports;
- docs/crates.svg where crates.txt has changed, and the pictures of windows where their report has;
- a usage line that README.md, docs/FORMATS.md, docs/xtalk.1 or the completion does not have as the launcher does;
- texts of examples/ without a report, and stored runs that are not the example of their name;
- scripts of bench/ that bench/run does not list.
"""
import os
import re
import subprocess
import sys
from pathlib import Path

TOP = Path(__file__).resolve().parent.parent
DOCS = [TOP / "README.md", TOP / "CHANGELOG.md", *sorted((TOP / "docs").glob("*.md")), TOP / "examples/README.md"]
FOLDERS = r"crates|docs|tools|bench|examples|specs|proofs|src|must-fail|\.ci"
KINDS = "md|py|rt|antt|svg|png|bash|html"
# Files that the documents speak of and that are not this repository's: the toolchain's, and what a user makes.
OTHERS = {"block.html", "windows.svg", "page.html"}
CODE = (".rt", ".antt", ".py", ".edit", ".bash", ".html", "")
# Words of the field, of formats and of the toolchain that look like names of the code.
WORDS = """TIMEFORMAT _DFF_P_ _DLATCH_P_ _MUX_ _1_ y_reg opt_clean dont_use slew_derate_from_library set_multicycle_path
    set_clock_uncertainty create_generated_clock non_seq_setup_rising""".split()
# What these say was so at a date.
HISTORY = {"COSTS.md", "CHANGELOG.md"}

findings = []


def find(path, number, text):
    findings.append(f"{path.relative_to(TOP)}:{number}: {text}")


# ---- What there is ------------------------------------------------------------------------

def tracked():
    """The repository's files, without what is built: each with its path from the top."""
    found = []
    for folder, names, files in os.walk(TOP):
        names[:] = [name for name in names if name not in (".git", "out", "__pycache__")]
        found += [os.path.relpath(os.path.join(folder, name), TOP) for name in files + names]
    return found


def words_by_crate():
    """All words of each crate's code, and under "" those of everything else that has code."""
    found = {"": set(WORDS)}
    for path in tracked():
        if not path.startswith("docs/") and path.endswith(CODE) and (TOP / path).is_file():
            crate = path.split("/")[1] if path.startswith("crates/") else ""
            text = (TOP / path).read_text(encoding="utf-8", errors="replace")
            found.setdefault(crate, set()).update(re.findall(r"[A-Za-z_]\w*", text))
            found[crate].add(Path(path).stem)
    return found


def crate_lines():
    """The crates of crates.txt with what they depend on."""
    lines = [line.partition("#")[0].partition(":") for line in (TOP / "crates.txt").read_text().splitlines()]
    return {head.split()[0]: rest.split() for head, colon, rest in lines if colon}


# ---- A document ---------------------------------------------------------------------------

def slug(heading):
    """The anchor of a heading."""
    plain = re.sub(r"`|\[([^]]*)\]\([^)]*\)", r"\1", heading).strip().lower()
    return re.sub(r"[^\w\- ]", "", plain).replace(" ", "-")


def anchors(path):
    lines = path.read_text(encoding="utf-8").splitlines()
    return {slug(line.lstrip("#")) for line in lines if line.startswith("#")}


def prose(path):
    """The lines of a document with their numbers, without the blocks of code."""
    text = path.read_text(encoding="utf-8")
    for number, line in enumerate(text.splitlines(), 1):
        if not line.startswith("    "):
            yield number, line


def check_links(path, files):
    for number, line in prose(path):
        for target in re.findall(r"\]\(([^)\s]+)\)", line):
            if re.match(r"[a-z]+:", target):
                continue
            name, _, anchor = target.partition("#")
            there = (path.parent / name).resolve() if name else path
            if not there.exists():
                find(path, number, f"the link {target} goes nowhere")
            elif anchor and anchor not in anchors(there):
                find(path, number, f"{name or path.name} has no heading #{anchor}")


def check_files(path, files):
    """Names of files and modules: a whole path or the end of one."""
    ends = {tail for file in files for tail in tails(file)} | {tail for file in files for tail in tails(stem(file))}
    for number, line in prose(path):
        line = re.sub(r"\]\([^)]*\)", "]", line)
        for name in re.findall(rf"(?<![\w./$-])((?:[\w.-]+/)*[\w.-]+\.(?:{KINDS}))(?![\w/-])", line):
            name = name.removeprefix("./")
            if name not in ends and name not in OTHERS and not re.fullmatch(r"[\d.]+", name):
                find(path, number, f"there is no file {name}")
        for name in re.findall(r"`(?:crates/)?([a-z_]+/(?:src|specs|proofs|must-fail)(?:/\w+)*/?)`", line):
            name = "crates/" + name.rstrip("/")
            if not any(name + end in files for end in ("", ".antt", ".rt", ".edit")):
                find(path, number, f"there is no {name}")
        for name in re.findall(rf"`((?:{FOLDERS})/[\w./-]*)`", line):
            if name.rstrip("/") not in ends:
                find(path, number, f"there is no {name}")


def stem(path):
    """A path without its ending, as a module of definitions or of proofs is named."""
    return path.removesuffix(".antt")


def tails(path):
    parts = path.split("/")
    return ("/".join(parts[at:]) for at in range(len(parts)))


def names_in(text):
    """Names of the code in a line's code spans: words with `::`, with an underscore, or of several capitals."""
    for span in re.findall(r"`([^`]+)`", text):
        for name in re.findall(r"(?<![\w/$.-])[A-Za-z_]\w*(?:::\w+)*", span):
            if "::" in name or "_" in name.strip("_") or re.fullmatch(r"(?:[A-Z][a-z0-9]+){2,}", name):
                yield name


def check_names(path, words):
    everywhere = set().union(*words.values())
    for number, line in prose(path):
        for name in names_in(line):
            parts = name.split("::")
            homes = [words[parts[0]]] if parts[0] in words and parts[0] else words.values()
            rest = [part for part in parts if part not in words]
            if not any(all(part in home for part in rest) for home in homes) and not (
                    len(parts) == 1 and name in everywhere):
                find(path, number, f"the code has no {name}")


# ---- The map ------------------------------------------------------------------------------

def rows_of(path, heading, columns):
    """The rows of the first table below a heading, as lists of cells, with their lines."""
    lines = path.read_text(encoding="utf-8").splitlines()
    start = next(at for at, line in enumerate(lines) if line == heading)
    rows = []
    for number, line in enumerate(lines[start + 1:], start + 2):
        if line.startswith("#"):
            break
        cells = [cell.strip() for cell in line.strip().strip("|").split(" | ")]
        if line.startswith("| `") and len(cells) == columns:
            rows.append((number, cells))
    return rows


def check_map(words, crates):
    path = TOP / "docs/MAP.md"
    seen = set()
    for number, cells in rows_of(path, "# The map of the crates", 3):
        own = re.findall(r"`(\w+)`", cells[0])
        seen.update(own)
        home = set().union(*(words.get(crate, set()) for crate in own))
        for name in names_in(cells[2]):
            for part in name.split("::"):
                if part not in home and part not in crates:
                    find(path, number, f"{', '.join(own)} has no {name}")
        for name in own:
            if name not in crates:
                find(path, number, f"there is no crate {name}")
    for name in crates:
        if name not in seen:
            find(path, 1, f"the crate {name} has no row")


def imports(crates):
    """The modules of proofs that another crate imports, each with those that do."""
    found = {}
    for path in tracked():
        if path.startswith("crates/") and path.endswith((".antt", ".rt")):
            own = path.split("/")[1]
            text = (TOP / path).read_text(encoding="utf-8")
            for crate, module in re.findall(r"Rattle\.([a-z_0-9]+)\.proofs\.(\w+)", text):
                if crate != own and crate in crates:
                    found.setdefault((crate, module), set()).add(own)
    return found


def check_proofs(crates, files):
    path, listed, imported = TOP / "docs/MAP.md", set(), imports(crates)
    for number, cells in rows_of(path, "## Proofs that are meant for other crates", 2):
        crate = None
        for name in re.findall(r"`([\w/]+)`", cells[0]):
            crate, module = (name.split("/proofs/") if "/proofs/" in name else (crate, name))
            listed.add((crate, module))
            if not any(f"crates/{crate}/proofs/{module}{end}" in files for end in ("", ".antt")):
                find(path, number, f"there is no module {module} among the proofs of {crate}")
            elif (crate, module) not in imported:
                find(path, number, f"no other crate imports {crate}/proofs/{module}")
    for (crate, module), users in sorted(imported.items()):
        if (crate, module) not in listed and module != "laws":
            find(path, 1, f"{', '.join(sorted(users))} imports {crate}/proofs/{module}, which is not listed")


# ---- Pictures, usage, examples --------------------------------------------------------------

PICTURES = {"crates.svg": ["crates.py"], "cross.svg": ["windows.py", "examples/cross.report"],
            "differ.svg": ["windows.py", "examples/differ.report"],
            "flops.svg": ["windows.py", "examples/flops.report", "q1", "n1", "n2"],
            "block.svg": ["windows.py", "examples/block.report", "d", "q1", "n1", "bus[0]"]}


def check_pictures():
    for name, (tool, *words) in PICTURES.items():
        run = subprocess.run([sys.executable, f"tools/{tool}", *words], cwd=TOP, capture_output=True)
        if run.returncode != 0 or run.stdout != (TOP / "docs" / name).read_bytes():
            find(TOP / "docs" / name, 1, f"is not what `python3 tools/{' '.join([tool, *words])}` draws")


def joined(text):
    """A text as one line, without the marks of markdown and of man pages."""
    return re.sub(r"\s+", " ", re.sub(r"\\f[A-Z]|[`\\]", "", text))


def check_usage():
    launcher = (TOP / "xtalk").read_text(encoding="utf-8")
    usage = re.findall(r"^    (xtalk [a-z]+ .*)$", launcher, re.MULTILINE)
    if not usage:
        find(TOP / "xtalk", 1, "no usage line was found")
    for name in ("README.md", "docs/FORMATS.md", "docs/xtalk.1"):
        text = joined((TOP / name).read_text(encoding="utf-8"))
        for line in usage:
            if line not in text:
                find(TOP / name, 1, f"has no usage line: {line}")
    completion = (TOP / "tools/xtalk.bash").read_text(encoding="utf-8")
    for word in {word for line in usage for word in re.findall(r"--[a-z]+|^xtalk ([a-z]+)", line)}:
        if word and word not in completion:
            find(TOP / "tools/xtalk.bash", 1, f"has no word {word}")
    for line in usage:
        for option in re.findall(r"--[a-z]+", line):
            if option not in completion:
                find(TOP / "tools/xtalk.bash", 1, f"has no option {option}")


def check_examples():
    examples = TOP / "examples"
    for text in [*examples.glob("*.xt"), *examples.glob("*.v"), *examples.glob("*.edits")]:
        if not text.with_suffix(".edits.report" if text.suffix == ".edits" else ".report").is_file():
            find(text, 1, "has no report beside it")
    for crate in (TOP / "crates").iterdir():
        words = (crate / "args").read_text().split() if (crate / "args").is_file() else []
        if not words or not (crate / "data").is_dir():
            continue
        for data in (crate / "data").iterdir():
            twin = examples / data.name
            if twin.is_file() and twin.read_bytes() != data.read_bytes():
                find(data, 1, f"is not examples/{data.name}")
        shown = (crate / "stdout").read_bytes() if (crate / "stdout").is_file() else b""
        inputs = [word for word in words if (examples / word).is_file()]
        report = (examples / inputs[0]).with_suffix(".report") if inputs else None
        if words[0] in ("report", "solve") and not any(word.startswith("--") for word in words) and report and shown:
            if report.read_bytes() != shown:
                find(report, 1, f"is not the stored run of {crate.name}")


def check_bench():
    run = TOP / "bench/run"
    listed = re.findall(r'^    "(\w+)": \(', run.read_text(encoding="utf-8"), re.MULTILINE)
    for script in (TOP / "bench").glob("*.py"):
        if script.stem not in listed:
            find(run, 1, f"does not list {script.name}")


def main():
    if len(sys.argv) > 1:
        print(__doc__)
        return
    files, crates, words = set(tracked()), crate_lines(), words_by_crate()
    for path in DOCS:
        if path.is_file():
            check_links(path, files)
            check_files(path, files)
            if path.name not in HISTORY:
                check_names(path, words)
        else:
            find(path, 1, "is not there")
    check_map(words, crates)
    check_proofs(crates, files)
    check_pictures()
    check_usage()
    check_examples()
    check_bench()
    print("".join(f"check_docs: {finding}\n" for finding in findings), end="", file=sys.stderr)
    sys.exit(bool(findings))


if __name__ == "__main__":
    main()
