#!/usr/bin/env python3
"""Tests of the launcher ./xtalk with a stand-in for the toolchain's `rt`, which proves nothing and takes no time.

    python3 bench/launcher.py [TEST ...]

It copies what the launcher looks at into a temporary folder (with a blank in its name) and runs the launcher there: on
first use, after each kind of change, stopped, twice at once, over a crate that fails, without a toolchain or with
another one, through a link, on a terminal, with an old find; without words and with --help, which build nothing. So it
does with tools/install, and it asks the completion for bash what may come next. It prints a line for each test and what
a look costs.
"""
import os
import pty
import re
import shutil
import signal
import stat
import subprocess
import sys
import tempfile
import time
from pathlib import Path

TOP = Path(__file__).resolve().parent.parent
LOGIC = next(line for line in (TOP / "xtalk").read_text().splitlines() if line.startswith("logic=")).split()[0][6:]
STAND_IN = r'''#!/usr/bin/env python3
import fcntl, hashlib, os, subprocess, sys
kit, words = os.path.dirname(os.path.dirname(os.path.realpath(__file__))), sys.argv[1:]
if words == ["doc"]:
    print(f"{kit}/START-HERE.md")
    sys.exit()
if words == ["version"]:
    print(os.environ.get("STAND_IN_VERSION") or open(f"{kit}/KIT-ID").read().strip())
    sys.exit(1 if os.environ.get("STAND_IN_BROKEN") else 0)
top, needs, order = os.path.abspath("../.."), {}, []
for line in open(f"{top}/crates.txt"):
    name, colon, rest = line.split("#")[0].partition(":")
    if colon:
        needs[name.split()[0]] = rest.split()
def visit(crate):
    if crate in needs and crate not in order:
        for below in needs[crate]:
            visit(below)
        order.append(crate)
visit("xtalk_cli")
held = [os.open(f"{top}/crates/{crate}", os.O_RDONLY) for crate in order]
for crate, lock in zip(order, held):
    try:
        fcntl.flock(lock, fcntl.LOCK_EX | fcntl.LOCK_NB)
    except BlockingIOError:
        print(f"rt: waiting for another rt to finish in {top}/crates/{crate}", file=sys.stderr, flush=True)
        fcntl.flock(lock, fcntl.LOCK_EX)
def files(crate, part):
    walk = sorted(os.walk(f"{top}/crates/{crate}/{part}"))
    return [f"{at}/{file}" for at, _, names in walk for file in sorted(names)]
def prove(crate):
    texts = [(file, open(file, "rb").read()) for part in ("src", "specs", "proofs") for file in files(crate, part)]
    kept, state = f"{top}/crates/{crate}/out/kept", hashlib.sha256(repr(texts).encode()).hexdigest()
    os.makedirs(os.path.dirname(kept), exist_ok=True)
    if any(b"NO PROOF OF THIS" in text for _, text in texts):
        return False
    if not os.path.exists(kept) or open(kept).read() != state:
        pause = os.environ.get("STAND_IN_SECONDS", "0")
        subprocess.run(["sh", "-c", f"sleep {pause}; true", "rattle", "check", "--crate-name", crate])
        open(kept, "w").write(state)
        open(f"{kit}/proved", "a").write(f"{crate}\n")
    return True
refusal = "error: a goal is open\nonly=0\n"
if words[:2] == ["all", "check"]:
    summary = []
    for crate in order:
        is_well = prove(crate)
        print(f"== {crate}\n{'' if is_well else refusal}", end="", flush=True)
        summary.append(f"{crate}: {'ok' if is_well else 'failed (1)'}")
    print("== summary", *summary, sep="\n", flush=True)
    sys.exit(any("failed" in line for line in summary))
def build_below(crate):
    order.clear()
    visit(crate)
    for below in order:
        if not prove(below):
            print(refusal, end="", flush=True)
            if below != crate:
                print(f"rt: the library {below} did not build, so nothing above it was checked", file=sys.stderr)
            sys.exit(1)
if words[:1] == ["lib"]:
    build_below(os.path.basename(os.getcwd()))
    sys.exit()
if words[:1] == ["run"]:
    build_below("xtalk_cli")
    open(f"{kit}/builds", "a").write("built\n")
    with open("out/new", "w") as program:
        program.write('#!/bin/sh\n[ $# = 0 ] && { echo "xtalk: bad command line" >&2; exit 2; }\n'
                      'printf "%s|" "$PWD" "$@"; exit 7\n')
    os.chmod("out/new", 0o755)
    os.rename("out/new", "out/xtalk_cli")
    sys.exit(subprocess.run(["out/xtalk_cli"]).returncode)
sys.exit(2)
'''


class Place:
    """A copy of what the launcher looks at, a kit with the stand-in, and the launcher's calls there."""

    def __init__(self, folder):
        self.top, self.kit, self.tools = folder / "a clone", folder / "kit", folder / "tools"
        self.tools.mkdir()
        (self.kit / "bin").mkdir(parents=True)
        (folder / "temporary").mkdir()
        self.temporary = folder / "temporary"
        (self.kit / "KIT-ID").write_text(f"stand-in logic {LOGIC}\n")
        (self.kit / "START-HERE.md").touch()
        (self.kit / "builds").touch()
        (self.kit / "proved").touch()
        self.script(self.kit / "bin/rt", STAND_IN)
        shutil.copytree(TOP / "crates", self.top / "crates", ignore=shutil.ignore_patterns("out"))
        for name in ("crates.txt", "HANDLES", "xtalk", "README.md", "docs/xtalk.1", "tools/install", "tools/xtalk.bash"):
            (self.top / name).parent.mkdir(exist_ok=True)
            shutil.copy2(TOP / name, self.top / name)

    def script(self, path, text):
        path.write_text(text)
        path.chmod(path.stat().st_mode | stat.S_IXUSR)

    def environment(self, **more):
        return dict(os.environ, **{"PATH": f"{self.tools}:{self.kit}/bin:{os.environ['PATH']}",
                                     "TMPDIR": str(self.temporary), **more})

    def begin(self, *words, launcher=None, **more):
        how = {"stdout": subprocess.PIPE, "stderr": subprocess.PIPE, "text": True, "start_new_session": True}
        return subprocess.Popen([*(launcher or [self.top / "xtalk"]), *words], cwd=self.kit,
                                env=self.environment(**more), **how)

    def call(self, *words, **more):
        run = self.begin(*words, **more)
        shown, log = run.communicate(timeout=120)
        return run.returncode, shown, log

    def done(self):
        """How often the program was built so far, and the crates that were proved, one after the other."""
        return len((self.kit / "builds").read_text().split()), (self.kit / "proved").read_text().split()

    def work_of(self, call):
        """How often the program was built for a call that goes well, and how many crates were proved for it."""
        (builds, proved), (status, shown, log) = self.done(), call()
        assert status == 7, (status, shown, log)
        after = self.done()
        return after[0] - builds, len(after[1]) - len(proved)


def usage(at):
    """The usage at once, also without a toolchain, and nothing is built or written."""
    for search in (at.environment()["PATH"], "/usr/bin:/bin"):
        status, shown, log = at.call(PATH=search)
        assert status == 2 and shown == "" and log.startswith("xtalk finds ") and "xtalk report LIB" in log, (status, log)
        assert at.call("--help", PATH=search) == (0, log, "")
    assert at.done() == (0, []) and not (at.top / "crates/xtalk_cli/out").exists()


def first_use(at):
    status, shown, log = at.call("a", "b c")
    assert status == 7 and shown == f"{at.kit}|a|b c|", (status, shown, log)
    count = len(set(at.done()[1]))
    assert at.done() == (1, list(dict.fromkeys(at.done()[1])))
    assert log.startswith(f"xtalk: proving {count} crates, ") and f"xtalk: {count} of {count} after" in log, log
    assert at.work_of(lambda: at.call("a")) == (0, 0)
    assert at.call("a")[2] == ""
    assert sorted(path.name for path in (at.top / "crates/xtalk_cli/out").glob("launcher*")) in (
        ["launcher.lock", "launcher.stamp"], ["launcher.stamp"])


def changes(at):
    crates = at.top / "crates"
    source, proof = crates / "xt_model/src/lib.rt", next((crates / "net_eval/proofs").rglob("*.antt"))

    def same_time(path):
        before = path.stat()
        path.write_text(path.read_text() + "\n")
        os.utime(path, ns=(before.st_atime_ns, before.st_mtime_ns))

    def swapped():
        other = source.with_name("other.rt")
        source.rename(other)
        shutil.copy2(other, source)
        other.unlink()

    every = {
        "content": lambda: source.write_text(source.read_text() + "\n"),
        "content, with the old time": lambda: same_time(source),
        "a proof's content": lambda: same_time(proof),
        "a file with the old time in its place": swapped,
        "a file that came": lambda: (proof.parent / "New.antt").touch(),
        "its new name": lambda: (proof.parent / "New.antt").rename(proof.parent / "Other.antt"),
        "its going": lambda: (proof.parent / "Other.antt").unlink(),
        "a folder's new name": lambda: proof.parent.rename(proof.parent.with_name("moved")),
        "a folder's old name": lambda: proof.parent.with_name("moved").rename(proof.parent),
        "a folder that a crate did not have": lambda: (crates / "xtalk_cli/specs").mkdir(),
        "its going again": lambda: (crates / "xtalk_cli/specs").rmdir(),
        "crates.txt": lambda: same_time(at.top / "crates.txt"),
        "HANDLES": lambda: same_time(at.top / "HANDLES"),
        "another kit": lambda: (at.kit / "KIT-ID").write_text(f"kit {time.time_ns()} logic {LOGIC}\n"),
        "the program gone": lambda: (crates / "xtalk_cli/out/xtalk_cli").unlink(),
    }
    for what, change in every.items():
        change()
        assert at.work_of(lambda: at.call("a"))[0] == 1, f"not found: {what}"
        assert at.work_of(lambda: at.call("a")) == (0, 0), f"built again: {what}"
    for path in (at.top / "README.md", crates / "xt_model/must-fail/new.edit", at.kit / "KIT-ID"):
        path.touch()
    assert at.work_of(lambda: at.call("a")) == (0, 0), "built for a file that does not matter"


def two_at_once(at):
    """With flock one builds and the others wait; where there is no flock each builds, one after the other."""
    bare = at.kit / "bare"
    bare.mkdir()
    for path in (path for folder in ("/bin", "/usr/bin") for path in Path(folder).iterdir()):
        if path.name != "flock" and not (bare / path.name).is_symlink():
            (bare / path.name).symlink_to(path)
    for search in (at.environment()["PATH"], f"{at.kit}/bin:{bare}"):
        source = at.top / "crates/xt_model/src/lib.rt"
        source.write_text(source.read_text() + "\n")
        builds, proved = at.done()
        runs = [at.begin("a", STAND_IN_SECONDS="1", PATH=search) for _ in range(3)]
        ends = [run.communicate(timeout=120) for run in runs]
        assert [run.returncode for run in runs] == [7, 7, 7], ends
        made, waited = at.done()[0] - builds, sum("waits for it" in log for _, log in ends)
        assert (made, waited) == ((1, 2) if shutil.which("flock", path=search) else (3, 0)), (made, ends)
        assert at.done()[1] == proved + ["xt_model"]
        assert at.work_of(lambda: at.call("a")) == (0, 0)


def stopped(at):
    for crate in (at.top / "crates").iterdir():
        (crate / "out/kept").unlink(missing_ok=True)
    for number, word in ((signal.SIGINT, "INT"), (signal.SIGTERM, "TERM")):
        (at.top / "crates/xtalk_cli/out/xtalk_cli").unlink(missing_ok=True)
        run = at.begin("a", STAND_IN_SECONDS="0.4")
        time.sleep(3)
        os.killpg(run.pid, number) if number == signal.SIGINT else run.send_signal(number)
        log = run.communicate(timeout=20)[1]
        assert run.returncode == 130 and log.endswith("xtalk: stopped; the next run goes on from here\n"), (word, log)
        time.sleep(0.5)
        left = subprocess.run(["ps", "-s", str(run.pid), "-o", "stat=,args="], capture_output=True, text=True).stdout
        assert all(line.startswith("Z") for line in left.splitlines()), left
        assert not list((at.top / "crates/xtalk_cli/out").glob("launcher.stamp.*"))
    builds, proved = at.done()
    count = int(at.call("a")[2].split("proving ")[1].split()[0])
    assert at.done()[0] == builds + 1 and count / 2 < len(at.done()[1]) - len(proved) < count, at.done()


def failing(at):
    """A crate that fails is named, whether it is the first, one of many side by side, or one of the last."""
    for crate in ("xt_model", "linked_text", "xtalk_top", "xtalk_cli"):
        path = next((at.top / "crates" / crate / "src").iterdir())
        before = path.read_text()
        path.write_text(before + "// NO PROOF OF THIS\n")
        status, shown, log = at.call("a")
        assert status == 125 and shown == "" and "\nerror: a goal is open\nonly=0\n" in log, (status, shown, log)
        assert log.endswith(f"\nxtalk: crate {crate} could not be proved; its last lines are above\n"), log
        assert len(log.splitlines()) < 70, log
        path.write_text(before)
        assert at.work_of(lambda: at.call("a")) == (1, 0)


def toolchains(at):
    path = f"{at.kit}/bin/rt"
    (at.top / "crates/xtalk_cli/out/xtalk_cli").unlink()
    assert at.call("a", STAND_IN_BROKEN="1") == (
        125, "", "xtalk: the rt on the path is not that of the Rattle toolchain\n")
    status, _, log = at.call("a", STAND_IN_VERSION="old logic 0123456789abcdef")
    assert status == 125 and "another one: old logic 0123456789abcdef\n" in log, log
    os.rename(path, path + ".away")
    if not shutil.which("rt", path="/usr/bin:/bin"):
        assert at.call("a", PATH="/usr/bin:/bin") == (
            125, "", "xtalk: the Rattle toolchain is missing: its command rt is not on the path\n")
    os.rename(path + ".away", path)
    assert at.work_of(lambda: at.call("a")) == (1, 0)


def places(at):
    link = at.kit / "link"
    link.symlink_to(at.top / "xtalk")
    for launcher in ([link], ["bash", at.top / "xtalk"], [os.path.relpath(at.top / "xtalk", at.kit)]):
        assert at.work_of(lambda: at.call("a", launcher=launcher)) == (0, 0)
    run = subprocess.run(["bash", "xtalk", "a"], cwd=at.top, env=at.environment(CDPATH="/"), capture_output=True,
                         text=True)
    assert run.returncode == 7 and run.stdout == f"{at.top}|a|" and not run.stderr, run


def terminal(at):
    (at.top / "crates/xtalk_cli/out/xtalk_cli").unlink()
    (at.top / "crates/xt_model/src/lib.rt").write_text((at.top / "crates/xt_model/src/lib.rt").read_text() + "\n")
    process, end = pty.fork()
    if process == 0:
        os.execve(at.top / "xtalk", ["xtalk", "a"], at.environment(STAND_IN_SECONDS="2"))
    log = b""
    while True:
        try:
            log += os.read(end, 4096)
        except OSError:
            break
    assert os.waitstatus_to_exitcode(os.waitpid(process, 0)[1]) == 7, log
    assert b"\r\x1b[Kxtalk: 0 of " in log and b" xt_model 0m01s" in log, log
    assert not re.search(rb"\nxtalk: [0-9]+ of|xtalk: [0-9]+ of [0-9]+ after", log), log


def old_find(at):
    at.script(at.tools / "find", '#!/bin/sh\ncase "$*" in *-files0-from*) echo no such word >&2; exit 1 ;; esac\n'
              'exec /usr/bin/find "$@"\n')
    changes(at)
    (at.tools / "find").unlink()


def installed(at):
    """The program, its page and the completion are where they belong, and the program runs without the checkout."""
    prefix = at.kit / "a prefix"
    call = lambda *words: subprocess.run([at.top / "tools/install", *words], cwd=at.kit, env=at.environment(),
                                         capture_output=True, text=True)
    assert call().returncode == 2 and call("a", "b").returncode == 2
    # The stand-in's program ends with 7 whatever its words are, which is no success.
    assert call("a prefix").returncode == 1 and not prefix.exists()
    program = at.top / "crates/xtalk_cli/out/xtalk_cli"
    text, built = program.read_text(), at.done()
    program.write_text(text.replace("exit 7", "exit 0"))
    run = call("a prefix")
    names = ["bin/xtalk", "share/man/man1/xtalk.1", "share/bash-completion/completions/xtalk"]
    assert run.returncode == 0 and run.stdout.split("\n") == [f"a prefix/{name}" for name in names] + [""], run
    assert at.done() == built
    assert [(prefix / name).read_bytes() for name in names] == [
        path.read_bytes() for path in (program, TOP / "docs/xtalk.1", TOP / "tools/xtalk.bash")]
    assert os.access(prefix / "bin/xtalk", os.X_OK) and not os.access(prefix / names[1], os.X_OK)
    program.write_text(text)
    if shutil.which("man"):
        page = subprocess.run(["man", "--warnings", "-l", prefix / names[1]], capture_output=True, text=True)
        assert page.returncode == 0 and not page.stderr and "xtalk report LIB NETLIST" in page.stdout, page


def completed(at):
    """What bash offers for a word that is begun: commands, options that are left, values, files by their kind."""
    folder = at.kit / "files"
    folder.mkdir()
    for name in ("cells.lib", "b.v", "b.spef", "b.sdc", "d.xt", "t.edits", "note.txt", "a b.v"):
        (folder / name).touch()
    (folder / "sub").mkdir()
    script = (f'source "{at.top}/tools/xtalk.bash"; complete -p xtalk >/dev/null || exit; COMP_WORDS=("$@"); '
              'COMP_CWORD=$(($# - 1)); _xtalk; printf "%s\\n" "${COMPREPLY[@]}"')
    rows = {
        ("",): "report link solve eco replay gen --help", ("re",): "report replay", ("nothing", ""): "",
        ("report", ""): "cells.lib sub", ("report", "cells.lib", ""): "a_b.v b.v sub", ("link", "x", "y", ""): "b.spef sub",
        ("report", "x", "y", "z", ""): "b.sdc sub", ("report", "1", "2", "3", "4", ""): "--workers --kind --miller --engine",
        ("report", "--kind", ""): "all checks noise", ("report", "--kind", "a"): "all", ("report", "--kind", "all", ""): "cells.lib sub",
        ("report", "x", "--workers", "2", "-"): "--kind --miller --engine", ("solve", ""): "d.xt sub", ("solve", "n"): "note.txt",
        ("eco", ""): "d.xt sub", ("eco", "d.xt", ""): "sub t.edits", ("eco", "d.xt", "t.edits", ""): "--workers --miller",
        ("replay", "d.xt", "--o"): "--order", ("gen", ""): "--number --nets --workers", ("link", "--k"): "",
    }
    rows = {("./xtalk", *words): wanted for words, wanted in rows.items()}
    rows["xtalk", ""] = "report link solve eco replay gen"
    for words, wanted in rows.items():
        run = subprocess.run(["bash", "-c", script, "bash", *words], cwd=folder, capture_output=True, text=True)
        offered = sorted(run.stdout.replace(" ", "_").split())
        assert offered == sorted(wanted.split()) and not run.stderr, (words, offered, run.stderr)


def cost(at):
    times, clock = os.times(), time.monotonic()
    for _ in range(50):
        subprocess.run([at.top / "xtalk", "a"], env=at.environment(), stdout=subprocess.DEVNULL)
    after = os.times()
    spent = (after[2] + after[3] - times[2] - times[3]) * 20
    print(f"a look, with a program of one line of sh: {spent:.1f} ms of processor, "
          f"{(time.monotonic() - clock) * 20:.1f} ms of clock")


def main():
    if sys.argv[1:2] in (["-h"], ["--help"]):
        print(__doc__)
        return
    with tempfile.TemporaryDirectory() as folder:
        at = Place(Path(folder))
        tests = (usage, first_use, changes, two_at_once, stopped, failing, toolchains, places, terminal, old_find, installed,
                 completed)
        for test in tests if not sys.argv[1:] else tests[:2] + tuple(it for it in tests[2:] if it.__name__ in sys.argv):
            test(at)
            assert not list(at.temporary.iterdir()), "a temporary file is left"
            print(f"{test.__name__}: well", flush=True)
        cost(at)


if __name__ == "__main__":
    main()
