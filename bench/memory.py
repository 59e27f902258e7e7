#!/usr/bin/env python3
"""Refuses memory to the program, one call at a time.

    python3 bench/memory.py PROGRAM [WORD ..]

runs PROGRAM, an executable that was built before (`./xtalk` leaves crates/xtalk_cli/out/xtalk_cli), on each command
below, or on the one that the words make, with a library between it and the C library that refuses one call for memory
of the run: the first, then the second, until a run makes fewer calls. A run must end as it does where there is memory,
or print nothing and end with status 8 and `out of memory`, or, before any other status, with status 9 and no line: the
system did not hand over the program's words. It prints a line for each command, and each run that ends otherwise. What
is refused are the program's own calls of `malloc`, `realloc`, `aligned_alloc` and `posix_memalign`. The calls of all
threads are counted together, so with several workers another call may have the number in another run. It needs `cc`.
"""
import os
import struct
import subprocess
import sys
import tempfile
from concurrent.futures import ThreadPoolExecutor
from pathlib import Path

EXAMPLES = Path(__file__).resolve().parent.parent / "examples"
BLOCK = [str(EXAMPLES / f"block.{end}") for end in ("lib", "v", "spef", "sdc")]
COMMANDS = [
    ["report", *BLOCK, "--workers", "2"],
    ["report", *BLOCK, "--miller", "0,4,12", "--kind", "checks"],
    ["link", *BLOCK],
    ["report", str(EXAMPLES / "block.lib"), *(str(EXAMPLES / f"half.{end}") for end in ("v", "spef")), BLOCK[3]],
    ["solve", str(EXAMPLES / "cross.xt"), "--workers", "2"],
    ["solve", str(EXAMPLES / "flops.xt")],
    ["eco", str(EXAMPLES / "differ.xt"), str(EXAMPLES / "differ.edits"), "--workers", "2"],
    ["eco", str(EXAMPLES / "differ.xt"), str(EXAMPLES / "differ.edits")],
    ["replay", str(EXAMPLES / "cross.xt"), "--order", "7", "--workers", "3"],
    ["gen", "--number", "7", "--nets", "5", "--workers", "2"],
    ["gen", "--number", "7", "--nets", "5"],
    ["solve", str(EXAMPLES / "block.lib")],
    ["solve", str(EXAMPLES / "nothing.xt")],
    ["solve"],
]
# The file that REFUSED names holds two numbers: how many calls were made, and which of them is refused.
BETWEEN = r"""
#define _GNU_SOURCE
#include <dlfcn.h>
#include <errno.h>
#include <fcntl.h>
#include <stdlib.h>
#include <sys/mman.h>
static unsigned long *cell;
static void *(*next_malloc)(size_t), *(*next_realloc)(void *, size_t), *(*next_aligned)(size_t, size_t);
static int (*next_posix)(void **, size_t, size_t);
__attribute__((constructor)) static void begin(void) {
    next_malloc = dlsym(RTLD_NEXT, "malloc");
    next_realloc = dlsym(RTLD_NEXT, "realloc");
    next_aligned = dlsym(RTLD_NEXT, "aligned_alloc");
    next_posix = dlsym(RTLD_NEXT, "posix_memalign");
    int file = open(getenv("REFUSED"), O_RDWR);
    cell = mmap(0, 16, PROT_READ | PROT_WRITE, MAP_SHARED, file, 0);
}
static int refused(void) {
    return cell && __atomic_add_fetch(cell, 1, __ATOMIC_SEQ_CST) == cell[1] && (errno = ENOMEM);
}
void *malloc(size_t size) {
    if (!next_malloc) next_malloc = dlsym(RTLD_NEXT, "malloc");
    return refused() ? 0 : next_malloc(size);
}
void *realloc(void *old, size_t size) {
    if (!next_realloc) next_realloc = dlsym(RTLD_NEXT, "realloc");
    return refused() ? 0 : next_realloc(old, size);
}
void *aligned_alloc(size_t to, size_t size) { return refused() ? 0 : next_aligned(to, size); }
int posix_memalign(void **at, size_t to, size_t size) { return refused() ? ENOMEM : next_posix(at, to, size); }
"""


def ran(program, words, room, number):
    """Returns status, standard output and standard error of a run in which call `number` is refused, and its calls."""
    path = f"{room}/{number}"
    Path(path).write_bytes(struct.pack("QQ", 0, number))
    env = {"REFUSED": path, "LD_PRELOAD": f"{room}/between.so"}
    done = subprocess.run([program, *words], env=env, stdin=subprocess.DEVNULL, capture_output=True, timeout=60)
    calls = struct.unpack("QQ", Path(path).read_bytes())[0]
    os.remove(path)
    return done.returncode, done.stdout, done.stderr, calls


def tried(program, words, room):
    """Tries each number of a command, and returns how many faults it found."""
    *whole, calls = ran(program, words, room, 0)
    ends, faults, number, more, has_words = {}, 0, 1, True, False
    with ThreadPoolExecutor(os.cpu_count()) as pool:
        while more:
            numbers = range(number, number + 64)
            for at, (*found, made) in zip(numbers, pool.map(lambda it: ran(program, words, room, it), numbers)):
                more = more and made >= at
                has_words = has_words or found[0] != 9
                no_memory, no_words = [8, b"", b"out of memory\n"], [9, b"", b""]
                if found not in (whole, no_memory) and (has_words or found != no_words):
                    faults += 1
                    print(f"  call {at} refused: status {found[0]}, {found[1][:80]!r}, {found[2][:80]!r}")
                ends[found[0]] = ends.get(found[0], 0) + (made >= at)
            number += 64
    print(f"{' '.join(Path(it).name for it in words)}: {calls} calls; runs by status: {ends}; faults: {faults}")
    if not calls or set(ends) <= {whole[0]}:
        print("  no call was refused: is the program linked with the C library's malloc?")
        faults += 1
    return faults


def main(program, *words):
    with tempfile.TemporaryDirectory() as room:
        Path(f"{room}/between.c").write_text(BETWEEN)
        shared = ["-shared", "-fPIC", "-o", f"{room}/between.so", f"{room}/between.c", "-ldl"]
        subprocess.run(["cc", "-O2", *shared], check=True)
        faults = sum(tried(os.path.abspath(program), it, room) for it in ([list(words)] if words else COMMANDS))
    print("no fault" if not faults else f"{faults} faults")
    return 1 if faults else 0


if __name__ == "__main__":
    if len(sys.argv) < 2:
        sys.exit(__doc__)
    sys.exit(main(*sys.argv[1:]))
