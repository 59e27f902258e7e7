#!/usr/bin/env python3
"""Holds `PROGRAM eco` against the plain judge, on hand-made edges and on drawn designs with edits.

    edits.py PROGRAM [COUNT] [SEED]   compares standard output, standard error and status
    edits.py answers COUNT SEED       prints which answers the drawn edits have, and holds the judge's laws
    edits.py draw FILE COUNT SEED     prints COUNT edits of a linked text, and `end`, to time `eco`: a pair of coupled
                                      nets loses a third of its coupling, or that and gets it back, or gets a shield

The designs are those of compare.py, many of them near the limits of times, slews, loads and wires. Every other text of
edits gets a line that is refused, or nearly so. Texts on which the program and the judge differ are kept and named, and
the status is then 1.
"""

import os
import random
import sys
import tempfile
from collections import Counter

import compare
import eco
import plain

WORDS = ["shield", "apart", "near"]
AMOUNTS = [1, 2, 3, 7, 100, 1000, 30000, 2**40]
BAD_AMOUNTS = ["0", "01", "+1", "-1", "1.0", "1e3", "", "-", "0x1", "1_0", "\xb2", "9" * 5000, "0" * 30 + "1",
               str(2**40 + 1), str(2**64 + 1), str(2**128 + 1)]


# ---- Drawn edits ------------------------------------------------------------------------

def drawn_design(rng):
    """A design with couplings, mostly one that is accepted, now and then near a limit."""
    design = compare.random_rivals(rng) if rng.random() < .4 else compare.random_design(rng)
    design = compare.with_checks(rng, design)._replace(miller=compare.random_miller(rng))
    way = rng.random()
    if way < .10:
        design = compare.moved_to_time_limit(rng, design)
    elif way < .18:
        design = compare.moved_to_slew_limit(rng, design)
    elif way < .30:
        design = compare.with_huge_numbers(rng, design)
    elif way < .34:
        design = compare.with_bad_part(rng, design)
    return design


def drawn_line(rng, design):
    """A line for two nets that are coupled, if there are such; its amount is often one that the entries have."""
    pairs = [(n, entry.to, entry.cap) for n, net in enumerate(design.nets) for entry in net.couplings]
    if not pairs:
        return drawn_odd_line(rng, design)
    a, b, cap = rng.choice(pairs)
    word = rng.choice(WORDS)
    if rng.random() < .3:
        a, b = b, a
    near = [cap, cap - 1, cap + 1, cap // 2, design.nets[a].load, design.nets[b].load, design.nets[a].load + 1]
    amounts = [amount for amount in near if 1 <= amount <= eco.MOST_AMOUNT] or [1]
    amount = rng.choice(amounts) if rng.random() < .6 else rng.choice(AMOUNTS)
    names = design.nets[a].name, design.nets[b].name
    return " ".join([word, *names, *([] if word == "shield" else [str(amount)])])


def drawn_odd_line(rng, design):
    """A line that is refused for its form or its names, or nearly so."""
    names = [net.name for net in design.nets] + ["no", ""]
    a, b = rng.choice(names), rng.choice(names)
    good = drawn_line(rng, design) if any(net.couplings for net in design.nets) else f"shield {a} {b}"
    way = rng.random()
    if way < .3:
        word, *rest = good.split(" ")
        return rng.choice(["", " ", "end ", " end", "END", "end end", good + " ", " " + good,
                           good.replace(" ", "  ", 1), good + "\r", good.upper(), good + " 1", word,
                           " ".join([word, *rest[:1]]), " ".join(["move", *rest]), " ".join([word, *rest[::-1]]),
                           good + "\0", "\xff" + good])
    if way < .6:
        fields = (good if len(good.split(" ")) == 4 else f"apart {a} {b} 1").split(" ")
        return " ".join([*fields[:3], rng.choice(BAD_AMOUNTS)])
    if way < .9:
        word = rng.choice(WORDS)
        return " ".join([word, a, b, *([] if word == "shield" else [rng.choice(["1", "0", "7"])])])
    return f"near {a} {b} {2**40}"


def drawn_text(rng, design, is_refused):
    """The lines of edits of a design; most of them can be made, and in the end one is refused, or nearly so."""
    lines, now = [], design
    for _ in range(rng.choice([0, 1, 1, 2, 2, 3, 5, 8])):
        held = drawn_line(rng, now)
        try:
            edit = eco.read_edit(now, held)
            after = eco.with_edit(now, edit)
            if eco.passed_limit(after, edit[1:3]):
                raise eco.Refused
            now = after
        except eco.Refused:
            if not is_refused:
                continue
        lines.append(held)
    if is_refused:
        place = rng.randint(0, len(lines))
        lines[place:place] = [rng.choice([drawn_odd_line, drawn_odd_line, drawn_line])(rng, now)]
    text = "".join(held + "\n" for held in [*lines, "end"])
    if is_refused and rng.random() < .2:
        cut = text[:rng.randrange(len(text))]
        text = rng.choice([text[:-1], text[:-4], text + "\n", text + "end\n", text + " ", cut, ""])
    return text.encode("latin-1")


def drawn_edits(rng, design, count):
    """A text of this many edits, which a design with room at its nets allows: each pair of nets is drawn once."""
    caps = {}
    for number, net in enumerate(design.nets):
        for entry in net.couplings:
            caps.setdefault((min(number, entry.to), max(number, entry.to)), []).append(entry.cap)
    lines = []
    for ends in rng.sample(sorted(ends for ends in caps if min(caps[ends]) > 2), count):
        names = " ".join(design.nets[end].name for end in rng.sample(ends, 2))
        part = min(caps[ends]) // 3
        way = rng.choice([["apart"], ["shield"], ["apart", "near"]])
        lines += [f"{word} {names}" + ("" if word == "shield" else f" {part}") for word in way]
    return "\n".join([*lines[:count], "end", ""])


# ---- Edges ------------------------------------------------------------------------------

def pair(load=5000, cap=1000, base=0, coef=3, miller=plain.CLASSICAL, entries=1, back=None, is_quiet=False):
    """Two nets that couple, the first with a sink; `back` has the second's capacitances where they differ. Quiet ones
    have no times that could pass a limit."""
    quad, back = plain.BOTTOM if is_quiet else plain.Quad(0, 100, 0, 50), [cap] if back is None else back
    one = plain.Net("a", "i", load, (quad, quad), [plain.Coupling(1, cap)] * entries,
                    [plain.Sink("a/s", base, [coef] * entries)], [])
    other = plain.Net("b", "i", load, (quad, quad), [plain.Coupling(0, c) for c in back], [], [])
    return plain.Design(None, [], [one, other], miller)


def edges():
    """Designs with texts of edits at the ends of what is taken."""
    most, wire = plain.MOST_CAP, plain.MOST_WIRE
    some = pair()
    for text in ("end\n", "", "\n", "end", "end\n\n", "end\nend\n", "shield a b\n", "shield a b\nend", "shield a b",
                 "shield a b\nshield a b\nend\n", "shield b a\nend\n", "shield a a\nend\n", "shield a c\nend\n",
                 "apart a b 1\nend\n", "apart a b 999\nend\n", "apart a b 1000\nend\n", "apart a b 1001\nend\n",
                 "apart a b 1000\nnear a b 1\nend\n", "apart a b 1000\napart b a 5\nend\n", "near a b 5000\nend\n",
                 "near a b 5001\nend\n", "near a b 1\nnear a b 1\nend\n", "shield a b\nnear a b 1\nend\n",
                 "end\nshield a b\n", "near a b 0\nend\n", "near a x 0\nend\n", "near a 0\nend\n",
                 "apart a b 1\r\nend\r\n", "shield  b\nend\n"):
        yield f"pair with {text!r}", some, text
    for count in (1023, 1024, 1025):
        yield f"{count} edits", pair(cap=4000), "apart a b 1\n" * count + "end\n"
    yield "1,024 edits and no end", pair(cap=4000), "apart a b 1\n" * 1024
    yield "1,024 edits and a word", pair(cap=4000), "apart a b 1\n" * 1024 + "ends\n"
    half = wire // 2
    for base, coef, text in ((0, wire, "shield a b"), (1, wire, "shield a b"), (wire, 0, "shield a b"),
                             (wire - 2, 3, "apart a b 1"), (wire - 1, 3, "apart a b 1000"),
                             (wire - 3, 3, "apart a b 1000"), (wire - 2, 3, "apart a b 1000"), (0, 0, "near a b 1"),
                             (0, 3, "near a b 1"), (0, 3, "near a b 999"), (0, 3, "near a b 333"),
                             (0, 3, "near a b 334"), (2, 3, "near a b 999"), (2, 3, "near a b 1000"),
                             (wire, half, "near a b 1000"), (wire, half + 1, "near a b 1000"),
                             (wire, wire, "near a b 1"), (0, wire, "near a b 1")):
        yield f"base {base}, coefficient {coef}, {text}", pair(base=base, coef=coef, is_quiet=True), text + "\nend\n"
    for load in (most - 2000, most - 2001, most - 1999, 0, 1):
        for text in ("near a b 1", "near b a 2", "apart a b 1", "shield a b"):
            yield f"load {load}, {text}", pair(load=load), text + "\nend\n"
    # The load of the first net passes before the second's, in the order of the line.
    for text in ("near a b 7", "near b a 7"):
        yield f"both loads by {text}", pair(load=most - 2003), text + "\nend\n"
    for cap, coef in ((1, wire), (1, wire // 2**40), (1, 1), (2**40, wire), (3, wire)):
        for base in (0, 1, wire):
            held = pair(load=2**41, cap=cap, coef=coef, base=base, is_quiet=True)
            yield f"product of {cap} and {coef} by {base}", held, f"near a b {2**40}\nend\n"
            yield f"{coef} from {cap} by {base}", held, f"apart a b {2**40}\nend\n"
    for back in ([], [0], [1000, 0], [1, 999, 3], [2000]):
        for entries in (0, 1, 3):
            for text in ("shield a b", "apart a b 1", "apart a b 1000", "near a b 1", "near b a 1666", "near a b 1667"):
                held = pair(entries=entries, back=back)
                yield f"{entries} entries and {back}, {text}", held, text + "\nend\n"
    for miller in ((0, 0, 8), (0, 8, 8), (4, 4, 4), (0, 4, 12), (3, 5, 7)):
        for text in ("shield a b", "apart a b 300", "near a b 300", "near a b 300\napart b a 300"):
            yield f"by {miller}, {text}", pair(miller=miller), text + "\nend\n"
    # A time that is at its limit: the envelope of the first design, of one in between, of the last.
    for over in (-1, 0, 1):
        late = pair(coef=10**9)
        wires = 2 * 10**9 // 10**6
        quad = plain.Quad(0, plain.MOST_TIME - wires + over, 0, 0)
        late = late._replace(nets=[net._replace(given=(quad, quad)) for net in late.nets])
        for text in ("end", "near a b 1\nend", "apart a b 1\nend", "apart a b 1000\nend", "shield a b\nend",
                     "near a b 1\nno", "no", "apart a b 500\nnear a b 500\nend",
                     "apart a b 500\nnear a b 501\napart a b 1\nend"):
            yield f"time {over} past its limit, {text!r}", late, text + "\n"


# ---- Comparing --------------------------------------------------------------------------

def laws(design, text):
    """Checks of the judge itself: a design after edits is sound, and what goes to ground narrows all windows."""
    for held in text.decode("latin-1").split("\n"):
        try:
            edit = eco.read_edit(design, held)
            after = eco.with_edit(design, edit)
        except eco.Refused:
            return
        if eco.passed_limit(after, edit[1:3]) or eco.passed_limit(design, []):
            return
        assert plain.sound(after)
        if design.miller[1] == 4:
            inner, outer = (design, after) if edit[0] == "near" else (after, design)
            for start in (plain.nothing, plain.envelope):
                windows = [plain.fixpoint(one, start(one)) for one in (inner, outer)]
                assert all(plain.join(a, b) == b for pair in zip(*windows) for a, b in zip(*pair))
        design = after


def drawn(count, seed):
    """What each text of edits is called, the linked text of its design, and the Miller numbers of the command."""
    for what, design, text in edges():
        yield what, plain.linked(design).encode("latin-1"), text.encode("latin-1"), ([], None)
    for number in range(count):
        rng = random.Random(f"{seed} {number}")
        design = drawn_design(rng)
        text = drawn_text(rng, design, number % 2 == 1) if plain.sound(design) else b"shield a b\nend\n"
        yield f"drawn {seed} {number}", plain.linked(design).encode("latin-1"), text, compare.random_option(rng)


def command_lines(file, edits):
    """Command lines that are refused, or nearly so."""
    both = [file, edits]
    yield from (["eco"], ["eco", file], ["eco", *both, edits], ["eco", file, ""], ["eco", "", edits],
                ["eco", file, "-"], ["eco", "--kind", "all", *both], ["eco", "--workers", "3", *both],
                ["eco", *both, "--workers=65"], ["eco", file, "--miller=0,4,12", edits],
                ["eco", *both, "--miller", "0,4"], ["eco", *both, "--order", "1"],
                ["eco", "no such file", edits], ["eco", file, "no such file"],
                ["eco", edits, "no such file"], ["Eco", *both], ["eco", file, os.path.dirname(file)])


def main(words):
    """Runs the command that the words give, and returns its status."""
    if words[:1] == ["answers"] and len(words) == 3:
        kinds = Counter()
        for what, data, text, (_, miller) in drawn(int(words[1]), int(words[2])):
            status, _, err = eco.answer("f", data, "e", text, miller)
            kinds[f"{status} {err.split()[1]}" if err else "0"] += 1
            design = plain.read_linked(data)
            if design and miller is None:
                laws(design, text)
        print(dict(kinds.most_common()))
        return 0
    if words[:1] == ["draw"] and len(words) == 4:
        with open(words[1], encoding="latin-1", newline="") as file:
            print(drawn_edits(random.Random(int(words[3])), plain.guess(file.read()), int(words[2])), end="")
        return 0
    if not words or len(words) > 3 or words[0] in ("-h", "--help"):
        print(__doc__.strip(), file=sys.stderr)
        return 2
    program, count = os.path.abspath(words[0]), int(words[1]) if words[1:] else 300
    seed = int(words[2]) if words[2:] else 1
    folder, statuses, kept = tempfile.mkdtemp(prefix="xtalk-edits-"), Counter(), []

    def hold(what, line, wanted, files):
        found, wanted = compare.run_program(program, line), compare.as_bytes(wanted)
        statuses[wanted[0]] += 1
        if found != wanted:
            kept.extend(files)
            print(f"DIFFERENT: {what}: {' '.join(line)}\n  judge: {wanted[0]} {wanted[2][:300]!r}, "
                  f"program: {found[0]} {found[2][:300]!r}")
        for file in set(files) - {*kept}:
            os.remove(file)

    for number, (what, data, text, (options, miller)) in enumerate(drawn(count, seed)):
        files = [os.path.join(folder, f"{seed}-{number}.{end}") for end in ("xt", "edits")]
        for file, held in zip(files, (data, text)):
            with open(file, "wb") as out:
                out.write(held)
        if number == 0:
            for line in command_lines(*files):
                hold("words", line, plain.outcome(line), [])
        workers = [] if number % 3 else ["--workers", str(1 + number % 64)]
        hold(what, ["eco", *files, *options, *workers], eco.answer(files[0], data, files[1], text, miller), files)
    print(f"{sum(statuses.values())} runs, by status {dict(sorted(statuses.items()))}")
    print(f"{len(kept)} files kept: {', '.join(kept)}" if kept else "no difference")
    return 1 if kept else 0


if __name__ == "__main__":
    sys.exit(main(sys.argv[1:]))
