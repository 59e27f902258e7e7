#!/usr/bin/env python3
"""Draws designs as `xtalk gen` has to, and judges its summary: plain, from the definition alone.

    gen.py summary NUMBER NETS   prints what `xtalk gen --number NUMBER --nets NETS` has to print
    gen.py linked NUMBER NETS    prints the design as a linked text
    gen.py facts NUMBER NETS     prints short facts: the source at the end, sums over the design

The design and the numbers are made here; the windows come from plain.py.
"""

import sys

import plain
from plain import Arc, Coupling, Design, Net, Quad, Sink, Table, live

FULL = 16


class Source:
    """The source of numbers: 64 bits that step by a product and a sum."""

    def __init__(self, number):
        self.x = number

    def draw(self, k):
        """The next number below k."""
        self.x = (self.x * 6364136223846793005 + 1442695040888963407) % 2**64
        return self.x // 2**33 % k


def drawn(number, count):
    """The drawn design of `count` nets, and the source as it is left."""
    source = Source(number)
    given, sinks, arcs, couplings = {}, [[] for _ in range(count)], [[] for _ in range(count)], [[] for _ in range(count)]
    first = max(1, count // 10)
    for i in range(first):
        r = source.draw(2000)
        begin, width = 1000 * (r % 100), 1000 * (r // 100)
        quad = Quad(begin, begin + width, 20000, 20000)
        given[i] = (quad, quad)
    for i in range(first, count):
        for pin in "AB":
            j = i - 1 - source.draw(min(i, 1000))
            sinks[j].append(f"n{i}/{pin}")
            place = len(sinks[j]) - 1
            arcs[i].append(Arc(j, place, 0, 1, 0, 1))
            arcs[i].append(Arc(j, place, 1, 0, 0, 1))
    for i in range(count):
        a = source.draw(count)
        if a == i:
            continue
        cap = 200 + source.draw(800)
        if len(couplings[i]) < FULL and len(couplings[a]) < FULL:
            couplings[i].append(Coupling(a, cap))
            couplings[a].append(Coupling(i, cap))
    tables = [
        Table([0, 50000, 200000], [0, 5000, 50000],
              [[5000, 15000, 105000], [8000, 18000, 108000], [20000, 30000, 120000]]),
        Table([0, 50000, 200000], [0, 5000, 50000],
              [[4000, 14000, 104000], [6000, 16000, 106000], [14000, 24000, 114000]]),
    ]
    nets = []
    for i in range(count):
        load = 2000 + 1000 * len(sinks[i])
        coefs = [100000 * c.cap for c in couplings[i]]
        pins = [Sink(name, 100000 * load, coefs) for name in sinks[i]]
        kind = "i" if i < first else "w"
        nets.append(Net(f"n{i}", kind, load, given.get(i, plain.QUIET), couplings[i], pins, arcs[i]))
    return Design(None, tables, nets), source


def facts(number, count):
    """Short facts of a design, each on its line."""
    design, source = drawn(number, count)
    nets = design.nets
    yield f"source {source.x}"
    yield f"entries {sum(len(n.couplings) for n in nets)}"
    yield f"caps {sum(c.cap for n in nets for c in n.couplings)}"
    yield f"most couplings {max(len(n.couplings) for n in nets)}"
    yield f"partners {sum((i + 1) * c.to for i, n in enumerate(nets) for c in n.couplings)}"
    yield f"arc inputs {sum((i + 1) * a.source for i, n in enumerate(nets) for a in n.arcs)}"
    yield f"begins {sum(n.given[0].tlo for n in nets if not n.arcs)}"
    yield f"widths {sum(n.given[0].thi - n.given[0].tlo for n in nets if not n.arcs)}"


def by_level(design, begin):
    """A fixpoint from `begin`: net by net in order of number, again and again until nothing moves.

    Arcs come from lower nets only, so that is quicker than rounds of the whole operator, and it
    comes to rest at the same place, since each step moves towards the fixpoint and never past it.
    """
    windows = list(begin)
    moved = True
    while moved:
        moved = False
        for n in range(len(windows)):
            after = plain.evaluate(design, windows, plain.overlap_in(design, windows), n)
            if after != windows[n]:
                windows[n], moved = after, True
    return windows


def total_width(windows):
    """The sum of the widths of all live windows."""
    return sum(q.thi - q.tlo for pair in windows for q in pair if live(q))


def summary(number, count):
    """What `xtalk gen` prints."""
    design, _ = drawn(number, count)
    top = plain.envelope(design)
    assert plain.first_past_limit(design, top) is None
    low, high = by_level(design, plain.nothing(design)), by_level(design, top)
    nets_line = plain.report(design, low, high).splitlines()[1]
    lives = [(n, e) for n in range(count) for e in plain.BOTH if live(high[n][e])]
    wider = sum(low[n][e] != high[n][e] for n, e in lives)
    guilty = sum(1 for _ in plain.guilty_lines(design, low, high))
    return "".join(line + "\n" for line in (
        "xtalk gen 1",
        nets_line,
        f"live {len(lives)} wider {wider} guilty {guilty}",
        f"least {plain.thousandths(total_width(low))}",
        f"greatest {plain.thousandths(total_width(high))}",
        "end"))


def main(words):
    """Runs one command line."""
    if len(words) != 3 or words[0] not in ("summary", "linked", "facts"):
        print(__doc__, file=sys.stderr)
        return 2
    number, count = int(words[1]), int(words[2])
    if words[0] == "summary":
        sys.stdout.write(summary(number, count))
    elif words[0] == "linked":
        sys.stdout.write(plain.linked(drawn(number, count)[0]))
    else:
        print("\n".join(facts(number, count)))
    return 0


if __name__ == "__main__":
    sys.exit(main(sys.argv[1:]))
