#!/usr/bin/env python3
"""Holds a program against the plain judge, on hand-made edges and on random linked texts.

    compare.py PROGRAM [COUNT] [SEED]

Each text goes through `PROGRAM solve FILE` or `PROGRAM replay FILE ..`, some with `--miller`, and
through the judge; standard output, standard error and status have to be the same. A text on which
they differ is kept and named, and the status is then 1.
"""

import os
import random
import subprocess
import sys
import tempfile
from collections import Counter

import plain
from plain import BOTH, BOTTOM, QUIET, Arc, Coupling, Design, Flop, Net, Port, Quad, Sink, Table, live

PATIENCE = 120


# ---- Random designs -------------------------------------------------------------------

def axis(rng, low, high):
    """An axis of one to four places, now and then of more."""
    size = rng.choice([1, 2, 2, 3, 3, 4]) if rng.random() < 0.95 else rng.randint(5, 16)
    size = min(size, high - low + 1)
    return sorted(rng.sample(range(low, high + 1), size))


def random_table(rng, unit, low, high, loads_end):
    """A table with values from low to high; now and then with numbers at their ends."""
    if rng.random() < 0.03:
        ends = [-plain.MOST_ENTRY, -3, 5, plain.MOST_ENTRY]
        slews, loads = (sorted(rng.sample(ends, rng.randint(1, 4))) for _ in BOTH)
    else:
        slews = axis(rng, rng.choice([0, -unit]), 6 * unit + 3)
        loads = axis(rng, rng.choice([0, 0, -50]), loads_end)
    wild = rng.random() < 0.02
    values = [-plain.MOST_ENTRY, plain.MOST_ENTRY, 7] if wild else range(low, high + 1)
    return Table(slews, loads, [[rng.choice(values) for _ in loads] for _ in slews])


def random_quad(rng, unit, slew_end):
    """A constraint with a narrow or a wide window, or a net that never switches."""
    if rng.random() < 0.15:
        return BOTTOM
    tlo = rng.randint(0, 8 * unit)
    thi = tlo + rng.choice([0, 0, 1, rng.randint(0, unit), rng.randint(0, 3 * unit)])
    slo = rng.randint(0, slew_end)
    return Quad(tlo, thi, slo, slo + rng.choice([0, 1, rng.randint(0, slew_end)]))


def random_design(rng):
    """A design of one to forty nets, with levels, couplings, wires and both edges."""
    unit = rng.choice([1, 2, 5, 10, 100, 1000, 30000, 100000])
    slew_end = rng.choice([0, 0, unit // 3, unit, 3 * unit + 1])
    size = rng.choice([1, 2, 3, 4, 5, 6, 8, 10, 12, rng.randint(2, 16), rng.randint(10, 40)])
    depth = rng.randint(1, 6)
    falling = rng.choice([0, 0, -unit, -3 * unit])
    loads_end = rng.choice([100, 3000, 10000])
    tables = [random_table(rng, unit, falling, 6 * unit, loads_end) for _ in range(rng.randint(1, 4))]
    tables += [random_table(rng, unit, rng.choice([0, -slew_end]), slew_end, loads_end)
               for _ in range(rng.randint(1, 2))]
    delays, slews = range(len(tables) - 1), range(rng.choice([0, len(tables) - 1]), len(tables))
    rank = [rng.randint(0, depth) for _ in range(size)]
    rank[rng.randrange(size)] = 0
    couplings = random_couplings(rng, rank, loads_end)
    names = random_names(rng, size)
    sinks, arcs = [[] for _ in range(size)], [[] for _ in range(size)]

    def coef():
        return rng.choice([0, rng.randint(0, 10**6), rng.randint(0, unit) * 10**6 + rng.randint(0, 9)])

    def new_sink(n):
        base = rng.choice([0, 0, rng.randint(0, 2 * unit * 10**6)])
        sinks[n].append(Sink(f"{n}/{len(sinks[n])}", base, [coef() for _ in couplings[n]]))

    for n in range(size):
        if rng.random() < 0.3:
            new_sink(n)
        feeders = [m for m in range(size) if rank[m] < rank[n]]
        near = [m for m in feeders if rank[m] == rank[n] - 1]
        for _ in range(rng.choice([1, 1, 2, 3]) if feeders and rng.random() < 0.95 else 0):
            m = rng.choice(near if near and rng.random() < 0.7 else feeders)
            if not sinks[m] or rng.random() < 0.6:
                new_sink(m)
            ends = rng.choice([[(0, 0), (1, 1)], [(0, 1), (1, 0)], [(0, 0), (0, 1)],
                               [(0, 0), (0, 1), (1, 0), (1, 1)], [(rng.choice(BOTH), rng.choice(BOTH))]])
            for before, after in ends:
                arcs[n].append(Arc(m, rng.randrange(len(sinks[m])), before, after,
                                   rng.choice(delays), rng.choice(slews)))
    nets = []
    for n in range(size):
        given = QUIET if arcs[n] else tuple(random_quad(rng, unit, slew_end) for _ in BOTH)
        kind = rng.choice("iiiw") if not arcs[n] else rng.choice("iwwwwwww")
        nets.append(Net(names[n], kind, rng.randint(0, loads_end), given, couplings[n], sinks[n], arcs[n]))
    return Design(random_period(rng, unit), tables, nets)


def random_period(rng, unit):
    """No period, or one: often so short that windows meet some periods apart."""
    if rng.random() < 0.5:
        return None
    short = rng.randint(1, 2 * unit), rng.randint(1, 8 * unit), rng.randint(unit, 20 * unit)
    return rng.choice([*short, *short, 1, 999, rng.randint(1, 10**7), plain.MOST_ENTRY])


def with_checks(rng, design):
    """The design with check points at some of its sinks, and then with a period."""
    places = [(n, sink) for n, net in enumerate(design.nets) for sink in range(len(net.sinks))]
    if not places or rng.random() < 0.25:
        return design
    unit = rng.choice([1, 10, 1000, 30000])
    tables = [*design.tables, *(random_table(rng, unit, rng.choice([0, -unit]), 2 * unit, 6 * unit) for _ in range(3))]

    def sides(values):
        return [None if rng.random() < 0.2 else rng.choice(values) for _ in BOTH]

    checks = []
    for _ in range(rng.choice([1, 2, 3, rng.randint(1, 12)])):
        hold, name, place = rng.random() < 0.5, rng.choice(["y", "f/D", "~", "end", "x" * 2049]), rng.choice(places)
        if rng.random() < 0.4:
            times = [0, 0, unit, rng.randint(-unit, unit), rng.randint(-unit, unit), plain.MOST_ENTRY, -plain.MOST_ENTRY]
            checks.append(Port(hold, name, *place, *sides(times)))
        else:
            checks.append(Flop(hold, name, *place, *rng.choice(places), *sides(range(len(tables)))))
    checks += rng.sample(checks, rng.randint(0, min(2, len(checks))))
    period = rng.choice([unit, 10 * unit, 100 * unit]) if design.period is None else design.period
    return design._replace(period=period, tables=tables, checks=checks)


def random_miller(rng):
    """Three numbers of quarters that rise, often the classical ones."""
    if rng.random() < 0.5:
        return plain.CLASSICAL
    return tuple(sorted(rng.randint(0, plain.MOST_QUARTERS) for _ in range(3)))


def random_rivals(rng):
    """A design of small groups of coupled nets that nearly meet: whether they do is up to them."""
    unit = rng.choice([4, 50, 600, 20000])
    slope, flat = Table([0], [0, 1000], [[3 * unit, 5 * unit]]), Table([0], [0], [[rng.choice([0, 0, 1, unit // 2])]])
    bend = Table([0, unit], [0, 500, 1000], [[rng.randint(2, 6) * unit for _ in range(3)] for _ in BOTH])
    tables, nets = [slope, bend, flat], []
    for group in range(rng.randint(1, 4)):
        size, start = rng.choice([2, 2, 2, 3, 4]), len(nets)
        stages, edges = rng.randint(1, 3), [rng.choice(BOTH) for _ in range(size)]
        time = rng.randint(0, unit)
        for stage in range(stages + 1):
            for k in range(size):
                n = start + stage * size + k
                rivals = sorted({start + stage * size + (k + d) % size for d in (1, size - 1)} - {n})
                if rng.random() < 0.2:
                    rivals.append(rng.choice([m for m in range(start, start + (stages + 1) * size) if m != n]))
                couplings = [Coupling(m, rng.choice([100, 200, rng.randint(0, 400)])) for m in rivals]
                coefs = [rng.choice([0, rng.randint(0, unit) * 10**6]) for _ in rivals]
                sinks = [Sink(f"s{k}", rng.randint(0, 2) * unit * 10**5, coefs)] if stage < stages else []
                given, arcs, e = [BOTTOM, BOTTOM], [], edges[k]
                if stage == 0:
                    given[e] = Quad(time, time, 0, rng.choice([0, 0, 1, unit // 5]))
                    time += rng.choice([0, 1, unit // 3, unit, rng.randint(0, 2 * unit)])
                else:
                    arcs = [Arc(n - size, 0, e, e, rng.choice([0, 0, 1]), 2)]
                nets.append(Net(f"g{group}.{stage}.{k}", "iw"[stage > 0], rng.choice([0, 100]), tuple(given),
                                couplings, sinks, arcs))
    return Design(random_period(rng, unit), tables, nets)


def random_couplings(rng, rank, cap_end):
    """Couplings, mostly the same on both sides and between nets of one rank."""
    size = len(rank)
    couplings = [[] for _ in rank]
    for _ in range(rng.choice([0, size // 2, size, 2 * size]) if size > 1 else 0):
        n = rng.randrange(size)
        equals = [m for m in range(size) if m != n and rank[m] == rank[n]]
        others = [m for m in range(size) if m != n]
        m = rng.choice(equals if equals and rng.random() < 0.8 else others)
        cap = rng.choice([0, 1, 1000, rng.randint(0, cap_end)])
        couplings[n].append(Coupling(m, cap))
        if rng.random() < 0.85:
            couplings[m].append(Coupling(n, rng.choice([cap, cap, rng.randint(0, cap_end)])))
    for entries in couplings:
        rng.shuffle(entries)
    return couplings


def random_names(rng, size):
    """Different names, a few of them odd."""
    odd = ["end", "rise", "!", "~", "a[0]", "i", "-", "0", "couple", "x" * rng.choice([2048, 2049])]
    names = [f"n{n}" for n in range(size)]
    for n in range(size):
        if odd and rng.random() < 0.04:
            names[n] = odd.pop(rng.randrange(len(odd)))
    return names


def with_given(design, change):
    """The same design with every live constraint changed by a function of its quad."""
    nets = [net._replace(given=tuple(q if q == BOTTOM else change(q) for q in net.given))
            for net in design.nets]
    return design._replace(nets=nets)


def moved_to_time_limit(rng, design):
    """The design moved in time so that a bound of its envelope comes to lie at the limit."""
    top = plain.envelope(design)
    bounds = [value for n in range(len(design.nets))
              for _, kind, value, _ in plain.limit_tests(design, top, n) if kind == "time"]
    given = [bound for net in design.nets for q in net.given if q != BOTTOM for bound in q[:2]]
    if not bounds or not given:
        return design
    side = rng.choice([-1, 1])
    goal = side * plain.MOST_TIME + rng.randint(-2, 2)
    far = max(bounds) if side > 0 else min(bounds)
    shift = goal - rng.choice([far, far, rng.choice(bounds)])
    least, most = -plain.MOST_TIME - min(given), plain.MOST_TIME - max(given)
    if least > most:
        return design
    shift = min(max(shift, least), most)
    return with_given(design, lambda q: q._replace(tlo=q.tlo + shift, thi=q.thi + shift))


def moved_to_slew_limit(rng, design):
    """The design with a wire or with slews that bring the slew at a sink to the limit."""
    if rng.random() < 0.5:
        add = plain.MOST_SLEW - rng.randint(0, 3)
        design = with_given(design, lambda q: q._replace(shi=add) if rng.random() < 0.5 else q)
        design = with_given(design, lambda q: q._replace(slo=q.shi - rng.choice([0, 1])))
        if rng.random() < 0.6:
            return design
    top = plain.envelope(design)
    places = [(n, e, k) for n, net in enumerate(design.nets) for e in BOTH if plain.live(top[n][e])
              for k in range(len(net.sinks))]
    if not places:
        return design
    n, e, k = rng.choice(places)
    net = design.nets[n]
    goal = plain.MOST_SLEW - top[n][e].shi + rng.randint(-3, 3)
    wire = -(-5 * goal // 11) + rng.randint(-1, 1)
    base = wire * 10**6 + rng.randint(0, 999999) - 2 * sum(net.sinks[k].coefs)
    if not 0 <= base <= plain.MOST_WIRE:
        return design
    sinks = [s._replace(base=base) if i == k else s for i, s in enumerate(net.sinks)]
    return design._replace(nets=[net._replace(sinks=sinks) if m == n else other
                                 for m, other in enumerate(design.nets)])


def with_huge_numbers(rng, design):
    """The design with a few loads, capacitances and wire products near their ends."""
    nets = list(design.nets)
    for _ in range(rng.randint(1, 3)):
        n = rng.randrange(len(nets))
        net = nets[n]
        room = plain.MOST_CAP - sum(2 * c.cap for c in net.couplings)
        sinks = [s._replace(coefs=[rng.choice([x, plain.MOST_WIRE, 2**60]) for x in s.coefs],
                            base=rng.choice([s.base, 2**58, 2**64, plain.MOST_WIRE])) for s in net.sinks]
        load = room + rng.choice([-1, 0, 0, 0, 0, 1])
        nets[n] = net._replace(load=load if load >= 0 else net.load,
                               sinks=sinks if rng.random() < 0.3 else net.sinks)
    return design._replace(nets=nets)


def with_bad_part(rng, design):
    """The design with one part that does not fit: a loop, a reference, an order, a range."""
    nets, tables = list(design.nets), list(design.tables)
    n = rng.randrange(len(nets))
    net, size = nets[n], len(nets)
    way = rng.randrange(15)
    if way >= 13 and design.checks:
        at = rng.randrange(len(design.checks))
        point = design.checks[at]
        changes = [dict(net=size), dict(net=-1), dict(sink=len(nets[point.net].sinks)), dict(name=""), dict(name="a b"),
                   dict(name="y" * 2050), dict(rise=2**40 + 1), dict(fall=-2**40 - 1), dict(rise=2**32)]
        changes += [dict(clock=size), dict(clock_sink=2**32 - 1), dict(fall=len(tables)), dict(rise=-1)] * isinstance(point, Flop)
        checks = [point._replace(**rng.choice(changes)) if k == at else other for k, other in enumerate(design.checks)]
        design = rng.choice([design._replace(checks=checks), design._replace(checks=checks), design._replace(period=None)])
    elif way == 12:
        numbers = rng.choice([(0, 4, 13), (5, 4, 8), (0, 9, 8), (-1, 4, 8), (13, 13, 13), (0, 256, 8)])
        design = design._replace(miller=numbers)
    elif way == 0 and net.arcs:
        sinks = net.sinks or [Sink("loop", 0, [0] * len(net.couplings))]
        fed = [m for m in range(size) if nets[m].arcs]
        m = rng.choice(fed)
        nets[n] = net._replace(sinks=sinks)
        nets[m] = nets[m]._replace(arcs=nets[m].arcs + [Arc(n, 0, 0, 0, 0, 0)])
    elif way == 1:
        arc = Arc(rng.choice([size, n, 2**32]), 0, 0, 1, 0, 0)
        nets[n] = net._replace(arcs=net.arcs + [arc])
    elif way == 2 and net.arcs:
        arc = net.arcs[0]
        arc = rng.choice([arc._replace(sink=len(nets[arc.source].sinks)), arc._replace(delay=len(tables)),
                          arc._replace(slew=len(tables)), arc._replace(slew=-1), arc._replace(sink=-1)])
        nets[n] = net._replace(arcs=[arc] + net.arcs[1:])
    elif way == 3:
        to = rng.choice([n, size, -1])
        sinks = [s._replace(coefs=s.coefs + [0]) for s in net.sinks]
        nets[n] = net._replace(couplings=net.couplings + [Coupling(to, 1)], sinks=sinks)
    elif way == 4 and size > 1:
        nets[n] = net._replace(name=nets[n - 1].name)
    elif way == 5:
        nets[n] = net._replace(name=rng.choice(["y" * 2050, "", "a b", "a\tb", "a\x7f", "a\x80", "a\xff"]))
    elif way == 6 and net.sinks:
        sink = net.sinks[-1]
        sink = rng.choice([sink._replace(coefs=sink.coefs + [0]), sink._replace(coefs=sink.coefs[:-1]),
                           sink._replace(name="z" * 2050), sink._replace(base=plain.MOST_WIRE + 1),
                           sink._replace(base=-1), sink._replace(name="")])
        nets[n] = net._replace(sinks=net.sinks[:-1] + [sink])
    elif way == 7:
        q = rng.choice([Quad(5, 4, 0, 0), Quad(4, 5, 3, 2), Quad(0, 0, -1, 0), Quad(0, plain.MOST_TIME + 1, 0, 0),
                        Quad(-plain.MOST_TIME - 1, 0, 0, 0), Quad(0, 0, 0, plain.MOST_SLEW + 1)])
        nets[n] = net._replace(given=rng.choice([(q, BOTTOM), (BOTTOM, q)]))
    elif way == 8:
        t = rng.randrange(len(tables))
        table = tables[t]
        tables[t] = rng.choice([table._replace(slews=table.slews[:-1] + [table.slews[0]]),
                                table._replace(loads=table.loads[::-1]),
                                table._replace(slews=table.slews[:-1] + [plain.MOST_ENTRY + 1]),
                                table._replace(rows=[[-plain.MOST_ENTRY - 1] * len(table.loads)] * len(table.rows)),
                                table._replace(rows=[row + [1] for row in table.rows]),
                                table._replace(rows=table.rows[:-1])])
    elif way == 9:
        nets[n] = net._replace(kind=rng.choice(["o", "", "iw", "I"]))
    elif way == 10:
        nets[n] = net._replace(load=rng.choice([-1, plain.MOST_CAP + 1]))
    else:
        return design._replace(period=rng.choice([0, -1, plain.MOST_ENTRY + 1]))
    return design._replace(nets=nets, tables=tables)


def with_bad_text(rng, text):
    """A text with one byte, one field, one line or its end changed."""
    lines = text.split(b"\n")
    k = rng.randrange(max(1, len(lines) - 1))
    fields = lines[k].split(b" ")
    f = rng.randrange(len(fields))
    way = rng.randrange(16)
    if way == 0:
        place = rng.randrange(len(text))
        return text[:place] + bytes([rng.randrange(256)]) + text[place + 1:]
    if way == 1:
        place = rng.randrange(len(text))
        return text[:place] + rng.choice([b"0", b"1", b"9", b"-", b" ", b"\n"]) + text[place + 1:]
    if way == 2:
        place = rng.randrange(len(text))
        return text[:place] + text[place + 1:]
    if way == 3:
        place = rng.randrange(len(text))
        return text[:place] + rng.choice([b"0", b" ", b"\r", b"\t", b"\n", b"\0", b"7"]) + text[place:]
    if way == 4:
        del lines[k]
    elif way == 5:
        lines.insert(k, lines[k])
    elif way == 6:
        m = rng.randrange(len(lines))
        lines[k], lines[m] = lines[m], lines[k]
    elif way in (7, 8):
        fields[f] = rng.choice([b"0" + fields[f], b"+" + fields[f], b"-" + fields[f], b"00", b"-0", b"",
                                fields[f] + b".0", b"1_0", fields[f] + b" ", b"9" * 5000])
        lines[k] = b" ".join(fields)
    elif way == 9:
        fields[f] = rng.choice([b"0", b"1", b"2", b"-1", b"4294967296", b"18446744073709551616", b"quiet",
                                b"rise", b"fall", b"none", b"i", b"w", b"340282366920938463463374607431768211457"])
        lines[k] = b" ".join(fields)
    elif way == 10:
        lines[k] = b" ".join(fields + [rng.choice([b"0", b"1", b"", b"x"])])
    elif way == 11:
        lines[k] = b" ".join(fields[:f] + fields[f + 1:])
    elif way in (14, 15) and fields[f].isdigit():
        fields[f] = b"%d" % (int(fields[f]) + rng.choice([-1, 1, 1, 10, -100, 2**32]))
        lines[k] = b" ".join(fields)
    elif way == 12:
        return rng.choice([text[:-1], text + b"\n", text + b"end\n", text.replace(b"\n", b"\r\n"),
                           b"\xef\xbb\xbf" + text, text + b" ", text[:rng.randrange(len(text))], b"\n" + text])
    else:
        return text[:rng.randrange(len(text))] + text[rng.randrange(len(text)):]
    return b"\n".join(lines)


def random_text(rng):
    """The bytes of one random file."""
    design = random_rivals(rng) if rng.random() < 0.3 else random_design(rng)
    design = with_checks(rng, design)._replace(miller=random_miller(rng))
    way = rng.random()
    if way < 0.14:
        design = moved_to_time_limit(rng, design)
    elif way < 0.24:
        design = moved_to_slew_limit(rng, design)
    elif way < 0.30:
        design = with_huge_numbers(rng, design)
    elif way < 0.40:
        design = with_bad_part(rng, design)
    text = plain.linked(design).encode("latin-1")
    return with_bad_text(rng, text) if 0.40 <= way < 0.55 else text


# ---- Hand-made edges ------------------------------------------------------------------

def source(name="a", kind="i", rise=BOTTOM, fall=BOTTOM, load=0, couplings=(), sinks=()):
    """A net without arcs."""
    return Net(name, kind, load, (rise, fall), list(couplings), list(sinks), [])


def checked_designs():
    """Designs with checks at the ends of what is taken, each with a word that says what it is."""
    most, end, rises = plain.MOST_ENTRY, plain.MOST_TIME, Quad(1000, 1200, 0, 0)
    nets = [source("a", rise=rises, sinks=[Sink("y", 2 * 10**6, [])]), source("c", fall=rises, sinks=[Sink("f", 0, [])])]
    for hold in (False, True):
        for side in (0, 1, -1, most, -most, most + 1, -most - 1):
            yield f"port {hold} by {side}", Design(most, [], nets, checks=[Port(hold, "y", 0, 0, side, side)])
        for time in (end - 2, -end):
            late = [source("a", rise=Quad(time, time, 0, 0), sinks=[Sink("y", 2 * 10**6, [])])]
            for side in (most, -most):
                yield f"port {hold} by {side} at {time}", Design(1, [], late, checks=[Port(hold, "y", 0, 0, side, None)])
        for place in ((0, 0), (1, 0), (2, 0), (0, 1), (-1, 0)):
            yield f"port {hold} at {place}", Design(7, [], nets, checks=[Port(hold, "y", *place, 3, 4)])
            for clock in ((0, 0), (1, 0), (0, 1), (2, 0)):
                for value in (-most, 0, most):
                    tables, point = [Table([0], [0], [[value]])], Flop(hold, "f", *place, *clock, 0, None)
                    yield f"flop {hold} at {place} by {clock} and {value}", Design(7, tables, nets, checks=[point])
        yield f"no side {hold}", Design(7, [], nets, checks=[Port(hold, "y", 0, 0, None, None)])
        yield f"table past the last {hold}", Design(7, [], nets, checks=[Flop(hold, "y", 0, 0, 0, 0, None, 0)])
        yield f"no period {hold}", Design(None, [], nets, checks=[Port(hold, "y", 0, 0, None, None)])
        equal = [Port(hold, name, 0, 0, 5, 5) for name in "xyz"]
        yield f"equal checks {hold}", Design(7, [], nets, checks=equal)
        peak = Table([0, 10, 20], [0, 10, 20], [[1, 2, 3], [4, 90, 5], [6, 7, 8]])
        for slew in (0, 1, 9, 10, 11, 20, 21):
            data = source("d", rise=Quad(0, 5, 3, slew + 3), sinks=[Sink("f/D", 10**6, [])])
            clock = source("k", rise=Quad(0, 3, 0, slew), fall=Quad(9, 9, 0, 0), sinks=[Sink("f/CK", 0, [])])
            points = [Flop(hold, "f/D", 0, 0, 1, 0, 0, 0), Flop(hold, "f/CK", 1, 0, 0, 0, 0, 0)]
            yield f"peak {hold} by slews to {slew}", Design(100, [peak], [data, clock], checks=points)


def edge_designs():
    """Designs at the ends of what is taken, each with a word that says what it is."""
    one, table = Quad(1000, 1000, 0, 0), Table([0], [0], [[5]])
    end, slew_end = plain.MOST_TIME, plain.MOST_SLEW
    plain_sink, wire = Sink("s", 0, []), Sink("s", 10**6, [])
    yield "empty", Design(None, [], [])
    yield from checked_designs()
    for period in (1, plain.MOST_ENTRY, plain.MOST_ENTRY + 1, 0):
        yield f"period {period}", Design(period, [], [])
    yield "unused tables", Design(7, [table, table], [])
    for length in (1, 2049, 2050):
        yield f"net name of {length}", Design(None, [], [source("b" * length, rise=one)])
        yield f"sink name of {length}", Design(None, [], [source(sinks=[Sink("b" * length, 0, [])])])
    for letter in "!~\x7f\x1f\x80\xff\0":
        yield f"name {letter!r}", Design(None, [], [source(letter)])
        yield f"sink name {letter!r}", Design(None, [], [source(sinks=[Sink(letter, 0, [])])])
    yield "equal sink names", Design(None, [], [source(rise=one, sinks=[plain_sink, plain_sink])])
    yield "sink named as its net", Design(None, [], [source("s", sinks=[plain_sink])])
    yield "equal net names", Design(None, [], [source("s"), source("s")])
    for kind in "iw":
        yield f"quiet source {kind}", Design(None, [], [source(kind=kind)])
        yield f"half source {kind}", Design(None, [], [source(kind=kind, fall=one)])
    for sink in (plain_sink, wire, Sink("s", 999999, [])):
        for t in (end, end - 1, end + 1, -end, -end - 1):
            yield f"time {t} wire {sink.base}", Design(None, [], [source(rise=Quad(t, t, 0, 0), sinks=[sink])])
        for s in (slew_end, slew_end - 1, slew_end - 2, slew_end + 1):
            yield f"slew {s} wire {sink.base}", Design(None, [], [source(fall=Quad(0, 1, 0, s), sinks=[sink])])
    late, slow = Quad(end - 1, end, 0, 0), Quad(0, end, 0, slew_end)
    yield "fall before a later sink", Design(None, [], [source(rise=one, fall=slow, sinks=[plain_sink, wire])])
    yield "time at a second sink", Design(None, [], [source(fall=slow, sinks=[plain_sink, Sink("t", 5 * 10**6, [])])])
    early = slow._replace(thi=end - 5)
    yield "slew at a first sink", Design(None, [], [source(fall=early, sinks=[wire, Sink("t", 9 * 10**6, [])])])
    yield "both edges past", Design(None, [], [source(rise=early, fall=slow, sinks=[wire])])
    yield "two nets past", Design(None, [], [source(rise=one), source("b", rise=slow, sinks=[wire]),
                                             source("c", rise=early, sinks=[wire])])
    fed = Net("b", "w", 0, QUIET, [], [], [Arc(1, 0, 0, 0, 0, 0)])
    yield "past at the lower level", Design(None, [table], [fed, source(rise=late, sinks=[wire])])
    for rise, fall in ((BOTTOM, BOTTOM), (one, BOTTOM), (BOTTOM, one), (one, one)):
        for time in (end - 2, end - 1, end):
            victim = source("v", rise=Quad(time, time, 0, 0), couplings=[Coupling(1, 7)], sinks=[Sink("s", 0, [10**6])])
            nets = [victim, source("a", rise=rise, fall=fall)]
            yield f"aggressor {live(rise)} {live(fall)} at {time}", Design(None, [], nets)
        for time in (-end, -end + 1, -end + 2):
            victim = fed._replace(couplings=[Coupling(1, 2)])
            aggressor = source("a", rise=rise, fall=fall, sinks=[Sink("s", 0, [])])
            feeder = source("f", rise=Quad(time, 0, 0, 0), sinks=[Sink("s", 0, [])])
            victim = victim._replace(arcs=[Arc(2, 0, 0, 0, 0, 0)])
            tables = [Table([0], [0, 2], [[-2, 0]])]
            yield f"load of aggressor {live(rise)} {live(fall)} at {time}", Design(None, tables, [victim, aggressor, feeder])
    for slews, loads in (([0, 0], [0]), ([0], [3, 3]), ([1, 0], [0]), ([0], [-1, -2]), ([0, 5, 5, 9], [0]), ([0], [1, 2, 2]),
                         ([-5, -4], [-2**40, 2**40])):
        yield f"axes {slews} {loads}", Design(None, [Table(slews, loads, [[0] * len(loads) for _ in slews])], [])
    fed = Net("b", "w", 0, QUIET, [], [], [Arc(1, 0, 0, 0, 0, 1)])
    for value in (-1, 0, 1, 2, plain.MOST_ENTRY, -plain.MOST_ENTRY):
        tables = [Table([0], [0], [[value]]), Table([0], [0], [[-3]])]
        for quad in (late, slow, Quad(-end, 0, 0, 1), Quad(-end, -end, 1, 1), Quad(end, end, 0, 0)):
            yield f"delay {value} after {quad}", Design(None, tables, [fed, source(rise=quad, sinks=[plain_sink])])
    for load, cap in ((2**46, 0), (2**46 + 1, 0), (2**46 - 2, 1), (2**46 - 1, 1), (0, 2**45), (0, 2**45 + 1), (0, 2**46)):
        nets = [source("a", rise=one, load=load, couplings=[Coupling(1, cap)]), source("b")]
        yield f"load {load} and {cap}", Design(None, [], nets)
    for base, coef in ((2**102, 0), (0, 2**102), (2**102 + 1, 0), (0, 2**102 + 1), (2**102, 2**102)):
        for rise in (BOTTOM, one):
            sinks = [Sink("s", base, [coef])]
            nets = [source("a", rise=rise, couplings=[Coupling(1, 3)], sinks=sinks), source("b")]
            yield f"wire {base} {coef} {rise == one}", Design(None, [], nets)
    coefs = [plain.MOST_WIRE] * 2000
    nets = [source("a", fall=one, couplings=[Coupling(1, 0)] * 2000, sinks=[Sink("s", coefs[0], coefs)]), source("b")]
    yield "many great coefficients", Design(None, [], nets)
    most = plain.MOST_ENTRY
    for load, slo in ((0, 0), (1, 3), (most - 1, 7), (most, most), (plain.MOST_CAP, 1), (12345678901, 98765432109)):
        feeder = source("c", rise=Quad(0, 9, slo, most), sinks=[plain_sink])
        tables = [Table([-most, most], [-most, most], [[most, -most], [1 - most, most - 1]]),
                  Table([-most, most - 1], [1 - most, most], [[-most, most], [most, -most]])]
        yield f"wide tables, load {load}", Design(None, tables, [fed._replace(load=load), feeder])
    for rows, columns in ((64, 64), (65, 1), (1, 65), (64, 1), (1, 64), (1, 1)):
        grid = [[(37 * i * i + 11 * i * j) % 101 - 20 for j in range(columns)] for i in range(rows)]
        tables = [Table([3 * i for i in range(rows)], [2 * j for j in range(columns)], grid), Table([0], [0], [[9]])]
        feeder = source("c", rise=Quad(0, 9, 0, 250), sinks=[plain_sink])
        yield f"table {rows} by {columns}", Design(None, tables, [fed._replace(load=5), feeder])
    nets = [fed._replace(kind="i", name="x"), source("y", rise=one, sinks=[plain_sink])]
    yield "input with arcs", Design(None, [table, table], nets)
    for to in (-1, 0, 1, 2, 2**32 + 1):
        nets = [source("a", rise=one, couplings=[Coupling(to, 1)]), source("b")]
        yield f"coupling of net 0 of two to {to}", Design(None, [], nets)
    for arc in (Arc(1, 0, 0, 0, 0, 1), Arc(2, 0, 0, 0, 0, 1), Arc(-1, 0, 0, 0, 0, 1), Arc(1, 1, 0, 0, 0, 1),
                Arc(1, -1, 0, 0, 0, 1), Arc(1, 0, 0, 0, 2, 1), Arc(1, 0, 0, 0, 0, 2), Arc(1, 0, 0, 0, -1, 1),
                Arc(1, 0, 0, 0, 0, -1), Arc(2**32 + 1, 0, 0, 0, 0, 1)):
        nets = [fed._replace(arcs=[arc]), source("c", rise=one, sinks=[plain_sink])]
        yield f"{arc}", Design(None, [table, table], nets)
    for coefs in ([], [1], [1, 2], [-1]):
        nets = [source("a", couplings=[Coupling(1, 1)], sinks=[Sink("s", 0, coefs)]), source("b")]
        yield f"one coupling and coefficients {coefs}", Design(None, [], nets)
    yield "arc from itself", Design(None, [table, table], [fed, fed._replace(sinks=[plain_sink], name="c")])
    ring = [Net(f"r{n}", "w", 0, QUIET, [], [plain_sink], [Arc((n + 1) % 3, 0, 0, 0, 0, 0)]) for n in range(3)]
    yield "ring of three", Design(None, [table], ring)
    chain = [source("r0", rise=one, sinks=[plain_sink])]
    chain += [Net(f"r{n}", "w", 0, QUIET, [], [plain_sink], [Arc(n - 1, 0, 0, 0, 0, 0)]) for n in range(1, 120)]
    yield "chain", Design(None, [table], chain)
    long = [Net(f"r{n}", "w", 0, QUIET, [], [plain_sink], [Arc(n + 1, 0, 0, 0, 0, 0)]) for n in range(3000)]
    yield "long quiet chain", Design(None, [table], long + [source("end", sinks=[plain_sink])])
    yield "many sources", Design(None, [], [source(f"s{n}", rise=one) for n in range(3000)])
    pair = [[Coupling(1, 2)], [Coupling(0, 2)] * 3]
    yield "coupled more than once", Design(None, [], [source("ab"[n], rise=one, couplings=pair[n]) for n in BOTH])
    yield "coupled on one side", Design(None, [], [source("a", rise=one, couplings=pair[0]), source("b", fall=one)])
    many = [source("a", couplings=[Coupling(1, 0)] * 11600, sinks=[Sink("s", 0, [0] * 11600)]), source("b")]
    arcs, rest = divmod(plain.MOST_READS - 1, 11601)
    for more in BOTH:
        reader = Net("c", "w", 0, QUIET, [Coupling(1, 0)] * (rest + more), [], [Arc(0, 0, 0, 0, 0, 0)] * arcs)
        yield f"{more} reads too many", Design(None, [table], [*many, reader])
    pin = Sink("s", 0, [0] * len(reader.couplings))
    reader = reader._replace(sinks=[pin], arcs=reader.arcs + [Arc(2, 0, 0, 0, 0, 0)])
    yield "too many reads and a loop", Design(None, [table], [*many, reader])
    slope, flat = Table([0], [0, 10000], [[800, 2800]]), Table([0], [0], [[0]])
    for fall in (100, 200, 201, 399, 400, 401, 5000):
        feeders = [source("p", rise=Quad(0, 0, 0, 0), sinks=[plain_sink]),
                   source("q", fall=Quad(fall, fall, 0, 0), sinks=[plain_sink])]
        victims = [Net("ab"[n], "w", 0, QUIET, [Coupling(3 - n, 1000)], [], [Arc(n, 0, n, n, 0, 1)]) for n in BOTH]
        yield f"coupled drivers, {fall} apart", Design(None, [slope, flat], feeders + victims)
        for miller in ((0, 4, 12), (4, 4, 4), (2, 4, 6), (0, 0, 0), (12, 12, 12), (1, 3, 7), (0, 4, 13), (5, 4, 8), (0, 9, 8)):
            yield f"coupled drivers, {fall} apart, by {miller}", Design(None, [slope, flat], feeders + victims, miller)


def edge_texts():
    """Texts at the ends of what is taken, each with a word that says what it is."""
    for what, design in edge_designs():
        yield what, plain.linked(design).encode("latin-1")
    text = b"xtalk-design 1\ncounts 0 1 0\nperiod none\nnet a i 0 0 0 0\nrise 1000 1000 0 0\nfall quiet\nend\n"
    bottom = b"%d %d %d %d" % tuple(BOTTOM)
    changes = [(b"design 1", b"design 2"), (b"1000 1000", b"1000 01000"), (b"1000 1000", b"1000 900"),
               (b"end\n", b""), (b"end\n", b"end"), (b"\n", b"\r\n"), (b"end\n", b"end\n\n"), (b" i ", b"  i "),
               (b"quiet", b"quiet "), (b"quiet", b"quiet 0 0 0"), (b"quiet", b"silent"), (b"quiet", b"QUIET"),
               (b"quiet", bottom), (b" 0 0\n", b" 0 -0\n"), (b"1000 1000", b"-1000 +1000"),
               (b"1000 1000", b"-1000 1000"), (b"1000 1000 0 0", b"1000 1000 0"), (b"1000", "\uff11000".encode()),
               (b"counts 0", b"counts 00"), (b"counts 0 1 0\nperiod none", b"counts 0 1 1\nperiod 1"),
               (b"counts 0 1 0", b"counts 0 262145 0"), (b"counts 0 1 0", b"counts 0 1 1048577"),
               (b"counts 0 1 0", b"counts 0 4294967296 0"),
               (b"0 0 0 0\n", b"0 0 0 -1\n"), (b"period none", b"period 0"), (b"period none", b"period"),
               (b"period none", b"period none none"), (b"rise 1000", b"fall 1000"), (b"net a", b"net \xe9"),
               (b"xtalk", b"\xef\xbb\xbfxtalk"), (b"net", b"Net")]
    second = b"xtalk-design 2\ncounts 0 1 0\nperiod none\nmiller "
    first = text[:text.index(b"net")]
    changes += [(first, second + numbers + b"\n") for numbers in
                (b"0 4 12", b"0 4 8", b"0 0 0", b"12 12 12", b"0 4 13", b"5 4 8", b"0 9 8", b"00 4 12", b"0 4", b"0 4 12 12",
                 b"-0 4 12", b"+0 4 12", b"0 4  12", b"0,4,12", b"0 4 268", b"0 4 4294967308", b"", b"0 4 12 ")]
    changes += [(b"design 1", b"design 3"), (b"design 1", b"design 02"), (b"design 1", b"design"),
                (b"period none\n", b"period none\nmiller 0 4 8\n"), (b"period none\n", b"period none\nmiller 0 4 12\n"),
                (first, b"xtalk-design 2\ncounts 0 1 0\nmiller 0 4 12\nperiod none\n")]
    for old, new in [(b"", b"")] + changes:
        yield f"one net with {new!r} for {old!r}", text.replace(old, new) if old else text
    yield "no bytes", b""
    yield "one newline", b"\n"


def random_words(rng, folder):
    """Command lines with options, most of them nearly right."""
    file = os.path.join(folder, "source")
    with open(file, "wb") as out:
        out.write(plain.linked(Design(None, [], [source(rise=Quad(1, 2, 3, 4))])).encode())
    numbers = ["1", "64", "65", "0", "007", "-1", "+1", "", "1 ", "0x1", "1.0", "0" * 19 + "2", "0" * 20 + "2", "٣"]
    kinds = ["all", "checks", "noise", "check", "ALL", "", "-all", "noises", "Noise"]
    millers = ["0,4,8", "0,4,12", "4,04,004", "0,4,13", "4,0,8", "0,4", "0,4,8,9", ",4,8", "0,,8", "0,4,", "0, 4,8", "-1,4,8",
               "0,+4,8", "0;4;8", "0" * 19 + "1,4,8", "0" * 20 + "1,4,8", "", "1,2,18446744073709551617", "4,4,4"]
    pieces = [[file]] * 8 + [[""], ["-"], ["--"], ["-w", "2"], ["--work=2"], ["--workers"], ["--kind"], ["all"]]
    pieces += [["--workers", n] for n in numbers] + [[f"--workers={n}"] for n in numbers]
    pieces += [["--kind", k] for k in kinds] + [[f"--kind={k}"] for k in kinds]
    engines = ["rounds", "marks", "mark", "MARKS", "", "-marks", "rounds "]
    pieces += [["--engine", e] for e in engines] + [[f"--engine={e}"] for e in engines]
    pieces += [["--miller", m] for m in millers] + [[f"--miller={m}"] for m in millers]
    orders = ["0", "5", "18446744073709551615", "18446744073709551616", "-5", "", "0x5", "0" * 19 + "7", "0" * 20 + "7"]
    pieces += [["--order"]] + [["--order", n] for n in orders] + [[f"--order={n}"] for n in orders]
    right = [["--order", "5"], ["--workers=3"]]
    for _ in range(400):
        parts = [rng.choice(pieces) for _ in range(rng.choice([0, 1, 1, 2, 2, 3]))]
        parts.insert(rng.randint(0, len(parts)), [file] if rng.random() < 0.8 else [])
        command = rng.choice(["solve"] * 12 + ["replay"] * 7 + ["sol"])
        for part in right if command == "replay" and rng.random() < 0.8 else []:
            parts.insert(rng.randint(0, len(parts)), part)
        yield [command, *(word for part in parts for word in part)]


def random_command(rng, file):
    """The words of `solve`, of a report of some kind, or those of `replay` in some order; and the kind."""
    if rng.random() < 0.7:
        kind = rng.choice(["all", "all", "checks", "noise"])
        engine = rng.choice([[], [], ["--engine", "marks"], ["--engine", "rounds"]])
        return ["solve", file, *(["--kind", kind] if kind != "all" else []), *engine], kind
    order = rng.choice([0, 1, 5, 2**64 - 1, rng.randrange(2**64)])
    return ["replay", file, "--order", str(order), "--workers", str(rng.choice([1, 2, 3, 7, 64]))], "all"


def random_option(rng):
    """The option for other Miller numbers with its value, or none; and what it asks for."""
    if rng.random() < 0.7:
        return [], None
    miller = random_miller(rng)
    return ["--miller", ",".join(map(str, miller))], miller


# ---- Comparing ------------------------------------------------------------------------

def run_program(program, words):
    """Status, standard output and standard error of the program on a command line."""
    head = [sys.executable, program] if program.endswith(".py") else [program]
    try:
        done = subprocess.run(head + words, capture_output=True, stdin=subprocess.DEVNULL, timeout=PATIENCE)
    except subprocess.TimeoutExpired:
        return "no end", b"", b""
    return done.returncode, done.stdout, done.stderr


def as_bytes(wanted):
    """An answer of the judge as the program would give it."""
    status, out, err = wanted
    return status, os.fsencode(out), os.fsencode(err)


def inner_extremes(design, windows):
    """Whether some arc reads a table whose extreme in the box is at no corner of the box."""
    meets = plain.overlap_in(design, windows)
    for n, net in enumerate(design.nets):
        for arc in net.arcs:
            if plain.live(windows[arc.source][arc.input]):
                _, _, (s0, s1, c0, c1) = plain.arrival_and_box(design, windows, meets, n, arc)
                for table in (design.tables[arc.delay], design.tables[arc.slew]):
                    corners = [plain.table_value(table, s, c) for s in (s0, s1) for c in (c0, c1)]
                    if plain.table_range(table, s0, s1, c0, c1) != (min(corners), max(corners)):
                        return True
    return False


def laws(rng, design, verdict):
    """Checks of the judge itself: order of its windows, another order of steps, every point."""
    for net in range(len(design.nets)):
        for e in BOTH:
            low, high, top = (windows[net][e] for windows in (verdict.low, verdict.high, verdict.envelope))
            assert plain.join(low, high) == high and plain.join(high, top) == top
    widest = Quad(-plain.END, plain.END, -plain.END, plain.END)
    assert plain.fixpoint(design, [(widest, widest)] * len(design.nets)) == verdict.high
    for start, goal in ((plain.nothing(design), verdict.low), (verdict.envelope, verdict.high)):
        windows = list(start)
        while plain.operator(design, windows) != windows:
            for n in rng.sample(range(len(windows)), len(windows)):
                windows[n] = plain.evaluate(design, windows, plain.overlap_in(design, windows), n)
        assert windows == goal
    plain.look_at_all_points = True
    assert plain.operator(design, verdict.low) == verdict.low
    assert plain.operator(design, verdict.high) == verdict.high
    plain.look_at_all_points = False


def note(counts, verdict):
    """Counts what a text was good for."""
    if verdict.passed:
        counts[f"status 5 by {verdict.passed[0]}"] += 1
    if verdict.low is None:
        return
    design, low, high = verdict.design, verdict.low, verdict.high
    report = plain.report(design, low, high)
    counts["least and greatest windows differ"] += low != high
    counts["greatest windows differ from the envelope"] += high != verdict.envelope
    counts["a range with an extreme at no corner of its box"] += (
        inner_extremes(design, low) or inner_extremes(design, high))
    counts["a slew table with a value below 0"] += any(
        value < 0 for net in design.nets for arc in net.arcs for row in design.tables[arc.slew].rows for value in row)
    for word in (" sure", " possible", "unconstrained", "least -", " idle", " setup -", " hold -", "path setup", "path hold", "step "):
        counts[f"report with `{word.strip()}`"] += word in report


def main(words):
    """Runs the comparison and gives its status."""
    program = os.path.abspath(words[0])
    count = int(words[1]) if words[1:] else 500
    seed = int(words[2]) if words[2:] else 1
    folder = tempfile.mkdtemp(prefix="xtalk-compare-")
    counts, statuses, kept = Counter(), Counter(), []

    def hold(what, words, wanted, file=None):
        got = run_program(program, words)
        statuses[wanted[0]] += 1
        if got != as_bytes(wanted):
            kept.append(file or what)
            print(f"DIFFERENT: {what}: {file or words}")
            sides = ("judge", as_bytes(wanted)), ("program", got)
            outs = [out.split(b"\n") for _, (_, out, _) in sides]
            same = next((k for k, (a, b) in enumerate(zip(*outs)) if a != b), min(map(len, outs)))
            for (who, (status, _, err)), lines in zip(sides, outs):
                print(f"  {who}: status {status}, err {err[:300]!r}, from line {same + 1}: {lines[same:same + 1]!r}")
        elif file:
            os.remove(file)

    for line in ([], ["solve"], ["solve", ""], ["solve", "-"], ["solve", "--"], ["solve", "-x"], ["solve", "a", "b"],
                 ["solve", "--help"], ["--version"], [""], ["report", "a"], ["Solve", "a"], ["solve ", "a"],
                 ["solve", "a", ""], ["solve", "no such file"], ["solve", folder], ["solve", "/no/such/ü"],
                 ["solve", " "], *random_words(random.Random(seed), folder)):
        hold("words", line, plain.outcome(line))
    for more in (0, 1):
        with open(os.path.join(folder, f"zeros-{more}"), "wb") as out:
            out.truncate(plain.MOST_BYTES + more)
        hold("words", ["solve", out.name], plain.outcome(["solve", out.name]), out.name)
    texts = [(what, text, None) for what, text in edge_texts()]
    for number in range(len(texts) + count):
        if number < len(texts):
            what, text, _ = texts[number]
            file = os.path.join(folder, f"edge-{number}.xt")
        else:
            number -= len(texts)
            what, text = f"random {seed} {number}", random_text(random.Random(f"{seed} {number}"))
            file = os.path.join(folder, f"random-{seed}-{number}.xt")
        with open(file, "wb") as out:
            out.write(text)
        rng = random.Random(f"{seed} {what}")
        options, miller = random_option(rng)
        verdict = plain.judge(text, miller)
        if verdict.low is not None and what.startswith("random") and number % 10 == 0:
            laws(random.Random(number), verdict.design, verdict)
        note(counts, verdict)
        command, kind = random_command(rng, file)
        hold(what, [*command, *options], plain.answer(file, text, verdict, kind), file)
    print(f"{len(texts)} edges and {count} random texts with seed {seed}")
    for status, times in sorted(statuses.items()):
        print(f"status {status}: {times}")
    for what, times in sorted(counts.items()):
        print(f"{what}: {times}")
    os.remove(os.path.join(folder, "source"))
    if kept:
        print(f"{len(kept)} differences: " + ", ".join(kept))
        return 1
    os.rmdir(folder)
    print("no difference")
    return 0


if __name__ == "__main__":
    sys.exit(main(sys.argv[1:]))
