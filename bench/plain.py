#!/usr/bin/env python3
"""An independent judge of `xtalk solve`, slow and plain, that shares nothing with the program.

    plain.py solve WORDS..   prints what the program has to print and ends with its status; so with `replay` and `eco`
    plain.py slow WORDS..    the same, with every small box of a table looked at point by point
    plain.py selftest [N]    compares the short cuts taken here with plain counting, N times

Times are whole femtoseconds, capacitances whole attofarads, and a wire's products whole
milliohm attofarads; the three Miller numbers of a design count in quarters. There are whole
numbers only, and each division is an exact floor.
An edge is 0 where it rises and 1 where it falls. An assignment is a list with one entry
per net, which is a pair of quads: that of the rising edge and that of the falling one.
"""

import os
import random
import sys
from collections import namedtuple

import refusals

Quad = namedtuple("Quad", "tlo thi slo shi")
Table = namedtuple("Table", "slews loads rows")
Coupling = namedtuple("Coupling", "to cap")
Sink = namedtuple("Sink", "name base coefs")
Arc = namedtuple("Arc", "source sink input output delay slew")
Net = namedtuple("Net", "name kind load given couplings sinks arcs")
CLASSICAL = (0, 4, 8)
Design = namedtuple("Design", "period tables nets miller checks", defaults=[CLASSICAL, ()])
Flop = namedtuple("Flop", "hold name net sink clock clock_sink rise fall")
Port = namedtuple("Port", "hold name net sink rise fall")
Slack = namedtuple("Slack", "point edge greatest least")
Verdict = namedtuple("Verdict", "design envelope passed low high")

EDGES = ("rise", "fall")
BOTH = (0, 1)
END = 2**62
BOTTOM = Quad(END, -END, END, -END)
QUIET = (BOTTOM, BOTTOM)

MOST_BYTES, MOST_NAME, MOST_GRID, SMALL_BOX = 2**28, 2049, 64, 20_000
MOST_NETS, MOST_TABLES, MOST_COUPLINGS = 2**18, 2**18, 2**20
MOST_COEFS, MOST_ARCS, MOST_READS, MOST_CHECKS = 2**24, 2**22, 2**27, 2**20
MOST_TIME, MOST_SLEW, MOST_CAP, MOST_WIRE, MOST_ENTRY = 2**46, 2**40, 2**46, 2**102, 2**40
MOST_QUARTERS = 12

look_at_all_points = False

def line(*fields):
    """One line of a text, its fields parted by single spaces."""
    return " ".join(map(str, fields)) + "\n"

def linked(design):
    """The text of a design: every design has exactly one."""
    version = 1 if design.miller == CLASSICAL else 2
    text = [line("xtalk-design", version), line("counts", len(design.tables), len(design.nets), len(design.checks))]
    text.append(line("period", "none" if design.period is None else design.period))
    text.extend(miller_lines(design))
    for table in design.tables:
        text.append(line("table", len(table.slews), len(table.loads)))
        text.append(line("slews", *table.slews))
        text.append(line("loads", *table.loads))
        text.extend(line("row", *row) for row in table.rows)
    for net in design.nets:
        sizes = len(net.couplings), len(net.sinks), len(net.arcs)
        text.append(line("net", net.name, net.kind, net.load, *sizes))
    for net in design.nets:
        for edge in BOTH if not net.arcs else ():
            quad = net.given[edge]
            text.append(line(EDGES[edge], *(["quiet"] if quad == BOTTOM else quad)))
        text.extend(line("couple", *coupling) for coupling in net.couplings)
        text.extend(line("sink", sink.name, sink.base, *sink.coefs) for sink in net.sinks)
        for arc in net.arcs:
            edges = EDGES[arc.input], EDGES[arc.output]
            text.append(line("arc", arc.source, arc.sink, *edges, arc.delay, arc.slew))
    text.extend(map(check_line, design.checks))
    return "".join(text) + line("end")

def kind_of(point):
    """What a check point tests."""
    return "hold" if point.hold else "setup"

def check_line(point):
    """The line of a check point in the text of its design; an edge that is not checked has a dash."""
    word, places = ("port", point[2:4]) if isinstance(point, Port) else ("flop", point[2:6])
    sides = ["-" if side is None else side for side in (point.rise, point.fall)]
    return line(word, kind_of(point), point.name, *places, *sides)

def miller_lines(design):
    """The line of the Miller numbers, which the classical ones do not have."""
    return [] if design.miller == CLASSICAL else [line("miller", *design.miller)]

def guess(text):
    """The only design that the text can be of; ValueError or IndexError where none can be."""
    lines = text.split("\n")
    lines.reverse()

    def fields(word):
        first, *rest = lines.pop().split(" ")
        if first != word:
            raise ValueError
        return rest

    def numbers(word):
        return [int(field) for field in fields(word)]

    def given_quad(edge):
        rest = fields(edge)
        if rest == ["quiet"]:
            return BOTTOM
        tlo, thi, slo, shi = map(int, rest)
        return Quad(tlo, thi, slo, shi)

    (version,) = fields("xtalk-design")
    tables_count, nets_count, checks_count = numbers("counts")
    (period,) = fields("period")
    low, mid, high = CLASSICAL if version == "1" else numbers("miller")
    tables, nets = [], []
    for _ in range(tables_count):
        row_count, _ = numbers("table")
        slews, loads = numbers("slews"), numbers("loads")
        tables.append(Table(slews, loads, [numbers("row") for _ in range(row_count)]))
    heads = [fields("net") for _ in range(nets_count)]
    for name, kind, load, coupling_count, sink_count, arc_count in heads:
        source = int(arc_count) == 0
        given = tuple(given_quad(edge) for edge in EDGES) if source else QUIET
        couplings, sinks, arcs = [], [], []
        for _ in range(int(coupling_count)):
            to, cap = numbers("couple")
            couplings.append(Coupling(to, cap))
        for _ in range(int(sink_count)):
            sink_name, base, *coefs = fields("sink")
            sinks.append(Sink(sink_name, int(base), [int(coef) for coef in coefs]))
        for _ in range(int(arc_count)):
            feeder, sink, before, after, delay, slew = fields("arc")
            ends = EDGES.index(before), EDGES.index(after)
            arcs.append(Arc(int(feeder), int(sink), *ends, int(delay), int(slew)))
        nets.append(Net(name, kind, int(load), given, couplings, sinks, arcs))
    checks = [guess_check(lines.pop().split(" ")) for _ in range(checks_count)]
    return Design(None if period == "none" else int(period), tables, nets, (low, mid, high), checks)

def guess_check(fields):
    """The only check point that these fields can be of."""
    word, kind, name, *rest = fields
    *places, rise, fall = [None if field == "-" else int(field) for field in rest]
    return {"flop": Flop, "port": Port}.get(word, Port)(kind == "hold", name, *places, rise, fall)

def read_linked(data):
    """The design whose linked text these bytes are, or None where there is no such design."""
    text = data.decode("latin-1")
    try:
        design = guess(text)
    except (ValueError, IndexError, TypeError):
        return None
    return design if sound(design) and linked(design) == text else None

def sound_name(name):
    """Whether a name has a fit length and visible characters alone."""
    return 1 <= len(name) <= MOST_NAME and all("!" <= letter <= "~" for letter in name)

def sound_table(table):
    """Whether both axes rise strictly, the grid of values is full and all numbers are in range."""
    slews, loads, rows = table
    return (
        1 <= len(slews) == len(rows) <= MOST_GRID
        and 1 <= len(loads) <= MOST_GRID
        and all(len(row) == len(loads) for row in rows)
        and all(a < b for axis in (slews, loads) for a, b in zip(axis, axis[1:]))
        and all(abs(x) <= MOST_ENTRY for numbers in (slews, loads, *rows) for x in numbers)
    )

def sound_net(design, number):
    """Whether a net keeps its ranges and names only what the design has."""
    net, nets, tables = design.nets[number], design.nets, design.tables
    return (
        net.kind in ("i", "w")
        and all(map(sound_name, [net.name, *(sink.name for sink in net.sinks)]))
        and all(-MOST_TIME <= q.tlo <= q.thi <= MOST_TIME and 0 <= q.slo <= q.shi <= MOST_SLEW
                for q in net.given if q != BOTTOM)
        and all(0 <= c.to < len(nets) and c.to != number and c.cap >= 0 for c in net.couplings)
        and net.load >= 0
        and net.load + sum(2 * c.cap for c in net.couplings) <= MOST_CAP
        and all(len(sink.coefs) == len(net.couplings) for sink in net.sinks)
        and all(0 <= x <= MOST_WIRE for sink in net.sinks for x in [sink.base, *sink.coefs])
        and all(0 <= arc.source < len(nets) for arc in net.arcs)
        and all(0 <= arc.sink < len(nets[arc.source].sinks) for arc in net.arcs)
        and all(0 <= t < len(tables) for arc in net.arcs for t in (arc.delay, arc.slew))
    )

def sound_check(design, point):
    """Whether a check point keeps its ranges and names only what the design has."""
    nets, sides = design.nets, [side for side in (point.rise, point.fall) if side is not None]

    def has_sink(n, sink):
        return n is not None and sink is not None and 0 <= n < len(nets) and 0 <= sink < len(nets[n].sinks)

    return (
        design.period is not None
        and sound_name(point.name)
        and has_sink(point.net, point.sink)
        and (all(abs(side) <= MOST_ENTRY for side in sides) if isinstance(point, Port) else
             has_sink(point.clock, point.clock_sink) and all(0 <= side < len(design.tables) for side in sides))
    )

def reads(nets):
    """How many nets are looked at when each net with arcs is evaluated once."""
    return sum(
        1 + len(net.couplings) + sum(1 + len(nets[arc.source].couplings) for arc in net.arcs)
        for net in nets
        if net.arcs
    )

def levels(nets):
    """The length of the longest chain of nets that ends at each net; None where arcs go round."""
    level = [1] * len(nets)
    awaited = [len(net.arcs) for net in nets]
    fed = [[] for _ in nets]
    for number, net in enumerate(nets):
        for arc in net.arcs:
            fed[arc.source].append(number)
    known = [number for number, net in enumerate(nets) if not net.arcs]
    for number in known:
        for reader in fed[number]:
            level[reader] = max(level[reader], level[number] + 1)
            awaited[reader] -= 1
            if awaited[reader] == 0:
                known.append(reader)
    return level if len(known) == len(nets) else None

def sound_miller(numbers):
    """Whether three numbers of quarters rise up to three whole capacitors."""
    low, mid, high = numbers
    return 0 <= low <= mid <= high <= MOST_QUARTERS

def sound(design):
    """Whether the parts of a design fit together and none of them is more than is taken."""
    nets = design.nets
    return (
        sound_miller(design.miller)
        and (design.period is None or 1 <= design.period <= MOST_ENTRY)
        and len(design.tables) <= MOST_TABLES
        and len(nets) <= MOST_NETS
        and len(design.checks) <= MOST_CHECKS
        and all(map(sound_table, design.tables))
        and len({net.name for net in nets}) == len(nets)
        and all(sound_net(design, number) for number in range(len(nets)))
        and all(sound_check(design, point) for point in design.checks)
        and sum(len(net.couplings) for net in nets) <= MOST_COUPLINGS
        and sum(len(net.couplings) * len(net.sinks) for net in nets) <= MOST_COEFS
        and sum(len(net.arcs) for net in nets) <= MOST_ARCS
        and reads(nets) <= MOST_READS
        and levels(nets) is not None
    )

def axis_weights(axis, place):
    """The grid lines from which a place of an axis is read, their weights, and the cell's width."""
    place = min(max(place, axis[0]), axis[-1])
    if len(axis) == 1:
        return [(0, 1)], 1
    low = max(k for k in range(len(axis) - 1) if axis[k] <= place)
    weights = [(low, axis[low + 1] - place), (low + 1, place - axis[low])]
    return weights, axis[low + 1] - axis[low]

def table_value(table, slew, load):
    """The bilinear value of a table at one point, rounded down once at the end."""
    by_slew, height = axis_weights(table.slews, slew)
    by_load, width = axis_weights(table.loads, load)
    total = sum(a * b * table.rows[i][j] for i, a in by_slew for j, b in by_load)
    return total // (height * width)

def range_over_points(table, s0, s1, c0, c1):
    """The least and the greatest value of a table in a box, found by looking at every point."""
    points = ((s, c) for s in range(s0, s1 + 1) for c in range(c0, c1 + 1))
    values = [table_value(table, s, c) for s, c in points]
    return min(values), max(values)

def range_over_corners(table, s0, s1, c0, c1):
    """The same range, from the corners of the pieces into which the grid lines cut the box."""
    # In a piece the exact value is linear in either variable alone. So from any point one can
    # walk to a side and along it to a corner without the value falling, and likewise without
    # its rising. Corners are whole points, rounding down keeps the order of values, and
    # beyond the ends of an axis the value does not change.
    at_slews = {s0, s1, *(s for s in table.slews if s0 < s < s1)}
    at_loads = {c0, c1, *(c for c in table.loads if c0 < c < c1)}
    values = [table_value(table, s, c) for s in at_slews for c in at_loads]
    return min(values), max(values)

def table_range(table, s0, s1, c0, c1):
    """The least and the greatest value of a table over all whole points of a box."""
    if look_at_all_points and (s1 - s0 + 1) * (c1 - c0 + 1) <= SMALL_BOX:
        return range_over_points(table, s0, s1, c0, c1)
    return range_over_corners(table, s0, s1, c0, c1)

def live(quad):
    """Whether a quad admits any transition at all."""
    return quad.tlo <= quad.thi and quad.slo <= quad.shi

def join(quad, other):
    """The smallest quad around two quads."""
    return Quad(min(quad.tlo, other.tlo), max(quad.thi, other.thi),
                min(quad.slo, other.slo), max(quad.shi, other.shi))

def active_range(quad):
    """From when to when a net may be switching: half a slew, rounded up, on both sides."""
    half = -(-quad.shi // 2)
    return quad.tlo - half, quad.thi + half

def overlap(quad, other, period):
    """Whether two nets may be switching at one moment, the second as often as the clock comes
    again; what never switches meets nothing."""
    if not (live(quad) and live(other)):
        return False
    (a0, a1), (b0, b1) = active_range(quad), active_range(other)
    # Of all moves by whole periods after which the second still starts in time, the latest
    # has it end last. Without a period it is not moved.
    move = 0 if period is None else (a1 - b0) // period * period
    return a0 <= b1 + move and b0 + move <= a1

def overlap_in(design, windows):
    """The overlap answers of an assignment: does edge e of net n meet edge f of net a?"""
    return lambda n, e, a, f: overlap(windows[n][e], windows[a][f], design.period)

def all_overlap(n, e, a, f):
    """The overlap answers of the worst case, in which everything meets everything."""
    return True

def miller_factors(design, meets, n, e):
    """The least and the greatest factor per coupling in quarters: low where both may switch
    the same way, high where they may switch against each other, else the middle one."""
    low, mid, high = design.miller
    couplings = design.nets[n].couplings
    least = [low if meets(n, e, coupling.to, e) else mid for coupling in couplings]
    greatest = [high if meets(n, e, coupling.to, 1 - e) else mid for coupling in couplings]
    return least, greatest

def load_range(design, meets, n, e):
    """The least and the greatest capacitance that the driver of a net sees."""
    net = design.nets[n]
    sides = miller_factors(design, meets, n, e)
    return [net.load + sum(m * c.cap for m, c in zip(side, net.couplings)) // 4 for side in sides]

def wire_range(design, meets, n, e, sink):
    """The least and the greatest Elmore delay from a net's driver to one of its sinks."""
    _, base, coefs = design.nets[n].sinks[sink]
    sides = miller_factors(design, meets, n, e)
    sums = [4 * base + sum(m * coef for m, coef in zip(side, coefs)) for side in sides]
    return [quarters // (4 * 10**6) for quarters in sums]

def slew_growth(wire):
    """By how much a wire of that delay slows an edge down."""
    return 11 * wire // 5

def arrival_and_box(design, windows, meets, n, arc):
    """The arrival times at an arc's input pin, and the box in which its tables are read."""
    quad = windows[arc.source][arc.input]
    w0, w1 = wire_range(design, meets, arc.source, arc.input, arc.sink)
    c0, c1 = load_range(design, meets, n, arc.output)
    box = quad.slo + slew_growth(w0), quad.shi + slew_growth(w1), c0, c1
    return quad.tlo + w0, quad.thi + w1, box

def contribution(design, windows, meets, n, arc):
    """The quad that one arc alone gives its output net."""
    earliest, latest, box = arrival_and_box(design, windows, meets, n, arc)
    d0, d1 = table_range(design.tables[arc.delay], *box)
    s0, s1 = table_range(design.tables[arc.slew], *box)
    return Quad(earliest + d0, latest + d1, max(s0, 0), max(s1, 0))

def evaluate(design, windows, meets, n):
    """The windows of one net, computed from an assignment and from overlap answers."""
    net = design.nets[n]
    if not net.arcs:
        return net.given
    quads = [BOTTOM, BOTTOM]
    for arc in net.arcs:
        if live(windows[arc.source][arc.input]):
            quad = contribution(design, windows, meets, n, arc)
            quads[arc.output] = join(quads[arc.output], quad)
    return tuple(quads)

def operator(design, windows):
    """The window operator: all nets at once, from one and the same assignment."""
    meets = overlap_in(design, windows)
    return [evaluate(design, windows, meets, n) for n in range(len(design.nets))]

def fixpoint(design, windows):
    """The assignment at which the operator, applied again and again, comes to rest."""
    while True:
        after = operator(design, windows)
        if after == windows:
            return windows
        windows = after

def nothing(design):
    """The assignment in which no net ever switches."""
    return [QUIET] * len(design.nets)

def level_order(design):
    """The nets by level, those of one level by number."""
    level = levels(design.nets)
    return sorted(range(len(design.nets)), key=lambda n: (level[n], n))

def envelope(design):
    """The windows if everything overlapped, found level by level."""
    windows = nothing(design)
    for n in level_order(design):
        windows[n] = evaluate(design, windows, all_overlap, n)
    return windows

def limit_tests(design, windows, n):
    """What is held against a limit at one net, in order: test, kind of limit, value, passed."""
    for e in BOTH:
        quad = windows[n][e]
        if not live(quad):
            continue
        yield "tlo", "time", quad.tlo, abs(quad.tlo) > MOST_TIME
        yield "thi", "time", quad.thi, abs(quad.thi) > MOST_TIME
        yield "shi", "slew", quad.shi, quad.shi > MOST_SLEW
        for sink in range(len(design.nets[n].sinks)):
            _, wire = wire_range(design, all_overlap, n, e, sink)
            arrival, slew = quad.thi + wire, quad.shi + slew_growth(wire)
            yield "arrival at a sink", "time", arrival, abs(arrival) > MOST_TIME
            yield "slew at a sink", "slew", slew, slew > MOST_SLEW

def first_past_limit(design, windows):
    """The first test that an envelope fails, as test, kind of limit, net and value, or None."""
    for n in level_order(design):
        for test, kind, value, passed in limit_tests(design, windows, n):
            if passed:
                return test, kind, design.nets[n].name, value
    return None

def thousandths(number):
    """A whole number of thousandths, written with three decimals."""
    sign = "-" if number < 0 else ""
    return f"{sign}{abs(number) // 1000}.{abs(number) % 1000:03d}"

def coupled_pairs(nets):
    """How many pairs of nets are coupled, from whichever side."""
    return len({frozenset((n, c.to)) for n, net in enumerate(nets) for c in net.couplings})

def guilt_mark(design, low, high, n, e, a, f):
    """How certain it is that two edges meet: in the least windows, in the greatest alone, never."""
    if overlap_in(design, low)(n, e, a, f):
        return "sure"
    return "possible" if overlap_in(design, high)(n, e, a, f) else "no"

def guilty_lines(design, low, high):
    """The couplings that may change a victim's timing, by net, edge and coupling."""
    nets = design.nets
    for n, net in enumerate(nets):
        for e in BOTH:
            for coupling in net.couplings:
                fast = guilt_mark(design, low, high, n, e, coupling.to, e)
                slow = guilt_mark(design, low, high, n, e, coupling.to, 1 - e)
                if (fast, slow) != ("no", "no"):
                    who = net.name, EDGES[e], nets[coupling.to].name, thousandths(coupling.cap)
                    yield line("guilty", *who, "fast", fast, "slow", slow)

def share(design, windows, n, e, moment):
    """How much coupling capacitance of a net can switch at one moment, of aggressors with this edge."""
    now = Quad(moment, moment, 0, 0)
    return sum(c.cap for c in design.nets[n].couplings if overlap(now, windows[c.to][e], design.period))

def peak(design, windows, n, e):
    """The greatest share of a net over all moments, and the first moment that has it: with a period
    the first of its moments from 0 on. No share is above 0 where there are no such moments."""
    # A share rises only where the active range of an aggressor begins, or, with a period, at 0.
    begins = [active_range(windows[c.to][e])[0] for c in design.nets[n].couplings if live(windows[c.to][e])]
    moments = begins if design.period is None else [0, *(moment % design.period for moment in begins)]
    shares = [(share(design, windows, n, e, moment), moment) for moment in moments]
    return min(shares, key=lambda one: (-one[0], one[1]), default=(0, 0))

def noise_lines(design, high):
    """The nets whose neighbours may switch at one moment, by net and edge of the neighbours: what part
    of a net's capacitance they then are, in millionths, and when."""
    for n, net in enumerate(design.nets):
        for e in BOTH:
            most, moment = peak(design, high, n, e)
            if most > 0:
                part = 10**6 * most // (net.load + sum(c.cap for c in net.couplings))
                yield line("noise", net.name, EDGES[e], "ppm", part, "at", thousandths(moment))

def window_at(design, windows, n, e, sink):
    """The window of an edge behind the wire to a sink; None where the edge never switches."""
    quad = windows[n][e]
    if not live(quad):
        return None
    w0, w1 = wire_range(design, overlap_in(design, windows), n, e, sink)
    return Quad(quad.tlo + w0, quad.thi + w1, quad.slo + slew_growth(w0), quad.shi + slew_growth(w1))

def slack_in(design, windows, point, e):
    """By how much data could come later, or earlier for hold; None where data or clock are dead."""
    data, side = window_at(design, windows, point.net, e, point.sink), (point.rise, point.fall)[e]
    if data is None:
        return None
    if isinstance(point, Port):
        return data.tlo + side if point.hold else design.period - side - data.thi
    clock = window_at(design, windows, point.clock, 0, point.clock_sink)
    if clock is None:
        return None
    _, need = table_range(design.tables[side], clock.slo, clock.shi, data.slo, data.shi)
    if point.hold:
        return data.tlo - clock.thi - need
    return design.period + clock.tlo - need - data.thi

def slacks(design, low, high):
    """The checks by point and edge, each with its two slacks, or with none where it is idle."""
    for point in design.checks:
        for e in BOTH:
            if (point.rise, point.fall)[e] is not None:
                both = slack_in(design, high, point, e), slack_in(design, low, point, e)
                yield Slack(point, e, *((None, None) if None in both else both))

def sum_by_arc(design, windows, n, arc, late):
    """The wire and the delay that an arc adds on the latest or the earliest way, and the bound there."""
    meets = overlap_in(design, windows)
    earliest, latest, box = arrival_and_box(design, windows, meets, n, arc)
    wire = wire_range(design, meets, arc.source, arc.input, arc.sink)[late]
    delay = table_range(design.tables[arc.delay], *box)[late]
    return wire, delay, (latest if late else earliest) + delay

def worst_path(design, windows, n, e, late):
    """From which edge of a source a bound comes, when, and the steps to it: net, edge, wire, delay.
    At each net the first arc counts that gives the bound."""
    steps = []
    while design.nets[n].arcs:
        goal = windows[n][e].thi if late else windows[n][e].tlo
        sums = ((arc, *sum_by_arc(design, windows, n, arc, late)) for arc in design.nets[n].arcs
                if arc.output == e and live(windows[arc.source][arc.input]))
        arc, wire, delay, _ = next(found for found in sums if found[3] == goal)
        steps.append((n, e, wire, delay))
        n, e = arc.source, arc.input
    return n, e, windows[n][e].thi if late else windows[n][e].tlo, steps[::-1]

def path_lines(design, high, checks, hold):
    """The check of a kind with the least slack, the first of equals, and the path of its data."""
    active = [slack for slack in checks if slack.point.hold == hold and slack.greatest is not None]
    if not active:
        return
    point, e, slack, _ = min(active, key=lambda one: one.greatest)
    late = not hold
    yield line("path", kind_of(point), point.name, EDGES[e], thousandths(slack))
    n, f, time, steps = worst_path(design, high, point.net, e, late)
    end = wire_range(design, overlap_in(design, high), point.net, e, point.sink)[late]
    data = window_at(design, high, point.net, e, point.sink)
    assert time + sum(wire + delay for _, _, wire, delay in steps) + end == (data.thi if late else data.tlo)
    yield line("from", design.nets[n].name, EDGES[f], thousandths(time))
    for n, f, wire, delay in steps:
        yield line("step", design.nets[n].name, EDGES[f], "wire", thousandths(wire), "delay", thousandths(delay))
    yield line("to", "wire", thousandths(end))

def checks_lines(design, low, high):
    """The lines on checks, on the worst setup check and on the worst hold check."""
    checks = list(slacks(design, low, high))
    for point, e, *both in checks:
        numbers = ["idle"] if both == [None, None] else map(thousandths, both)
        yield line("check", point.name, EDGES[e], kind_of(point), *numbers)
    for hold in (False, True):
        yield from path_lines(design, high, checks, hold)

def report(design, low, high, kind="all"):
    """The text that stands for a design and its two extreme fixpoints."""
    nets, period = design.nets, design.period
    depth, pairs = max(levels(nets), default=0), coupled_pairs(nets)
    entries = sum(len(net.couplings) for net in nets)
    text = [line("xtalk", 1)]
    text.append(line("nets", len(nets), "couplings", entries, "pairs", pairs, "levels", depth,
                     "bound", (4 * pairs + 1) * depth))
    text.append(line("period", "none" if period is None else thousandths(period)))
    text.extend(miller_lines(design))
    if kind == "noise":
        return "".join([*text, *noise_lines(design, high)]) + line("end")
    for n, net in enumerate(nets):
        for e in BOTH if kind == "all" else ():
            if live(low[n][e]):
                least, greatest = map(thousandths, low[n][e]), map(thousandths, high[n][e])
                text.append(line("net", net.name, EDGES[e], "least", *least, "greatest", *greatest))
            else:
                text.append(line("net", net.name, EDGES[e], "quiet"))
    for net in nets:
        if net.kind == "i" and not any(map(live, net.given)):
            text.append(line("unconstrained", net.name))
    if kind == "all":
        text.extend(guilty_lines(design, low, high))
    text.extend(checks_lines(design, low, high))
    return "".join(text) + line("end")

def judge(data, miller=None):
    """The verdict on the bytes of a file: the design, by other Miller numbers where some are
    given, and its windows, as far as one comes."""
    design = read_linked(data)
    if design is None:
        return Verdict(None, None, None, None, None)
    design = design if miller is None else design._replace(miller=miller)
    top = envelope(design)
    passed = first_past_limit(design, top)
    if passed:
        return Verdict(design, top, passed, None, None)
    return Verdict(design, top, None, fixpoint(design, nothing(design)), fixpoint(design, top))

def answer(file, data, verdict, kind="all"):
    """Status, standard output and standard error that a file with this verdict asks for."""
    refusal = refusals.answer(file, data)
    if refusal:
        return refusal[0], "", refusal[1]
    if verdict.design is None:
        raise AssertionError(f"{file}: read line by line and taken, as a whole refused")
    if verdict.passed:
        _, kind, net, value = verdict.passed
        return 5, "", line("limit:", kind, net, value)
    return 0, report(verdict.design, verdict.low, verdict.high, kind), ""

OPTIONS = {"solve": ("--workers", "--kind", "--miller", "--engine"), "replay": ("--order", "--workers", "--miller"),
           "eco": ("--workers", "--miller")}
FILES = {"solve": 1, "replay": 1, "eco": 2}

def job(words):
    """The files, the kind of report and the Miller numbers, if any, that a command line asks
    for, or None. `replay` asks for the whole report, in an order that does not matter."""
    files, given, rest = [], {}, list(words[1:])
    while rest:
        word = rest.pop(0)
        name, equals, value = word.partition("=")
        if name not in OPTIONS.get(words[0], ()):
            files.append(word)
            continue
        value = value if equals else rest.pop(0) if rest else ""
        if name in given or not plain_word(value):
            return None
        given[name] = value
    workers, kind = given.get("--workers", "1"), given.get("--kind", "all")
    if not words or FILES.get(words[0]) != len(files) or not all(map(plain_word, files)):
        return None
    if words[0] == "replay" and not ("--workers" in given and is_number(given.get("--order", "")) and int(given["--order"]) < 2**64):
        return None
    if not is_number(workers) or not 1 <= int(workers) <= 64 or kind not in ("all", "checks", "noise"):
        return None
    if given.get("--engine", "rounds") not in ("rounds", "marks"):
        return None
    if "--miller" not in given:
        return files, kind, None
    pieces = given["--miller"].split(",")
    if len(pieces) != 3 or not all(map(is_number, pieces)):
        return None
    miller = tuple(map(int, pieces))
    return (files, kind, miller) if sound_miller(miller) else None

def is_number(text):
    """Whether a text is one to twenty decimal digits."""
    return 1 <= len(text) <= 20 and all("0" <= letter <= "9" for letter in text)

def plain_word(word):
    """Whether a word can be a file or a value."""
    return word != "" and not word.startswith("-")

def content(name):
    """The bytes of a file, and status and line where there are none."""
    try:
        with open(name, "rb") as file:
            data = file.read(MOST_BYTES + 1)
    except OSError:
        return None, (6, f"read fault: {name}\n")
    return data, (5, line("limit:", "file", name, MOST_BYTES + 1)) if len(data) > MOST_BYTES else None

def outcome(words):
    """Status, standard output and standard error of the program on its command line."""
    wanted = job(words)
    if wanted is None:
        return 2, "", "xtalk: bad command line\n"
    names, kind, miller = wanted
    data, stop = content(names[0])
    if not stop and words[0] != "eco":
        return answer(names[0], data, judge(data, miller), kind)
    stop = stop or refusals.answer(names[0], data)
    text, stop = (None, stop) if stop else content(names[1])
    if stop:
        return stop[0], "", stop[1]
    import eco  # which needs this module
    return eco.answer(names[0], data, names[1], text, miller)

def selftest_of_noise(rng):
    """Compares the peak of a net with its shares at all moments."""
    quads = [Quad(t, t + rng.randint(-1, 6), s, s + rng.randint(-1, 5)) for t, s in
             ((rng.randint(-9, 9), rng.randint(0, 5)) for _ in range(rng.randint(0, 5)))]
    nets = [Net("v", "w", 0, QUIET, [Coupling(k, rng.randint(0, 9)) for k in range(1, len(quads) + 1)], [], [])]
    windows = [QUIET, *((quad, BOTTOM) for quad in quads)]
    for period in (None, rng.randint(1, 20)):
        design = Design(period, [], nets)
        moments = range(-20, 40) if period is None else range(period)
        shares = [share(design, windows, 0, 0, moment) for moment in moments]
        most = max(shares)
        wanted = most, moments[shares.index(most)]
        assert most == 0 or peak(design, windows, 0, 0) == wanted, (quads, period)
        assert most > 0 or peak(design, windows, 0, 0)[0] == 0, (quads, period)
        assert peak(design, windows, 0, 1)[0] == 0

def selftest(times):
    """Compares what is computed by a short cut with what plain counting gives."""
    steep = Table([0, 100000], [0, 10000], [[10000, 30000], [20000, 60000]])
    assert table_value(steep, 50000, 5000) == 30000 and table_value(steep, 250000, 5000) == 40000
    assert table_range(steep, 0, 100000, 5000, 5000) == (20000, 40000)
    assert table_range(Table([0, 10, 20], [0], [[5], [1], [9]]), 0, 20, 0, 0) == (1, 9)
    inner, rng = 0, random.Random(1)
    for _ in range(times):
        slews = sorted(rng.sample(range(-9, 14), rng.randint(1, 4)))
        loads = sorted(rng.sample(range(-9, 14), rng.randint(1, 4)))
        table = Table(slews, loads, [[rng.randint(-30, 30) for _ in loads] for _ in slews])
        (s0, s1), (c0, c1) = (sorted(rng.randint(-12, 16) for _ in BOTH) for _ in BOTH)
        by_points = range_over_points(table, s0, s1, c0, c1)
        assert by_points == range_over_corners(table, s0, s1, c0, c1), (table, s0, s1, c0, c1)
        box_ends = [table_value(table, s, c) for s in (s0, s1) for c in (c0, c1)]
        inner += by_points != (min(box_ends), max(box_ends))
        a, b = (Quad(t, t + rng.randint(-1, 4), 0, rng.randint(-1, 5))
                for t in (rng.randint(0, 12), rng.randint(0, 12)))
        wide = [q.shi + q.shi % 2 if live(q) else -99 for q in (a, b)]
        moments = [{*range(2 * q.tlo - w, 2 * q.thi + w + 1)} for q, w in zip((a, b), wide)]
        assert overlap(a, b, None) == bool(moments[0] & moments[1]), (a, b)
        period = rng.randint(1, 15)
        phases = [{moment % (2 * period) for moment in one} for one in moments]
        assert overlap(a, b, period) == bool(phases[0] & phases[1]), (a, b, period)
        selftest_of_noise(rng)
    print(f"selftest: {times} tables agree, {inner} with an extreme at no corner of the box")

def main(words):
    """Runs one command line and gives its status."""
    global look_at_all_points
    if words[:1] == ["selftest"]:
        selftest(int(words[1]) if words[1:] else 3000)
        return 0
    if words[:1] == ["slow"]:
        look_at_all_points, words = True, ["solve", *words[1:]]
    if any("\udc80" <= letter <= "\udcff" for word in words for letter in word):
        return 9
    status, out, err = outcome(words)
    try:
        sys.stdout.buffer.write(os.fsencode(out))
        sys.stdout.buffer.flush()
    except OSError:
        status, err = 7, "write fault\n"
    sys.stderr.buffer.write(os.fsencode(err))
    return status

if __name__ == "__main__":
    sys.exit(main(sys.argv[1:]))
