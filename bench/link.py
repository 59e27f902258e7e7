#!/usr/bin/env python3
"""An independent linker, plain, that shares nothing with the program: four files to the linked text of their design.

    link.py LIB NETLIST SPEF SDC [L,M,H]   prints what `xtalk link` has to print, and ends with its status

The four readers are the plain ones of this folder; L,M,H are Miller numbers as with `--miller`. A wire's sums are
taken over all pairs of a sink and a node, so that a net of ten thousand nodes takes long.
"""

import sys
from collections import namedtuple
from pathlib import Path

import liberty
import plain
import sdc
import spef
import verilog
from plain import BOTTOM, Arc, Coupling, Design, Net, Quad, Sink, Table

MOST_BYTES, MOST_NODES, MOST_INSTANCES = 2**28, 2**16, 2**18
LIMITS = [("couplings", plain.MOST_COUPLINGS), ("coefficients", plain.MOST_COEFS), ("arcs", plain.MOST_ARCS),
          ("tables", plain.MOST_TABLES), ("checks", 2**20), ("reads", plain.MOST_READS)]
RISE, FALL = 0, 1
PAIRS = {"Positive": [(RISE, RISE), (FALL, FALL)], "Negative": [(RISE, FALL), (FALL, RISE)],
         "Non": [(RISE, RISE), (RISE, FALL), (FALL, RISE), (FALL, FALL)]}
CHECKS = {"SetupRising": "setup", "HoldRising": "hold"}

# A pin of an instance, or a port where the instance is None, with the capacitance that it adds to its net.
Pin = namedtuple("Pin", "instance pin cap")
Instance = namedtuple("Instance", "name cell wires")


class Refused(Exception):
    """Status and line of standard error of four files that do not link."""


def refuse(code, *names):
    raise Refused(4, " ".join(["link:", code, *(name.decode() for name in names)]))


def keep(what, value, most, name=None):
    """A limit that is passed ends the linking."""
    if value > most:
        called = [] if name is None else [name.decode()]
        raise Refused(5, " ".join(["limit:", what, *called, str(value)]))


class Cell:
    """A cell of the library: its pins by name, of which the first counts, and whether it can be an instance's."""

    def __init__(self, latch, pins):
        self.pins = {}
        for name, role, cap, timings in pins:
            self.pins.setdefault(name, (role, cap, timings))
        self.is_unfit = latch or any(self.is_unfit_pin(role, timings) for _, role, _, timings in pins)

    def role(self, name):
        return self.pins[name][0]

    def is_unfit_pin(self, role, timings):
        """An inout pin, an unsupported timing group, or one that is read and whose related pin is no input."""
        return role == "Inout" or any(
            kind == "Unsupported" or kind != "Skipped" and any(
                name in self.pins and self.role(name) != "Input" for name in related)
            for kind, _, _, related in timings)


class Linker:
    """Four values that are being linked."""

    def __init__(self, library, module, parasitics, constraints):
        self.library, self.constraints, self.parasitics = library, constraints, parasitics
        self.cells = {name: Cell(latch, pins) for name, latch, pins in library.cells}
        self.bits = [(number, bit) for number, net in enumerate(module.nets) for bit in sdc.bits_of(net)]
        self.number = {place: n for n, place in enumerate(self.bits)}
        self.names = [module.nets[number].name if module.nets[number].bounds is None else
                      b"%s[%d]" % (module.nets[number].name, bit) for number, bit in self.bits]
        self.roles = [module.nets[number].role for number, _ in self.bits]
        self.numbers = {name: n for n, name in enumerate(self.names)}
        self.instances = [Instance(name, cell, {pin: self.net_of(wire) for pin, wire in pins})
                          for cell, name, _, pins in module.instances]
        self.places = {instance.name: instance for instance in self.instances}

    def net_of(self, wire):
        """The net of what a pin is connected to, or None."""
        words = wire.split()
        return self.number[int(words[1]), int(words[2])] if words[0] == "bit" else None

    def ports(self, role):
        return [n for n in range(len(self.names)) if self.roles[n] == role]

    def constraint(self, n):
        return self.constraints.ports[self.bits[n]]

    # -- instances, drivers, sinks, arcs, checks

    def hold_instances(self):
        keep("nets", len(self.names), plain.MOST_NETS)
        keep("instances", len(self.instances), MOST_INSTANCES)
        for instance in self.instances:
            cell = self.cells.get(instance.cell)
            if cell is None:
                refuse("K1", instance.name, instance.cell)
            if cell.is_unfit:
                refuse("K9", instance.name, instance.cell)
            for pin in instance.wires:
                if pin not in cell.pins:
                    refuse("K2", instance.name, pin)

    def connect(self):
        """The drivers and the sinks of each net, in order."""
        self.drivers, self.sinks = [[] for _ in self.names], [[] for _ in self.names]
        for n in self.ports("input"):
            self.drivers[n].append(Pin(None, self.names[n], 0))
        for instance in self.instances:
            cell = self.cells[instance.cell]
            for pin, n in instance.wires.items():
                role, cap, _ = cell.pins[pin]
                lists = {"Input": self.sinks, "Output": self.drivers}.get(role)
                if n is not None and lists is not None:
                    lists[n].append(Pin(instance.name, pin, cap))
        for n in self.ports("output"):
            self.sinks[n].append(Pin(None, self.names[n], self.constraint(n).load))
        self.sink_number = {(pin.instance, pin.pin): place for sinks in self.sinks for place, pin in enumerate(sinks)}
        for n, drivers in enumerate(self.drivers):
            if len(drivers) > 1:
                refuse("K3", self.names[n])

    def reached(self, instance, related):
        """The net and the sink of a related pin of an instance, or None where it has no net."""
        n = self.places[instance].wires.get(related)
        return None if n is None else (n, self.sink_number.get((instance, related)))

    def arcs(self, n):
        """The arcs of a net."""
        arcs = []
        if not self.drivers[n] or self.drivers[n][0].instance is None:
            return arcs
        instance, pin, _ = self.drivers[n][0]
        _, _, timings = self.cells[self.places[instance].cell].pins[pin]
        for kind, sense, tables, related in timings:
            if kind not in ("Combinational", "RisingEdge"):
                continue
            pairs = PAIRS[sense] if kind == "Combinational" else [(RISE, RISE), (RISE, FALL)]
            for name in related:
                source = self.reached(instance, name)
                if source is None:
                    continue
                arcs.extend(Arc(*source, before, after, tables[after], tables[2 + after])
                            for before, after in pairs if tables[after] is not None)
        return arcs

    def checks(self):
        """The check points: fields of their lines behind the first word, and the first word."""
        points = []
        for instance in self.instances:
            for pin, n in instance.wires.items():
                role, _, timings = self.cells[instance.cell].pins[pin]
                if n is None or role != "Input":
                    continue
                data = n, self.sink_number[instance.name, pin]
                for kind, _, tables, related in timings:
                    for name in related if kind in CHECKS else ():
                        clock = self.reached(instance.name, name)
                        if clock is not None:
                            points.append(("flop", CHECKS[kind], instance.name + b"/" + pin, *data, *clock,
                                           tables[0], tables[1]))
        for n in self.ports("output"):
            given = self.constraint(n).output
            for kind, end in (("setup", "max"), ("hold", "min")):
                numbers = [given.get(f"{edge} {end}") for edge in ("rise", "fall")]
                if numbers != [None, None]:
                    sink = self.sink_number[None, self.names[n]]
                    points.append(("port", kind, self.names[n], n, sink, *numbers))
        return points

    # -- wires

    def split(self, text):
        """What stands before and behind the last delimiter of a text, or None."""
        before, mark, behind = text.rpartition(self.parasitics.delimiter)
        return (before, behind) if mark else None

    def node_net(self, text):
        """The net of a node, looked up in three ways, or None."""
        parts = self.split(text)
        instance = self.places.get(parts[0]) if parts else None
        n = instance.wires.get(parts[1]) if instance else None
        if n is not None:
            return n
        if parts and parts[0] in self.numbers:
            return self.numbers[parts[0]]
        return self.numbers.get(text)

    def capacitors(self, n, caps):
        """Of each capacitor of a net: its own node, the net that it couples to or None, and its value."""
        for a, b, value in caps:
            own, other = a, b
            if b is not None and self.node_net(a) != n and self.node_net(b) == n:
                own, other = b, a
            to = None if other is None else self.node_net(other)
            yield own, None if to == n else to, value

    def wire(self, n, tree):
        """Load, couplings and sinks of a net with its tree, or with none."""
        sinks = self.sinks[n]
        names = [(pin.instance + b"/" if pin.instance else b"") + pin.pin for pin in sinks]
        pins = sum(pin.cap for pin in sinks)
        if tree is None or not self.drivers[n]:
            keep("load", pins, plain.MOST_CAP, self.names[n])
            return pins, [], [Sink(name.decode(), 0, []) for name in names]
        total, caps, resistors = tree
        caps = list(self.capacitors(n, caps))
        nodes = Nodes(self, n)
        ends = [(nodes.number(own), to, value) for own, to, value in caps]
        resistors = [(nodes.number(a), nodes.number(b), value) for a, b, value in resistors]
        keep("nodes", len(nodes.texts), MOST_NODES, self.names[n])
        if not resistors:
            ends = [(0, to, value) for _, to, value in ends]
        ground = [0] * len(nodes.texts)
        for place, pin in enumerate(sinks):
            ground[1 + place if resistors else 0] += pin.cap
        for node, to, value in ends:
            ground[node] += value if to is None else 0
        ground[0] += 0 if caps else total
        taps = [(node, to, value) for node, to, value in ends if to is not None]
        keep("load", sum(ground) + 2 * sum(value for _, _, value in taps), plain.MOST_CAP, self.names[n])
        couplings = [Coupling(to, value) for _, to, value in taps]
        if not resistors:
            return sum(ground), couplings, [Sink(name.decode(), 0, [0] * len(taps)) for name in names]
        shared = Shared(len(ground), resistors)
        if shared.is_no_tree:
            refuse("K5", self.names[n])
        tapped = {node for node, _, _ in taps}
        for node, cap in enumerate(ground):
            if node not in shared.parent and (1 <= node <= len(sinks) or cap > 0 or node in tapped):
                refuse("K6", self.names[n], nodes.texts[node])
        held = [(shared.of(node), ground[node]) for node in shared.parent if ground[node]]
        tapped = [(shared.of(node), value) for node, _, value in taps]
        ends = range(1, len(sinks) + 1)
        return sum(ground), couplings, [
            Sink(name.decode(), sum(r[p] * cap for r, cap in held), [r[p] * value for r, value in tapped])
            for p, name in zip(ends, names)]

    # -- all

    def nets(self):
        """The nets of the design with their wires and arcs."""
        trees = {self.numbers[name]: tree for name, tree in self.parasitics.nets.items() if name in self.numbers}
        for n, name in enumerate(self.names):
            is_input = self.roles[n] == "input"
            given = [None, None]
            if is_input:
                given = sdc.windows(self.constraints, self.constraint(n))
            quads = tuple(BOTTOM if quad is None else Quad(*quad) for quad in given)
            load, couplings, sinks = self.wire(n, trees.get(n))
            yield Net(name.decode(), "i" if is_input else "w", load, quads, couplings, sinks, self.arcs(n))

    def design(self):
        """The design of the four values, and its check points."""
        self.hold_instances()
        self.connect()
        nets, checks = list(self.nets()), self.checks()
        tables = [Table(slews, loads, [values[i:i + len(loads)] for i in range(0, len(values), len(loads))])
                  for slews, loads, values in self.library.tables]
        values = [sum(len(net.couplings) for net in nets),
                  sum(len(net.couplings) * len(net.sinks) for net in nets),
                  sum(len(net.arcs) for net in nets), len(tables), len(checks), plain.reads(nets)]
        for (what, most), value in zip(LIMITS, values):
            keep(what, value, most)
        loop = loop_of([[arc.source for arc in net.arcs] for net in nets])
        if loop:
            refuse("K4", self.names[loop[0]])
        clock = self.constraints.clock
        if checks and clock is None:
            refuse("K7", checks[0][2])
        return Design(clock[2] if clock else None, tables, nets), checks


class Nodes:
    """The nodes of a net: the driver, the sinks, then others by their texts as they come. Two ends of one text are two
    nodes, of which the first has the text."""

    def __init__(self, linker, n):
        self.texts, self.known = [], {}
        for pin in [*linker.drivers[n], *linker.sinks[n]]:
            text = pin.pin if pin.instance is None else pin.instance + linker.parasitics.delimiter + pin.pin
            self.known.setdefault(text, len(self.texts))
            self.texts.append(text)

    def number(self, text):
        """The number of the node with a text."""
        if text not in self.known:
            self.known[text] = len(self.texts)
            self.texts.append(text)
        return self.known[text]


class Shared:
    """The part of some resistors that is joined to node 0, and what two ways from there have in common."""

    def __init__(self, nodes, resistors):
        self.parent, inside, near = {0: (None, 0)}, 0, [[] for _ in range(nodes)]
        for place, (a, b, value) in enumerate(resistors):
            near[a].append((b, value))
            near[b].append((a, value))
        order = [0]
        for node in order:
            for other, value in near[node]:
                if other not in self.parent:
                    self.parent[other] = node, value
                    order.append(other)
        inside = sum(a in self.parent for a, _, _ in resistors)
        self.is_no_tree = inside >= len(order)

    def of(self, node):
        """For each node of the part, the resistance that its way has in common with this node's way."""
        way = []
        while node is not None:
            way.append(node)
            node = self.parent[node][0]
        common, total = {}, 0
        for step in reversed(way):
            total += self.parent[step][1]
            common[step] = total
        for other, (before, _) in self.parent.items():
            if other not in common:
                common[other] = common[before]
        return common


def loop_of(inputs):
    """The loop that the walk from the least endless net ends in, or None; `inputs` has the nets that each net reads."""
    awaited, readers = [len(read) for read in inputs], [[] for _ in inputs]
    for n, read in enumerate(inputs):
        for source in read:
            readers[source].append(n)
    ended = [n for n, left in enumerate(awaited) if left == 0]
    for n in ended:
        for reader in readers[n]:
            awaited[reader] -= 1
            if awaited[reader] == 0:
                ended.append(reader)
    endless = set(range(len(inputs))) - set(ended)
    if not endless:
        return None
    walk, n = [], min(endless)
    while n not in walk:
        walk.append(n)
        n = next(source for source in inputs[n] if source in endless)
    return walk[walk.index(n):]


def text_of(design, checks):
    """The linked text of a design with its check points."""
    lines = plain.linked(design).split("\n")
    lines[1] = f"counts {len(design.tables)} {len(design.nets)} {len(checks)}"
    fields = [[("-" if field is None else field.decode() if isinstance(field, bytes) else str(field))
               for field in point] for point in checks]
    return "\n".join([*lines[:-2], *map(" ".join, fields), *lines[-2:]])


def value_of(name, read):
    """The value that a file means; its refusal is one of the whole run."""
    data = Path(name).read_bytes()
    keep("file", len(data) if len(data) <= MOST_BYTES else MOST_BYTES + 1, MOST_BYTES, name.encode())
    try:
        return read(data)
    except (liberty.Refusal, verilog.Refusal, spef.Refusal, sdc.Refusal) as refusal:
        code, line = refusal.args
        raise Refused(3, f"{name}:{line}: {code}") from refusal
    except verilog.Limit as limit:
        raise Refused(5, f"limit: {limit} {verilog.MOST_NETS + 1}") from limit


def read_spef(data):
    """The parasitics of a text."""
    reader = spef.Reader(data)
    reader.header()
    reader.sections()
    return reader


def linked(files, miller=None):
    """The linked text of four files."""
    library = value_of(files[0], lambda data: liberty.Meaning(liberty.Grammar(data).library()))
    module = value_of(files[1], verilog.flat)
    parasitics = value_of(files[2], read_spef)
    constraints = value_of(files[3], lambda data: sdc.Constraints(data, module, library.time_scale, library.cap_scale))
    design, checks = Linker(library, module, parasitics, constraints).design()
    return text_of(design if miller is None else design._replace(miller=miller), checks)


def main(words):
    """Runs the command that the words give, and returns its status."""
    if len(words) not in (4, 5):
        print(__doc__.strip(), file=sys.stderr)
        return 2
    miller = tuple(map(int, words[4].split(","))) if words[4:] else None
    try:
        print(linked(words[:4], miller), end="")
    except Refused as refused:
        status, line = refused.args
        print(line, file=sys.stderr)
        return status
    return 0


if __name__ == "__main__":
    sys.exit(main(sys.argv[1:]))
