#!/usr/bin/env python3
"""Holds a program's reading of netlists of several modules against the plain one, on small drawn blocks.

    hierarchies.py draw SEED COUNT FOLDER      writes COUNT blocks of four files, each into a folder of FOLDER
    hierarchies.py answers SEED COUNT          prints how many of them link, and which refusals the others have
    hierarchies.py compare PROGRAM COUNT SEED  compares `PROGRAM link` and `PROGRAM report` byte for byte with link.py
                                               and plain.py
    hierarchies.py flat SEED COUNT             holds the plain reader against itself: the flat netlist of a block, as a
                                               text of one module, has to link to the same design

Every other block is changed: by a token of one of its files dropped, doubled or put in place of another, or by a change
of the hierarchy that flattening has to refuse, or nearly so. Modules come in any order in the text, with ports of one
bit and of several, buses counted up and down, whole buses that are passed on, and pins that are open, constant or left
out. Library, parasitics and constraints are those of quadruples.py, for the flat names.
"""

import random
import re
import sys
import tempfile
from collections import Counter
from pathlib import Path

import link
import quadruples
import verilog
from quadruples import CONSTANT, ODD_CELLS, PINS, UNFIT_CELLS

RANGES = {1: ["", "", "", "", "[0:0]", "[5:5]"], 2: ["[1:0]", "[0:1]", "[6:7]", "[9:8]"],
          3: ["[2:0]", "[0:2]", "[7:5]", "[4:6]"]}
MODULES = ["alu", "core", "half", "leaf", "INV2", "\\m/x ", "\\s[0] "]


def bits_of(name, bounds):
    """The bits of a net as an instance names them, from the left bound on, and with more than one also its name."""
    if not bounds:
        return [name]
    left, right = map(int, re.findall("[0-9]+", bounds))
    step = 1 if left < right else -1
    return [f"{name}[{bit}]" for bit in range(left, right + step, step)]


class Port:
    """A port, or a wire within a module: its name, its range and its bits."""

    def __init__(self, name, word, bounds):
        self.name, self.word, self.bounds, self.bits = name, word, bounds, bits_of(name, bounds)


class Module:
    """A drawn module, in which each instance reads what is there before it. `below` are modules that it may use."""

    def __init__(self, rng, name, below, is_top):
        self.rng, self.name, self.below = rng, name, below
        self.ports = [Port("ck", "input", "")] * is_top
        taken = set()
        for word, names, counts in (("input", "abde", [1, 2, 3]), ("output", "yzw", [0, 1, 1, 2])):
            for net in rng.sample(names, rng.choice(counts)):
                self.ports.append(Port(net, word, rng.choice(RANGES[rng.choice([1, 1, 1, 2, 3])])))
        self.wires, self.lines, self.count = [], [], 0
        inputs = [port for port in self.ports if port.word == "input"]
        # What may be read, bit by bit and whole, and what is still to be driven.
        self.sources = [bit for port in inputs for bit in port.bits]
        self.whole = [port for port in inputs if port.bounds]
        self.free = [port for port in self.ports if port.word == "output"]
        self.free_bits = []
        for port in list(self.free):
            if rng.random() < .6:
                self.free.remove(port)
                self.free_bits += port.bits
        for number in range(rng.choice([0, 1, 2, 3, 4]) + is_top):
            if below and rng.random() < .55 + .3 * is_top:
                self.inner(number, rng.choice(below), taken)
            else:
                self.cell(number, taken)

    def text(self):
        """The text of the module."""
        rng = self.rng
        names = [port.name for port in self.ports]
        header = f" ({', '.join(names)})" if names and rng.random() < .8 else ""
        lines = [f" {port.word} {port.bounds} {port.name};" for port in self.ports]
        lines += [f" wire {port.bounds} {port.name};" for port in self.wires if port.bounds or rng.random() < .5]
        return "\n".join([f"module {self.name}{header};", *lines, *self.lines, "endmodule\n"])

    def instance_name(self, number, taken):
        """The name of an instance, now and then one that looks like a path."""
        odd = [f"\\u{number}/x ", "\\u0/u1 ", "a", "\\u[0] "]
        name = self.rng.choice([f"u{number}"] * 14 + odd)
        name = f"u{number}" if name in taken else name
        taken.add(name)
        return name

    def new_wire(self, number, pin, bounds):
        odd = [f"\\u{number}/n ", "\\u0/a ", "\\u1/a[0] "]
        name = self.rng.choice([f"n{number}{pin}"] * 30 + odd)
        if any(port.name == name for port in self.wires):
            name = f"n{number}{pin}"
        wire = Port(name, "wire", bounds)
        self.wires.append(wire)
        return wire

    def read_bit(self):
        return self.rng.choice(self.sources)

    def drive_bit(self, number, pin):
        """A bit that nothing drives yet."""
        if self.free_bits and self.rng.random() < .5:
            return self.free_bits.pop()
        wire = self.new_wire(number, pin, "")
        return wire.bits[0]

    def cell(self, number, taken):
        """An instance of a cell."""
        rng = self.rng
        cell = rng.choice(["INV", "GATE", "GATE", "FF"] * 12 + ODD_CELLS * 3 + UNFIT_CELLS * (rng.random() < .03))
        ways, driven = [], []
        for end, pins in enumerate(PINS[cell]):
            for pin in pins:
                way = rng.random()
                if way < .04:
                    continue
                if way < .10:
                    ways.append(f".{pin}({rng.choice(['', CONSTANT])})")
                elif end == 0:
                    ways.append(f".{pin}({self.read_bit()})")
                else:
                    driven.append(self.drive_bit(number, pin))
                    ways.append(f".{pin}({driven[-1]})")
        rng.shuffle(ways)
        self.sources += driven
        self.lines.append(f" {cell} {self.instance_name(number, taken)} ({', '.join(ways)});")

    def inner(self, number, module, taken):
        """An instance of a module."""
        rng, ways, sources, whole = self.rng, [], [], []
        for port in module.ports:
            way, size = rng.random(), len(port.bits)
            if way < .06:
                continue
            if way < .12:
                ways.append(f".{port.name}()")
            elif port.word == "input":
                fit = [bus.name for bus in self.whole if len(bus.bits) == size]
                if size > 1 and not fit:
                    wire = self.new_wire(number, port.name, rng.choice(RANGES[size]))
                    self.whole.append(wire)
                    fit = [wire.name]
                if size == 1 and (not fit or rng.random() < .8):
                    fit = [self.read_bit(), self.read_bit(), self.read_bit(), CONSTANT]
                ways.append(f".{port.name}({rng.choice(fit)})")
            else:
                fit = [bus for bus in self.free if len(bus.bits) == size]
                if fit and rng.random() < .5:
                    bus = rng.choice(fit)
                    self.free.remove(bus)
                elif size > 1 or rng.random() < .2:
                    bus = self.new_wire(number, port.name, rng.choice(RANGES[size]))
                else:
                    bus = Port(self.drive_bit(number, port.name), "wire", "")
                ways.append(f".{port.name}({bus.name})")
                sources += bus.bits
                whole += [bus] * bool(bus.bounds)
        rng.shuffle(ways)
        self.sources += sources
        self.whole += whole
        self.lines.append(f" {module.name} {self.instance_name(number, taken)} ({', '.join(ways)});")


class Hierarchy:
    """A drawn netlist of several modules: its modules, its text, and what parasitics and constraints name of it."""

    def __init__(self, rng):
        self.rng, self.modules = rng, []
        names = rng.sample(MODULES, rng.choice([0, 1, 2, 2, 3, 4]))
        for name in names:
            below = rng.sample(self.modules, rng.randint(0, len(self.modules)))
            self.modules.append(Module(rng, name, below, False))
        self.modules.append(Module(rng, "top", self.modules, True))
        # Modules that nothing reaches are put below the top by an instance with nothing connected.
        used = {line.split()[0] for module in self.modules for line in module.lines}
        for number, module in enumerate(self.modules[:-1]):
            if module.name.strip() not in used:
                self.modules[-1].lines.append(f" {module.name} x{number} ();")
        rng.shuffle(self.modules)
        self.text = "".join(module.text() for module in self.modules)
        self.nets, self.inputs, self.outputs, self.pins, self.of_net = ["ck"], ["ck"], [], [], {}
        try:
            self.name_all(verilog.flat(self.text.encode()))
        except verilog.Refusal:
            pass

    def name_all(self, flat):
        """Takes the names of the flat netlist."""
        def bits(net):
            name = net.name.decode()
            return bits_of(name, "[{}:{}]".format(*net.bounds) if net.bounds else "")

        # The parasitics are of some nets alone, since each may have one of their faults.
        nets = [bit for net in flat.nets for bit in bits(net)]
        self.nets = self.rng.sample(nets, min(len(nets), 8))
        self.inputs, self.outputs = ([bit for net in flat.nets if net.role == role for bit in bits(net)]
                                     for role in ("input", "output"))
        for _, name, _, pins in flat.instances:
            for pin, wire in pins:
                what, *places = wire.split()
                if what == "bit":
                    net = flat.nets[int(places[0])]
                    bit = f"{net.name.decode()}[{places[1]}]" if net.bounds else net.name.decode()
                    self.pins.append((name.decode(), pin.decode()))
                    self.of_net.setdefault(bit, []).append(self.pins[-1])


# ---- Changes of the hierarchy ---------------------------------------------------------------

def with_instance(text, module, line):
    """The text with one more line at the end of the module with a number."""
    parts = text.split("endmodule")
    parts[module] += line + "\n"
    return "endmodule".join(parts)


def doubled(rng, text):
    """The text with modules before it, each of two instances of the one before: too many, or nearly so. They are below
    the top by an instance of the last."""
    depth, leaf = rng.choice([(30, ""), (17, ""), (16, "INV i ();"), (4, "wire [16383:0] n;"),
                              (4, "wire [16384:0] n;")])
    chain = f"module d0; {leaf} endmodule\n" + "".join(
        f"module d{k}; d{k - 1} l (), r (); endmodule\n" for k in range(1, depth + 1))
    lines = text.replace("module top", chain + "module top")
    return re.sub(r"(module top[^;]*;)", rf"\1 d{depth} dd ();", lines)


def changed(rng, hierarchy):
    """The text with a change that flattening has to refuse, or nearly so."""
    text, count = hierarchy.text, len(hierarchy.modules)
    at, other = rng.randrange(count), rng.choice(hierarchy.modules)
    names = [module.name for module in hierarchy.modules]
    way = rng.random()
    if way < .15:  # one that contains itself, or not
        return with_instance(text, at, f" {other.name} again ();")
    if way < .25:  # a second top, or a module below the top that nothing else has
        extra = f"module extra (p); input p; {rng.choice(['', f'{other.name} o ();', 'INV i (.A(p));'])} endmodule\n"
        return rng.choice([text + extra, extra + text])
    if way < .35:  # a pin that is no port, or has another width
        pin = rng.choice(["a", "y", "q", "n0Y", "\\a[0] ", "ck"])
        net = rng.choice(["", "loose", CONSTANT, "a", "y", "n0Y"])
        return with_instance(text, at, f" {other.name} more (.{pin}({net}));")
    if way < .50:  # a whole bus at a cell, also of one bit
        bounds = rng.choice(["[0:0]", "[3:0]", "[2:2]"])
        return with_instance(text, at, f" wire {bounds} v; INV more (.A({rng.choice(['v', 'v[2]', ''])}));")
    if way < .60:  # names that meet
        name = rng.choice(["\\u0/u0 ", "\\u1/u0 ", "\\u0/u1 ", "\\x0/u0 "])
        return with_instance(text, at, f" INV {name} (.A({rng.choice(['loose', 'a'])}));")
    if way < .75:
        name = rng.choice(["u0/a", "u0/y", "u1/a", "u0/n0Y", "u0/a[0]", "x0/a", "x0/b", "x0/a[1]"])
        return with_instance(text, at, f" wire {rng.choice(['', '[1:0]', '[8:8]'])} \\{name} ;")
    if way < .82:  # names that are long
        name = "v" * rng.choice([500, 510, 511, 512, 1021, 1022, 1023])
        return with_instance(text, at, rng.choice([f" INV {name} ();", f" {other.name} {name} ();", f" wire {name};"]))
    if way < .88:  # a module with another's name
        return text + f"module {rng.choice([*names, 'INV', 'FF'])} (A, Y); input A; output Y; endmodule\n"
    if way < .885:
        return doubled(rng, text)
    if way < .94:  # one range changed
        places = [match.span() for match in re.finditer(r"\[[0-9]:[0-9]\]", text)]
        if not places:
            return text
        start, end = rng.choice(places)
        return text[:start] + rng.choice(["[0:0]", "[1:0]", "[0:2]", "[5:3]", ""]) + text[end:]
    return text.replace(rng.choice(["input", "output"]), rng.choice(["wire", "input", "output"]), 1)


def drawn(seed, count):
    """Blocks of four texts."""
    rng = random.Random(seed)
    for number in range(count):
        hierarchy = Hierarchy(rng)
        texts = [quadruples.library(rng), hierarchy.text, quadruples.parasitics(rng, hierarchy),
                 quadruples.constraints(rng, hierarchy)]
        if number % 2 and rng.random() < .7:
            texts[1] = changed(rng, hierarchy)
        elif number % 2:
            which = rng.choice([0, 1, 1, 1, 2, 3])
            texts[which] = quadruples.mutated(rng, texts[which])
        yield dict(zip(quadruples.KINDS, texts))


def flat_again(seed, count):
    """Holds the plain reader against itself; how many blocks differ."""
    differ, held = 0, 0
    with tempfile.TemporaryDirectory() as folder:
        for number, texts in enumerate(drawn(seed, count)):
            files = quadruples.written(Path(folder), texts)
            try:
                netlist = verilog.flat(texts["v"].encode("latin-1"))
            except (verilog.Refusal, verilog.Limit):
                continue
            # A bus that is named like a bit of another has no place in a text of one module.
            if any(netlist.bit_named(net.name) for net in netlist.nets):
                continue
            flat = "\n".join([*verilog.one_module(netlist), ""])
            wanted = quadruples.answer(files)
            found = quadruples.answer(quadruples.written(Path(folder), {**texts, "v": flat}))
            held += wanted[0] == 0
            if found != wanted:
                differ += 1
                print(f"{seed} {number}: {wanted[0]} {wanted[2].strip()}, flat {found[0]} {found[2].strip()}")
    print(f"{count} blocks, {held} linked, {differ} differences")
    return differ


def main(words):
    """Runs the command that the words give, and returns its status."""
    if words[:1] == ["draw"] and len(words) == 4:
        for number, texts in enumerate(drawn(int(words[1]), int(words[2]))):
            quadruples.written(Path(words[3]) / str(number), texts)
        return 0
    if words[:1] == ["answers"] and len(words) == 3:
        with tempfile.TemporaryDirectory() as folder:
            kinds = Counter(quadruples.kind_of(quadruples.answer(quadruples.written(Path(folder), texts)))
                            for texts in drawn(int(words[1]), int(words[2])))
        print(dict(kinds.most_common()))
        return 0
    if words[:1] == ["flat"] and len(words) == 3:
        return 1 if flat_again(int(words[1]), int(words[2])) else 0
    if words[:1] == ["compare"] and len(words) == 4:
        count, seed = int(words[2]), int(words[3])
        return 1 if quadruples.compare(words[1], drawn(seed, count), f"block-{seed}") else 0
    print(__doc__.strip(), file=sys.stderr)
    return 2


if __name__ == "__main__":
    sys.exit(main(sys.argv[1:]))
