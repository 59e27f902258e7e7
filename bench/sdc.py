#!/usr/bin/env python3
"""An independent reader of SDC, plain, that shares nothing with the program but the format.

    sdc.py read NETLIST TIME CAPACITANCE < TEXT   prints what the constraints say, or the one refusal that they have
    sdc.py draw SEED COUNT FOLDER                 writes texts to try: whole, mutated and random ones

NETLIST is a file of structural Verilog, TIME and CAPACITANCE are the powers of ten from the library's units to fs and
to aF. A refusal is the line `CODE LINE`. Otherwise the first line is `clock NAME NET BIT PERIOD FALL` or `no clock`,
and then there is a line for each bit of a port, in the netlist's order,

    port NET BIT input A B C D output A B C D slew A B C D load L

with the number of the net and of the bit, and four numbers each for the least rise, the greatest rise, the least fall
and the greatest fall, or `-` where no command set one. These are the numbers as commands set them; `windows` gives
what an input's mean. Drawn texts are for the netlist `PORTS` below.
"""

import random
import re
import sys
from pathlib import Path

import tokens as lexer
import verilog
from spef import NUMBER, power_of_ten, scaled

LONGEST_NAME = 1024
FLAGS = {b"-min", b"-max", b"-rise", b"-fall"}
ANY_WORD = {b"-resistance", b"-voltage", b"-current", b"-power"}
IGNORED = {b"current_design", b"set_driving_cell", b"set_propagated_clock", b"set_operating_conditions",
           b"set_max_fanout", b"set_max_transition", b"set_max_capacitance", b"set_min_capacitance", b"set_max_area",
           b"set_wire_load_mode", b"set_wire_load_model", b"set_wire_load_selection_group"}
# Of each command: its flags, its options with what stands behind each, and its arguments.
COMMANDS = {
    b"set_units": (set(), {b"-time": "unit", b"-capacitance": "unit", **dict.fromkeys(ANY_WORD, "any")}, []),
    b"create_clock": (set(), {b"-name": "name", b"-period": "number", b"-waveform": "number"}, ["list"]),
    b"set_input_delay": (FLAGS, {b"-clock": "list"}, ["number", "list"]),
    b"set_output_delay": (FLAGS, {b"-clock": "list"}, ["number", "list"]),
    b"set_input_transition": (FLAGS, {}, ["number", "list"]),
    b"set_load": ({b"-pin_load"}, {}, ["number", "list"]),
}
REQUIRED = {b"create_clock": [b"-period"], b"set_input_delay": [b"-clock"], b"set_output_delay": [b"-clock"]}
UNITS = {b"-time": {b"ns": 6, b"ps": 3}, b"-capacitance": {b"pf": 6, b"ff": 3}}
SIDES = ["rise min", "rise max", "fall min", "fall max"]


class Refusal(Exception):
    """The one answer of a text that means nothing: its code and its line."""


class Word:
    """A word: bare, braced, quoted or bracketed, with its text, or the words between its brackets."""

    def __init__(self, kind, text=b"", words=None):
        self.kind, self.text, self.words = kind, text, words


# ---- From bytes to commands ------------------------------------------------------------

def has_open_bracket(text):
    """Whether a `[` in a bare word has no `]` in it."""
    place = text.find(b"[")
    while place >= 0:
        end = text.find(b"]", place)
        if end < 0:
            return True
        place = text.find(b"[", end)
    return False


def words_of(pieces, text):
    """The words of a command, or None where they do not fit."""
    levels, ended = [[]], None
    for piece in pieces:
        body = text[piece.start:piece.end]
        closes = piece.kind == "Mark" and body == b"]"
        if piece.start == ended and not closes:
            return None
        ended = None if piece.kind == "Word" or body == b"[" else piece.end
        if closes:
            if len(levels) == 1:
                return None
            inner = levels.pop()
            levels[-1].append(Word("bracketed", words=inner))
        elif piece.kind == "Mark":
            levels.append([])
        elif piece.kind == "Word":
            if has_open_bracket(body):
                return None
            levels[-1].append(Word("bare", body))
        else:
            levels[-1].append(Word("braced" if piece.kind == "Escaped" else "quoted", body[1:-1]))
    return levels[0] if len(levels) == 1 else None


def commands_of(text):
    """The commands of a text, each its first line and its words."""
    fault = lexer.fault(text, "sdc")
    if fault:
        raise Refusal("C1", int(fault.split()[1]))
    found = []
    for piece in lexer.pieces(text, "sdc"):
        if piece.kind == "Break":
            yield from command_of(found, text)
            found = []
        elif piece.kind in lexer.TOKENS:
            found.append(piece)
    yield from command_of(found, text)


def command_of(pieces, text):
    """The command of some tokens, if they are any."""
    if pieces:
        yield pieces[0].line, words_of(pieces, text)


# ---- The shape of words ----------------------------------------------------------------

def parts_of(text):
    """The parts of a braced list: white space, and a joined line, separates them."""
    return [part for part in re.split(rb"(?:[ \t\r\n]|\\\n)+", text) if part]


def is_short(name):
    return len(name) <= LONGEST_NAME


def names_in(word):
    """The names of a word that is a bare name or a braced list, or None."""
    names = {"bare": [word.text], "braced": parts_of(word.text)}.get(word.kind)
    return names if names is not None and all(map(is_short, names)) else None


def list_of(word):
    """An object list: what it is of, and its names, or None."""
    if word.kind != "bracketed":
        names = names_in(word)
        return None if names is None else ("any", names)
    heads = [inner.text if inner.kind == "bare" else None for inner in word.words]
    if heads in ([b"all_inputs"], [b"all_outputs"]):
        return heads[0].decode(), []
    if len(heads) == 2 and heads[0] in (b"get_ports", b"get_clocks"):
        names = names_in(word.words[1])
        return None if names is None else (heads[0].decode(), names)
    return None


def has_shape(word, shape):
    """Whether a word fits where a number, a unit, a name, an object list or any word is wanted."""
    if shape == "any":
        return True
    if shape == "list":
        return list_of(word) is not None
    if word.kind == "bracketed":
        return False
    is_name = 1 <= len(word.text) <= LONGEST_NAME and all(33 <= byte <= 126 for byte in word.text)
    return shape != "name" or is_name


class Command:
    """The words of a listed command in their places; C1 for the whole command comes before C3."""

    def __init__(self, line, name, words):
        self.line, self.name = line, name
        flags, options, shapes = COMMANDS[name]
        self.flags, self.options, self.arguments, misfit = set(), {}, [], False
        rest = iter(words)
        for word in rest:
            is_option = word.kind == "bare" and word.text[:1] == b"-" and not NUMBER.fullmatch(word.text)
            if not is_option:
                shape = shapes[len(self.arguments)] if len(self.arguments) < len(shapes) else "list"
                self.hold(has_shape(word, shape))
                self.arguments.append(word)
            elif word.text in options:
                value = next(rest, None)
                misfit |= value is None or word.text in self.options
                self.hold(value is None or has_shape(value, options[word.text]))
                self.options[word.text] = value
            else:
                misfit |= word.text not in flags or word.text in self.flags
                self.flags.add(word.text)
        misfit |= len(self.arguments) != len(shapes)
        misfit |= any(option not in self.options for option in REQUIRED.get(name, []))
        if misfit:
            raise Refusal("C3", line)

    def hold(self, fits):
        if not fits:
            raise Refusal("C1", self.line)


# ---- What commands mean ----------------------------------------------------------------

class Port:
    """A bit of a port with the numbers that commands set; a side without one is None."""

    def __init__(self, decl, bit, name, role):
        self.decl, self.bit, self.name, self.role = decl, bit, name, role
        self.input, self.output, self.slew, self.load = ({}, {}, {}, 0)


def bits_of(net):
    """The bits of a net, from the left bound of a bus to its right."""
    if net.bounds is None:
        return [0]
    left, right = net.bounds
    return range(left, right + 1) if left <= right else range(left, right - 1, -1)


class Constraints:
    """The constraints that a text means for a netlist."""

    def __init__(self, text, module, time_scale, cap_scale):
        self.scales = {b"-time": time_scale, b"-capacitance": cap_scale}
        self.module, self.clock, self.ports = module, None, {}
        for number, net in enumerate(module.nets):
            if net.role:
                for bit in bits_of(net):
                    name = net.name if net.bounds is None else b"%s[%d]" % (net.name, bit)
                    self.ports[number, bit] = Port(number, bit, name, net.role)
        for line, words in commands_of(text):
            self.command(line, words)

    def command(self, line, words):
        """Takes one command."""
        self.line = line
        if words is None or words[0].kind == "bracketed":
            raise Refusal("C1", line)
        name, rest = words[0].text, words[1:]
        if name in IGNORED:
            return
        if name == b"set":
            if rest and rest[0].kind == "bracketed":
                raise Refusal("C1", line)
            if rest and rest[0].text != b"sdc_version":
                raise Refusal("C2", line)
            if len(rest) != 2:
                raise Refusal("C3", line)
            return
        if name not in COMMANDS:
            raise Refusal("C2", line)
        command = Command(line, name, rest)
        getattr(self, name.decode())(command)

    def number(self, word, unit):
        """The number of a word in base units."""
        value = scaled(word.text, self.scales[unit]) if NUMBER.fullmatch(word.text) else None
        if value is None:
            raise Refusal("C4", self.line)
        return value

    def bits_named(self, name):
        """The bits of the port, the bus or the bus bit with a name."""
        found = self.module.bit_named(name)
        if not found and name in self.module.numbers:
            number = self.module.numbers[name]
            found_bits = [(number, bit) for bit in bits_of(self.module.nets[number])]
        else:
            found_bits = [found] if found else []
        if not found_bits or found_bits[0] not in self.ports:
            raise Refusal("C6", self.line)
        return [self.ports[place] for place in found_bits]

    def ports_of(self, word, role):
        """The bits of ports that a list stands for, all of a role; one that stands twice is there twice."""
        kind, names = list_of(word)
        if kind == "get_clocks":
            raise Refusal("C6", self.line)
        if kind in ("all_inputs", "all_outputs"):
            ports = [port for port in self.ports.values() if port.role == kind[4:-1]]
        else:
            ports = [port for name in names for port in self.bits_named(name)]
        if any(port.role != role for port in ports):
            raise Refusal("C6", self.line)
        return ports

    def hold_clock(self, word):
        """The list of an option `-clock` names the clock, and nothing else."""
        kind, names = list_of(word)
        if kind not in ("any", "get_clocks") or not names:
            raise Refusal("C6", self.line)
        if any(self.clock is None or name != self.clock[0] for name in names):
            raise Refusal("C6", self.line)

    def set_units(self, command):
        scales = {}
        for option, units in UNITS.items():
            if option in command.options:
                text = command.options[option].text
                size, power = text[:-2], units.get(text[-2:].lower())
                shift = power_of_ten(size) if size else 0
                if power is None or shift is None:
                    raise Refusal("C3", self.line)
                scales[option] = power + shift
        self.scales.update(scales)

    def create_clock(self, command):
        period, fall = self.number(command.options[b"-period"], b"-time"), None
        if period < 1:
            raise Refusal("C4", self.line)
        if b"-waveform" in command.options:
            parts = [self.number(Word("bare", part), b"-time")
                     for part in parts_of(command.options[b"-waveform"].text)]
            if len(parts) != 2 or parts[0] != 0 or not 0 < parts[1] < period:
                raise Refusal("C4", self.line)
            fall = parts[1]
        ports = self.ports_of(command.arguments[0], "input")
        if len(ports) != 1:
            raise Refusal("C6", self.line)
        if self.clock is not None:
            raise Refusal("C5", self.line)
        name = command.options[b"-name"].text if b"-name" in command.options else ports[0].name
        self.clock = (name, ports[0], period, period // 2 if fall is None else fall)

    def set_sides(self, command, role, which, unit, least):
        """Sets the sides that a command names of all its ports."""
        value = self.number(command.arguments[0], unit)
        if least is not None and value < least:
            raise Refusal("C4", self.line)
        ports = self.ports_of(command.arguments[1], role)
        if b"-clock" in command.options:
            self.hold_clock(command.options[b"-clock"])
        for port in ports:
            for side in SIDES:
                edge, end = (b"-" + part.encode() for part in side.split())
                edges, ends = command.flags & {b"-rise", b"-fall"}, command.flags & {b"-min", b"-max"}
                if (not edges or edge in edges) and (not ends or end in ends):
                    getattr(port, which)[side] = value

    def set_input_delay(self, command):
        self.set_sides(command, "input", "input", b"-time", None)

    def set_output_delay(self, command):
        self.set_sides(command, "output", "output", b"-time", None)

    def set_input_transition(self, command):
        self.set_sides(command, "input", "slew", b"-time", 0)

    def set_load(self, command):
        value = self.number(command.arguments[0], b"-capacitance")
        if value < 0:
            raise Refusal("C4", self.line)
        for port in self.ports_of(command.arguments[1], "output"):
            port.load = value


def span(sides, edge):
    """The least and the greatest number of an edge; a missing side takes the other's. None without any."""
    given = [sides[f"{edge} {end}"] for end in ("min", "max") if f"{edge} {end}" in sides]
    return (min(given), max(given)) if given else None


def windows(constraints, port):
    """What is given at an input's two edges: earliest and latest time, least and greatest slew, or None."""
    clock = constraints.clock
    given = []
    for edge in ("rise", "fall"):
        times = span(port.input, edge)
        if clock and clock[1] is port:
            times = (0, 0) if edge == "rise" else (clock[3], clock[3])
        given.append(None if times is None else (*times, *(span(port.slew, edge) or (0, 0))))
    return given


def listing(text, module, time_scale, cap_scale):
    """The lines that are printed for a text."""
    try:
        constraints = Constraints(text, module, time_scale, cap_scale)
    except Refusal as refusal:
        code, line = refusal.args
        return [f"{code} {line}"]
    lines = ["no clock"]
    if constraints.clock:
        name, port, period, fall = constraints.clock
        lines = [f"clock {name.decode()} {port.decl} {port.bit} {period} {fall}"]
    for port in constraints.ports.values():
        fields = [f"port {port.decl} {port.bit}"]
        for which in ("input", "output", "slew"):
            numbers = (str(getattr(port, which).get(side, "-")) for side in SIDES)
            fields.append(f"{which} " + " ".join(numbers))
        lines.append(" ".join(fields) + f" load {port.load}")
    return lines


def module_of(text):
    """The module of a netlist of one module."""
    return verilog.Reader(text, False).modules()[0]


# ---- Texts to try ----------------------------------------------------------------------

PORTS = (b"module m (ck, a, b, \\c[0] , y, z, w);\n input ck, a; input [2:0] b; input \\c[0] ; input [7:7] s;\n"
         b" output y; output [0:1] z; output [3:3] w; wire n;\nendmodule\n")
SEEDS = [
    b"set sdc_version 2.0\nset_units -time ns -resistance kOhm -capacitance pF -voltage V -current mA\n"
    b"create_clock -name ck -period 1.0 -waveform {0 0.5} [get_ports ck]\n"
    b"set_input_delay 0.074 -clock [get_clocks ck] -min [get_ports {a}]\n"
    b"set_input_delay 0.100 -clock [get_clocks ck] -max [get_ports {a}]\nset_input_transition 0.02 [all_inputs]\n"
    b"set_output_delay 0.05 -clock ck -max [get_ports y]\nset_output_delay 0.01 -clock ck -min [get_ports y]\n"
    b"set_load -pin_load 0.002 [get_ports y]\n",
    b"# b\\\nset_false_path\nset_load 5 {y z\n w}; set_load {1} z[1] # c\n",
    b"create_clock -period 2 ck; set_input_delay -0.5 \\\n -clock {ck} {b a} -rise\nset_input_delay 1 -clock ck b[1]\n",
    b"set_units -time 10ps -capacitance 0.1FF\ncreate_clock -period \"3\" -name \"c d\" s\n",
    b"set_driving_cell -lib_cell BUF [all_inputs]\ncreate_clock -period 1e-6 -name {k} {s[7]}\n"
    b"set_output_delay 1 -clock k [all_outputs] -fall -min\n",
    b"current_design m;set_max_fanout 3 [get_x [y z]];set_input_transition .5 -max c[0]\n",
]
POOL = [b"set", b"sdc_version", b"set_units", b"create_clock", b"set_input_delay", b"set_output_delay", b"set_load",
        b"set_input_transition", b"set_max_area", b"set_false_path", b"-time", b"-capacitance", b"-power", b"-name",
        b"-period", b"-waveform", b"-clock", b"-min", b"-max", b"-rise", b"-fall", b"-pin_load", b"-x", b"-1", b"-.5",
        b"0", b"1", b"2.5", b"1.", b"1e9", b"1e99", b"-0.0000000001", b"0.0000005", b"0.0000004", b"1" * 31, b"ns",
        b"1ps", b"10NS", b"2ns", b"pF", b"0.001pf", b"ff", b"{0 1}", b"{0 0}", b"{1 2}", b"{0 .5 }", b"\"0 1\"",
        b"ck", b"a", b"b", b"b[1]", b"b[9]", b"b[00]", b"c[0]", b"s", b"s[7]", b"y", b"z", b"z[0]", b"n", b"w",
        b"{a b}", b"{a a}", b"{}", b"\"\"", b"{ y }", b"\"y\"", b"[all_inputs]", b"[all_outputs]", b"[get_ports a]",
        b"[get_ports {a b[2]}]", b"[get_clocks ck]", b"[get_clocks {ck}]", b"[get_ports]", b"[x]", b"[", b"]", b"{",
        b"}", b"\"", b"#", b"# x", b";", b"\n", b" ", b"\\\n", b"\\", b"x" * 1024, b"x" * 1025, b"\x80", b"[[x]]",
        b"a[b]c", b"a[b", b"x]", b"{a}b", b"{a};", b"\"a\"]", b"[a]]"]


def mutated(rng, text):
    """A text with a few of its tokens dropped, doubled, moved or put in place of others."""
    parts = re.findall(rb"\s|\\\n|[A-Za-z0-9_.-]+|.", text, re.DOTALL)
    for _ in range(rng.choice([1, 1, 1, 2, 2, 3, 5])):
        if not parts:
            parts.append(rng.choice(POOL))
        i, way = rng.randrange(len(parts)), rng.random()
        if way < .2:
            del parts[i]
        elif way < .4:
            parts[i:i] = [rng.choice(POOL), rng.choice([b"", b" "])]
        elif way < .65:
            parts[i] = rng.choice(POOL)
        elif way < .75:
            parts[i] = rng.choice(parts)
        elif way < .85:
            j = rng.randrange(len(parts))
            parts[i], parts[j] = parts[j], parts[i]
        elif way < .9:
            del parts[i:]
        else:
            parts[i:i] = parts[i:i + rng.randrange(1, 12)]
    return b"".join(parts)


def random_list(rng, names):
    """An object list, mostly of these names."""
    some = [rng.choice(names if rng.random() < .95 else POOL) for _ in range(rng.choice([0, 1, 1, 2, 3]))]
    braced = b"{" + rng.choice([b" ", b"\n", b"\t ", b" \\\n "]).join(some) + b"}"
    one = rng.choice([braced, braced, rng.choice(names)])
    return rng.choice([one, b"[get_ports " + one + b"]", b"[ get_ports " + one + b" ]"])


def random_command(rng):
    """A command of the listed ones, mostly a good one."""
    number = rng.choice([b"0", b"1", b"2.5", b".25", b"1e-1", b"-3", b"0.0005", b"{1}", b"\"2\"", b"1e3", b"-0"])
    inputs, outputs = [b"ck", b"a", b"b", b"b[0]", b"b[2]", b"c[0]", b"s"], [b"y", b"z", b"z[1]", b"w"]
    flags = [flag for flag in (b"-min", b"-max", b"-rise", b"-fall") if rng.random() < .25]
    of_clock = [b"-clock " + rng.choice([b"ck", b"{ck}", b"[get_clocks ck]", b"[get_clocks {ck ck}]", b"k"])]
    which = rng.randrange(7)
    if which == 0:
        options = [b"-period " + rng.choice([b"1", b"2e-6", b"1e-6", b"10", b"0.0000004"])]
        options += [b"-name " + rng.choice([b"ck", b"\"ck\"", b"{k}"])] * rng.randrange(2)
        options += [b"-waveform " + rng.choice([b"{0 .5}", b"{0 1e-6}", b"{ 0.0 5 }"])] * rng.randrange(2)
        words, parts = b"create_clock", [*options, rng.choice([b"ck", b"[get_ports ck]", b"{s}", b"b[1]"])]
    elif which == 1:
        words, parts = b"set_units", [b"-time " + rng.choice([b"ns", b"1PS", b"{10ps}"])] * rng.randrange(2)
        parts += [b"-capacitance " + rng.choice([b"pf", b"1fF", b"\"0.1pf\""])] * rng.randrange(2)
    elif which == 2:
        words, parts = b"set_load", [number, random_list(rng, outputs)]
    elif which == 3:
        words, parts = b"set_input_transition", [number, random_list(rng, inputs), *flags]
    elif which == 4:
        words, parts = b"set_output_delay", [number, random_list(rng, outputs), *flags, *of_clock]
    else:
        words, parts = b"set_input_delay", [number, random_list(rng, inputs), *flags, *of_clock]
    tail = [part for part in parts if part.startswith(b"-") and part not in (number,)]
    for part in tail:
        parts.remove(part)
        parts.insert(rng.randrange(len(parts) + 1), part)
    return words + b" " + rng.choice([b" ", b"  ", b" \\\n "]).join(parts)


def random_text(rng):
    """A text of a few commands, mostly behind a clock."""
    commands = [b"create_clock -period 4 ck"] * (rng.random() < .8)
    commands += [random_command(rng) for _ in range(rng.choice([1, 2, 3, 5, 9]))]
    return rng.choice([b"\n", b"\n", b" ;\n", b"; "]).join(commands) + rng.choice([b"\n", b""])


def drawn(seed, count):
    """Texts to try, each with the two scales that it is read with."""
    rng = random.Random(seed)
    for number in range(count):
        way, text = rng.random(), random_text(rng)
        if number < len(SEEDS):
            text = SEEDS[number]
        elif way < .4:
            text = mutated(rng, rng.choice(SEEDS))
        elif way < .7:
            text = mutated(rng, text)
        yield text, rng.choice([6, 6, 6, 3, -12, 12]), rng.choice([6, 6, 3, -12, 12])


def main(words):
    """Runs the command that the words give, and returns its status."""
    if len(words) == 4 and words[0] == "read":
        module = module_of(Path(words[1]).read_bytes())
        for line in listing(sys.stdin.buffer.read(), module, int(words[2]), int(words[3])):
            print(line)
        return 0
    if len(words) == 4 and words[0] == "draw":
        folder = Path(words[3])
        (folder / "ports.v").write_bytes(PORTS)
        for number, (text, time_scale, cap_scale) in enumerate(drawn(int(words[1]), int(words[2]))):
            (folder / f"{number}_{time_scale}_{cap_scale}.sdc").write_bytes(text)
        return 0
    print(__doc__.strip(), file=sys.stderr)
    return 2


if __name__ == "__main__":
    sys.exit(main(sys.argv[1:]))
