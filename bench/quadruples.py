#!/usr/bin/env python3
"""Holds a program's linking against the plain linker, on small drawn quadruples of files.

    quadruples.py draw SEED COUNT FOLDER      writes COUNT quadruples, each into a folder of FOLDER
    quadruples.py answers SEED COUNT          prints how many of them link, and which refusals the others have
    quadruples.py compare PROGRAM COUNT SEED  compares `PROGRAM link` byte for byte with link.py, and `PROGRAM report`
                                              with what plain.py makes of the linked text

Every other quadruple has a token of one of its files dropped, doubled or put in place of another. A quadruple is a
library of cells of every kind that linking tells apart, a netlist whose instances mostly read nets before them, the
parasitics of some nets, with nodes named in every way and trees that are now and then none, and constraints.
"""

import random
import re
import subprocess
import sys
import tempfile
from collections import Counter
from pathlib import Path

import link
import plain

KINDS = ("lib", "v", "spef", "sdc")
PATIENCE = 60


# ---- The library ------------------------------------------------------------------------

def table(rng, group, low, high):
    """A table group of one value, or of two or three places on an axis or on both."""
    shape = rng.choice([(1, 1), (1, 1), (2, 1), (1, 2), (2, 2), (3, 2)])
    if shape == (1, 1):
        return f'{group} (scalar) {{ values ("{rng.randint(low, high)}"); }}'
    slews, loads = (", ".join(map(str, sorted(rng.sample(range(60), size)))) for size in shape)
    values = [" ".join(str(rng.randint(low, high)) for _ in range(shape[1])) for _ in range(shape[0])]
    rows = ", ".join(f'"{row}"' for row in values)
    template = "c2" if group.endswith("constraint") else "d2"
    return f'{group} ({template}) {{ index_1 ("{slews}"); index_2 ("{loads}"); values ({rows}); }}'


def delays(rng):
    """Delay tables of both output edges, or of one."""
    edges = rng.choice([["rise", "fall"], ["rise", "fall"], ["fall", "rise"], ["rise"], ["fall"], []])
    groups = [table(rng, f"cell_{edge}", -3, 90) for edge in edges]
    groups += [table(rng, f"{edge}_transition", 0, 30) for edge in edges]
    rng.shuffle(groups)
    return " ".join(groups)


def timing(related, rest):
    return f'timing () {{ related_pin : "{related}"; {rest} }}'


def pin(names, direction, rest=""):
    return f"pin ({names}) {{ direction : {direction}; {rest} }}"


def gate(rng, name, inputs):
    """A gate with an arc group or two from its inputs."""
    groups = []
    for _ in range(rng.choice([1, 1, 2])):
        related = " ".join(rng.sample(inputs, rng.randint(1, len(inputs))))
        sense = rng.choice(["timing_sense : positive_unate;", "timing_sense : negative_unate;", ""])
        groups.append(timing(rng.choice([related, related, related + " NO"]), sense + delays(rng)))
    caps = [pin(name, "input", f"capacitance : {rng.choice([0, 1, 2, '1.25'])};") for name in inputs]
    return f"cell ({name}) {{ {' '.join(caps)} {pin('Y', 'output', ' '.join(groups))} }}"


def flop(rng):
    kinds = [timing("CK", f"timing_type : {kind}; " + " ".join(
        table(rng, f"{edge}_constraint", -5, 40) for edge in rng.choice([["rise", "fall"], ["rise"], ["fall"], []])))
        for kind in rng.choice([["setup_rising", "hold_rising"], ["hold_rising"], ["setup_rising"], []])]
    out = timing("CK", "timing_type : rising_edge; " + delays(rng)) + timing("D", "timing_type : clear;")
    return (f"cell (FF) {{ {pin('CK', 'input', 'capacitance : 1;')} {pin('D', 'input', ' '.join(kinds))} "
            f"{pin('Q QN', 'output', out)} }}")


def template(name, first, second):
    return (f'lu_table_template ({name}) {{ variable_1 : {first}; variable_2 : {second}; '
            f'index_1 ("0"); index_2 ("0"); }}')


def library(rng):
    """The text of a library."""
    cells = [gate(rng, "INV", ["A"]), gate(rng, "GATE", ["A", "B"]), flop(rng),
             f"cell (TIE) {{ {pin('Y', 'output')} }}",
             f"cell (ODD) {{ {pin('P', 'internal', 'capacitance : 3;')} {pin('A', 'input', 'capacitance : 4;')} }}",
             f"cell (TWIN) {{ {pin('A', 'input', 'capacitance : 1;')} {pin('A', 'input', 'capacitance : 8;')} }}",
             f"cell (LAT) {{ latch (Q, QN) {{ }} {pin('A', 'input')} {pin('Y', 'output')} }}",
             f"cell (IO) {{ {pin('A', 'inout')} {pin('Y', 'output')} }}",
             f"cell (FALL) {{ {pin('A', 'input')} {pin('Y', 'output', timing('A', 'timing_type : falling_edge;'))} }}",
             f"cell (BACK) {{ {pin('A', 'input')} {pin('Z', 'output')} {pin('Y', 'output', timing('Z', ''))} }}"]
    rng.shuffle(cells)
    units = rng.choice(["time_unit : 1ps; capacitive_load_unit (1, ff);",
                        "time_unit : 10ps; capacitive_load_unit (0.1, pf);"])
    return "\n".join([f"library (l) {{ {units}",
                      template("d2", "input_net_transition", "total_output_net_capacitance"),
                      template("c2", "constrained_pin_transition", "related_pin_transition"), *cells, "}\n"])


# ---- The netlist ------------------------------------------------------------------------

# Of each cell its pins that read a net, and those that drive one.
PINS = {"INV": ("A", "Y"), "GATE": ("AB", "Y"), "FF": (("CK", "D"), ("Q", "QN")), "TIE": ("", "Y"),
        "ODD": ("AP", ""), "TWIN": ("A", ""), "LAT": ("A", "Y"), "IO": ("A", "Y"), "FALL": ("A", "Y"),
        "BACK": ("A", "YZ"), "NOPE": ("A", "Y")}
CONSTANT = "1'b0"
ODD_CELLS = ["TIE", "ODD", "TWIN"]
UNFIT_CELLS = ["LAT", "IO", "FALL", "BACK", "NOPE"]


class Netlist:
    """A drawn netlist: its text, and what parasitics and constraints name of it."""

    def __init__(self, rng):
        inputs = ["ck", *rng.sample(["a", "b", "d", "\\p:q ", "\\s[0] "], rng.randint(1, 3))]
        outputs = rng.sample(["y", "z"], rng.randint(0, 2))
        bus = rng.choice([None, "[1:0]", "[0:1]", "[5:5]"])
        self.nets = [net.strip("\\ ") for net in inputs]
        sources = list(inputs)
        text = f"module m;\n input {', '.join(inputs)};\n"
        if bus:
            text += f" input {bus} e;\n"
            bits = [f"e[{bit}]" for bit in dict.fromkeys(re.findall("[0-9]", bus))]
            self.nets += bits
            sources += bits
        text += f" output {', '.join(outputs)};\n" if outputs else ""
        self.nets += outputs
        self.inputs, self.outputs = [net for net in self.nets if net not in outputs], outputs
        self.pins, self.of_net = [], {}
        free = list(outputs)
        for number in range(rng.choice([0, 1, 2, 3, 5, 8])):
            cell = rng.choice(["INV", "GATE", "GATE", "FF"] * 10 + ODD_CELLS * 4 + UNFIT_CELLS * (rng.random() < .1))
            name = rng.choice([f"u{number}"] * 9 + [f"\\u{number}/x ", "a", "d"])
            name = f"u{number}" if any(bare(name) == instance for instance, _ in self.pins) else name
            ways = []
            for end, pins in enumerate(PINS[cell]):
                for pin_name in pins:
                    ways += self.connection(rng, bare(name), pin_name, end, sources, free, number)
            if rng.random() < .01:
                ways.append(f".{rng.choice('XZ')}({rng.choice(['', 'a'])})")
            rng.shuffle(ways)
            text += f" {cell} {name} ({', '.join(ways)});\n"
        self.text = text + "endmodule\n"

    def connection(self, rng, instance, pin_name, end, sources, free, number):
        """A connection of a pin, which may be left out."""
        way = rng.random()
        if way < .04:
            return []
        if way < .10:
            return [f".{pin_name}({rng.choice(['', CONSTANT])})"]
        if end == 0:
            net = rng.choice(sources) if rng.random() < .96 else rng.choice([f"n{number}Y", "n1Y", "loose", *free])
        else:
            net = rng.choice(sources) if rng.random() < .02 else f"n{number}{pin_name}"
            if free and rng.random() < .5:
                net = free.pop()
            sources.append(net)
        bare_net = net.strip("\\ ")
        if bare_net not in self.nets:
            self.nets.append(bare_net)
        self.pins.append((instance, pin_name))
        self.of_net.setdefault(bare_net, []).append((instance, pin_name))
        return [f".{pin_name}({net})"]


def bare(name):
    """The name that an escaped one is."""
    return name.strip("\\ ")


# ---- Parasitics and constraints ----------------------------------------------------------

def parasitics(rng, netlist):
    """The text of parasitics of some of the nets."""
    delimiter = rng.choice(":::|")
    units = rng.choice(["*C_UNIT 1 FF *R_UNIT 1 OHM", "*C_UNIT 0.001 PF *R_UNIT 0.1 KOHM"])
    text = f'*SPEF "x" *DELIMITER {delimiter} {units}\n'
    names = [*netlist.nets, *(instance for instance, _ in netlist.pins)]
    numbers = {name: number for number, name in enumerate(dict.fromkeys(names), 1)} if rng.random() < .3 else {}
    if numbers:
        text += "*NAME_MAP\n" + "".join(f"*{number} {name}\n" for name, number in numbers.items())

    def spelled(name, end=""):
        return (f"*{numbers[name]}" if name in numbers else name) + (delimiter + end if end else "")

    near = dict(zip(netlist.nets, rng.sample(netlist.nets, len(netlist.nets))))
    near.update({other: net for net, other in near.items() if rng.random() < .7})
    wired = netlist.nets if rng.random() < .5 else netlist.nets[:rng.randint(0, len(netlist.nets))]
    for net in rng.sample(wired, len(wired)):
        own = [spelled(*pin) for pin in netlist.of_net.get(net, [])]
        own += [spelled(net)] * (net in netlist.inputs + netlist.outputs)
        own += [spelled(net, str(place)) for place in range(1, rng.randint(1, 4))]
        others = [spelled(rng.choice(netlist.nets), rng.choice(["", "1"])) for _ in range(3)] + ["x:1", "w"]
        others += [spelled(*pin) for pin in rng.sample(netlist.pins, min(2, len(netlist.pins)))]
        text += f"*D_NET {spelled(net)} {rng.randint(0, 30)}\n"
        caps = [capacitor(rng, own or [spelled(net)], others) for _ in range(rng.choice([0, 1, 2, 3, 5]))]
        if rng.random() < .7:
            caps.append(f"{rng.choice(own or [spelled(net)])} {spelled(near[net], '1')} {rng.choice([3, 12, 40])}")
        if caps or rng.random() < .2:
            text += "*CAP\n" + "".join(f"{entry} {cap}\n" for entry, cap in enumerate(caps, 1))
        if rng.random() < .7:
            text += "*RES\n" + "".join(f"{entry} {a} {b} {rng.choice([0, 1, 20.5, 400, 2000])}\n"
                                       for entry, (a, b) in enumerate(tree(rng, own or [spelled(net)]), 1))
        text += "*END\n"
    return text


def capacitor(rng, own, others):
    value = rng.choice([0, 1, 2.5, 7, 15, 40, "1:2:3"])
    first = rng.choice(own if rng.random() < .95 else others)
    way = rng.random()
    if way < .5:
        return f"{first} {value}"
    return f"{first} {rng.choice(others)} {value}" if way < .75 else f"{rng.choice(others)} {first} {value}"


def tree(rng, nodes):
    """Resistors that mostly join all nodes as a tree."""
    nodes = rng.sample(nodes, len(nodes))
    pairs = [(node, rng.choice(nodes[:place])) for place, node in enumerate(nodes) if place]
    pairs = [pair if rng.random() < .5 else pair[::-1] for pair in pairs]
    if pairs and rng.random() < .03:
        pairs.pop(rng.randrange(len(pairs)))
    if rng.random() < .03:
        pairs.append((rng.choice(nodes), rng.choice(nodes)))
    if rng.random() < .05:
        pairs += [("k:1", "k:2"), ("k:2", "k:1")]
    rng.shuffle(pairs)
    return pairs


def constraints(rng, netlist):
    """The text of constraints."""
    lines = [f"create_clock -period {rng.choice([50, 400])} ck"] * (rng.random() < .93)
    clock = "-clock ck" if lines else None

    def some(ports):
        return "{" + " ".join(rng.sample(ports, rng.randint(1, len(ports)))) + "}"

    if clock and rng.random() < .7:
        lines.append(f"set_input_delay {rng.choice([0, 3, 10])} {clock} {{{' '.join(netlist.inputs)}}}")
        lines.append(f"set_input_transition {rng.choice([0, 2, 8])} [all_inputs]")
    for _ in range(rng.randint(0, 6)):
        flags = " ".join(flag for flag in ("-min", "-max", "-rise", "-fall") if rng.random() < .25)
        number = rng.choice([0, 1, 5, 12.5, 30, -4])
        way = rng.random()
        if way < .45 and clock:
            lines.append(f"set_input_delay {number} {clock} {flags} {some(netlist.inputs)}")
        elif way < .65 and clock and netlist.outputs:
            lines.append(f"set_output_delay {number} {clock} {flags} {some(netlist.outputs)}")
        elif way < .85:
            lines.append(f"set_input_transition {abs(number)} {flags} {some(netlist.inputs)}")
        elif netlist.outputs:
            lines.append(f"set_load {abs(number)} {some(netlist.outputs)}")
    return "\n".join(lines) + "\n"


# ---- Quadruples --------------------------------------------------------------------------

def mutated(rng, text):
    """A text with one of its tokens dropped, doubled or put in place of another."""
    parts = re.findall(r"\s+|[A-Za-z0-9_.*]+|.", text)
    i, j, way = rng.randrange(len(parts)), rng.randrange(len(parts)), rng.random()
    if way < .3:
        del parts[i]
    elif way < .5:
        parts[i:i] = [parts[i], " "]
    elif way < .85:
        parts[i] = parts[j]
    else:
        parts[i], parts[j] = parts[j], parts[i]
    return "".join(parts)


def drawn(seed, count):
    """Quadruples of texts."""
    rng = random.Random(seed)
    for number in range(count):
        netlist = Netlist(rng)
        texts = [library(rng), netlist.text, parasitics(rng, netlist), constraints(rng, netlist)]
        if number % 2:
            which = rng.randrange(4)
            texts[which] = mutated(rng, texts[which])
        yield dict(zip(KINDS, texts))


def written(folder, texts):
    """The four files of a quadruple, in a folder."""
    folder.mkdir(parents=True, exist_ok=True)
    for kind, text in texts.items():
        (folder / f"x.{kind}").write_text(text, encoding="latin-1", newline="\n")
    return [f"{folder}/x.{kind}" for kind in KINDS]


def answer(files):
    """Status, standard output and standard error that `link` asks for."""
    try:
        return 0, link.linked(files), ""
    except link.Refused as refused:
        status, line = refused.args
        return status, "", line + "\n"


def report(answered, kind):
    """Status, standard output and standard error that `report` asks for by this kind, where `link` asks for this."""
    if answered[0] != 0:
        return answered
    data = answered[1].encode("latin-1")
    return plain.answer("", data, plain.judge(data), kind)


def given(*words):
    """Status, standard output and standard error of a command."""
    run = subprocess.run(words, capture_output=True, timeout=PATIENCE, check=False)
    return run.returncode, run.stdout.decode("latin-1"), run.stderr.decode("latin-1")


def compare(program, quadruples, called):
    """Compares, and returns how many differ; those that do are kept in folders of this name with their numbers."""
    kinds, differ = Counter(), 0
    with tempfile.TemporaryDirectory() as folder:
        for number, texts in enumerate(quadruples):
            files = written(Path(folder) / str(number), texts)
            linked = answer(files)
            kinds[kind_of(linked)] += 1
            kind = ("all", "checks", "noise")[number % 3]
            for command, wanted, options in (("link", linked, []), ("report", report(linked, kind), ["--kind", kind])):
                found = given(program, command, *files, *options)
                if found != wanted:
                    differ += 1
                    kept = written(Path(tempfile.gettempdir()) / f"{called}-{number}", texts)
                    print(f"{command} {' '.join(kept)}: wanted {wanted[0]} {wanted[2].strip()}, "
                          f"given {found[0]} {found[2].strip()}")
    print(f"{sum(kinds.values())} quadruples {dict(kinds)}, {differ} differences")
    return differ


def kind_of(answered):
    """The kind of an answer: its status and its code."""
    return f"{answered[0]} {answered[2].split()[1]}" if answered[2] else "0"


def main(words):
    """Runs the command that the words give, and returns its status."""
    if words[:1] == ["draw"] and len(words) == 4:
        for number, texts in enumerate(drawn(int(words[1]), int(words[2]))):
            written(Path(words[3]) / str(number), texts)
        return 0
    if words[:1] == ["answers"] and len(words) == 3:
        seed, count = map(int, words[1:])
        with tempfile.TemporaryDirectory() as folder:
            kinds = Counter(kind_of(answer(written(Path(folder), texts))) for texts in drawn(seed, count))
        print(dict(kinds.most_common()))
        return 0
    if words[:1] == ["compare"] and len(words) == 4:
        count, seed = int(words[2]), int(words[3])
        return 1 if compare(words[1], drawn(seed, count), f"quadruple-{seed}") else 0
    print(__doc__.strip(), file=sys.stderr)
    return 2


if __name__ == "__main__":
    sys.exit(main(sys.argv[1:]))
