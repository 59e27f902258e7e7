#!/usr/bin/env python3
"""Makes the four files of a block: gates in layers between flip-flops, a clock, wires with two couplings each.

    block.py CELLS FOLDER [--seed N] [--layers N] [--style STYLE]

writes block.lib, block.v, block.spef and block.sdc into FOLDER, the same ones for the same words. A sixth of the cells
are flip-flops. A gate's inputs come from the layer before it, now and then from an earlier one; the first layer reads
input ports and flip-flops, and the last one goes to flip-flops and output ports. In an order in which nets of one layer
lie near one another each net couples with the one before and the one behind it. STYLE is how the extractor writes (each
style draws wires of its own, so reports of two styles differ):

  mapped   names by number, entries of pins, each coupling on both sides (the default)
  plain    names as they are, brackets escaped, FF and KOHM
  angle    like plain, with buses in angle brackets and another delimiter
  triplet  like mapped, with three values each
  once     like mapped, with each coupling on the side of one net alone
  lumped   totals alone: no capacitors, no resistors, no couplings
  mixed    like mapped, with some nets lumped, some without resistors and some left out
"""

import argparse
import random
from pathlib import Path

# Of each gate: its inputs, its sense, its capacitance in fF, its delay in ps without load and per fF.
GATES = {"INV": ("A", "negative_unate", 1.0, 8, 4), "BUF": ("A", "positive_unate", 1.0, 15, 3),
         "NAND2": ("AB", "negative_unate", 1.2, 10, 5), "NOR2": ("AB", "negative_unate", 1.3, 12, 6),
         "AOI21": ("ABC", "negative_unate", 1.4, 16, 6), "XOR2": ("AB", "non_unate", 1.8, 22, 6)}
SLEWS, LOADS = [0, 5, 20, 50, 100, 250, 600], [0, 1, 2, 5, 10, 25, 80]
PERIOD = 1500  # ps


# ---- The library ------------------------------------------------------------------------

def table(group, base, per_load, per_slew):
    """A table of 7 slews by 7 loads, in ps over ps and fF."""
    rows = [", ".join(f"{base + per_load * load + per_slew * slew:.2f}" for load in LOADS) for slew in SLEWS]
    lines = ", \\\n".join(f'          "{row}"' for row in rows)
    return f"        {group} (delay7) {{ values ( \\\n{lines}); }}\n"


def delay_tables(base, per_load):
    return "".join(table(group, base + more, load, slew) for group, more, load, slew in (
        ("cell_rise", 1.5, per_load, .12), ("cell_fall", 0, per_load, .1),
        ("rise_transition", 2, 1.6 * per_load, .05), ("fall_transition", 1, 1.4 * per_load, .04)))


def library():
    """The text of the library."""
    out = ["library (block) {\n  time_unit : \"1ps\"; capacitive_load_unit (1, ff);\n",
           "  lu_table_template (delay7) {\n    variable_1 : input_net_transition;",
           " variable_2 : total_output_net_capacitance;\n",
           f'    index_1 ("{", ".join(map(str, SLEWS))}"); index_2 ("{", ".join(map(str, LOADS))}"); }}\n',
           "  lu_table_template (check2) {\n    variable_1 : related_pin_transition;",
           " variable_2 : constrained_pin_transition;\n    index_1 (\"0, 200\"); index_2 (\"0, 200\"); }\n"]
    for cell, (pins, sense, cap, base, per_load) in GATES.items():
        out.append(f"  cell ({cell}) {{\n")
        out += [f"    pin ({pin}) {{ direction : input; capacitance : {cap}; }}\n" for pin in pins]
        out.append("    pin (Y) { direction : output;\n")
        out += [f"      timing () {{ related_pin : \"{pin}\"; timing_sense : {sense};\n"
                f"{delay_tables(base + number, per_load)}      }}\n" for number, pin in enumerate(pins)]
        out.append("    }\n  }\n")
    out.append("  cell (DFF) { ff (IQ, IQN) { clocked_on : \"CK\"; next_state : \"D\"; }\n"
               "    pin (CK) { direction : input; capacitance : 0.8; }\n"
               "    pin (D) { direction : input; capacitance : 1.1;\n")
    for kind, values in (("setup_rising", "30, 40"), ("hold_rising", "5, 8")):
        rows = f"(\"{values}\", \"{values}\")"
        out.append(f"      timing () {{ related_pin : \"CK\"; timing_type : {kind};\n"
                   f"        rise_constraint (check2) {{ values {rows}; }}\n"
                   f"        fall_constraint (check2) {{ values {rows}; }} }}\n")
    out.append("    }\n    pin (Q) { direction : output;\n"
               "      timing () { related_pin : \"CK\"; timing_type : rising_edge;\n"
               f"{delay_tables(45, 4)}      }}\n    }}\n  }}\n}}\n")
    return "".join(out)


# ---- The netlist ------------------------------------------------------------------------

class Net:
    """A net: its name, its driver and its sinks, each an instance and a pin, or None and the port's name."""

    def __init__(self, name, driver):
        self.name, self.driver, self.sinks = name, driver, []


class Block:
    """A drawn block."""

    def __init__(self, rng, cells, layers):
        self.flops = max(1, cells // 6)
        self.inputs = max(2, min(1000, cells // 20))
        self.outputs = max(1, self.inputs // 2)
        gates = max(layers, cells - self.flops)
        self.clock, self.nets, self.instances = Net("ck", (None, "ck")), [], []
        first = [self.net(f"in[{i}]", (None, f"in[{i}]")) for i in range(self.inputs)]
        first += [self.net(f"q{i}", (f"r{i}", "Q")) for i in range(self.flops)]
        rows = [first]
        for layer in range(layers):
            count, row = gates // layers + (layer < gates % layers), []
            for _ in range(count):
                place = len(self.instances)
                name = f"u{place}" if rng.random() < .95 else f"\\l{layer}/u[{place}] "
                row.append(self.gate(rng, name, f"n{place}", rows))
            rows.append(row)
        for i in range(self.flops):
            data = rng.choice(rows[-1] if rng.random() < .8 else rng.choice(rows[1:]))
            data.sinks.append((f"r{i}", "D"))
            self.clock.sinks.append((f"r{i}", "CK"))
            self.instances.append(("DFF", f"r{i}", [("CK", "ck"), ("D", data.name), ("Q", f"q{i}")]))
        for i in range(self.outputs):
            net = self.net(f"out[{i}]", (f"o{i}", "Y"))
            source = rng.choice(rows[-1])
            source.sinks.append((f"o{i}", "A"))
            net.sinks.append((None, net.name))
            self.instances.append(("BUF", f"o{i}", [("A", source.name), ("Y", net.name)]))
        self.cells = {bare(name): cell for cell, name, _ in self.instances}

    def net(self, name, driver):
        self.nets.append(Net(name, driver))
        return self.nets[-1]

    def gate(self, rng, name, net, rows):
        """A gate, and the net that it drives."""
        cell = rng.choice(list(GATES))
        pins = []
        for pin in GATES[cell][0]:
            source = rng.choice(rows[-1] if rng.random() < .8 else rng.choice(rows))
            source.sinks.append((bare(name), pin))
            pins.append((pin, source.name))
        self.instances.append((cell, name, [*pins, ("Y", net)]))
        return self.net(net, (bare(name), "Y"))

    def verilog(self):
        """The text of the netlist."""
        yield "module block (ck, in, out);\n"
        yield f"  input ck;\n  input [{self.inputs - 1}:0] in;\n  output [{self.outputs - 1}:0] out;\n"
        for net in self.nets:
            if net.name[0] in "nq":
                yield f"  wire {net.name};\n"
        for cell, name, pins in self.instances:
            yield f"  {cell} {name} ({', '.join(f'.{pin}({net})' for pin, net in pins)});\n"
        yield "endmodule\n"


def bare(name):
    """The name that an escaped one is."""
    return name[1:-1] if name[0] == "\\" else name


def constraints(block):
    """The text of the constraints, in ps and fF as the library has them."""
    return (f"set sdc_version 2.0\nset_units -time ps -capacitance fF\n"
            f"create_clock -name clk -period {PERIOD} -waveform {{0 {PERIOD // 2}}} [get_ports ck]\n"
            f"set_input_transition 20 [all_inputs]\n"
            f"set_input_delay 40 -clock [get_clocks clk] -min [get_ports in]\n"
            f"set_input_delay 120 -clock [get_clocks clk] -max [get_ports in]\n"
            f"set_output_delay 100 -clock clk -max [all_outputs]\nset_output_delay -20 -clock clk -min [all_outputs]\n"
            f"set_load -pin_load 4 [get_ports {{out[0] out}}]\n")


# ---- The parasitics ---------------------------------------------------------------------

class Extractor:
    """Writes the parasitics of a block in one of the styles."""

    def __init__(self, rng, block, style):
        self.rng, self.style, self.block = rng, style, block
        self.is_mapped = style not in ("plain", "angle")
        self.delimiter = "|" if style == "angle" else ":"
        self.numbers = {}
        near = sorted(range(len(block.nets)), key=lambda i: i + rng.randrange(40))
        self.near = {i: [] for i in near}
        for left, right in zip(near, near[1:]):
            cap = rng.uniform(.2, 2)
            self.near[left].append((right, cap))
            if style != "once":
                self.near[right].append((left, cap))

    def name(self, name):
        """A name as it is written."""
        if self.is_mapped:
            return f"*{self.numbers[name]}"
        return self.spelled(name)

    def spelled(self, name):
        if self.style == "angle":
            return name.replace("[", "<").replace("]", ">").replace("/", "\\/")
        return name.replace("[", "\\[").replace("]", "\\]").replace("/", "\\/")

    def pin(self, pin):
        instance, name = pin
        return self.name(name) if instance is None else f"{self.name(instance)}{self.delimiter}{name}"

    def value(self, value):
        if self.style == "triplet":
            return f"{.9 * value:.4f}:{value:.4f}:{1.1 * value:.4f}"
        return f"{value:.4f}" if self.is_mapped else f"{value:.6f}"

    def cap(self, femtofarads):
        return self.value(femtofarads)

    def ohms(self, ohms):
        return self.value(ohms if self.is_mapped else ohms / 1000)

    def text(self):
        """The lines of the text."""
        brackets = "< >" if self.style == "angle" else "[ ]"
        units = "1 OHM" if self.is_mapped else "1 KOHM"
        yield "*SPEF \"IEEE 1481-1998\"\n*DESIGN \"block\"\n*DATE \"now\"\n*VENDOR \"none\"\n*PROGRAM \"block.py\"\n"
        yield "*VERSION \"1\"\n*DESIGN_FLOW \"NETLIST_TYPE_VERILOG\" \"PIN_CAP NONE\"\n*DIVIDER /\n"
        yield f"*DELIMITER {self.delimiter}\n*BUS_DELIMITER {brackets}\n"
        yield f"*T_UNIT 1 PS\n*C_UNIT 1 FF\n*R_UNIT {units}\n*L_UNIT 1 HENRY\n\n"
        if self.is_mapped:
            names = [net.name for net in self.block.nets] + ["ck"] + [bare(name) for _, name, _ in self.block.instances]
            self.numbers = {name: number for number, name in enumerate(names, 1)}
            yield "*NAME_MAP\n"
            for name, number in self.numbers.items():
                yield f"*{number} {self.spelled(name)}\n"
        yield "\n*PORTS\n"
        yield from (f"{self.name(name)} I\n" for name in ["ck"] + [f"in[{i}]" for i in range(self.block.inputs)])
        yield from (f"{self.name(f'out[{i}]')} O\n" for i in range(self.block.outputs))
        for number in range(len(self.block.nets)):
            yield from self.net(number)

    def net(self, number):
        """The lines of a net."""
        net, rng, style = self.block.nets[number], self.rng, self.style
        if style == "mixed":
            style = rng.choice(["mapped"] * 7 + ["lumped", "single", "none"])
        if style == "none":
            return
        name, d = self.name(net.name), self.delimiter
        grounds = [rng.uniform(.2, 1.2) for _ in range(len(net.sinks) + rng.randint(1, 2))]
        total = sum(grounds) + sum(cap for _, cap in self.near[number])
        yield f"\n*D_NET {name} {self.cap(total)}\n"
        if style == "lumped":
            yield "*END\n"
            return
        places = [f"{name}{d}{place}" for place in range(1, len(grounds) + 1)]
        if self.is_mapped:
            yield f"*CONN\n{self.connection(net.driver, 'O')}"
            yield from (self.connection(sink, "I") for sink in net.sinks)
            yield from (f"*N {place}{self.spot()}\n" for place in places)
        yield "*CAP\n"
        entry = 0
        for place, ground in zip(places, grounds):
            entry += 1
            yield f"{entry} {place} {self.cap(ground)}\n"
        for other, cap in self.near[number]:
            entry += 1
            there = f"{self.name(self.block.nets[other].name)}{d}1"
            ends = (rng.choice(places), there) if rng.random() < .8 else (there, rng.choice(places))
            yield f"{entry} {' '.join(ends)} {self.cap(cap)}\n"
        if style == "single":
            yield "*END\n"
            return
        yield "*RES\n"
        nodes = [self.pin(net.driver), *places]
        pairs = list(zip(nodes, nodes[1:])) + list(zip(places, map(self.pin, net.sinks)))
        for entry, (a, b) in enumerate(pairs, 1):
            yield f"{entry} {a} {b} {self.ohms(rng.uniform(2, 60))}\n"
        yield "*END\n"

    def connection(self, pin, direction):
        instance, _ = pin
        if instance is None:
            return f"*P {self.pin(pin)} {'I' if direction == 'O' else 'O'}{self.spot()}\n"
        return f"*I {self.pin(pin)} {direction}{self.spot()} *D {self.block.cells[instance]}\n"

    def spot(self):
        """Where something lies, which nothing depends on."""
        return f" *C {self.rng.uniform(0, 900):.2f} {self.rng.uniform(0, 900):.2f}"


def main():
    parser = argparse.ArgumentParser(description="Makes the four files of a block.")
    parser.add_argument("cells", type=int)
    parser.add_argument("folder", type=Path)
    parser.add_argument("--seed", type=int, default=1)
    parser.add_argument("--layers", type=int, default=12)
    parser.add_argument("--style", default="mapped",
                        choices=["mapped", "plain", "angle", "triplet", "once", "lumped", "mixed"])
    args = parser.parse_args()
    rng = random.Random(args.seed)
    block = Block(rng, args.cells, args.layers)
    texts = {"lib": [library()], "v": block.verilog(), "spef": Extractor(rng, block, args.style).text(),
             "sdc": [constraints(block)]}
    args.folder.mkdir(parents=True, exist_ok=True)
    for kind, text in texts.items():
        with open(args.folder / f"block.{kind}", "w", encoding="ascii", newline="\n") as file:
            file.writelines(text)


if __name__ == "__main__":
    main()
