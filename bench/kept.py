#!/usr/bin/env python3
"""Holds the report of a netlist with its hierarchy kept against that of the same netlist flattened by yosys.

    kept.py LIB FOLDER [PROGRAM]   writes two blocks into FOLDER and compares their reports

LIB is a library in which AND2X1, BUFX2 and DFFPOSX1 are cells: osu018_stdcells.lib of Debian's qflow-tech-osu018. yosys
has to be there. Of each block FOLDER gets what yosys writes, `kept.v` with several modules and `flat.v` with one, and
parasitics and constraints for both. The reports of PROGRAM, or of the plain programs without one, have to be the same
name by name, where yosys joins a path by points and xtalk by `/`; that of `again.v`, which the plain reader of netlists
makes of `kept.v`, byte for byte.
"""

import random
import subprocess
import sys
from pathlib import Path

import plain
import quadruples
import verilog

# In the first block ports are split into their bits; in the second whole buses are passed on, with other ranges.
BLOCKS = {"bits": ("splitnets -ports", """
module half(input [0:3] p, input [3:0] q, input ci, output [3:0] s, output co);
  assign {co, s} = p + q + ci;
endmodule
module adder(input [7:0] a, input [0:7] b, input ci, output [8:1] sum, output co);
  wire mid;
  half low(.p(a[3:0]), .q(b[4:7]), .ci(ci), .s(sum[4:1]), .co(mid));
  half high(.p(a[7:4]), .q(b[0:3]), .ci(mid), .s(sum[8:5]), .co(co));
endmodule
module lane(input ck, input en, input [7:0] a, input [7:0] b, output reg [7:0] q, output reg carry);
  wire [7:0] sum;
  wire co;
  adder add(.a(a), .b(b), .ci(en), .sum(sum), .co(co));
  always @(posedge ck) begin
    if (en) q <= sum;
    carry <= co;
  end
endmodule
module block(input ck, input en, input [7:0] x, input [7:0] y, output [7:0] u, output [0:7] v, output c, output d);
  lane first(.ck(ck), .en(en), .a(x), .b(y), .q(u), .carry(c));
  lane second(.ck(ck), .en(1'b1), .a(u), .b({y[0], y[7:1]}), .q(v), .carry(d));
endmodule
"""), "buses": ("", """
module mix(input [5:2] a, input [0:3] b, input keep, output [3:0] s);
  assign s = keep ? (a ^ {b[3], b[0:2]}) : (a & b);
endmodule
module stage(input ck, input [0:3] a, input [7:4] b, output reg [1:4] q);
  wire [3:0] s;
  mix m(.a(a), .b(b), .keep(1'b0), .s(s));
  always @(posedge ck) q <= s;
endmodule
module row(input ck, input [3:0] d, input [3:0] e, output [3:0] q);
  wire [3:0] mid;
  stage one(.ck(ck), .a(d), .b(e), .q(mid));
  stage two(.ck(ck), .a(mid), .b(e), .q(q));
endmodule
module block(input ck, input [3:0] x, input [0:3] y, output [9:6] z, output [3:0] w);
  row left(.ck(ck), .d(x), .e(y), .q(z));
  row right(.ck(ck), .d(y), .e(x), .q(w));
endmodule
""")}
PASSES = """read_verilog {folder}/block.v
synth -top block
dfflibmap -liberty {lib}
abc -liberty {lib}
setundef -zero
{split}
opt_clean -purge
insbuf -buf BUFX2 A Y
opt_clean
write_verilog -noattr -noexpr -nodec {folder}/kept.v
design -reset
read_liberty -lib {lib}
read_verilog {folder}/kept.v
hierarchy -top block
flatten
opt_clean -purge
write_verilog -noattr -noexpr -nodec {folder}/flat.v
"""


class Wires:
    """The nets of a netlist by their bits: of each its pins, in the order of instances, and the names of ports."""

    def __init__(self, text):
        self.flat = verilog.flat(text)
        self.pins, self.ports = {}, {"input": [], "output": []}
        for net in self.flat.nets:
            for name in self.bits(net):
                self.pins[name] = []
                if net.role:
                    self.ports[net.role].append(name)
        for _, instance, _, pins in self.flat.instances:
            for pin, wire in pins:
                what, *places = wire.split()
                if what == "bit":
                    net = self.flat.nets[int(places[0])]
                    name = f"{net.name.decode()}[{places[1]}]" if net.bounds else net.name.decode()
                    self.pins[name].append((instance.decode(), pin.decode()))

    def bits(self, net):
        name = net.name.decode()
        if not net.bounds:
            return [name]
        left, right = net.bounds
        step = 1 if left < right else -1
        return [f"{name}[{bit}]" for bit in range(left, right + step, step)]


def parasitics(rng, wires, names):
    """Parasitics of all nets, each coupled with the one before it and the one after it; `names` has what each net and
    each instance is called."""
    near = {}
    nets = sorted(wires.pins)
    for left, right in zip(nets, nets[1:]):
        near.setdefault(left, []).append((right, rng.randint(1, 9)))
        near.setdefault(right, []).append((left, rng.randint(1, 9)))
    yield '*SPEF "x" *DIVIDER / *DELIMITER : *BUS_DELIMITER [ ] *T_UNIT 1 PS *C_UNIT 1 FF *R_UNIT 1 OHM\n'
    ports = wires.ports["input"] + wires.ports["output"]
    for net in nets:
        called = names[net]
        yield f"*D_NET {called} 0\n*CAP\n1 {called}:1 {rng.randint(1, 20)}\n"
        for entry, (other, cap) in enumerate(near.get(net, []), 2):
            yield f"{entry} {called}:1 {names[other]}:1 {cap}\n"
        ends = [f"{names[instance]}:{pin}" for instance, pin in wires.pins[net]] + [called] * (net in ports)
        yield "*RES\n"
        yield from (f"{entry} {called}:1 {end} {rng.randint(1, 400)}\n" for entry, end in enumerate(ends, 1))
        yield "*END\n"


def constraints(wires):
    inputs = " ".join(port for port in wires.ports["input"] if port != "ck")
    outputs = " ".join(wires.ports["output"])
    return (f"set_units -time ns -capacitance pF\ncreate_clock -period 4 ck\nset_input_transition 0.1 [all_inputs]\n"
            f"set_input_delay 0.2 -min -clock ck {{{inputs}}}\nset_input_delay 0.9 -max -clock ck {{{inputs}}}\n"
            f"set_output_delay 0.5 -max -clock ck {{{outputs}}}\nset_output_delay 0.1 -min -clock ck {{{outputs}}}\n"
            f"set_load 0.01 {{{outputs}}}\n")


def report(program, files):
    """Status, standard output and standard error of `report`."""
    if program:
        return quadruples.given(program, "report", *files)
    return quadruples.report(quadruples.answer(files), "all")


def names_between(kept, flat):
    """What each net and each instance of the kept netlist is called in the flat one, found by instances and ports."""
    names = {name.decode(): name.decode().replace("/", ".") for _, name, _, _ in kept.flat.instances}
    assert sorted(names.values()) == sorted(name.decode() for _, name, _, _ in flat.flat.instances), "other instances"
    there = {pin: net for net, pins in flat.pins.items() for pin in pins}
    for net, pins in kept.pins.items():
        found = {there[names[instance], pin] for instance, pin in pins} or {net} & flat.pins.keys()
        assert len(found) <= 1, f"{net} is {found}"
        names[net] = found.pop() if found else net
        assert len(pins) == len(flat.pins.get(names[net], pins)), net
    return names


def renamed(text, names):
    """The lines of a report with other names, without their order and without the paths, which go by the order."""
    def word(word):
        instance, slash, pin = word.rpartition("/")
        return names.get(word) or (names[instance] + "/" + pin if slash and instance in names else word)
    lines = (line.split(" ") for line in text.splitlines())
    return sorted(" ".join(map(word, line)) for line in lines if line[0] not in ("path", "from", "step", "to"))


def main(words):
    """Runs the command that the words give, and returns its status."""
    if len(words) not in (2, 3):
        print(__doc__.strip(), file=sys.stderr)
        return 2
    lib, program, faults = Path(words[0]).resolve(), words[2] if words[2:] else None, 0
    for block, (split, source) in BLOCKS.items():
        folder = Path(words[1]) / block
        folder.mkdir(parents=True, exist_ok=True)
        (folder / "block.v").write_text(source)
        (folder / "passes.ys").write_text(PASSES.format(folder=folder, lib=lib, split=split))
        subprocess.run(["yosys", "-q", folder / "passes.ys"], check=True)
        kept, flat = (Wires((folder / name).read_bytes()) for name in ("kept.v", "flat.v"))
        (folder / "again.v").write_text("\n".join([*verilog.one_module(kept.flat), ""]))
        own = {name: name for name in [*kept.pins, *(name.decode() for _, name, _, _ in kept.flat.instances)]}
        names, reports = names_between(kept, flat), {}
        for name, called in (("kept", own), ("again", own), ("flat", names)):
            (folder / f"{name}.spef").write_text("".join(parasitics(random.Random(1), kept, called)))
            (folder / f"{name}.sdc").write_text(constraints(kept))
            files = [str(lib), *(str(folder / f"{name}.{end}") for end in ("v", "spef", "sdc"))]
            reports[name] = report(program, files)
        status, text, line = reports["kept"]
        if status != 0 or reports["again"] != reports["kept"]:
            faults += 1
            print(f"{folder}: {status} {line.strip()}, of again.v {reports['again'][0]} {reports['again'][2].strip()}")
        if reports["flat"][0] != 0 or renamed(text, names) != renamed(reports["flat"][1], {}):
            faults += 1
            print(f"{folder}: the report of flat.v differs: {reports['flat'][0]} {reports['flat'][2].strip()}")
        modules = len(verilog.modules_of((folder / "kept.v").read_bytes(), "several"))
        print(f"{block}: {modules} modules, {len(kept.flat.instances)} instances, {len(kept.pins)} nets, "
              f"{len(text.splitlines())} lines of report")
    print(f"{faults} differences")
    return 1 if faults else 0


if __name__ == "__main__":
    sys.exit(main(sys.argv[1:]))
