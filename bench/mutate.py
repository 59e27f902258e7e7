#!/usr/bin/env python3
"""Draws texts of the four formats, whole and mutated ones, and holds a reader's answers against the plain readers'.

    mutate.py draw FORMAT SEED COUNT FOLDER   writes COUNT texts of a format and what its plain reader says of each
    mutate.py compare FOLDER ANSWERS          compares another reader's answers with these, status 1 if one differs

FORMAT is lib, v, spef or sdc. FOLDER gets the texts, `NUMBER.FORMAT`, the answers of the plain reader, one after
another, each with a line `--` behind it, in `answers`, and in `list` a line for each text: its file and how it is read.
That is nothing for lib and spef, `one` or `several` for v, and `NETLIST TIME CAPACITANCE` for sdc, as `sdc.py read`
takes them. ANSWERS is a file like `answers`. Of SDC what constraints mean is compared, not what commands set: a side
that is missing is the other side's, and a slew that is missing is 0.
"""

import random
import re
import sys
from collections import Counter
from pathlib import Path

import liberty
import sdc
import spef
import verilog

END = "--\n"
MANY = [1, 1, 1, 2, 2, 3, 5]
NUMBERS = """0 0.0 1 -1 -0 +3 .5 5. 1e3 1e 1e-99 1e99 0.0000004 0.0000005 -4e-7 -5e-7 -0.0000000001 1099511.627776
    1099511.627777 -1099511.627776 1:2:3 1:-2:3 00.10 123456789012345678901234567890 1234567890123456789012345678901
    0x1 nan 1_0""".split()
BYTES = "(){}[]<>:;,.\"\\/* \n\r\ta01|-+e#$_'`=\x00\x1f\x7f\x80\xff"


# ---- Mutations ---------------------------------------------------------------------------

def with_another_number(rng, part):
    """A token with one of its numbers in place of another, or doubled, or with a byte put into it."""
    places = [match.span() for match in re.finditer(r"[0-9.][0-9.eE+-]*", part)]
    if not places or rng.random() < .3:
        at = rng.randrange(len(part) + 1)
        return part[:at] + rng.choice(BYTES) + part[at + rng.randrange(2):]
    start, end = rng.choice(places)
    number = rng.choice([rng.choice(NUMBERS), part[start:end] + " " + rng.choice(NUMBERS), "",
                         " ".join(map(str, range(rng.choice([63, 64, 65]))))])
    return part[:start] + number + part[end:]


def mutated(rng, text, token, pool):
    """A text with a few of its tokens or lines dropped, doubled, moved, changed or put in place of others."""
    for _ in range(rng.choice(MANY)):
        if rng.random() < .1:
            parts = re.findall(r"[^\n]*\n|[^\n]+", text)
        else:
            parts = re.findall(token, text, re.DOTALL)
        parts = parts or [rng.choice(pool)]
        i, j, way = rng.randrange(len(parts)), rng.randrange(len(parts)), rng.random()
        if way < .15:
            del parts[i:i + rng.choice(MANY)]
        elif way < .35:
            parts[i:i] = [rng.choice(pool), rng.choice(["", " ", "\n"])]
        elif way < .5:
            parts[i] = rng.choice(pool)
        elif way < .6:
            parts[i] = parts[j]
        elif way < .7:
            parts[i], parts[j] = parts[j], parts[i]
        elif way < .74:
            del parts[i:]
        elif way < .82:
            parts[i:i] = parts[i:i + rng.randrange(1, 25)]
        else:
            parts[i] = with_another_number(rng, parts[i])
        text = "".join(parts)
    return text


def now_and_then(rng, share, odd, usual):
    """An odd value for a share of the draws, else a usual one."""
    return rng.choice(odd if rng.random() < share else usual)


# ---- Libraries ---------------------------------------------------------------------------

LIB_TOKEN = r'"(?:\\.|[^"\\])*"|\s|[A-Za-z_0-9.+-]+|.'
LIB_POOL = """library cell pin timing lu_table_template time_unit capacitive_load_unit variable_1 variable_2 index_1
    index_2 values direction capacitance related_pin timing_sense timing_type latch ff bus input output inout internal
    positive_unate negative_unate non_unate combinational rising_edge falling_edge setup_rising hold_rising clear preset
    recovery_rising three_state_enable minimum_period cell_rise cell_fall rise_transition fall_transition
    rise_constraint fall_constraint scalar d2 d1 c2 swap input_net_transition total_output_net_capacitance
    related_pin_transition constrained_pin_transition 1ns 1ps 10ps pf ff PF A B Y CK INV ( ) { } : ; , "" "A" "0.1"
    "\\\\" /* */ / // \\ " # @""".split() + NUMBERS + [
    "\\\n", "\\\r\n", '"A B"', '"0.1,0.2"', '"0.1 , 0.2"', '"0.1\\\n0.2"', '",,"', '" "', '"\\""', '"\n"', '"A\\ B"',
    '"x\ny"', '"\x80"', '"' + "x" * 1024 + '"', "y" * 1025, "z" * 1024, "latch (q) {}", "cell (INV) {}", "cell ();",
    "x () { }", 'values ("1 2 3 4");', 'index_1 ("0 1");', "index_2 (0, 1, 2);", "index_1 ();", "direction : output;",
    "variable_1 : input_net_transition;", "timing () { related_pin : A; }", "timing_type : combinational;",
    'capacitance : "0.5";', "lu_table_template (d2) { }", "time_unit : 1fs;", "capacitive_load_unit (2, pf);",
    "capacitive_load_unit (1000.0, Ff)", 'capacitive_load_unit ("1,pf");', "time_unit (1ps);"]
# Every construct that a library may have.
LIB_SEED = r"""/* every construct; "no string" here */
library ("rich", lib : 2) {
  technology (cmos); ;; date : "today" "and \"more\"" word;
  time_unit : "1ps"; time_unit : 10ps;
  capacitive_load_unit (5, xx); capacitive_load_unit ("0.1", "fF")
  operating_conditions (slow) { process : 1; tree_type : "w c"; }
  lu_table_template (d2) { variable_1 : input_net_transition;
    variable_2 : total_output_net_capacitance;
    index_1 ("1, 2, 3");
    index_2 ("0.5 1.5"); };
  lu_table_template ("swap") { variable_2 : "input_net_transition"; variable_1 : total_output_net_capacitance;
    index_1 (1, 2);
    index_2 ("10 20\
     30"); }
  lu_table_template (d1) { variable_1 : total_output_net_capacitance; index_1 ("1,2,4"); }
  lu_table_template (s1) {
    variable_2 : input_net_transition;
    index_2 ("0.1", "0.2"); }
  lu_table_template (c2) {
    variable_1 : constrained_pin_transition;
    variable_2 : related_pin_transition;
    index_1 ("0,1");
    index_2 ("0 2 4"); }
  lu_table_template (twice) { variable_1 : nothing; }
  lu_table_template (twice) {
    variable_1 : related_pin_transition;
    index_1 ("5 6 7"); }
  lu_table_template (unused) { variable_1 : odd; index_2 ("x"); values ("y"); }
  lu_table_template (scalar) { variable_1 : input_net_transition; }
  cell (INV) {
    area : 1.0; area : 2.0;
    pin (A, "A2") { direction : input; capacitance : "0.5"; capacitance : 0.25; }
    pin (Y Z) { direction : output; function : "!(A\\A2)";
      timing () { related_pin : "A A2"; timing_sense : negative_unate;
        cell_rise (d2) { values ("1, 2", "3, 4", "5, 6"); }
        cell_fall (swap) {
          index_1 ("3 5");
          values ("1 2 3", \
                  "4 5 6"); }
        rise_transition (d1) { values (1, 2, 3); }
        fall_transition (s1) { values ("7", "8") } }
      timing (named) { related_pin : A; timing_type : combinational;
        timing_sense : positive_unate; timing_sense : odd;
        cell_fall (scalar) { values ("1"); }
        cell_fall (d2) { index_1 ("9"); index_2 ("1,,2 ,"); values ("1 2"); }
        fall_transition ("scalar") { values (2); }
        internal_power (x) { values (no numbers); } }
      timing () { timing_type : three_state_enable; cell_rise (unknown) { } }
      timing () { related_pin : "EN"; timing_type : falling_edge; cell_rise (unknown) { } }
      timing () { related_pin : "EN"; timing_type : setup_rising; rise_constraint (unknown) { } } }
    pin (I) { direction : inout; timing () { related_pin : A; } }
    pin (J) { direction : internal; capacitance : -0.0000000001; }
    bus (D) { pin (D0) { capacitance : x; } }
  }
  cell (DFF) { ff (IQ, IQN) { clocked_on : "CK"; next_state : "D"; }
    pin (CK) { direction : "input"; clock : true; capacitance : 0.001; }
    pin (D) { direction : input; capacitance : 1e-3;
      timing () { related_pin : "CK"; timing_type : setup_rising;
        rise_constraint (c2) { values ("1 2 3" "4 5 6"); }
        fall_constraint (twice) { values ("0.030 0.04 -0.05"); } }
      timing () { related_pin : "CK"; timing_type : hold_rising;
        rise_constraint (twice) {
          index_1 ("1");
          values ("-0.010"); }
        cell_rise (unknown) { } }
      timing () { related_pin : "CK"; timing_type : recovery_falling; rise_constraint (unknown) { } }
      timing () { related_pin : "CK"; timing_type : combinational; cell_rise (unknown) { } } }
    pin (Q) { direction : output;
      timing () { related_pin : "CK\
        CK2"; timing_type : "rising_edge";
        cell_rise (d2) { values ("1 1 1 1 1 1"); }
        rise_transition (scalar) { values ("0.020"); } } } }
  cell ("LAT\CH") { latch (IQ, IQN) { enable : "G"; } pin (G) { } }
  cell (empty) { }
};;
;
"""
DELAY = ("input_net_transition", "total_output_net_capacitance")
CHECK = ("related_pin_transition", "constrained_pin_transition")


def quoted(rng, word):
    """A word as it stands or as a string."""
    return now_and_then(rng, .7, [f'"{word}"'], [word])


def lib_index(rng, size):
    """The numbers of an index, mostly increasing ones."""
    numbers = rng.sample(range(50), size)
    numbers = now_and_then(rng, .05, [numbers], [sorted(numbers)])
    return ", ".join(f"0.{number:02}" for number in numbers)


def lib_template(rng, name):
    """A template, the sizes of its axes by their numbers, and whether it is one of checks."""
    kinds = now_and_then(rng, .3, [CHECK], [DELAY])
    first, second = rng.sample(kinds, 2)
    if rng.random() < .05:
        second = rng.choice([*DELAY, *CHECK, "none"])
    variables, items = {1: first, 2: second}, []
    sizes = {axis: rng.randrange(1, 4) for axis in rng.choice([(1,), (2,), (1, 2), (1, 2), (1, 2)])}
    for axis, size in sizes.items():
        items += [f"variable_{axis} : {quoted(rng, variables[axis])};"] * (rng.random() < .98)
        items += [f'index_{axis} ("{lib_index(rng, size)}");'] * (rng.random() < .95)
    if rng.random() < .2:
        rng.shuffle(items)
    return f"lu_table_template ({name}) {{ " + rng.choice([" ", "\n"]).join(items) + " }", sizes, kinds is CHECK


def lib_table(rng, group, templates, is_check):
    """A table group, mostly of a template of its kind."""
    fit = [name for name, (_, of_checks) in templates.items() if of_checks == is_check]
    name = now_and_then(rng, .04, [*templates, "nope"], [*fit, "scalar"])
    sizes, items = dict(templates.get(name, ({}, False))[0]), []
    for axis in sizes:
        if rng.random() < .3:
            sizes[axis] = rng.randrange(1, 4)
            items.append(f'index_{axis} ("{lib_index(rng, sizes[axis])}");')
    *rows, columns = [1, *sizes.values()]
    many = rows[-1] if rows else 1
    lines = [", ".join(now_and_then(rng, .01, NUMBERS, ["0", "0.1", "0.25", "1", "2"]) for _ in range(columns))
             for _ in range(many + (rng.random() < .02))]
    items.append("values (" + rng.choice([", ", " ", ",\n"]).join(f'"{line}"' for line in lines) + ");")
    if rng.random() < .2:
        rng.shuffle(items)
    return f"{group} ({quoted(rng, name)}) {{ " + " ".join(items) + " }"


def lib_timing(rng, role, templates):
    """A timing group, mostly one of a kind that a pin of this role has."""
    usual = ["setup_rising", "hold_rising"] if role == "input" else ["combinational", "rising_edge"]
    kind = now_and_then(rng, .12, ["clear", "preset", "setup_falling", "setup_rising", "rising_edge", "odd"], usual)
    items = [f"timing_type : {kind};"] * (kind != "combinational" or rng.random() < .5)
    related = ['"A"', '"A B"', "A", '"A\\\nB"', '" CK "', '"A  B\tC"']
    items += [f"related_pin : {rng.choice(related)};"] * (rng.random() < .97)
    senses = ["positive_unate", "negative_unate", "non_unate"]
    items += [f"timing_sense : {quoted(rng, rng.choice(senses))};"] * (rng.random() < .6)
    is_check = kind in ("setup_rising", "hold_rising")
    pairs = [["rise_constraint"], ["fall_constraint"]] if is_check else [["cell_rise", "rise_transition"],
                                                                         ["cell_fall", "fall_transition"]]
    groups = [group for pair in pairs if rng.random() < .85 for group in pair[:now_and_then(rng, .02, [1], [2])]]
    if rng.random() < .3:
        rng.shuffle(groups)
    items += [lib_table(rng, group, templates, is_check) for group in groups]
    return "timing () { " + rng.choice([" ", "\n"]).join(items) + " }"


def lib_pin(rng, templates):
    """A group of pins with its timing groups."""
    role = rng.choice(["input", "output", "output", "inout", "internal"])
    items = [f"direction : {quoted(rng, role)};"]
    items += [f"capacitance : {rng.choice(['0.1', '0.002', '0', chr(34) + '0.3' + chr(34)])};"] * (rng.random() < .5)
    if role in ("input", "output"):
        items += [lib_timing(rng, role, templates) for _ in range(rng.choice([0, 1, 1, 2]))]
    return f"pin ({rng.choice(['A', 'Y', 'A, B', 'D C'])}) {{ " + "\n".join(items) + " }"


def lib_whole(rng):
    """A library of a few cells, mostly one that is read."""
    units = [f"time_unit : {quoted(rng, rng.choice(['1ns', '1ps', '10ps', '100ps']))};"] * (rng.random() < .5)
    factor, unit = rng.choice(["1", "1.0", "0.1", "1000"]), rng.choice(["pf", "ff", "PF", "fF"])
    units += [f"capacitive_load_unit ({factor}, {unit});"] * (rng.random() < .5)
    texts, templates = [], {}
    for name in rng.sample(["t1", "t2", "t3", "t4"], rng.randrange(1, 5)):
        text, *templates[name] = lib_template(rng, name)
        texts.append(text)
    for name in rng.sample(["INV", "NAND", "DFF", "BUF"], rng.randrange(1, 4)):
        pins = [lib_pin(rng, templates) for _ in range(rng.randrange(4))]
        pins += ["latch (IQ) { x : 1; }"] * (rng.random() < .1)
        texts.append(f"cell ({now_and_then(rng, .02, ['INV'], [name])}) {{ " + "\n".join(pins) + " }")
    return "library (l) {\n" + "\n".join(units + texts) + "\n}" + rng.choice(["", ";\n"])


def draw_lib(rng):
    """A library, and what its plain reader says of it."""
    text = now_and_then(rng, .45, [LIB_SEED], [lib_whole(rng)])
    if text is LIB_SEED or rng.random() < .4:
        text = mutated(rng, text, LIB_TOKEN, LIB_POOL)
    return text, "", liberty.listing(text.encode("latin-1"))


# ---- Netlists ----------------------------------------------------------------------------

V_TOKEN = r"\s|\\[!-~]+|[A-Za-z_][A-Za-z0-9_$]*|[0-9]+'?[a-zA-Z]?[0-9]*|."
V_POOL = """[1048575:1048573] module endmodule input output wire tri supply0 supply1 assign inout parameter # { } ( ) [
    ] , ; : . = " * 1 0 3 1048575 1048576 1'b0 1'H1 2'b0 a b c u A always initial reg function task generate begin //
    /* */ (* *) [3:0] [0:3] d w x b[0] b[1] k[5]""".split() + [
    "\\b[0] ", "\\b[1] ", "\\a[2] ", "\\b[00] ", "\\ ", "\\a ", "\\wire ", "x" * 1024, "x" * 1025, "\n", "\n`d\n",
    "\x80", "input b;", "wire [3:0] b;", "wire b;", "INV q (.A(b));", "INV q1 (.A(\\b[0] ));", "endmodule module n;"]
V_SEEDS = [
    "module m (a, b, \\c[0] );\ninput [3:0] a; output b;\ninput [0:1] c;\nwire [11:8] d, e;\nwire w;\n"
    "INV u (.A(a[0]), .B(\\a[1] ), .C(x), .D(1'b0), .E());\nNAND u2 (.A(d[9]), .Y(b)), u3 (.A(c[1]));\nendmodule\n",
    "// c\n(* keep = \"1\" *)\nmodule top (p, q);\n`line 1\n/* x */ input p; output q; wire p; tri t; supply0 g;\n"
    "BUF \\u[1] (.A(p), .Y(\\n\\x ));\nBUF u4 ();\nwire n5; BUF u5 (.A(n5), .Y(q));\nendmodule\n",
    "module half (ck, q1, y); input ck, q1; output y; wire n1; DFF f2 (.CK(ck), .D(n1), .Q(y));\nendmodule\n"
    "module top (ck, a, y);\ninput ck; input [1:0] a; output y;\nhalf h (.ck(ck), .q1(a[1]), .y(y));\n"
    "sub s (.a(a));\nendmodule\n",
    "module m;\nwire \\b[0] ;\nwire [3:0] b;\nendmodule\n",
    "module m;\nINV u (.A(\\b[2] ));\nwire [3:0] b;\nINV v (.A(\\b[1] ), .B(\\b[7] ), .C(\\b[01] ));\nendmodule\n",
]
V_NAMES = ["a", "b", "c", "d", "w", "\\b[0] ", "\\b[7] ", "\\b[01] ", "\\a[2] ", "\\c[0][1] ", "\\c[0] "]
V_RANGES = ["", "", "[3:0] ", "[0:3] ", "[1:1] ", "[7:4] ", "[03:00] ", "[1048575:1048570] "]


def v_instance(rng, number, nets):
    """An instance with its connections, mostly to these nets."""
    odd = ["{a,b}", "b[1:0]", "2", "b[a]", "b[1048576]", *V_NAMES]
    pins = rng.sample(["A", "B", "C", "D", "Y", "\\Z[0] "], rng.randrange(5))
    pins += ["A"] * (rng.random() < .01)
    wires = ", ".join(f".{pin}({now_and_then(rng, .05, odd, nets)})" for pin in pins)
    return f"{rng.choice(['INV', '(* k *) NAND', 'm'])} {now_and_then(rng, .02, ['u1'], [f'u{number}'])} ({wires});"


def v_whole(rng, name):
    """A module, mostly one that is read, with bits of buses by both of their names."""
    lines, nets = [], ["1'b0", "1'H1", "", "n1", "\\x/y ", "\\b[01] ", "\\c[0][1] "]
    header = rng.sample(["a", "b", "y"], rng.randrange(1, 4))
    for port in [*header, "w"]:
        bounds = now_and_then(rng, .02, ["[1048576:0] ", "[0:9] "], V_RANGES)
        word = rng.choice(["input", "output"]) if port in header else "wire"
        lines.append(f"{word} {bounds}{now_and_then(rng, .02, V_NAMES, [port])};")
        bits = [int(bit) for bit in re.findall(r"\d+", bounds)]
        nets += [f"{port}[{bit}]" for bit in bits] + [f"\\{port}[{bit}] " for bit in bits] if bits else [port]
        nets += [port] * (bool(bits) and rng.random() < .1)
    lines += ["wire w;", "tri a;", "supply0 g;"][:now_and_then(rng, .1, [1, 2, 3], [0])]
    lines += [v_instance(rng, number, nets) for number in range(rng.randrange(6))]
    lines += ["wire n1, n2;"] * (rng.random() < .2)
    return f"module {name} ({', '.join(header)});\n" + rng.choice(["\n", " ", "\n`x y\n"]).join(lines) + "\nendmodule\n"


def draw_v(rng):
    """A netlist, whether it is read as one module or as several, and what its plain reader says of it."""
    text = "".join(v_whole(rng, name) for name in now_and_then(rng, .3, ["mn", "mnm"], ["m"]))
    if rng.random() < .5:
        text = mutated(rng, rng.choice([text] * 3 + V_SEEDS), V_TOKEN, V_POOL)
    way = rng.choice(["one", "several"])
    return text, way, verilog.listing(text.encode("latin-1"), way)


# ---- Parasitics --------------------------------------------------------------------------

SPEF_TOKEN = r"\s|[^\s]+"
SPEF_POOL = """*SPEF *DESIGN *DATE *VENDOR *PROGRAM *VERSION *DESIGN_FLOW *DIVIDER *DELIMITER *BUS_DELIMITER *T_UNIT
    *C_UNIT *R_UNIT *L_UNIT *NAME_MAP *PORTS *PHYSICAL_PORTS *POWER_NETS *GROUND_NETS *D_NET *R_NET *D_PNET *R_PNET
    *DEFINE *PDEFINE *INDUC *V *CONN *CAP *RES *END *P *I *N *1 *01 *2 *9 *1:1 *2:3 *x * ** *1x a b n1 n1:1 bus[0]
    bus\\[0\\] [ ] [] < > <> ( ) { } "s" "" / : . | PF FF pf NS OHM kohm HENRY US \\ \\\\ \\*1 //c /* */ *1\\:1
    2|3""".split() + NUMBERS
SPEF_SEED = r"""*SPEF "IEEE"
*DESIGN "t"
*DESIGN_FLOW "a" "b"
*DIVIDER .
*DELIMITER |
*BUS_DELIMITER < >
*C_UNIT 10 FF
*R_UNIT 0.1 KOHM
*T_UNIT 1.0 ps
*NAME_MAP
*1 a.b\.c<1>\<2\>
*02 top/x\|y
*3 u1
*POWER_NETS
vdd gnd
*D_NET *1 1:1.5:2 *V 7
*CONN
*P x I
*CAP
1 *01|p.q 0.0005
2 *1|p.q *1 9:2:9
3 3 x4 5e-1
*RES
1 x.y|z *001|a\|b[0] 3
2 *3|A *2 1e-3
*END
*NAME_MAP *4 net\*4
*D_NET *4 0 *RES 1 a 2 3 *END
*D_NET n_17 .5 *END
"""


def spef_name(rng, marks):
    """A name of a net or of a node, with these marks: divider, delimiter and brackets."""
    over, mark, left, right = marks
    mapped = ["*1", "*2", "*03", f"*1{mark}Z", f"*2{mark}1", f"*3{mark}x/y"]
    escaped = ["q\\[1\\]", f"c\\{over}d", "\\*1", "e\\\\f"]
    plain = ["a", "b", "n1", f"top{over}x", f"u1{mark}A", f"q{left}1{right}", "<y>", "m.n|o:p"]
    return rng.choice([*plain, *escaped, *mapped])


def spef_value(rng):
    """A value, mostly one that is read."""
    usual = ["0", "1", "0.5", ".25", "1e-3", "2:3:4", "1:0.2:9", "-1:3:-1", "+2", "1e3", "007.50"]
    return now_and_then(rng, .02, ["-1", "1:-1:1", "1:2", "x", *NUMBERS], usual)


def spef_net(rng, number, marks):
    """The section of a net."""
    def name():
        return spef_name(rng, marks)
    lines = [f"*D_NET {name()}{now_and_then(rng, .2, [''], [number])} {spef_value(rng)}{rng.choice(['', ' *V 3'])}"]
    lines += ["*CONN", f"*I {name()} O *D INV", "*N *1:1 *C 0 0"][:rng.choice([0, 1, 3])]
    for word, least in (("*CAP", 1), ("*RES", 2)):
        if rng.random() < .8:
            lines.append(word)
            for entry in range(rng.randrange(4)):
                nodes = " ".join(name() for _ in range(rng.randrange(least, 3)))
                lines.append(f"{entry} {nodes} {spef_value(rng)}")
    return [*lines, "*END"]


def draw_spef(rng):
    """Parasitics, and what their plain reader says of them."""
    marks = rng.choice(["/:[]", ".:<>", "/|()", ".|[]", "::[]", "[/<>", "\\:[]"])
    header = ['*DESIGN "d"', '*DESIGN_FLOW "a" "b"', "*DIVIDER " + marks[0], "*DELIMITER " + marks[1],
              "*BUS_DELIMITER " + rng.choice(["", " "]).join(marks[2:]), f"*R_UNIT 1 {rng.choice(['OHM', 'kohm'])}",
              f"*C_UNIT {rng.choice(['1', '10', '0.001'])} {rng.choice(['PF', 'ff'])}"]
    header = rng.sample(header, now_and_then(rng, .05, [6], [7]))
    lines = ['*SPEF "x"', *header, "*NAME_MAP"]
    targets = [f"n{marks[0]}1", f"bus{marks[2]}4{marks[3]}", f"a\\{marks[0]}b", f"u{marks[1]}2", "net"]
    keys = rng.sample(["*1", "*2", "*3", "*04", "*10"], rng.choice([4, 5]))
    lines += [f"{key} {rng.choice(targets)}" for key in keys]
    lines += ["*PORTS", "a I *C 0 0", "*1 O"] * (rng.random() < .3)
    for number in range(rng.choice([1, 1, 2, 3])):
        lines += spef_net(rng, number, marks)
    text = rng.choice(["\n", "\n", " \n", "\t"]).join(lines) + "\n"
    text = now_and_then(rng, .4, [SPEF_SEED], [text])
    if text is SPEF_SEED or rng.random() < .4:
        text = mutated(rng, text, SPEF_TOKEN, SPEF_POOL)
    return text, "", spef.listing(text.encode("latin-1"))


# ---- Constraints -------------------------------------------------------------------------

# The netlist of sdc.py, then: buses both ways and a name like a bit's beside them; escaped names of every sort; many
# ports; ports that are used before they are declared; one input alone; no input.
NETLISTS = [
    sdc.PORTS.decode(),
    "module core (clk, rst, \\bus[0] , data, q, \\q[9] , alarm, hot);\n input clk, rst; input \\bus[0] ;\n"
    " input [0:7] data; input [12:9] hot; output [5:2] q; output \\q[9] ; output alarm; wire [3:0] inner;\n"
    " INV u1 (.A(rst), .Y(used));\nendmodule\n",
    "module \\e{sc (\\a{b , \\c\\d , \\e;f , \\wire , x$1, \\bk[1][0] , bk, o, \\o[0][1] );\n"
    " input \\a{b , \\c\\d , \\e;f ;\n input \\wire ; input x$1; input \\bk[1][0] ; input [1:0] bk;\n"
    " output o; output \\o[0][1] ; output \\-5 ; output \\\"qu\" ;\nendmodule\n",
    "module many (ck);\n input ck;\n" + "".join(f" input i{i};\n output o{i};\n" for i in range(50))
    + "".join(f" input [{i % 5}:{i % 7}] v{i};\n output [{i}:{i // 2}] w{i};\n" for i in range(25)) + "endmodule\n",
    "module late;\n INV u1 (.A(d1), .Y(y1));\n output y1; wire y1; input d1; input [7:0] d2; wire [7:0] d2;\n"
    " output [1048575:1048573] far; supply0 gnd; wire ck;\nendmodule\n",
    "module lone (k); input k; endmodule\n",
    "module mute (y); output y; output [2:0] z; endmodule\n",
]
MODULES = [sdc.module_of(text.encode()) for text in NETLISTS]
SDC_POOL = [word.decode("latin-1") for word in sdc.POOL]
SDC_TOKEN = r"\s|\\\n|[A-Za-z0-9_.-]+|."


def names_of(module):
    """The names of a module's inputs, outputs and other nets, with those of bits and of missing bits."""
    names = {"input": [], "output": [], None: []}
    for net in module.nets:
        name = net.name.decode()
        names[net.role].append(name)
        if net.bounds:
            names[net.role] += [f"{name}[{bit}]" for bit in {*net.bounds, sum(net.bounds) // 2}]
            names[None].append(f"{name}[{max(net.bounds) + 1}]")
    return [some or ["none"] for some in names.values()]


def sdc_list(rng, names, odd):
    """An object list, mostly of these names; a name that no braced word can hold stands there seldom."""
    some = [now_and_then(rng, .01, odd, names) for _ in range(rng.choice([0, 1, 1, 2, 3, 5]))]
    plain = [name for name in some if not re.search(r'[{}"\\;]', name)]
    one = "{" + rng.choice([" ", "\n", " \\\n "]).join(now_and_then(rng, .1, [some], [plain])) + "}"
    if len(some) == 1 and rng.random() < .6:
        one = some[0]
    return rng.choice([one, one, f"[get_ports {one}]", f"[ get_ports {one} ]"])


def sdc_command(rng, inputs, outputs, odd, clock):
    """A command that is mostly good, and whose lists are mostly of ports of the right direction."""
    usual = ["0", "1", "2.5", ".25", "1e-1", "0.0005", "{1}", '"2"', "-0", "+4", "0.0000005"]
    number = now_and_then(rng, .05, NUMBERS, usual)
    to_inputs = rng.choice([sdc_list(rng, inputs, odd), sdc_list(rng, inputs, odd), "[all_inputs]"])
    to_outputs = rng.choice([sdc_list(rng, outputs, odd), sdc_list(rng, outputs, odd), "[all_outputs]"])
    flags = " ".join(flag for flag in ("-min", "-max", "-rise", "-fall") if rng.random() < .25)
    clocks = [clock, f"{{{clock}}}", f"[get_clocks {clock}]", f"[get_clocks {{{clock} {clock}}}]"]
    of_clock = "-clock " + rng.choice(clocks)
    unit = rng.choice(["", " -time ns", " -time 10PS"]) + rng.choice(["", " -capacitance fF", " -capacitance 10pf"])
    return rng.choice([
        "set_units" + unit,
        f"set_load {number}{rng.choice(['', ' -pin_load'])} {to_outputs}",
        f"set_input_transition {flags} {number} {to_inputs}",
        f"set_output_delay {now_and_then(rng, .2, ['-3'], [number])} {flags} {of_clock} {to_outputs}",
        f"set_input_delay {of_clock} {flags} {now_and_then(rng, .2, ['-3'], [number])} {to_inputs}",
        f"set_input_delay {of_clock} {number} {flags} {to_inputs}",
        rng.choice(["set_max_area 3", "current_design {a b}", "set sdc_version 1.9", "# set x",
                    "set_driving_cell -x [y [z]]"]),
    ])


def draw_sdc(rng):
    """Constraints, the netlist and the scales that they are read with, and what their plain reader says of them."""
    which = rng.randrange(len(NETLISTS))
    inputs, outputs, inner = names_of(MODULES[which])
    source, commands = rng.choice(inputs), []
    clock = rng.choice([source, source, "k", "c[1]"])
    if rng.random() < .9:
        waveform = rng.choice(["", "", " -waveform {0 1e-6}", ' -waveform "0 2e-6"'])
        name = "" if clock == source else f" -name {clock}"
        commands.append(f"create_clock{name} -period {rng.choice(['1', '10', '3e-6', '5e-6'])}{waveform} {source}")
        commands += [f"create_clock -period 2 {source}"] * (rng.random() < .03)
    for _ in range(rng.choice([1, 2, 3, 5, 8])):
        commands.append(sdc_command(rng, inputs, outputs, [*inputs, *outputs, *inner], clock))
    text = rng.choice(["\n", "\n", " ;\n", "; "]).join(commands) + "\n"
    scales = now_and_then(rng, .1, [(-12, 12), (12, -12)], [(6, 6), (6, 3), (3, 6)])
    if rng.random() < .2:
        text = rng.choice(sdc.SEEDS).decode()
    if rng.random() < .4:
        text = mutated(rng, text, SDC_TOKEN, SDC_POOL)
    answers = sdc.listing(text.encode("latin-1"), MODULES[which], *scales)
    return text, f"{which}.v {scales[0]} {scales[1]}", answers


# ---- Comparing ---------------------------------------------------------------------------

DRAWS = {"lib": draw_lib, "v": draw_v, "spef": draw_spef, "sdc": draw_sdc}
SIDES = ["-"] * 4


def both_sides(numbers):
    """The numbers of both edges, where a missing side is the other one."""
    least_rise, most_rise, least_fall, most_fall = numbers
    pairs = [(least_rise, most_rise), (least_fall, most_fall)]
    return [one if one != "-" else other for a, b in pairs for one, other in ((a, b), (b, a))]


def meaning(answer):
    """What an answer of SDC means: its clock and the ports that have a number; another answer stays as it is."""
    clock, ports = None, {}
    for line in answer.splitlines():
        words = line.split()
        if words[0] == "clock":
            clock = words
        elif words[0] == "port":
            slews = ["0" if side == "-" else side for side in both_sides(words[14:18])]
            ports[tuple(words[1:3])] = [both_sides(words[4:8]), words[9:13], slews, words[19]]
        elif line != "no clock":
            return answer
    if clock and tuple(clock[2:4]) in ports:
        ports[tuple(clock[2:4])][0] = SIDES
    return clock, {port: numbers for port, numbers in ports.items() if numbers != [SIDES, SIDES, ["0"] * 4, "0"]}


def draw(kind, seed, count, folder):
    """Writes texts of a format, and what the plain reader says of each."""
    rng, listed, answers = random.Random(seed), [], []
    folder.mkdir(parents=True, exist_ok=True)
    for number, text in enumerate(NETLISTS if kind == "sdc" else []):
        (folder / f"{number}.v").write_text(text)
    for number in range(count):
        text, how, lines = DRAWS[kind](rng)
        (folder / f"{number}.{kind}").write_bytes(text.encode("latin-1"))
        listed.append(f"{number}.{kind} {how}".strip() + "\n")
        answers.append("".join(f"{line}\n" for line in lines))
    (folder / "list").write_text("".join(listed))
    (folder / "answers").write_bytes("".join(answer + END for answer in answers).encode("latin-1"))
    kinds = Counter(answer[:2] if re.fullmatch(r"[LVSC]\d \d+\n", answer) else "read" for answer in answers)
    print(" ".join(f"{name} {many}" for name, many in sorted(kinds.items())))


def compare(folder, answers):
    """Prints the texts on which the answers differ, and returns the status."""
    texts = (folder / "list").read_text().splitlines()
    wanted, found = [Path(file).read_text("latin-1").split(END)[:-1] for file in (folder / "answers", answers)]
    differ = [text for text, want, got in zip(texts, wanted, found) if want != got and meaning(want) != meaning(got)]
    for text in differ:
        print(f"differs: {text}")
    print(f"{len(found)} answers to {len(texts)} texts, {len(differ)} differ")
    return int(bool(differ) or len(found) != len(texts))


def main(words):
    """Runs the command that the words give, and returns its status."""
    if len(words) == 5 and words[0] == "draw" and words[1] in DRAWS:
        draw(words[1], int(words[2]), int(words[3]), Path(words[4]))
        return 0
    if len(words) == 3 and words[0] == "compare":
        return compare(Path(words[1]), words[2])
    print(__doc__.strip(), file=sys.stderr)
    return 2


if __name__ == "__main__":
    sys.exit(main(sys.argv[1:]))
