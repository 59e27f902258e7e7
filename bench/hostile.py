#!/usr/bin/env python3
"""Runs the program on texts that were made to cost it much.

    python3 bench/hostile.py PROGRAM [MEGABYTES [TEXT ..]]

writes each text below, or those that are named, at about MEGABYTES (10) million bytes and at half of that, runs PROGRAM,
an executable that was built before (`./xtalk` leaves crates/xtalk_cli/out/xtalk_cli), on each with at most 60 seconds
and 64 bytes of memory for a byte of text and 1 GB, and prints a line for each run: the bytes of its files, seconds,
the greatest memory in bytes and beyond that of an empty run for each byte of text, the status and the first line that
the program said. A line with a `!` took more than 20 seconds, or more than 12 bytes of memory for a byte of text and
64 MB. The last line counts these.
"""
import itertools
import os
import resource
import string
import subprocess
import sys
import tempfile
import threading
import time
from pathlib import Path

SPEF = """*SPEF "IEEE 1481-1998"\n*DESIGN "m"\n*DATE "d"\n*VENDOR "v"\n*PROGRAM "p"\n*VERSION "1"\n
*DESIGN_FLOW "f"\n*DIVIDER /\n*DELIMITER :\n*BUS_DELIMITER [ ]\n*T_UNIT 1 NS\n*C_UNIT 1 PF\n*R_UNIT 1 OHM\n
*L_UNIT 1 HENRY\n"""
LIB = """library (l) { time_unit : "1ns"; capacitive_load_unit (1, pf);
cell (BUF) { pin (A) { direction : input; capacitance : 0.001; }
pin (Y) { direction : output; timing () { related_pin : "A"; timing_sense : positive_unate;
cell_rise (scalar) { values ("0.1"); } cell_fall (scalar) { values ("0.1"); }
rise_transition (scalar) { values ("0.1"); } fall_transition (scalar) { values ("0.1"); } } } }
"""
NET = "module m(a, y); input a; output y; BUF b(.A(a), .Y(y)); endmodule\n"


def block(lib=LIB + "}\n", net=NET, spef=SPEF, sdc=""):
    """The four files of a block."""
    return {"t.lib": lib, "t.v": net, "t.spef": spef, "t.sdc": sdc}


def many(size, at):
    """As many pieces as make up a size; `at` gives the piece of each number."""
    pieces, length, number = [], 0, 0
    while length < size:
        pieces.append(at(number))
        length += len(pieces[-1])
        number += 1
    return "".join(pieces)


def bus(width=1048575, count=1):
    """A module with so many inputs of this width."""
    names = ", ".join(f"a{i}" for i in range(count))
    return f"module m({names}); " + "".join(f"input [{width - 1}:0] a{i}; " for i in range(count)) + "endmodule\n"


# ---- constraints


def bus_named_often(size):
    return block(net=bus(1048576), sdc="set_input_transition 0 {" + "a0 " * (size // 3) + "}\n")


def two_buses_in_turn(size):
    return block(net=bus(1048576, 2), sdc="set_input_transition 0 {" + "a0 a1 " * (size // 6) + "}\n")


def all_inputs_often(size):
    return block(net=bus(1048576, 20), sdc=many(size, lambda i: f"set_input_transition {i % 9} [all_inputs]\n"))


def bits_one_by_one(size):
    names = many(size, lambda i: f"a{i % 8}[{i // 8 % 1048576}] ")
    return block(net=bus(1048576, 8), sdc=f"set_input_transition 0 {{{names}}}\n")


def commands_for_bits(size):
    return block(net=bus(1048576), sdc=many(size, lambda i: f"set_input_transition {i % 7} a0[{i % 1048576}]\n"))


def clock_among_its_bus(size):
    text = many(size, lambda i: "set_input_delay 1 -clock c {a0 a0[1]}\n")
    return block(net=bus(1048576), sdc=f"create_clock -name c -period 9 a0[7]\n{text}")


def many_ports(size):
    count = size // 24
    names = [f"p{i:x}" for i in range(count)]
    net = f"module m({','.join(names)}); input {','.join(names)}; endmodule\n"
    return block(net=net, sdc=f"set_input_transition 0 {{{' '.join(names)}}}\n")


# ---- netlists


def long_cell_name(size):
    return block(net="module m(y); output y; " + "C" * 1024 + " " + many(size, lambda i: f"{'' if not i else ','}i{i:x}()") + "; endmodule\n")


def wide_buses(size):
    return block(net="module m; " + many(size, lambda i: f"wire [1048575:0] w{i:x};") + " endmodule\n")


def many_wires(size):
    return block(net="module m; wire " + many(size, lambda i: f"{'' if not i else ','}w{i:x}") + "; endmodule\n")


def modules_that_double(size):
    leaf = "module d0; " + many(size, lambda i: f"BUF b{i} ();\n") + "endmodule\n"
    return block(net=leaf + "".join(f"module d{i}; d{i - 1} l (), r (); endmodule\n" for i in range(1, 31)))


def modules_in_modules(size):
    """A chain of modules; the last one is a cell of the library, so that its one name is too long."""
    text = many(size, lambda i: f"module m{i}; m{i + 1} u (); endmodule\n")
    return block(net=f"{text}module m{text.count(';') // 2}; BUF b (); endmodule\n")


def modules_in_a_circle(size):
    text = many(size, lambda i: f"module m{i}; m{i + 1} u (), v (); endmodule\n")
    return block(net=f"{text}module m{text.count('module m')}; m0 u (); endmodule\n")


def names_along_a_path(size):
    """A chain of modules with a cell in each: their names together take the square of its length."""
    text = many(size, lambda i: f"module m{i}; m{i + 1} u (); BUF b (); endmodule\n")
    return block(net=f"{text}module m{text.count('module m')}; endmodule\n")


def modules_beside_modules(size):
    text = many(size // 2, lambda i: f"module m{i} (p); input p; endmodule\n")
    instances = "".join(f"m{i} u{i} (.p(n));\n" for i in range(text.count("module m")))
    return block(net=f"{text}module top; {instances}endmodule\n")


def wide_ports_passed_on(size):
    inner = "module n (a); input [200000:0] a; BUF b (.A(a[7])); endmodule\n"
    instances = many(size, lambda i: f"n u{i} (.a(b));\n")
    return block(net=f"{inner}module top (b); input [1:200001] b; {instances}endmodule\n")


def wires_of_short_names(size):
    """As many nets as a design may have, by names of few bytes in one statement."""
    first, more = string.ascii_uppercase, string.ascii_uppercase + string.digits
    words = ("".join(word) for length in range(4) for word in itertools.product(first, *[more] * length))
    return block(net=f"module m; wire {','.join(itertools.islice(words, min(size // 4, 262142)))}; endmodule\n")


def many_pins(size):
    return block(net="module m; BUF b(" + many(size, lambda i: f"{'' if not i else ','}.p{i:x}()") + "); endmodule\n")


def one_long_comment(size):
    return block(net="module m; /*" + "/" * size + "*/ endmodule\n")


# ---- parasitics


def long_mapped_name(size):
    nodes = many(size, lambda i: f"{i + 1} *1:{i:x} 0\n")
    return block(spef=f"{SPEF}*NAME_MAP\n*1 {'a' * 2040}\n*D_NET y 0\n*CAP\n{nodes}*END\n")


def long_mapped_couplings(size):
    nodes = many(size, lambda i: f"{i + 1} *1:{i:x} *1:y 0\n")
    return block(spef=f"{SPEF}*NAME_MAP\n*1 {'a' * 1000}\n*D_NET y 0\n*CAP\n{nodes}*END\n")


def one_name_in_two_ways(size):
    lines = many(size, lambda i: f"{i + 1} *{i % 2 + 1}:{i // 2:x} 0\n")
    return block(spef=f"{SPEF}*NAME_MAP\n*1 {'a' * 2040}\n*2 {'a' * 2040}\n*D_NET y 0\n*CAP\n{lines}*END\n")


def many_mapped_names(size):
    return block(spef=f"{SPEF}*NAME_MAP\n{many(size, lambda i: f'*{i + 1} n{i:x}' + chr(10))}*D_NET y 0\n*END\n")


def many_nodes(size):
    nodes = many(size, lambda i: f"{i + 1} y:{i:x} 0\n")
    return block(spef=f"{SPEF}*D_NET y 0\n*CAP\n{nodes}*END\n")


def slashes_and_quotes(size):
    """Words with slashes and quotes, at which no comment and no string begins."""
    nodes = many(size, lambda i: f'{i + 1} y:a/"/*{i:x} 0\n')
    return block(spef=f"{SPEF}*D_NET y 0\n*CAP\n{nodes}*END\n")


def many_empty_nets(size):
    return block(spef=SPEF + many(size, lambda i: f"*D_NET n{i:x} 0\n*END\n"))


# ---- libraries


def related_names_that_are_no_pins(size):
    names = many(size // 4, lambda i: f"n{i:x} ")
    cell = f'cell (C) {{ pin (Y) {{ direction : output; timing () {{ related_pin : "{names}"; timing_sense : positive_unate; }} }} }}\n'
    count = min(size * 3 // 4 // 30, 262144)
    net = "module m; wire y; " + many(count * 20, lambda i: f"C i{i:x}(.Y(y{i:x}));") + " endmodule\n"
    return block(lib=LIB + cell + "}\n", net=net)


TABLES = """timing_sense : positive_unate; cell_rise (scalar) { values ("0.1"); } cell_fall (scalar) { values ("0.1"); }
rise_transition (scalar) { values ("0.1"); } fall_transition (scalar) { values ("0.1"); }"""


def related(size, names, pins, connections):
    """Instances of a cell with these pins, whose output has arcs from related pins of these names."""
    cell = f"cell (C) {{ {pins} pin (Y) {{ direction : output; timing () {{ related_pin : \"{names}\"; {TABLES} }} }} }}\n"
    count = min(size // 2 // 30, 262144)
    net = "module m; wire a; " + "".join(f"C i{i:x}({connections}.Y(y{i:x}));" for i in range(count)) + " endmodule\n"
    return block(lib=LIB + cell + "}\n", net=net)


def related_pin_named_often(size):
    return related(size, "A " * (size // 4), "pin (A) { direction : input; }", ".A(a),")


def related_pins_on_no_net(size):
    return related(size, "A " + "B D " * (size // 8), "pin (A, B, D) { direction : input; }", ".A(a),")


def related_pins_of_a_wide_cell(size):
    names = [f"p{i:x}" for i in range(size // 28)]
    return related(size, " ".join(names), f"pin ({', '.join(names)}) {{ direction : input; }}", "")


def outputs_of_one_group(size):
    a, b, y = ([f"{letter}{i:x}" for i in range(size // 56)] for letter in "aby")
    inputs = f"pin ({', '.join(a)}) {{ direction : input; }} pin ({', '.join(b)}) {{ direction : input; }}"
    timing = f'timing () {{ related_pin : "{" ".join(a)}"; {TABLES} }}'
    cell = f"cell (C) {{ {inputs} pin ({', '.join(y)}) {{ direction : output; {timing} }} }}\n"
    pins = "".join(f".{name}(w)," for name in b) + ",".join(f".{name}({name})" for name in y)
    return block(lib=LIB + cell + "}\n", net=f"module m; wire w; C c({pins}); endmodule\n")


def groups_in_groups(size):
    return block(lib=LIB + many(size, lambda i: "g(){" * 60 + "}" * 60) + "}\n")


def groups_side_by_side(size):
    return block(lib=LIB + many(size, lambda i: "g(){}") + "}\n")


def many_attributes(size):
    return block(lib=LIB + many(size, lambda i: "a:b;") + "}\n")


def two_groups_in_each(size):
    return block(lib=LIB + many(size, lambda i: "g(){g(){}g(){}}") + "}\n")


def an_attribute_in_each(size):
    return block(lib=LIB + many(size, lambda i: "g(){a:b;}" if i % 2 else "g(){a:b c;d:e f;}") + "}\n")


def attributes_in_a_chain(size):
    return block(lib=LIB + many(size, lambda i: "g(){a:b;" * 60 + "}" * 60) + "}\n")


def two_values_each(size):
    return block(lib=LIB + many(size, lambda i: "a:b c;") + "}\n")


def many_strings(size):
    return block(lib=LIB + many(size, lambda i: 'a:"/*";') + "}\n")


def many_cells(size):
    return block(lib=LIB + many(size, lambda i: f"cell(c{i:x}){{}}") + "}\n")


def cells_with_a_pin(size):
    return block(lib=LIB + many(size, lambda i: f"cell(c{i:x}){{pin(a){{}}}}") + "}\n")


def many_values(size):
    return block(lib=LIB + f'cell (C) {{ pin (Y) {{ direction : output; timing () {{ related_pin : "A"; cell_rise (scalar) {{ values ("{"1," * (size // 2)}1"); }} }} }} }}\n}}\n')


# ---- linked designs


def linked(names):
    """A linked text of inputs with these names, of which nothing is given."""
    lines = "".join(f"net {name} i 0 0 0 0\n" for name in names)
    head = f"xtalk-design 1\ncounts 0 {len(names)} 0\nperiod none\n"
    return {"t.xt": head + lines + "rise quiet\nfall quiet\n" * len(names) + "end\n"}


def nets_of_nothing(size):
    return linked([f"n{i:x}" for i in range(size // 41)])


def long_names(size):
    return linked([f"{i:x}{'n' * 1000}" for i in range(size // 1040)])


TEXTS = [
    bus_named_often, two_buses_in_turn, all_inputs_often, bits_one_by_one, commands_for_bits, clock_among_its_bus, many_ports,
    long_cell_name, wide_buses, many_wires, wires_of_short_names, many_pins, one_long_comment,
    modules_that_double, modules_in_modules, modules_in_a_circle, names_along_a_path, modules_beside_modules,
    wide_ports_passed_on,
    long_mapped_name, long_mapped_couplings, one_name_in_two_ways, many_mapped_names, many_nodes, slashes_and_quotes,
    many_empty_nets,
    related_names_that_are_no_pins, related_pin_named_often, related_pins_on_no_net, related_pins_of_a_wide_cell,
    outputs_of_one_group,
    groups_in_groups, groups_side_by_side, two_groups_in_each, an_attribute_in_each, attributes_in_a_chain,
    many_attributes, two_values_each, many_strings, many_cells, cells_with_a_pin, many_values,
    nets_of_nothing, long_names,
]  # fmt: skip


def ran(program, room, files, most):
    """Runs the program on files: seconds, greatest memory in bytes, status and first line said."""
    command = ["solve", "t.xt"] if "t.xt" in files else ["link", *files]

    def limits():
        resource.setrlimit(resource.RLIMIT_AS, (most, most))

    with open(f"{room}/said", "w+b") as said:
        begun = time.time()
        run = subprocess.Popen([program, *command], cwd=room, stdout=subprocess.DEVNULL, stderr=said, preexec_fn=limits)
        watch = threading.Timer(60, run.kill)
        watch.start()
        _, status, used = os.wait4(run.pid, 0)
        watch.cancel()
        seconds = time.time() - begun
        run.returncode = os.waitstatus_to_exitcode(status)
        said.seek(0)
        line = said.readline(200).decode("ascii", "replace").strip()
    return seconds, used.ru_maxrss * 1024, run.returncode, line


def measured(program, room, name, files, least):
    """Prints the line of a text, and returns whether it took too much."""
    size = sum(len(text) for text in files.values())
    for path, text in files.items():
        Path(room, path).write_text(text)
    seconds, memory, status, line = ran(program, room, files, 64 * size + 2**30)
    much = seconds > 20 or memory > 12 * size + 64 * 2**20
    each = max(0, memory - least) / size
    print(f"{'!' if much else ' '} {name:32} {size:>10} bytes {seconds:7.2f} s {memory // 2**20:6} MB {each:7.1f} each; {status}: {line[:60]}", flush=True)
    return much


def main(program, megabytes="10", *names):
    program, size, too_much = os.path.abspath(program), int(float(megabytes) * 10**6), 0
    with tempfile.TemporaryDirectory() as room:
        least = 0
        for path, text in block().items():
            Path(room, path).write_text(text)
        least = ran(program, room, block(), 2**31)[1]
        for text in TEXTS:
            if not names or text.__name__ in names:
                for part in (size // 2, size):
                    too_much += measured(program, room, text.__name__.replace("_", " "), text(part), least)
    print(f"{too_much} texts took more than 20 seconds, or more than 12 bytes for each of theirs and 64 MB")
    return 1 if too_much else 0


if __name__ == "__main__":
    if len(sys.argv) < 2:
        sys.exit(__doc__)
    sys.exit(main(*sys.argv[1:]))
