#!/usr/bin/env python3
"""An independent reader of Liberty, plain, that shares nothing with the program but the format.

    liberty.py < TEXT   prints what the library says, or the one refusal that it has

A refusal is the line `CODE LINE`. Otherwise the first line is `scales TIME CAPACITANCE`, the powers of ten
from the library's units to fs and to aF. Then there is a line for each cell, `cell NAME` with ` latch` behind
it where a latch marks the cell, for each pin of it, `pin NAME ROLE CAPACITANCE`, and for each timing group of
that, `timing KIND SENSE RISE FALL RISE_SLEW FALL_SLEW NAMES`: four numbers of tables from 0 on, or `-`, and
the related pins. Last there is a line for each table, `table SLEWS | LOADS | VALUES`, row by row.
"""

import re
import sys

import tokens as lexer
from spef import NUMBER, power_of_ten, scaled

DEEPEST = 64
LONGEST_NAME = 1024
GREATEST_INDEX = 64
TIME_UNITS = {b"1ps": 3, b"10ps": 4, b"100ps": 5, b"1ns": 6}
CAP_UNITS = {b"ff": 3, b"pf": 6}
ROLES = {b"input": "Input", b"output": "Output", b"inout": "Inout"}
SENSES = {b"positive_unate": "Positive", b"negative_unate": "Negative"}
# The kinds that are read, each with the role that its pin must have.
READ = {b"combinational": ("Combinational", "Output"), b"rising_edge": ("RisingEdge", "Output"),
        b"setup_rising": ("SetupRising", "Input"), b"hold_rising": ("HoldRising", "Input")}
SKIPPED = {b"clear", b"preset", b"recovery_rising", b"recovery_falling", b"removal_rising", b"removal_falling",
           b"three_state_enable", b"three_state_disable", b"three_state_enable_rise", b"three_state_enable_fall",
           b"three_state_disable_rise", b"three_state_disable_fall", b"min_pulse_width", b"minimum_period"}
# Of a kind of table: the variable of its rows, that of its columns, and its groups by their place in a timing.
DELAY = (b"input_net_transition", b"total_output_net_capacitance",
         {b"cell_rise": 0, b"cell_fall": 1, b"rise_transition": 2, b"fall_transition": 3})
CHECK = (b"related_pin_transition", b"constrained_pin_transition",
         {b"rise_constraint": 0, b"fall_constraint": 1})
OF_CAPACITANCE = b"total_output_net_capacitance"

class Refusal(Exception):
    """The one answer of a text that means nothing: its code and its line."""

class Group:
    """A group: its name, its arguments, its line, its attributes by name, each with the values and the line of
    the last that has the name, and its groups in the text's order."""

    def __init__(self, name, args, line):
        self.name, self.args, self.line, self.attributes, self.groups = name, args, line, {}, []

    def named(self, name):
        """The groups in it with a name."""
        return [group for group in self.groups if group.name == name]

    def one(self, name):
        """The value of an attribute that has exactly one, or None."""
        values, _ = self.attributes.get(name, ((), 0))
        return values[0] if len(values) == 1 else None

# -- the groups of a text

def content(text):
    """What a string or a word says."""
    if text[:1] != b'"':
        return text
    return re.sub(rb"\\(.)", lambda kept: b" " if kept[1] == b"\n" else kept[1], text[1:-1], flags=re.DOTALL)

class Grammar:
    """Reads the groups of a text."""

    def __init__(self, text):
        found = lexer.fault(text, "liberty")
        if found:
            kind, line = found.split()
            raise Refusal("L1" if kind == "Byte" else "L2", int(line))
        self.tokens = [(p.kind, text[p.start:p.end], p.line)
                       for p in lexer.pieces(text, "liberty") if p.kind in lexer.TOKENS]
        self.tokens.append(("End", b"", text.count(b"\n") + 1))
        self.place = 0

    def next(self):
        """The next token, which the end of the text is for ever."""
        token = self.tokens[self.place]
        self.place = min(self.place + 1, len(self.tokens) - 1)
        return token

    def refuse(self, token):
        """Refuses a token that has no place where it stands."""
        raise Refusal("L2" if token[0] == "End" else "L1", token[2])

    def mark(self, text):
        """Passes the mark that must stand next."""
        token = self.next()
        if token[:2] != ("Mark", text):
            self.refuse(token)

    def is_mark(self, text):
        """Whether a mark stands next."""
        return self.tokens[self.place][:2] == ("Mark", text)

    def library(self):
        """The one group of a text."""
        token = self.next()
        if token[:2] != ("Word", b"library"):
            self.refuse(token)
        self.mark(b"(")
        args = self.arguments()
        group = self.body(Group(token[1], args, token[2]), 1)
        while True:
            token = self.next()
            if token[0] == "End":
                return group
            if token[:2] != ("Mark", b";"):
                self.refuse(token)

    def arguments(self):
        """The words and strings up to the `)`."""
        args = []
        while True:
            kind, text, line = self.next()
            if kind in ("Word", "Text"):
                args.append(content(text))
            elif text == b")":
                return args
            elif text not in (b",", b":"):
                self.refuse((kind, text, line))

    def body(self, group, depth):
        """The `{`, the items and the `}` of a group."""
        if depth > DEEPEST and self.is_mark(b"{"):
            self.refuse(("Mark", b"{", self.tokens[self.place][2]))
        self.mark(b"{")
        while True:
            token = self.next()
            if token[:2] == ("Mark", b"}"):
                return group
            if token[:2] == ("Mark", b";"):
                continue
            if token[0] != "Word":
                self.refuse(token)
            self.item(group, token[1], token[2], depth)

    def item(self, group, name, line, depth):
        """An attribute or a group behind its name."""
        token = self.next()
        if token[:2] == ("Mark", b":"):
            group.attributes[name] = (self.values(), line)
        elif token[:2] == ("Mark", b"("):
            args = self.arguments()
            if self.is_mark(b"{"):
                group.groups.append(self.body(Group(name, args, line), depth + 1))
                return
            group.attributes[name] = (args, line)
            # Without its `;` the next item may follow at once, and a `;` is an item by itself.
        else:
            self.refuse(token)

    def values(self):
        """One or more words and strings, and the `;`."""
        values = []
        while True:
            token = self.next()
            if token[0] in ("Word", "Text"):
                values.append(content(token[1]))
            elif token[:2] == ("Mark", b";") and values:
                return values
            else:
                self.refuse(token)

# -- what the groups mean

def is_name(text):
    """Whether bytes are a name."""
    return 1 <= len(text) <= LONGEST_NAME and all(33 <= byte <= 126 for byte in text)

def names_of(group, names):
    """The names, all of which have to be some, or L1 at the group."""
    if not all(is_name(name) for name in names):
        raise Refusal("L1", group.line)
    return names

def one_name_of(group):
    """The one name that a group has."""
    if len(group.args) != 1:
        raise Refusal("L1", group.line)
    return names_of(group, group.args)[0]

def number(text, scale):
    """A number times ten to the scale, or None where it has no form or is too long or too far."""
    return scaled(text, scale) if NUMBER.fullmatch(text) else None

class Meaning:
    """The library that the groups mean."""

    def __init__(self, top):
        self.time_scale, self.cap_scale = self.units(top)
        self.templates = {}
        for group in top.named(b"lu_table_template"):
            self.templates[one_name_of(group)] = group
        self.templates[b"scalar"] = Group(b"lu_table_template", [b"scalar"], 0)
        self.tables, self.cells, known = [], [], set()
        for group in top.named(b"cell"):
            name = one_name_of(group)
            if name in known:
                raise Refusal("L7", group.line)
            known.add(name)
            pins = [pin for inner in group.named(b"pin") for pin in self.pins(inner)]
            self.cells.append((name, bool(group.named(b"latch")), pins))

    def units(self, top):
        """The two scales."""
        refused, scales = [], [6, 6]
        if b"time_unit" in top.attributes:
            scales[0] = TIME_UNITS.get(top.one(b"time_unit"))
            if scales[0] is None:
                refused.append(top.attributes[b"time_unit"][1])
        if b"capacitive_load_unit" in top.attributes:
            values, line = top.attributes[b"capacitive_load_unit"]
            power = power_of_ten(values[0]) if len(values) == 2 else None
            if power is None or values[1].lower() not in CAP_UNITS:
                refused.append(line)
            else:
                scales[1] = CAP_UNITS[values[1].lower()] + power
        if refused:
            raise Refusal("L8", min(refused))
        return scales

    def pins(self, group):
        """The pins of a `pin` group."""
        if not group.args:
            raise Refusal("L1", group.line)
        names = names_of(group, group.args)
        role, cap = ROLES.get(group.one(b"direction"), "Other"), 0
        if b"capacitance" in group.attributes:
            cap = number(group.one(b"capacitance") or b"", self.cap_scale)
            if cap is None or cap < 0:
                raise Refusal("L3", group.attributes[b"capacitance"][1])
        timings = [self.timing(inner, role) for inner in group.named(b"timing")]
        return [(name, role, cap, timings) for name in names]

    def timing(self, group, role):
        """A timing group of a pin with a role."""
        related = []
        if b"related_pin" in group.attributes:
            _, line = group.attributes[b"related_pin"]
            related = re.findall(rb"[^ \t\r\n]+", group.one(b"related_pin") or b"")
            if not related or not all(is_name(name) for name in related):
                raise Refusal("L1", line)
        sense = SENSES.get(group.one(b"timing_sense"), "Non")
        kind = group.one(b"timing_type") if b"timing_type" in group.attributes else b"combinational"
        name, wanted = READ.get(kind, ("Unsupported", None))
        if kind in SKIPPED:
            name = "Skipped"
        found = [None] * 4
        if wanted is None or wanted != role:
            return (name if wanted is None else "Unsupported"), sense, found, related
        delay = wanted == "Output"
        stands = {inner.name for inner in group.groups}
        halves = delay and any((a in stands) != (b in stands) for a, b in
                               ((b"cell_rise", b"rise_transition"), (b"cell_fall", b"fall_transition")))
        if not related or halves:
            raise Refusal("L4", group.line)
        rows, columns, places = DELAY if delay else CHECK
        for inner in group.groups:
            if inner.name in places:
                found[places[inner.name]] = len(self.tables)
                self.tables.append(self.table(inner, rows, columns))
        return name, sense, found, related

    def table(self, group, rows, columns):
        """A table whose rows and columns have these variables."""
        template = self.templates.get(group.args[0]) if len(group.args) == 1 else None
        if template is None:
            raise Refusal("L6", group.line)
        faults, variables, indices = [], [], []
        for axis in (b"1", b"2"):
            variable, line = None, group.line
            if b"variable_" + axis in template.attributes:
                line = template.attributes[b"variable_" + axis][1]
                variable = template.one(b"variable_" + axis)
                if variable not in (rows, columns) or variable in variables:
                    variable = None
                    faults.append(("L4", line))
            holder = group if b"index_" + axis in group.attributes else template
            items = [0]
            if b"index_" + axis in holder.attributes:
                values, index_line = holder.attributes[b"index_" + axis]
                scale = self.cap_scale if variable == OF_CAPACITANCE else self.time_scale
                items = self.items(values, scale, index_line, faults)
                if None not in items and any(a >= b for a, b in zip(items, items[1:])):
                    faults.append(("L5", index_line))
                if not 1 <= len(items) <= GREATEST_INDEX:
                    faults.append(("L4", index_line))
                if b"variable_" + axis not in template.attributes:
                    faults.append(("L4", index_line))
            elif b"variable_" + axis in template.attributes:
                faults.append(("L4", line))
            variables.append(variable)
            indices.append(items)
        values, line = group.attributes.get(b"values", ((), group.line))
        items = self.items(values, self.time_scale, line, faults)
        if len(items) != len(indices[0]) * len(indices[1]):
            faults.append(("L4", line))
        for code in ("L3", "L5", "L4"):
            lines = [where for what, where in faults if what == code]
            if lines:
                raise Refusal(code, min(lines))
        # The rows stand first, whichever of the two the text has first; an axis that does not stand has one value.
        if variables[0] == columns or variables[1] == rows:
            width = len(indices[1])
            items = [items[j * width + i] for i in range(width) for j in range(len(indices[0]))]
            indices.reverse()
        return indices[0], indices[1], items

    def items(self, values, scale, line, faults):
        """The numbers in some strings; L3 is noted where one cannot be read."""
        texts = [text for value in values for text in re.split(rb"[ \t\r\n,]+", value) if text]
        items = [number(text, scale) for text in texts]
        if None in items:
            faults.append(("L3", line))
        return items

def listing(text):
    """The lines that are printed for a text."""
    try:
        library = Meaning(Grammar(text).library())
    except Refusal as refusal:
        code, line = refusal.args
        return [f"{code} {line}"]
    lines = [f"scales {library.time_scale} {library.cap_scale}"]
    for name, latch, pins in library.cells:
        lines.append(f"cell {name.decode()}" + (" latch" if latch else ""))
        for name, role, cap, timings in pins:
            lines.append(f"pin {name.decode()} {role} {cap}")
            for kind, sense, found, related in timings:
                places = " ".join("-" if place is None else str(place) for place in found)
                lines.append(" ".join([f"timing {kind} {sense} {places}"] + [name.decode() for name in related]))
    for table in library.tables:
        lines.append("table " + " | ".join(" ".join(map(str, numbers)) for numbers in table))
    return lines

def main(words):
    """Runs the command that the words give, and returns its status."""
    if words:
        print(__doc__.strip(), file=sys.stderr)
        return 2
    for line in listing(sys.stdin.buffer.read()):
        print(line)
    return 0

if __name__ == "__main__":
    sys.exit(main(sys.argv[1:]))
