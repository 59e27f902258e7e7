#!/usr/bin/env python3
"""An independent reader of SPEF, plain, that shares nothing with the program but the format.

    spef.py < TEXT   prints what the parasitics say, or the one refusal that they have

A refusal is the line `CODE LINE`. Otherwise the first line is `delimiter BYTE`, and then there is a line for
each net, `NAME TOTAL`, with a line behind it for each of its capacitors, `C NODE VALUE` or
`C NODE NODE VALUE`, and for each of its resistors, `R NODE NODE VALUE`. Values are in aF and in milliohm.
"""

import re
import sys
from decimal import ROUND_HALF_UP, Context, Decimal

import tokens as lexer

LONGEST_NAME = 2049
TITLES = {b"*DESIGN", b"*DATE", b"*VENDOR", b"*PROGRAM", b"*VERSION"}
UNITS = {b"*T_UNIT": {b"NS": 0, b"PS": 0}, b"*C_UNIT": {b"PF": 6, b"FF": 3},
         b"*R_UNIT": {b"OHM": 3, b"KOHM": 6}, b"*L_UNIT": None}
PASSED_OVER = {b"*PORTS", b"*PHYSICAL_PORTS", b"*POWER_NETS", b"*GROUND_NETS"}
REFUSED = {b"*R_NET", b"*D_PNET", b"*R_PNET", b"*DEFINE", b"*PDEFINE"}
SECTIONS = {b"*NAME_MAP", b"*D_NET"} | PASSED_OVER | REFUSED
NUMBER = re.compile(rb"[+-]?(?:[0-9]+(?:\.[0-9]+)?|\.[0-9]+)(?:[eE][+-]?[0-9]+)?")
EXACT = Context(prec=200)

class Refusal(Exception):
    """The one answer of a text that means nothing: its code and its line."""

class Token:
    """A token: its bytes, its line, and whether it is a string or the end of the text."""

    def __init__(self, text, line, is_string=False, is_end=False):
        self.text, self.line, self.is_string, self.is_end = text, line, is_string, is_end

def has_value_form(text):
    """Whether a word is a number or three numbers with colons between them."""
    parts = text.split(b":")
    return len(parts) in (1, 3) and all(NUMBER.fullmatch(part) for part in parts)

def exact(text):
    """The mantissa's digits and the power of ten of a number, with its sign."""
    body, _, power = text.lower().partition(b"e")
    whole, _, fraction = body.lstrip(b"+-").partition(b".")
    digits = (whole + fraction).lstrip(b"0")
    return text[:1] == b"-", digits, int(power or b"0") - len(fraction)

def scaled(text, scale):
    """The number times ten to the scale, rounded half away from zero, or None where it cannot be taken."""
    negative, digits, power = exact(text)
    if len(digits) > 30:
        return None
    power += scale
    if not digits:
        return 0
    if len(digits) + power < -5:
        return 0
    if len(digits) + power > 20:
        return None
    size = int(Decimal(digits.decode()).scaleb(power, EXACT).quantize(Decimal(1), ROUND_HALF_UP, EXACT))
    if size > 2 ** 40:
        return None
    return -size if negative else size

def power_of_ten(text):
    """The power of ten from -3 to 3 that a number is, or None."""
    if not NUMBER.fullmatch(text):
        return None
    negative, digits, power = exact(text)
    if negative or digits.rstrip(b"0") != b"1":
        return None
    power += len(digits) - 1
    return power if -3 <= power <= 3 else None

class Reader:
    """A text that is being read from its front."""

    def __init__(self, text):
        fault = lexer.fault(text, "spef")
        if fault:
            kind, line = fault.split()
            raise Refusal("S1" if kind == "Byte" else "S2", int(line))
        self.tokens = [Token(text[p.start:p.end], p.line, is_string=p.kind == "Text")
                       for p in lexer.pieces(text, "spef") if p.kind in lexer.TOKENS]
        self.tokens.append(Token(b"", text.count(b"\n") + 1, is_end=True))
        self.place = 0
        self.divider, self.delimiter, self.brackets = b"/", b":", b"[]"
        self.scales, self.map, self.nets = {}, {}, {}

    def peek(self):
        return self.tokens[self.place]

    def is_word(self, *words):
        token = self.peek()
        return not token.is_string and not token.is_end and token.text in words

    def any_token(self):
        token = self.peek()
        if token.is_end:
            raise Refusal("S2", token.line)
        self.place += 1
        return token

    def word(self):
        token = self.any_token()
        if token.is_string:
            raise Refusal("S1", token.line)
        return token

    def string(self):
        token = self.any_token()
        if not token.is_string:
            raise Refusal("S1", token.line)

    def misfit(self):
        token = self.any_token()
        raise Refusal("S1", token.line)

    # -- names and values

    def unescaped(self, text):
        out, kept = bytearray(), False
        for byte in text:
            if byte == 0x5C:
                kept = True
                continue
            if not kept and byte == self.divider[0]:
                byte = 0x2F
            elif not kept and byte == self.brackets[0]:
                byte = 0x5B
            elif not kept and byte == self.brackets[1]:
                byte = 0x5D
            out.append(byte)
            kept = False
        return bytes(out)

    def fitting(self, name, line):
        if not 1 <= len(name) <= LONGEST_NAME:
            raise Refusal("S1", line)
        return name

    def name(self):
        token = self.word()
        text = token.text
        if text[:1] != b"*":
            return self.fitting(self.unescaped(text), token.line)
        index, mark, rest = text[1:].partition(self.delimiter)
        if not re.fullmatch(rb"[0-9]+", index):
            raise Refusal("S1", token.line)
        number = index.lstrip(b"0")
        if number not in self.map:
            raise Refusal("S5", token.line)
        return self.fitting(self.map[number] + self.unescaped(mark + rest), token.line)

    def value(self, unit):
        token = self.word()
        if not has_value_form(token.text):
            raise Refusal("S1", token.line)
        parts = token.text.split(b":")
        value = scaled(parts[len(parts) // 2], self.scales[unit])
        if value is None or value < 0:
            raise Refusal("S3", token.line)
        return value

    # -- sections

    def want_units(self):
        for unit in (b"*C_UNIT", b"*R_UNIT"):
            if unit not in self.scales:
                raise Refusal("S4", self.peek().line)

    def header(self):
        if not self.is_word(b"*SPEF"):
            self.misfit()
        self.place += 1
        self.string()
        while True:
            if self.is_word(*TITLES):
                self.place += 1
                self.string()
            elif self.is_word(b"*DESIGN_FLOW"):
                self.place += 1
                self.string()
                while self.peek().is_string:
                    self.place += 1
            elif self.is_word(b"*DIVIDER", b"*DELIMITER"):
                which = self.any_token().text
                token = self.word()
                if len(token.text) != 1:
                    raise Refusal("S1", token.line)
                if which == b"*DIVIDER":
                    self.divider = token.text
                else:
                    self.delimiter = token.text
            elif self.is_word(b"*BUS_DELIMITER"):
                self.place += 1
                token = self.word()
                brackets = token.text
                if brackets in (b"[", b"<", b"("):
                    token = self.word()
                    brackets += token.text
                if brackets not in (b"[]", b"<>", b"()"):
                    raise Refusal("S1", token.line)
                self.brackets = brackets
            elif self.is_word(*UNITS):
                which = self.any_token().text
                token = self.word()
                power = power_of_ten(token.text)
                if power is None:
                    raise Refusal("S1", token.line)
                token = self.word()
                units = UNITS[which]
                if units is not None:
                    if token.text.upper() not in units:
                        raise Refusal("S4", token.line)
                    self.scales[which] = units[token.text.upper()] + power
            else:
                return

    def sections(self):
        while not self.peek().is_end:
            if self.is_word(*REFUSED):
                raise Refusal("S7", self.peek().line)
            if self.is_word(b"*NAME_MAP"):
                self.place += 1
                self.name_map()
            elif self.is_word(*PASSED_OVER):
                self.place += 1
                while not self.peek().is_end and not self.is_word(*SECTIONS):
                    self.place += 1
            elif self.is_word(b"*D_NET"):
                self.want_units()
                self.place += 1
                self.net()
            else:
                self.misfit()
        self.want_units()

    def name_map(self):
        while not self.peek().is_string and re.fullmatch(rb"\*[0-9]+", self.peek().text):
            token = self.any_token()
            number = token.text[1:].lstrip(b"0")
            if number in self.map:
                raise Refusal("S5", token.line)
            token = self.word()
            if token.text[:1] == b"*":
                raise Refusal("S1", token.line)
            self.map[number] = self.fitting(self.unescaped(token.text), token.line)

    def refuse_lists(self):
        if self.is_word(b"*INDUC", *REFUSED):
            raise Refusal("S7", self.peek().line)

    def entry_number(self):
        token = self.peek()
        if token.is_string or token.is_end or not re.fullmatch(rb"[0-9]+", token.text):
            return False
        self.place += 1
        return True

    def net(self):
        line = self.peek().line
        name = self.name()
        if name in self.nets:
            raise Refusal("S6", line)
        total = self.value(b"*C_UNIT")
        caps, resistors = [], []
        self.nets[name] = (total, caps, resistors)
        if self.is_word(b"*V"):
            self.place += 1
            self.any_token()
        if self.is_word(b"*CONN"):
            self.place += 1
            if self.is_word(b"*P", b"*I", b"*N"):
                while not self.peek().is_end and not self.is_word(b"*CAP", b"*RES", b"*END", b"*INDUC", *SECTIONS):
                    self.place += 1
        if self.is_word(b"*CAP"):
            self.place += 1
            while self.entry_number():
                a, b = self.name(), None
                token = self.peek()
                if token.is_string or not has_value_form(token.text):
                    b = self.name()
                caps.append((a, b, self.value(b"*C_UNIT")))
        if self.is_word(b"*RES"):
            self.place += 1
            while self.entry_number():
                resistors.append((self.name(), self.name(), self.value(b"*R_UNIT")))
        self.refuse_lists()
        if not self.is_word(b"*END"):
            self.misfit()
        self.place += 1

def listing(text):
    """The lines that are printed for a text."""
    try:
        reader = Reader(text)
        reader.header()
        reader.sections()
    except Refusal as refusal:
        code, line = refusal.args
        return [f"{code} {line}"]
    lines = [f"delimiter {reader.delimiter[0]}"]
    for name, (total, caps, resistors) in reader.nets.items():
        lines.append(f"{name.decode()} {total}")
        for a, b, value in caps:
            nodes = a if b is None else a + b" " + b
            lines.append(f"C {nodes.decode()} {value}")
        for a, b, value in resistors:
            lines.append(f"R {a.decode()} {b.decode()} {value}")
    return lines

if __name__ == "__main__":
    for line in listing(sys.stdin.buffer.read()):
        print(line)
