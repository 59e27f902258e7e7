#!/usr/bin/env python3
"""An independent reader of structural Verilog, plain, that shares nothing with the program but the format.

    verilog.py one|several|flat < TEXT   prints what the netlist says, or the one refusal that it has
    verilog.py text < TEXT               prints the flat netlist as a text of one module

`one` reads a text of one module, in which no connection names a whole bus; `several` reads a list of
modules; `flat` puts the modules of a list in the place of their instances. A refusal is the line `CODE LINE`,
a limit that is passed `limit WHAT`. Otherwise there is a line for each thing that a module has, in
its order: `module NAME`; `net NAME ROLE` or `net NAME ROLE LEFT RIGHT` of a bus, where the role is input,
output or inner; `instance CELL NAME LINE`, and after it a line for each of its pins, `pin NAME open`,
`pin NAME constant`, `pin NAME bit NET BIT` or `pin NAME whole NET`, with the number of the net among the
module's and the number of the bit, which is 0 where the net is no bus.
"""

import sys

import tokens as lexer

GREATEST_BOUND = 1048575
LONGEST_NAME = 1024
MOST_NETS, MOST_INSTANCES = 262144, 262144
NO_NAMES = {b"module", b"endmodule", b"input", b"output", b"wire", b"tri", b"supply0", b"supply1"}
DECLARES = {b"input": "input", b"output": "output", b"wire": None, b"tri": None, b"supply0": None, b"supply1": None}
UNSUPPORTED = {b"assign", b"inout", b"parameter", b"always", b"initial", b"reg", b"function", b"task", b"generate"}

class Refusal(Exception):
    """The one answer of a text that means nothing: its code and its line."""

class Limit(Exception):
    """What there is too much of where the modules of a text are put in the place of their instances."""

class Token:
    """A token: what it is, its bytes or its name, and its line. What it is: name, word, number, constant,
    unsupported, the mark itself, end, or bad where no place has a use for it."""

    def __init__(self, what, text, line):
        self.what, self.text, self.line = what, text, line

def name_token(name, line):
    """What bytes are that stand as a name."""
    return Token("name" if 1 <= len(name) <= LONGEST_NAME else "bad", name, line)

def token_of(piece, text):
    """The token that a piece of the text is."""
    body = text[piece.start:piece.end]
    if piece.kind == "Escaped":
        return name_token(body[1:], piece.line)
    if piece.kind == "Mark":
        return Token("unsupported" if body == b"#" else body.decode(), body, piece.line)
    if body[:1].isdigit():
        return Token("constant" if b"'" in body else "number", body, piece.line)
    if body in NO_NAMES:
        return Token("word", body, piece.line)
    if body in UNSUPPORTED:
        return Token("unsupported", body, piece.line)
    return name_token(body, piece.line)

class Net:
    """A net or a bus of a module."""

    def __init__(self, name):
        self.name, self.bounds, self.role, self.is_declared = name, None, None, False

class Module:
    """What a module says."""

    def __init__(self, name):
        self.name, self.nets, self.numbers, self.instances, self.header = name, [], {}, [], []
        self.instance_names = set()

    def net(self, name):
        """The number of the net with a name, which is a new one where no net has it."""
        if name not in self.numbers:
            self.numbers[name] = len(self.nets)
            self.nets.append(Net(name))
        return self.numbers[name]

    def bit_named(self, name):
        """The bus and the bit that a name is, as `b[0]` is where there is a bus `b` with a bit 0, or None."""
        bus, bracket, rest = name.rpartition(b"[")
        digits = rest[:-1]
        canonical = bracket and rest.endswith(b"]") and digits.isdigit() and (digits == b"0" or digits[:1] != b"0")
        if canonical and bus in self.numbers:
            number = self.numbers[bus]
            if self.has_bit(number, int(digits)):
                return number, int(digits)
        return None

    def has_net_of_a_bit(self, name, bounds):
        """Whether a net has the name of a bit that a bus with this name and these bounds would have."""
        bits = range(min(bounds), max(bounds) + 1) if bounds else []
        return any(b"%s[%d]" % (name, bit) in self.numbers for bit in bits)

    def has_bit(self, number, bit):
        """Whether a net is a bus with that bit."""
        bounds = self.nets[number].bounds
        return bounds is not None and min(bounds) <= bit <= max(bounds)

class Reader:
    """Reads the tokens of a text one after another."""

    def __init__(self, text, several):
        fault = lexer.fault(text, "verilog")
        if fault:
            kind, line = fault.split()
            raise Refusal("V1" if kind == "Byte" else "V2", int(line))
        pieces = lexer.pieces(text, "verilog")
        self.tokens = [token_of(piece, text) for piece in pieces if piece.kind in lexer.TOKENS]
        self.tokens.append(Token("end", b"", lexer.line_at(text, len(text))))
        self.place, self.several = 0, several

    def next(self):
        """The next token."""
        token = self.tokens[self.place]
        self.place = min(self.place + 1, len(self.tokens) - 1)
        return token

    def refuse(self, token):
        """Refuses a token that has no place where it stands."""
        code = {"end": "V2", "unsupported": "V3"}.get(token.what, "V1")
        raise Refusal(code, token.line)

    def expect(self, *whats):
        """The next token, which is one of these."""
        token = self.next()
        if token.what not in whats:
            self.refuse(token)
        return token

    def in_header(self, *whats):
        """The next token of a header, which is one of these; a direction there is refused as such."""
        token = self.next()
        if token.what == "word" and DECLARES.get(token.text):
            raise Refusal("V3", token.line)
        if token.what not in whats:
            self.refuse(token)
        return token

    def modules(self):
        """All modules of the text."""
        modules = []
        token = self.next()
        while True:
            if token.text != b"module" or token.what != "word":
                raise Refusal("V2" if token.what == "end" else "V1", token.line)
            modules.append(self.module({module.name for module in modules}))
            token = self.next()
            if token.what == "end":
                return modules
            if not self.several and token.what == "word" and token.text == b"module":
                raise Refusal("V3", token.line)

    def module(self, names):
        """A module from its name on."""
        token = self.expect("name")
        if token.text in names:
            raise Refusal("V5", token.line)
        module = Module(token.text)
        if self.in_header("(", ";").what == "(":
            mark = ","
            while mark == ",":
                module.header.append(self.in_header("name").text)
                mark = self.in_header(",", ")").what
            self.in_header(";")
        while True:
            token = self.next()
            if token.what == "word" and token.text == b"endmodule":
                self.end(module, token)
                return module
            if token.what == "word" and token.text in DECLARES:
                self.declaration(module, DECLARES[token.text])
            elif token.what == "name":
                self.instances(module, token.text)
            else:
                self.refuse(token)

    def end(self, module, token):
        """The module's end: each name of the header has a direction."""
        for name in module.header:
            found = module.bit_named(name)
            number = found[0] if found else module.numbers.get(name)
            if number is None or module.nets[number].role is None:
                raise Refusal("V4", token.line)

    def bound(self):
        """A bound of a range."""
        token = self.expect("number")
        if int(token.text) > GREATEST_BOUND:
            raise Refusal("V6", token.line)
        return int(token.text)

    def declaration(self, module, role):
        """A declaration behind its first word."""
        token, bounds = self.expect("[", "name"), None
        if token.what == "[":
            left = self.bound()
            self.expect(":")
            bounds = left, self.bound()
            self.expect("]")
            token = self.expect("name")
        while True:
            self.declare(module, token, role, bounds)
            if self.expect(",", ";").what == ";":
                return
            token = self.expect("name")

    def declare(self, module, token, role, bounds):
        """Declares one name."""
        is_known = token.text in module.numbers
        if not is_known and (module.bit_named(token.text) or module.has_net_of_a_bit(token.text, bounds)):
            raise Refusal("V3", token.line)
        net = module.nets[module.net(token.text)]
        if is_known and net.bounds != bounds or role and net.role and role != net.role:
            raise Refusal("V3", token.line)
        net.bounds, net.role, net.is_declared = bounds, net.role or role, True

    def instances(self, module, cell):
        """Instances of a cell behind its name."""
        while True:
            name = self.expect("name")
            if name.text in module.instance_names:
                raise Refusal("V5", name.line)
            module.instance_names.add(name.text)
            token = self.next()
            if token.what == "[":
                raise Refusal("V3", token.line)
            if token.what != "(":
                self.refuse(token)
            pins = []
            module.instances.append((cell, name.text, name.line, pins))
            token = self.next()
            if token.what != ")":
                self.connections(module, pins, token)
            if self.expect(",", ";").what == ";":
                return

    def connections(self, module, pins, token):
        """The connections of an instance from the first token on, and the `)` behind them."""
        while True:
            if token.what in ("name", "constant", "{"):
                raise Refusal("V3", token.line)
            if token.what != ".":
                self.refuse(token)
            pin = self.expect("name")
            if any(pin.text == other for other, _ in pins):
                raise Refusal("V5", pin.line)
            self.expect("(")
            pins.append((pin.text, self.wire(module)))
            if self.expect(",", ")").what == ")":
                return
            token = self.next()

    def wire(self, module):
        """What a pin is connected to, and the `)` behind it."""
        token = self.next()
        if token.what == ")":
            return "open"
        if token.what == "{":
            raise Refusal("V3", token.line)
        if token.what == "constant":
            self.expect(")")
            return "constant"
        if token.what != "name":
            self.refuse(token)
        name, token = token.text, self.next()
        if token.what == "[":
            return self.bit(module, name)
        if token.what != ")":
            self.refuse(token)
        found = module.bit_named(name)
        if found:
            return f"bit {found[0]} {found[1]}"
        number = module.net(name)
        if module.nets[number].bounds is None:
            return f"bit {number} 0"
        if not self.several:
            raise Refusal("V3", token.line)
        return f"whole {number}"

    def bit(self, module, name):
        """One bit of a bus from behind its `[`, and the `)` behind it."""
        bit = int(self.expect("number").text)
        token = self.next()
        if token.what == ":":
            raise Refusal("V3", token.line)
        if token.what != "]":
            self.refuse(token)
        number = module.numbers.get(name)
        if number is None or not module.nets[number].is_declared:
            raise Refusal("V4", token.line)
        if not module.has_bit(number, bit):
            raise Refusal("V6", token.line)
        self.expect(")")
        return f"bit {number} {bit}"

# ---- Modules in the place of their instances ------------------------------------------------

def width(net):
    """Of how many bits a net is."""
    return 1 if net.bounds is None else abs(net.bounds[0] - net.bounds[1]) + 1

def connects(module, inner, pin, wire):
    """Whether a pin of an instance may be connected like that: of a cell's instance, where there is no inner module, or
    of a module's, whose port it then is, with as many bits."""
    what, *places = wire.split()
    if inner is None:
        return what != "whole"
    port = inner.nets[inner.numbers[pin]] if pin in inner.numbers else None
    if port is None or port.role is None:
        return False
    return what == "open" or width(port) == (width(module.nets[int(places[0])]) if what == "whole" else 1)

def contain_themselves(inner):
    """Whether some module is below itself; `inner` has the names of the modules that each module has instances of."""
    left = dict(inner)
    while left:
        ended = [name for name, names in left.items() if not names & left.keys()]
        if not ended:
            return True
        for name in ended:
            del left[name]
    return False

class Flat(Module):
    """The flat netlist of a top and of the modules below it. Of each net of a module at a path there is a function that
    gives for a place, counted from 0 at the left bound, the flat wire: that of the net itself, or of what the port is
    connected to."""

    def __init__(self, modules, top):
        super().__init__(top.name)
        self.modules, self.bits, self.entered = modules, 0, 0
        self.put(b"", top, {})

    def own(self, prefix, net):
        """Takes a net of a module at a path, which is a port at the top alone, and gives what it is at each place."""
        number, flat = len(self.nets), Net(prefix + net.name)
        flat.bounds, flat.role, flat.is_declared = net.bounds, None if prefix else net.role, True
        self.nets.append(flat)
        self.bits += width(net)
        left, right = net.bounds or (0, 0)
        return lambda place: f"bit {number} {left + place if left < right else left - place}"

    def put(self, prefix, module, connected):
        """Puts a module at a path. `connected` has its ports that are connected, and what they are at each place."""
        at = [connected.get(net.name) or self.own(prefix, net) for net in module.nets]

        def wire_of(wire):
            """What a wire of the module is at each place."""
            what, *places = wire.split()
            if what == "whole":
                return at[int(places[0])]
            if what == "bit":
                left, _ = module.nets[int(places[0])].bounds or (0, 0)
                one = at[int(places[0])](abs(int(places[1]) - left))
                return lambda place: one
            return lambda place: what

        for cell, name, line, pins in module.instances:
            self.entered += 1
            if cell not in self.modules:
                self.instances.append((cell, prefix + name, line, [(pin, wire_of(wire)(0)) for pin, wire in pins]))
                continue
            if self.entered > MOST_INSTANCES:
                raise Limit("instances")
            if self.bits > MOST_NETS:
                raise Limit("nets")
            self.put(prefix + name + b"/", self.modules[cell],
                     {pin: wire_of(wire) for pin, wire in pins if wire != "open"})

    def has_name_twice(self):
        """Whether two nets, or two instances, have one name; a bit of a bus has a name as well."""
        names = [name for _, name, _, _ in self.instances]
        self.numbers = {net.name: number for number, net in enumerate(self.nets)}
        return (len({*names}) < len(names) or len(self.numbers) < len(self.nets)
                or any(net.bounds is None and self.bit_named(net.name) for net in self.nets))

    def has_long_name(self):
        names = [net.name for net in self.nets] + [name for _, name, _, _ in self.instances]
        return any(len(name) > LONGEST_NAME for name in names)

def flat(text):
    """The flat netlist of a text."""
    modules = {module.name: module for module in Reader(text, True).modules()}
    for module in modules.values():
        for cell, _, line, pins in module.instances:
            if not all(connects(module, modules.get(cell), pin, wire) for pin, wire in pins):
                raise Refusal("V7", line)
    inner = {name: {cell for cell, *_ in module.instances} & modules.keys() for name, module in modules.items()}
    if contain_themselves(inner):
        raise Refusal("V8", 1)
    last, tops = text.count(b"\n") + 1, modules.keys() - set().union(*inner.values())
    if len(tops) != 1:
        raise Refusal("V9", last)
    sys.setrecursionlimit(20 * len(modules) + 1000)
    netlist = Flat(modules, modules[tops.pop()])
    if netlist.has_name_twice():
        raise Refusal("V5", last)
    if netlist.has_long_name():
        raise Refusal("V1", last)
    return netlist

def one_module(netlist):
    """A flat netlist as the lines of a text of one module, with every name escaped."""
    def wire_text(wire):
        what, *places = wire.split()
        if what != "bit":
            return {"open": "", "constant": "1'b0"}[what]
        net = netlist.nets[int(places[0])]
        return f"\\{net.name.decode()} " + (f"[{places[1]}]" if net.bounds else "")

    yield f"module \\{netlist.name.decode()} ;"
    for net in netlist.nets:
        bounds = f"[{net.bounds[0]}:{net.bounds[1]}] " if net.bounds else ""
        yield f" {net.role or 'wire'} {bounds}\\{net.name.decode()} ;"
    for cell, name, _, pins in netlist.instances:
        connections = ", ".join(f".\\{pin.decode()} ({wire_text(wire)})" for pin, wire in pins)
        yield f" \\{cell.decode()} \\{name.decode()} ({connections});"
    yield "endmodule"

# ---- Answers --------------------------------------------------------------------------------

def modules_of(text, way):
    """The modules of a text, read in one of the three ways."""
    return [flat(text)] if way == "flat" else Reader(text, way == "several").modules()

def listing(text, way):
    """The lines that are printed for a text."""
    try:
        modules = modules_of(text, way)
    except Refusal as refusal:
        code, line = refusal.args
        return [f"{code} {line}"]
    except Limit as limit:
        return [f"limit {limit}"]
    lines = []
    for module in modules:
        lines.append(f"module {module.name.decode()}")
        for net in module.nets:
            bounds = f" {net.bounds[0]} {net.bounds[1]}" if net.bounds else ""
            lines.append(f"net {net.name.decode()} {net.role or 'inner'}{bounds}")
        for cell, name, line, pins in module.instances:
            lines.append(f"instance {cell.decode()} {name.decode()} {line}")
            lines.extend(f"pin {pin.decode()} {wire}" for pin, wire in pins)
    return lines

def main(words):
    """Runs the command that the words give, and returns its status."""
    if len(words) != 1 or words[0] not in ("one", "several", "flat", "text"):
        print(__doc__.strip(), file=sys.stderr)
        return 2
    text = sys.stdin.buffer.read()
    for line in one_module(flat(text)) if words[0] == "text" else listing(text, words[0]):
        print(line)
    return 0

if __name__ == "__main__":
    sys.exit(main(sys.argv[1:]))
