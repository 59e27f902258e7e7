#!/usr/bin/env python3
"""The first refusal of a linked text, written from the format alone: line by line, each line by its
tests in order. `first_refusal` gives None for a text that is accepted.

    refusals.py FILE..   prints for each file what the program has to print on standard error
"""

import sys

MOST_COUNT = 2**32 - 1
MOST_TIME, MOST_SLEW, MOST_CAP, MOST_WIRE, MOST_ENTRY = 2**46, 2**40, 2**46, 2**102, 2**40
MOST_PERIOD, MOST_DELAY, MOST_GRID, MOST_NAME, MOST_QUARTERS = 2**40, 2**40, 64, 2049, 12
LIMITS = {"tables": 2**18, "nets": 2**18, "checks": 2**20, "couplings": 2**20, "coefficients": 2**24,
          "arcs": 2**22, "load": 2**46, "reads": 2**27}


class Refused(Exception):
    """A line, counted from 1, and its code; or a limit with its name, if any, and its value."""


# ---- What a field may be: bytes for a word, a set of words, None for any bytes, or a range ---

ANY = object()
COUNT = (0, MOST_COUNT)
SIZE = (1, MOST_GRID)
ENTRY = (-MOST_ENTRY, MOST_ENTRY)
TIME = (-MOST_TIME, MOST_TIME)
SLEW = (0, MOST_SLEW)
CAP = (0, MOST_CAP)
WIRE = (0, MOST_WIRE)
NUMBER = (None, None)
COUNT_OR_DASH = ("-", 0, MOST_COUNT)
DELAY_OR_DASH = ("-", -MOST_DELAY, MOST_DELAY)
EDGE = {b"rise", b"fall"}
KIND = {b"setup", b"hold"}


def number_in(field):
    """The number of a field that is written as it has to be, else None."""
    digits = field[1:] if field[:1] == b"-" else field
    plain = digits != b"" and all(48 <= byte <= 57 for byte in digits)
    if not plain or (digits[:1] == b"0" and digits != b"0") or field == b"-0":
        return None
    size = 10**100 if len(digits) > 100 else int(digits)
    return -size if field[:1] == b"-" else size


def fits_word(form, field):
    """Whether a field is one of the words that stand there, where words do."""
    if isinstance(form, bytes):
        return field == form
    return field in form if isinstance(form, set) else True


def fits_number(form, field):
    """Whether a field is a number in its range, where a number stands."""
    if not isinstance(form, tuple) or form[0] == "-" and field == b"-":
        return True
    low, high = form[-2:]
    number = number_in(field)
    return number is not None and (low is None or low <= number <= high)


class Lines:
    """The lines of a text, one after another."""

    def __init__(self, data):
        self.data, self.place, self.number = data, 0, 0

    def refuse(self, code):
        raise Refused(self.number, code)

    def next(self, *forms):
        """The fields of the next line, which has to have one of these forms."""
        self.number += 1
        end = self.data.find(b"\n", self.place)
        if end < 0:
            self.refuse("X1")
        fields = self.data[self.place:end].split(b" ")
        self.place = end + 1
        for form in forms:
            if len(form) == len(fields) and all(map(fits_word, form, fields)):
                if not all(map(fits_number, form, fields)):
                    self.refuse("X2")
                return fields
        self.refuse("X1")

    def hold(self, holds):
        if not holds:
            self.refuse("X3")


def keep(what, value, name=None):
    """A limit that is passed ends the reading."""
    if value > LIMITS[what]:
        raise Refused(what, name, value)


def sound_name(name):
    return 1 <= len(name) <= MOST_NAME and all(33 <= byte <= 126 for byte in name)


def rises(numbers):
    return all(a < b for a, b in zip(numbers, numbers[1:]))


def read(data):
    """Raises the first refusal of a text."""
    lines = Lines(data)
    _, version = lines.next([b"xtalk-design", {b"1", b"2"}])
    tables, nets, checks = map(number_in, lines.next([b"counts", COUNT, COUNT, COUNT])[1:])
    keep("tables", tables)
    keep("nets", nets)
    keep("checks", checks)
    _, period = lines.next([b"period", b"none"], [b"period", (1, MOST_PERIOD)])
    if version == b"2":
        low, mid, high = map(number_in, lines.next([b"miller", NUMBER, NUMBER, NUMBER])[1:])
        lines.hold(0 <= low <= mid <= high <= MOST_QUARTERS and (low, mid, high) != (0, 4, 8))
    for _ in range(tables):
        rows, columns = map(number_in, lines.next([b"table", SIZE, SIZE])[1:])
        lines.hold(rises(list(map(number_in, lines.next([b"slews"] + [ENTRY] * rows)[1:]))))
        lines.hold(rises(list(map(number_in, lines.next([b"loads"] + [ENTRY] * columns)[1:]))))
        for _ in range(rows):
            lines.next([b"row"] + [ENTRY] * columns)
    heads, names, sums = [], set(), [0, 0, 0]
    for _ in range(nets):
        _, name, _, *rest = lines.next([b"net", ANY, {b"i", b"w"}, CAP, COUNT, COUNT, COUNT])
        lines.hold(sound_name(name) and name not in names)
        names.add(name)
        load, couplings, sinks, arcs = map(number_in, rest)
        heads.append((name, load, couplings, sinks, arcs))
        sums = [sums[0] + couplings, sums[1] + couplings * sinks, sums[2] + arcs]
        for what, total in zip(("couplings", "coefficients", "arcs"), sums):
            keep(what, total)

    def has_sink(net, sink):
        return net < nets and sink < heads[net][3]

    feeders = []
    for own, (name, load, couplings, sinks, arcs) in enumerate(heads):
        for edge in (b"rise", b"fall") if arcs == 0 else ():
            fields = lines.next([edge, b"quiet"], [edge, TIME, TIME, SLEW, SLEW])
            if len(fields) == 5:
                tlo, thi, slo, shi = map(number_in, fields[1:])
                lines.hold(tlo <= thi and slo <= shi)
        for left in range(couplings, 0, -1):
            to, cap = map(number_in, lines.next([b"couple", COUNT, CAP])[1:])
            lines.hold(to < nets and to != own)
            load += 2 * cap
            if left == 1:
                keep("load", load, name)
        for _ in range(sinks):
            fields = lines.next([b"sink", ANY, WIRE] + [WIRE] * couplings)
            lines.hold(sound_name(fields[1]))
        feeders.append([])
        for _ in range(arcs):
            _, net, sink, _, _, delay, slew = lines.next([b"arc", COUNT, COUNT, EDGE, EDGE, COUNT, COUNT])
            net, sink, delay, slew = map(number_in, (net, sink, delay, slew))
            lines.hold(has_sink(net, sink) and delay < tables and slew < tables)
            feeders[own].append(net)
    for _ in range(checks):
        flop = [b"flop", KIND, ANY, COUNT, COUNT, COUNT, COUNT, COUNT_OR_DASH, COUNT_OR_DASH]
        port = [b"port", KIND, ANY, COUNT, COUNT, DELAY_OR_DASH, DELAY_OR_DASH]
        fields = lines.next(flop, port)
        lines.hold(period != b"none" and sound_name(fields[2]) and has_sink(*map(number_in, fields[3:5])))
        if fields[0] == b"flop":
            lines.hold(has_sink(*map(number_in, fields[5:7])))
            lines.hold(all(field == b"-" or number_in(field) < tables for field in fields[7:]))
    lines.next([b"end"])
    keep("reads", sum(1 + head[2] + sum(1 + heads[net][2] for net in fed)
                      for head, fed in zip(heads, feeders) if fed))
    lines.hold(not has_loop(feeders))
    if lines.place < len(data):
        lines.number += 1
        lines.refuse("X1")


def has_loop(feeders):
    """Whether nets that read one another make a ring."""
    waits, readers = [len(fed) for fed in feeders], [[] for _ in feeders]
    for net, fed in enumerate(feeders):
        for feeder in fed:
            readers[feeder].append(net)
    ready = [net for net, left in enumerate(waits) if left == 0]
    for net in ready:
        for reader in readers[net]:
            waits[reader] -= 1
            if waits[reader] == 0:
                ready.append(reader)
    return len(ready) < len(feeders)


def first_refusal(data):
    """The first refusal of a text: (line, code), or (limit, name or None, value); or None."""
    try:
        read(data)
    except Refused as refused:
        return refused.args
    return None


def answer(file, data):
    """Status and standard error that a refused text asks for, or None where it is accepted."""
    refused = first_refusal(data)
    if refused is None:
        return None
    if len(refused) == 2:
        return 3, f"{file}:{refused[0]}: {refused[1]}\n"
    what, name, value = refused
    called = "" if name is None else name.decode("latin-1") + " "
    return 5, f"limit: {what} {called}{value}\n"


def main(files):
    for file in files:
        with open(file, "rb") as held:
            refusal = answer(file, held.read())
        print(f"{file}: accepted\n" if refusal is None else refusal[1], end="")
    return 0


if __name__ == "__main__":
    sys.exit(main(sys.argv[1:]))
