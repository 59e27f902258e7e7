#!/usr/bin/env python3
"""An independent judge of `xtalk eco`, plain, that shares nothing with the program: a linked text and edits of it.

    eco.py FILE EDITS [--workers N] [--miller L,M,H]   prints what the program has to print and ends with its status

Each edit works on the coupling entries of its first net to its second, one after another, and then on those of the
second to the first. The last design is solved by plain.py from nothing, so no window of a design before it counts.
"""

import re
import sys

import plain
import refusals

MOST_EDITS, MOST_AMOUNT = 1024, 2**40
FIELDS = {"shield": 3, "apart": 4, "near": 4}


class Refused(Exception):
    """The code of an edit that is refused."""


def read_edit(design, text):
    """The word of a line, the numbers of its two nets, and the amount, which is None for `shield`."""
    word, *rest = fields = text.split(" ")
    if len(fields) != FIELDS.get(word):
        raise Refused("E1")
    first, second, *amount = rest
    if amount and not (re.fullmatch("[1-9][0-9]{0,12}", amount[0]) and int(amount[0]) <= MOST_AMOUNT):
        raise Refused("E2")
    numbers = {net.name: number for number, net in enumerate(design.nets)}
    if first not in numbers or second not in numbers:
        raise Refused("E3")
    a, b = numbers[first], numbers[second]
    if b not in (entry.to for entry in design.nets[a].couplings) and \
            a not in (entry.to for entry in design.nets[b].couplings):
        raise Refused("E3")
    return word, a, b, int(amount[0]) if amount else None


def edited(net, other, word, amount):
    """A net after an edit of its entries to another net."""
    load, bases = net.load, [sink.base for sink in net.sinks]
    entries, columns = [], []
    for place, entry in enumerate(net.couplings):
        column = [sink.coefs[place] for sink in net.sinks]
        cap, lost = entry.cap, [0] * len(column)
        if entry.to == other and word == "shield":
            load, bases = load + cap, [base + coef for base, coef in zip(bases, column)]
            hold(load, bases)
            continue
        if entry.to == other and (word == "near" or cap > 0):
            if cap == 0:
                raise Refused("E4")
            cap += amount if word == "near" else -min(amount, cap)
            after = [coef * cap // entry.cap for coef in column]
            lost = [coef - rest for coef, rest in zip(column, after)]
            column = after
        load, bases = load + entry.cap - cap, [base + gain for base, gain in zip(bases, lost)]
        hold(load, bases + column)
        entries.append(plain.Coupling(other, cap) if entry.to == other else entry)
        columns.append(column)
    sinks = [plain.Sink(sink.name, base, [column[place] for column in columns])
             for place, (sink, base) in enumerate(zip(net.sinks, bases))]
    return net._replace(load=load, couplings=entries, sinks=sinks)


def hold(load, sums):
    """Refuses an edit after which a load or a sum of a wire is out of its range."""
    if load < 0 or any(not 0 <= number <= plain.MOST_WIRE for number in sums):
        raise Refused("E4")


def with_edit(design, edit):
    """The design after an edit."""
    word, a, b, amount = edit
    nets = list(design.nets)
    nets[a], nets[b] = edited(nets[a], b, word, amount), edited(nets[b], a, word, amount)
    return design._replace(nets=nets)


def passed_limit(design, touched):
    """The line of the first limit that a design passes after an edit of some nets, or None."""
    for n in touched:
        net = design.nets[n]
        load = net.load + sum(2 * entry.cap for entry in net.couplings)
        if load > plain.MOST_CAP:
            return plain.line("limit:", "load", net.name, load)
    passed = plain.first_past_limit(design, plain.envelope(design))
    return passed and plain.line("limit:", *passed[1:])


def answer(file, data, edits, text, miller=None):
    """Status, standard output and standard error of `eco`, for the bytes of both files."""
    refusal = refusals.answer(file, data)
    if refusal:
        return refusal[0], "", refusal[1]
    design = plain.read_linked(data)
    if miller is not None:
        design = design._replace(miller=miller)
    limit = passed_limit(design, [])
    *lines, rest = text.decode("latin-1").split("\n")
    for number, held in enumerate(lines, 1):
        if limit or held == "end":
            break
        try:
            if number > MOST_EDITS:
                raise Refused("E1")
            edit = read_edit(design, held)
            design = with_edit(design, edit)
        except Refused as refused:
            return 3, "", f"{edits}:{number}: {refused}\n"
        limit = passed_limit(design, edit[1:3])
    if limit:
        return 5, "", limit
    ended = lines.index("end") + 1 if "end" in lines else len(lines) + 1
    if ended > len(lines):
        return 3, "", f"{edits}:{ended}: E1\n"
    if ended < len(lines) or rest:
        return 3, "", f"{edits}:{ended + 1}: E1\n"
    low, high = plain.fixpoint(design, plain.nothing(design)), plain.fixpoint(design, plain.envelope(design))
    return 0, plain.report(design, low, high), ""


if __name__ == "__main__":
    sys.exit(plain.main(["eco", *sys.argv[1:]]))
