"""Reads a report of xtalk, for the tools beside this file. docs/FORMATS.md lists the lines.

Times are whole femtoseconds and capacitances whole attofarads, as the report has them with three digits.
"""
import re
import sys
from dataclasses import dataclass, field

EDGES = ("rise", "fall")
KINDS = ("setup", "hold")
MARKS = ("no", "possible", "sure")
NUMBER = re.compile(r"-?[0-9]+\.[0-9]{3}")


@dataclass
class Path:
    """How the data of a check comes: where it starts, the steps (net, edge, wire, delay), the wire to the check."""
    kind: str
    name: str
    edge: str
    slack: int
    start: tuple = ()
    steps: list = field(default_factory=list)
    wire: int = 0

    def arrival(self):
        return self.start[2] + sum(wire + delay for _, _, wire, delay in self.steps) + self.wire


@dataclass
class Report:
    nets: int = 0
    couplings: int = 0
    pairs: int = 0
    levels: int = 0
    bound: int = 0
    period: object = None
    miller: tuple = (0, 4, 8)
    windows: dict = field(default_factory=dict)  # (net, edge): None where quiet, else the least and the greatest quad
    unconstrained: list = field(default_factory=list)
    guilty: list = field(default_factory=list)  # (victim, edge, aggressor, capacitance, fast, slow)
    checks: list = field(default_factory=list)  # (name, edge, kind, slack in the greatest, in the least); None if idle
    paths: list = field(default_factory=list)
    noise: list = field(default_factory=list)  # (net, edge, ppm, moment)


class NoReport(Exception):
    """Why a file is no report, in words."""


def thousandths(text):
    """The whole number of thousandths that a number with three digits after its point is."""
    if not NUMBER.fullmatch(text):
        raise ValueError(text)
    return int(text[:-4] + text[-3:])


def shown(number):
    """A whole number of thousandths as the report prints it."""
    return f"{'-' if number < 0 else ''}{abs(number) // 1000}.{abs(number) % 1000:03}"


def is_live(quad):
    """Whether a window admits any transition: the least ones of an edge may admit none while the greatest do."""
    return quad[0] <= quad[1] and quad[2] <= quad[3]


def one_of(word, words):
    if word not in words:
        raise ValueError(word)
    return sys.intern(word)


def take(report, words, only):
    """Takes a line into the report; lines of nets that are not among the wanted ones are left out."""
    match words:
        case ["net", name, edge, "quiet"]:
            if only is None or name in only:
                report.windows[sys.intern(name), one_of(edge, EDGES)] = None
        case ["net", name, edge, "least", a, b, c, d, "greatest", e, f, g, h]:
            if only is None or name in only:
                quads = tuple(map(thousandths, (a, b, c, d))), tuple(map(thousandths, (e, f, g, h)))
                report.windows[sys.intern(name), one_of(edge, EDGES)] = quads
        case ["guilty", victim, edge, aggressor, cap, "fast", fast, "slow", slow]:
            if only is None or (victim in only and aggressor in only):
                report.guilty.append((sys.intern(victim), one_of(edge, EDGES), sys.intern(aggressor),
                                      thousandths(cap), one_of(fast, MARKS), one_of(slow, MARKS)))
        case ["check", name, edge, kind, "idle"]:
            report.checks.append((name, one_of(edge, EDGES), one_of(kind, KINDS), None, None))
        case ["check", name, edge, kind, greatest, least]:
            report.checks.append((name, one_of(edge, EDGES), one_of(kind, KINDS),
                                  thousandths(greatest), thousandths(least)))
        case ["path", kind, name, edge, slack]:
            report.paths.append(Path(one_of(kind, KINDS), name, one_of(edge, EDGES), thousandths(slack)))
        case ["from", net, edge, time]:
            report.paths[-1].start = (net, one_of(edge, EDGES), thousandths(time))
        case ["step", net, edge, "wire", wire, "delay", delay]:
            report.paths[-1].steps.append((net, one_of(edge, EDGES), thousandths(wire), thousandths(delay)))
        case ["to", "wire", wire]:
            report.paths[-1].wire = thousandths(wire)
        case ["noise", net, edge, "ppm", ppm, "at", moment]:
            report.noise.append((sys.intern(net), one_of(edge, EDGES), int(ppm), thousandths(moment)))
        case ["unconstrained", name]:
            report.unconstrained.append(name)
        case ["nets", nets, "couplings", couplings, "pairs", pairs, "levels", levels, "bound", bound]:
            report.nets, report.couplings, report.pairs = int(nets), int(couplings), int(pairs)
            report.levels, report.bound = int(levels), int(bound)
        case ["period", period]:
            report.period = None if period == "none" else thousandths(period)
        case ["miller", low, middle, high]:
            report.miller = (int(low), int(middle), int(high))
        case _:
            raise ValueError


def read(path, only=None):
    """The report in a file; with names of nets, the windows of these alone and the couplings among them."""
    report, ended, line = Report(), False, ""
    try:
        with open(path, encoding="ascii", newline="\n") as lines:
            if lines.readline() != "xtalk 1\n":
                raise NoReport(f"{path} is no report of xtalk")
            for line in lines:
                if ended:
                    raise ValueError
                ended = line == "end\n"
                if not ended:
                    take(report, line.rstrip("\n").split(" "), only)
    except (OSError, UnicodeDecodeError) as fault:
        raise NoReport(f"{path} can't be read: {fault}") from None
    except (IndexError, ValueError):
        raise NoReport(f"{path} has a line that no report has: {line.rstrip()[:200]}") from None
    if not ended:
        raise NoReport(f"{path} ends early: it has no line `end`")
    if any(not path.start for path in report.paths):
        raise NoReport(f"{path} has a path that begins nowhere")
    return report
