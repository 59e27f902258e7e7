#!/usr/bin/env python3
"""Makes one page of an xtalk report, to be looked at in a browser without a network.

    python3 tools/page.py [--most BYTES] [--net NAME]... REPORT > page.html

The page has the sizes, the worst slacks and the number of violated checks; a histogram of slacks; the checks as a table
that sorts and filters; the worst paths along a time axis; a net by name with its windows and its aggressors, drawn as
tools/windows.py draws them; and the noise lines of a report by --kind noise. Counts and histograms are of the whole
report. What can be looked up is bounded by --most, 24,000,000 bytes unless said otherwise, and the page says what is
left out: of checks those with the most slack go first, of noise lines the lowest; of nets those of the worst paths and
those that --net names stay longest, then those whose windows crosstalk widens most.
"""
import argparse
import html
import json
import re
import sys
from pathlib import Path

import reports
from reports import EDGES, KINDS, MARKS, is_live

TEMPLATE = Path(__file__).resolve().parent / "page.html"
MOST = 24_000_000
MOST_BINS, MOST_STEPS, MOST_UNCONSTRAINED = 48, 200, 1000


def kept(rows, most, rank):
    """As many of the rows as have no more than `most` bytes, those of the lowest rank first, in the rows' order."""
    if sum(len(row) + 1 for row in rows) <= most:
        return list(range(len(rows)))
    chosen = []
    for number in sorted(range(len(rows)), key=lambda number: rank[number]):
        most -= len(rows[number]) + 1
        if most < 0:
            break
        chosen.append(number)
    return sorted(chosen)


def step_of_bins(low, high):
    """The least step of 1, 2 or 5 times a power of ten thousandths by which the bins are not too many."""
    step = 1
    while high // step - low // step + 1 > MOST_BINS:
        step = step * 5 // 2 if str(step)[0] == "2" else step * 2
    return step


def histogram(checks, kind):
    """How many checks of a kind have their slack in each bin; a bin begins or ends at 0."""
    slacks = [check[3] for check in checks if check[2] == kind and check[3] is not None]
    if not slacks:
        return None
    step = step_of_bins(min(slacks), max(slacks))
    first = min(slacks) // step
    counts = [0] * (max(slacks) // step - first + 1)
    for slack in slacks:
        counts[slack // step - first] += 1
    return {"kind": kind, "step": step, "first": first * step, "counts": counts}


def summary_of(checks, kind):
    """The worst check of a kind, and how many there are, are violated and are idle."""
    own = [check for check in checks if check[2] == kind]
    timed = [check for check in own if check[3] is not None]
    worst = min(timed, key=lambda check: check[3], default=None)
    return {"kind": kind, "count": len(own), "idle": len(own) - len(timed),
            "violated": sum(check[3] < 0 for check in timed), "worst": worst and [worst[0], worst[1], worst[3]]}


def shape_of(path):
    """A path for the page; of very many steps those in the middle are added up."""
    steps, half = path.steps, MOST_STEPS // 2
    skipped = steps[half:-half] if len(steps) > MOST_STEPS else []
    if skipped:
        sums = [len(skipped), sum(wire for _, _, wire, _ in skipped), sum(delay for _, _, _, delay in skipped)]
        steps = steps[:half] + [[None, *sums]] + steps[-half:]
    return {"kind": path.kind, "name": path.name, "edge": path.edge, "slack": path.slack, "start": path.start,
            "steps": steps, "wire": path.wire}


def net_rows(report, names):
    """A row for each net: its name, and for both edges `q` where it is quiet, `-` where the report has no line, the
    numbers of the greatest window where it has no least one, or those of the least one and the differences to them."""
    def of_edge(key):
        quads = report.windows.get(key, ())
        if not quads:
            return "q" if quads is None else "-"
        least, greatest = quads
        numbers = least + tuple(b - a for a, b in zip(least, greatest)) if is_live(least) else greatest
        return ",".join(map(str, numbers))
    return [f"{name} {of_edge((name, 'rise'))} {of_edge((name, 'fall'))}" for name in names]


def widening(report, name):
    """By how much crosstalk widens both windows of a net in time, most where only the greatest windows have the edge."""
    wider = 0
    for edge in EDGES:
        least, greatest = report.windows.get((name, edge)) or (None, None)
        if greatest and is_live(greatest):
            before = least[1] - least[0] if is_live(least) else -(10 ** 15)
            wider += greatest[1] - greatest[0] - before
    return wider


def nets_and_couplings(report, wanted, most):
    """The rows of the nets and those of the couplings, each of a victim and an edge with its aggressors."""
    names = list(dict.fromkeys(name for name, _ in report.windows))
    on_paths = {step[0] for path in report.paths for step in [path.start, *path.steps]}
    rows = net_rows(report, names)
    first = wanted | on_paths
    rank = [(name not in first, -widening(report, name)) for name in names]
    chosen = kept(rows, most * 2 // 3, rank)
    rows, numbers = [rows[number] for number in chosen], {names[old]: new for new, old in enumerate(chosen)}
    lists, left, used = {}, most - sum(len(row) + 1 for row in rows), 0
    for victim, edge, aggressor, cap, fast, slow in report.guilty:
        if victim not in numbers:
            continue
        if aggressor not in numbers:  # its windows are left out, its name is not
            numbers[aggressor] = len(rows)
            rows.append(f"{aggressor} - -")
            left -= len(rows[-1]) + 1
        entry = f"{numbers[aggressor]},{cap},{MARKS.index(fast)}{MARKS.index(slow)}"
        left -= len(entry) + 8
        if left < 0:
            break
        lists.setdefault((numbers[victim], edge[0]), []).append(entry)
        used += 1
    couplings = [f"{victim} {edge} {' '.join(entries)}" for (victim, edge), entries in lists.items()]
    return rows, couplings, len(chosen), len(names), used


def parts(report, title, wanted, most):
    """What the page is filled with, by the names of its places."""
    nets, couplings, net_count, all_nets, coupling_count = nets_and_couplings(report, wanted, most * 3 // 4)
    checks = [f"{name} {edge[0]} {kind[0]} " + ("i" if slack is None else f"{slack} {least}")
              for name, edge, kind, slack, least in report.checks]
    rank = [10 ** 18 if check[3] is None else check[3] for check in report.checks]
    chosen = kept(checks, most // 8, rank)
    noise = [f"{net} {edge[0]} {ppm} {moment}" for net, edge, ppm, moment in report.noise]
    peaks = kept(noise, most // 8, [-line[2] for line in report.noise])
    edges = [quads for quads in report.windows.values() if quads]
    facts = {
        "title": title, "nets": report.nets, "couplings": report.couplings, "pairs": report.pairs,
        "levels": report.levels, "bound": report.bound, "period": report.period, "miller": report.miller,
        "live": len(edges), "wider": sum(least != greatest for least, greatest in edges),
        "sure": sum("sure" in line[4:] for line in report.guilty),
        "kinds": [summary_of(report.checks, kind) for kind in KINDS],
        "histograms": [bins for bins in (histogram(report.checks, kind) for kind in KINDS) if bins],
        "paths": [shape_of(path) for path in report.paths],
        "unconstrained": report.unconstrained[:MOST_UNCONSTRAINED],
        "shown": {"nets": net_count, "guilty": coupling_count, "checks": len(chosen), "noise": len(peaks)},
        "all": {"nets": all_nets, "guilty": len(report.guilty), "checks": len(report.checks),
                "noise": len(report.noise), "unconstrained": len(report.unconstrained)},
    }
    texts = {"FACTS": [json.dumps(facts)], "NETS": nets, "COUPLINGS": couplings,
             "CHECKS": [checks[number] for number in chosen], "NOISE": [noise[number] for number in peaks]}
    # A name may have any printable bytes, so the one that could end a script is another character in the page.
    filled = {place: "\n".join(rows).replace("<", "\u2039") for place, rows in texts.items()}
    return filled | {"TITLE": html.escape(title)}


def page(report, title, wanted=frozenset(), most=MOST):
    """The text of the page."""
    filled = parts(report, title, wanted, most)
    return re.sub(r"@([A-Z]+)@", lambda place: filled[place[1]], TEMPLATE.read_text(encoding="utf-8"))


def main():
    parser = argparse.ArgumentParser(description=__doc__, formatter_class=argparse.RawDescriptionHelpFormatter,
                                     usage="page.py [--most BYTES] [--net NAME]... REPORT > page.html")
    parser.add_argument("report")
    parser.add_argument("--most", type=int, default=MOST)
    parser.add_argument("--net", action="append", default=[])
    args = parser.parse_args()
    try:
        report = reports.read(args.report)
        missing = [name for name in args.net if all((name, edge) not in report.windows for edge in EDGES)]
        if missing:
            raise reports.NoReport(f"{args.report} has no windows of a net {missing[0]}")
        sys.stdout.reconfigure(encoding="utf-8")
        sys.stdout.write(page(report, Path(args.report).name, set(args.net), args.most))
        sys.stdout.flush()
    except reports.NoReport as fault:
        sys.exit(f"page.py: {fault}")
    except OSError as fault:
        sys.exit(f"page.py: the page can't be written: {fault}")


if __name__ == "__main__":
    main()
