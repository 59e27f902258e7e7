#!/usr/bin/env python3
"""Elmore sums of a small tree by the double sum over shared paths, from the definition alone.

Plain and slow: for each sink p and each node k it takes the two paths from the root, to p and to k, each as a set of
resistors, and adds up those that are in both. Nothing is shared between two pairs of nodes, nothing is
walked in an order, and a path is searched by trying every way that repeats no node.

A case is a dict: nodes, root, resistors [(a, b, value)], ground [value], taps [(node, cap)], sinks [node].
Its answer is
    NotTree           of the part that hangs at the root the resistors are no fewer than the nodes
    NotReached NODE   otherwise, the least sink, tap's node or node with ground above 0 that lies outside that part
    load LOAD, and per sink `sink BASE COEFFICIENT ...` with one coefficient per tap, in order.

Usage:  elmore.py cases SEED COUNT      random cases, one a line
        elmore.py answers < CASES       their answers, one a line
        elmore.py compare SEED COUNT PROGRAM [ARGUMENT ...]
                                        runs PROGRAM on the cases (standard input) and compares its lines with the answers
A line of a case: `nodes root | a b value, ... | ground ... | node cap, ... | sink ... | factor ...`; the factors are in quarters, one a
tap, and an answer ends with the delay at each sink: floor((4 base + sum of factor times coefficient) / 4,000,000).
"""
import random
import subprocess
import sys


def joined_part(nodes, root, resistors):
    """The nodes joined to the root by some chain of resistors: the least set that has the root and is closed."""
    part = {root}
    grown = True
    while grown:
        grown = False
        for a, b, _ in resistors:
            if (a in part) != (b in part):
                part |= {a, b}
                grown = True
    return part


def ways(node, goal, resistors, seen, chosen):
    """Every way from node to goal that repeats no node, as a set of the places of its resistors."""
    if node == goal:
        yield frozenset(chosen)
        return
    for place, (a, b, _) in enumerate(resistors):
        for here, there in ((a, b), (b, a)):
            if here == node and there not in seen:
                yield from ways(there, goal, resistors, seen | {there}, chosen + [place])


def answer(case):
    """The answer to a case in the words above."""
    nodes, root, resistors = case["nodes"], case["root"], case["resistors"]
    part = joined_part(nodes, root, resistors)
    inside = [r for r in resistors if r[0] in part]
    if len(inside) >= len(part):
        return "NotTree"
    needed = set(case["sinks"]) | {node for node, _ in case["taps"]}
    needed |= {node for node in range(nodes) if case["ground"][node] > 0}
    outside = sorted(needed - part)
    if outside:
        return f"NotReached {outside[0]}"

    def path(node):
        found = list(set(ways(root, node, resistors, {root}, [])))
        assert len(found) == 1, "a tree has one path to each of its nodes"
        return found[0]

    def shared(p, k):
        return sum(resistors[place][2] for place in path(p) & path(k))

    words = [f"load {sum(case['ground'])}"]
    delays = []
    for sink in case["sinks"]:
        base = sum(shared(sink, k) * case["ground"][k] for k in sorted(part))
        coefs = [shared(sink, node) * cap for node, cap in case["taps"]]
        words.append(" ".join(["sink", str(base)] + [str(c) for c in coefs]))
        quarters = 4 * base + sum(f * c for f, c in zip(case["factors"], coefs))
        delays.append(str(quarters // 4000000))
    return " ".join(words + ["delay"] + delays)


def drawn_case(draw):
    """A case of 1 to 12 nodes: most often a tree, with a second part, a ring, a self loop or a doubled resistor now and then."""
    nodes = draw.randint(1, 12)
    big = draw.random() < 0.2
    ohms = (lambda: draw.choice([0, 1, 2 ** 40, draw.randint(0, 2 ** 40)])) if big else (lambda: draw.randint(0, 200_000))
    most = 2 ** 46 // 48 if big else 5_000
    names = list(range(nodes))
    draw.shuffle(names)
    apart = draw.randint(1, nodes) if draw.random() < 0.25 else nodes
    resistors = []
    for i in range(1, nodes):
        low = 0 if i < apart else apart
        if i == apart:
            continue
        shape = draw.random()
        other = i - 1 if shape < 0.3 else low if shape < 0.4 else draw.randint(low, i - 1)
        pair = [names[i], names[other]]
        draw.shuffle(pair)
        resistors.append((pair[0], pair[1], ohms()))
    kind = draw.random()
    if kind < 0.06:
        one = draw.choice(names)
        resistors.append((one, one, ohms()))
    elif kind < 0.12 and resistors:
        a, b, _ = draw.choice(resistors)
        resistors.append((b, a, ohms()))
    elif kind < 0.20:
        resistors.append((draw.choice(names), draw.choice(names), ohms()))
    elif kind < 0.24 and resistors:
        resistors.pop(draw.randrange(len(resistors)))
    draw.shuffle(resistors)
    root = names[0] if draw.random() < 0.6 else draw.choice(names)
    part = sorted(joined_part(nodes, root, resistors))
    whole = draw.random() < 0.15

    def place():
        return draw.randrange(nodes) if whole or draw.random() < 0.02 else draw.choice(part)

    ground = [0] * nodes
    for node in range(nodes):
        if whole or node in part:
            ground[node] = draw.choice([0, draw.randint(0, most)])
    taps = [(place(), draw.choice([0, draw.randint(0, most)])) for _ in range(draw.randint(0, 4))]
    sinks = [place() for _ in range(draw.randint(0, 4))]
    factors = [draw.randint(0, 12) for _ in taps]
    return {"nodes": nodes, "root": root, "resistors": resistors, "ground": ground, "taps": taps, "sinks": sinks,
            "factors": factors}


def line_of(case):
    """A case as a line."""
    groups = [f"{case['nodes']} {case['root']}",
              ", ".join(" ".join(map(str, r)) for r in case["resistors"]),
              " ".join(map(str, case["ground"])),
              ", ".join(" ".join(map(str, t)) for t in case["taps"]),
              " ".join(map(str, case["sinks"])),
              " ".join(map(str, case["factors"]))]
    return " | ".join(groups)


def case_of(line):
    """A line as a case."""
    groups = [group.strip() for group in line.split("|")]
    numbers = [[tuple(map(int, item.split())) for item in group.split(",") if item.strip()] for group in groups]
    first = [list(items[0]) if items else [] for items in numbers]
    return {"nodes": first[0][0], "root": first[0][1], "resistors": numbers[1], "ground": first[2], "taps": numbers[3],
            "sinks": first[4], "factors": first[5]}


def main(words):
    if words[:1] == ["cases"] and len(words) == 3:
        draw = random.Random(int(words[1]))
        for _ in range(int(words[2])):
            print(line_of(drawn_case(draw)))
    elif words == ["answers"]:
        for line in sys.stdin:
            print(answer(case_of(line)))
    elif words[:1] == ["compare"] and len(words) >= 4:
        draw = random.Random(int(words[1]))
        lines = [line_of(drawn_case(draw)) for _ in range(int(words[2]))]
        wanted = [answer(case_of(line)) for line in lines]
        run = subprocess.run(words[3:], input="\n".join(lines) + "\n", capture_output=True, text=True)
        given = run.stdout.splitlines()
        differences = [(c, w, g) for c, w, g in zip(lines, wanted, given) if w != g]
        for case, want, give in differences[:10]:
            print(f"case   {case}\nwanted {want}\ngiven  {give}")
        kinds = {}
        for want in wanted:
            kinds[want.split()[0]] = kinds.get(want.split()[0], 0) + 1
        print(f"{len(lines)} cases ({kinds}), {len(given)} answers, {len(differences)} differences")
        return 0 if len(given) == len(lines) and not differences else 1
    else:
        print(__doc__)
        return 2
    return 0


if __name__ == "__main__":
    sys.exit(main(sys.argv[1:]))
