#!/usr/bin/env python3
"""Draws the switching windows of an xtalk report as an SVG picture.

    python3 tools/windows.py REPORT [NET ...] > windows.svg

One lane for each net and edge. A window is the band between its earliest and its latest ramp: the greatest window is
light, the least one dark. A ramp is as long as the window's greatest slew and centred at its time, so a band lies over
the whole time in which that edge can be under way; couplings act where two bands meet. Links go from an aggressor's
edge to the victim's edge that it can shorten (fast) or lengthen (slow): drawn through where it is sure, dashed where it
is possible. With nets named, only these are drawn, in the order in which they are named, with the links among them.
"""
import sys
from xml.sax.saxutils import escape

import reports
from reports import EDGES, is_live, shown

MOST_LANES = 400
WIDTH, LINKS, LANE, HEIGHT, TOP = 640, 130, 26, 18, 44
LEAST, GREATEST, FAST, SLOW, GREY = "#1f4e79", "#a9c9e8", "#2e7d32", "#c62828", "#888888"


def stop(text):
    sys.stderr.write(f"windows.py: {text}\n")
    sys.exit(2)


def read(path, wanted):
    """The windows by net and edge, in the report's order, the guilty couplings, and the period's words."""
    try:
        report = reports.read(path, wanted)
    except reports.NoReport as fault:
        stop(fault)
    if wanted is None and len(report.windows) > MOST_LANES:
        stop(f"{path} has more than {MOST_LANES // 2} nets: name those to draw")
    links = [(victim, edge, aggressor, fast, slow) for victim, edge, aggressor, _, fast, slow in report.guilty]
    return report.windows, links, report.period


def span(quad):
    """From the first to the last moment at which the edge can be under way."""
    half = -(-quad[3] // 2)
    return quad[0] - half, quad[1] + half


def caption(lane, quads):
    """A lane's windows in words, which a browser shows over its band."""
    words = " ".join(lane)
    for name, quad in zip(("least", "greatest"), quads):
        words += ("\n{}: {} to {} ps, slew {} to {} ps".format(name, *map(shown, quad)) if is_live(quad)
                  else f"\n{name}: never")
    return words


def ticks(low, high):
    """Whole steps of 1, 2 or 5 times a power of ten femtoseconds, about eight of them."""
    step = 1
    while (high - low) // step > 8:
        step = step * 5 // 2 if str(step)[0] == "2" else step * 2
    return range(-(-low // step) * step, high + 1, step)


def picture(windows, links, period, names):
    lanes = [(net, edge) for net in names for edge in EDGES if (net, edge) in windows]
    place = {lane: number for number, lane in enumerate(lanes)}
    spans = [span(quad) for lane in lanes if windows[lane] for quad in windows[lane] if is_live(quad)]
    low, high = min((a for a, _ in spans), default=0), max((b for _, b in spans), default=1000)
    room = max((high - low) // 20, 1)
    low, high = low - room, high + room
    left = 30 + 7 * max((len(" ".join(lane)) for lane in lanes), default=0)

    def x(time):
        return left + (time - low) * WIDTH / (high - low)

    def middle(lane):
        return TOP + place[lane] * LANE + LANE / 2

    total = left + WIDTH + LINKS, TOP + len(lanes) * LANE + 62
    out = [f'<svg xmlns="http://www.w3.org/2000/svg" width="{total[0]}" height="{total[1]}" '
           f'viewBox="0 0 {total[0]} {total[1]}" font-family="sans-serif" font-size="11">',
           f'<rect width="{total[0]}" height="{total[1]}" fill="white"/>']
    foot = TOP + len(lanes) * LANE
    for time in ticks(low, high):
        whole, part = divmod(abs(time), 1000)
        number = ("-" if time < 0 else "") + str(whole) + (f".{part:03}".rstrip("0") if part else "")
        out.append(f'<line x1="{x(time):.1f}" y1="{TOP - 6}" x2="{x(time):.1f}" y2="{foot}" stroke="#e4e4e4"/>')
        out.append(f'<text x="{x(time):.1f}" y="{TOP - 12}" text-anchor="middle" fill="{GREY}">{number}</text>')
    out.append(f'<text x="{left + WIDTH + 8}" y="{TOP - 12}" fill="{GREY}">ps</text>')
    for lane in lanes:
        y = middle(lane)
        out.append(f'<text x="{left - 10}" y="{y + 4:.1f}" text-anchor="end">{escape(" ".join(lane))}</text>')
        if windows[lane] is None:
            out.append(f'<line x1="{left}" y1="{y}" x2="{left + WIDTH}" y2="{y}" stroke="#dddddd"/>')
            out.append(f'<text x="{left + 6}" y="{y - 3:.1f}" fill="{GREY}" font-size="9">quiet</text>')
            continue
        out.append(f"<g><title>{escape(caption(lane, windows[lane]))}</title>")
        start, end = (y + HEIGHT / 2, y - HEIGHT / 2) if lane[1] == "rise" else (y - HEIGHT / 2, y + HEIGHT / 2)
        for quad, colour in zip(reversed(windows[lane]), (GREATEST, LEAST)):
            if is_live(quad):
                half = quad[3] / 2
                corners = ((quad[0] - half, start), (quad[0] + half, end),
                           (quad[1] + half, end), (quad[1] - half, start))
                points = " ".join(f"{x(time):.1f},{at:.1f}" for time, at in corners)
                out.append(f'<polygon points="{points}" fill="{colour}" stroke="{colour}" stroke-width="1.5" '
                           'stroke-linejoin="round" fill-opacity="0.75"/>')
        out.append("</g>")
    drawn = 0
    for victim, edge, aggressor, fast, slow in links:
        other = EDGES[1 - EDGES.index(edge)]
        for word, mark, at, colour, lower in (("fast", fast, edge, FAST, -3), ("slow", slow, other, SLOW, 3)):
            if mark == "no" or (victim, edge) not in place or (aggressor, at) not in place:
                continue
            a, b = middle((aggressor, at)), middle((victim, edge)) + lower
            right = left + WIDTH + 4
            reach = right + 22 + 12 * (drawn % 8)
            dash = "" if mark == "sure" else ' stroke-dasharray="4 3"'
            out.append(f"<g><title>{escape(f'{aggressor} {at} can make {victim} {edge} {word}: {mark}')}</title>")
            out.append(f'<path d="M{right},{a:.1f} C{reach},{a:.1f} {reach},{b:.1f} {right + 5},{b:.1f}" fill="none" '
                       f'stroke="{colour}"{dash}/>')
            out.append(f'<path d="M{right},{b:.1f} l7,-3 l0,6 z" fill="{colour}"/></g>')
            drawn += 1
    key = [("least window", LEAST, ""), ("greatest window", GREATEST, ""), ("fast", FAST, ""), ("slow", SLOW, "")]
    at = left
    for word, colour, _ in key:
        out.append(f'<rect x="{at}" y="{foot + 14}" width="14" height="9" fill="{colour}"/>')
        out.append(f'<text x="{at + 20}" y="{foot + 23}">{word}</text>')
        at += 34 + 7 * len(word)
    out.append(f'<text x="{at}" y="{foot + 23}" fill="{GREY}">sure: drawn through, possible: dashed</text>')
    if period is not None:
        out.append(f'<text x="{left}" y="{foot + 44}" fill="{GREY}">period {shown(period)} ps: bands that lie whole '
                   'periods apart meet too</text>')
    return "\n".join(out + ["</svg>", ""])


def main():
    if len(sys.argv) < 2:
        sys.stderr.write(__doc__)
        sys.exit(2)
    if sys.argv[1] in ("-h", "--help"):
        sys.stdout.write(__doc__)
        return
    path, names = sys.argv[1], list(dict.fromkeys(sys.argv[2:]))
    windows, links, period = read(path, set(names) if names else None)
    if not windows and not names:
        stop(f"{path} has no `net` lines, as by --kind checks: there is nothing to draw")
    for name in names:
        if not any((name, edge) in windows for edge in EDGES):
            stop(f"{path} has no windows of a net {name}")
    try:
        sys.stdout.write(picture(windows, links, period, names or list(dict.fromkeys(net for net, _ in windows))))
        sys.stdout.flush()
    except OSError as fault:
        stop(f"the picture can't be written: {fault}")


if __name__ == "__main__":
    main()
