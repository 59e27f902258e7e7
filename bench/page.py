#!/usr/bin/env python3
"""Tests the page of tools/page.py in headless Chromium (Debian's package `chromium`).

    python3 bench/page.py [--cells N] [--report REPORT] [--screenshot PNG] [PROGRAM]

runs `PROGRAM report` on a block of 20,000 cells of block.py, makes the page and opens it: nothing is fetched, no script
fails, counts, bars and worst slacks are those of the report; the table of checks sorts by each column and filters; nets
are looked up by name, and their windows, their picture and their couplings are compared with the report's lines; so are
the paths. Then a page that is bounded to few bytes, one of noise lines, one whose names are markup, and those of the
reports of examples/. PROGRAM is by default the launcher `xtalk` at the top; with --report it is not run. What is
expected is read from the report by the few lines below, not by tools/. It prints a line for each test, and after how
many seconds the page was open. --screenshot writes a picture of the page, as docs/page.png is one.
"""
import argparse
import base64
import json
import os
import random
import re
import shutil
import subprocess
import sys
import tempfile
import time
from pathlib import Path

TOP = Path(__file__).resolve().parent.parent
EDGES = ("rise", "fall")
WIDTH, HEIGHT = 1240, 1500
MOST_SECONDS = 10
ROWS = 15  # of a page of a table


# ---- The browser, by its debugging protocol over two pipes ---------------------------------

class Browser:
    """A headless Chromium with one page."""

    def __init__(self, folder):
        program = shutil.which("chromium") or sys.exit("page.py: there is no chromium on the path")
        (theirs_in, self.to), (self.back, theirs_out) = os.pipe(), os.pipe()
        words = [program, "--headless", "--no-sandbox", "--disable-gpu", "--hide-scrollbars", "--no-first-run",
                 "--disable-background-networking", f"--user-data-dir={folder}", "--remote-debugging-pipe",
                 "about:blank"]
        self.process = subprocess.Popen(["bash", "-c", f'exec "$@" 3<&{theirs_in} 4>&{theirs_out}', "bash", *words],
                                        pass_fds=(theirs_in, theirs_out), stderr=subprocess.DEVNULL)
        os.close(theirs_in)
        os.close(theirs_out)
        self.count, self.rest, self.events, self.session = 0, b"", [], None
        target = self.call("Target.createTarget", url="about:blank")["targetId"]
        self.session = self.call("Target.attachToTarget", targetId=target, flatten=True)["sessionId"]
        for domain in ("Page", "Runtime", "Network", "Log"):
            self.call(domain + ".enable")
        self.call("Emulation.setDeviceMetricsOverride", width=WIDTH, height=HEIGHT, deviceScaleFactor=1, mobile=False)

    def read(self):
        while b"\0" not in self.rest:
            more = os.read(self.back, 1 << 20)
            assert more, "the browser has ended"
            self.rest += more
        message, self.rest = self.rest.split(b"\0", 1)
        return json.loads(message)

    def call(self, method, **parameters):
        self.count += 1
        message = {"id": self.count, "method": method, "params": parameters}
        if self.session:
            message["sessionId"] = self.session
        text = json.dumps(message).encode() + b"\0"
        while text:
            text = text[os.write(self.to, text):]
        while True:
            answer = self.read()
            if answer.get("id") == self.count:
                assert "error" not in answer, (method, answer)
                return answer["result"]
            self.events.append(answer)

    def open(self, path):
        """Opens a file and waits until it is loaded; the seconds that this took."""
        self.events, begun = [], time.monotonic()
        self.call("Page.navigate", url=path.as_uri())
        while not any(event.get("method") == "Page.loadEventFired" for event in self.events):
            self.events.append(self.read())
        self.run("document.body.offsetHeight")
        return time.monotonic() - begun

    def run(self, script):
        """The value of an expression in the page."""
        answer = self.call("Runtime.evaluate", expression=script, returnByValue=True)
        assert "exceptionDetails" not in answer, (script, answer["exceptionDetails"])
        return answer["result"].get("value")

    def click(self, script):
        """Clicks at the middle of the element that the expression is."""
        x, y = self.run(f"(() => {{ const it = {script}; it.scrollIntoView({{ block: 'center' }}); const at = "
                        "it.getBoundingClientRect(); return [at.x + at.width / 2, at.y + at.height / 2]; })()")
        for kind in ("mousePressed", "mouseReleased"):
            self.call("Input.dispatchMouseEvent", type=kind, x=x, y=y, button="left", clickCount=1)

    def type(self, element, words, enter=False):
        """Types words into a field in place of what is there."""
        self.run(f"(() => {{ const it = document.getElementById('{element}'); it.focus(); it.select(); }})()")
        if words:
            self.call("Input.insertText", text=words)
        else:
            for kind in ("keyDown", "keyUp"):
                self.call("Input.dispatchKeyEvent", type=kind, key="Delete", windowsVirtualKeyCode=46)
        if enter:
            for kind in ("keyDown", "keyUp"):
                self.call("Input.dispatchKeyEvent", type=kind, key="Enter", windowsVirtualKeyCode=13)

    def cells(self, element):
        """The texts of a table's body, row by row."""
        return self.run(f"[...document.querySelectorAll('{element} tr')].map(row => "
                        "[...row.children].map(cell => cell.textContent))")

    def faults(self):
        """Requests beyond the file itself, and what scripts complain of."""
        found = []
        for event in self.events:
            method, about = event.get("method"), event.get("params", {})
            if method == "Network.requestWillBeSent" and not about["request"]["url"].startswith("file:"):
                found.append(about["request"]["url"])
            if method == "Runtime.exceptionThrown" or method == "Log.entryAdded" and about["entry"]["level"] == "error":
                found.append(json.dumps(about)[:500])
        files = [event for event in self.events if event.get("method") == "Network.requestWillBeSent"]
        return found + ["more than one file"] * (len(files) > 1)

    def end(self):
        self.process.kill()
        self.process.wait()


# ---- What a report says, line by line --------------------------------------------------------

class Lines:
    """The words of a report's lines by their first word."""

    def __init__(self, path):
        rows = [line.split(" ") for line in path.read_text(encoding="ascii").splitlines()]
        self.first = {}
        for row in rows:
            self.first.setdefault(row[0], []).append(row[1:])
        self.checks, self.nets, self.guilty = (self.first.get(word, []) for word in ("check", "net", "guilty"))
        self.path_rows = [row for row in rows if row[0] in ("path", "from", "step", "to")]


def value(text):
    """A printed number as a whole number of thousandths; none of `idle`."""
    return None if text == "idle" else int(text.replace(".", ""))


def comma(number):
    return f"{number:,}"


def printed(number):
    return f"{'-' if number < 0 else ''}{abs(number) // 1000}.{abs(number) % 1000:03}"


def as_cells(check):
    """A `check` line as the table has it."""
    if check[3] == "idle":
        return [*check[:3], "idle", "idle", ""]
    return [*check, printed(value(check[4]) - value(check[3]))]


# ---- The tests -------------------------------------------------------------------------------

def make_page(report, path, *words):
    with open(path, "wb") as file:
        subprocess.run([sys.executable, TOP / "tools/page.py", *words, report], stdout=file, check=True)


def head(browser, lines):
    """The tiles: the worst slack of each kind, and how many checks are violated and idle."""
    tiles = browser.run("[...document.querySelectorAll('.tile')].map(tile => "
                        "[...tile.children].map(part => part.textContent))")
    size = browser.run("document.getElementById('size').textContent")
    counts = lines.first["nets"][0]
    for word, number in (("nets", counts[0]), ("couplings", counts[2]), ("pairs", counts[4]), ("levels", counts[6])):
        assert f"{comma(int(number))} {word}" in size, (word, size)
    for kind in ("setup", "hold"):
        own = [check for check in lines.checks if check[2] == kind]
        timed = [check for check in own if check[3] != "idle"]
        worst = min(timed, key=lambda check: value(check[3]))
        assert [f"{worst[3]} ps", f"worst {kind} slack, {worst[0]} {worst[1]}"] in tiles, (worst, tiles)
        violated, idle = sum(value(check[3]) < 0 for check in timed), len(own) - len(timed)
        words = f"of {comma(len(own))} {kind} checks violated" + (f", {comma(idle)} idle" if idle else "")
        assert [comma(violated), words] in tiles, (violated, words, tiles)
    wider = sum(net[2] == "least" and net[3:7] != net[8:12] for net in lines.nets)
    assert comma(wider) in [tile[0] for tile in tiles] and comma(len(lines.guilty)) in [tile[0] for tile in tiles]
    assert browser.run("document.getElementById('left-out').hidden")


def bars(browser, lines):
    """Each bar counts the checks of its range, a red one those below 0; a click shows just these in the table."""
    for kind in ("setup", "hold"):
        slacks = [value(check[3]) for check in lines.checks if check[2] == kind and check[3] != "idle"]
        found = browser.run(f"[...document.querySelectorAll('svg[data-kind={kind}] rect')].map(bar => "
                            "[+bar.dataset.low, +bar.dataset.count, bar.getAttribute('fill'), bar.textContent, "
                            "+bar.getAttribute('height')])")
        assert sum(bar[1] for bar in found) == len(slacks)
        step = min((b[0] - a[0] for a, b in zip(found, found[1:])), default=10 ** 9)
        for low, number, colour, words, high in found:
            assert number == sum(low <= slack < low + step for slack in slacks), (kind, low, number)
            assert (colour == "var(--slow)") == (low < 0) and words.startswith(f"{comma(number)} checks with ")
        tallest = max(found, key=lambda bar: bar[1])
        assert tallest[4] == max(bar[4] for bar in found)
        browser.click(f"document.querySelectorAll('svg[data-kind={kind}] rect')[{found.index(tallest)}]")
        assert browser.run("document.getElementById('check-count').textContent").startswith(comma(tallest[1]) + " of ")
        browser.click("document.getElementById('check-range')")
    browser.run("document.getElementById('check-kind').value = ''; filterChecks()")


def sorting(browser, lines):
    """The table of checks by each column, up and down, at its first page, its second and its last."""
    keys = [lambda check: check[0], lambda check: EDGES.index(check[1]),
            lambda check: ["setup", "hold"].index(check[2]), lambda check: value(check[3]),
            lambda check: value(check[4]) if check[3] != "idle" else None,
            lambda check: value(check[4]) - value(check[3]) if check[3] != "idle" else None]
    for column, key in enumerate(keys):
        for down in (False, True):
            browser.click(f"document.querySelectorAll('#check-heads button')[{column}]")
            has = [check for check in lines.checks if key(check) is not None]
            without = [check for check in lines.checks if key(check) is None]
            wanted = [as_cells(check) for check in sorted(has, key=key, reverse=down) + without]
            shown = browser.run("document.querySelectorAll('#check-heads th')[%d].getAttribute('aria-sort')" % column)
            assert shown == ("descending" if down else "ascending"), (column, shown)
            assert browser.cells("#check-rows") == wanted[:ROWS], (column, down)
        last = (len(wanted) - 1) // ROWS
        if last > 0:
            browser.click("document.getElementById('check-next')")
            assert browser.cells("#check-rows") == wanted[ROWS:2 * ROWS]
            browser.run(f"checkTable.turn({last - 1})")
        assert browser.cells("#check-rows") == wanted[last * ROWS:]
        assert browser.run("document.getElementById('check-next').disabled")
    browser.click("document.querySelectorAll('#check-heads button')[3]")


def filtering(browser, lines, rng):
    """Checks by a part of their name, by kind, and those below 0 alone."""
    by_slack = sorted(lines.checks, key=lambda check: (check[3] == "idle", value(check[3]) or 0))
    names = [check[0] for check in rng.sample(lines.checks, min(12, len(lines.checks)))]
    for part in names + [names[0][:3], names[1][-3:], "no such check"]:
        browser.type("check-filter", part)
        wanted = [as_cells(check) for check in by_slack if part.lower() in check[0].lower()]
        assert browser.cells("#check-rows") == wanted[:ROWS], part
        count = browser.run("document.getElementById('check-count').textContent")
        assert count == f"{comma(len(wanted))} of {comma(len(lines.checks))}", (part, count)
    browser.type("check-filter", "")
    browser.click("document.getElementById('check-violated')")
    wanted = [as_cells(check) for check in by_slack if check[3] != "idle" and value(check[3]) < 0]
    assert browser.cells("#check-rows") == wanted[:ROWS]
    browser.click("document.getElementById('check-violated')")
    return len(wanted)


def paths(browser, lines):
    """The words of each path's rows, and that its bars follow one another to scale."""
    shown = browser.run("[...document.querySelectorAll('#path-list svg')].map(drawing => "
                        "[...drawing.querySelectorAll('text')].map(text => text.firstChild.textContent))")
    for number, start in enumerate(row for row in lines.path_rows if row[0] == "path"):
        at = lines.path_rows.index(start) + 1
        time_now, words = 0, shown[number]
        for row in lines.path_rows[at:]:
            if row[0] == "path":
                break
            if row[0] == "from":
                time_now = value(row[3])
                wanted = [f"{row[1]} {row[2]}", f"from {row[3]}", printed(time_now)]
            elif row[0] == "step":
                time_now += value(row[4]) + value(row[6])
                wanted = [f"{row[1]} {row[2]}", f"wire {row[4]}  cell {row[6]}", printed(time_now)]
            else:
                time_now += value(row[2])
                wanted = [f"{start[2]} {start[3]}", f"wire {row[2]}", printed(time_now)]
            places = [place for place in range(len(words)) if words[place:place + 3] == wanted]
            assert places, (wanted, words)
        assert f"slack {start[4]}" in words
    assert len(shown) == sum(row[0] == "path" for row in lines.path_rows)


def lane_corners(browser):
    """The bands of the picture of a net in time, by the scale that the numbers above it give; and that scale."""
    marks, bands = browser.run(
        "(() => { const drawing = document.querySelector('#net-picture svg'); return ["
        "[...drawing.querySelectorAll('text[text-anchor=middle]')].map(text => "
        "[+text.getAttribute('x'), +text.textContent]), "
        "[...drawing.querySelectorAll('[data-lane]')].map(band => [band.dataset.lane, band.firstChild.textContent, "
        "[...band.querySelectorAll('polygon')].map(it => it.getAttribute('points'))])]; })()")
    (x0, t0), (x1, t1) = marks[0], marks[-1]
    scale = (t1 - t0) / (x1 - x0)
    found = {}
    for lane, caption, polygons in bands:
        corners = [[t0 + (float(point.split(",")[0]) - x0) * scale for point in points.split()] for points in polygons]
        found[lane] = caption, corners
    return found, scale


def net_by_name(browser, lines, names):
    """Nets by their names: the tables of windows and couplings, and the bands of the picture."""
    windows = {(net[0], net[1]): net[2:] for net in lines.nets}
    for name in names:
        browser.type("net-name", name, enter=True)
        wanted = []
        for edge in EDGES:
            for word, at in (("greatest", 6), ("least", 1)):
                window = windows[name, edge]
                numbers = window[at:at + 4] if window[0] != "quiet" else ["quiet", "", "", ""]
                wanted.append([edge, word, *numbers])
        assert browser.cells(".windows tbody") == wanted, (name, browser.cells(".windows tbody"), wanted)
        own = [[row[1], row[2], row[3], row[5], row[7]] for row in lines.guilty if row[0] == name]
        others = [[row[1], row[0], row[3], row[5], row[7]] for row in lines.guilty if row[2] == name]
        tables = [rows for rows in (own, others) if rows]
        shown = [browser.cells(f".couplings:nth-of-type({2 + number}) tbody") for number in range(len(tables))]
        assert shown == tables, (name, shown, tables)
        corners, scale = lane_corners(browser) if any(windows[name, edge][0] != "quiet" for edge in EDGES) else ({}, 1)
        lanes = {(net, edge) for net in [name, *(row[1] for row in own)][:30] for edge in EDGES
                 if windows[net, edge][0] != "quiet"}
        assert {tuple(lane.split(" ")) for lane in corners} == lanes or len({net for net, _ in lanes}) >= 30, name
        for lane, (caption, bands) in corners.items():
            window = windows[tuple(lane.split(" "))]
            least, greatest = window[1:5], window[6:10]
            assert caption == (f"{lane}\nleast: {least[0]} to {least[1]} ps, slew {least[2]} to {least[3]} ps\n"
                               f"greatest: {greatest[0]} to {greatest[1]} ps, "
                               f"slew {greatest[2]} to {greatest[3]} ps"), caption
            for band, numbers in zip(bands, (greatest, least)):
                first, last, _, slew = map(float, numbers)
                wanted = [first - slew / 2, first + slew / 2, last + slew / 2, last - slew / 2]
                assert all(abs(a - b) <= abs(scale) * .12 + 1e-9 for a, b in zip(band, wanted)), (lane, band, wanted)


def by_a_part(browser, lines):
    """A part of a name offers nets that have it; a click on one of them, and on an aggressor, shows that net."""
    name = lines.guilty[0][0]
    browser.type("net-name", name[:-1] or name)
    offered = browser.run("[...document.querySelectorAll('#net-finds li')].map(row => row.textContent)")
    assert offered and all(name[:-1].lower() in one.lower() for one in offered), offered
    browser.click("document.querySelector('#net-finds li')")
    assert browser.run("document.getElementById('net-name').value") == offered[0]
    browser.type("net-name", name, enter=True)
    browser.click("document.querySelector('.couplings a')")
    assert browser.run("document.getElementById('net-name').value") == lines.guilty[0][2]
    browser.type("net-name", "no such net at all", enter=True)
    assert browser.run("document.querySelector('#net-finds').textContent") == "no such net in this page"


def bounded(browser, lines, report, folder):
    """A page of few bytes: it is no longer than that and what the frame has, and says what it leaves out."""
    most = 300_000
    make_page(report, folder / "small.html", "--most", str(most))
    make_page(report, folder / "frame.html", "--most", "0")
    assert (folder / "small.html").stat().st_size <= most + (folder / "frame.html").stat().st_size
    browser.open(folder / "small.html")
    assert not browser.faults(), browser.faults()
    said = browser.run("document.getElementById('left-out').textContent")
    there = {"nets": browser.run("facts.shown.nets"), "couplings": browser.run("facts.shown.guilty"),
             "checks": len(browser.run("checkRows"))}
    whole = {"nets": len(lines.nets) // 2, "couplings": len(lines.guilty), "checks": len(lines.checks)}
    for what, number in there.items():
        if number < whole[what]:
            assert f"{comma(whole[what] - number)} of {comma(whole[what])} {what}" in said, (what, said)
    assert there["checks"] < whole["checks"] and there["nets"] < whole["nets"], (there, whole)
    slacks = sorted(value(check[3]) for check in lines.checks if check[3] != "idle")
    assert browser.run("checkRows.map(row => row.slack).sort((a, b) => a - b)") == slacks[:there["checks"]]
    on_paths = [row[1] for row in lines.path_rows if row[0] in ("from", "step")]
    for name in on_paths:
        assert browser.run(f"windowsOf(netNumber.get({json.dumps(name)}))[0]") != "none", name
    return there


def noise(browser, folder, rng):
    """A page of noise lines: by share, by moment, by a part of the name."""
    rows = [[f"n{number}", edge, str(rng.randint(1, 1_500_000)), printed(rng.randint(-3_000, 900_000))]
            for number in range(3000) for edge in EDGES if rng.random() < .8]
    text = ["xtalk 1", "nets 4000 couplings 9000 pairs 4500 levels 9 bound 162009", "period 1500.000"]
    text += [f"noise {name} {edge} ppm {ppm} at {moment}" for name, edge, ppm, moment in rows] + ["end", ""]
    (folder / "noise.report").write_text("\n".join(text))
    make_page(folder / "noise.report", folder / "noise.html")
    browser.open(folder / "noise.html")
    assert not browser.faults(), browser.faults()
    assert browser.cells("#noise-rows") == sorted(rows[:], key=lambda row: -int(row[2]))[:ROWS]
    assert browser.run("['slacks', 'checks', 'paths', 'nets'].every(id => document.getElementById(id).hidden)")
    browser.click("document.querySelectorAll('#noise-heads button')[3]")
    assert browser.cells("#noise-rows") == sorted(rows, key=lambda row: value(row[3]))[:ROWS]
    browser.type("noise-filter", "n17")
    wanted = [row for row in sorted(rows, key=lambda row: value(row[3])) if "n17" in row[0]]
    assert browser.cells("#noise-rows") == wanted[:ROWS]


def markup(browser, folder):
    """Names that are markup or words of the page's own are shown as they are, and nothing else comes of them."""
    names = ["</script><script>document.title='x'</script>", "<!--", "<b>bold</b>", "a&lt;b", "\"'`${1}\\n\\", "@NETS@",
             "__proto__", "constructor", "\\u2039", "x" * 2049]
    text = ["xtalk 1", f"nets {len(names)} couplings 2 pairs 1 levels 1 bound 5", "period 1000.000"]
    for name in names:
        text += [f"net {name} {edge} least 1.000 2.000 3.000 4.000 greatest 0.500 2.500 3.000 4.000" for edge in EDGES]
    text += [f"guilty {a} rise {b} 1.000 fast possible slow sure" for a, b in zip(names, names[1:])]
    text += [f"check {name} rise setup {number}.000 {number}.500" for number, name in enumerate(names)]
    text += [f"path setup {names[0]} rise 0.000", f"from {names[1]} rise 1.000",
             f"step {names[2]} fall wire 0.100 delay 2.000", "to wire 0.200", "end", ""]
    (folder / "markup.report").write_text("\n".join(text))
    make_page(folder / "markup.report", folder / "markup.html")
    browser.open(folder / "markup.html")
    assert not browser.faults(), browser.faults()
    assert browser.run("document.title") == "markup.report · xtalk" and browser.run("document.scripts.length") == 6
    assert [row[0] for row in browser.cells("#check-rows")] == names
    lines = Lines(folder / "markup.report")
    net_by_name(browser, lines, names)
    assert browser.run("document.scripts.length") == 6 and browser.run("document.querySelectorAll('b').length") == \
        browser.run("document.querySelectorAll('.tile b').length")


def examples(browser, folder):
    """The pages of the reports of examples/, also of those without a check or without a net."""
    for report in sorted((TOP / "examples").glob("*.report")):
        make_page(report, folder / "example.html")
        browser.open(folder / "example.html")
        lines = Lines(report)
        net_by_name(browser, lines, list(dict.fromkeys(net[0] for net in lines.nets)))
        paths(browser, lines)
        assert browser.cells("#check-rows") == [as_cells(check) for check in sorted(
            lines.checks, key=lambda check: (check[3] == "idle", value(check[3]) or 0))][:ROWS]
        assert browser.run("document.getElementById('nets').hidden") == (not lines.nets)
        assert browser.run("document.getElementById('checks').hidden") == (not lines.checks)
        assert not browser.faults(), browser.faults()


def noise_of_block(browser, folder):
    """The noise lines that the program prints of the block."""
    make_page(folder / "block.noise", folder / "noise.html")
    browser.open(folder / "noise.html")
    rows = Lines(folder / "block.noise").first.get("noise", [])
    rows = [[net, edge, ppm, moment] for net, edge, _, ppm, _, moment in rows]
    assert rows and browser.cells("#noise-rows") == sorted(rows, key=lambda row: -int(row[2]))[:ROWS]
    assert not browser.faults(), browser.faults()


def picture(browser):
    """The page from its head to the end of the first path, somewhat smaller."""
    end = browser.run("document.querySelector('#path-list svg').getBoundingClientRect().bottom + scrollY")
    clip = {"x": 0, "y": 0, "width": WIDTH, "height": end + 12, "scale": .8}
    return base64.b64decode(browser.call("Page.captureScreenshot", format="png", clip=clip,
                                         captureBeyondViewport=True)["data"])


def report_of_block(args, folder):
    """The report of a block, by the program; and that of its noise."""
    subprocess.run([sys.executable, TOP / "bench/block.py", str(args.cells), folder / "block"], check=True)
    files = [folder / f"block/block.{end}" for end in ("lib", "v", "spef", "sdc")]
    for name, words in (("block.report", []), ("block.noise", ["--kind", "noise"])):
        with open(folder / name, "wb") as file:
            subprocess.run([args.program, "report", *files, *words], stdout=file, check=True)
    return folder / "block.report"


def main():
    parser = argparse.ArgumentParser(description=__doc__, formatter_class=argparse.RawDescriptionHelpFormatter)
    parser.add_argument("program", nargs="?", default=TOP / "xtalk")
    parser.add_argument("--cells", type=int, default=20_000)
    parser.add_argument("--report", type=Path)
    parser.add_argument("--screenshot", type=Path)
    args = parser.parse_args()
    with tempfile.TemporaryDirectory() as name:
        folder, rng = Path(name), random.Random(7)
        report = args.report.resolve() if args.report else report_of_block(args, folder)
        lines = Lines(report)
        begun = time.monotonic()
        make_page(report, folder / "page.html")
        made = time.monotonic() - begun
        browser = Browser(folder / "profile")
        try:
            seconds = browser.open(folder / "page.html")
            print(f"{report.stat().st_size / 1e6:.1f} MB of report with {len(lines.nets) // 2:,} nets and "
                  f"{len(lines.checks):,} checks: a page of {(folder / 'page.html').stat().st_size / 1e6:.1f} MB, "
                  f"made in {made:.1f} s, open after {seconds:.1f} s", flush=True)
            assert seconds < MOST_SECONDS
            head(browser, lines)
            print("head: well", flush=True)
            if args.screenshot:
                args.screenshot.write_bytes(picture(browser))
            names = list(dict.fromkeys(net[0] for net in lines.nets))
            paths_of = [row[1] for row in lines.path_rows if row[0] in ("from", "step")]
            net_names = paths_of + rng.sample(names, min(40, len(names))) + names[:2] + names[-2:]
            for test in (bars, sorting):
                test(browser, lines)
                print(f"{test.__name__}: well", flush=True)
            print(f"filtering: well, {filtering(browser, lines, rng)} checks below 0", flush=True)
            paths(browser, lines)
            print("paths: well", flush=True)
            net_by_name(browser, lines, net_names)
            print(f"net_by_name: well, {len(net_names)} nets", flush=True)
            by_a_part(browser, lines)
            assert not browser.faults(), browser.faults()
            print("by_a_part: well", flush=True)
            if len(names) > 2000:
                print(f"bounded: well, {bounded(browser, lines, report, folder)}", flush=True)
            noise(browser, folder, rng)
            if not args.report:
                noise_of_block(browser, folder)
            print("noise: well", flush=True)
            markup(browser, folder)
            print("markup: well", flush=True)
            examples(browser, folder)
            print("examples: well", flush=True)
        finally:
            browser.end()


if __name__ == "__main__":
    main()
