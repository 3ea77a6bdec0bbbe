#!/usr/bin/env python3
"""Compares the figures of pages, as a browser (chromium, headless) shows them, with what `trace`, `traffic` and `run` write of the same plans.

usage: figures.py PROGRAM [PLAN..]             the pages of these plans; without one those of all examples
       figures.py PROGRAM --long [SECONDS]     the pages of a full bus of 16 nodes that runs so long, 10 s by default: clean, and with one spike at 60 % of the run

A page shows the whole run, or of a long run the part around its first error. Compared are the verdict; how many frames, receptions, errors and
synchronisations it counts, and the first error that it names; where the key `e` leads on a page that was just opened, which has to be the first
error of the whole run; the first events of its table; each node's figures at the end; the load and all other lines of the traffic, and each cell
of the tables of messages and bounds; and the strip of the whole run, pixel by pixel: its frames or its load, and its errors. Each figure that
differs is a line, and makes the status 1.

Each page is opened OPENINGS times (default 1, with --long 9). The time is the median of those from the call to the first picture after all is drawn.
KEEP=1 keeps those of --long as rows of bench/results.tsv.
"""
import math
import os
import re
import statistics
import subprocess
import sys
import tempfile
from bisect import bisect_right
from pathlib import Path

from browser import Browser, is_here
from page import TOP, bit_lengths, events_of, said, time_said

sys.dont_write_bytecode = True
sys.path.insert(0, str(TOP / "bench"))
import long
import results

TICK = 1000  # picoseconds
ROWS = 500  # lines that the table of events has at first
PARTS = 1000  # of a run of which a part is shown
STRIP_LINES = 10  # of a thousandth in which the bus is full
MOST_PIXELS = 0.6  # as much of a column of the strip may be covered beside its load
LONG = "16 nodes, 16 quanta a bit, busy"
FRAME = re.compile(r"(\d+) (\d+) .* q \d+ b \d+ (.*)$")
SPIKE = '\n[[disturbance]]\nx = 0\nfrom = {}\nto = {}\n'
MESSAGE = re.compile(r"message \d+ (?P<node>.*) (?P<identifier>[0-9a-f]{8}|[0-9a-f]{3}) sent (?P<sent>\d+) left (?P<left>\d+) waiting (?P<waiting>\d+) "
                     r"lost (?P<lost>\d+) broken (?P<broken>\d+) quanta least (?P<quanta_least>\S+) mean (?P<quanta_mean>\S+) greatest (?P<quanta_greatest>\S+) "
                     r"us least (?P<us_least>\S+) mean (?P<us_mean>\S+) greatest (?P<us_greatest>\S+)")
BOUND = re.compile(r"bound \d+ (?P<node>.*) (?P<identifier>[0-9a-f]{8}|[0-9a-f]{3}) at most (?P<quanta_at_most>\S+) quanta (?P<us>\S+) us, proved")
NODE = re.compile(r"node \d+ tec (?P<tec>\d+) rec (?P<rec>\d+) mode (?P<mode>\w+) errors (?P<errors>\d+) samples (?P<samples>\d+) hard (?P<hard>\d+) "
                  r"sync (?P<sync>\d+) least (?P<least>\S+) greatest (?P<greatest>\S+)")

# The cells of a table below this element, the heads first
CELLS = "[...document.querySelectorAll('{} tr')].map((row) => [...row.cells].map((cell) => cell.textContent))"
# The columns of the strip from its place on: of how many lines, in whole pixels' worth, a colour covers them, if the others are transparent
STRIP = """((shown) => {
  const style = document.documentElement.style, others = INKS.filter((name) => name !== shown);
  for (const name of others) style.setProperty("--" + name, "transparent");
  draw();
  const copy = new OffscreenCanvas(axis.width, OVERVIEW).getContext("2d", { willReadFrequently: true });
  copy.drawImage(axis, 0, 0);
  const { data, width } = copy.getImageData(LEFT - 1, 0, places() + 2, OVERVIEW), columns = new Array(width).fill(0);
  for (let at = 3; at < data.length; at += 4) columns[((at - 3) / 4) % width] += data[at] / 255;
  for (const name of others) style.removeProperty("--" + name);
  draw();
  return columns;
})"""


class Figures:
    """What was compared on a page, and what differs."""

    def __init__(self, browser): self.browser, self.count, self.wrong = browser, 0, []

    def same(self, found, wanted, what):
        self.count += 1
        if found != wanted: self.wrong.append(f"{what}: {found} in the page, {wanted} wanted")

    def near(self, found, wanted, what):
        self.count += 1
        if abs(found - wanted) > MOST_PIXELS: self.wrong.append(f"{what}: {found:.2f} pixels, {wanted:.2f} wanted")

    def shown(self, of): return self.browser.value(f"document.getElementById('{of}').textContent")

    def table(self, of): return self.browser.value(CELLS.format(of))


class Run:
    """What the program writes of a plan, and which part of it the page shows: its first tick, the tick after it, and the end of the run."""

    def __init__(self, program, plan, page):
        words = re.search(r'<pre id="part" hidden>(\d+) (\d+) (\d+)\n', page)
        self.low, self.high, self.end = map(int, words.groups()) if words else (0, None, None)
        self.is_part = words is not None
        window = ["--from", str(self.low), "--to", str(self.high)] if self.is_part else []
        self.trace = said(program, "trace", *window, plan)
        self.events = events_of(self.trace)
        self.errors = events_of(said(program, "trace", "--only", "error", plan))
        self.frames = frames_of(program, plan)
        self.traffic = said(program, "traffic", plan).splitlines()
        self.report = said(program, "run", "--brief", plan).splitlines()
        self.bit = bit_lengths(program, plan)[0]


def frames_of(program, plan):
    """The frames of the whole run that were sent, or received by the first node, as (tick, node, what); a long run has a million others."""
    with subprocess.Popen([program, "trace", "--only", "frame", plan], stdout=subprocess.PIPE, text=True) as ran:
        found = [FRAME.match(line) for line in ran.stdout if " sent " in line or line.split(" ", 2)[1] == "0"]
    if ran.returncode: sys.exit(f"trace of {plan}: status {ran.returncode}")
    return [(int(tick), int(node), what) for tick, node, what in (line.groups() for line in found)]


def counted(number, name): return f"{number} {name}" if number == 1 else f"{number} {name}s"


def head_figures(figures, run):
    """The verdict, what is counted, and the first error."""
    kinds = [what.split(" ")[0] for *_, what in run.events]
    syncs = len(re.findall(r"^\d+ \d+ .* q \d+ b \d+ sync ", run.trace, re.M))
    frames, errors = kinds.count("sent"), [event for event in run.events if event[4].startswith("error ")]
    figures.same(figures.shown("verdict"), run.report[-1], "verdict")
    wanted = [f"{frames} frame{'s' if frames != 1 else ''} sent", f"{kinds.count('received')} received", counted(len(errors), "error"), counted(syncs, "synchronisation")]
    found = figures.shown("counted")
    figures.same(found.startswith("in this part "), run.is_part, "a part is named")
    for one, other in zip(found.removeprefix("in this part ").split(", "), wanted, strict=True): figures.same(one, other, "count")
    first = f"first error: {time_said(errors[0][0], TICK)} us, {errors[0][2]}: {errors[0][4]}" if errors else ""
    figures.same(figures.shown("first"), first, "first error")
    figures.same(figures.browser.value("document.getElementById('first').hidden"), not errors, "no first error")


def key_figures(figures, run):
    """Where `e` leads, which is the first error of the whole run, or what it says if there is none; and what is shown around that error."""
    figures.browser.press("e")
    if not run.errors:
        figures.same(figures.shown("status"), "there are no errors", "e")
        return None
    tick = run.errors[0][0]
    figures.same(figures.browser.value("view.cursor"), tick, "the tick to which e leads")
    low, high = figures.browser.value("[view.from, view.to]")
    figures.same(low < tick < high or (run.is_part and tick in (run.low, run.high)), True, f"the error at {tick} in what is shown, {low:.0f} to {high:.0f}")
    reading = figures.shown("reading")
    for at, _, name, _, what in run.errors:
        if at == tick: figures.same(f"{name}: " in reading and what in reading, True, f"{name}: {what} in {reading}")
    ten = int(10 * run.bit)
    if run.is_part: figures.same((run.low, run.high), (max(0, tick - ten), min(run.end, tick + ten)), "ten bits around the first error")
    return tick


def table_figures(figures, run):
    """The first events, the nodes, and each line and cell of the traffic."""
    rows = [[time_said(tick, TICK), name, str(bit), what] for tick, _, name, bit, what in run.events[:ROWS]]
    found = figures.table("#events")[1:]
    figures.same(len(found), len(rows), "lines of events")
    for row, wanted in zip(found, rows): figures.same(row, wanted, "event")
    names = figures.browser.value("wave.nodes")
    cells_figures(figures, figures.table("#nodes"), [{"node": name, **NODE.fullmatch(line).groupdict()} for name, line in zip(names, run.report)])
    said_of = [line for line in run.traffic if not line.startswith(("message ", "bound "))]
    figures.same(figures.browser.value("[...document.querySelectorAll('#traffic-table p')].map((said) => said.textContent)"), said_of, "lines of the traffic")
    tables = figures.browser.value("document.querySelectorAll('#traffic-table table').length")
    kinds = [lines for lines in ([form.fullmatch(line) for line in run.traffic if form.fullmatch(line)] for form in (MESSAGE, BOUND)) if lines]
    figures.same(tables, len(kinds), "tables of the traffic")
    for number, lines in enumerate(kinds):
        table = figures.browser.value(CELLS.format("TABLE").replace("document.querySelectorAll('TABLE tr')", f"document.querySelectorAll('#traffic-table table')[{number}].rows"))
        cells_figures(figures, table, [line.groupdict() for line in lines])


def cells_figures(figures, table, wanted):
    """A table's cells by the names of its columns."""
    heads = [head.replace("us at most, proved", "us").replace(" ", "_") for head in table[0]]
    figures.same(heads, list(wanted[0]), "columns")
    figures.same(len(table) - 1, len(wanted), "rows")
    for row, cells in zip(table[1:], wanted):
        for head, cell in zip(heads, row): figures.same(cell, cells.get(head), f"{head} of {row[0]}")


def bits_of(what):
    """How many bits a frame has without stuff bits, with the intermission after it (Bosch CAN 2.0 part B, sections 3.1 and 3.2)."""
    _, identifier, kind, code, *_ = what.split(" ")
    return (67 if len(identifier) == 8 else 47) + (0 if kind == "remote" else 8 * min(int(code), 8))


def covered(heights, column, wide):
    """How many lines of a column of pixels are covered by bars of these heights, each so wide; those that share a pixel are drawn one over the other."""
    bars = [(min(column + 1, (at + 1) * wide) - max(column, at * wide), heights[at]) for at in range(int(column / wide), min(len(heights), int((column + 1) / wide) + 1))]
    clear = [math.prod(1 - max(0, share) * min(1, max(0, high - line)) for share, high in bars) for line in range(STRIP_LINES)]
    return STRIP_LINES - sum(clear)


def strip_figures(figures, run):
    """The strip of the whole run: of a part of a long run its load, thousandth by thousandth, else its frames; and where errors are."""
    wide, end = figures.browser.value("[places(), strip.end]")
    place = lambda tick: 1 + tick / end * wide
    field, marks = (figures.browser.value(f"{STRIP}('{ink}')") for ink in ("field", "error"))
    sent = [(tick, what) for tick, _, what in run.frames if what.startswith("sent ")]
    if run.is_part:
        begins = [part * end // PARTS for part in range(PARTS + 1)]
        bits, errors = [0] * PARTS, [0] * PARTS
        for tick, what in sent: bits[bisect_right(begins, tick) - 1] += bits_of(what)
        for tick, *_ in run.errors: errors[bisect_right(begins, tick) - 1] += 1
        heights = [min(1, number * run.bit * PARTS / end) * STRIP_LINES for number in bits]
        for column in range(1, int(wide)): figures.near(field[column], covered(heights, column - 1, wide / PARTS), f"load in column {column}")
        ticks = [(at + 0.5) * end / PARTS for at in range(PARTS) if errors[at]]
    else:
        for tick, node, what in run.frames:
            if node == 0: figures.same(field[int(place(tick - 3 * run.bit))] > 0, True, f"in the strip: {what} at {tick}")
        ticks = [tick for tick, *_ in run.errors]
    drawn = {column for column, covered in enumerate(marks) if covered > 0.5}
    wanted = {column for tick in ticks for column in range(round(place(tick)) - 2, round(place(tick)) + 3)}
    figures.same(sorted(drawn - wanted), [], "marks in the strip without an error")
    for tick in ticks: figures.same(bool({round(place(tick)) - 1, round(place(tick)), round(place(tick)) + 1} & drawn), True, f"an error in the strip at {tick:.0f}")


def figures_of(program, plan, browser, folder, openings=1):
    """Compares the page of a plan; says how many figures there are, what differs, the page's bytes, the median of its openings, and the first error's tick."""
    page = folder / (Path(plan).stem + ".html")
    said(program, "page", plan, "-o", page)
    run, figures = Run(program, plan, page.read_text()), Figures(browser)
    took = statistics.median(browser.open(f"file://{page}") for _ in range(openings)) / 1000
    tick = key_figures(figures, run)
    browser.press("Escape")
    browser.press("0")
    head_figures(figures, run)
    table_figures(figures, run)
    strip_figures(figures, run)
    figures.same(browser.said, [], "the console")
    size = page.stat().st_size
    print(f"{Path(plan).stem}: {size:,} bytes, shown after {took:.2f} s, {'no error' if tick is None else f'first error at {tick}'}, {figures.count} figures",
          *figures.wrong[:20], sep="\n  ", flush=True)
    return figures.count, len(figures.wrong), size, took, tick


def long_plans(seconds, folder):
    """Plans of a full bus of 16 nodes: clean, and with a spike of one bit at 60 % of the run."""
    text, at = long.plan(16, 16, seconds, "busy"), int(seconds * 6e8)
    for name, more in (("long_clean", ""), ("long_spike", SPIKE.format(at, at + long.BIT))):
        path = folder / f"{name}.toml"
        path.write_text(text + more)
        yield path


def main():
    words = sys.argv[1:]
    if not words: sys.exit(__doc__)
    if not is_here(): sys.exit("no chromium here")
    program, is_long = Path(words[0]).resolve(), words[1:2] == ["--long"]
    seconds = float((words + ["10"])[2]) if is_long else None
    openings = int(os.environ.get("OPENINGS", "9" if is_long else "1"))
    with tempfile.TemporaryDirectory() as room, Browser() as browser:
        folder = Path(room)
        plans = list(long_plans(seconds, folder)) if is_long else [Path(plan) for plan in words[1:]] or sorted((TOP / "examples").glob("*.toml"))
        found = [figures_of(program, plan, browser, folder, openings) for plan in plans]
    if is_long:
        for (count, _, size, took, tick), kind in zip(found, ("clean", "one spike at 60 %")):
            row = f"pages of long runs / {LONG}, {seconds:g} s, {kind}"
            first = [(f"{row} / first error", f"{tick / 1e6:.3f}" if tick else "none", "ms")]
            results.keep_if_asked([(f"{row} / size", size / 1e6, "MB"), (f"{row} / shown after", took, "s"), *first,
                                   (f"{row} / figures compared", str(count), "")])
    wrong = sum(one[1] for one in found)
    print(f"{len(found)} pages, {sum(one[0] for one in found)} figures, {wrong} differ, load {os.getloadavg()[0]:.1f}")
    sys.exit(1 if wrong else 0)


if __name__ == "__main__":
    main()
