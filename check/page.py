#!/usr/bin/env python3
"""Opens pages of runs and of sweeps in a browser (chromium, headless), and looks at what they show and do.

usage: page.py PROGRAM [PLAN..]               the pages of these plans and of IDLE; without one those of all examples, another one with ticks of 125 ps, and the pages of some sweeps
       page.py PROGRAM --sweeps               the pages of sweeps alone
       page.py PROGRAM --part PLAN [WORD..]   the page of a window of a run, by these words, or of a run that is too long for one page
       page.py PROGRAM --busy [SECONDS]       how long the page of 16 nodes with 60,000 quanta each takes to open; it may be 2 seconds
       page.py PROGRAM --lint                 the scripts of the pages by a linter: node's reader, and the rules of RULES
       page.py PROGRAM --plans                each plan of the repository, as the script of a page reads it (by node) and as Python's tomllib does
       page.py PROGRAM --commands             each command that a map shows, by a shell: it has to write what its cell says (without a browser, by node)
       page.py PROGRAM --picture PLAN FROM-TO FILE.png [KEY..]     the window at these ticks, after these keys

Each page has to draw itself whole, with no word in the browser's console. The page of a run has to draw each frame of the report, with the
report's nodes and verdict, and a row or a paragraph for each line of margin and traffic, with its figures. Its events, the errors to which a key
leads, what it says of the cursor and of the distance to the mark, and its fields have to be those of the trace; its bits and stuff bits those of
the waveform (`vcd`); its disturbances and places those of the plan. Keys, wheel, drag and clicks have to zoom, scroll and set the cursor. A part
of the run that the address names has to be what is shown. Column by column of pixels, far and near, edges have to be drawn if the waveform
has some there, a line at the level's height if it has none, and a disturbance while it has one. Of IDLE, a plan with long gaps between its
frames, as much has to be drawn without edges as the bus is at rest. At 1,024 and 2,560 pixels nothing may be wider than the window, text may have
no fewer than 11 pixels, and each colour of text 4.5 times the contrast of what it is on (WCAG 2.2, 1.4.3; 3 of other marks, 1.4.11). All that
can have the focus needs a name and a frame that shows it. The page of a sweep has to have a cell for each row of the sweep, coloured by what the
sweep says of that row alone, and to show the words of the first member that isn't clean.
"""
import html
import json
import re
import shlex
import subprocess
import sys
import tempfile
import tomllib
from bisect import bisect_left, bisect_right
from fractions import Fraction
from pathlib import Path

from browser import SHIFT, Browser, is_here

TOP = Path(__file__).resolve().parent.parent
POWERS = {"fs": -15, "ps": -12, "ns": -9, "us": -6, "ms": -3, "s": 0, "um": -6, "mm": -3, "cm": -2, "m": 0, "km": 3}
SWEEPS = [
    ("drifting_listener", ["--runs", "40", "--vary", "ps1=2..6:1", "--vary", "tolerance=0..6000:1500"]),
    ("cable_too_long", ["--runs", "10", "--keep-offsets", "--vary", "x=100..900:200", "--vary", "out=0..200:50", "--vary", "in=10..20:10"]),
    ("clean_500k", ["--runs", "4", "--vary", "prop=0..7:1"]),
    ("drifting_listener", ["--runs", "60", "--vary", "tolerance=4000..16000:1000"]),
]


def said(program, *words, status=(0,)):
    ran = subprocess.run([program, *map(str, words)], capture_output=True)
    if ran.returncode not in status: sys.exit(f"{' '.join(map(str, words))}: status {ran.returncode}: {ran.stderr.decode()}")
    return ran.stdout.decode()


# windows of runs: around an error, and within a frame
PARTS = [("burst.toml", ["--from", "95000", "--to", "135000"]), ("clean_500k.toml", ["--from", "150001", "--to", "220001"])]
NOTES = ("no frame has edges", "each sender has one frame more")  # on the plan, and of no cell


class Checked:
    """What is wrong with a page, one after the other."""

    def __init__(self, browser): self.browser, self.wrong = browser, []

    def want(self, holds, fault):
        if not holds: self.wrong.append(fault)

    def same(self, of, wanted, what):
        found = self.browser.value(of)
        self.want(found == wanted, f"{what}: {found} in the page, {wanted} wanted")

    def shown(self):
        """The ticks from and to which the run is shown."""
        return tuple(self.browser.value("[view.from, view.to].map(Math.round)"))

    def said(self, of):
        return self.browser.value(f"document.getElementById('{of}').textContent")


def moves(check, browser, end):
    """Keys, wheel and drag change the part that is shown, and the picture with it."""
    picture = "(draw(), plot.toDataURL())"
    browser.value("plot.focus({ preventScroll: true }), scrollBy(0, plot.getBoundingClientRect().y - 250)")  # below the axis, which stays in sight
    whole = browser.value(picture)
    x, y = browser.value("(({x, y}) => [x + 500, y + 60])(plot.getBoundingClientRect())")
    browser.press("+", 4)
    low, high = check.shown()
    check.want(abs((high - low) - max(20, end / 16)) < 4, f"four presses of + show {low} to {high} of {end}")
    check.want(browser.value(picture) != whole, "zooming changes nothing in the picture")
    browser.press("ArrowRight")
    check.want(check.shown()[0] > low, "the right arrow doesn't scroll")
    browser.press("Home")
    check.want(check.shown()[0] == 0, "Home doesn't show the start")
    browser.press("End")
    check.want(check.shown()[1] == end, "End doesn't show the end")
    browser.press("Home")
    browser.drag(x, y, -300)
    check.want(check.shown()[0] > 0, "a drag doesn't scroll")
    check.want(check.said("reading") == "", "a drag sets the cursor")
    width = high - low
    browser.wheel(x, y, -120, 2)
    low, high = check.shown()
    check.want(high - low < width, "the wheel doesn't zoom")
    browser.wheel(x, y, 120, 40)
    check.want(check.shown() == (0, end), "the wheel doesn't lead back to the whole run")
    browser.press("n")
    check.want(check.said("reading").startswith("cursor at "), "n leads to no event")
    browser.press("Escape")
    check.want(check.said("reading") == "", "Escape leaves the cursor")
    browser.press("0")
    check.want(check.shown() == (0, end) and check.said("status").startswith("0"), "0 doesn't show the whole run")
    browser.press("?")
    check.want(browser.value("document.querySelectorAll('dialog[open] tbody tr').length") > 20, "? doesn't show the keys")
    browser.press("Escape")
    browser.value("new Promise(requestAnimationFrame)")
    check.want(browser.value("!document.querySelector('dialog[open]') && document.activeElement === plot"), "the keys don't close, or the focus is lost")


# ---- Against the trace, the waveform and the plan

def events_of(trace):
    """The events of a trace without synchronisations, as (tick, node, name, bit, what)."""
    found = re.findall(r"^(\d+) (\d+) (.*) q \d+ b (\d+) (.*)$", trace, re.M)
    return [(int(tick), int(node), name, int(bit), what) for tick, node, name, bit, what in found if not what.startswith("sync ")]


def time_said(ticks, picoseconds):
    """A time in microseconds, as the page writes it."""
    decimals = next(count for count in (0, 3, 6) if picoseconds % 10 ** (6 - count) == 0)
    return f"{ticks * picoseconds / 10**6:,.{decimals}f}"


def bit_lengths(program, plan):
    """A bit of each node in ticks: its quanta by `check`, and a quantum by `explain`."""
    quanta = [int(count) for count in re.findall(r"^node \d+ \S+ quanta (\d+)", said(program, "check", plan), re.M)]
    lengths = [float(length) for length in re.findall(r"^node .* quantum ([\d.]+) ns", said(program, "explain", plan), re.M)]
    return [count * length for count, length in zip(quanta, lengths)]


def cursor_faults(check, browser, events, bits, picoseconds):
    """The keys to errors and events, what is said of the cursor, and the distance from the mark, by the trace's ticks."""
    browser.value("plot.focus()")
    errors = sorted({tick for tick, *_, what in events if what.startswith("error ")})
    browser.press("Escape")
    for tick in errors[:40]:
        browser.press("e")
        check.same("view.cursor", tick, "the error to which e leads")
        low, high = check.shown()
        check.want(low < tick < high and high - low <= max(21, 33 * bits[0]), f"{low} to {high} is shown around the error at {tick}")
        wanted = f"cursor at {time_said(tick, picoseconds)} us, "
        what = [f"{name}: " for at, _, name, _, said in events if at == tick and said.startswith("error ")]
        check.want(check.said("reading").startswith(wanted) and all(one in check.said("reading") for one in what), f"of the error at {tick} is said {check.said('reading')}")
    if len(errors) <= 40:
        browser.press("e")
        check.want(("no later error" if errors else "there are no errors") in check.said("status"), f"after the last error e says {check.said('status')}")
    for tick in errors[:40][-2::-1]:
        browser.press("E")
        check.same("view.cursor", tick, "the error to which E leads")
    browser.press("Escape")
    ticks = sorted({tick for tick, *_ in events})
    for before, after in list(zip(ticks, ticks[1:]))[:20]:
        if browser.value("view.cursor") is None: browser.press("n")
        check.same("view.cursor", before, "the event to which n leads")
        browser.press("m")
        browser.press("n")
        found, apart = check.said("reading"), after - before
        wanted = f"difference {time_said(apart, picoseconds)} us, {apart:,} ticks, "
        count = re.search(r", ([\d,.]+) bits of", found)
        check.want(wanted in found and count and abs(float(count[1].replace(",", "")) - apart / bits[0]) < 0.006, f"from {before} to {after}: {found}, and wanted {wanted}")
    browser.press("z")
    low, high = check.shown()
    check.want(len(ticks) < 2 or high - low <= 20 or low <= browser.value("view.mark") < browser.value("view.cursor") <= high, "z doesn't show from the mark to the cursor")
    browser.press("t")
    check.want(check.said("status").startswith("ticks ") and (len(ticks) < 2 or "cursor at tick " in check.said("reading")), f"t says {check.said('status')}")
    check.want(check.said("events").startswith("ticks"), "t leaves the table of events in microseconds")
    browser.press("t")
    browser.press("Escape")
    browser.press("0")
    click_faults(check, browser, events)


def click_faults(check, browser, events):
    """A click near an event sets the cursor there, with shift the mark; the keys for bits and edges lead from there."""
    for modifiers, which in ((0, "cursor"), (SHIFT, "mark")):
        tick, node = next(((tick, node) for tick, node, *_ in events), (None, None))
        if tick is None: return
        browser.value(f"jump({tick}), draw(), view.cursor = null, scrollBy(0, plot.getBoundingClientRect().top + ROW * {node} - innerHeight / 2)")
        x, y = browser.value(f"(({{x, y}}) => [x + place({tick}) + 0.3, y + ROW * {node} + 50])(plot.getBoundingClientRect())")
        browser.click(x, y, modifiers)
        check.want(abs(browser.value(f"view.{which} ?? -1") - tick) < 1, f"a click beside {tick} sets the {which} at {browser.value(f'view.{which}')}")
        check.same("view.node", node, "the node that a click picks")
    for key, times in (("]", "nodes[view.node].starts"), (".", "nodes[view.node].finds.times")):
        browser.value(f"view.cursor = {tick}")
        browser.press(key)
        check.same("view.cursor", browser.value(f"{times}.find((time) => time > {tick}) ?? {tick}"), f"where {key} leads")
    browser.press("Escape")
    browser.value("view.node = 0")
    browser.press("0")


def event_faults(check, browser, events, picoseconds):
    """The table of events, line by line, and its choice of errors and flags."""
    lines = "[...document.querySelectorAll('#events tbody tr')].map((row) => [...row.cells].map((cell) => cell.textContent))"
    for choice in (events, [event for event in events if event[4].startswith(("error ", "flag "))]):
        while browser.value("!document.getElementById('more').hidden"): browser.value("document.getElementById('more').click()")
        wanted = [[time_said(tick, picoseconds), name, str(bit), what] for tick, _, name, bit, what in choice]
        check.want(browser.value(lines) == wanted, "the table of events isn't the trace")
        browser.value("document.getElementById('only').click()")


def figure_faults(check, browser, program, plan, words):
    """The figures of the tables of traffic and margin: each number of their lines, in their order."""
    for name, begin in (("traffic", ("message ", "bound ")), ("margin", "pair ")):
        rows = browser.value(f"[...document.querySelectorAll('#{name}-table tbody tr')].map((row) => [...row.cells].map((cell) => cell.textContent).join(' '))")
        lines = [line for line in said(program, name, *words, plan).splitlines() if line.startswith(begin)]
        number = re.compile(r"(?<![\w.-])-?\d[\d.]*(?![\w.-]*\w)")
        for row, line in zip(rows, lines):
            found = number.findall(re.sub(r"^(message|bound) \d+ \S+ \w+", "", line) if name == "traffic" else line)
            check.want([word for word in number.findall(row) if word in found][-len(found):] == found, f"{name}: the row {row} isn't {line}")
        if name == "margin": check.want(len(rows) == len(lines) or not rows, f"{name}: {len(rows)} rows of {len(lines)}")


def bit_faults(check, browser, changes, events, number):
    """The bits of a node: each level is what the node finds at its sample; a stuff bit comes after five equal bits of a frame, and only there; and
    the fields before a frame was sent or received have the words of the trace."""
    read = browser.value(f"(({{ samples, levels, stuff, fields }}) => ({{ samples, levels: [...levels], stuff: [...stuff], "
                         f"fields: fields.map((field) => [field.from, field.to, field.name, wordsOf(field).join(' ')]) }}))(nodes[{number}].read)")
    ticks, levels = changes[f"r{number}"]
    found = [levels[bisect_right(ticks, sample) - 1] for sample in read["samples"]]
    check.want(found == read["levels"], f"node {number}: the bits aren't the levels at the samples")
    for at, isStuff in enumerate(read["stuff"]):
        if isStuff: check.want(at > 4 and len(set(found[at - 5:at])) == 1, f"node {number}, bit {at}: a stuff bit without five equal bits before it")
    ends = [to for _, to, *_ in read["fields"]]
    for tick, node, _, bit, what in events:
        if node != number or not what.startswith(("sent ", "received ")): continue
        _, identifier, kind, code, *data = what.split(" ")
        last = max(at for at in range(bisect_right(ends, tick) + 1) if at < len(ends) and read["fields"][at][2] == "sof")
        frame = [(name, said) for _, to, name, said in read["fields"][last:bisect_right(ends, tick) + 2] if name not in ("idle", "intermission")]
        said_id = dict(frame)["ext id" if len(identifier) == 8 else "id"].split(" ")
        check.want(identifier in said_id, f"node {number}: {what} at {tick}, and the identifier says {said_id}")
        check.want(f"dlc {int(code):x}" in dict(frame)["dlc"], f"node {number}: {what} at {tick}, and {dict(frame)['dlc']}")
        bytes_said = "".join(said.split(": ")[1][:2] for name, said in frame if name.startswith("data"))
        check.want(bytes_said == "".join(data).strip("-"), f"node {number}: {what} at {tick}, and the data says {bytes_said}")
        stuffed = stuff_places([level for level, sample in zip(found, read["samples"]) if frame_from(read["fields"], last) <= sample <= tick])
        first = bisect_left(read["samples"], frame_from(read["fields"], last))
        check.want([first + at for at in stuffed] == [at for at in range(first, bit + 1) if read["stuff"][at]], f"node {number}: the stuff bits of {what} at {tick}")


def frame_from(fields, at): return fields[at][0]


def stuff_places(levels):
    """The places of the stuff bits of a frame, whose levels are given from its start on (Bosch CAN 2.0 part B, section 5): up to the CRC sequence."""
    places, bits, run, at = [], [], 0, 0
    while at < len(levels) and len(bits) < frame_length(bits):
        run = run + 1 if at and levels[at] == levels[at - 1] else 1
        bits.append(levels[at])
        at += 1
        if run == 5 and at < len(levels):
            places.append(at)
            run = 1
            at += 1
    return places


def frame_length(bits):
    """The bits of a frame without stuff bits up to the CRC sequence, as far as these bits tell."""
    control = 32 if len(bits) > 13 and bits[13] else 12
    if len(bits) < control + 7: return 1000
    code = int("".join(map(str, bits[control + 3:control + 7] if control == 12 else bits[control + 3:control + 7])), 2)
    return control + 7 + (0 if bits[control] else 8 * min(code, 8)) + 15


def whole_of(value, of):
    """A value of a plan as a number, of a text with a unit how often it has another one."""
    if not isinstance(value, str): return value
    parts = [re.match(r"([\d.]+) ?([a-z]+)$", said) for said in (value, of)]
    number, each = (Fraction(found[1]) * Fraction(10) ** POWERS[found[2]] for found in parts)
    return int(number / each)


def plan_faults(check, browser, plan):
    """Places along the cable and the table of disturbances, by the plan."""
    told = tomllib.loads(Path(plan).read_text())
    for one in (*told["node"], *told.get("disturbance", [])):
        if "x" in one: one["x"] = whole_of(one["x"], told.get("unit", "1m"))
        for key in {"from", "to"} & one.keys(): one[key] = whole_of(one[key], told.get("tick", "1ns"))
    spots = browser.value("[...document.querySelectorAll('#cable circle')].map((one) => Number(one.getAttribute('cx')))")
    places = sorted(node["x"] for node in told["node"])
    check.want(len(spots) == len(places), f"{len(spots)} nodes on the cable")
    if places[-1] > places[0]:
        scale = (spots[-1] - spots[0]) / (places[-1] - places[0])
        check.want(all(abs(spots[0] + scale * (place - places[0]) - spot) < 0.1 for place, spot in zip(places, spots)), f"nodes at {places} are drawn at {spots}")
    labels = browser.value("[...document.querySelectorAll('#cable text')].map((one) => one.textContent)")
    check.want(all(f"{node['name']} {node['x']:,}" in labels for node in told["node"]), f"the labels of the cable are {labels}")
    rows = browser.value("[...document.querySelectorAll('#disturbances tbody tr')].map((row) => [...row.cells].map((cell) => cell.textContent))")
    struck = told.get("disturbance", [])
    wanted = [[str(at + 1), f"node {one['node']}" if "node" in one else f"place {one['x']:,}", *(time_said(ticks, 1000) for ticks in (one["from"], one["to"], one["to"] - one["from"]))]
              for at, one in enumerate(struck)]
    check.want([row[:5] for row in rows] == wanted, f"the disturbances are {rows}")


# ---- Layout, colours, focus

LUMINANCE = """
const luminance = (colour) => {
  const [red, green, blue] = colour.match(/[\\d.]+/g).slice(0, 3).map((part) => part / 255).map((part) => (part <= 0.04045 ? part / 12.92 : ((part + 0.055) / 1.055) ** 2.4));
  return 0.2126 * red + 0.7152 * green + 0.0722 * blue;
};
const contrast = (one, other) => { const [low, high] = [one, other].map(luminance).sort((a, b) => a - b); return (high + 0.05) / (low + 0.05); };
"""
TEXTS = "(() => {" + LUMINANCE + """
  const found = [], ground = (one) => { for (; one; one = one.parentElement) { const { backgroundColor } = getComputedStyle(one); if (!backgroundColor.startsWith("rgba(0, 0, 0, 0")) return backgroundColor; } };
  for (const one of document.querySelectorAll("body *:not(script):not(svg *)")) {
    if (![...one.childNodes].some((child) => child.nodeType === 3 && child.textContent.trim()) || !one.checkVisibility()) continue;
    const style = getComputedStyle(one), clear = contrast(style.color, ground(one));
    if (clear < 4.5 || parseFloat(style.fontSize) < 11) found.push(`${one.tagName} ${one.id} ${one.textContent.slice(0, 20)}: ${clear.toFixed(2)}, ${style.fontSize}`);
  }
  readInks();
  for (const [name, least] of Object.entries({ text: 4.5, error: 4.5, good: 4.5, sync: 4.5, disturb: 4.5, edge: 3, drive: 3, found: 3, sample: 3, cursor: 3, mark: 3 })) {
    const clear = contrast(ink[name], ink.back);
    if (clear < least) found.push(`${name}: ${clear.toFixed(2)}`);
  }
  for (const name of ["field", "stuff"]) if (contrast(ink.text, ink[name]) < 4.5) found.push(`text on ${name}`);
  return found;
})()"""
WIDE = """[...document.querySelectorAll("body *:not(svg *)")].filter((one) => one.checkVisibility() && !one.closest(".scroll, pre, dialog"))
  .filter((one) => one.getBoundingClientRect().right > innerWidth + 0.5).map((one) => `${one.tagName} ${one.id}`).slice(0, 5)"""


FOCUS = """(({ activeElement: one }) => (one === document.body ? null
  : [[...document.querySelectorAll("*")].indexOf(one), getComputedStyle(one).outlineStyle, one.tagName + (one.id || one.textContent).slice(0, 20)]))(document)"""


def look_faults(check, browser):
    """The page at 1,024 and 2,560 pixels, light and dark by the system and by the button; names and frames of all that can have the focus."""
    for wide in (1024, 2560):
        browser.size(wide, 900)
        for scheme in ("light", "dark"):
            browser.media(scheme)
            for presses in (0, 1):
                browser.press("d", presses)
                faults = browser.value(TEXTS)
                check.want(not faults, f"at {wide} pixels, {scheme}, {presses} presses of d: {faults[:4]}")
            browser.press("d")
        wider = browser.value(WIDE)
        check.want(not wider, f"at {wide} pixels these are wider than the window: {wider}")
        check.want(browser.value("plot.getBoundingClientRect().width") > 0.9 * wide, f"the waveform doesn't use {wide} pixels")
    browser.media("light")
    browser.size(1400, 900)
    unnamed = [role for role, name in browser.names() if not name and role != "RootWebArea"]
    check.want(not unnamed, f"these have no name: {unnamed}")
    browser.value("scrollTo(0, 0), document.activeElement.blur()")
    seen = set()
    for _ in range(200):
        browser.press("Tab")
        focus = browser.value(FOCUS)
        if focus is None: continue
        if focus[0] in seen: break
        seen.add(focus[0])
        check.want(focus[1] != "none", f"the focus can't be seen at {focus[2]}")
    check.want(len(seen) > 15, f"Tab leads to {len(seen)} places alone")
    browser.value("scrollTo(0, 0), plot.focus()")


PICOSECONDS, TICKED = 125, ("--tick", "125ps")
IDLE_BIT = 4_000  # ticks
IDLE = """version = 3
end = 200_000_000
per = 5
sync = "book"
[[node]]
name = "engine"
offset = 0
ppm = 0
x = 0
{node}frame = [{{ id = 0x0C0, dlc = 8, bytes = [1, 2, 3, 4, 5, 6, 7, 8], ready = 400, every = 20000 }}, {{ id = 0x3C0, dlc = 0, ready = 9000, every = 33000 }}]
[[node]]
name = "brake"
offset = 100
ppm = 100
x = 20
{node}frame = [{{ id = 0x180, dlc = 8, bytes = [0, 0, 0, 0, 255, 255, 255, 255], ready = 3000, every = 26000 }}]
""".format(node="quantum = 500\nprop = 3\nps1 = 2\nps2 = 2\nsjw = 1\nout = 120\nin = 130\n")

# The colour of each level, its signal in the dump, and lines of pixels of a node's row: of recessive, between both levels, of dominant
LEVELS = [("drive", "t", (48, 53, 58)), ("found", "r", (66, 72, 78))]
STRUCK, LABEL = 62, range(67, 78)  # the lines of pixels of the bars over disturbances, and of their label
SYNCS, CROWDED = 81, 10  # the line of pixels of marks at synchronisations; so many columns on end are no longer two marks and an event's line
CLEAR, SOLID = 8, 140  # a column is free of a colour up to CLEAR of 255; an edge, a line 1.5 pixels wide, covers its column by 0.75 or more
NEAR = 0.8  # as far from an edge, in pixels, its line may reach


def changes_of(dump):
    """The changes of each signal of the dump, by its name there (`t0`), as their ticks and their levels; and the end."""
    changes, now = {}, 0
    for line in dump.splitlines():
        if line.startswith("#"): now = int(line[1:])
        elif line[:1] in ("0", "1"):
            ticks, levels = changes.setdefault(line[1:], ([], []))
            ticks.append(now)
            levels.append(int(line[0]))
    return changes, now


def opaque(browser, ink, node, lines, x="LEFT", wide="places()"):
    """How opaque each pixel of some lines of a node's row is, 0 to 255, if all colours but one are made transparent."""
    return browser.value(f"""(() => {{
      const style = document.documentElement.style, others = INKS.filter((name) => name !== "{ink}");
      for (const name of others) style.setProperty("--" + name, "transparent");
      draw([{node}, {node} + 1]);
      const copy = new OffscreenCanvas(plot.width, ROW).getContext("2d", {{ willReadFrequently: true }});
      copy.drawImage(plot, 0, -ROW * {node});
      const found = {list(lines)}.map((line) => copy.getImageData({x}, line, {wide}, 1).data);
      for (const name of others) style.removeProperty("--" + name);
      draw([{node}, {node} + 1]);
      return found.map((line) => Array.from(line).filter((_, at) => at % 4 === 3));
    }})()""")


def level_fault(rows, ticks, levels, low, high):
    """What is drawn wrong of a level: the first column of pixels, and why."""
    recessive, between, dominant = rows
    scale = len(between) / (high - low)
    for column, covered in enumerate(between):
        begins, ends = low + column / scale, low + (column + 1) / scale
        edges = bisect_left(ticks, ends) - bisect_left(ticks, begins) if column and column + 1 < len(between) else 0
        near = bisect_right(ticks, ends + NEAR / scale) - bisect_left(ticks, begins - NEAR / scale)
        if edges and covered < SOLID: return f"column {column}, ticks {begins:.0f} to {ends:.0f}: {edges} edges, and none is drawn"
        if near: continue
        if covered > CLEAR: return f"column {column}, ticks {begins:.0f} to {ends:.0f}: no edge, and one is drawn"
        level = levels[bisect_right(ticks, begins) - 1]
        if (recessive[column] > CLEAR, dominant[column] > CLEAR) != (level == 1, level == 0):
            return f"column {column}, ticks {begins:.0f} to {ends:.0f}: the line isn't at level {level}"
    return None


def struck_columns(ticks, levels, end, low, high, wide, slack):
    """The columns of pixels that disturbances reach by more than `slack` pixels."""
    scale, found = wide / (high - low), set()
    for tick, level, until in zip(ticks, levels, [*ticks[1:], end]):
        if level: found |= {column for column in range(wide) if (tick - low) * scale < column + 1 - slack and (until - low) * scale > column + slack}
    return found


def words_at(browser, node, column):
    """What the page says of the pointer over a column of pixels of a node's row."""
    browser.value(f"scrollBy(0, plot.getBoundingClientRect().top + ROW * {node} - innerHeight / 2)")
    x, y = browser.value(f"(({{x, y}}) => [x + LEFT + {column} + 0.5, y + ROW * {node} + 50])(plot.getBoundingClientRect())")
    browser.mouse("mouseMoved", x, y)
    return browser.value("under.textContent")


def drawn_faults(check, browser, page, changes, end, low, high):
    """What of a part of the run isn't drawn as the dump has it: levels and disturbances, column by column of pixels."""
    browser.open(f"file://{page}#{low}-{high}")
    low, high, nodes = browser.value("[view.from, view.to, nodes.length]")
    what = f"ticks {low:.0f} to {high:.0f}, node"
    for node in range(nodes):
        for ink, letter, lines in LEVELS:
            fault = level_fault(opaque(browser, ink, node, lines), *changes[f"{letter}{node}"], low, high)
            check.want(not fault, f"{what} {node}, {ink}: {fault}")
        bars, = opaque(browser, "disturb", node, [STRUCK])
        drawn, struck = {column for column, covered in enumerate(bars) if covered}, changes[f"n{node}"]
        least, most = (struck_columns(*struck, end, low, high, len(bars), slack) for slack in (1e-6, -1e-6))
        check.want(least <= drawn <= most, f"{what} {node}: disturbances in {len(least)} columns, drawn in {len(drawn)}: {sorted(least ^ drawn)[:6]} ..")
        marks, = opaque(browser, "sync", node, [SYNCS])
        check.want("1" * CROWDED not in "".join("1" if covered else "0" for covered in marks), f"{what} {node}: marks of synchronisations run into one another")
        label = any(covered for line in opaque(browser, "disturb", node, LABEL, "0", "LEFT") for covered in line)
        check.want(label == (1 in struck[1]), f"{what} {node}: {'a' if label else 'no'} label of disturbances")
        if least: check.want("disturbance" in words_at(browser, node, min(least)), f"{what} {node}: the pointer over a disturbance shows no word of it")
    check.want(not browser.said, f"{what}: the console says {browser.said}")


def parts_of(changes, end):
    """The whole run, a tenth and a hundredth of it: around disturbances, or where edges are."""
    ticks = changes["n0"][0][1:] or changes["r0"][0][1:] or [end // 2]
    middle = ticks[len(ticks) // 2]
    return [(0, end)] + [(max(0, middle - end // by), middle + end // by) for by in (20, 200)]


def idle_faults(check, browser, page, changes, end):
    """The share of columns without an edge has to be the share of time at rest, but for a pixel at each end of a frame; far and near."""
    for low, high in [(0, end), (100_000_000, 124_000_000), (100_000_000, 102_400_000), (100_180_000, 100_420_000)]:
        drawn_faults(check, browser, page, changes, end, low, high)
        for node in range(2):
            between, = opaque(browser, "found", node, [LEVELS[1][2][1]])
            ticks = [low] + [tick for tick in changes[f"r{node}"][0] if low < tick < high] + [high]
            # stuff bits leave no more than five equal bits within a frame, up to its delimiters
            rests = [after - before for before, after in zip(ticks, ticks[1:]) if after - before > 6 * IDLE_BIT]
            quiet, wanted = sum(covered < SOLID for covered in between), sum(rests) * len(between) / (high - low)
            if (high - low) / len(between) < IDLE_BIT: continue  # here bits are wider than a column, and have columns without an edge, too
            check.want(abs(quiet - wanted) <= 2 * len(rests), f"ticks {low} to {high}, node {node}: {quiet} of {len(between)} columns without an edge, and the bus rests for {wanted:.0f}")


def text_faults(check, browser, program, plan, words):
    """What the page says beside its picture, by the report, `margin` and `traffic`."""
    report = said(program, "run", plan)
    check.same("document.documentElement.dataset.ready", "yes", "drawn whole")
    check.same("document.getElementById('verdict').textContent", report.strip().splitlines()[-1], "verdict")
    check.same("document.querySelectorAll('#nodes tbody tr').length", len(re.findall(r"^node ", report, re.M)), "nodes")
    for name in ("margin", "traffic"):
        lines = said(program, name, *words, plan).splitlines()
        check.same(f"document.querySelectorAll('#{name}-table p, #{name}-table tbody tr').length", len(lines), f"lines of {name}")
    figure_faults(check, browser, program, plan, words)
    frames = report.count("\nframe ")
    for scheme in ("dark", "light"):
        browser.media(scheme)
        check.same("(draw([0, nodes.length]), document.documentElement.dataset.frames)", str(frames), f"frames in {scheme} colours")
    return frames


def faults_of(program, plan, browser, folder):
    """The page of a plan: of its whole run, or, if that is long, of a part."""
    is_part = re.search(r'<pre id="part" hidden>\d', said(program, "page", plan))
    return (part_faults if is_part else run_faults)(program, plan, browser, folder)


def run_faults(program, plan, browser, folder, words=()):
    page = folder / (Path(plan).stem + ".html")
    said(program, "page", *words, plan, "-o", page)
    took, check = browser.open(f"file://{page}"), Checked(browser)
    frames, events = text_faults(check, browser, program, plan, words), events_of(said(program, "trace", plan))
    changes, end = changes_of(said(program, "vcd", plan))
    check.want(check.shown() == (0, end), f"the whole run isn't shown, but {check.shown()} of {end}")
    moves(check, browser, end)
    tick = PICOSECONDS if words else 1000
    cursor_faults(check, browser, events, bit_lengths(program, plan), tick)
    event_faults(check, browser, events, tick)
    for number in range(browser.value("nodes.length")): bit_faults(check, browser, changes, events, number)
    if not words: plan_faults(check, browser, plan)
    look_faults(check, browser)
    check.want(not browser.said, f"the console says {browser.said}")
    browser.open(f"file://{page}#1000-3000")
    check.want(check.shown() == (1000, min(3000, end)) and not browser.said, f"the named part is not what is shown, but {check.shown()}")
    for low, high in parts_of(changes, end): drawn_faults(check, browser, page, changes, end, low, high)
    if Path(plan).stem == "idle": idle_faults(check, browser, page, changes, end)
    print(f"{Path(plan).stem}{' '.join(['', *words])}: {page.stat().st_size:,} bytes, {frames} frames, shown after {took / 1000:.2f} s", *check.wrong, sep="\n  ")
    return len(check.wrong)


def part_faults(program, plan, browser, folder, words=()):
    """The page of a part of a run: of a window, or, without its words, of what the page of a long run shows by itself."""
    page = folder / (Path(plan).stem + "_part.html")
    said(program, "page", *words, plan, "-o", page)
    took, check = browser.open(f"file://{page}"), Checked(browser)
    low, high, end = (int(number) for number in re.search(r'<pre id="part" hidden>(\d+) (\d+) (\d+)', page.read_text()).groups())
    window = ["--from", str(low), "--to", str(high)]
    events = events_of(said(program, "trace", *window, plan))
    changes, last = changes_of(said(program, "vcd", *window, plan))
    check.same("document.documentElement.dataset.ready", "yes", "drawn whole")
    check.want(check.shown() == (low, high) and last == high, f"ticks {low} to {high} aren't shown, but {check.shown()}")
    shown = check.said("shown")
    for wanted in (time_said(low, 1000), time_said(high, 1000), time_said(end, 1000), f"--from {high} --to {min(end, 2 * high - low)}"):
        check.want(wanted in shown, f"it doesn't say {wanted}, but {shown}")
    count = {kind: sum(what.split(" ")[0] == kind for *_, what in events) for kind in ("sent", "received", "error")}
    for wanted in (f"in this part {count['sent']} frame", f"{count['received']} received", f"{count['error']} error"):
        check.want(wanted in check.said("counted"), f"it doesn't count {wanted}, but {check.said('counted')}")
    report = said(program, "run", "--brief", plan)
    check.same("document.getElementById('report').textContent.trim()", report.strip(), "report")
    errors = [tick for tick, *_, what in events if what.startswith("error ")]
    browser.value("plot.focus()")
    browser.press("e")
    if errors: check.want(time_said(errors[0], 1000) in check.said("reading"), f"e doesn't lead to the first error, at {errors[0]}, but says {check.said('reading')}")
    browser.press("Escape")
    browser.press("0")
    figure_faults(check, browser, program, plan, ())
    for number, (letter, name) in [(number, one) for number in range(browser.value("nodes.length")) for one in (("t", "drives"), ("r", "finds"))]:
        ticks, levels = changes[letter + str(number)]
        check.same(f"[nodes[{number}].{name}.times, nodes[{number}].{name}.values]", [list(ticks), list(levels)], f"node {number} {name}")
    check.want(not browser.said, f"the console says {browser.said}")
    check.want(page.stat().st_size <= 5_000_000 and took < 2000, f"{page.stat().st_size:,} bytes, shown after {took / 1000:.2f} s")
    print(f"part {low} to {high} of {Path(plan).stem}: {page.stat().st_size:,} bytes, {len(events)} events, shown after {took / 1000:.2f} s", *check.wrong, sep="\n  ")
    return len(check.wrong)


def word_of(told):
    """How a row of a sweep is coloured, by what the sweep says."""
    return "failing" if "\nfirst that isn't: " in told else "refused" if "\nfirst refused: " in told else "clean"


def rows_of(told):
    """The rows of a sweep that varies something, each as the values of its keys."""
    return [re.findall(r"(\S+) (-?\d+) ", found) for found in re.findall(r"^((?:\S+ -?\d+ )+)clean in ", told, re.M)]


def first_values(words):
    """The words of a sweep, in which each range after the second has its first value alone."""
    found, kept = 0, list(words)
    for at, word in enumerate(words):
        if words[at - 1] == "--vary":
            found += 1
            key, values = word.split("=")
            first = values.split("..")[0]
            if found > 2: kept[at] = f"{key}={first}..{first}"
    return kept


def marks_of(told):
    """What each cell of a map shows, by the rows of the sweep: of a row of which some member that was run isn't clean how many in a hundred are."""
    marks = []
    for clean, run, more in re.findall(r"^(?:\S+ -?\d+ )+clean in (\d+) of (\d+)(.*)$", told, re.M):
        refused = sum(int(number) for number in re.findall(r"refused in (\d+)", more))
        share = 100 * int(clean) // max(1, int(run))
        marks.append("\u00b7" if int(clean) == int(run) else "\u2013" if int(clean) + refused == int(run) else str(share) if share else "\u00d7")
    return marks


def sweep_faults(program, name, words, browser, folder):
    plan, page = TOP / "examples" / (name + ".toml"), folder / f"{name}_sweep.html"
    told = said(program, "sweep", plan, *first_values(words), status=(0, 1))
    said(program, "sweep", plan, *words, "--page", "-o", page, status=(0, 1))
    took, check, rows = browser.open(f"file://{page}"), Checked(browser), rows_of(told)
    check.same("document.documentElement.dataset.ready", "yes", "drawn whole")
    check.same("document.querySelectorAll('#map td').length", len(rows), "cells")
    cells = browser.value("[...document.querySelectorAll('#map td')].map((cell) => [cell.textContent, getComputedStyle(cell).backgroundColor])")
    check.want([mark for mark, _ in cells] == marks_of(told), f"cells show {[mark for mark, _ in cells]}, and wanted {marks_of(told)}")
    check.want(len({mark for mark, _ in cells}) == len({colour for _, colour in cells}) == len(set(map(tuple, cells))), f"shades: {sorted(set(map(tuple, cells)))}")
    options = [word for at, word in enumerate(words) if "--vary" not in words[max(0, at - 1):at + 1]]
    for number in sorted({0, 1, len(rows) // 2, len(rows) - 1}):
        alone = [word for key, value in rows[number] for word in ("--vary", f"{key}={value}..{value}")]
        found = said(program, "sweep", plan, *options, *alone, status=(0, 1))
        check.same(f"document.querySelectorAll('#map td')[{number}].dataset.found", word_of("\n" + found), f"cell {number}")
        x, y = browser.value(f"((cell) => {{ cell.scrollIntoView(); const {{x, y, width, height}} = cell.getBoundingClientRect(); return [x + width / 2, y + height / 2]; }})"
                             f"(document.querySelectorAll('#map td')[{number}])")
        browser.click(x, y)
        shown = browser.value("document.getElementById('told').textContent")
        for line in found.splitlines():
            check.want(line in shown or line.startswith(NOTES), f"cell {number} doesn't show: {line}")
        check.want(word_of("\n" + found) != "failing" or "errors" not in found or "first error: " in shown, f"cell {number} shows no error")
    browser.value("document.querySelector('#map td').focus()")
    before = browser.value("document.activeElement.dataset.cell")
    browser.press("End")
    check.want(browser.value("document.activeElement.dataset.cell") != before or len(rows) == 1, "End moves nothing")
    check.want(not browser.said, f"the console says {browser.said}")
    print(f"sweep of {name}: {page.stat().st_size:,} bytes, {len(rows)} cells, shown after {took / 1000:.2f} s", *check.wrong, sep="\n  ")
    return len(check.wrong)


def busy(program, most, browser, folder):
    plan, page = folder / "busy.toml", folder / "busy.html"
    plan.write_text(subprocess.run([sys.executable, TOP / "bench" / "plan.py"], capture_output=True, check=True).stdout.decode())
    said(program, "page", plan, "-o", page)
    times, worked = [], []
    for _ in range(5):
        times.append(browser.open(f"file://{page}") / 1000)
        worked.append(browser.worked())
    frames = browser.value("document.documentElement.dataset.frames")
    print(f"16 nodes of 60,000 quanta: {page.stat().st_size:,} bytes, {frames} frames, shown after {min(times):.2f} to {max(times):.2f} s,",
          f"of which the page's thread worked {min(worked):.2f} to {max(worked):.2f} s, five times")
    return 0 if min(times) < most and frames != "0" and not browser.said else 1


RULES = [
    (r"(?<!\$)\bvar\b(?!\()", "var"), (r"[^=!<>]==[^=]|!=[^=]", "a comparison that converts"), (r"\beval\b|new Function", "code made of text"),
    (r"innerHTML|outerHTML|insertAdjacentHTML|document\.write", "HTML made of text"), (r"https?://(?!www\.w3\.org/)|\bfetch\b|XMLHttpRequest|\bimport\b", "a network"),
    (r"\S\s$", "a blank at the end"), (r"^.{181}", "a line of more than 180 columns"),
]
MOST_LINES = 1300


def lint_faults(name, script, folder):
    """What is wrong with a script: its syntax by node's reader in strict mode, the rules line by line, and names that are made and never used."""
    (folder / name).write_text(script)
    read = subprocess.run(["node", "--check", folder / name], capture_output=True)
    wrong = read.stderr.decode().splitlines()[:5] if read.returncode else []
    lines = script.splitlines()
    if lines[0] != '"use strict";': wrong.append("it isn't strict")
    if len(lines) > MOST_LINES: wrong.append(f"{len(lines)} lines")
    for number, line in enumerate(lines, 1):
        said = re.sub(r" ?// .*$", "", line)
        wrong += [f"line {number}: {what}" for rule, what in RULES if re.search(rule, said)]
    made = set(re.findall(r"\b(?:const|let|function|class) (\w+)", script)) | set(re.findall(r"[\[{,]\s*(\w+)(?=[^=;()\n]*[\]}] = )", script))
    wrong += [f"{word} is never used" for word in sorted(made) if len(re.findall(rf"\b{word}\b", script)) < 2]
    return wrong


def lint(program, folder):
    pages = [("run.js", ["page", TOP / "examples" / "burst.toml"]), ("map.js", ["sweep", TOP / "examples" / "burst.toml", "--runs", "1", "--page"])]
    faults = 0
    for name, words in pages:
        page = said(program, *words, status=(0, 1))
        script = page[page.index("<script>\n") + 9:page.rindex("</script>")]
        wrong = lint_faults(name, script, folder)
        print(f"{name}: {len(script.splitlines())} lines", *wrong, sep="\n  ")
        faults += len(wrong)
    return 1 if faults else 0


READ = """const { readFileSync } = require("fs");
SCRIPT
const read = (name) => new TomlReader(readFileSync(name, "utf8")).document();
console.log(JSON.stringify(JSON.parse(readFileSync(0, "utf8")).map(read)));
"""


def plan_reader(program):
    """Reads the plans of the repository by the reader of a page's script, and by Python's."""
    page = said(program, "page", TOP / "examples" / "burst.toml")
    script = page[page.index("// A text of TOML 1.1 as values"):page.index("// The plan's tables")]
    names = [str(name) for name in sorted(TOP.rglob("*.toml")) if "out" not in name.parts]
    ran = subprocess.run(["node", "-e", READ.replace("SCRIPT", script)], input=json.dumps(names), capture_output=True, text=True, check=True)
    differ = [name for name, found in zip(names, json.loads(ran.stdout)) if found != tomllib.loads(Path(name).read_text())]
    print(f"{len(names)} plans, {len(differ)} read otherwise", *differ, sep="\n  ")
    return 1 if differ else 0


DASH = """version = 1
end = 400_000
per = 5
[[node]]
name = "-e"
x = 0
{node}frame = [{{ id = 0x0F1, dlc = 0, ready = 480 }}]
[[node]]
name = "b"
x = 5
{node}""".format(node="offset = 0\nquantum = 125\nppm = 0\nprop = 6\nps1 = 7\nps2 = 2\nsjw = 1\nout = 40\nin = 40\n")

# The part of a map's script that reads its texts, over the texts themselves.
SHOWN = """const texts = JSON.parse(require("fs").readFileSync(0, "utf8"));
const document = { getElementById: (id) => ({ textContent: texts[id] }) };
SCRIPT
console.log(JSON.stringify(cells.map(({ said }, number) => [commandOf(number), said])));
"""


def commands(program, folder):
    """Runs each command that a map shows: of a plan in which a node's name begins with a dash, and of the sweeps of SWEEPS."""
    (folder / "dash.toml").write_text(DASH)
    dash = ["--runs", "2", "--keep-offsets", "--vary=-e.x=0..5:5", "--vary", "b.x=5..10:5", "--vary=-e.out=40..41:1"]
    faults = count = 0
    for plan, words in [(folder / "dash.toml", dash)] + [(TOP / "examples" / (name + ".toml"), words) for name, words in SWEEPS]:
        page = said(program, "sweep", plan, *words, "--page", status=(0, 1))
        texts = {name: html.unescape(re.search(rf'<pre id="{name}"[^>]*>(.*?)</pre>', page, re.S)[1]) for name in ("axes", "cells")}
        script = page[page.index("// ---- Reading"):page.index("// ---- The table")]
        reader = SHOWN.replace("SCRIPT", "const text = (id) => document.getElementById(id).textContent;\n" + script)
        ran = subprocess.run(["node", "-e", reader], input=json.dumps(texts), capture_output=True, text=True, check=True)
        for command, cell in json.loads(ran.stdout):
            command = command.replace("./wireline sweep PLAN", f"{shlex.quote(str(program))} sweep {shlex.quote(str(plan))}", 1)
            found = subprocess.run(["bash", "-c", command], capture_output=True, text=True)
            wanted = [line for line in cell.splitlines() if not line.startswith("first error: ")]
            wrong = found.returncode > 1 or [line for line in found.stdout.splitlines() if not line.startswith(NOTES)] != wanted
            if wrong: print(f"{command}: status {found.returncode}, {found.stderr.strip() or found.stdout}\nand its cell says\n{cell}")
            faults, count = faults + wrong, count + 1
    print(f"{count} commands of maps, {faults} faults")
    return 1 if faults else 0


def main():
    words = sys.argv[1:]
    if not words: sys.exit(__doc__)
    program, words = Path(words[0]).resolve(), words[1:]
    with tempfile.TemporaryDirectory() as room:
        folder = Path(room)
        if words[:1] == ["--lint"]: sys.exit(lint(program, folder))
        if words[:1] == ["--plans"]: sys.exit(plan_reader(program))
        if words[:1] == ["--commands"]: sys.exit(commands(program, folder))
        if not is_here(): sys.exit("no chromium here")
        with Browser() as browser:
            if words[:1] == ["--part"]: sys.exit(part_faults(program, words[1], browser, folder, words[2:]) > 0)
            if words[:1] == ["--busy"]: sys.exit(busy(program, float((words + ["2", "2"])[1]), browser, folder))
            if words[:1] == ["--picture"]:
                page = folder / "page.html"
                said(program, "page", words[1], "-o", page)
                browser.open(f"file://{page}#{words[2]}")
                for key in words[4:]: browser.press(key)
                browser.value("new Promise((done) => requestAnimationFrame(() => setTimeout(done)))")
                browser.picture(Path(words[3]))
                return
            (folder / "idle.toml").write_text(IDLE)
            plans = [] if words == ["--sweeps"] else [*(words or sorted((TOP / "examples").glob("*.toml"))), folder / "idle.toml"]
            sweeps = SWEEPS if words in ([], ["--sweeps"]) else []
            parts = PARTS if not words else []
            wrong = sum(faults_of(program, plan, browser, folder) for plan in plans)
            if not words: wrong += run_faults(program, TOP / "examples" / "burst.toml", browser, folder, TICKED)
            wrong += sum(part_faults(program, TOP / "examples" / name, browser, folder, window) for name, window in parts)
            wrong += sum(sweep_faults(program, name, asked, browser, folder) for name, asked in sweeps)
    print(f"{len(plans) + len(parts) + len(sweeps)} pages, {wrong} faults")
    sys.exit(1 if wrong else 0)


if __name__ == "__main__":
    main()
