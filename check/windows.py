"""Compares what the program writes of a window of a run with the lines of the whole text that the window has, and a brief report with the whole one.

usage: check/windows.py PROGRAM [--plans N] [--seed N]

Plans are random ones, of which most are refused for nothing and many have errors. Each is asked for a window at random, whose ends are often ticks of
the text itself: `trace` also for one node, by its number or its name, and one kind of events, `records`, `candump` at ticks of a microsecond, which its times have whole, `vcd`,
of one plan in five also the texts of `page`, and `run --brief`.
"""
import html
import random
import re
import sys

sys.dont_write_bytecode = True
import random_plans
from tally import Tally, asked, options_of

KINDS = {"lost": ("lost",), "error": ("error",), "flag": ("flag",), "frame": ("sent", "received"), "mode": ("mode",), "sync": ("sync",)}


def trace_tick(line): return int(line.split()[0])


def record_tick(line): return int(line.split()[-1])


def log_tick(line): return int(line[1:11]) * 1_000_000 + int(line[12:18])


def random_window(rng, ticks):
    """Returns a first tick and the first one after the window, either of which may be missing."""
    near = [tick + rng.choice([0, 0, 1, -1]) for tick in ticks] or [0]
    ends = sorted(max(0, rng.choice([rng.choice(near), rng.randint(0, max(near) + 1)])) for _ in range(2))
    if rng.random() < 0.1: ends.reverse()
    return tuple(None if rng.random() < 0.15 else end for end in ends)


def is_within(window, tick):
    first, after = window
    return (first is None or first <= tick) and (after is None or tick < after)


def words_of(first_word, window):
    words = []
    for word, tick in zip((first_word, "--to"), window):
        if tick is not None: words += [word, str(tick)]
    return words


def name_of(line):
    """The signal that a line of a dump is about."""
    return line.split()[1] if line[0] in "rs" else line[1:].rstrip()


def wave_part(whole, window):
    """The waveform of a window by that of the whole run: all values at its first tick, or the last of the run if it begins later, and the changes after it."""
    head, rest = whole.split("$dumpvars\n")
    first, later = rest.split("$end\n", 1)
    values, ticks, last = {name_of(line): line for line in first.splitlines(True)}, {}, 0
    for line in later.splitlines(True):
        if line[0] == "#": last = int(line[1:])
        else: ticks.setdefault(last, []).append(line)
    low = min(window[0] or 0, max(0, last - 1))
    high = max(low, last if window[1] is None else min(window[1], last))
    for tick, lines in ticks.items():
        if tick <= low: values.update((name_of(line), line) for line in lines)
    changes = [line for tick, lines in ticks.items() if low < tick < high for line in (f"#{tick}\n", *lines)]
    return "".join([head.rsplit("#", 1)[0], f"#{low}\n$dumpvars\n", *values.values(), "$end\n", *changes, f"#{high}\n"])


def texts_of(page):
    return {name: html.unescape(found) for name, found in re.findall(r'<pre id="(\w+)"[^>]*>(.*?)</pre>', page, re.S)}


def compare_page(tally, program, text, window):
    """Compares the texts of a window's page with what the commands write of the window."""
    words = words_of("--from", window)
    page = asked(program, "page", *words, text=text)[0]
    found, brief = texts_of(page), [] if not words else ["--brief"]
    if window[0] in (None, 0) and window[1] is None: brief = []
    wanted = {"trace": asked(program, "trace", *words, text=text)[0], "wave": asked(program, "vcd", *words, text=text)[0],
              "report": asked(program, "run", *brief, text=text)[0], "traffic": asked(program, "traffic", text=text)[0]}
    tally.compare("page", "page", text, {name: found[name] for name in wanted}, wanted)


def compare(tally, program, rng, text):
    """Compares each command on one plan."""
    whole, _, status = asked(program, "trace", text=text)
    if status != 0: return tally.count("plans", "refused")
    tally.count("plans", "taken")
    lines = whole.splitlines(True)
    window = random_window(rng, [trace_tick(line) for line in lines])
    node, only = rng.choice([None, None, rng.randint(0, 5)]), rng.choice([None, None, *KINDS])
    shown = [line for line in lines if is_within(window, trace_tick(line)) and (node is None or line.split()[1] == str(node))
             and (only is None or line.split()[7] in KINDS[only])]
    names = dict(line.split()[1:3] for line in lines)
    asked_of = [] if node is None else ["--node", names[str(node)] if str(node) in names and rng.random() < 0.5 else str(node)]
    words = words_of("--from", window) + asked_of + ([] if only is None else ["--only", only])
    tally.compare("window", "trace", text, asked(program, "trace", *words, text=text), ("".join(shown), "", 0))
    for word, first, tick_of, more in (("records", "--from", record_tick, []), ("candump", "--since", log_tick, ["--tick", "1us"])):
        lines = asked(program, word, *more, text=text)[0].splitlines(True)
        window = random_window(rng, [tick_of(line) for line in lines])
        shown = "".join(line for line in lines if is_within(window, tick_of(line)))
        tally.compare("window", word, text, asked(program, word, *more, *words_of(first, window), text=text), (shown, "", 0))
    whole = asked(program, "vcd", text=text)[0]
    window = random_window(rng, [int(line[1:]) for line in whole.splitlines() if line[0] == "#"])
    tally.compare("window", "vcd", text, asked(program, "vcd", *words_of("--from", window), text=text), (wave_part(whole, window), "", 0))
    if rng.random() < 0.2: compare_page(tally, program, text, window)
    shown = "".join(line for line in asked(program, "run", text=text)[0].splitlines(True) if not line.startswith("frame "))
    workers = rng.choice([[], [], [], ["--workers", "2"]])
    tally.compare("brief", "run", text, asked(program, "run", "--brief", *workers, text=text), (shown, "", 0))


def main():
    words = sys.argv[1:]
    if not words: sys.exit(sys.stderr.write(f"{__doc__}") and 2)
    options = options_of(f"{__doc__}", words[1:], {"plans": "100", "seed": "1"})
    rng, tally = random.Random(int(options["seed"])), Tally()
    for _ in range(int(options["plans"])):
        compare(tally, words[0], rng, random_plans.toml_text(random_plans.random_plan(rng), False).encode() + b"\n")
    print(tally.counts, f"differ {tally.differ}")
    for name, word, text, got, wanted in tally.kept[:5]: print(name, word, text.decode(), got, wanted, sep="\n")
    sys.exit(tally.differ > 0)


if __name__ == "__main__": main()
