#!/usr/bin/env python3
"""A picture of a waveform, as SVG on standard output: of each node its drive (tx) and what it finds on the line (rx) with its samples, and below
them the events of a trace.

usage: picture.py PROGRAM PLAN FROM TO [TITLE]     FROM and TO in ticks of the plan; PROGRAM writes waveform and trace
"""
import subprocess
import sys
from xml.sax.saxutils import escape

LEFT, WIDTH, HIGH, ROW, LABEL = 96, 880, 14, 26, 13


def said(program, command, plan):
    with open(plan, "rb") as source:
        return subprocess.run([program, command], stdin=source, capture_output=True, check=True).stdout.decode()


def read_wave(text):
    """The signals of a Value Change Dump in the order of their declarations: name, and the changes with their times."""
    names, changes, time = {}, {}, 0
    for line in text.splitlines():
        words = line.split()
        if words[:1] == ["$var"]: names[words[3]], changes[words[3]] = words[4], []
        elif line.startswith("#"): time = int(line[1:])
        elif line[:1] in ("0", "1") and line[1:] in names: changes[line[1:]].append((time, int(line[0])))
    return [(names[key], changes[key]) for key in names]


def level_at(changes, time):
    return [level for tick, level in changes if tick <= time][-1]


def steps(changes, start, end, place, top):
    """The path of a signal between two times."""
    def height(level): return top + (0 if level else HIGH)

    path = [f"M{LEFT} {height(level_at(changes, start))}"]
    path += [f"H{place(tick):.1f}V{height(level)}" for tick, level in changes if start < tick < end]
    return "".join(path) + f"H{LEFT + WIDTH}"


def picture(wave, events, start, end, title):
    def place(tick): return LEFT + WIDTH * (tick - start) / (end - start)

    body, top, rows = [], 34, {}
    for name, changes in wave:
        node, word = name.rsplit("_", 1)
        if word not in ("tx", "rx", "sample"): continue
        if word == "sample":
            for tick, _ in changes:
                if start < tick < end: body.append(f'<path class="s" d="M{place(tick):.1f} {top - ROW - 3}v{HIGH + 6}"/>')
            top += 6
            continue
        rows.setdefault(node, top)
        body.append(f'<text x="{LEFT - 8}" y="{top + HIGH - 2}" class="n">{escape(node)} {word}</text>')
        body.append(f'<path class="{word}" d="{steps(changes, start, end, place, top)}"/>')
        top += ROW
    bottom = top
    for number, (tick, node, what) in enumerate(events):
        top += LABEL
        side = 'text-anchor="end" dx="-4"' if place(tick) > LEFT + WIDTH * 0.6 else 'dx="4"'
        body.append(f'<path class="e" d="M{place(tick):.1f} {rows[node]}V{bottom + number * LABEL + 10}"/>')
        body.append(f'<text x="{place(tick):.1f}" y="{top}" {side}>{escape(node)}: {escape(what)}</text>')
    style = ("text{font:11px sans-serif;fill:#223}.n{text-anchor:end}path{fill:none;stroke-width:1.3}.tx{stroke:#b04a2f}.rx{stroke:#1f5f99}"
             ".s{stroke:#9aa;stroke-width:.8}.e{stroke:#3a8f4d;stroke-dasharray:2 2}")
    head = f'<svg xmlns="http://www.w3.org/2000/svg" width="{LEFT + WIDTH + 16}" height="{top + 14}"><style>{style}</style>'
    caption = f'<rect width="100%" height="100%" fill="#fff"/><text x="8" y="16">{escape(title)}</text>'
    return head + caption + "".join(body) + "</svg>"


def main():
    program, plan, start, end = sys.argv[1], sys.argv[2], int(sys.argv[3]), int(sys.argv[4])
    title = sys.argv[5] if len(sys.argv) > 5 else plan
    events = []
    for line in said(program, "trace", plan).splitlines():
        words = line.split(" ", 7)
        if start < int(words[0]) < end and not words[7].startswith("sync"): events.append((int(words[0]), words[2], words[7]))
    print(picture(read_wave(said(program, "vcd", plan)), events, start, end, f"{title}: ticks {start:,} to {end:,}"))


if __name__ == "__main__":
    main()
