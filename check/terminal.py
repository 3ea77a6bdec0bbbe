#!/usr/bin/env python3
"""Draws the tables that commands write in a terminal: each command in turn in xterm, whose screen is an X server's in memory (Xvfb).

usage: terminal.py PROGRAM FILE.png     PROGRAM is a built one; xterm and xvfb are Debian's packages

The commands are COMMANDS, through `./wireline`, as a person calls it: so they find out themselves that a terminal is there. The picture is the
window, pixel by pixel, in its own colours.
"""
import os
import shutil
import struct
import subprocess
import sys
import tempfile
import time
import zlib
from pathlib import Path

TOP = Path(__file__).resolve().parent.parent
COMMANDS = [
    "check examples/logger_500k.toml",
    "margin examples/fdcan_beside_sja1000.toml",
    "traffic examples/cyclic_500k.toml",
    "settings --format coloured --best 4 examples/settings/narrow_1m.toml",
    "sweep --runs 20 --vary ps1=4..7:1 examples/drifting_listener.toml",
]
COLUMNS, ROWS = 193, 80  # more rows than are written; the picture ends below the last one
BORDER = 8
FONT = ["-fa", "DejaVu Sans Mono", "-fs", "8"]
WINDOW = ["-geometry", f"{COLUMNS}x{ROWS}+0+0", "-b", str(BORDER), "-bw", "0", "+sb", "-bg", "#ffffff", "-fg", "#202020", "-xrm", "xterm*color9: #c00000", "-xrm", "xterm*color1: #c00000"]
SECONDS = 60


def session(folder):
    """Returns a shell's commands: each command below its prompt, and a file at the end. The cursor is hidden."""
    said = ["printf '\\033[?25l'"]
    for words in COMMANDS:
        said.append(f"printf '%s\\n' '$ ./wireline {words}'; ./wireline {words}")
    return "; ".join([*said, f"touch {folder}/done", "sleep 600"])


def wait_for(what, path):
    until = time.monotonic() + SECONDS
    while not path.exists():
        if time.monotonic() > until: sys.exit(f"terminal.py: no {what} after {SECONDS} seconds")
        time.sleep(0.1)


def screen_of(path):
    """Returns the rows of a screen that is kept as `xwd` has it: of each pixel red, green and blue."""
    raw = path.read_bytes()
    head = struct.unpack(">25I", raw[:100])
    size, width, height, order, bits, line, colors = head[0], head[4], head[5], head[7], head[11], head[12], head[19]
    if bits != 32: sys.exit(f"terminal.py: {bits} bits a pixel")
    at, (red, green, blue) = size + 12 * colors, ((1, 2, 3) if order else (2, 1, 0))
    rows = []
    for y in range(height):
        row = raw[at + y * line : at + y * line + 4 * width]
        rows.append(bytes(b for x in range(0, 4 * width, 4) for b in (row[x + red], row[x + green], row[x + blue])))
    return rows


def window_of(rows):
    """Returns the rows without the black root around the window, and without the window's empty end."""
    height = max(y for y, row in enumerate(rows) if any(row)) + 1
    width = max(len(row.rstrip(b"\0")) for row in rows[:height]) // 3
    rows = [row[: 3 * width] for row in rows[:height]]
    written = max(y for y, row in enumerate(rows) if row != rows[-1])
    return rows[: written + BORDER]


def chunk(kind, data):
    return struct.pack(">I", len(data)) + kind + data + struct.pack(">I", zlib.crc32(kind + data))


def png_of(rows):
    """Returns a PNG of rows of red, green and blue, in a palette if it has at most 256 colours."""
    width = len(rows[0]) // 3
    colours = sorted({row[x : x + 3] for row in rows for x in range(0, len(row), 3)})
    if len(colours) <= 256:
        place = {colour: n for n, colour in enumerate(colours)}
        lines = [bytes(place[row[x : x + 3]] for x in range(0, len(row), 3)) for row in rows]
        kind, palette = 3, chunk(b"PLTE", b"".join(colours))
    else:
        lines, kind, palette = rows, 2, b""
    head = chunk(b"IHDR", struct.pack(">IIBBBBB", width, len(rows), 8, kind, 0, 0, 0))
    data = chunk(b"IDAT", zlib.compress(b"".join(b"\0" + line for line in lines), 9))
    return b"\x89PNG\r\n\x1a\n" + head + palette + data + chunk(b"IEND", b"")


def main():
    if len(sys.argv) != 3: sys.exit(__doc__)
    for tool in ("xterm", "Xvfb"):
        shutil.which(tool) or sys.exit(f"terminal.py: no {tool}: apt-get install xterm xvfb")
    program, picture = Path(sys.argv[1]).resolve(), sys.argv[2]
    with tempfile.TemporaryDirectory() as room:
        folder = Path(room)
        server = subprocess.Popen(["Xvfb", "-displayfd", "1", "-screen", "0", "1600x1200x24", "-br", "-nocursor", "-nolisten", "tcp", "-fbdir", room], stdout=subprocess.PIPE, stderr=subprocess.DEVNULL)
        try:
            display = f":{server.stdout.readline().decode().strip()}"
            names = {**os.environ, "DISPLAY": display, "WIRELINE_PROGRAM": str(program), "LC_ALL": "C.UTF-8"}
            names.pop("NO_COLOR", None)
            terminal = subprocess.Popen(["xterm", *FONT, *WINDOW, "-e", "sh", "-c", session(room)], cwd=TOP, env=names, stderr=subprocess.DEVNULL)
            try:
                wait_for("end of the commands", folder / "done")
                time.sleep(1)
                Path(picture).write_bytes(png_of(window_of(screen_of(folder / "Xvfb_screen0"))))
            finally:
                terminal.terminate()
                terminal.wait()
        finally:
            server.terminate()
            server.wait()


main()
