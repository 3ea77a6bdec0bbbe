#!/usr/bin/env python3
"""Compares the texts in a page with what the other commands write of its plan.

usage: page.py PROGRAM PLAN      one line for each text that differs; status 1 if there is one

The page of a long run shows a part of it, and says which: then trace and waveform are those of this window, and the report has no lines of frames. It has the
run in a thousand parts, too, with as many frames and errors in all as the trace.
"""
import html
import re
import subprocess
import sys

COMMANDS = {"figures": "explain", "settings": "check", "margin": "margin", "traffic": "traffic", "report": "run", "trace": "trace", "wave": "vcd"}


def main():
    program, plan = sys.argv[1:]

    def wrote(command, *words):
        return subprocess.run([program, command, *words, plan], capture_output=True, check=True).stdout

    # `html.unescape` reads the reference to a carriage return as a browser does
    page = wrote("page").decode()
    words = words_of(text_of(page, "part").decode())
    wanted = {name: wrote(command, *words.get(command, ())) for name, command in COMMANDS.items()}
    wanted["plan"] = open(plan, "rb").read()
    differ = [name for name, text in wanted.items() if text_of(page, name) != text]
    if words:
        counts = [tuple(map(int, line.split(" "))) for line in text_of(page, "part").decode().splitlines()[1:]]
        found = [sum(frames for frames, _, _ in counts), sum(errors for *_, errors in counts)]
        asked = [wrote("trace", "--only", "frame").count(b" sent "), wrote("trace", "--only", "error").count(b"\n")]
        if len(counts) != 1000 or found != asked: differ.append("part")
    for name in differ:
        print(f"the page's {name} differs")
    sys.exit(1 if differ else 0)


def words_of(part):
    """The words of the commands that write what a page shows of this part of a run, or, if it has no letter, of all of it."""
    if not part: return {}
    low, high, _ = part.split("\n")[0].split(" ")
    window = ("--from", low, "--to", high)
    return {"run": ("--brief",), "trace": window, "vcd": window}


def text_of(page, name):
    found = re.search(rf'<pre id="{name}"[^>]*>(.*?)</pre>', page, re.S)
    return html.unescape(found[1]).encode() if found else None


if __name__ == "__main__":
    main()
