#!/usr/bin/env python3
"""Runs the commands that a page shows, and compares what they write with what the page has below them, byte for byte.

usage: shown.py PAGE PROGRAM      status 1 if an output differs, or if the page shows no command

Commands run in a temporary folder, one after the other, by bash. It has `wireline`, which runs PROGRAM, `examples` and `.ci`.
- A block of toml whose first line is a comment that begins with a file's name is written to that file.
- In a block without a language a line `$ COMMAND` is a command; the lines below it, up to the next one, are standard output and standard error.
- A line `..` there stands for any number of lines.
- A block without a language that doesn't begin with a command is an output that differs, since nothing would compare it.
- A block with a language is not run.
- If LIGHT is set, as .ci/test.py sets it for a build without proof, what takes that build more than ten seconds is not run.
"""
import difflib
import os
import re
import signal
import subprocess
import sys
import tempfile
from pathlib import Path

TOP = Path(__file__).resolve().parent.parent
SECONDS = 300
LONG = re.compile(r"settings --best|sweep pump\.toml$|--runs 8000")  # commands that take a build without proof more than ten seconds


def blocks(text):
    """Yields the language and the lines of each fenced block."""
    for found in re.finditer(r"^```(\w*)\n(.*?)^```$", text, re.M | re.S):
        yield found[1], found[2].splitlines()


def shown(lines):
    """Yields each command of a block, with the lines below it."""
    command, output = None, []
    for line in lines:
        if line.startswith("$ "):
            if command: yield command, output
            command, output = line[2:], []
        elif command:
            output.append(line)
    if command: yield command, output


def is_same(wanted, written):
    """True if the lines are equal, where a wanted line `..` is any number of lines."""
    pattern = "".join("(?:.*\n)*" if line == ".." else re.escape(line + "\n") for line in wanted)
    return re.fullmatch(pattern, written) is not None


def run(command, folder, program):
    known = os.environ | {"WIRELINE_PROGRAM": program, "LC_ALL": "C.UTF-8"}
    with subprocess.Popen(["bash", "-c", command], cwd=folder, env=known, stdin=subprocess.DEVNULL, stdout=subprocess.PIPE,
                          stderr=subprocess.STDOUT, start_new_session=True) as ran:
        try:
            return ran.communicate(timeout=SECONDS)[0].decode()
        except subprocess.TimeoutExpired:
            os.killpg(ran.pid, signal.SIGKILL)
            return f"not ended after {SECONDS} seconds\n"


def main():
    if len(sys.argv) != 3: sys.exit(sys.stderr.write(__doc__) and 2)
    page, program = Path(sys.argv[1]), str(Path(sys.argv[2]).resolve())
    count = differ = left = 0
    with tempfile.TemporaryDirectory() as folder:
        for name in "wireline", "examples", ".ci":
            Path(folder, name).symlink_to(TOP / name)
        for language, lines in blocks(page.read_text(encoding="utf-8")):
            named = re.match(r"# ([\w.-]+\.toml)\b", lines[0]) if language == "toml" and lines else None
            if named:
                Path(folder, named[1]).write_text("\n".join(lines) + "\n", encoding="utf-8")
            if not language and not (lines and lines[0].startswith("$ ")):
                differ += 1
                print(f"{page}: a block without a language and without a command: {lines[0] if lines else 'empty'}")
            for command, wanted in [] if language else shown(lines):
                if os.environ.get("LIGHT") and LONG.search(command):
                    left += 1
                    continue
                count += 1
                written = run(command, folder, program)
                if not is_same(wanted, written):
                    differ += 1
                    print(f"{page}: $ {command}")
                    print("\n".join(difflib.unified_diff(wanted, written.splitlines(), "the page", "the program", lineterm="")))
    print(f"{page}: {count} commands, {differ} outputs differ" + f", {left} left out" * bool(left))
    sys.exit(0 if count and not differ else 1)


if __name__ == "__main__":
    main()
