#!/usr/bin/env python3
"""Asks built programs the rows of check/rows/, and compares status, standard output and standard error, byte for byte.

usage: rows.py PROGRAM[,PROGRAM..] [FILE|FOLDER..]   each program in turn; all of check/rows/ if nothing is named
       rows.py independent [FILE|FOLDER..]           plain.py, margin.py, settings.py, sweeps.py and traffic.py in its place

A folder has the rows of one subject, in files NAME.rows, and the texts that they are about. The lines of such a file:
- `% REMARK`; `% long` before a row: a build without proof, which takes long, isn't asked it (LIGHT=1, as .ci/test.py sets it)
- `@ PATH`: the text of the rows below, by its path from the top of the repository.
- `$ WORDS`: a row, the words of a command line. The text is its standard input. After ` | ` are the words of a second one, whose standard
  input is what the first one wrote.
- `$ WORDS : CHANGES`: the text is changed first. ` ;; ` parts several changes: `OLD => LETTERS` puts LETTERS in the place of the first line
  OLD, `- OLD` takes that line away, `+ LETTERS` goes after the last line.
- `$ WORDS < LETTERS`: the text is what LETTERS spell, in parts with ` ;; ` between them.
- `$ WORDS :! CHANGES` and `$ WORDS <! LETTERS`: after the text the reader fails, in place of its end.
- `$* WORDS ..`: the row is asked as often as it has bytes to write and once more, each time with room for a byte more. Without room for all it has to
  write just as many as there is room for, and to end with `fault: Write`.
LETTERS spell bytes: `\\n`, `\\r`, `\\t`, `\\\\` and `\\x41` are a newline, a carriage return, a tab, a backslash and the byte 0x41. `41 * LETTERS` are 41
times these, in which `\\i` is the number of the time, from 0 on.

What a row has to write is below it: standard output, then each line of standard error after `! `, then `= STATUS` unless it is 0.
"""
import os
import pty
import re
import resource
import signal
import subprocess
import sys
import tempfile
import tty
from pathlib import Path
from typing import NamedTuple

TOP = Path(__file__).resolve().parent.parent
SECONDS = 300
ROW = re.compile(r"\$(\*?) (.*?)(?: ([:<])(!?)(?: (.*))?)?", re.S)
ESCAPE = re.compile(r"\\(n|r|t|\\|i|x[0-9A-Fa-f]{2})|\\")
OWN = {"margin": "margin.py", "settings": "settings.py", "sweep": "sweeps.py", "traffic": "traffic.py"}  # commands that plain.py hasn't
PLAIN = {"n": b"\n", "r": b"\r", "t": b"\t", "\\": b"\\"}


class Answer(NamedTuple):
    out: bytes
    err: bytes
    status: int


class Row(NamedTuple):
    place: str  # the file, and the row's line
    commands: list  # the words of each
    text: bytes
    fails: bool  # whether the reader fails after the text
    in_rooms: bool  # whether it is asked with room for 0 bytes, for 1, and so on
    wanted: Answer
    is_long: bool


class Wrong(Exception):
    """What is wrong with a row itself."""


# ---- Texts

def spelled(letters):
    """Returns the bytes of letters, with their escapes."""
    times = re.match(r"(\d+) \* ", letters)
    count, letters = (int(times[1]), letters[times.end():]) if times else (1, letters)

    def escaped(found, number):
        if not found[1]: raise Wrong(f"no escape: {letters}")
        if found[1] == "i": return b"%d" % number
        return PLAIN.get(found[1]) or bytes.fromhex(found[1][1:])

    made = bytearray()
    for number in range(count):
        at = 0
        for found in ESCAPE.finditer(letters):
            made += letters[at:found.start()].encode() + escaped(found, number)
            at = found.end()
        made += letters[at:].encode()
    return bytes(made)


def changed(text, change):
    """Returns a text after one change."""
    if change.startswith("+ "): return text + spelled(change[2:]) + b"\n"
    old, arrow, letters = (change[2:], True, None) if change.startswith("- ") else change.partition(" => ")
    lines = text.splitlines(keepends=True)
    places = [n for n, line in enumerate(lines) if line.rstrip(b"\n") == old.encode()]
    if not arrow or not places: raise Wrong(f"no such line: {change}")
    lines[places[0]] = b"" if letters is None else spelled(letters) + b"\n"
    return b"".join(lines)


def text_of(path, sign, letters):
    if sign == "<": return b"".join(spelled(part) for part in (letters or "").split(" ;; "))
    if path is None: raise Wrong("no text is named above it")
    text = (TOP / path).read_bytes()
    for change in letters.split(" ;; ") if letters else []: text = changed(text, change)
    return text


# ---- Files of rows

def wanted_of(lines):
    status = int(lines.pop()[2:]) if lines and re.fullmatch(r"= \d+", lines[-1]) else 0
    out = [line for line in lines if line != "!" and not line.startswith("! ")]
    if lines[:len(out)] != out: raise Wrong("standard output comes before standard error")
    said = [line[2:] for line in lines[len(out):]]
    return Answer(*("".join(line + "\n" for line in part).encode() for part in (out, said)), status)


def rows_of(file):
    """Yields the rows of a file."""
    path, row, is_long = None, None, False
    name = file.relative_to(TOP) if file.is_relative_to(TOP) else file

    def made():
        head, number, about, is_long, lines = row
        star, words, sign, fails, letters = ROW.fullmatch(head).groups()
        place, commands = f"{name}:{number}: {head}", [command.split() for command in words.split(" | ")]
        try: return Row(place, commands, text_of(about, sign, letters), bool(fails), bool(star), wanted_of(lines), is_long)
        except (Wrong, OSError) as why: raise Wrong(f"{place}: {why}") from None

    for number, line in enumerate(file.read_text(encoding="utf-8").split("\n")[:-1], 1):
        if line[:2] in ("% ", "@ ", "$ ", "$*") or line == "%":
            if row: yield made()
            row = (line, number, path, is_long, []) if line[0] == "$" else None
            is_long = line == "% long"
            if line[0] == "@": path = line[2:]
        elif row: row[-1].append(line)
        else: raise Wrong(f"{name}:{number}: an answer to nothing")
    if row: yield made()


def files_of(names):
    for name in names or [TOP / "check" / "rows"]:
        given = Path(name).resolve()
        yield from sorted(given.rglob("*.rows")) if given.is_dir() else [given]


# ---- Who is asked

def by_program(program, words, text):
    try: done = subprocess.run([program, *words], input=text, capture_output=True, timeout=SECONDS, check=False)
    except subprocess.TimeoutExpired: return Answer(b"", f"not ended after {SECONDS} seconds\n".encode(), -1)
    return Answer(done.stdout, done.stderr, done.returncode)


def by_failing(program, words, text):
    """Asks with a reader that fails after the text: one side of a terminal whose other side has written it and is closed."""
    reader, writer = pty.openpty()
    tty.setraw(writer)
    if text: os.write(writer, text)
    os.close(writer)
    done = subprocess.run([program, *words], stdin=reader, capture_output=True, timeout=SECONDS, check=False)
    os.close(reader)
    return Answer(done.stdout, done.stderr, done.returncode)


def in_room(program, words, text, room):
    """Asks with room for so many bytes of standard output."""
    def limit():
        signal.signal(signal.SIGXFSZ, signal.SIG_IGN)
        resource.setrlimit(resource.RLIMIT_FSIZE, (room, room))

    with tempfile.TemporaryFile() as out:
        done = subprocess.run([program, *words], input=text, stdout=out, stderr=subprocess.PIPE, preexec_fn=limit, timeout=SECONDS, check=False)
        out.seek(0)
        return Answer(out.read(), done.stderr, done.returncode)


def by_another(words, text):
    """Returns what the independent programs answer, or None if they have no such command."""
    word, options = words[0], words[1:]
    if word == "run" and options[:1] == ["--workers"]: options = options[2:]
    if "--strict" in options and word in OWN: return None
    if word == "settings" and any(it in options for it in ("--kind", "--clock", "--bitrate", "--cable", "--format", "--apply")): return None
    if re.search(rb"^(tick|clock) = ", text, re.M) and word != "settings": return None  # they read no units
    if word in OWN: script = [OWN[word]]
    elif options or word == "judge": return None
    else: script = ["plain.py", word]
    return by_program(sys.executable, ["-B", TOP / "check" / script[0], *script[1:], *options], text)


def asked(row, program):
    """Returns the answer of a row's last command, or None. What clap answers to wrong words no independent program has, nor devices that fail."""
    if program is None and (row.fails or row.wanted.err.startswith(b"error: ")): return None
    if row.is_long and os.environ.get("LIGHT"): return None
    text, answer = row.text, None
    for words in row.commands:
        if program is None: answer = by_another(words, text)
        elif row.fails and answer is None: answer = by_failing(program, words, text)
        else: answer = by_program(program, words, text)
        if answer is None: return None
        text = answer.out
    return answer


def first_misfit(row, program):
    """Returns the first answer with little room that isn't a front of the output and its fault, and what it should be; or None."""
    for room in range(len(row.wanted.out)):
        answer, wanted = in_room(program, row.commands[0], row.text, room), Answer(row.wanted.out[:room], b"fault: Write\n", 3)
        if answer != wanted: return answer, wanted
    return None


def shown(part):
    text = part.decode("utf-8", "replace")
    return text if len(text) < 600 else text[:600] + "..\n"


def compared(files, program):
    """Asks all rows. Returns how many agreed, differed, and were not asked."""
    counts = [0, 0, 0]
    for file in files:
        for row in rows_of(file):
            answer, wanted = asked(row, program), row.wanted
            if answer == wanted and row.in_rooms and program: answer, wanted = first_misfit(row, program) or (answer, wanted)
            counts[2 if answer is None else 0 if answer == wanted else 1] += 1
            if answer in (None, wanted): continue
            print(f"differs: {row.place}")
            for name, has, wants in zip(("standard output", "standard error"), answer, wanted):
                if has != wants: print(f"  {name}:\n{shown(has)}  wanted:\n{shown(wants)}")
            if answer.status != wanted.status: print(f"  status {answer.status}, wanted {wanted.status}")
    return counts


def main():
    if len(sys.argv) < 2: sys.exit(sys.stderr.write(__doc__) and 2)
    whom, files, failed = sys.argv[1], list(files_of(sys.argv[2:])), False
    for program in whom.split(","):
        try: agreed, differ, left = compared(files, None if program == "independent" else str(Path(program).resolve()))
        except Wrong as why: sys.exit(f"{why}")
        print(f"{program}: {agreed} rows agree, {differ} differ" + (f", {left} are not asked" if left else ""))
        failed = failed or differ or not agreed
    sys.exit(1 if failed else 0)


if __name__ == "__main__":
    main()
