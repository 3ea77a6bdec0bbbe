"""What the comparisons share: the order of their words, how a program is asked, and what was counted."""
import re
import subprocess
import sys
import tempfile
from collections import Counter

KEPT = 5  # inputs with differing answers of which more is said than their number


def words_of(usage, whats):
    """Reads PROGRAM WHAT [--OPTION VALUE].., where each WHAT has its options with their values; PROGRAM, WHAT and the options."""
    words = sys.argv[1:]
    if len(words) < 2 or words[1] not in whats: sys.exit(sys.stderr.write(usage) and 2)
    return words[0], words[1], options_of(usage, words[2:], whats[words[1]])


def options_of(usage, words, values):
    """Reads --OPTION VALUE..; the options with their values."""
    options = dict(values)
    while words:
        if len(words) < 2 or words[0][:2] != "--" or words[0][2:] not in options: sys.exit(sys.stderr.write(usage) and 2)
        options[words[0][2:]], words = words[1], words[2:]
    return options


def asked(program, *words, text=b"", limit=None):
    """Standard output, standard error and status; a program that stands still for so many seconds has none."""
    try: done = subprocess.run([program, *words], input=text, capture_output=True, timeout=limit)
    except subprocess.TimeoutExpired: return "", "no answer", None
    return done.stdout.decode("utf-8", "replace"), done.stderr.decode("utf-8", "replace"), done.returncode


# The lines of `traffic` and `explain` by the waits of messages: plain.py has no such waits, and check/respond.py compares these lines.
WAITS = re.compile(r"(?m)^(bound .*, proved|doubt: (\w+ of \S+ may take|the jitter of \w+ of|the bus load is up to) .*)\n")


def asked_bare(program, *words, text=b""):
    """The same without the lines by the waits of messages."""
    out, err, status = asked(program, *words, text=text)
    return WAITS.sub("", out), err, status


def rows_of_part(name):
    """Returns the lines on standard input, or if it has a block `part NAME`, as crates/test_rows/stdin does, the lines of that block."""
    lines, block = sys.stdin.read().splitlines(), []
    if f"part {name}" not in lines: return lines
    for line in lines[lines.index(f"part {name}") + 1:]:
        if line.startswith("part "): break
        block.append(line)
    return block


class Tally:
    def __init__(self):
        self.tried = self.differ = 0
        self.counts, self.kept = {}, []

    def count(self, heading, word, times=1):
        self.counts.setdefault(heading, Counter())[word] += times

    def compare(self, name, words, text, got, wanted):
        """Counts two answers to a text; whether they are the same."""
        if got == wanted: self.count("agreed", words)
        else: self.differs(name, words, text, got, wanted)
        return got == wanted

    def differs(self, name, words, text, got, wanted):
        self.differ += 1
        self.count("differ", words)
        self.kept.append((name, words, text, got, wanted))

    def add(self, other):
        self.tried, self.differ = self.tried + other.tried, self.differ + other.differ
        for heading, counts in other.counts.items(): self.counts.setdefault(heading, Counter()).update(counts)
        self.kept = (self.kept + other.kept)[:KEPT]

    def say(self):
        for heading, counts in self.counts.items():
            if heading != "rows": print(f"{heading}:", ", ".join(f"{word} {times}" for word, times in sorted(counts.items())))
        for name, words, text, got, wanted in self.kept:
            with tempfile.NamedTemporaryFile(prefix="differs-", delete=False) as file: file.write(text)
            print(f"{name} differs, {words}: the input is in {file.name}")
            if not isinstance(got, tuple):
                print(f"  {str(got)[:2_000]}\n  wanted {str(wanted)[:2_000]}")
                continue
            for who, (out, fault, status) in (("program", got), ("wanted", wanted)): print(f"  {who}: status {status}, {fault[:100]!r}, {len(out)} characters out")
            lines = [(number, *pair) for number, pair in enumerate(zip(got[0].split("\n"), wanted[0].split("\n")), 1) if pair[0] != pair[1]]
            for number, ours, theirs in lines[:1]: print(f"  first line that differs, {number}:\n    program: {ours}\n    wanted:  {theirs}")
