#!/usr/bin/env python3
"""The table of crates in docs/change/ARCHITECTURE.md: each crate's floor, what its doc comment says first, and the crates that it uses.

usage: crates.py          writes the table between the two markers of that page
       crates.py check    status 1, and what differs, if the table there isn't that of the sources

What a crate does is the first sentence of the comment `//!` at the head of its src/lib.rt or src/main.rt, without the name of a program in front.
What it uses is from crates.txt. A crate that another one beside it uses is left out, and so are the libraries of LEFT_OUT.
"""
import difflib
import re
import sys
from pathlib import Path

TOP = Path(__file__).resolve().parent.parent
PAGE = TOP / "docs" / "change" / "ARCHITECTURE.md"
BEGIN, END = "<!-- crates: check/crates.py writes what is between these lines -->", "<!-- crates: end -->"
LEFT_OUT = {"std_collections", "thiserror", "itoa", "arrayvec", "anyhow", "toml_parser", "rand_core"}


def listed():
    """Returns the crates of crates.txt, each with the names that it depends on."""
    crates = {}
    for line in (TOP / "crates.txt").read_text(encoding="utf-8").splitlines():
        found = re.match(r"(\w+)[^:#]*:(.*)", line)
        if found: crates[found[1]] = found[2].split()
    return crates


def head(name):
    """Returns the lines of the crate's doc comment, up to the first that is empty."""
    paths = [it for it in (TOP / "crates" / name / "src" / "lib.rt", TOP / "crates" / name / "src" / "main.rt") if it.exists()]
    lines = []
    for line in paths[0].read_text(encoding="utf-8").splitlines() if paths else []:
        found = re.match(r"//! ?(.*)", line)
        if not found or not found[1]: break
        lines.append(found[1])
    return " ".join(lines)


def sentence(name):
    text = re.sub(rf"^`{name}`: ", "", head(name))
    if not text: sys.exit(f"crates.py: {name} has no doc comment at the head of its lib.rt or main.rt")
    found = re.match(r"(?:`[^`]*`|[^`])*?[.](?=\s|$)", text)
    said = found[0] if found else text
    return said[:1].upper() + said[1:]


def below(name, crates):
    """Returns all crates below a crate, and the libraries that they name."""
    found = set()
    for it in crates.get(name, []):
        found |= {it} | below(it, crates)
    return found


def floor(name, crates):
    return 1 + max((floor(it, crates) for it in crates[name] if it in crates), default=0)


def uses(name, crates):
    named = [it for it in crates[name] if it not in LEFT_OUT]
    indirect = set().union(*(below(it, crates) for it in named)) if named else set()
    return [it for it in named if it not in indirect or it not in crates]


def table():
    crates = listed()
    floors = {name: floor(name, crates) for name in crates}
    product = [name for name in crates if name.startswith("wl_")]
    programs = [name for name in crates if name not in product]
    lines = ["", "```"]
    for at in range(max(floors[name] for name in product), 0, -1):
        line = f"{at:2} "
        for name in [it for it in product if floors[it] == at]:
            if len(line) + 1 + len(name) > 96:
                lines.append(line)
                line = "   "
            line += f" {name}"
        lines.append(line)
    lines += ["```", "", "| Crate | Floor | What it does | Uses directly |", "|---|---|---|---|"]
    for name in sorted(product, key=floors.get) + programs:
        readme = f"[`{name}`](../../crates/{name}/README.md)" if (TOP / "crates" / name / "README.md").exists() else f"`{name}`"
        at = str(floors[name]) if name in product else ""
        lines.append(f"| {readme} | {at} | {sentence(name)} | {', '.join(f'`{it}`' for it in uses(name, crates))} |")
    return "\n".join([*lines, "", ""])


def main():
    text = PAGE.read_text(encoding="utf-8")
    if text.count(BEGIN) != 1 or text.count(END) != 1: sys.exit(f"crates.py: the page hasn't each of the two lines once: {BEGIN}, {END}")
    before, rest = text.split(BEGIN + "\n")
    old, after = rest.split(END)
    new = table()
    if sys.argv[1:] == ["check"]:
        if old != new:
            print("\n".join(difflib.unified_diff(old.splitlines(), new.splitlines(), "docs/change/ARCHITECTURE.md", "the sources", lineterm="", n=0)))
            sys.exit("crates.py: the table of crates is stale; check/crates.py writes it")
    elif not sys.argv[1:]:
        PAGE.write_text(before + BEGIN + "\n" + new + END + after, encoding="utf-8")
    else:
        sys.exit(sys.stderr.write(__doc__) and 2)


if __name__ == "__main__":
    main()
