#!/usr/bin/env python3
"""Looks for what makes the sources hard to read, and fails if it finds something that accepted.txt doesn't have with a reason.

usage: house.py [--all] [repeats|wide|names|unused|long|english|large|wordy|trade|dated|shown|limits|comments|links|quotes|cites|edits|flags]..
       all of them if none is named; --all shows what is accepted, too

repeats  lemma statements that stand more than once, up to the names of their variables (definitions and proofs are read, bodies not; a module's own
         name for a lemma of another one is none)
wide     lines of clauses of more than 120 columns
names    words of specs/ that two crates define
unused   definitions of specs/ that no clause and no other definition names, but for `most_x-is`: they belong into proofs/
long     files of more than 800 lines, functions of more than 40
english  of each page: sentences of more than 30 words, lines of more than 100 columns, and words that CONTRIBUTING asks not to use
large    pages of more than 20 KB
wordy    pages of which more than 8 % of the words are it, one, that, those, what, this, other, so or such: a thing is named again
trade    words of ours in pages for which the trade has a word
dated    dates in pages of docs/: a page says what is, and bench/results.tsv has what was measured when
shown    pages with outputs of commands (`$ ..`) that .ci/test.py doesn't name, so that the gate wouldn't compare them
limits   rows of a page's table of limits by versions of plans without the numbers of wl_limits
comments of the doc comments of src/: sentences of more than 30 words, words to avoid, and functions with an answer whose comment doesn't begin with
         it ('Returns ..', 'True if ..') or with a verb
flags    commands of the toolchain (`rt ..`) in pages, and their flags, that its help doesn't have; not looked at if there is no `rt` on the path
links    links of pages that lead to no file or to no heading
quotes   code that a page quotes from a file that it names just above, and that isn't there
cites    words of code that a page links to a source which hasn't them; of `Type::function` the function
edits    wrong bodies whose old text isn't once in the file that they name, or that name no function; rows and signatures that refuse a named mistake, and are gone

Each search yields what accepted.txt may name, and the line that is printed. A line of accepted.txt is `KIND: WHAT`, or `KIND N: WHAT` if there may be N of
them, below the line `reason: ..`. The status is 1 if something is found that isn't accepted; what is accepted and no longer found is only named.
"""
import re
import shutil
import subprocess
import sys
from collections import Counter, defaultdict
from importlib.machinery import SourceFileLoader
from importlib.util import module_from_spec, spec_from_loader
from pathlib import Path

TOP = Path(__file__).resolve().parent.parent
WORD = r"[^\s(){}\[\],.;:`]+"
HEAD = re.compile(rf"^(?:(?:pub|abbrev|unfoldable|opaque)\s+)*({WORD})((?:\s+\{{[^}}]*\}}|\s+\([^)]*\))*)\s*:\s+(.*)$")


def files(kind, folder="*"):
    for path in sorted((TOP / "crates").glob(f"*/{folder}/**/*.{kind}")):
        yield path.relative_to(TOP), path.read_text(encoding="utf-8")


def signatures(text):
    """Yields line, name and statement of each signature; a statement goes on over more deeply indented lines."""
    lines = text.splitlines()
    for at, line in enumerate(lines):
        indent = len(line) - len(line.lstrip())
        found = HEAD.match(line.strip())
        if not found or line.strip().startswith(("use ", "pub use ", "--")):
            continue
        said = [found[2] + " : " + found[3]]
        for more in lines[at + 1 :]:
            if not more.strip() or len(more) - len(more.lstrip()) <= indent:
                break
            said.append(more.strip())
        if not is_citation(lines, at, indent, found[1]):
            yield at + 1, found[1], " ".join(said)


def is_citation(lines, at, indent, name):
    """Whether a signature's value is another name with arguments: a module's own name for a lemma of another one."""
    for line in lines[at + 1 :]:
        if line.strip() and len(line) - len(line.lstrip()) <= indent:
            value = re.fullmatch(rf"{re.escape(name)} = [\w'-]+(\.[\w'-]+)+( .*)?|{re.escape(name)} = [\w'-]+( [\w'-]+)*", line.strip())
            return "abbrev" in lines[at].split(name)[0] and bool(value)
    return False


def shape(statement):
    """The statement with its bound variables numbered in the order in which they are bound."""
    tokens = re.findall(r"[\w'\-<>≤≡≢∷◌+*!?λ→↔⊥⊤×&|=ℕ]+|\S", statement)
    bound = {}
    for group in re.findall(r"[({]([^(){}:]+?)\s*:\s", statement):
        for name in group.split():
            bound.setdefault(name, f"v{len(bound)}")
    for group in re.findall(r"λ\s+([^.()]+)\.", statement):
        for name in group.split():
            bound.setdefault(name, f"v{len(bound)}")
    return " ".join(bound.get(it, it) for it in tokens).replace("{", "(").replace("}", ")")


def repeats():
    where = defaultdict(list)
    for path, text in files("antt", "proofs"):
        if path.name in ("Answers.antt", "Invariants.antt", "Proof.antt", "Lib.antt"):
            continue
        for line, name, statement in signatures(text):
            if len(statement) > 24 and ("≡" in statement or "→" in statement):
                where[shape(statement)].append((str(path), line, name))
    found = [it for it in where.values() if len({path for path, _, _ in it}) > 1]
    for group in sorted(found, key=len, reverse=True):
        yield " = ".join(f"{path.removeprefix('crates/')} {name}" for path, _, name in group), "\n    ".join(f"{path}:{line} {name}" for path, line, name in group)


def wide():
    for path, text in files("rt", "src"):
        depth = 0
        for at, line in enumerate(text.splitlines()):
            begins = re.match(r"\s*((ensures|requires|holds)\b|ghost \w+ = \{)", line)
            if (begins or depth > 0) and len(line) > 120:
                yield path, f"{path}:{at + 1} {len(line)} columns"
            if begins or depth > 0:
                depth += line.count("{") - line.count("}")


def defined():
    """Yields path, line and name of each definition of specs/."""
    for path, text in files("antt", "specs"):
        for at, line in enumerate(text.splitlines()):
            found = re.match(rf"^(?:(?:pub|abbrev|unfoldable|opaque)\s+)*(?:(?:record|data)\s+)?({WORD})(?:\s+[({{].*)?\s+:\s", line)
            if found and not line.startswith(("use ", "pub use ", "--", "  ")):
                yield path, at + 1, found[1]


def names():
    crates = defaultdict(set)
    for path, _, name in defined():
        crates[name].add(path.parts[1])
    for name, it in sorted(crates.items()):
        if len(it) > 1:
            yield f"{name} of {', '.join(sorted(it))}", f"{name}: {', '.join(sorted(it))}"


def unused():
    texts = [text for _, text in files("rt", "src")] + [text for _, text in files("antt", "specs")]
    counts = defaultdict(int)
    for text in texts:
        for line in text.splitlines():
            if not re.match(r"\s*(pub |ghost )*use\s", line):
                for name in set(re.findall(r"[^\s(){}\[\],.;:`]+", line)):
                    counts[name] += 1
    for path, line, name in defined():
        own = sum(1 for it in (TOP / path).read_text(encoding="utf-8").splitlines() if re.match(rf"^(?:(?:pub|abbrev|unfoldable)\s+)*{re.escape(name)}\s", it))
        # a limit's `most_x-is` opens the name `most_x` where a proof needs its number, and stands beside it
        if counts[name] <= own and not name.endswith("-is"):
            yield f"{path} {name}", f"{path}:{line} {name}"


def long():
    for kind in ("rt", "antt"):
        for path, text in files(kind, "*"):
            if text.count("\n") > 800:
                yield path, f"{path} {text.count(chr(10))} lines"
    for path, text in files("rt", "src"):
        began = None
        for at, line in enumerate(text.splitlines()):
            if re.match(r"\s*(pub(\(crate\))? )?(const )?fn ", line):
                began = (at, len(line) - len(line.lstrip()), line.split("fn ")[1].split("(")[0].split("<")[0])
            if began and line == " " * began[1] + "}":
                body = at - began[0]
                if body > 40:
                    yield f"{path} {began[2]}", f"{path}:{began[0] + 1} {began[2]}, {body} lines with its clauses"
                began = None


AVOIDED = ["of which", "that one too", "anew", "so many", "behind", "stands", "comes to", "tells", "as many", "up to when"]


def sentences(text):
    """Yields line and words of each sentence of a page. Code, tables and headings are no sentences; a list's item ends one."""
    said, begun, fenced = [], 1, False
    for at, line in enumerate([*text.splitlines(), ""]):
        if line.lstrip().startswith("```"):
            fenced = not fenced
        ends = fenced or not line.strip() or re.match(r"\s*([|#]|```|[-*] |\d+\. )", line)
        if ends and said:
            yield begun, said
            said = []
        if fenced or re.match(r"\s*([|#]|```)", line) or (line.startswith("    ") and not said):
            continue
        plain = re.sub(r"\]\([^)]*\)", "]", re.sub(r"`[^`]*`", "x", line))
        for word in re.sub(r"^\s*([-*]|\d+\.) ", "", plain).split():
            begun = begun if said else at + 1
            said.append(word)
            if re.search(r"[.:;?!][)*_\"']*$", word):
                yield begun, said
                said = []


def plain_lines(text):
    """Yields each line with its place, but for code, tables, pictures and definitions of links."""
    fenced = False
    for at, line in enumerate(text.splitlines()):
        if line.lstrip().startswith("```"):
            fenced = not fenced
        elif not fenced and not line.startswith("    ") and not re.match(r"\s*(\||!\[|\[[^\]]*\]:)", line):
            yield at, line


def english():
    for path in pages():
        text, name = path.read_text(encoding="utf-8"), path.relative_to(TOP)
        for line, words in sentences(text):
            if len(words) > 30:
                yield name, f"{name}:{line} a sentence of {len(words)} words"
            for it in AVOIDED:
                if re.search(rf"\b{it}\b", " ".join(words)):
                    yield name, f"{name}:{line} '{it}'"
        for at, line in plain_lines(text):
            if len(line) > 100:
                yield name, f"{name}:{at + 1} {len(line)} columns"


def large():
    for path in pages():
        size = path.stat().st_size
        if size > 20 * 1024:
            yield path.relative_to(TOP), f"{path.relative_to(TOP)} {size} bytes"


POINTING = {"it", "one", "ones", "that", "those", "what", "this", "other", "others", "so", "such"}


def wordy():
    for path in pages():
        words, name = [], path.relative_to(TOP)
        for _, line in plain_lines(path.read_text(encoding="utf-8")):
            words += re.findall(r"[a-z']+", re.sub(r"`[^`]*`", "x", re.sub(r"\]\([^)]*\)", "]", line)).lower())
        share = 100 * sum(it in POINTING for it in words) / max(len(words), 1)
        if name.parts[0] != "crates" and len(words) > 200 and share > 8:
            yield name, f"{name} {share:.1f} %"


# Words of ours, and what the trade says; words of code don't count
TRADE = {
    r"guess(es|ed|ing)?": "speculate, or in a proof assume",
    r"trails?": "checkpoint",
    r"(rings?|rang) (a|the|its) bell|is rung": "wake up",
    r"claims? (a|the|each|its) (word|change|quantum)": "commit or vote",
    r"here follows": "a verb with its actor",
    r"that night|later that|(this|the) (morning|evening)": "nothing: a page says what is",
}


def trade():
    for path in pages():
        name = path.relative_to(TOP)
        for line, words in sentences(path.read_text(encoding="utf-8")):
            for ours, theirs in TRADE.items():
                found = re.search(rf"\b(?:{ours})\b", " ".join(words), re.I)
                if found: yield name, f"{name}:{line} '{found[0]}': {theirs}"


MONTHS = "January|February|March|April|May|June|July|August|September|October|November|December"


def dated():
    for path in pages():
        for at, line in enumerate(path.read_text(encoding="utf-8").splitlines()):
            if path.relative_to(TOP).parts[0] == "docs" and re.search(rf"\b[1-3]?[0-9] ({MONTHS})\b|\b({MONTHS}) 20[0-9][0-9]\b", line):
                yield path.relative_to(TOP), f"{path.relative_to(TOP)}:{at + 1} a date"


def shown():
    named = set(subprocess.run([sys.executable, "-B", TOP / ".ci" / "test.py", "pages"], check=True, stdout=subprocess.PIPE, text=True).stdout.split())
    for path in pages():
        name = str(path.relative_to(TOP))
        if re.search(r"(?m)^```\n\$ ", path.read_text(encoding="utf-8")) and name not in named:
            yield name, f"{name} has outputs of commands, and .ci/test.py doesn't name it"


# What a limit is called in a page's table, and its function in wl_limits
LIMITS = {
    "nodes": "node", "offset": "offset", "power-up of a node": "offset", "from of a rate": "from", "end": "end", "to of a disturbance": "end",
    "quanta of a node before the end": "quanta", "the same, if a sample may come every third quantum": "short_quanta", "frames that wait at a node": "queue",
    "disturbances": "disturbance",
}


def limits():
    source, found = (TOP / "crates/wl_limits/src/lib.rt").read_text(encoding="utf-8"), 0
    numbers = {
        it: [int(n.replace("_", "")) for n in (narrow, wide)]
        for it, narrow, wide in re.findall(r"pub fn (\w+)_limit\(.*?Narrow => ([\d_]+),\s+Limits::Wide => ([\d_]+),", source, re.S)
    }
    for path in pages():
        name = path.relative_to(TOP)
        for table in re.findall(r"(?m)^\|[^\n]*\| [Vv]ersion 4 \|[^\n]*\n\|[-|]+\n((?:\|.*\n)+)", path.read_text(encoding="utf-8")):
            for row in table.splitlines():
                label, *cells = [it.strip().replace("`", "") for it in row.strip("|").split("|")]
                said = [[2 ** int(a) if a else int(b.replace(",", "")) for a, b in re.findall(r"2\^(\d+)|(\d[\d,]*)", it)] for it in cells[:2]]
                for what in [it.strip() for it in label.split(";") if it.strip() in LIMITS]:
                    found += 1
                    narrow, wide = numbers[LIMITS[what]]
                    if narrow not in said[0] or wide not in said[1]: yield f"{name} {what}", f"{name}: '{what}' is {narrow} and {wide}, not: {row}"
    if found < len(LIMITS): yield "rows", f"only {found} rows of limits were found in tables of pages"


def doc_blocks(text):
    """Yields the place of each doc comment, its text, and the line of code below it."""
    said, begun = [], 0
    for at, line in enumerate([*text.splitlines(), ""]):
        found = re.match(r"\s*//[/!] ?(.*)", line)
        if found:
            begun = begun if said else at + 1
            said.append(found[1])
        elif said and not re.match(r"\s*#\[", line):
            yield begun, "\n".join(said), line
            said = []


# What the comment of a function begins with: what it returns, or what it does
NOUNS = "Bits|Bytes|Edges|Frames|Levels|Lines|Nodes|Numbers|Parts|Records|Rows|Texts|Ticks|Times|Words"
BEGINS = re.compile(rf"Returns|True (if|of|only)|False if|Law\b|(?!{NOUNS})[A-Z][a-z]+s\b")


def comments():
    for path, text in files("rt", "src"):
        for line, said, code in doc_blocks(text):
            lengthy = [f"a sentence of {len(words)} words" for _, words in sentences(said) if len(words) > 30]
            avoided = [f"'{it}'" for it in AVOIDED if re.search(rf"\b{it}\b", re.sub(r"`[^`]*`", "x", said.replace("\n", " ")))]
            answers = re.match(r"\s*(pub(\(crate\))? )?(const )?fn ", code) and "->" in code
            begins = answers and not re.search(r"-> (Self|Result<Self)", code) and not BEGINS.match(said)
            for it in lengthy + avoided + [f"begins with '{said[:50]}'"] * bool(begins):
                yield path, f"{path}:{line} {it}"


def pages():
    return sorted([*TOP.glob("*.md"), *TOP.glob("docs/**/*.md"), *TOP.glob("crates/*/README.md"), *TOP.glob("check/*.md")])


def anchors(text):
    """Returns the anchors of a page's headings, as GitHub makes them."""
    found, fenced = [], False
    for line in text.splitlines():
        if line.startswith("```"): fenced = not fenced
        heading = None if fenced else re.match(r"#+ (.*)", line)
        if heading:
            plain = re.sub(r"\[([^\]]*)\]\([^)]*\)", r"\1", heading[1]).lower()
            anchor = re.sub(r"[^\w\- ]", "", plain).replace(" ", "-")
            found.append(f"{anchor}-{found.count(anchor)}" if anchor in found else anchor)
    return found


def links():
    for path in pages():
        text = re.sub(r"`[^`\n]*`", "x", re.sub(r"^```.*?^```", "", path.read_text(encoding="utf-8"), flags=re.M | re.S))
        for target in re.findall(r"\]\(([^)]+)\)", text):
            target = re.sub(r"\s+", "", target)
            if re.match(r"https?:", target): continue
            name, _, anchor = target.partition("#")
            file = (path.parent / name).resolve() if name else path
            if not file.exists() or anchor and anchor not in anchors(file.read_text(encoding="utf-8")):
                yield f"{path.relative_to(TOP)} {target}", f"{path.relative_to(TOP)}: {target} leads nowhere"


def quotes():
    """A quoted block is antt or Rust, of the file that was linked last; it may leave paragraphs out, and be indented otherwise."""
    def flat(lines):
        return "\n".join(line.strip() for line in lines.splitlines())

    for path in pages():
        text, last = path.read_text(encoding="utf-8"), None
        for found in re.finditer(r"\]\(([^)]*\.(?:antt|rt))\)|^```(antt|rust)\n(.*?)^```", text, re.M | re.S):
            if found[1]:
                last = path.parent / found[1]
            elif last:
                source = flat(last.read_text(encoding="utf-8"))
                for part in re.split(r"\n\n+", found[3].strip("\n")):
                    if flat(part) not in source:
                        yield path.relative_to(TOP), f"{path.relative_to(TOP)}: not in {last.resolve().relative_to(TOP)}: {part.splitlines()[0]}"


def cites():
    for path in pages():
        for said, target in re.findall(r"\[(`[^\]]+`)\]\(([^)#]+\.(?:antt|rt))\)", path.read_text(encoding="utf-8")):
            source = (path.parent / target).resolve()
            for word in re.findall(r"`(?:\w+::)?(\w+)`", said):
                if source.is_file() and not re.search(rf"(?<![\w-]){word}(?![\w-])", source.read_text(encoding="utf-8")):
                    yield f"{path.relative_to(TOP)} {word}", f"{path.relative_to(TOP)}: {word} isn't in {source.relative_to(TOP)}"


def edits():
    loader = SourceFileLoader("wrong", str(TOP / ".ci" / "wrong.py"))
    wrong = module_from_spec(spec_from_loader("wrong", loader))
    loader.exec_module(wrong)
    for what, why in wrong.unfit():
        yield what, f"{what}: {why}"


FLAG = r"--[a-z][a-z-]*"


def help_of(*words):
    """Returns what a command says of itself."""
    ran = subprocess.run(words, stdin=subprocess.DEVNULL, capture_output=True, text=True, timeout=60)
    return ran.stdout + ran.stderr


def toolchain(rt):
    """Returns the flags of each command of the toolchain by its help: those of its line of usage, of its own help if it has one, and rattle's if it takes them."""
    said, rattle, commands = help_of(rt, "help"), str(Path(rt).resolve().with_name("rattle")), {"help": set()}
    passed_on = set(re.findall(FLAG, said + help_of(rattle, "check", "--help") + help_of(rattle, "build", "--help")))
    for names, rest in re.findall(r"(?m)^(?:usage:)? +rt ([a-z|-]+)(.*)$", said):
        usage = re.split(r"\s{3,}", rest)[0]
        for name in names.split("|"):
            more = "--help " + help_of(rt, name, "--help") if f"rt {name} --help says more" in said else ""
            commands[name] = set(re.findall(FLAG, usage + more)) | (passed_on if "rattle's flags" in usage else set())
    return commands


def codes(text):
    """Yields the line and the words of each piece of code of a page: a span of its text, or a line of a block up to its remark."""
    fenced, lines = False, text.splitlines()
    for at, line in enumerate(lines):
        is_fence = line.lstrip().startswith("```")
        if is_fence: fenced = not fenced
        elif fenced or line.startswith("    "): yield at + 1, re.split(r"\s#", line)[0]
        if is_fence or fenced or line.startswith("    "): lines[at] = ""
    left = "\n".join(lines)
    for found in re.finditer(r"`([^`]+)`", left):
        yield left.count("\n", 0, found.start()) + 1, found[1].replace("\n", " ")


def flags():
    rt = shutil.which("rt")
    if not rt:
        print("  there is no `rt` on the path: the commands of pages are not compared with its help")
        return
    commands = toolchain(rt)
    for path in pages():
        name = path.relative_to(TOP)
        for line, words in codes(path.read_text(encoding="utf-8")):
            for verb, rest in re.findall(r"(?<![\w./-])rt +([a-z][a-z-]*)([^|&;()`]*)", words):
                unknown = [] if verb in commands else [f"rt {verb}"]
                unknown += [f"rt {verb} {it}" for it in re.findall(FLAG, rest.split(" -- ")[0]) if verb in commands and it not in commands[verb]]
                for it in unknown:
                    yield f"{name} {it}", f"{name}:{line} `{it}` isn't in the help of `rt`"


def accepted():
    """Returns how many of each kind and thing are accepted; each has a reason above it."""
    found, reason = Counter(), None
    for line in (TOP / "check" / "accepted.txt").read_text(encoding="utf-8").splitlines():
        if line.startswith("reason: "): reason = line
        elif line and line[0] != "#":
            kind, many, what = re.fullmatch(r"(\w+)(?: (\d+))?: (.*)", line).groups()
            if not reason: sys.exit(f"accepted.txt: no reason above '{line}'")
            found[kind, what] += int(many or 1)
    return found


def main():
    every = {it.__name__: it for it in (repeats, wide, names, unused, long, english, large, wordy, trade, dated, shown, limits, comments, links, quotes, cites, edits, flags)}
    words, left, bad = sys.argv[1:], accepted(), 0
    show = "--all" in words
    for kind in [it for it in words if it != "--all"] or every:
        new = old = 0
        for what, line in every[kind]():
            is_old = left[kind, str(what)] > 0
            left[kind, str(what)] -= is_old
            new, old = new + (not is_old), old + is_old
            if show or not is_old: print(f"  {line}")
        bad += new
        print(f"{kind}: {new} found" + (f", and {old} that are accepted" if old else ""))
        for (of, what), many in left.items():
            if of == kind and many > 0: print(f"  no longer found, and may leave accepted.txt: {kind} {what}")
    if bad: print("Mend them, or say in check/accepted.txt why they stay.")
    sys.exit(1 if bad else 0)


if __name__ == "__main__":
    main()
