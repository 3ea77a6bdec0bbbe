#!/usr/bin/env python3
"""Tries wrong bodies: the prover must refuse each, in the function that the edit changes.

usage: wrong.py [--night] [--kept] [CRATE..]   tries the edits of .ci/wrong-bodies, or with --night those of check/wrong-bodies; of every crate if none
                                              is named. With --kept what earlier checks of a crate kept in out/incremental isn't checked again
       wrong.py check                 tells whether each edit still fits its source, and whether the table of docs/change/wrong-bodies.md is that of the edits
       wrong.py page                  writes that table

An edit is a file FOLDER/CRATE/NAME.edit, in the form of the toolchain's edits (`file: PATH`, `old: TEXT`, `new: TEXT`), with two lines more:
  function: PATH     the function that it changes, as a check prints it without the crate's name; without this line it is that of the first old text
  mistake: WORDS     in .ci/wrong-bodies: the mistake that was named before the code was written, if the edit makes one of these
Mistakes that no contract excludes are in .ci/wrong-bodies/by-rows.txt, with the rows or the signature that do.

The libraries below a crate are taken as `rt ci` has just left them; those that are older than their sources are built first. A copy of the crate gets as
many of its edits as change different functions, and one check of these functions and of what they call. It has to end with status 1. Each edited function
has to be refused by itself: if it isn't proved only because it calls a function that isn't, the check says nothing of it, and it waits for the next check.
Each function that isn't edited has to be proved, but for those that call an edited one. If that isn't so, each edit has a check of its own. The checks of a
crate run one after another, each over what those before it proved, in a folder of this run. So a wrong body costs no second proof of its crate. As many
crates are tried side by side as RT_JOBS says; without that, as there are processors that have 3 GB of free memory each. A check that was killed runs once
more at the end, alone. What the last check of an edit said is in out/wrong-bodies/CRATE/NAME.log.

Status 1 if a wrong body was not refused so: if the prover proves it (NOT REFUSED), or if it could not be tried (NOT TRIED, with the reason), as one that
doesn't compile, that the prover gave no verdict on, or beside which another function isn't proved. A refusal only by a name that the proof has and the
changed body hasn't says little of the contract: it counts, and is named at the end.
"""
import glob
import importlib.machinery
import importlib.util
import os
import re
import shutil
import subprocess
import sys
import tempfile
import time
from collections import namedtuple
from concurrent.futures import ThreadPoolExecutor, as_completed

sys.dont_write_bytecode = True
TOP = os.path.dirname(os.path.dirname(os.path.realpath(__file__)))
GATE, NIGHT = f"{TOP}/.ci/wrong-bodies", f"{TOP}/check/wrong-bodies"
PAGE, BEGIN, END = f"{TOP}/docs/change/wrong-bodies.md", "<!-- .ci/wrong.py page begins -->\n", "<!-- .ci/wrong.py page ends -->\n"
LOGS = f"{TOP}/out/wrong-bodies"
REFUSED = ("not proved", "no proof")
ACCEPTED = "the prover proves all that it reads"
# What the prover says of a proof that names what the edit took away: that says little of the contract.
NAMES = re.compile(r"(has no field|is not in scope|has no `|was not admitted)")
BY_NAME = "only by a name in its proof (change a value, and keep the names): "

# What it says of a function whose own proof it did not judge.
BY_CALLEE = re.compile(r"[:;] it calls `")
WAITS = "it calls a function that is not proved"

Edit = namedtuple("Edit", "crate name file function mistakes pairs")


def read(edit):
    """Returns the edit of a file: what it changes, and its pairs of a path, an old text and a new one."""
    path, old, function, mistakes, pairs = "", None, "", [], []
    with open(edit, encoding="utf-8") as lines:
        for line in lines.read().splitlines():
            word, _, text = line.partition(":")
            text = text.removeprefix(" ")
            if word == "file": path = text.strip()
            elif word == "function": function = text.strip()
            elif word == "mistake": mistakes.append(text.strip())
            elif word == "old": old = text
            elif word == "new": pairs.append((path, old, text))
    crate = os.path.basename(os.path.dirname(edit))
    function = function or (function_of(f"{TOP}/crates/{crate}/src", *pairs[0][:2]) if pairs else "")
    return Edit(crate, f"{crate}/{os.path.basename(edit)[: -len('.edit')]}", edit, function, mistakes, pairs)


# ---- The function of an edit that doesn't name it

FUNCTION = re.compile(r"( *)(?:pub(?:\([^)]*\))? )?(?:const )?fn (\w+)")


def function_of(source, path, old):
    """Returns the function around a text, as a check prints it: module, type and name. A type's own methods are in the type's module."""
    file = f"{os.path.dirname(source)}/{path}"
    text = text_of(file) if os.path.isfile(file) else ""
    if not old or old not in text: return ""
    lines, line = text.split("\n"), text[: text.index(old) + len(old) - len(old.lstrip())].count("\n")
    for at in range(line, -1, -1):
        found = FUNCTION.match(lines[at])
        if found and f"{found[1]}}}" not in lines[at + 1 : line]: break
    else: return ""
    heads = [it for it in lines[:at] if re.match(r"impl\b|(pub )?trait ", it)] if found[1] else []
    module = "" if path in ("src/lib.rt", "src/main.rt") else path[4:-3].replace("/", "::")
    if not heads: return "::".join(filter(None, (module, found[2])))
    kind, is_own = kind_of(heads[-1])
    return "::".join(filter(None, (module_of(source, kind, module) if is_own else module, kind, found[2])))


def kind_of(head):
    """Returns how a check names the type of an impl or a trait's head, and whether the methods are the type's own."""
    if "trait " in head: return re.search(r"trait (\w+)", head)[1], False
    head, left = re.sub(r"^impl\s*", "", head.split("{")[0]), []
    if head.startswith("<"):
        deep = [head[: at + 1].count("<") - head[: at + 1].replace("->", "").count(">") for at in range(len(head))]
        left, head = [re.split("[: ]", it.strip().removeprefix("const "))[0] for it in head[1 : deep.index(0)].split(",")], head[deep.index(0) + 1 :]
    trait, _, kind = head.strip().rpartition(" for ")
    return named_type(kind, left) + (named_type(trait, left) if trait else ""), not trait


def named_type(text, left):
    """Returns the words of a type in one: `BTreeMap<(u8, u32), W>` is BTreeMapTuple2U8U32 where W is a parameter."""
    text = re.sub(r"\(([^()]*)\)", lambda it: f"Tuple{it[1].count(',') + 1} {it[1]}", text.strip())
    words = [it for it in re.findall(r"\w+", re.sub(r"\w+::|'\w+|\bmut\b", "", text)) if it not in left]
    return "Array" * (text.startswith("[") and ";" in text) + "".join(it[0].upper() + it[1:] for it in words)


def module_of(source, kind, otherwise):
    for file in glob.glob(f"{source}/**/*.rt", recursive=True):
        if re.search(rf"(?m)^(pub(\([^)]*\))? )?(struct|enum) {kind}\b", text_of(file)):
            module = os.path.relpath(file, source)[:-3].replace("/", "::")
            return "" if module in ("lib", "main") else module
    return otherwise


def text_of(file):
    with open(file, encoding="utf-8") as it: return it.read()


def edits_of(folder, crates):
    found = [read(it) for it in sorted(glob.glob(f"{folder}/*/*.edit"))]
    lost = set(crates) - {it.crate for it in found}
    if lost: sys.exit(f"wrong.py: {folder} has no edits of {', '.join(sorted(lost))}")
    return [it for it in found if not crates or it.crate in crates]


def applied(edit, texts):
    """Returns the texts with the edit made, by path, or why it can't be made. `texts` has those that differ from the crate's own."""
    made = dict(texts)
    if not edit.pairs or not edit.function: return None, "it has no `function:` line or no pair of `old:` and `new:`"
    for path, old, new in edit.pairs:
        file = f"{TOP}/crates/{edit.crate}/{path}"
        if path not in made:
            if not re.match(r"src/[\w/]+\.rt$", path) or not os.path.isfile(file): return None, f"there is no source {path}"
            with open(file, encoding="utf-8") as it: made[path] = it.read()
        count = made[path].count(old) if old else 0
        if count != 1: return None, f"its old text is {count} times in {path}"
        made[path] = made[path].replace(old, new)
    return made, None


def together(edits):
    """Returns the edits of one crate that go into one check, and the texts that they change: each function is changed once."""
    some, texts = [], {}
    for edit in edits:
        made, why = applied(edit, texts)
        if not why and edit.function not in [it.function for it in some]: some, texts = [*some, edit], made
    return some, texts


# ---- The toolchain

def kit():
    """Returns the toolchain's `rt` as a module, with the crates of this repository."""
    file = os.path.realpath(shutil.which("rt") or sys.exit("wrong.py: no command 'rt' on the PATH"))
    loader = importlib.machinery.SourceFileLoader("rt_of_the_kit", file)
    rt = importlib.util.module_from_spec(importlib.util.spec_from_loader("rt_of_the_kit", loader))
    loader.exec_module(rt)
    # A crate's sum is asked for by each crate above it: made once.
    sums, stamp = {}, rt.Crate.stamp
    rt.Crate.stamp = lambda crate: sums.get(crate.name) or sums.setdefault(crate.name, stamp(crate))
    rt.Crate.allowed = rt.handles_of(TOP)
    rt.rtlib.Crate = rt.Crate
    rt.rtlib.guarded()
    return rt, {it.name: it for it in rt.rtlib.crates_below(TOP)}


def newest(folder, parts):
    return max((os.stat(f"{at}/{name}").st_mtime for part in parts for at, _, names in os.walk(f"{folder}/{part}") for name in names), default=0)


def made(folder):
    """Returns when a library was put there: a toolchain that keeps libraries gives them as links, whose files are older."""
    return max((os.stat(at).st_mtime for at, _, _ in os.walk(folder)), default=0)


def build(rt, crates, wanted):
    """Builds the libraries below the wanted crates, but for those that `rt ci` has just left: built without a stamp, and newer than all sources below."""
    below = {it.name: it for name in wanted for it in crates[name].below()}
    left = {name: f"{it.folder}/out/rlib" for name, it in below.items()}
    sources = max((newest(it.folder, rt.rtlib.PARTS) for it in below.values()), default=0)
    is_ci = all(os.path.isdir(it) and not os.path.isfile(f"{it}/stamp") and made(it) > sources for it in left.values())
    for it in [] if is_ci else below.values():
        if not it.is_built():
            print(f"building {it.name} first", flush=True)
            if it.build_rlib(["--jobs", "1"], anew=False): sys.exit(f"wrong.py: {it.name} could not be built")


def words_of(rt, crate, functions):
    with open(os.devnull, "w", encoding="utf-8") as crate.out:
        words = crate.words(["--jobs", "1"], keeps=False)
    return [rt.rtlib.RATTLE, "check", *words, *(it for name in functions for it in ("--only", name))]


def checked(rt, crate, edits, texts, kept):
    """Checks a copy of the crate with these edits, over what earlier checks kept, and returns the status and what was said."""
    with tempfile.TemporaryDirectory(prefix="wrong-body-") as room:
        for part in rt.rtlib.PARTS:
            if os.path.isdir(f"{crate.folder}/{part}"): shutil.copytree(f"{crate.folder}/{part}", f"{room}/{part}")
        for path, text in texts.items():
            with open(f"{room}/{path}", "w", encoding="utf-8") as it: it.write(text)
        words = [*words_of(rt, crate, [it.function for it in edits]), "--incremental", kept]
        how = {"cwd": room, "stdin": subprocess.DEVNULL, "stdout": subprocess.PIPE, "stderr": subprocess.STDOUT, "errors": "replace"}
        ran = subprocess.run([*rt.rtlib.guarded(), *words], check=False, **how)
    for edit in edits:
        os.makedirs(f"{LOGS}/{edit.crate}", exist_ok=True)
        with open(f"{LOGS}/{edit.name}.log", "w", encoding="utf-8") as it: it.write(f"{ran.stdout}status {ran.returncode}\n")
    return ran.returncode, ran.stdout


# ---- What a check says

def is_of(name, edit):
    """True if a name that a check prints is the edited function, or a closure in it."""
    name = name.removeprefix(f"{edit.crate}::")
    if name == edit.function: return True
    module, closure, rest = name.partition("fn::")
    return bool(closure) and (module + rest).startswith(edit.function + "::")


def judged(edits, status, said):
    """Yields each edit of a check with how the prover refused it and None, or with None and why that is no refusal."""
    verdicts = re.findall(r"(?m)^fn (\S+): (proved|[a-z ]+)(.*)", said)
    well = status == 1 and re.search(r"(?m)^only=\d+ proved=\d+\n?\Z", said)
    others = [name for name, verdict, rest in verdicts if verdict != "proved" and not BY_CALLEE.match(rest) and not any(is_of(name, it) for it in edits)]
    for edit in edits:
        own = [(verdict, rest) for name, verdict, rest in verdicts if is_of(name, edit)]
        refusals = [it for it in own if it[0] in REFUSED]
        refusal = next((it for it in refusals if not BY_CALLEE.match(it[1])), None)
        if status == 0: yield edit, None, ACCEPTED
        elif not well: yield edit, None, f"{ended(status)}: {first_error(said)}"
        elif others: yield edit, None, f"also not proved: {', '.join(others)}"
        elif refusals and not refusal: yield edit, None, WAITS
        elif not refusal: yield edit, None, f"the prover says of it: {own[0][0] if own else 'nothing'}"
        else: yield edit, by_name(said, edit, refusal) + (refusal[0] + refusal[1])[:150], None


def by_name(said, edit, refusal):
    """Returns BY_NAME if no goal refuses an edited function, but names in its proof that are gone; else nothing."""
    told = re.findall(r"(?m)^(?:note: )?(?:\./)?proofs/(\S+?):\d+:\d+:(.*(?:\n  .*)*)", said)
    own = [text for place, text in told if place.startswith(edit.function.replace("::", "/") + "/")]
    errors = [it for it in own if "error" in it] or own
    return BY_NAME if errors and all(NAMES.search(it) for it in errors) and "did not prove" not in refusal[1] else ""


def ended(status):
    """Returns how a check ended that has no verdict on each function that it was asked for."""
    if status < 0: return f"the check was killed by signal {-status}, also alone, most likely for lack of memory"
    return {1: "the changed crate can't be read", 3: "the prover gave no verdict"}.get(status, f"the check ended with status {status}")


def first_error(said):
    lines = said.splitlines() or ["nothing was said"]
    return next((it for it in lines if "error" in it), lines[-1])[:300]


def crate_tried(rt, crate, edits, is_kept):
    """Tries a crate's edits and returns what the prover says of each, its edits whose check was killed, and the seconds by the clock of each check."""
    answers, killed, seconds, left, apart = [], [], [], list(edits), []
    with tempfile.TemporaryDirectory(prefix="wrong-bodies-") as room:
        kept = f"{room}/kept"
        if is_kept and os.path.isdir(f"{crate.folder}/out/incremental"): shutil.copytree(f"{crate.folder}/out/incremental", kept)
        while left or apart:
            began = time.time()
            some, texts = together(left or apart[:1])
            status, said = checked(rt, crate, some, texts, kept)
            seconds.append(time.time() - began)
            told = [it for it in judged(some, status, said) if it[1] or is_final(it[2]) or len(some) == 1]
            done = some if status < 0 else [edit for edit, _, _ in told]
            if status < 0: killed.extend(some)
            else: answers.extend(told)
            apart = [it for it in apart if it not in done] + ([] if done else some)
            left = [it for it in left if it not in done + apart]
    return answers, killed, seconds


def is_final(why):
    """True if an edit needs no other check: the prover has proved what was changed."""
    return why in (ACCEPTED, "the prover says of it: proved")


def tried(rt, crates, edits, is_kept):
    """Tries the edits, crates side by side, the longest first, and yields the answers of each crate. What was killed is tried again at the end, alone."""
    jobs = os.environ.get("RT_JOBS", "")
    jobs = int(jobs) if jobs.isdigit() and int(jobs) else max(1, min(rt.processors(), rt.free() // 3_000_000_000))
    names = sorted({it.crate for it in edits}, key=lambda name: -crates[name].count(rb"\n"))
    print(f"wrong bodies: {len(edits)} of {len(names)} crates, {jobs} at once", flush=True)
    killed = []
    with ThreadPoolExecutor(jobs) as pool:
        running = {pool.submit(crate_tried, rt, crates[name], [it for it in edits if it.crate == name], is_kept): name for name in names}
        for future in as_completed(running):
            answers, lost, seconds = future.result()
            killed.extend(lost)
            yield running[future], answers, seconds
    for edit in killed:
        answers, lost, seconds = crate_tried(rt, crates[edit.crate], [edit], is_kept)
        yield edit.crate, [*answers, *((it, None, ended(-9)) for it in lost)], seconds


def attempt(folder, names, is_kept):
    edits = edits_of(folder, names)
    for edit in edits:
        why = applied(edit, {})[1]
        if why: sys.exit(f"{edit.name}: {why}")
    rt, crates = kit()
    build(rt, crates, {it.crate for it in edits})
    refused, failed, untried, named = 0, [], {}, []
    for crate, answers, seconds in tried(rt, crates, edits, is_kept):
        for edit, how, why in answers:
            word = "refused" if how else "NOT REFUSED" if is_final(why) else "NOT TRIED"
            print(f"{edit.name}: {word} in {edit.function}: {how or why}", flush=True)
            refused += bool(how)
            if word == "NOT REFUSED": failed.append(edit.name)
            if word == "NOT TRIED": untried[edit.name] = why
            if how and how.startswith(BY_NAME): named.append(edit.name)
        print(f"  {crate}: {len(seconds)} checks, {', '.join(f'{it:.0f}' for it in seconds)} s by the clock", flush=True)
    for name, why in untried.items(): print(f"could not be tried: {name}: {why}")
    if named: print(f"{len(named)} were refused only by a name in a proof: {' '.join(named)}")
    counts = [f"{len(found)} {what}{': ' if found else ''}{' '.join(found)}" for what, found in (("not", failed), ("not tried", untried))]
    print(f"{refused} of {len(edits)} wrong bodies refused, {', '.join(counts)}")
    return 0 if refused == len(edits) else 1


# ---- The page and the sources

def named():
    """Yields the rows of the page's table: each named mistake with what refuses it; of the edits first, in the order of their crates."""
    for edit in edits_of(GATE, []):
        for mistake in edit.mistakes:
            yield f"| {mistake} | `{edit.function}` of `{edit.crate}` |"
    for mistake, ways in by_rows():
        rows = [text for kind, text in ways if kind == "row"]
        tests = [text.split()[1] for kind, text in ways if kind == "test"]
        lacks = [text.split() for kind, text in ways if kind == "lacks"]
        said = [f"the rows {', '.join(f'`{it}`' for it in rows)}"] * bool(rows) + [f"the test `{it}`" for it in tests]
        said += [f"the signatures of `{file.removeprefix('crates/')}`: no `{word}`" for file, word in lacks]
        yield f"| {mistake} | {'; '.join(said)} |"


def by_rows():
    """Yields each mistake of by-rows.txt with its ways of refusal: a kind and a text."""
    with open(f"{GATE}/by-rows.txt", encoding="utf-8") as it: blocks = it.read().split("\n\n")
    for lines in ([line.partition(": ") for line in block.splitlines() if line and line[0] != "#"] for block in blocks):
        if lines: yield lines[0][2], [(kind, text) for kind, _, text in lines[1:]]


def unfit():
    """Yields what no longer fits the sources: an edit's file or a mistake, and why."""
    for edit in [*edits_of(GATE, []), *edits_of(NIGHT, [])]:
        why = applied(edit, {})[1]
        if why: yield os.path.relpath(edit.file, TOP), why
    rows = {line for file in glob.glob(f"{TOP}/crates/*/stdin") for line in text_of(file).splitlines()}
    for mistake, ways in by_rows():
        for kind, text in ways:
            if kind == "row" and text not in rows: yield mistake, f"no program has the row '{text}' on standard input"
            if kind == "test" and f"fn {text.split()[1]}(" not in text_of(f"{TOP}/{text.split()[0]}"): yield mistake, f"{text}: there is no such test"
            if kind == "lacks" and re.search(rf"\b{text.split()[1]}\b", text_of(f"{TOP}/{text.split()[0]}")): yield mistake, f"{text}: the word is there"
        if not ways: yield mistake, "nothing is named that refuses it"


def paged():
    """Returns the page with the table as the edits have it."""
    page = text_of(PAGE)
    head, rest = page.split(BEGIN)
    table = "".join(f"{row}\n" for row in ["| Mistake | Refused by |", "|---|---|", *named()])
    return page, f"{head}{BEGIN}{table}{END}{rest.split(END)[1]}"


def check():
    found = [f"{what}: {why}" for what, why in unfit()]
    old, new = paged()
    if old != new: found.append(f"{os.path.relpath(PAGE, TOP)}: its table isn't that of the edits: .ci/wrong.py page writes it")
    print("\n".join(found), end="\n" if found else "")
    print(f"wrong bodies: {len(edits_of(GATE, []))} in the gate, {len(edits_of(NIGHT, []))} by night, {len(found)} faults")
    return 1 if found else 0


def main(words):
    if words == ["check"]: return check()
    if words == ["page"]:
        _, new = paged()
        with open(PAGE, "w", encoding="utf-8") as it: it.write(new)
        return 0
    names = [it for it in words if it not in ("--night", "--kept")]
    if any(it.startswith("-") for it in names): sys.exit(__doc__)
    return attempt(NIGHT if "--night" in words else GATE, names, "--kept" in words)


if __name__ == "__main__":
    sys.exit(main(sys.argv[1:]))
