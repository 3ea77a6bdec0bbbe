"""The comparisons `margin`, `explain`, `settings`, `sweeps`, `formats` and `pages`, on random inputs.

`margin` and `explain` take families around the border of the condition (families.py), and margin.py and plain.py beside the program. `settings` and `sweeps`
have settings.py and sweeps.py; the members of a tenth of the sweeps are run by plain.py, and of the others by the program. `formats` has JSON and
CSV beside the text, `pages` the texts of a page beside the other commands.
"""
import html
import random
import re
import sys

sys.dont_write_bytecode = True
import families
import formats as of_formats
import margin as of_margin
import plain
import random_plans

LONGER, WIDER = of_margin.longer_cable, of_margin.wider_tolerance  # settings.py puts its own in their place
import settings as of_settings
import sweeps as of_sweeps
import versions
from tally import asked, asked_bare

TICKS = ["1ns"] * 4 + ["125ps", "999us", "1ps", "40ns"]


def told(answer, *words):
    """Standard output, standard error and status of an independent program."""
    try:
        return answer(*words), "", 0
    except plain.Fault as fault:
        return "", f"fault: {fault}\n", 1


def first_words(out, fault):
    return fault.split("(")[0].strip() or re.split(r"[:,]", out.splitlines()[0])[0]


# ---- Families


class Remembered:
    """An independent search of margin.py whose answer to the last families is kept, since two commands ask for it."""

    def __init__(self, search):
        self.search, self.last = search, {}

    def __call__(self, family, one, proved=False):
        key = repr((family.plan, family.clocks, family.all_send, one, proved))
        if key not in self.last:
            if len(self.last) > 8: self.last.clear()
            self.last[key] = self.search(family, one, proved)
        return self.last[key]


def margin(tally, program, seed, numbers, options):
    """Both commands of each family: `margin`, some of all nodes as senders, and `explain` of every other one."""
    of_margin.longer_cable, of_margin.wider_tolerance = Remembered(LONGER), Remembered(WIDER)
    for number in numbers:
        rng = random.Random(f"{seed} {number} margin")
        text, tick = families.text_of(rng), rng.choice(TICKS)
        name, picoseconds = f"family {number} of seed {seed}", int(tick[:-2]) * of_margin.UNITS[tick[-2:]]
        all_send = ["--all-send"] * (rng.random() < 0.2)
        wanted = told(of_margin.margin_text, text, picoseconds, bool(all_send))
        tally.tried += 1
        tally.count("answers", first_words(*wanted[:2]))
        got = asked(program, "margin", "--tick", tick, *all_send, text=text)
        tally.compare(name, " ".join(["margin", *all_send]), text, got, wanted)
        if number % 2 or all_send: continue
        doubted = plain.answer("explain", text)
        explained = asked_bare(program, "explain", text=text)
        if doubted[2] == 1 and explained[2] == 1: doubted = explained[0], *doubted[1:]  # of a refused plan: `refusals`
        tally.compare(name, "explain", text, explained, doubted)
        of_both(tally, name, text, got[0], explained[0])
    of_margin.longer_cable, of_margin.wider_tolerance = LONGER, WIDER


def of_both(tally, name, text, said, explained):
    """What docs/use/explain.md says of the two: a bus that holds for any senders has no doubt of an inequality."""
    if not said.startswith("holds for any senders"): return
    doubts = [line for line in explained.splitlines() if re.match(r"doubt: (in ten bits|a bit of|the next bit|if several)", line)]
    tally.compare(name, "no doubt if it holds", text, str(doubts), "[]")


# ---- Settings


def settings_text(rng):
    """A bus and few settings of one controller or two, so that the independent search ends soon."""
    rate = rng.choice([1_000_000, 500_000, 250_000, 125_000, 83_333, rng.randint(10_000, 1_000_000)])
    lines = [f"bitrate = {rate}", f"cable = {rng.choice([1, 10, 40, 100, rng.randint(1, 1_000)])}", f"per = {rng.choice([1, 5, 6])}",
             f"out = {rng.choice([0, 60, 120, 210])}", f"in = {rng.choice([1, 60, 130, 210])}", f"tolerance = {rng.choice([0, 50, 100, 1_000, 5_000, rng.randint(0, 20_000)])}",
             f'senders = "{rng.choice(["one", "any", "any"])}"']
    if rng.random() < 0.3: lines.append(f"rate_error = {rng.choice([0, 500, 5_000])}")
    for number in range(rng.choice([1, 1, 2])):
        most = {"prop": rng.randint(2, 8), "ps1": rng.randint(2, 8), "ps2": rng.randint(2, 4), "sjw": rng.randint(1, 2)}
        quanta, prescaler = max(8, 1 + rng.randint(most["prop"], sum(most.values()) - most["sjw"])), rng.choice([1, 1, 2, 4])
        clock = rng.choice([rate * quanta * prescaler + rng.choice([0, 0, 0, 1, -7]), 8_000_000, 16_000_000])
        lines += ["[[controller]]", f'name = "c{number}"', f"clock = {min(10**9, max(1, clock))}", f"prescaler = {rng.choice([prescaler, 4])}"]
        lines += [f"{key} = {value}" for key, value in most.items()]
    if rng.random() < 0.05: lines[rng.randrange(len(lines))] = rng.choice(["cable = 0", "x = 1", "clock = 0", ""])
    return "\n".join(lines).encode() + b"\n"


def settings_of(text, tick, best, plan):
    try:
        return of_settings.settings_text(text, tick, best, plan)
    except of_settings.Fault as fault:
        raise plain.Fault(str(fault))


def settings(tally, program, seed, numbers, options):
    of_margin.longer_cable, of_margin.wider_tolerance = of_settings.longer_cable, of_settings.wider_tolerance
    for number in numbers:
        rng = random.Random(f"{seed} {number} settings")
        text, tick, best, plan = settings_text(rng), rng.choice(TICKS[:5]), rng.choice([None, 1, 3]), rng.random() < 0.3
        words = ["--tick", tick] + (["--plan"] if plan else ["--best", str(best)] if best else [])
        wanted = told(settings_of, text, int(tick[:-2]) * of_margin.UNITS[tick[-2:]], best, plan)
        tally.tried += 1
        tally.count("answers", "a plan" if plan and not wanted[2] else wanted[1].split("(")[0].strip() or re.sub(r"\d+", "n", wanted[0].splitlines()[1 % wanted[0].count("\n")])[:9])
        tally.compare(f"text {number} of seed {seed}", " ".join(["settings", *words]), text, asked(program, "settings", *words, text=text), wanted)
    of_margin.longer_cable, of_margin.wider_tolerance = LONGER, WIDER


# ---- Sweeps

VARIED = ["sjw=1..2", "x=0..60:30", "n0.offset=0..50:25", "prop=0..9:3", "end=4000..9000:2500", "per=0..2", "ps2=1..3", "tolerance=0..1000:500", "out=0..1", "0.in=0..1",
          "n0.sjw=1..4", "ps1=1..8:3", "end=2..3", "offset=0..9:9"]
SELDOM = ["n0.ppm=-9..9:9", "quantum=9..11", "num=9..11", "every=100..300:100", "count=1..2", "n1.x=1..2", "sjw=4..1", "nobody.x=1..2", "sjw=1..4:0", "name=1..2", "=",
          "x=1..99999999:1", "x=0..101:1", "n0.end=1..2", "sjw=1.2", "prop=-1..2"]


def sweep_words(rng, plan):
    """The words of a command line, and the request that they are."""
    request = of_sweeps.request_of([])
    request |= {"runs": rng.choice([1, 2, 3, 5]), "seed": rng.choice([1, 7, rng.randrange(2**32)]), "workers": 1}
    request |= {"offsets": rng.random() < 0.3, "ppm": rng.random() < 0.3, "worst": rng.random() < 0.15}
    if rng.random() < 0.3: request["step"] = rng.choice([1, 3, 100])
    request["ranges"] = [rng.choice(VARIED if rng.random() < 0.8 else SELDOM) for _ in range(rng.choice([0, 1, 1, 1, 2]))]
    words = ["--runs", str(request["runs"]), "--seed", str(request["seed"])] + ["--keep-offsets"] * request["offsets"] + ["--keep-ppm"] * request["ppm"]
    words += ["--worst"] * request["worst"] + (["--step", str(request["step"])] if request["step"] else [])
    return words + [word for one in request["ranges"] for word in ("--vary", one)], request


class Serial:
    """What sweeps.py asks of a pool, in this process."""

    def map(self, function, inputs, chunksize=1):
        return [function(one) for one in inputs]


def swept(program, text, request):
    """Standard output, standard error and status; members are run by a program, or by plain.py without one."""
    try:
        said, clean = of_sweeps.Sweep(text, request).says(Serial(), program)
        return said, "", 0 if clean else 1
    except of_sweeps.Refused as refused:
        return "", f"{refused}\n", refused.status


def sweeps(tally, program, seed, numbers, options):
    for number in numbers:
        rng = random.Random(f"{seed} {number} sweeps")
        if rng.random() < 0.5: plan = versions.with_traffic(rng, versions.random_plan(rng, 60))[0]
        else: plan = random_plans.choose_tolerances(rng, versions.random_plan(rng, 60))
        random_plans.choose_tolerances(rng, plan)
        text = versions.text_of(rng, plan)
        words, request = sweep_words(rng, plan)
        wanted = swept(None if rng.random() < 0.1 else program, text.decode(), request)
        tally.tried += 1
        tally.count("answers", wanted[1].split(",")[0].strip() or ("all clean" if not wanted[2] else "not all clean"))
        name = f"sweep {number} of seed {seed}"
        tally.compare(name, " ".join(["sweep", *words]), text, asked(program, "sweep", *words, text=text), wanted)
        if wanted[1] or rng.random() < 0.5: continue
        try:
            printed = of_sweeps.Sweep(text.decode(), request | {"print": 0}).prints(0), "", 0
        except of_sweeps.Refused as refused:
            printed = "", f"{refused}\n", refused.status
        tally.compare(name, "sweep --print 0", text, asked(program, "sweep", *words, "--print", "0", text=text), printed)


# ---- Formats and pages


def random_text(rng):
    """A plan of any version, of which some are refused."""
    way = rng.randrange(4)
    if way == 0: return families.text_of(rng)
    if way == 1: return random_plans.plan_input(rng, rng, "mixed")
    return versions.text_of(rng, versions.with_traffic(rng, versions.random_plan(rng, 100))[0])


def decoded(text):
    try:
        return text.decode()
    except UnicodeDecodeError:
        return None


STRANGE = ["-", "in", "0x1F", "_", "n11", "1e5", "none", "late", "samples", "by", "up", "of", "node", "-7", "clean", "falls", "and", "__proto__", "any", "a" * 32]


def formats(tally, program, seed, numbers, options):
    for number in numbers:
        rng, text = random.Random(f"{seed} {number} formats"), None
        while text is None or len(text) > 20_000: text = decoded(random_text(rng))
        names = iter(rng.sample(STRANGE, len(STRANGE)))
        if rng.random() < 0.4: text = re.sub(r'(?<=name = ")n\d+(?=")', lambda found: next(names, found[0]), text)
        words = rng.choice(of_formats.COMMANDS)
        tally.tried += 1
        found = list(of_formats.differences(program, words, text))
        tally.compare(f"plan {number} of seed {seed}", " ".join(words), text.encode(), "; ".join(found), "")


PAGE = {"figures": "explain", "settings": "check", "margin": "margin", "traffic": "traffic", "report": "run", "trace": "trace", "wave": "vcd"}


def pages(tally, program, seed, numbers, options):
    """Each text of a page, and the page's plan."""
    for number in numbers:
        rng, text = random.Random(f"{seed} {number} pages"), b"x" * 30_000
        while len(text) > 20_000: text = random_text(rng)
        page, checked = asked(program, "page", text=text), asked(program, "check", text=text)
        tally.tried += 1
        tally.count("answers", "refused" if checked[2] else "a page")
        name = f"plan {number} of seed {seed}"
        if checked[2]:
            tally.compare(name, "page", text, page, checked)
            continue
        for part, command in PAGE.items():
            shown = re.search(rf'<pre id="{part}"[^>]*>(.*?)</pre>', page[0], re.S)
            tally.compare(name, part, text, html.unescape(shown[1]) if shown else None, asked(program, command, text=text)[0])
        shown = re.search(r'<pre id="plan"[^>]*>(.*?)</pre>', page[0], re.S)
        tally.compare(name, "plan", text, html.unescape(shown[1]) if shown else None, text.decode())
