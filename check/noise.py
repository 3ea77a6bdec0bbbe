#!/usr/bin/env python3
"""Makes random plans of version 4 with noise, and compares the disturbances that the program reads with those of this script.

usage: noise.py PROGRAM [PLANS [SEED]]     1,000 plans and seed 1 if nothing is named

The program's disturbances are those that `format` writes. Those of this script are made from the words of docs/use/units.md alone, by a SplitMix64 of its own,
whose first words for the seed 1234567 are compared with the public ones first. Each plan has a random tick, rate, length, seed and end, one to five nodes, none to
three disturbances of its own, and the noise at a node, at a place, or at none of these. A tenth of the plans is made wrong: then the program has to refuse them
with the fault that is named here, and so if there are more than 256 disturbances. Status 1 if an answer differs.
"""
import random
import subprocess
import sys
import tempfile
import tomllib

FIRST_WORDS = [6457827717110365317, 3203168211198807973, 9817491932198370423, 4593380528125082431, 16408922859458223821]
MOST = 256
SECOND = 10**15  # femtoseconds
TICKS = {"1ns": 10**6, "10ns": 10**7, "125ps": 125_000, "0.5us": 5 * 10**8, "2 ns": 2 * 10**6}


class SplitMix64:
    """The generator of Steele, Lea and Flood, as Vigna's public program has it."""

    def __init__(self, seed):
        self.state = seed

    def word(self):
        self.state = self.state + 0x9E3779B97F4A7C15 & 2**64 - 1
        z = self.state
        z = (z ^ z >> 30) * 0xBF58476D1CE4E5B9 & 2**64 - 1
        z = (z ^ z >> 27) * 0x94D049BB133111EB & 2**64 - 1
        return z ^ z >> 31


class Case:
    """A plan's text, and the disturbances or the fault that it has to have."""

    def __init__(self, dice):
        self.dice = dice
        self.tick_text = dice.choice(list(TICKS))
        self.tick = TICKS[self.tick_text]
        self.end = dice.randint(1, 10**12) if dice.random() < 0.1 else dice.randint(1, 10**8)
        self.nodes = [(f"n{index}", dice.randint(0, 40)) for index in range(dice.randint(1, 5))]
        self.own = [self.disturbance() for _ in range(dice.choice([0, 0, 1, 2, 3]))]
        # about as many as these begin before the end
        self.rate = max(1, SECOND * dice.choice([1, 3, 30, 100, 200, 240, 260, 400]) // (self.end * self.tick)) if dice.random() < 0.9 else dice.randint(1, 10**6)
        self.length = dice.choice([1, 1, dice.randint(1, 500), dice.randint(1, 5000), max(1, SECOND // (self.tick * self.rate) - dice.randint(0, 3))])
        self.seed = dice.choice([0, 1, dice.randint(0, 2**48 - 1)])
        self.spot = dice.choice([None, None, "node", "x"])
        self.name, self.x = dice.choice(self.nodes)[0], dice.randint(0, 40)
        self.wrong = dice.choice(WRONG) if dice.random() < 0.1 else None

    def disturbance(self):
        start = self.dice.randint(0, self.end)
        return {"x": self.dice.randint(0, 40), "from": start, "to": start + self.dice.randint(1, 1000)} if start < 10**11 else {"x": 0, "from": 0, "to": 1}

    def length_text(self):
        exact = self.length * self.tick
        units = [(unit, factor) for unit, factor in (("fs", 1), ("ps", 10**3), ("ns", 10**6), ("us", 10**9)) if exact % factor == 0 and exact // factor < 10**15]
        if units and self.dice.random() < 0.7:
            unit, factor = self.dice.choice(units)
            return f'"{exact // factor}{unit}"'
        return str(self.length)

    def noise(self):
        keys = {"rate": str(self.rate), "length": self.length_text(), "seed": str(self.seed)}
        if self.spot == "node": keys["node"] = f'"{self.name}"'
        if self.spot == "x": keys["x"] = str(self.x)
        if self.wrong: self.wrong(self, keys)
        items = list(keys.items())
        self.dice.shuffle(items)
        return "{ " + ", ".join(f"{key} = {value}" for key, value in items) + " }"

    def text(self):
        lines = ["version = 4", f'tick = "{self.tick_text}"', f"end = {self.end}", "per = 1", f"noise = {self.noise()}"]
        # so slow that no node has too many quanta
        for name, x in self.nodes:
            lines += ["[[node]]", f'name = "{name}"', "offset = 0", "num = 1000000", "den = 1", "tseg1 = 6", "tseg2 = 3", "sjw = 1", f"x = {x}", "out = 1", "in = 1"]
        for own in self.own:
            lines += ["[[disturbance]]"] + [f"{key} = {value}" for key, value in own.items()]
        return "\n".join(lines) + "\n"

    def bursts(self):
        """Returns the disturbances of the noise, one more than a plan may have at most; None if no tick is left between them."""
        gap = SECOND // (self.tick * self.rate) - self.length
        if gap < 1: return None
        words, ended, found = SplitMix64(self.seed), 0, []
        while len(found) <= MOST:
            start = ended + 1 + words.word() % (2 * gap - 1)
            if start >= self.end: break
            place = words.word() % (len(self.nodes) if self.spot is None else 1)
            where = {"node": self.name} if self.spot == "node" else {"x": self.x if self.spot == "x" else self.nodes[place][1]}
            ended = start + self.length
            found.append({**where, "from": start, "to": min(ended, self.end)})
        return found

    def wanted(self):
        """Returns the disturbances of the plan, or its fault."""
        if self.wrong: return "fault: Kind(noise)"
        bursts = self.bursts()
        if bursts is None or len(self.own) + len(bursts) > MOST: return "fault: Kind(noise)"
        return self.own + bursts


def put(key, value):
    return lambda case, keys: keys.__setitem__(key, value)


def lose(key):
    return lambda case, keys: keys.pop(key)


def twice(case, keys):
    keys["node"], keys["x"] = f'"{case.name}"', "1"


WRONG = [
    lose("rate"), lose("length"), lose("seed"), put("rate", "0"), put("rate", "-1"), put("rate", '"4"'), put("rate", "2.5"), put("length", "0"), put("length", '"2m"'),
    put("length", '"0.3fs"'), put("seed", "-1"), put("seed", "true"), put("seed", "281474976710656"), put("rat", "4"), put("to", "4"), put("node", '"nobody"'), put("node", "1"),
    put("x", "2147483648"), put("x", "-1"), twice,
]


def said(program, text):
    """Returns the disturbances that the program reads, or its fault."""
    with tempfile.NamedTemporaryFile("w", suffix=".toml") as file:
        file.write(text)
        file.flush()
        done = subprocess.run([program, "format", file.name], capture_output=True, text=True, timeout=60)
    if done.returncode: return (done.stdout + done.stderr).splitlines()[0]
    return tomllib.loads(done.stdout).get("disturbance", [])


def main(program, plans=1000, seed=1):
    words = SplitMix64(1234567)
    if [words.word() for _ in FIRST_WORDS] != FIRST_WORDS: sys.exit("noise.py: its generator is not SplitMix64")
    dice, counts = random.Random(seed), {"bursts": 0, "refused": 0, "wrong": 0}
    for number in range(int(plans)):
        case = Case(dice)
        text, wanted = case.text(), case.wanted()
        got = said(program, text)
        counts["refused" if isinstance(wanted, str) else "bursts"] += 1 if isinstance(wanted, str) else len(wanted) - len(case.own)
        if got != wanted:
            counts["wrong"] += 1
            print(f"plan {number}: {str(got)[:300]} in the place of {str(wanted)[:300]}\n{text}")
    print(f"{plans} plans, {counts['bursts']} disturbances by noise, {counts['refused']} refused, {counts['wrong']} differ")
    return counts["wrong"] > 0


if __name__ == "__main__":
    sys.exit(main(*sys.argv[1:2], *map(int, sys.argv[2:])) if len(sys.argv) > 1 else __doc__)
