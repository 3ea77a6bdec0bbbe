#!/usr/bin/env python3
"""Makes random plans of version 4, each written with units and as numbers, and compares what the program says of both.

usage: units.py PROGRAM [PLANS [SEED]]     300 plans and seed 1 if nothing is named

Each plan has two to four nodes. As numbers it has ticks, units of length, quanta, `num` and `den`, by exact fractions of this script. With units it has times,
lengths and `per` as texts with a random unit and decimals, controllers as tables whose keys some nodes override, clocks with a prescaler, a bit rate or both, cycles
and times of the plan. `check`, `run` and `margin` have to print the same. Then one text is made wrong: a time between two ticks, a bit rate that the clock doesn't
give, a cycle between two quanta. The program has to refuse it with the fault that the script names. Status 1 if an answer differs.
"""
import random
import subprocess
import sys
from fractions import Fraction

TIMES = {"fs": 1, "ps": 10**3, "ns": 10**6, "us": 10**9, "ms": 10**12, "s": 10**15}
LENGTHS = {"um": 1, "mm": 10**3, "cm": 10**4, "m": 10**6, "km": 10**9}
TICKS = [10**6, 125_000, 500_000, 12_500_000, 5 * 10**6, 10**5]  # of a tick, in femtoseconds
CLOCKS = [8, 10, 12, 16, 20, 24, 36, 40, 42, 48, 80]  # MHz
SETTINGS = [(6, 7, 2, 1), (5, 6, 2, 1), (3, 4, 2, 2), (2, 3, 2, 1), (8, 7, 4, 3)]


def decimal(amount, factor):
    """Returns amount / factor as a decimal number of at most 15 digits; None if there is none."""
    value = Fraction(amount, factor)
    places = 0
    while value.denominator != 1:
        value *= 10
        places += 1
        if places > 12: return None
    digits = str(value.numerator).rjust(places + 1, "0")
    if len(digits) > 15: return None
    return digits[: len(digits) - places] + ("." + digits[len(digits) - places :] if places else "")


def spelled(dice, units, amount):
    """Returns an amount of the smallest unit as a text with a random unit."""
    texts = [f'"{number}{gap}{unit}"' for unit, factor in units.items() if (number := decimal(amount, factor)) for gap in ("", " ")]
    return dice.choice(texts)


class Plan:
    """A plan in both forms: lines with units, and lines of numbers."""

    def __init__(self, dice):
        self.dice = dice
        self.tick = dice.choice(TICKS)
        self.unit = dice.choice([10**6, 10**6, 10**5, 10**4])
        self.rate = dice.choice([125_000, 250_000, 500_000])
        self.units, self.numbers = ["version = 4"], ["version = 4"]
        self.units.append(f"tick = {spelled(dice, TIMES, self.tick)}")
        if self.unit != 10**6 or dice.random() < 0.2:
            self.units.append(f"unit = {spelled(dice, LENGTHS, self.unit)}")
        self.end = 10**12 * dice.randint(2, 6) // self.tick
        self.time("end", self.end)
        per = dice.choice([1, 2, 5])  # ticks a unit
        along = Fraction(per * self.tick, self.unit) * 10**6  # femtoseconds a metre
        text = decimal(along.numerator, along.denominator * 10**6)
        self.both("per", f'"{text}ns/m"' if text and dice.random() < 0.8 else per, per)
        rules = dice.choice(['"after"', '"book"'])
        self.both("sync", rules, rules)
        self.controllers = []
        for index in range(dice.randint(1, 2)):
            self.controllers.append(self.controller(index))
        self.nodes = [self.node(index) for index in range(dice.randint(2, 4))]
        if dice.random() < 0.5: self.disturbance()

    def both(self, key, with_unit, number):
        self.units.append(f"{key} = {with_unit}")
        self.numbers.append(f"{key} = {number}")

    def text(self, ticks):
        return spelled(self.dice, TIMES, ticks * self.tick) if self.dice.random() < 0.85 else ticks

    def time(self, key, ticks):
        self.both(key, self.text(ticks), ticks)

    def rate_text(self):
        rate = self.rate
        return self.dice.choice([f'"{rate // 1000}k"', f'"{rate // 1000}kbit/s"', f'"{rate // 1000} kbit/s"', f'"0.{rate // 1000}M"', f'"{rate} bit/s"'])

    def controller(self, index):
        """Makes a table; returns what it says."""
        dice = self.dice
        says = {"setting": dice.choice(SETTINGS), "out": dice.randint(1, 30), "in": dice.randint(1, 30), "tolerance": dice.choice([None, 50, 100]),
                "ppm": dice.choice([None, None, -30, 20]), "bitrate": dice.random() < 0.5, "queue": dice.choice([None, "fifo"])}
        self.units.append(f"[controller.c{index}]")
        prop, ps1, ps2, sjw = says["setting"]
        self.units += [f"prop = {prop}", f"ps1 = {ps1}", f"ps2 = {ps2}", f"sjw = {sjw}", f"out = {self.text(says['out'])}", f"in = {self.text(says['in'])}"]
        if says["bitrate"]: self.units.append(f"bitrate = {self.rate_text()}")
        for key in ("tolerance", "ppm"):
            if says[key] is not None: self.units.append(f"{key} = {says[key]}")
        if says["queue"]: self.units.append('queue = "fifo"')
        return says

    def clock_for(self, quanta):
        """Returns a clock in Hz that gives the bit rate by these quanta, with its prescaler."""
        fitting = [(mega * 10**6, mega * 10**6 // (self.rate * quanta)) for mega in CLOCKS if mega * 10**6 % (self.rate * quanta) == 0]
        fitting = [(hertz, prescaler) for hertz, prescaler in fitting if Fraction(prescaler * 10**15, hertz * self.tick) >= 1]
        return self.dice.choice(fitting) if fitting else None

    def node(self, index):
        dice = self.dice
        number = dice.randrange(len(self.controllers))
        says = self.controllers[number]
        setting = says["setting"]
        override = []
        for _ in range(20):
            clock = self.clock_for(1 + sum(setting[:3]))
            if clock and (not override or setting != says["setting"]): break
            setting = dice.choice(SETTINGS)
            override = [f"{key} = {value}" for key, value, own in zip(("prop", "ps1", "ps2", "sjw"), setting, says["setting"]) if value != own]
        else:
            raise LookupError
        hertz, prescaler = clock
        quantum = Fraction(prescaler * 10**15, hertz * self.tick)
        ppm = says["ppm"]
        if dice.random() < 0.3: ppm = dice.choice([0, 40, -15])
        self.units += ["[[node]]", f'name = "n{index}"', f'controller = "c{number}"', *override]
        self.units.append(f"clock = {spelled(dice, {'Hz': 1, 'kHz': 10**3, 'MHz': 10**6}, hertz)}")
        if not says["bitrate"] or dice.random() < 0.3: self.units.append(f"prescaler = {prescaler}")
        if not says["bitrate"] and dice.random() < 0.3: self.units.append(f"bitrate = {self.rate_text()}")
        if ppm is not None and ppm != says["ppm"]: self.units.append(f"ppm = {ppm}")
        prop, ps1, ps2, sjw = setting
        self.numbers += ["[[node]]", f'name = "n{index}"', f"num = {quantum.numerator}", f"den = {quantum.denominator}"]
        if ppm is not None: self.numbers.append(f"ppm = {ppm}")
        self.numbers += [f"prop = {prop}", f"ps1 = {ps1}", f"ps2 = {ps2}", f"sjw = {sjw}", f"out = {says['out']}", f"in = {says['in']}"]
        if says["tolerance"] is not None: self.numbers.append(f"tolerance = {says['tolerance']}")
        offset = dice.randint(0, 2000)
        self.time("offset", offset)
        x = dice.randint(0, 30)
        self.both("x", spelled(dice, LENGTHS, x * self.unit) if dice.random() < 0.8 else x, x)
        for count in range(dice.randint(0, 2)):
            self.frame(index, count, quantum, offset, ppm or 0)
        return quantum

    def frame(self, index, count, quantum, offset, ppm):
        dice = self.dice
        self.both("[[node.frame]]\nid", 16 * index + count + 256, 16 * index + count + 256)
        self.both("dlc", 2, 2)
        self.both("bytes", "[1, 2]", "[1, 2]")
        if dice.random() < 0.7:
            at = dice.randint(0, self.end // 2)
            length = quantum * Fraction(10**6 + ppm, 10**6)
            ready = max(0, -((offset - at) // length))  # the quotient rounded up
            self.both(*("ready", ready, ready)) if dice.random() < 0.2 else self.pair("at", self.text(at), "ready", ready)
        if dice.random() < 0.7:
            every = dice.randint(2000, 20000) * quantum.denominator
            self.pair("cycle", self.text(int(every * quantum)), "every", every)
        if dice.random() < 0.4: self.time("deadline", dice.randint(1, 10**6))
        if dice.random() < 0.4: self.time("jitter", dice.randint(1, 10**6))

    def pair(self, key, with_unit, other, number):
        self.units.append(f"{key} = {with_unit}")
        self.numbers.append(f"{other} = {number}")

    def disturbance(self):
        start = self.dice.randint(0, self.end // 2)
        self.both("[[disturbance]]\nx", 3, 3)
        self.time("from", start)
        self.time("to", start + self.dice.randint(1, 400))


def wrong(dice, plan):
    """Returns the plan with one text that is wrong, and the fault; None if it has no such text."""
    choices = []
    for place, line in enumerate(plan.units):
        key = line.split("\n")[-1].split(" = ")[0]
        if key in ("end", "offset", "from", "to", "deadline", "jitter"):
            choices.append((place, f'{key} = "{decimal(3 * plan.tick + plan.tick // 2, 1)}fs"', f"Kind({key})"))
        if key == "bitrate" and place > plan.units.index("[[node]]"): choices.append((place, 'bitrate = "333.333k"', "Kind(bitrate)"))
        if key == "cycle": choices.append((place, 'cycle = "1fs"', "Kind(cycle)"))
        if key == "tick": choices.append((place, None, "Missing(tick)"))
    if not choices: return None
    place, line, fault = dice.choice(choices)
    lines = plan.units[:]
    head = lines[place].split("\n")[:-1]
    lines[place : place + 1] = head + ([line] if line else [])
    if fault == "Missing(tick)" and not any(mark in text for text in lines for mark in ('s"', "clock")): return None
    return "\n".join(lines) + "\n", fault


def asked(program, words, text):
    done = subprocess.run([program, *words], input=text.encode(), capture_output=True, timeout=300)
    return done.returncode, done.stdout.decode(), done.stderr.decode()


def main(program, plans=300, seed=1):
    dice = random.Random(int(seed))
    compared = taken = refused = bad = 0
    while compared < int(plans):
        try:
            plan = Plan(dice)
        except LookupError:
            continue
        units, numbers = ("\n".join(lines) + "\n" for lines in (plan.units, plan.numbers))
        compared += 1
        for words in (["check"], ["run"], ["margin"]):
            one, other = asked(program, words, units), asked(program, words, numbers)
            taken += words == ["check"] and one[0] == 0
            if one[:2] != other[:2] or one[2].split("\n")[0] != other[2].split("\n")[0]:
                print(f"{' '.join(words)} differs:\n{units}---\n{numbers}---\n{one[2]}{other[2]}{one[1][:300]}---\n{other[1][:300]}")
                bad += 1
                break
        made = wrong(dice, plan)
        if made:
            refused += 1
            status, _, said = asked(program, ["check"], made[0])
            if status != 1 or not said.startswith(f"fault: {made[1]}"):
                print(f"not refused by {made[1]} but {said}:\n{made[0]}")
                bad += 1
    print(f"{compared} plans with units and as numbers, {taken} that can be run, {refused} wrong ones, {bad} differ")
    return 1 if bad else 0


if __name__ == "__main__":
    if len(sys.argv) not in (2, 3, 4): sys.exit(__doc__)
    sys.exit(main(*sys.argv[1:]))
