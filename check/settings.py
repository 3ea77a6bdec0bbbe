#!/usr/bin/env python3
"""The settings of a bus, by an independent program: what `settings` has to write of a text, from the three inequalities as margin.py has them.

usage: settings.py [--tick TIME] [--best N | --plan] < TEXT
"""
import re
import sys
from fractions import Fraction
from math import ceil, gcd

import margin
import plain

LIMITS = {
    "bitrate": (1, 1_000_000), "cable": (1, 2**20), "per": (1, 2**20), "out": (0, 2**20), "in": (0, 2**20), "tolerance": (0, 100_000),
    "rate_error": (0, 100_000), "nodes": (2, 64), "clock": (1, 1_000_000_000), "prescaler": (1, 1024), "prop": (1, 8), "ps1": (1, 8), "ps2": (1, 8), "sjw": (1, 4),
}
WIDE = {**LIMITS, "version": (4, 4), "tseg1": (2, 256), "tseg2": (2, 128), "sjw": (1, 128)}  # of texts with `version = 4`
TOP = ["bitrate", "cable", "per", "out", "in", "tolerance", "senders", "controller"], ["rate_error", "sample_point", "nodes"]
CONTROLLER = ["name", "clock"], ["prescaler", "prop", "ps1", "ps2", "sjw", "sjw_above_ps2"]
WIDE_CONTROLLER = ["name", "clock"], ["kind", "prescaler", "tseg1", "tseg2", "sjw"]
# The greatest prescaler, TSEG1, TSEG2 and jump width that the registers of a kind hold, by the bits of their fields.
KINDS = {
    **dict.fromkeys(["m_can", "fdcan", "tcan4550"], (2**9, 2**8, 2**7, 2**7)), "mcp2518fd": (2**8, 2**8, 2**7, 2**7),
    "flexcan": (2**10, 2**6 + 2**5, 2**5, 2**5), "sja1000": (2**6, 2**4, 2**3, 2**2), "c_can": (2**10, 2**4, 2**3, 2**2),
    "bxcan": (2**10, 2**4, 2**3, 2**2), "mcp2515": (2 * 2**6, 2**3 + 2**3, 2**3, 2**2), "at91": (2**7, 2**4, 2**3, 2**2),
    "xilinx": (2**8, 2**4, 2**3, 2**2), "book": (2**10, 8 + 8, 8, 4),
}
LEAST = {"mcp2515": 2, "at91": 2}  # the least prescaler, if it isn't 1
INEQUALITIES = {margin.DRIFT: "drift_fits_jump", margin.LATE: "bit_is_there_at_sample", margin.EARLY: "no_bit_too_early"}
LETTERS = set("abcdefghijklmnopqrstuvwxyzABCDEFGHIJKLMNOPQRSTUVWXYZ0123456789_-")
SECOND = 10**12


class Fault(Exception):
    pass


def is_whole(value):
    return isinstance(value, int) and not isinstance(value, bool)


def is_right(key, value, limits):
    if key == "kind": return isinstance(value, str) and value in KINDS
    if key == "sjw_above_ps2": return isinstance(value, bool)
    if key == "senders": return value in ("one", "any")
    if key == "sample_point": return isinstance(value, str) and re.fullmatch(r"[0-9]{2}(\.[0-9])? ?%", value) is not None
    if key == "name": return isinstance(value, str) and 1 <= len(value) <= 32 and set(value) <= LETTERS
    if key == "controller": return isinstance(value, list) and all(isinstance(table, dict) for table in value)
    low, high = limits[key]
    return is_whole(value) and low <= value <= high


def check(table, keys, limits=LIMITS):
    required, optional = keys
    for key in required:
        if key not in table: raise Fault(f"Missing({key})")
        if not is_right(key, table[key], limits): raise Fault(f"Kind({key})")
    for key in optional:
        if key in table and not is_right(key, table[key], limits): raise Fault(f"Kind({key})")
    for key in sorted(table, key=lambda word: word.encode()):
        if key not in required and key not in optional: raise Fault(f"Unknown({key})")


def is_wide(top):
    """Whether the controllers of a text have PROP_SEG and PHASE_SEG1 as one length."""
    return is_whole(top.get("version")) and top["version"] == 4


def read(text):
    try: top = plain.read_toml(text)
    except plain.Fault as fault: raise Fault(fault)
    wide = is_wide(top)
    check(top, (TOP[0], ["version", *TOP[1]]) if wide else TOP, WIDE if wide else LIMITS)
    for table in top["controller"]: check(table, WIDE_CONTROLLER if wide else CONTROLLER, WIDE if wide else LIMITS)
    if not top["controller"]: raise Fault("NoController")
    return top


class Setting:
    version = 1

    def __init__(self, prescaler, prop, ps1, ps2, sjw):
        self.prescaler, self.prop, self.ps1, self.ps2, self.sjw = prescaler, prop, ps1, ps2, sjw
        self.quanta, self.after = 1 + prop + ps1 + ps2, ps2
        self.parts = {"prop": prop, "ps1": ps1, "ps2": ps2}

    def words(self):
        return " ".join(f"{key} {value}" for key, value in [("prescaler", self.prescaler), *self.parts.items(), ("sjw", self.sjw)])


class WideSetting(Setting):
    version = 4

    def __init__(self, prescaler, tseg1, tseg2, sjw):
        self.prescaler, self.tseg1, self.tseg2, self.sjw = prescaler, tseg1, tseg2, sjw
        self.quanta, self.after = 1 + tseg1 + tseg2, tseg2
        self.parts = {"tseg1": tseg1, "tseg2": tseg2}


def wide_settings_of(top, controller):
    """The same of a controller whose PROP_SEG and PHASE_SEG1 are one length."""
    kind = controller.get("kind")
    bounds = zip(["prescaler", "tseg1", "tseg2", "sjw"], KINDS.get(kind, (1024, 256, 128, 128)))
    most = {key: min(controller.get(key, high), high) for key, high in bounds}
    clock, rate, error = controller["clock"], top["bitrate"], top.get("rate_error", 0)
    for prescaler in range(LEAST.get(kind, 1), most["prescaler"] + 1):
        # By fractions: a bit of so many quanta at the rate, less and more than that by the error.
        exact = Fraction(clock, rate * prescaler)
        least, greatest = ceil(exact / (1 + Fraction(error, 10**6))), int(exact / (1 - Fraction(error, 10**6)))
        for quanta in range(max(8, least), min(385, greatest) + 1):
            for tseg1 in range(2, min(most["tseg1"], quanta - 3) + 1):
                tseg2 = quanta - 1 - tseg1
                if tseg2 > most["tseg2"]: continue
                widest = min(tseg1 - 1, tseg2, most["sjw"])
                if kind == "mcp2515":
                    if prescaler % 2 or tseg2 > tseg1: continue
                    widest = min(widest, tseg2 - 1)
                for sjw in range(widest, 0, -1): yield WideSetting(prescaler, tseg1, tseg2, sjw)


def settings_of(top, controller):
    """Returns the settings that have the bit rate, in order."""
    if is_wide(top):
        yield from wide_settings_of(top, controller)
        return
    most = {key: controller.get(key, LIMITS[key][1]) for key in CONTROLLER[1][:5]}
    clock, rate, error = controller["clock"], top["bitrate"], top.get("rate_error", 0)
    for prescaler in range(1, most["prescaler"] + 1):
        fit = [quanta for quanta in range(8, 26) if abs(clock - rate * prescaler * quanta) * 10**6 <= error * rate * prescaler * quanta]
        if not fit: continue
        for prop in range(1, most["prop"] + 1):
            for ps1 in range(1, most["ps1"] + 1):
                for ps2 in range(2, most["ps2"] + 1):
                    if 1 + prop + ps1 + ps2 not in fit: continue
                    widest = min(4, ps1, most["sjw"], 4 if controller.get("sjw_above_ps2") else ps2)
                    for sjw in range(widest, 0, -1): yield Setting(prescaler, prop, ps1, ps2, sjw)


def plan_text(top, controller, setting, tick):
    num, den = setting.prescaler * SECOND, controller["clock"] * tick
    num, den = num // gcd(num, den), den // gcd(num, den)
    lines = [f"# {controller['name']}, clock {controller['clock']} Hz, prescaler {setting.prescaler}", f"version = {setting.version}"]
    count, later = min(top.get("nodes", 2), 4), 200 if top["senders"] == "one" else 0
    lines += [f"end = {ceil(Fraction(200 * count * setting.quanta * num, den))}", f"per = {top['per']}", 'sync = "book"']
    for n in range(count):
        name, x, number, ready = "abcd"[n], [0, top["cable"]][n % 2], 2032 + n, 30 + later * n
        lines += ["", "[[node]]", f'name = "{name}"', "offset = 0", f"num = {num}", f"den = {den}"]
        lines += [f"{key} = {value}" for key, value in setting.parts.items()] + [f"sjw = {setting.sjw}", f"x = {x}"]
        lines += [f"out = {top['out']}", f"in = {top['in']}", f"tolerance = {top['tolerance']}"]
        lines += ["", "[[node.frame]]", f"id = {number:#x}", "dlc = 8", f"ready = {ready * setting.quanta}", f"bytes = [{', '.join(['0x3c'] * 8)}]"]
    return "".join(line + "\n" for line in lines)


def family_of(text):
    try: plan = plain.read_plan(text.encode())
    except plain.Fault: return None
    return margin.Family(plan, margin.clocks_of(plain.read_toml(text.encode())))


def part(asked, growth):
    return 0 if growth is None else growth * 1000 // max(asked, 1)


class Row:
    def __init__(self, top, setting, family):
        self.setting = setting
        self.longer = [margin.longer_cable(family, one) for one in (True, False)]
        self.wider = [margin.wider_tolerance(family, one) for one in (True, False)]
        which = 0 if top["senders"] == "one" else 1
        self.margin = min(part(top["cable"], self.longer[which]), part(top["tolerance"], self.wider[which]))


def longer_cable(family, one):
    """The same as margin's, up to the longest cable that a plan may have."""
    places = [place.x for place in family.plan.places]
    length, per = max(places) - min(places), family.plan.per
    return margin.greatest(lambda n: family.holds(one, stretch=Fraction(length + n, length)), (2**20 - length * per) // per)


def wider_tolerance(family, one):
    most = max(tolerance for _, tolerance in family.clocks)
    return margin.greatest(lambda ppm: family.holds(one, wider=ppm), 100_000 - most)


margin.longer_cable, margin.wider_tolerance = longer_cable, wider_tolerance


def search(top, controller, tick):
    """Returns how many settings have the bit rate, the rows in order, and what refuses the best if there is none."""
    one = top["senders"] == "one"
    rows, refusals, count = [], [], 0
    for setting in settings_of(top, controller):
        count += 1
        family = family_of(plan_text(top, controller, setting, tick))
        if family is None: continue
        failure = next(family.failures(one), None)
        if failure is None: rows.append(Row(top, setting, family))
        else: refusals.append((failure[4] - failure[3], setting, failure))
    wish = top.get("sample_point")
    rows.sort(key=lambda row: (abs(sample_of(row.setting) - Fraction(wish.rstrip("% ")) * 10) if wish else 0, -row.margin))
    refusals.sort(key=lambda refusal: -refusal[0])
    return count, rows, refusals[0] if refusals and not rows else None


def figure(asked, growth):
    return "none" if growth is None else str(asked + growth)


def sample_of(setting):
    """Returns the sample point in thousandths of a bit."""
    return (setting.quanta - setting.after) * 1000 // setting.quanta


def error_of(top, controller, setting):
    divisor = top["bitrate"] * setting.prescaler * setting.quanta
    return ceil(Fraction(abs(controller["clock"] - divisor) * 10**6, divisor))


def nearest_rate(top, controller):
    """Yields the line of the setting with a jump width of 1 whose bit rate is least off, if one is at most a tenth off."""
    near = min(settings_of({**top, "rate_error": 100_000}, {**controller, "sjw": 1}), key=lambda setting: error_of(top, controller, setting), default=None)
    if near is None: return
    rate = controller["clock"] * 1000 // (near.prescaler * near.quanta)
    yield f"nearest rate {margin.point(rate, 3)} bit/s error {error_of(top, controller, near)} ppm: {near.words()}"


def row_line(top, controller, number, row):
    s = row.setting
    error, sample = error_of(top, controller, s), sample_of(s)
    tolerance = " ".join(f"{figure(top['tolerance'], n)} {name}" for n, name in zip(row.wider, ("one", "any")))
    cable = " ".join(f"{figure(top['cable'], n)} {name}" for n, name in zip(row.longer, ("one", "any")))
    return (f"setting {number} {s.words()} quanta {s.quanta} sample {sample // 10}.{sample % 10} % error {error} ppm "
            f"tolerance {tolerance} cable {cable} margin {margin.point(row.margin, 3)}")


def lines(top, controller, tick, best):
    count, rows, nearest = search(top, controller, tick)
    yield f"controller {controller['name']} clock {controller['clock']} Hz: {len(rows)} settings"
    for number, row in enumerate(rows[:best], 1): yield row_line(top, controller, number, row)
    if rows: return
    if nearest:
        _, setting, (kind, i, j, left, right) = nearest
        takes, has = ceil(Fraction(left * tick, 10**6)), int(Fraction(right * tick, 10**6))
        yield f"nearest {setting.words()}: {INEQUALITIES[kind]} takes {margin.point(takes, 3)} ns and has {margin.point(has, 3)} ns"
    elif count: yield f"{count} settings have the bit rate, and the plan of none can be run"
    else:
        yield f"no setting has {top['bitrate']} bit/s within {top.get('rate_error', 0)} ppm"
        yield from nearest_rate(top, controller)


def settings_text(text, tick=1000, best=None, plan=False):
    top = read(text)
    if not plan: return "".join(line + "\n" for controller in top["controller"] for line in lines(top, controller, tick, best))
    first = top["controller"][0]
    _, rows, _ = search(top, first, tick)
    if not rows: raise Fault("NoSetting")
    return plan_text(top, first, rows[0].setting, tick)


def main():
    words, tick, best, plan = sys.argv[1:], 1000, None, False
    while words:
        word = words.pop(0)
        if word == "--plan": plan = True
        elif word == "--best": best = int(words.pop(0))
        elif word == "--tick":
            time = words.pop(0)
            tick = int(time[:-2]) * margin.UNITS[time[-2:]]
        else: sys.exit(__doc__)
    try: sys.stdout.write(settings_text(sys.stdin.buffer.read(), tick, best, plan))
    except Fault as fault:
        sys.stderr.write(f"fault: {fault}\n")
        sys.exit(1)


if __name__ == "__main__":
    main()
