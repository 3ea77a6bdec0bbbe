#!/usr/bin/env python3
"""Makes the table of docs/use/settings-beside.md on settings that standards, manuals and examples recommend, and what `settings` says of each.

usage: recommended.py PROGRAM     status 1 if `settings` lists no setting for some row

Each row is asked for its kind of controllers, cable and delays, with 5 ns a metre, 100 ppm and any senders. The longest cable of a setting is asked for with
a cable of 1 m, which changes no other figure of it. All sources are cited from memory.
"""
import re
import subprocess
import sys
from collections import namedtuple

ROW = re.compile(r"setting (\d+) prescaler (\d+) tseg1 (\d+) tseg2 (\d+) sjw (\d+) quanta (\d+) sample (\S+) % error (\d+) ppm "
                 r"tolerance (\S+) one (\S+) any cable (\S+) one (\S+) any margin (\S+)")
Row = namedtuple("Row", "place setting sample tolerance cable")
Asked = namedtuple("Asked", "source kind clock rate metres setting out into", defaults=(120, 130))

LENGTHS = {1_000_000: 20, 500_000: 40, 125_000: 400, 100_000: 500, 95_238: 500, 83_333: 500, 50_000: 1000, 33_333: 1000, 20_000: 2000, 10_000: 4000}
CIA = [(1_000_000, 25, (2, 5, 2)), (800_000, 50, (2, 7, 2)), (500_000, 100, (2, 13, 2)), (250_000, 250, (4, 13, 2)), (125_000, 500, (8, 13, 2)),
       (50_000, 1000, (20, 13, 2)), (20_000, 2500, (50, 13, 2)), (10_000, 5000, (100, 13, 2))]
# BTR0 and BTR1 of an SJA1000 at 16 MHz, which divides 8 MHz: PCAN-Basic's constants that its users take for bit rates
PEAK = [(1_000_000, 0x0014), (500_000, 0x001C), (125_000, 0x031C), (100_000, 0x432F), (95_238, 0xC34E), (83_333, 0x852B), (50_000, 0x472F), (33_333, 0x8B2F),
        (20_000, 0x532F), (10_000, 0x672F)]


def of_btr(word):
    """Prescaler, TSEG1, TSEG2 and jump width of an SJA1000's registers."""
    return (word >> 8 & 63) + 1, (word & 15) + 1, (word >> 4 & 7) + 1, (word >> 14) + 1


ASKED = [
    *(Asked("CiA 301, 4.02", "book", 16, rate, metres, (*setting, 1)) for rate, metres, setting in CIA),
    Asked("CiA 301, 4.2: 87.5 %", "book", 16, 1_000_000, 25, (1, 13, 2, 1)),
    Asked("SAE J1939-11: 87.5 %", "book", 16, 250_000, 40, (4, 13, 2, 1)),
    Asked("ISO 11783-2: 80 %", "book", 20, 250_000, 40, (4, 15, 4, 1)),
    Asked("Bosch, CAN bit timing (Hartwich, Bassemir)", "c_can", 10, 1_000_000, 40, (1, 7, 2, 1), 50, 30),
    Asked("Bosch, CAN bit timing (Hartwich, Bassemir)", "c_can", 2, 100_000, 40, (2, 5, 4, 4), 200, 80),
    Asked("Bosch, C_CAN: reset value 0x2301", "c_can", 8, 500_000, 40, (2, 4, 3, 1)),
    Asked("Bosch, M_CAN: reset value 0x06000A03", "m_can", 8, 500_000, 40, (1, 11, 4, 4)),
    *(Asked(f"PEAK, PCAN-Basic: 0x{word:04X}", "sja1000", 8, rate, LENGTHS[rate], of_btr(word)) for rate, word in PEAK),
    Asked("Microchip, DS20001801, 5: example", "mcp2515", 20, 125_000, 400, (10, 9, 6, 1)),
    Asked("Microchip, DS20006027: reset value", "mcp2518fd", 40, 500_000, 40, (1, 63, 16, 16)),
    Asked("ST, STM32F10x library: example", "bxcan", 36, 1_000_000, 20, (4, 3, 5, 1)),
    Asked("ST, STM32F4xx library: example", "bxcan", 30, 1_000_000, 20, (2, 6, 8, 1)),
    Asked("NXP, AN5413, S32K1: example", "flexcan", 8, 500_000, 40, (1, 11, 4, 4)),
    Asked("Atmel, AT91SAM9263: example", "at91", 48, 500_000, 20, (6, 9, 6, 4), 50, 30),
]


def listed(program, asked, metres):
    text = (f'version = 4\nbitrate = {asked.rate}\ncable = {metres}\nper = 5\nout = {asked.out}\nin = {asked.into}\ntolerance = 100\nsenders = "any"\nrate_error = 20\n'
            f'[[controller]]\nname = "{asked.kind}"\nkind = "{asked.kind}"\nclock = {asked.clock * 1_000_000}\n')
    ran = subprocess.run([program, "settings"], input=text.encode(), capture_output=True, check=True)
    found = [it.groups() for it in map(ROW.match, ran.stdout.decode().splitlines()[1:]) if it]
    return [Row(int(it[0]), tuple(int(n) for n in it[1:5]), it[6], it[9], it[11]) for it in found]


def with_setting(rows, setting): return next((row for row in rows if row.setting == setting), None)


def words(setting): return ", ".join(map(str, setting))


def line(program, asked):
    """A row of the table."""
    rows = listed(program, asked, asked.metres)
    own, best = with_setting(rows, asked.setting), rows[0] if rows else None
    cable = own.cable if own else getattr(with_setting(listed(program, asked, 1), asked.setting), "cable", "none")
    sample = f"{(1 + asked.setting[1]) * 1000 // sum(asked.setting[1:3], 1) / 10} %"
    place = f"{own.place} of {len(rows)}" if own else "refused"
    first = "the same" if best is own else f"{words(best.setting)}: {best.sample} %" if best else "none"
    rate = f"{asked.rate / 1000:.6g}"
    return [asked.source, f"`{asked.kind}`", asked.clock, rate, asked.metres, words(asked.setting), sample, cable, own.tolerance if own else "", place, first,
            best.cable if best else "", best.tolerance if best else ""], bool(rows)


def main(program):
    print("| Source | Kind | MHz | kbit/s | Cable, m | Recommended | Samples at | Longest, m | ppm | Place | First | Longest, m | ppm |")
    print("|---|---|---|---|---|---|---|---|---|---|---|---|---|")
    found = [line(program, asked) for asked in ASKED]
    for cells, _ in found: print("| " + " | ".join(map(str, cells)) + " |")
    return not all(some for _, some in found)


if __name__ == "__main__":
    if len(sys.argv) != 2: sys.exit(__doc__)
    sys.exit(main(sys.argv[1]))
