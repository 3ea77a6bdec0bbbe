"""The comparison `commands`: all commands that plain.py has, on random plans and record texts, and which rows of the machine, the counters and the bit
clock the plans reached. It counts these by classes in the place of plain.py's own.
"""
import random
import re
import sys
from collections import Counter

sys.dont_write_bytecode = True
import plain
import random_plans
from tally import asked_bare

# ---- The rows that random plans must reach

# State (and what it depends on), sample (r recessive, d dominant), what happened, next state. Words parted by | stand for one row each.
ROWS = """
integrating          r  Nothing                       integrating|waiting|sending
integrating          d  Nothing                       integrating
idle                 r  Nothing                       waiting|sending
idle                 d  Nothing                       receiving
intermission 1|2     r  Nothing                       intermission
intermission 1|2     d  Nothing                       overload
intermission 3       r  Nothing                       waiting|sending|suspend
intermission 3       d  Nothing                       receiving|sending
suspend              r  Nothing                       suspend|waiting|sending
suspend              d  Nothing                       receiving
active|overload      r  TxFlagBit|RxFlagBit           flag|wait
active|overload      d  Nothing                       flag|wait
passive              r  Nothing                       passive|wait
passive              d  Nothing                       passive|wait
passive              d  PassiveAck                    passive
wait-active|wait-overload|wait-passive  r  Nothing    delimiter
wait-active|wait-overload|wait-passive  d  Nothing|TxLong|RxLong  wait
wait-active|wait-passive  d  RxAfterFlag              wait
delimiter            r  Nothing                       delimiter|intermission
delimiter            d  TxError_Bit|RxError_Form      active|passive
delimiter            d  Nothing                       overload
off                  r  Nothing                       off
off                  d  Nothing                       off
off                  r  Recovered                     waiting|sending
s-SOF|s-identifier|s-RTR|s-stuff<RTR|s-stuff>RTR|s-control|s-data|s-CRC  d  Nothing  sending
s-identifier|s-RTR|s-stuff<RTR|s-stuff>RTR|s-control|s-data|s-CRC  r  Nothing  sending
s-identifier|s-RTR   d  Nothing                       receiving
s-SRR|s-IDE          r  Nothing                       sending
s-SRR|s-IDE          d  Nothing                       receiving
s-SOF|s-identifier|s-RTR|s-stuff<RTR|s-stuff>RTR|s-control|s-data|s-CRC  r  TxError_Bit  active|passive
s-stuff<RTR          d  TxFree                        active|passive
s-stuff>RTR|s-control|s-data|s-CRC|s-CRC_delimiter|s-ACK_delimiter|s-EOF_1-6|s-EOF_7  d  TxError_Bit  active|passive
s-CRC_delimiter|s-ACK_delimiter|s-EOF_1-6  r  Nothing  sending
s-ACK_slot           d  Nothing                       sending
s-ACK_slot           r  TxError_Ack                   active
s-ACK_slot           r  TxFree                        passive
s-EOF_7              r  Sent                          intermission
receiving            r  Nothing                       receiving|ending
receiving            d  Nothing                       receiving|ending
receiving            r  RxError_Stuff                 active|passive
receiving            d  RxError_Stuff                 active|passive
right-CRC_delimiter|wrong-CRC_delimiter  d  RxError_Form  active|passive
right-CRC_delimiter|wrong-CRC_delimiter  r  Nothing   ending
right-ACK_slot       d  Acked                         ending
right-ACK_slot       r  RxError_Bit                   active|passive
wrong-ACK_slot       r  Nothing                       ending
wrong-ACK_slot       d  Nothing                       ending
right-ACK_delimiter|wrong-ACK_delimiter  d  RxError_Form  active|passive
right-ACK_delimiter  r  Nothing                       ending
wrong-ACK_delimiter  r  RxError_Crc                   active|passive
right-EOF_1-6        d  RxError_Form                  active|passive
right-EOF_1-6        r  Nothing                       ending
right-EOF_7          r  Nothing                       intermission
right-EOF_7          d  Nothing                       overload
"""
COUNTER_ROWS = """
RxError|RxAfterFlag|RxFlagBit|RxLong|TxError|PassiveAck|TxFlagBit|TxLong|Sent|Acked|Recovered
REC_stops_at_255|REC_above_127_becomes_127|REC_0_stays|TEC_0_stays|TEC_kept_as_256
active_to_passive|passive_to_active|passive_to_off|off_to_active
"""
CLOCK_ROWS = """
hard_at_place_0|hard_before_the_sample|hard_behind_the_sample|error_0|late_within_sjw|late_beyond_sjw|late_while_driving
early_within_sjw|early_beyond_sjw|early_while_driving|edge_at_the_sample|second_edge_of_a_bit|edge_behind_a_dominant_sample
"""
# The same by the book, where the place of an edge is that of the quantum before the one that finds it; and what the node was at in hard synchronisations.
BOOK_ROWS = """
book_hard_before_the_sample|book_hard_at_the_sample|book_hard_behind_the_sample|book_hard_at_the_border|book_error_0|book_error_0_while_driving
book_late_within_sjw|book_late_beyond_sjw|book_late_at_the_sample|book_late_while_driving|book_late_at_the_sample_while_driving|book_early_within_sjw
book_early_at_the_border|book_early_beyond_sjw|book_early_that_ends_the_bit|book_early_while_driving|book_second_edge_of_a_bit|book_second_edge_at_the_border
book_edge_behind_a_dominant_sample|book_hard_in_quantum_0|book_error_0_of_its_own_start_of_frame
book_hard_integrating|book_hard_waiting|book_hard_suspend|book_hard_intermission|book_hard_sending|book_hard_again_while_integrating
"""


def rows_of(text):
    rows = set()
    for line in text.strip().splitlines():
        found = [()]
        for column in line.split(): found = [row + (word,) for row in found for word in column.split("|")]
        rows |= set(map(" ".join, found))
    return rows


FAULTS = """
Toml Version Missing Kind Unknown SameName Size ZeroDen TooFast TooSlow BigOffset BigDen BadPpm NoRates TooManyRates RateOrder BadFrom Prop Phase1 Phase2 Jump Length
Id Dlc DataLength ExtendedId NoNodes TooManyNodes ZeroDelay TooLong End Quanta Queue Disturbance Line Range Truncated TooLong
"""
ALL_ROWS = rows_of(ROWS) | rows_of(COUNTER_ROWS) | rows_of(CLOCK_ROWS) | rows_of(BOOK_ROWS)
reached = Counter()


class CountedMachine(plain.Machine):
    def where(self):
        if self.state == "sending":
            place = self.line[self.count][1]
            if place is None: return "s-stuff<RTR" if len(self.bits) <= self.rtr else "s-stuff>RTR"
            if type(place) is str: return "s-" + ending_word(place)
            return "s-CRC" if place >= len(self.frame.bits()) - 15 else "s-" + random_plans.field_of(place, self.frame.extended)
        if self.state == "ending": return ("right-" if self.crc_right else "wrong-") + ending_word(plain.ENDING[self.count])
        if self.state == "intermission": return f"intermission {self.count + 1}"
        if self.state == "wait": return "wait-" + self.flag_kind
        return {"waiting": "idle", "flag": getattr(self, "flag_kind", ""), "passive_flag": "passive"}.get(self.state, self.state)

    def awaits_start(self):
        """Asked before each step of the bit clock, whose rows have the state in which the node synchronises hard."""
        CountedBitClock.state = self.state
        return super().awaits_start()

    def bit(self, sample, head, mode):
        where, state = self.where(), self.state
        happened = super().bit(sample, head, mode)
        begun = self.flag_kind if self.state == "flag" and state != "flag" else self.state
        after = {"passive_flag": "passive"}.get(begun, begun)
        reached[f"{where} {'d' if sample == plain.DOMINANT else 'r'} {happened.replace(' ', '_')} {after}"] += 1
        return happened


class CountedCounters(plain.Counters):
    def apply(self, happened):
        mode, tec, rec, word = self.mode(), self.tec, self.rec, happened.split()[0]
        super().apply(happened)
        reached[word] += 1
        if mode != self.mode(): reached[f"{mode}_to_{self.mode()}"] += 1
        if word.startswith("Rx") and self.rec == 255: reached["REC_stops_at_255"] += 1
        if word == "Acked" and rec > 127: reached["REC_above_127_becomes_127"] += 1
        if word == "Acked" and rec == 0: reached["REC_0_stays"] += 1
        if word == "Sent" and tec == 0: reached["TEC_0_stays"] += 1
        if tec + 8 > 256 and self.tec == 256: reached["TEC_kept_as_256"] += 1


class CountedBitClock(plain.BitClock):
    def step(self, level, idle, awaits_start, driving, integrates):
        before, sampled, synchronised, place, sjw = self.before, self.sampled, self.synchronised, self.place, self.segments.sjw
        sample_at, end = self.segments.sample_at() + self.longer, self.segments.bit_quanta() + self.longer - self.shorter
        self.steps = getattr(self, "steps", 0) + 1
        beat, sync = super().step(level, idle, awaits_start, driving, integrates)
        if before == plain.DOMINANT or level == plain.RECESSIVE: return beat, sync
        if self.segments.book:
            for row in book_rows(self, sync, awaits_start, driving, sampled, synchronised, place, sample_at, end): reached["book_" + row] += 1
            return beat, sync
        if sync == "Hard":
            before_start = place + 1 == sample_at + self.segments.ps2
            way = "hard_before_the_sample" if place + 1 < sample_at else "hard_behind_the_sample"
            reached["hard_at_place_0" if before_start else way] += 1
        elif sync is not None:
            way = "error_0" if sync == 0 else ("late" if sync > 0 else "early") + ("_within_sjw" if abs(sync) <= sjw else "_beyond_sjw")
            reached[way] += 1
            if sync < 0 and driving: reached["early_while_driving"] += 1
        elif beat == "Sample": reached["edge_at_the_sample"] += 1
        elif sampled == plain.DOMINANT: reached["edge_behind_a_dominant_sample"] += 1
        elif synchronised: reached["second_edge_of_a_bit"] += 1
        elif driving: reached["late_while_driving"] += 1
        return beat, sync


def book_rows(clock, sync, awaits_start, driving, sampled, synchronised, place, sample_at, end):
    """The rows of an edge that lies at this place of a bit with its sample and its end there, and is found by the next quantum."""
    sjw, at_border, at_sample = clock.segments.sjw, place == end - 1, place + 1 == sample_at
    if sync is None:
        if sampled == plain.DOMINANT: return ["edge_behind_a_dominant_sample"]
        if synchronised: return ["second_edge_at_the_border" if at_border else "second_edge_of_a_bit"]
        return ["late_at_the_sample_while_driving" if at_sample else "late_while_driving"]
    if sync == "Hard":
        where = "at_the_sample" if at_sample else "at_the_border" if at_border else "before_the_sample" if place + 1 < sample_at else "behind_the_sample"
        rows = ["hard_" + where, "hard_" + clock.state] + ["hard_again_while_integrating"] * synchronised
    elif sync == 0: rows = ["error_0"] + ["error_0_while_driving"] * driving + ["error_0_of_its_own_start_of_frame"] * (driving and awaits_start)
    elif sync > 0: rows = ["late_within_sjw" if sync <= sjw else "late_beyond_sjw"] + ["late_at_the_sample"] * at_sample
    else:
        rows = ["early_beyond_sjw" if -sync > sjw else "early_at_the_border" if at_border else "early_within_sjw"]
        rows += ["early_that_ends_the_bit"] * (-sync == sjw + 1) + ["early_while_driving"] * driving
    if clock.steps == 1: rows.append("hard_in_quantum_0")  # a node integrates then
    return rows


def ending_word(place):
    return "EOF_1-6" if place.startswith("EOF") and place != "EOF 7" else place.replace(" ", "_")


plain.Machine, plain.Counters, plain.BitClock = CountedMachine, CountedCounters, CountedBitClock

# ---- Comparing

COMMANDS = "merge", "horizon", "check", "records", "run", "explain", "trace", "vcd"


def once(simulate):
    """Keeps the last plan's answer, for which more than one command asks."""
    last = []

    def kept(plan):
        if not last or last[0] != plan: last[:] = plan, simulate(plan)
        return last[1]
    return kept


plain.simulate = once(plain.simulate)


def commands(tally, program, seed, numbers, options):
    reached.clear()
    wanted = options["commands"].split(",") if options["commands"] else COMMANDS
    for number in numbers:
        rng = random.Random(f"{seed} {number}")
        records = rng.random() < 0.25
        text = random_plans.record_input(rng) if records else random_plans.plan_input(rng, random.Random(f"{seed} {number} sync"), options["sync"])
        tally.tried += 1
        for command in COMMANDS[:2] if records else COMMANDS[2:]:
            if command not in wanted: continue
            out, fault, status = plain.answer(command, text)
            tally.count("answers", re.sub(r"\b[0-9]+\b", "n", fault[7:-1]) or "no fault")
            if program == "-": continue
            got = asked_bare(program, command, text=text)
            # What `explain` says of a refused plan is compared by `refusals`; plain.py has no words for it.
            if command == "explain" and status == 1 and re.fullmatch("wrong: .*\nchange: .*\n", got[0]): out = got[0]
            tally.compare(f"input {number} of seed {seed}", command, text, got, (out, fault, status))
    for row, times in reached.items(): tally.count("rows", row, times)


def is_well(tally):
    """Says which rows and faults were reached; a row of no table is wrong."""
    rows = tally.counts.get("rows", Counter())
    said = {word for fault in tally.counts["answers"] for word in re.findall("[A-Za-z0-9]+", fault)}
    missing, unknown = sorted(ALL_ROWS - set(rows)), sorted(row for row in rows if row not in ALL_ROWS and row not in ("Nothing", "TxFree"))
    print(f"rows reached: {len(ALL_ROWS) - len(missing)} of {len(ALL_ROWS)}")
    for fault in sorted(set(FAULTS.split()) - said): print("  fault not reached:", fault)
    for row in missing: print("  not reached:", row)
    for row in unknown: print("  in no table:", row, rows[row])
    return not unknown
