#!/usr/bin/env python3
"""A node by the rules of the book, beside the crate wl_phase: the definitions as a program of their own.

    phase.py search RUNS SEED [LEFT]    plays senders and listeners whose clocks are as far apart as they may be, or, with LEFT
                                        (slow, fast or sample), farther by that condition alone; says how many went wrong
    phase.py answer RUNS SEED [LEFT]    the same with an acknowledgement whose way there and back is as long or as short as it
                                        may be, or, with LEFT (late, early or jump), beyond that condition alone
    phase.py end RUNS SEED [LEFT]       the same up to the sender's sample after that; LEFT is end
"""

import random
import sys

SILENT = 0, 0, False, False, False  # longer, shorter, synchronised, level, last sample; dominant is True


def at_first(lengths):
    return (1 + sum(lengths[:3]), *SILENT)


def step(lengths, clock, level, awaits, drives):
    """The clock after a quantum, what it samples, and how it synchronises: 'hard', a phase error or None."""
    prop, ps1, ps2, sjw = lengths
    sample_at = 1 + prop + ps1
    quanta, longer, shorter, synced, before, sample = clock
    hard = awaits and not drives
    is_late = 1 < quanta <= sample_at
    counts = level and not before and not sample and not synced and quanta > 0 and not (is_late and drives and not hard)
    error = quanta - 1 - (sample_at + ps2) if quanta > sample_at else quanta - 1
    found = ("hard" if hard else error) if counts else None
    if counts and (hard or (quanta > sample_at and -error <= sjw)):
        return (2, 0, 0, True, level, sample), None, found
    if counts:
        longer = min(quanta - 1, sjw) if quanta <= sample_at else 0
        shorter = sjw if quanta > sample_at else 0
        synced = True
    if quanta == sample_at + longer + ps2 - shorter:
        return (1, 0, 0, False, level, sample), None, found
    if quanta == sample_at + longer:
        return (quanta + 1, longer, shorter, synced, level, level), level, found
    return (quanta + 1, longer, shorter, synced, level, sample), None, found


def conditions(sender, sender_rate, listener, rate):
    """By ten bits the sender is no slower than a jump, no faster, and its next bit comes after the sample."""
    bit = rate[1] * (1 + sum(sender[:3])) * sender_rate[0]
    quantum = sender_rate[1] * rate[0]
    tick = sender_rate[1] * rate[1]
    ten = 10 * (1 + sum(listener[:3])) * quantum
    return 10 * bit <= ten + listener[3] * quantum, ten <= 10 * bit + listener[3] * quantum, ten + tick <= 10 * bit + listener[2] * quantum


def listen(sender, sender_offset, sender_rate, begin, listener, offset, rate, delay, bits):
    """How many bits are sampled as they were sent, each while it is there."""
    quanta = 1 + sum(sender[:3])

    def arrival(bit):
        return sender_offset + (begin + bit * quanta) * sender_rate[0] // sender_rate[1] + delay

    clock, here, count, begun = at_first(listener), 0, 0, False
    for quantum in range(100_000):
        tick = offset + quantum * rate[0] // rate[1]
        while arrival(here + 1) <= tick:
            here += 1
        level = arrival(0) <= tick and here < len(bits) and bits[here]
        clock, sample, found = step(listener, clock, level, not begun, False)
        begun = begun or found is not None
        if sample is None or not begun:
            continue
        if count != here or bits[count] != sample:
            return count
        count += 1
        if count == len(bits):
            return count
    return None


def random_lengths():
    while True:
        lengths = random.randint(1, 8), random.randint(1, 8), random.randint(2, 8), random.randint(1, 4)
        if lengths[3] <= lengths[1] and 8 <= 1 + sum(lengths[:3]) <= 25:
            return lengths


def random_bits():
    """Bits with an edge in each ten, mostly just one."""
    bits = [True]
    for _ in range(random.randint(1, 14)):
        gap = random.choice([10, 10, random.randint(2, 10)])
        dominant = random.randint(1, gap - 1)
        bits += [place < dominant for place in range(1, gap)] + [True]
    return bits


def search(runs, left):
    done = wrong = 0
    while done < runs:
        sender, listener = random_lengths(), random_lengths()
        den = random.choice([1, random.randint(1, 1000)])
        rate = den * random.choice([random.randint(1, 6), random.randint(1, 200)]) + random.randrange(den), den
        sender_den = random.choice([random.randint(1, 1000), 1_000_000])
        quantum, tick = sender_den * rate[0], sender_den * den
        ten, bit = 10 * (1 + sum(listener[:3])) * quantum, 10 * den * (1 + sum(sender[:3]))
        most = (ten + listener[3] * quantum) // bit
        least = -(-max(ten - listener[3] * quantum, ten + tick - listener[2] * quantum) // bit)
        beyond = random.randrange(max(1, quantum // bit)) if left else 0
        sender_rate = random.choice([most + beyond, least - beyond, least - beyond]), sender_den
        held = conditions(sender, sender_rate, listener, rate)
        wanted = tuple(name != left for name in ("slow", "fast", "sample"))
        if sender_rate[0] < 1 or held != wanted:
            continue
        done += 1
        bits, span = random_bits(), 3 * rate[0] // den + 3
        begin = random.randint(1, 2_000)
        offset = random.randrange(span)
        sender_offset, delay = offset + random.randrange(span), random.randint(1, span)
        wrong += listen(sender, sender_offset, sender_rate, begin, listener, offset, rate, delay, bits) != len(bits)
    print(f"{done} runs, {wrong} wrong")


def way_conditions(sender, sender_rate, listener, rate, way):
    """An acknowledgement comes by the sample, not before the one in front, and a jump puts a bit's drift right."""
    own_quantum, quantum = rate[1] * sender_rate[0], sender_rate[1] * rate[0]
    tick = sender_rate[1] * rate[1]
    bit, their_bit = (1 + sum(sender[:3])) * own_quantum, (1 + sum(listener[:3])) * quantum
    late = way * tick + 10 * max(0, their_bit - bit) <= (1 + sender[0] + sender[1]) * own_quantum
    early = quantum + 2 * tick + 10 * max(0, bit - their_bit) <= sender[2] * own_quantum + way * tick
    return late, early, bit <= their_bit + sender[3] * own_quantum


def answer_ticks(listener, offset, rate, arrival, bits):
    """When the listener's bit after the last of these begins and ends; None if it samples one wrong."""
    def tick(quantum):
        return offset + quantum * rate[0] // rate[1]

    clock, here, count, begun = at_first(listener), 0, 0, False
    for quantum in range(100_000):
        while arrival(here + 1) <= tick(quantum):
            here += 1
        level = count < len(bits) and arrival(0) <= tick(quantum) and bits[here]
        clock, sample, found = step(listener, clock, level, not begun, False)
        begun = begun or found is not None
        if begun and sample is not None:
            if count != here or bits[count] != sample:
                return None
            count += 1
        elif count == len(bits) and clock[0] == 1:
            return tick(quantum), tick(quantum + 1 + sum(listener[:3]))
    return None


def hears(sender, offset, rate, quantum, begin, end, count):
    """The next samples of a sender that samples a recessive bit by this quantum, and finds dominant from one tick to another."""
    sample_at = 1 + sender[0] + sender[1]
    if begin <= offset + quantum * rate[0] // rate[1]:
        return None
    clock, samples = (sample_at + 1, *SILENT), []
    while len(samples) < count:
        quantum += 1
        tick = offset + quantum * rate[0] // rate[1]
        clock, sample, _ = step(sender, clock, begin <= tick < end, False, False)
        samples += [] if sample is None else [sample]
    return samples


def lengths_for(left):
    """Segments; where the jump width of the sender is to be too small, those with which it may be so at all."""
    if left == "jump":
        return random.choice([(8, 8, 8, 1), (8, 8, 7, 1), (8, 7, 8, 1)]), (1, 4, 2, 4)
    return random_lengths(), random_lengths()


def search_answers(runs, left, samples):
    done = wrong = 0
    while done < runs:
        sender, listener = lengths_for(left)
        den, sender_den = random.choice([1, random.randint(1, 1000)]), random.choice([random.randint(1, 1000), 1_000_000])
        rate = den * random.choice([random.randint(1, 6), random.randint(1, 200)]) + random.randrange(den), den
        quantum, tick = sender_den * rate[0], sender_den * den
        ten, ten_bits = 10 * (1 + sum(listener[:3])) * quantum, 10 * den * (1 + sum(sender[:3]))
        most = (ten + listener[3] * quantum) // ten_bits
        least = -(-max(ten - listener[3] * quantum, ten + tick - listener[2] * quantum) // ten_bits)
        sender_rate = random.choice([most, most if left == "jump" else least, ten // ten_bits]), sender_den
        if sender_rate[0] < sender_den or not all(conditions(sender, sender_rate, listener, rate)):
            continue
        drift, own_quantum = (ten_bits * sender_rate[0] - ten), den * sender_rate[0]
        most = ((1 + sender[0] + sender[1]) * own_quantum - max(0, -drift)) // tick
        over = ((1 + sender[0] + sender[1]) * own_quantum - 11 * max(0, -drift) // 10) // tick
        most = most if len(samples) == 1 or left == "end" else over
        if left == "end" and over == most:
            continue
        least = max(2, -(-(quantum + 2 * tick + max(0, drift) - sender[2] * own_quantum) // tick))
        way = {"late": most + random.randint(1, 3), "early": least - random.randint(1, 3), "jump": least, "end": most}.get(left, random.choice([most, least]))
        wanted = tuple(name != left for name in ("late", "early", "jump"))
        if way < 2 or way_conditions(sender, sender_rate, listener, rate, way) != wanted:
            continue
        done += 1
        bits = random_bits()[:-1]
        begin, span = random.randint(1, 2_000), 3 * rate[0] // den + 3
        offset = random.randrange(span)
        sender_offset, delay = offset + random.randrange(span), random.randint(1, way - 1)

        def arrival(bit):
            return sender_offset + (begin + bit * (1 + sum(sender[:3]))) * sender_rate[0] // sender_rate[1] + delay

        ticks = answer_ticks(listener, offset, rate, arrival, bits)
        last = begin + (len(bits) - 1) * (1 + sum(sender[:3])) + 1 + sender[0] + sender[1]
        back = way - delay
        wrong += ticks is None or hears(sender, sender_offset, sender_rate, last, ticks[0] + back, ticks[1] + back, len(samples)) != samples
    print(f"{done} runs, {wrong} wrong")


if __name__ == "__main__":
    if len(sys.argv) in (4, 5) and sys.argv[1] in ("search", "answer", "end"):
        random.seed(int(sys.argv[3]))
        runs, left = int(sys.argv[2]), sys.argv[4] if len(sys.argv) == 5 else None
        search(runs, left) if sys.argv[1] == "search" else search_answers(runs, left, [True] if sys.argv[1] == "answer" else [True, False])
    else:
        sys.exit(__doc__)
