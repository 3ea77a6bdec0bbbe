#!/usr/bin/env python3
"""The first frame on a bus, beside wl_buses::first_frame: its definitions as a program of their own, and plans that check/plain.py plays.

usage: first_frame.py RUNS SEED      plays 2 to 5 nodes by the book, with offsets, clocks, delays and queues at random, half of them with an edge
                                     close to a decision or to a start that is due. Says how many plans and nodes were compared, and how many
                                     of these began by themselves, began with an edge, or followed without a start of their own

The claim. If each node has its eleventh sample before another one's start of frame would reach it, it begins the first frame as
specs/FirstStarts.antt has it: it drives its start of frame from that quantum, or nothing. Its last sample before is that of that bit, and its
next one lies where a hard synchronisation puts it, or a bit after the last one.
"""
import random
import sys

sys.dont_write_bytecode = True
import plain


def bit(node): return 1 + sum(node.segments[:3])


def place(node): return 1 + node.segments.prop + node.segments.ps1


class First:
    """How each node of a plan begins the first frame."""

    def __init__(self, plan):
        self.plan, self.every = plan, range(len(plan.nodes))
        self.decides = [max(10, -((place(node) - node.queue[0].ready) // bit(node))) if node.queue else 10 for node in plan.nodes]
        self.due = [(decides + 1) * bit(node) for decides, node in zip(self.decides, plan.nodes)]

    def tick(self, i, quantum): return self.plan.nodes[i].clock.at(quantum)

    def coming(self, i):
        """The ticks at which the starts of frame of others reach a node, if each begins when it is due."""
        return [self.tick(k, self.due[k]) + self.plan.delay(k, i) for k in self.every if k != i and self.plan.nodes[k].queue]

    def are_idle(self):
        last = [self.tick(i, 10 * bit(node) + place(node)) for i, node in enumerate(self.plan.nodes)]
        return any(node.queue for node in self.plan.nodes) and all(last[i] < tick for i in self.every for tick in self.coming(i))

    def found(self, i):
        """The first quantum by which one has reached it."""
        return next((q for q in range(10**6) if self.tick(i, q) >= min(self.coming(i))), None) if self.coming(i) else None

    def begins(self, i):
        """Whether a node begins a frame, from which quantum, by an edge or not, and its last bit before."""
        node, found = self.plan.nodes[i], self.found(i)
        decided = self.decides[i] * bit(node) + place(node)
        if node.queue and (found is None or found > self.due[i]): return True, self.due[i], False, self.decides[i]
        if node.queue and found > decided: return True, found, True, self.decides[i]
        return False, found, True, (found - place(node) - 1) // bit(node)


def segments(rng):
    while True:
        prop, ps1, ps2 = rng.randint(1, 8), rng.randint(1, 8), rng.randint(2, 8)
        if 8 <= 1 + prop + ps1 + ps2 <= 25: return plain.Segments(prop, ps1, ps2, rng.randint(1, min(4, ps1)), True)


def random_plan(rng):
    base, count = rng.choice([1, 2, 5, 10, 50]), rng.randint(2, 5)
    nodes, places = [], []
    for number in range(count):
        parts = segments(rng)
        long = 1 + sum(parts[:3])
        den = rng.choice([1, 3, 1000])
        clock = plain.Clock(rng.choice([0, rng.randrange(40 * long * base)]), [plain.Rate(0, base * den + rng.randrange(den), den)])
        queue = [plain.Queued(plain.Frame(number, False, 0, b""), rng.choice([0, rng.randrange(60 * long)]))] if rng.random() < 0.7 else []
        nodes.append(plain.Setup(f"n{number}", clock, parts, queue))
        places.append(plain.Place(rng.randrange(1 + 3 * base), rng.randint(1, 1 + 4 * base), rng.randint(1, 1 + 4 * base)))
    plan = plain.Plan(nodes, places, 1, [], 10**9)
    return nudged(rng, plan) if rng.random() < 0.5 else plan


def nudged(rng, plan):
    """The plan with one node's offset changed so that an edge comes about when that one decides, or is due."""
    first = First(plan)
    senders = [i for i in first.every if plan.nodes[i].queue]
    if len(senders) < 2: return plan
    i, k = rng.sample(senders, 2)
    aim = rng.choice([first.due[i], first.decides[i] * bit(plan.nodes[i]) + place(plan.nodes[i])])
    shift = first.tick(k, first.due[k]) + plan.delay(k, i) - first.tick(i, aim) + rng.randint(-2, 2)
    clock = plan.nodes[i].clock
    if clock.offset + shift < 0: return plan
    plan.nodes[i] = plan.nodes[i]._replace(clock=clock._replace(offset=clock.offset + shift))
    return plan


def compare(plan, seen):
    first = First(plan)
    if not first.are_idle(): return False
    answers = [first.begins(i) for i in first.every]
    end = max(first.tick(i, from_ + bit(plan.nodes[i])) for i, (_, from_, _, _) in enumerate(answers))
    nodes = plain.simulate(plan._replace(end=end))
    for i, ((begins, from_, edge, last), node) in enumerate(zip(answers, nodes)):
        from_tick = first.tick(i, from_)
        drove = [tick for tick in node.changes if tick <= from_tick]
        assert drove == ([from_tick] if begins else []), (plan, i, "drives", answers[i], node.changes)
        before = [tick for tick in node.sampled if tick < from_tick]
        sampled = first.tick(i, last * bit(plan.nodes[i]) + place(plan.nodes[i]))
        assert len(before) == last + 1 and before[-1] == sampled, (plan, i, "sampled", answers[i], before[-2:])
        after = first.tick(i, (from_ - 1 if edge else from_) + place(plan.nodes[i]))
        assert node.sampled[len(before)] == after, (plan, i, "samples", answers[i], node.sampled[-2:])
        seen["by itself" if not edge else "with an edge" if begins else "followed"] += 1
    return True


def main():
    runs, rng = int(sys.argv[1]), random.Random(int(sys.argv[2]))
    seen, played, refused = {"by itself": 0, "with an edge": 0, "followed": 0}, 0, 0
    while played < runs:
        if compare(random_plan(rng), seen): played += 1
        else: refused += 1
    print(f"{played} plans, {refused} refused; nodes: " + ", ".join(f"{count} {how}" for how, count in seen.items()))


if __name__ == "__main__": main()
