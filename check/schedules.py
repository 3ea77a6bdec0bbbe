"""Groups of a plan's nodes under any schedule, beside the one-thread simulation of plain.py: the comparison `groups`.

Written from crates/wl_group/specs (Member, Party, Advanced), crates/wl_world/specs (Scene, Settling, Headline) and crates/wl_replica/specs (Slots, Known): what
a group holds is a set of ticks for each change and the latest end for each silence. Nodes are plain.py's, with the promise that docs/bus/node.md and
docs/bus/machine.md ('Silence') give them. Random plans are split into random groups, and records, joins and restarts come at random; then all are settled.
Each emitted record has to be true of the one thread's changes, each wave below its horizon has to be the drive there, each level that was read has to be the
line there, some node has to be able to go on if all is known, and each node has to end as that of the one thread.
"""
import bisect
import random
import sys

sys.dont_write_bytecode = True
import plain
import random_plans

# ---- What a node promises


def silence(machine, has_head):
    """For how many samples more a machine is sure to want recessive."""
    state, count = machine.state, machine.count
    if state == "integrating": return 10 - count
    if state == "waiting": return 0 if has_head else 5
    if state == "suspend": return min(5, 7 - count) if has_head else 5
    if state == "receiving":
        least = plain.frame_length(machine.bits) or (54 if len(machine.bits) > plain.IDE and machine.bits[plain.IDE] else 34)
        return min(5 - machine.equal, least - len(machine.bits))
    if state == "passive_flag": return 7 - count
    if state == "wait": return 1
    return 11 * (128 - machine.runs) - count - 1 if state == "off" else 0


def quiet(node):
    """For how many quanta more a node is sure to keep its drive."""
    until = max(0, node.waiting[0].ready - node.quanta) if node.waiting else 0
    return min(65_536, max(promise(node, bool(node.waiting)), min(until, promise(node, False))))


def promise(node, has_head):
    clock, segments = node.bit_clock, node.setup.segments
    way, sample_at = segments.sample_at() - segments.book + 1, segments.sample_at() + clock.longer
    if node.quanta and clock.place < sample_at: floor = sample_at - clock.place
    else: floor = way if node.machine.drive() == node.drive else 0
    return floor + way * silence(node.machine, has_head) if floor else 0


# ---- Groups and worlds


class Slots:
    def __init__(self):
        self.edges, self.silences, self.kept = {}, {}, {}

    def take(self, record):
        kind, node, number, tick = record
        if kind == "E": self.edges.setdefault((node, number), set()).add(tick)
        else: self.silences[node, number] = max(tick, self.silences.get((node, number), 0))
        self.kept.pop(node, None)

    def known(self, node):
        """The first changes that are known without a gap, in order and none below its silence, and the tick below which the node is known."""
        if node not in self.kept:
            run = []
            while len(of := self.edges.get((node, len(run)), ())) == 1:
                tick = min(of)
                if tick < self.silences.get((node, len(run)), 0) or run and tick <= run[-1]: break
                run.append(tick)
            promises = [self.silences.get((node, count), 0) for count in range(len(run) + 1)]
            self.kept[node] = run, max([tick + 1 for tick in run[-1:]] + promises)
        return self.kept[node]

    def dominates(self, node, tick):
        run, horizon = self.known(node)
        return tick < horizon and bisect.bisect_right(run, tick) % 2 == 1


class Group:
    def __init__(self, world, members):
        self.world, self.nodes = world, {i: plain.Node(world.plan.nodes[i]) for i in members}
        self.slots, self.taken = Slots(), []
        self.take([world.first_silence(i) for i in members])

    def take(self, records):
        for record in records: self.slots.take(record)
        self.taken += records

    def place_horizon(self, j):
        return min(self.slots.known(i)[1] + delay for i, delay in self.world.sources[j])

    def may_run(self, i):
        if i not in self.nodes: return False
        tick = self.nodes[i].next_tick()
        return tick < self.world.plan.end and tick < self.place_horizon(i)

    def advance(self, i):
        """What node i says at its next quantum: the change there, if there is one, and up to when its drive is sure to stay."""
        world, node = self.world, self.nodes[i]
        tick, was, changed = node.next_tick(), node.drive, len(node.changes)
        found = any(self.slots.dominates(j, tick - delay) for j, delay in world.sources[i]) or world.line.is_disturbed(i, tick)
        world.read.append((i, tick, found))
        node.quantum(plain.DOMINANT if found else plain.RECESSIVE)
        said = [("E", i, changed, tick)] if node.drive != was else []
        said.append(("S", i, len(node.changes), node.setup.clock.at(node.quanta + quiet(node))))
        self.take(said)
        world.emitted += said


class World:
    def __init__(self, plan, numbers):
        self.plan, self.numbers, self.read = plan, numbers, []
        self.line = plain.Line(plan, plan.nodes)
        self.sources = [[(plan.nodes.index(setup), delay) for setup, delay in row] for row in self.line.sources]
        self.emitted = [self.first_silence(i) for i in range(len(numbers))]
        self.groups = [self.begun(h) for h in range(max(numbers) + 1)]

    def first_silence(self, i):
        setup = self.plan.nodes[i]
        return "S", i, 0, setup.clock.at(quiet(plain.Node(setup)))

    def begun(self, h):
        return Group(self, [i for i, number in enumerate(self.numbers) if number == h])

    def event(self, rng):
        h, kind = rng.randrange(len(self.groups)), rng.random()
        group = self.groups[h]
        if kind < 0.6:
            for _ in range(rng.choice([1, 3, 40])):
                ready = [i for i in group.nodes if group.may_run(i)]
                if ready: group.advance(rng.choice(ready))
        elif kind < 0.93: group.take([rng.choice(self.emitted[-rng.choice([5, 40, 10**6]):]) for _ in range(rng.choice([1, 5, 20]))])
        elif kind < 0.98: group.take(list(rng.choice(self.groups).taken))
        else: self.groups[h] = self.begun(h)

    def at_end(self):
        return all(node.next_tick() >= self.plan.end for group in self.groups for i, node in group.nodes.items())

    def settle(self):
        """Rounds of all that was emitted to all groups and of all advances that may be; what is wrong where a round runs nothing."""
        while not self.at_end():
            ran = 0
            for group in self.groups: group.take(list(self.emitted))
            for group in self.groups:
                while ready := [i for i in group.nodes if group.may_run(i)]:
                    group.advance(ready[0])
                    ran += 1
            if not ran: return "no node may run, and some are not at the end"

    def false_of(self, one):
        """What is not as in the one-thread simulation."""
        changes, end = [node.changes for node in one.nodes], self.plan.end
        changes = [[tick for tick in of if tick < end] for of in changes]
        for kind, i, number, tick in self.emitted:
            right = number < len(changes[i]) and changes[i][number] == tick if kind == "E" else bisect.bisect_left(changes[i], tick) == number
            if not right: return f"{kind} {i} {number} {tick} of {changes[i]}"
        for h, group in enumerate(self.groups):
            for i, of in enumerate(changes):
                run, horizon = group.slots.known(i)
                if [tick for tick in run if tick < horizon] != [tick for tick in of if tick < horizon]: return f"group {h}, node {i} below {horizon}: {run}, {of}"
        for i, tick, found in self.read:
            if found != (one.found(i, tick) == plain.DOMINANT): return f"node {i} read {found} at {tick}"


def small_plan(rng):
    """The text of a plan with a few nodes and some tens of bits, that is accepted."""
    while True:
        plan = random_plans.random_plan(rng)
        quanta = 1 + sum(plan["node"][0][key] for key in ("prop", "ps1", "ps2"))
        clock = random_plans.clocks_of(plan)[0]
        tick = clock["num"] / clock["den"] if "num" in clock else clock["quantum"]
        plan["end"] = min(plan["end"], int(rng.choice([12, 20, 40, 70, 130]) * quanta * tick))
        if rng.random() < 0.7: plan["sync"] = rng.choice(["book", "after"])
        text = random_plans.toml_text(plan, False).encode() + b"\n"
        try:
            if 1 < len(plan["node"]) and sum(node.clock.quanta_before(plan["end"]) for node in plain.read_plan(text).nodes) < 20_000: return text
        except plain.Fault:
            continue


def wrong_of(plan, rng):
    """What is wrong with a plan's groups under a random schedule."""
    many = len(plan.nodes)
    world = World(plan, [rng.randrange(rng.choice([1, 2, many])) for _ in range(many)])
    one = plain.Line(plan, plain.simulate(plan))
    for _ in range(rng.choice([0, 10, 60])): world.event(rng)
    found = world.false_of(one) or world.settle() or world.false_of(one)
    if found: return found
    for i, node in ((i, node) for group in world.groups for i, node in group.nodes.items()):
        ours, theirs = [(it.changes, it.frames, it.samples, it.errors, it.counters.tec, it.counters.rec) for it in (node, one.nodes[i])]
        if ours != theirs: return f"node {i} ends with {ours}, and by one thread with {theirs}"


def groups(tally, program, seed, numbers, options):
    for number in numbers:
        rng = random.Random(f"{seed} {number} groups")
        text = small_plan(rng)
        tally.tried += 1
        tally.compare(f"plan {number} of seed {seed}", "schedules", text, wrong_of(plain.read_plan(text), rng), None)
