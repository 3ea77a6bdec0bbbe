#!/usr/bin/env python3
"""How long frames wait, beside the crate wl_counts: its definitions as a program of their own.

    waits.py counts RUNS SEED [LEFT]   random instants and windows, and random frames of messages: counts against ceil(X / T) and
                                       floor(X / T) + 1, sums over frames against sums over messages. LEFT is a premise: apart, after, by
                                       or known; then says how many inputs go wrong without it
    waits.py waits RUNS SEED [LEFT]    random messages, some in queues of two; random frames of them on one bus, first in first out at
                                       each node, the least number wins. Looks at each premise of no_frame_waits_longer and at what it
                                       says. LEFT is a premise: window, wait, known, begun, ended, few, begins, next, joins or entered
    waits.py cases RUNS SEED [LEFT]    the same of no_frame_waits_longer_by_cases, with a case for each node that blocks and each instant
                                       of readiness after the window's. LEFT is own, entered or ready
"""

import random
import sys


def ceil(x, period): return -(-x // period)


def picks_apart(rng, period, n, least):
    """Instants in order, `least` apart at least, n at most; most of them just so far."""
    at, found = rng.randrange(30), []
    for _ in range(n):
        found.append(at)
        at += least + (0 if rng.random() < 0.7 else rng.randrange(2 * period))
    return found


def count_fails(rng, left):
    """True if some law on counts fails of random inputs."""
    period, n = rng.randrange(1, 20), rng.randrange(0, 12)
    instants = picks_apart(rng, period, n, period - (1 if left == "apart" else 0))
    start, back, on = rng.randrange(60), rng.randrange(20), rng.randrange(60)
    low = start - back - (1 if left == "after" else 0)
    high = start + on + (1 if left == "by" else 0)
    few = sum(low < x <= high for x in instants) <= ceil(back + on, period)
    closed = sum(start <= x <= start + on for x in instants) <= on // period + 1
    messages = rng.randrange(1, 5)
    costs = [rng.randrange(20) for _ in range(messages + 1)]
    frames = [rng.randrange(messages + (1 if left == "known" else 0)) for _ in range(n)]
    sums = sum(costs[m] for m in frames) == sum(frames.count(e) * costs[e] for e in range(messages))
    return not (few and closed and sums)


class Table:
    """Messages by priority, 0 first, with the numbers that the inequalities have."""

    def __init__(self, rng, left):
        n = self.n = rng.randrange(1, 5)
        self.cost = [rng.randrange(3, 13) for _ in range(n)]
        self.tail = [rng.randrange(1, c + 1) for c in self.cost]
        self.period = [rng.randrange(10, 90) for _ in range(n)]
        self.s, self.idle = rng.randrange(1, 5), rng.randrange(0, 3)
        self.node = list(range(n))
        if n > 1 and rng.random() < 0.5:
            a, b = sorted(rng.sample(range(n), 2))
            self.node[b] = a
        self.level = [max(e for e in range(n) if self.node[e] == self.node[m]) for m in range(n)]
        self.joins = [[e <= self.level[m] if left != "joins" else e < m or e == m for e in range(n)] for m in range(n)]
        self.blocking = [max([self.cost[e] for e in range(n) if e > self.level[m]] + [self.s + self.idle]) for m in range(n)]

    def early(self, m, e, r):
        """How long before the window's instant a frame may have become ready: a queue with a lesser message has its own wait too."""
        return self.s + (r[e] if self.level[e] > self.level[m] else 0)

    def demand(self, m, w, r):
        return sum(ceil(self.early(m, e, r) + w, self.period[e]) * self.cost[e] for e in range(self.n) if self.joins[m][e])

    def bounds(self):
        """Windows and waits from below until nothing grows, or None."""
        r, w = [0] * self.n, [0] * self.n
        while True:
            old = list(r)
            for m in range(self.n):
                while (more := self.blocking[m] + self.demand(m, w[m], r)) > w[m]:
                    w[m] = more
                    if more > 1500: return None
                r[m] = max(r[m], self.early(m, m, r) + w[m] + self.tail[m] - self.cost[m])
            if r == old: return w, r


def releases(rng, t, left):
    """When each frame is ready, in a queue for each node. A frame is (ready, message, what it says its ready is)."""
    queues = {}
    close = rng.random() < 0.8
    for e in range(t.n):
        at = rng.randrange(4 if close else 80)
        told = at
        for _ in range(rng.randrange(1, 9)):
            queues.setdefault(t.node[e], []).append((at, e, told))
            told += t.period[e]
            if left == "begun" and e == 0: at += max(1, t.period[e] // 3)
            elif left == "few" and e == 0: told = at = at + max(1, t.period[e] // 2)
            else: told = at = told + (0 if rng.random() < 0.8 else rng.randrange(40))
    return [sorted(q) for _, q in sorted(queues.items())]


def play(rng, t, left):
    """The frames of a bus: (message, ready, begin, sent, what the gap before it began with, or None)."""
    queues, frames, end = releases(rng, t, left), [], 0
    unknown = left == "known"
    while any(queues):
        heads = [q for q in queues if q]
        ready = [q for q in heads if q[0][0] <= end - rng.randrange(t.s)] if frames else []
        gap = None
        if ready: begin = end
        else:
            gap = min(q[0][0] for q in heads)
            begin = max(end, gap) + rng.randrange(t.idle + 1) + (rng.randrange(40) if left == "begins" else 0)
            ready = [q for q in heads if q[0][0] == gap or q[0][0] <= begin - rng.randrange(t.s)]
        queue = min(ready, key=lambda q: q[0][1])
        _, m, told = queue.pop(0)
        sent = begin + t.tail[m] + (rng.randrange(20) if left == "ended" else 0)
        frames.append((m, told, begin, sent, gap))
        end = begin + (t.cost[m] if rng.random() < 0.9 else rng.randrange(t.tail[m], t.cost[m] + 1))
        if left == "next": end += rng.randrange(15)
        if unknown and gap is None and rng.random() < 0.5:
            frames.append((t.n, end, end, end + 30, None))
            end += 30
    return frames


def window(t, frames, last, known):
    """The first frame of the last one's window, and its instant."""
    m, first = frames[last][0], last
    while frames[first][4] is None and (frames[first - 1][0] <= t.level[m] or frames[first - 1][0] >= t.n): first -= 1
    return first, frames[first][4] if frames[first][4] is not None else frames[first - 1][2]


def broken(t, frames, w, r):
    """The names of the premises that don't hold."""
    found = set()
    for m in range(t.n):
        if t.blocking[m] + t.demand(m, w[m], r) > w[m]: found.add("window")
        if t.early(m, m, r) + w[m] + t.tail[m] > r[m] + t.cost[m]: found.add("wait")
    seen = {}
    for m, ready, begin, sent, _ in frames:
        if m >= t.n:
            found.add("known")
            continue
        if ready > begin: found.add("begun")
        if sent > begin + t.tail[m]: found.add("ended")
        if m in seen and seen[m] + t.period[m] > ready: found.add("few")
        seen[m] = ready
    for last, (m, *_) in enumerate(frames):
        if m >= t.n: continue
        first, start = window(t, frames, last, t.n)
        if frames[first][2] > start + t.blocking[m]: found.add("begins")
        for k in range(first, last + 1):
            e, ready, begin, _, _ = frames[k]
            if e >= t.n: continue
            if k < last and frames[k + 1][2] > begin + t.cost[e]: found.add("next")
            if not t.joins[m][e]: found.add("joins")
            if start >= ready + t.early(m, e, r): found.add("entered")
    return found


def wait_case(rng, left):
    """None if there is no bound; else the premises that don't hold, whether a frame waits longer, and the longest wait by its bound."""
    t = Table(rng, left)
    found = t.bounds()
    if found is None: return None
    w, r = found
    if left == "window":
        w = [x - min(t.cost) for x in w]
        r = [max(0, t.early(m, m, r) + w[m] + t.tail[m] - t.cost[m]) for m in range(t.n)]
    if left == "wait": r = [x - x // 4 for x in r]
    if left == "entered":
        s, t.s = t.s, 12
        frames = play(rng, t, left)
        t.s = s
    else: frames = play(rng, t, left)
    longest = max((f[3] - f[1]) / r[f[0]] if r[f[0]] > 0 else 9 for f in frames if f[0] < t.n)
    return broken(t, frames, w, r), any(f[3] > f[1] + r[f[0]] for f in frames if f[0] < t.n), longest


class Cases:
    """Windows of a table by cases: (message, node that blocks or None, readiness after the window's instant less s)."""

    def __init__(self, t, left):
        self.t, self.left, self.r = t, left, [0] * t.n
        self.busy = {}

    def own(self, m, x, e): return x // self.t.period[e] + (0 if e == m or self.left == "own" else 1)

    def early(self, l, e):
        mixed = self.t.level[e] > e and self.t.node[e] == l and self.left != "entered"
        return self.t.s + (self.r[e] if mixed else 0)

    def least(self, base, l, others, mine):
        """The least w that passes the inequality, or None; `mine` are messages that are counted by their curve too."""
        t, w = self.t, 0
        while (more := base + sum(ceil(w + self.early(l, e), t.period[e]) * t.cost[e] for e in others + mine)) > w:
            w = more
            if w > 1500: return None
        return w

    def grow(self, m, l):
        """Takes a message's windows with that blocker into its bound. False if there is none."""
        t = self.t
        block = t.s + t.idle if l is None else max(t.cost[e] for e in range(t.n) if t.node[e] == l and e > t.level[m])
        mine = [e for e in range(t.n) if t.node[e] == t.node[m]]
        others = [e for e in range(t.n) if e < t.level[m] and e not in mine]
        busy = self.least(block, l, others, mine)
        if busy is None: return False
        self.busy[m, l] = busy
        for x in sorted({0} | {k * t.period[e] for e in mine for k in range(ceil(busy + t.s, t.period[e]) + 1)}):
            if x > busy + t.s: break
            w = self.least(block + sum(self.own(m, x, e) * t.cost[e] for e in mine), l, others, [])
            if w is None: return False
            since = 0 if self.left == "ready" else t.s
            self.r[m] = max(self.r[m], since + w + t.tail[m] - x)
        return True

    def bounds(self):
        t = self.t
        while True:
            old = list(self.r)
            for m in range(t.n):
                for l in [None] + sorted({t.node[e] for e in range(t.n) if e > t.level[m]}):
                    if not self.grow(m, l): return None
            if self.r == old: return self.r

    def broken(self, frames):
        """The names of the premises that don't hold."""
        t, found = self.t, set()
        for last, (m, ready, *_) in enumerate(frames):
            first, start = window(t, frames, last, t.n)
            l = None if frames[first][4] is not None else t.node[frames[first - 1][0]]
            x = ready + t.s - start - 1
            if self.left == "ready" and start >= ready: found.add("ready")
            if x < 0 or x > self.busy[m, l] + t.s: found.add("busy")
            before = [f for f in frames[first:last]]
            for e in range(t.n):
                if t.node[e] == t.node[m] and sum(f[0] == e for f in before) > self.own(m, x, e): found.add("own")
            if any(t.node[f[0]] != t.node[m] and start >= f[1] + self.early(l, f[0]) for f in before): found.add("entered")
        return found


def case_case(rng, left):
    """As wait_case, by cases."""
    t = Table(rng, None)
    cases = Cases(t, left)
    r = cases.bounds()
    if r is None: return None
    frames = play(rng, t, None)
    longest = max((f[3] - f[1]) / r[f[0]] if r[f[0]] > 0 else 9 for f in frames)
    return cases.broken(frames), any(f[3] > f[1] + r[f[0]] for f in frames), longest


def main():
    kind, runs, rng = sys.argv[1], int(sys.argv[2]), random.Random(int(sys.argv[3]))
    left = sys.argv[4] if len(sys.argv) > 4 else None
    if kind == "counts":
        wrong = sum(count_fails(rng, left) for _ in range(runs))
        print(f"{runs} inputs" + (f" without {left}" if left else "") + f": {wrong} wrong")
        return 1 if (wrong > 0) != (left is not None) else 0
    whole = alone = wrong = unbound = longest = 0
    while whole + alone < runs:
        found = (case_case if kind == "cases" else wait_case)(rng, left)
        if found is None: unbound += 1
        elif left is None or found[0] == {left}:
            if left is None and found[0]: sys.exit(f"waits.py: the bus breaks {sorted(found[0])}")
            whole, alone = whole + (left is None), alone + (left is not None)
            wrong += found[1]
            longest = max(longest, found[2])
        else: unbound += 1
    print(f"{runs} buses" + (f" without {left} alone" if left else "") + f": on {wrong} a frame waits longer; longest wait {longest:.3f} of its bound; {unbound} left out")
    return 1 if (wrong > 0) != (left is not None) else 0


if __name__ == "__main__":
    sys.exit(main())
