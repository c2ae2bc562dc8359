#!/usr/bin/env python3
"""Writes the cases of crates/walk_cases: its stdin (a case to a line) and its stdout.

The expected answers come from the walk below, which follows docs/RULES.md, docs/CELLS.md, docs/FORMAT.md and the rules that stand at `Run`, and shares
nothing with the library. Besides, it checks by looking that no cell comes twice on one mesh, that no mesh has more cells than the bound, that a new corner
is a reflection of the dropped one, and that no way is blocked (refusal 10 is never given). Run it from the repository's root to write both files anew.

A case is a line of four parts, for example

    k1 | sheet 0101010202 | 7 2 4 4 0 | s s l f1 r7.4.2

first the triangulation (k1, j1); then the labelling (sheet with its labels, or market with the market file, both in hexadecimal); then run number, goods,
mesh and start prices of the opening; then the calls: s steps, l looks, f1 looks for label 1, r7.4.2 refines with the ticket of run 7 on mesh 4 by 2.
"""
import random


# levels and prices

def levels_of(prices):
    return tuple(sum(prices[j:]) for j in range(len(prices)))


def prices_of(levels):
    return tuple(a - b for a, b in zip(levels, levels[1:] + (0,)))


def most_mesh(g):
    return 16384 if g <= 4 else 128


def is_corner(d, levels):
    return levels[0] in (d, d + 1) and all(x >= 0 for x in prices_of(levels))


# triangulations; a cell is (base, order, directions) with a direction +1 or -1 for each level

def raised(levels, j, by):
    return levels[:j - 1] + (levels[j - 1] + by,) + levels[j:]


class K1:
    name = 'k1'

    @staticmethod
    def admits(c):
        return True

    @staticmethod
    def start(c):
        """The start cell of c, and the place of c in it."""
        g = len(c)
        return (levels_of(c), tuple(range(1, g + 1)), (1,) * g), 0

    @staticmethod
    def corners(cell):
        base, order, directions = cell
        out = [base]
        for j in order:
            out.append(raised(out[-1], j, directions[j - 1]))
        return out

    @staticmethod
    def swapped(cell, i):
        base, order, directions = cell
        return base, order[:i - 1] + (order[i], order[i - 1]) + order[i + 1:], directions

    @classmethod
    def beyond(cls, cell, i):
        """What would lie across a place if there were no walls, with the place of the new corner."""
        base, order, directions = cell
        g = len(base)
        if i == 0:
            return (raised(base, order[0], 1), order[1:] + order[:1], directions), g
        if i == g:
            return (raised(base, order[-1], -1), order[-1:] + order[:-1], directions), 0
        return cls.swapped(cell, i), i

    @staticmethod
    def reflected(v, i):
        """The new corner across place i, from the corners alone."""
        n = len(v)
        return tuple(a + b - c for a, b, c in zip(v[i - 1], v[(i + 1) % n], v[i]))


class J1(K1):
    name = 'j1'

    @staticmethod
    def admits(c):
        return all(x % 2 == 0 for x in c[:-1])

    @staticmethod
    def start(c):
        g, d = len(c), sum(c)
        if d % 2 == 1:
            return K1.start(c)
        return (tuple(u + 1 for u in levels_of(c)), tuple(range(g, 0, -1)), (-1,) * g), g

    @classmethod
    def beyond(cls, cell, i):
        base, order, directions = cell
        g = len(base)
        if 0 < i < g:
            return cls.swapped(cell, i), i
        j = order[0] if i == 0 else order[-1]
        turned = directions[:j - 1] + (-directions[j - 1],) + directions[j:]
        if i == 0:
            base = raised(base, j, 2 * directions[j - 1])
        return (base, order, turned), i

    @staticmethod
    def reflected(v, i):
        g = len(v) - 1
        a = v[1] if i == 0 else v[i - 1]
        b = v[g - 1] if i == g else v[i + 1]
        return tuple(x + y - z for x, y, z in zip(a, b, v[i]))


# labellings

class Sheet:
    def __init__(self, mesh, labels):
        assert 1 <= mesh <= 64 and len(labels) == mesh + 1
        self.mesh, self.labels = mesh, labels

    def text(self):
        return 'sheet ' + bytes(self.labels).hex()

    def label(self, x):
        return self.labels[x[1]] if len(x) == 2 and sum(x) == self.mesh else 0


class Market:
    def __init__(self, s, traders):
        """The weight sum, and for each trader what it owns and how it weighs."""
        self.s, self.traders, self.g = s, traders, len(traders[0][0])
        assert 2 <= self.g <= 8 and 1 <= s <= 1000 and 1 <= len(traders) <= 16
        assert all(sum(weighs) == s for _, weighs in traders)
        assert all(sum(owns[j] for owns, _ in traders) > 0 for j in range(self.g))

    def text(self):
        def field(tag, body):
            return bytes([tag]) + len(body).to_bytes(2, 'big') + body

        def numbers(row):
            return b''.join(n.to_bytes(2, 'big') for n in row)

        data = field(1, bytes([self.g]))
        for j in range(self.g):
            data += field(2, bytes([ord('a') + j]))
        data += field(3, numbers([self.s]))
        for owns, weighs in self.traders:
            data += field(4, numbers(owns) + numbers(weighs))
        return 'market ' + data.hex()

    def label(self, x):
        if len(x) != self.g:
            return 0
        for j in range(self.g):
            demand = sum(weighs[j] * sum(p * w for p, w in zip(x, owns)) for owns, weighs in self.traders)
            supply = self.s * x[j] * sum(owns[j] for owns, _ in self.traders)
            if x[j] > 0 and demand - supply <= 0:
                return j + 1
        assert False, 'no label'


# the walk

def outer_label(c, levels):
    return next(j for j, (a, x) in enumerate(zip(c, prices_of(levels)), 1) if x > a)


def is_proper(label, x):
    return 1 <= label <= len(x) and x[label - 1] > 0


def words(numbers):
    return ' '.join(map(str, numbers))


class Refused(Exception):
    pass


def refuse_unless(test, number):
    if not test:
        raise Refused(number)


class Run:
    """The rules of the walk.

    A run opens in the start cell of its start point c, whose outer corners have their outer labels for c; c is the newest corner, and the run walks.
    A step labels the newest corner: an outer one by its outer label for c, a real one by the labelling. At an improper label the run halts there.
    Otherwise one other corner has the same label and is dropped. Beyond it lies the real wall, and the run has arrived and answers a ticket with its
    number and the mesh; or a cell, where the new corner is the newest. Refining takes the ticket and a factor: the run begins anew on the finer mesh,
    at the arrived corner labelled 1. Count has the cells on this mesh, total those on all. Each call refuses in the order written below.
    """

    def __init__(self, tri, labels, number, g, d, start):
        refuse_unless(2 <= g <= 8, 1)
        refuse_unless(1 <= d <= most_mesh(g), 2)
        refuse_unless(len(start) == g and sum(start) == d, 3)
        refuse_unless(tri.admits(start), 4)
        self.tri, self.labelling, self.number, self.g = tri, labels, number, g
        self.total = 0
        self.begin(d, tuple(start))

    def begin(self, d, start):
        self.d, self.start = d, start
        self.cell, self.newest = self.tri.start(start)
        corners = self.tri.corners(self.cell)
        assert corners[self.newest] == levels_of(start)
        self.label = [0 if i == self.newest else outer_label(start, v) for i, v in enumerate(corners)]
        assert sorted(self.label) == list(range(self.g + 1))
        self.stage, self.count, self.seen = ('walking',), 1, {frozenset(corners)}
        self.total += 1

    def step(self):
        refuse_unless(self.stage[0] == 'walking', 8)
        corners = self.tri.corners(self.cell)
        levels = corners[self.newest]
        x = prices_of(levels)
        label = outer_label(self.start, levels) if levels[0] == self.d + 1 else self.labelling.label(x)
        self.label[self.newest] = label
        if not is_proper(label, x):
            self.stage = ('halted', x, label)
            return 'halted at %s label %d' % (words(x), label)
        dropped, = [i for i in range(self.g + 1) if i != self.newest and self.label[i] == label]
        cell, place = self.tri.beyond(self.cell, dropped)
        new = self.tri.corners(cell)[place]
        assert new == self.tri.reflected(corners, dropped)
        if new[0] < self.d:
            assert all(v[0] == self.d for i, v in enumerate(corners) if i != dropped)
            self.stage = ('arrived', dropped)
            return 'ticket %d %d' % (self.number, self.d)
        assert is_corner(self.d, new), 'the way is blocked'
        rest = self.label[:dropped] + self.label[dropped + 1:]
        self.cell, self.newest, self.label = cell, place, rest[:place] + [0] + rest[place:]
        self.count += 1
        self.total += 1
        corners_now = frozenset(self.tri.corners(cell))
        assert corners_now not in self.seen, 'a cell comes twice'
        self.seen.add(corners_now)
        assert self.count == len(self.seen) <= (self.d + 1) ** self.g - self.d ** self.g
        return 'moved'

    def prices_labelled(self, j):
        corners = self.tri.corners(self.cell)
        at, = [i for i in range(self.g + 1) if i != self.stage[1] and self.label[i] == j]
        return prices_of(corners[at])

    def look_for(self, j):
        refuse_unless(self.stage[0] == 'arrived', 9)
        refuse_unless(1 <= j <= self.g, 11)
        return 'prices %s' % words(self.prices_labelled(j))

    def refine(self, number, mesh, factor):
        refuse_unless(self.stage[0] == 'arrived' and (number, mesh) == (self.number, self.d), 5)
        refuse_unless(2 <= factor <= 64, 6)
        refuse_unless(factor * self.d <= most_mesh(self.g), 7)
        start = tuple(factor * x for x in self.prices_labelled(1))
        refuse_unless(self.tri.admits(start), 4)
        self.begin(factor * self.d, start)
        return 'began'

    def look(self):
        if self.stage[0] == 'halted':
            stage = 'halted at %s label %d' % (words(self.stage[1]), self.stage[2])
        else:
            stage = words(self.stage)
        corners = ['%s: %d' % (words(v), label) for v, label in zip(self.tri.corners(self.cell), self.label)]
        return 'look %s goods %d mesh %d count %d total %d | %s' % (stage, self.g, self.d, self.count, self.total, ' | '.join(corners))

    def made(self, call):
        """What a call answers; a refused one alters nothing."""
        before = self.look()
        try:
            if call == 's':
                return self.step()
            if call == 'l':
                return self.look()
            if call[0] == 'f':
                return self.look_for(int(call[1:]))
            return self.refine(*map(int, call[1:].split('.')))
        except Refused as refused:
            assert self.look() == before
            return 'refused %d' % refused.args


class Case:
    def __init__(self, tri, labels, number, g, d, start, calls):
        self.opening = tri, labels, number, g, d, tuple(start)
        self.calls = calls.split()
        assert len(self.calls) <= 200

    def line(self):
        tri, labels, number, g, d, start = self.opening
        return ('%s | %s | %s | %s' % (tri.name, labels.text(), words((number, g, d) + start), ' '.join(self.calls))).rstrip()

    def answers(self):
        try:
            run = Run(*self.opening)
        except Refused as refused:
            return ['refused %d' % refused.args]
        return ['began'] + [run.made(call) for call in self.calls] + [run.look()]


# the cases

SWAP = Market(2, [([1, 0], [1, 1]), ([0, 1], [1, 1])])
PLAIN = Sheet(4, [1, 1, 1, 2, 2])
BOTH = (K1, J1)


def one_owner(g):
    """A market of one trader, who owns one of each good and weighs all alike: equal prices clear it."""
    return Market(g, [([1] * g, [1] * g)])


def arriving(tri, labels, g, d, start):
    """As many steps as lead to the arrival."""
    run, calls = Run(tri, labels, 0, g, d, start), []
    while run.stage[0] == 'walking':
        run.step()
        calls.append('s')
    assert run.stage[0] == 'arrived'
    return ' '.join(calls)


def sheets():
    # to the arrival, each question there, and a finer mesh that the sheet does not know
    asks = ' l f0 f1 f2 f3'
    for tri in BOTH:
        yield Case(tri, PLAIN, 7, 2, 4, (4, 0), 's' + ' s l' * 5 + asks + ' s l r7.4.2 l s l s f1 r7.4.2 r7.8.2 l')
        yield Case(tri, PLAIN, 7, 2, 4, (4, 0), '')
        yield Case(tri, PLAIN, 0, 2, 4, (4, 0), 'l s l f1 f0 f3 r0.4.2 l s s s s s f1 f2')
        for start in ((2, 2), (0, 4)):
            yield Case(tri, PLAIN, 65535, 2, 4, start, 's l s l s l s l s l s l f1 f2 r65535.4.64 l s l')
    # a halt at the start, and what is refused after it
    for tri in BOTH:
        yield Case(tri, Sheet(4, [2, 1, 1, 2, 2]), 7, 2, 4, (4, 0), 'l s l s l f1 f0 f3 r7.4.2 l s')
        # a halt on the way, with labels that are no good or have no price
        for odd in (0, 3, 255):
            yield Case(tri, Sheet(4, [1, odd, 1, 2, 2]), 7, 2, 4, (4, 0), 's s s s l s l r7.4.2 f1 l')
        yield Case(tri, Sheet(4, [1, 1, 1, 1, 1]), 7, 2, 4, (4, 0), 's s s s s s s s s s l s l')
        yield Case(tri, Sheet(4, [2, 2, 2, 2, 2]), 7, 2, 4, (0, 4), 's s s s s s s s s s l s l')
        # a sheet of another mesh, and a sheet asked for three goods
        yield Case(tri, Sheet(3, [1, 1, 2, 2]), 7, 2, 4, (4, 0), 's l s l')
        yield Case(tri, Sheet(4, [1, 1, 1, 2, 2]), 7, 3, 4, (4, 0, 0), 's l s l')
        # the smallest and the largest sheet
        yield Case(tri, Sheet(1, [1, 2]), 1, 2, 1, (0, 1), 's l s l s l s l f1 f2 r1.1.2 l s l')
        yield Case(tri, Sheet(64, [1] * 20 + [2] * 45), 1, 2, 64, (44, 20), 's l s l s l s l s l s l f1 f2 r1.64.64 l s l')


def markets():
    asks = ' l f0 f1 f2 f3 l'
    for tri in BOTH:
        # the market that two traders swap on, made finer by 2 again and again
        finer = ''.join(' r9.%d.2 l s s s s l' % (4 * 2 ** k) for k in range(6))
        yield Case(tri, SWAP, 9, 2, 4, (4, 0), 's s s s s s' + asks + finer)
        yield Case(tri, SWAP, 9, 2, 4, (0, 4), 's s s s s s s s' + asks + finer)
        # refused refinings: factor, ticket; and after each the run is as before
        yield Case(tri, SWAP, 9, 2, 4, (4, 0), 'r9.4.2 l s s s s s s l r9.4.0 l r9.4.1 l r9.4.65 l r9.4.4294967295 l r8.4.2 l r9.8.2 l r9.2.2 l r8.4.1 r9.8.65 r0.0.0 l r9.4.64 l s s s s l f1 f2')
        # a ticket serves once
        yield Case(tri, SWAP, 9, 2, 4, (4, 0), 's s s s s s r9.4.2 r9.4.2 l r9.8.2 l s s s s l r9.4.2 l r9.8.2 l')
        # the most: 16,384 is reached and not passed
        yield Case(tri, SWAP, 9, 2, 256, (128, 128), 's s s s l r9.256.64 l s s s s l r9.16384.2 l r9.16384.65 l r9.16384.1 l f1 f2')
        yield Case(tri, SWAP, 9, 2, 8192, (4096, 4096), 's s s s l r9.8192.3 l r9.8192.2 l s s s s l r9.16384.2 l')
        for g, d, start, calls in (
            (2, 3277, (1638, 1639), ' l r9.3277.5 l r9.3277.4 l s l'),
            (2, 8190, (4094, 4096), ' l f1 r9.8190.3 l r9.8190.2 l s l'),
            (5, 40, (8,) * 5, ' l r9.40.4 l r9.40.3 l s l s l'),
            (5, 43, (8, 8, 8, 8, 11), ' l r9.43.3 l r9.43.2 l s l s l'),
            (8, 16, (2,) * 8, ' l r9.16.9 l r9.16.8 l s l s l'),
        ):
            yield Case(tri, one_owner(g), 9, g, d, start, arriving(tri, one_owner(g), g, d, start) + calls)
        # factors whose product with the mesh does not fit in 32 bits
        yield Case(tri, SWAP, 9, 2, 16384, (8192, 8192), 's s s s l r9.16384.262144 l r9.16384.4294967295 l')
        # a market asked for another number of goods
        yield Case(tri, SWAP, 9, 3, 4, (0, 0, 4), 's l s l')
        yield Case(tri, one_owner(3), 9, 2, 4, (0, 4), 's l s l')
        # every good, asked for by its label
        for g in range(2, 9):
            asks = ' l ' + ' '.join('f%d' % j for j in range(g + 2)) + ' f18446744073709551615'
            yield Case(tri, one_owner(g), 9, g, 2 * g, (2,) * g, arriving(tri, one_owner(g), g, 2 * g, (2,) * g) + asks)
    # J1 refuses to begin at an odd price, K1 does not
    for tri in BOTH:
        yield Case(tri, SWAP, 9, 2, 6, (4, 2), 's s s s s s s s l f1 r9.6.3 l r9.6.5 l r9.6.2 l s s s s s s s s l f1 r9.12.3 l')
        yield Case(tri, Sheet(5, [1, 1, 2, 2, 2, 2]), 9, 2, 5, (4, 1), 's s s s s s l f1 r9.5.3 l r9.5.2 l s l')
        yield Case(tri, Sheet(5, [1, 1, 1, 2, 2, 2]), 9, 2, 5, (4, 1), 's s s s s s l f1 r9.5.3 l r9.5.2 l s l')
    # the largest numbers
    owners = [([65535] * 4, [1000, 0, 0, 0]), ([65535] * 4, [0, 0, 0, 1000])] * 8
    for tri in BOTH:
        yield Case(tri, Market(1000, owners), 65535, 4, 16384, (8192, 0, 0, 8192), ' '.join('s' * 24) + ' l f1 f2 f3 f4 r65535.16384.2 l')
        yield Case(tri, Market(1000, owners), 65535, 4, 16384, (0, 0, 0, 16384), ' '.join('s' * 24) + ' l')


def openings():
    for tri in BOTH:
        for g in (0, 1, 9, 255, 2 ** 64 - 1):
            yield Case(tri, SWAP, 3, g, 4, (4, 0), 's l')
        yield Case(tri, SWAP, 3, 1, 0, (4, 0), 's l')
        for g, most in ((2, 16384), (3, 16384), (4, 16384), (5, 128), (6, 128), (7, 128), (8, 128)):
            for d in (most, most + 1) if 2 < g < 8 else (0, most, most + 1, 2 ** 32 - 1):
                yield Case(tri, one_owner(g), 3, g, d, (0,) * (g - 1) + (d,), 'l s l s l')
            # two faults: the first in order is told
            yield Case(tri, one_owner(g), 3, g, most + 1, (1,), 's')
        for start in ((), (4,), (4, 0, 0), (4, 0, 0, 0, 0, 0, 0, 0, 0, 0), (4, 1), (3, 0), (5, 0), (0, 0), (2 ** 32 - 1, 5), (3, 2 ** 32 - 1), (1, 1, 2), (3, 3)):
            yield Case(tri, SWAP, 3, 2, 4, start, 's l')
        yield Case(tri, one_owner(8), 3, 8, 8, (1,) * 7, 's l')
        yield Case(tri, one_owner(8), 3, 8, 8, (1,) * 7 + (2,), 's l')
        yield Case(tri, one_owner(8), 3, 8, 9, (1,) * 9, 's l')
        # odd prices: at an early good, at the last but one, at the last alone
        for start in ((1, 3), (3, 1), (2, 2), (1, 4), (4, 1)):
            yield Case(tri, SWAP, 3, 2, sum(start), start, 's l s l')
        for start in ((1, 2, 2), (2, 1, 2), (2, 2, 1), (1, 1, 2), (0, 3, 3), (0, 0, 5)):
            yield Case(tri, one_owner(3), 3, 3, sum(start), start, 's l s l')


def parts(chance, total, n):
    cuts = sorted(chance.randint(0, total) for _ in range(n - 1))
    return [b - a for a, b in zip([0] + cuts, cuts + [total])]


def some_market(chance, g):
    s = chance.choice((1, 2, 10, 1000))
    traders = [([chance.choice((0, 1, 3, chance.randint(0, 65535))) for _ in range(g)], parts(chance, s, g)) for _ in range(chance.randint(1, 3))]
    for j in range(g):
        if all(owns[j] == 0 for owns, _ in traders):
            chance.choice(traders)[0][j] = chance.randint(1, 65535)
    return Market(s, traders)


def some_sheet(chance, d):
    labels = [1] + [chance.choice((1, 2)) for _ in range(d - 1)] + [2]
    if chance.random() < 0.3:
        labels[chance.randrange(d + 1)] = chance.choice((0, 1, 2, 3, 255))
    return Sheet(d, labels)


def some_start(chance, tri, g, d):
    """Mostly a point from which a walk may start."""
    start = parts(chance, d, g)
    if tri is J1 and chance.random() < 0.95:
        start = [x - x % 2 for x in start[:-1]]
        start.append(d - sum(start))
    return tuple(start)


def some_call(chance, run):
    """A call that is mostly good where the run stands."""
    luck = chance.random()
    right = 'r%d.%d' % (run.number, run.d)
    if run.stage[0] == 'walking':
        if luck < 0.88:
            return 's'
        return chance.choice(('l', 'l', 'f1', 'f%d' % chance.randint(0, 9), right + '.2'))
    if run.stage[0] == 'halted':
        return chance.choice(('l', 's', 'f1', right + '.2'))
    if luck < 0.4:
        return '%s.%d' % (right, chance.randint(2, 4))
    if luck < 0.5:
        return 'r%d.%d.%d' % (run.number + chance.choice((0, 1)), max(0, run.d + chance.choice((-1, 1))), chance.randint(2, 4))
    if luck < 0.55:
        return '%s.%d' % (right, chance.choice((0, 1, 65)))
    if luck < 0.8:
        return 'f%d' % chance.randint(0, run.g + 1)
    return chance.choice(('l', 's'))


def by_chance(seed):
    chance = random.Random(seed)
    for turn in range(100):
        tri = BOTH[turn % 2]
        if turn < 24:
            g, d = 2, chance.randint(1, 8)
            labels = some_sheet(chance, d)
        elif turn < 80:
            g, d = chance.randint(2, 4), chance.randint(1, 8)
            labels = some_market(chance, g)
        else:
            g, d = chance.randint(5, 8), chance.randint(1, 2)
            labels = some_market(chance, g)
        number = chance.choice((0, 1, chance.randint(0, 65534)))
        start = some_start(chance, tri, g, d)
        calls, after_halt = [], 0
        try:
            run = Run(tri, labels, number, g, d, start)
            while len(calls) < 64 and after_halt < 6:
                calls.append(some_call(chance, run))
                run.made(calls[-1])
                after_halt += run.stage[0] == 'halted'
        except Refused:
            calls = ['s', 'l']
        yield Case(tri, labels, number, g, d, start, ' '.join(calls))


def main():
    every = list(sheets()) + list(markets()) + list(openings()) + list(by_chance(20))
    lines = [case.line() for case in every]
    answers = []
    for n, case in enumerate(every, 1):
        answers.append('case %d' % n)
        answers += case.answers()
    assert not any(answer == 'refused 10' for answer in answers)
    with open('crates/walk_cases/stdin', 'w') as out:
        out.write(''.join(line + '\n' for line in lines))
    with open('crates/walk_cases/stdout', 'w') as out:
        out.write(''.join(line + '\n' for line in answers))


main()
