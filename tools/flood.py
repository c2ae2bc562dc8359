#!/usr/bin/env python3
"""Writes crates/flood/stdout: the cells of K1 and J1 for small sizes, from the rules in docs/CELLS.md.

It shares nothing with the library. Besides the flood it lists all cells by plain enumeration, checks that the flood meets just these, that there
are (D + 1)^g - D^g of them, and the laws of a triangulation. Run it from the repository's root to write the file anew.
"""
import itertools


def level(v, j):
    return v[j - 1] if 1 <= j <= len(v) else 0


def shift(up, v, j):
    return v[:j - 1] + ((v[j - 1] + 1 if up else v[j - 1] - 1),) + v[j:]


def is_corner(g, d, v):
    return len(v) == g and v[0] in (d, d + 1) and v[-1] >= 0 and all(a >= b for a, b in zip(v, v[1:]))


def broken(d, v):
    """The wall beyond which levels lie that are no corner: 9 outer, 10 real, else the good."""
    if v[0] > d + 1:
        return 9
    if v[0] < d:
        return 10
    for j in range(1, len(v) + 1):
        if level(v, j) < level(v, j + 1):
            return j
    return None


class K1:
    name = 'K1'

    def corner(self, cell, k):
        v, order, ups = cell
        for j in order[:k]:
            v = shift(ups[j - 1], v, j)
        return v

    def cells(self, g, d):
        for base in itertools.product(range(d + 2), repeat=g):
            for order in itertools.permutations(range(1, g + 1)):
                yield base, order, (True,) * g

    def candidate(self, g, cell, i):
        base, order, ups = cell
        if i == 0:
            return (shift(True, base, order[0]), order[1:] + order[:1], ups), g
        if i == g:
            return (shift(False, base, order[-1]), order[-1:] + order[:-1], ups), 0
        return (base, order[:i - 1] + (order[i], order[i - 1]) + order[i + 1:], ups), i

    def across(self, g, d, cell, i):
        """The neighbour and its new place, or the wall that its new corner would break."""
        other, to = self.candidate(g, cell, i)
        wall = broken(d, self.corner(other, to))
        return ('wall', wall) if wall else ('moved', other, to)

    def admitted(self, g, d, c):
        return True

    def start(self, g, d, c):
        return (levels(c), tuple(range(1, g + 1)), (True,) * g), 0

    def address(self, cell):
        base, order, ups = cell
        return tuple(level(base, j) if ups[j - 1] else level(base, j) - 1 for j in order)


class J1(K1):
    name = 'J1'

    def cells(self, g, d):
        for base in itertools.product(range(1, d + 3, 2), repeat=g):
            for order in itertools.permutations(range(1, g + 1)):
                for ups in itertools.product((True, False), repeat=g):
                    yield base, order, ups

    def candidate(self, g, cell, i):
        base, order, ups = cell
        if 0 < i < g:
            return K1.candidate(self, g, cell, i)
        j = order[0 if i == 0 else -1]
        if i == 0:
            base = shift(ups[j - 1], shift(ups[j - 1], base, j), j)
        return (base, order, ups[:j - 1] + (not ups[j - 1],) + ups[j:]), i

    def admitted(self, g, d, c):
        return all(x % 2 == 0 for x in c[:-1])

    def start(self, g, d, c):
        if d % 2 == 1:
            return K1.start(self, g, d, c)
        return (tuple(u + 1 for u in levels(c)), tuple(range(g, 0, -1)), (False,) * g), g


def levels(c):
    return tuple(sum(c[i:]) for i in range(len(c)))


def prices(v):
    return tuple(level(v, j) - level(v, j + 1) for j in range(1, len(v) + 1))


def on(d, wall, v):
    return v[0] == d + 1 if wall == 9 else v[0] == d if wall == 10 else prices(v)[wall - 1] == 0


def outer_label(c, v):
    return next((j for j, (a, x) in enumerate(zip(c, prices(v)), 1) if x > a), 0)


def check(tri, g, d, cells):
    """The laws, by looking at every cell."""
    assert len(cells) == (d + 1) ** g - d ** g
    corners = {c: [tri.corner(c, k) for k in range(g + 1)] for c in cells}
    assert all(len(set(v)) == g + 1 for v in corners.values())
    assert len({frozenset(v) for v in corners.values()}) == len(cells)
    addresses = {tri.address(c) for c in cells}
    assert len(addresses) == len(cells)
    assert all(d in a and all(0 <= n <= d for n in a) for a in addresses)
    for c in cells:
        for i in range(g + 1):
            rest = corners[c][:i] + corners[c][i + 1:]
            walls = [w for w in list(range(1, g + 1)) + [9, 10] if all(on(d, w, v) for v in rest)]
            got = tri.across(g, d, c, i)
            if got[0] == 'wall':
                assert got[1] in walls
            else:
                _, b, j = got
                assert not walls and b in corners and b != c
                assert corners[b][:j] + corners[b][j + 1:] == rest
                assert tri.across(g, d, b, j) == ('moved', c, i)
    for c in itertools.product(range(d + 1), repeat=g):
        if sum(c) != d:
            continue
        if not tri.admitted(g, d, c):
            assert d % 2 or any(x % 2 for x in c)
            continue
        home, at = tri.start(g, d, c)
        assert corners[home][at] == levels(c)
        for a in cells:
            for i in range(g + 1):
                rest = corners[a][:i] + corners[a][i + 1:]
                starts = all(v[0] == d + 1 for v in rest) and sorted(outer_label(c, v) for v in rest) == list(range(1, g + 1))
                assert starts == (a == home and i == at)


def main():
    out = []
    for tri in (K1(), J1()):
        for g, most in ((2, 6), (3, 4), (4, 3)):
            for d in range(1, most + 1):
                every = {c for c in tri.cells(g, d) if all(is_corner(g, d, tri.corner(c, k)) for k in range(g + 1))}
                met = [tri.start(g, d, (0,) * (g - 1) + (d,))[0]]
                for c in met:
                    for i in range(g + 1):
                        got = tri.across(g, d, c, i)
                        if got[0] == 'moved' and got[1] not in met:
                            met.append(got[1])
                assert set(met) == every
                check(tri, g, d, met)
                out.append('%s goods %d mesh %d: %d cells' % (tri.name, g, d, len(met)))
                for c in met:
                    line = 'base %s order %s directions %s' % (' '.join(map(str, c[0])), ' '.join(map(str, c[1])), ''.join('+' if u else '-' for u in c[2]))
                    for i in range(g + 1):
                        line += ' | ' + ' '.join(map(str, tri.corner(c, i)))
                        got = tri.across(g, d, c, i)
                        line += ' wall %d' % got[1] if got[0] == 'wall' else ' -> %d at %d' % (met.index(got[1]), got[2])
                    out.append(line)
    with open('crates/flood/stdout', 'w') as f:
        f.write(''.join(line + '\n' for line in out))


main()
