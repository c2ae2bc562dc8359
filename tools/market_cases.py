#!/usr/bin/env python3
"""Writes the cases of crates/market_cases: its stdin (a file in hexadecimal to a line) and its stdout.

The expected answers come from the reader below, which follows docs/FORMAT.md and shares nothing with the library.
Run it from the repository's root to write both files anew.
"""
import random


def two(n):
    return [n >> 8 & 255, n & 255]


def field(tag, body):
    return [tag] + two(len(body)) + body


def goods_field(g):
    return field(1, [g])


def name_field(text):
    return field(2, list(text))


def sum_field(s):
    return field(3, two(s))


def trader_field(owns, weighs):
    return field(4, [b for n in owns + weighs for b in two(n)])


def market(g, names, s, traders):
    out = goods_field(g)
    for name in names:
        out += name_field(name)
    out += sum_field(s)
    for owns, weighs in traders:
        out += trader_field(owns, weighs)
    return out


def expected(data):
    """The line that a file gives: 'fault N at P', or what it says."""
    at, g, names, s, traders = 0, None, [], None, []
    while True:
        if traders and at == len(data):
            break
        if len(data) - at < 3:
            return 'fault 21 at %d' % at
        if g is None:
            due = 1
        elif len(names) < g:
            due = 2
        elif s is None:
            due = 3
        else:
            due = 4 if len(traders) < 16 else None
        tag, size = data[at], data[at + 1] * 256 + data[at + 2]
        if tag != due:
            return 'fault 22 at %d' % at
        good = {1: size == 1, 2: 1 <= size <= 32, 3: size == 2, 4: g is not None and size == 4 * g}[tag]
        if not good:
            return 'fault 23 at %d' % at
        body = data[at + 3:at + 3 + size]
        if len(body) < size:
            return 'fault 21 at %d' % at
        numbers = [body[i] * 256 + body[i + 1] for i in range(0, size - 1, 2)]
        if tag == 1:
            if not 2 <= body[0] <= 8:
                return 'fault 24 at %d' % at
            g = body[0]
        elif tag == 2:
            if any(not 0x20 <= b <= 0x7E for b in body):
                return 'fault 24 at %d' % at
            names.append(bytes(body).decode('ascii'))
        elif tag == 3:
            if not 1 <= numbers[0] <= 1000:
                return 'fault 24 at %d' % at
            s = numbers[0]
        else:
            if sum(numbers[g:]) != s:
                return 'fault 25 at %d' % at
            traders.append((numbers[:g], numbers[g:]))
        at += 3 + size
    owned = [sum(t[0][j] for t in traders) for j in range(g)]
    for j in range(g):
        if owned[j] == 0:
            return 'fault 26 at %d' % (j + 1)
    return 'goods %d sum %d traders %d owned %s names %s' % (g, s, len(traders), ' '.join(map(str, owned)), '|'.join(names))


def cases():
    swap = market(2, [b'a', b'b'], 2, [([1, 0], [1, 1]), ([0, 1], [1, 1])])
    yield swap
    # every front of it: each cut of a head and of a body
    for n in range(len(swap)):
        yield swap[:n]
    # one byte changed, to each of some values
    for i in range(len(swap)):
        for v in (0, 1, 2, 3, 4, 5, 8, 9, 31, 32, 33, 126, 127, 255):
            if swap[i] != v:
                yield swap[:i] + [v] + swap[i + 1:]
    # stray bytes after the last field
    for tail in ([0], [4], [4, 0], [4, 0, 8], [1, 0, 1, 2], [5, 0, 0], [4, 0, 8, 0, 1, 0, 0, 0, 1, 0, 1]):
        yield swap + tail
    # goods out of range
    for g in (0, 1, 9, 255):
        yield goods_field(g) + swap[4:]
    # names: lengths and characters at the limits
    for name in (b'', b' ', b'~', b'\x1f', b'\x7f', b'\x80', b'x' * 32, b'x' * 33, b'ab\x00', b'x' * 256):
        yield market(2, [name, b'b'], 2, [([1, 1], [1, 1])])
        yield market(2, [b'a', name], 2, [([1, 1], [1, 1])])
    # the weight sum at the limits
    for s in (0, 1, 1000, 1001, 65535):
        yield market(2, [b'a', b'b'], s, [([1, 1], [s, 0])])
    # weights off by one, over and under, in the first and a later trader
    for weighs in ([1, 2], [1, 0], [0, 2], [3, 0], [65535, 3], [0, 0]):
        yield market(2, [b'a', b'b'], 2, [([1, 1], weighs)])
        yield market(2, [b'a', b'b'], 2, [([1, 1], [1, 1]), ([1, 1], weighs)])
    # goods that nobody owns: the smallest is told
    for owned in ([0, 1, 1], [1, 0, 1], [1, 1, 0], [0, 0, 1], [1, 0, 0], [0, 0, 0]):
        yield market(3, [b'a', b'b', b'c'], 3, [(owned, [1, 1, 1]), ([0, 0, 0], [3, 0, 0])])
    # none, one, sixteen and seventeen traders
    for n in (0, 1, 16, 17):
        yield market(2, [b'a', b'b'], 2, [([1, 1], [1, 1])] * n)
    sixteen = market(2, [b'a', b'b'], 2, [([1, 1], [1, 1])] * 16)
    for tail in ([4], [4, 0], [4, 0, 8], [3, 0, 2, 0, 2]):
        yield sixteen + tail
    # a field too few or too many, or out of its order
    yield market(3, [b'a', b'b'], 2, [([1, 1, 1], [1, 1, 0])])
    yield market(2, [b'a', b'b', b'c'], 2, [([1, 1], [1, 1])])
    yield goods_field(2) + sum_field(2)
    yield goods_field(2) + goods_field(2)
    yield name_field(b'a') + goods_field(2)
    # the largest numbers, and the largest file: 849 bytes
    yield market(8, [b'n' * 32] * 8, 1000, [([65535] * 8, [1000] + [0] * 7)] * 16)
    yield market(8, [b'n' * 32] * 8, 1000, [([65535] * 8, [125] * 8)] * 16)
    # markets by chance, and the same with one byte changed
    chance = random.Random(20)
    for _ in range(150):
        g = chance.randint(2, 8)
        s = chance.randint(1, 1000)
        traders = []
        for _ in range(chance.randint(1, 16)):
            cuts = sorted(chance.randint(0, s) for _ in range(g - 1))
            weighs = [b - a for a, b in zip([0] + cuts, cuts + [s])]
            traders.append(([chance.choice((0, 1, chance.randint(0, 65535))) for _ in range(g)], weighs))
        names = [bytes(chance.randint(0x20, 0x7E) for _ in range(chance.randint(1, 32))) for _ in range(g)]
        data = market(g, names, s, traders)
        yield data
        i = chance.randrange(len(data))
        yield data[:i] + [chance.randint(0, 255)] + data[i + 1:]


def main():
    lines, answers = [], []
    for data in cases():
        if len(data) > 1024:
            continue
        lines.append(bytes(data).hex())
        answers.append(expected(data))
    with open('crates/market_cases/stdin', 'w') as out:
        out.write(''.join(line + '\n' for line in lines))
    with open('crates/market_cases/stdout', 'w') as out:
        out.write(''.join(line + '\n' for line in answers))


main()
