#!/usr/bin/env python3
"""Tests of the plain C collector alone, before anything is measured against it.

    selftest.py SHARED_OBJECT FOLDER..

The shared object is plain.c built with -shared -fPIC. Each folder has .pcp files and the tables that GAP or exact matrices gave:
groups.tsv (name, p, n, line of the check), products.tsv (name, u, v, uv) and inverses.tsv (name, u, inverse). Then come the worked
examples and corner cases of the rules, and random small presentations, consistent or not, on which vector and count are held against
leftmost replacement letter by letter, and budget and room against the placing rule. Exit status 1 and the case at the first failure.
"""

import ctypes as c
import os
import random
import sys

sys.path.insert(0, os.path.join(os.path.dirname(os.path.abspath(__file__)), '..', 'tools'))
import model  # noqa: E402
import pcp_text as pcp  # noqa: E402

DIRT = 0xABCD
D = {(1, 2): [(3, 1)]}
Q = {(1, 1): [(3, 1)], (2, 2): [(3, 1)], (1, 2): [(3, 1)]}
H = {(1, 2): [(3, 1)], (2, 3): [(4, 1)]}
Z = {(1, 1): [(2, 1)], (1, 2): [(3, 1)]}


class Verdict(c.Structure):
    _fields_ = [(name, c.c_uint8) for name in ('outcome', 'number', 'family', 'i', 'j', 'k')] + [
        ('left', c.c_uint8 * 40), ('right', c.c_uint8 * 40), ('replacements', c.c_uint64)]


def expect(got, wanted, case):
    if got != wanted:
        sys.stderr.write('%s: got %s, wanted %s\n' % (case, got, wanted))
        sys.exit(1)


class Plain:
    """The C collector with Python lists. Every call looks after the workspace rule itself."""

    def __init__(self, path):
        self.lib = c.CDLL(path)
        self.lib.plain_check.restype = Verdict
        for name in ('judge', 'fetch', 'collect', 'product', 'inverse', 'depth'):
            getattr(self.lib, 'plain_' + name).restype = c.c_uint8
        self.calls = 0

    def after(self, number, work, case):
        self.calls += 1
        expect(list(work), [0 if number in (0, 9, 10) else DIRT] * len(work), (case, 'workspace'))

    def judge(self, numbers):
        return self.lib.plain_judge((c.c_uint16 * len(numbers))(*numbers), c.c_size_t(len(numbers)))

    def fetch(self, numbers, i, j):
        start, count = c.c_uint32(7), c.c_uint32(7)
        number = self.lib.plain_fetch((c.c_uint16 * len(numbers))(*numbers), c.c_size_t(len(numbers)), c.c_uint16(i), c.c_uint16(j),
                                      c.byref(start), c.byref(count))
        return number, numbers[start.value:start.value + count.value]

    def call(self, name, numbers, vector, second, budget, worklen):
        """(number, vector, count) of collect, product or inverse; `second` is the word, the right vector or None."""
        nums, vec = (c.c_uint16 * len(numbers))(*numbers), (c.c_uint8 * len(vector))(*vector)
        work, count = (c.c_uint16 * worklen)(*[DIRT] * worklen), c.c_uint32(7)
        more = []
        if second is not None:
            kind = c.c_uint16 if name == 'collect' else c.c_uint8
            more = [(kind * len(second))(*second), c.c_size_t(len(second))]
        number = getattr(self.lib, 'plain_' + name)(nums, c.c_size_t(len(nums)), vec, c.c_size_t(len(vec)), *more,
                                                    c.c_uint32(budget), work, c.c_size_t(worklen), c.byref(count))
        case = (name, numbers[:2], vector, second, budget, worklen)
        self.after(number, work, case)
        if number != 0:
            expect(list(vec), list(vector), (case, 'vector after a refusal'))
        return number, list(vec), count.value

    def depth(self, numbers, vector):
        depth = c.c_uint32(7)
        number = self.lib.plain_depth((c.c_uint16 * len(numbers))(*numbers), c.c_size_t(len(numbers)),
                                      (c.c_uint8 * len(vector))(*vector), c.c_size_t(len(vector)), c.byref(depth))
        return number, depth.value

    def check_line(self, numbers, budget=1000000, room=8192):
        """The program's line."""
        work = (c.c_uint16 * (3 * room))(*[DIRT] * (3 * room))
        v = self.lib.plain_check((c.c_uint16 * len(numbers))(*numbers), c.c_size_t(len(numbers)), c.c_uint32(budget), work,
                                 c.c_size_t(3 * room))
        self.after(v.number, work, 'check')
        n = numbers[1] if len(numbers) > 1 else 0
        if v.outcome == 0:
            return 'pass %d %d %d' % (numbers[0], n, n * (n - 1) * (n - 2) // 6 + n * (n - 1) + n)
        place = '%d %d %d %d' % (v.family, v.i, v.j, v.k)
        if v.outcome == 2:
            return 'refused %d %s' % (v.number, place) if v.number > 8 else 'refused %d' % v.number
        return 'differs %s : %s : %s' % (place, ' '.join(map(str, v.left[:n])), ' '.join(map(str, v.right[:n])))


def numbers_of(p, n, words):
    return pcp.to_numbers(p, n, words)


def rows(folder, name):
    with open(os.path.join(folder, name)) as file:
        return [line.rstrip('\n').split('\t') for line in file][1:]


def vector(text):
    return [int(x) for x in text.split()]


def folder_tables(plain, folder):
    """What GAP or matrices say of the groups of a folder."""
    numbers, sizes = {}, [0, 0, 0]
    for name, p, n, line in rows(folder, 'groups.tsv'):
        with open(os.path.join(folder, name + '.pcp'), 'rb') as file:
            numbers[name] = pcp.from_bytes(file.read())
        expect(numbers[name][:2], [int(p), int(n)], name)
        expect(plain.check_line(numbers[name]), line, name)
        words = pcp.from_numbers(numbers[name])[2]
        for (i, j), pairs in words.items():
            expect(plain.fetch(numbers[name], i, j), (0, [x for pair in pairs for x in pair]), (name, i, j))
        sizes[0] += 1
    for name, u, v, uv in rows(folder, 'products.tsv'):
        number, got, _ = plain.call('product', numbers[name], vector(u), vector(v), 4294967295, 3 * 8192)
        expect((number, got), (0, vector(uv)), (name, u, v))
        sizes[1] += 1
    for name, u, inverse in rows(folder, 'inverses.tsv'):
        number, got, _ = plain.call('inverse', numbers[name], vector(u), None, 4294967295, 3 * 8192)
        expect((number, got), (0, vector(inverse)), (name, u))
        sizes[2] += 1
    print('%s: %d check lines, %d products, %d inverses' % (os.path.basename(os.path.normpath(folder)), *sizes))


def examples(plain):
    """The worked examples of the rules, and the corner cases that are easy to get wrong."""
    d, q, h, z = numbers_of(2, 3, D), numbers_of(2, 3, Q), numbers_of(3, 4, H), numbers_of(2, 3, Z)
    expect(d, [2, 3, 0, 0, 0, 0, 0, 0, 0, 1, 1, 0, 1, 0, 3, 1], 'D')
    o = [0, 0, 0]
    for numbers, start, word, budget, room, wanted in [
            (d, o, [2, 1, 1, 1], 1, 2, (0, [1, 1, 1], 1)),
            (d, o, [2, 1, 1, 1], 0, 2, (9, o, 0)),
            (d, o, [2, 1, 1, 1], 0, 1, (9, o, 0)),
            (d, o, [2, 1, 1, 1], 1, 1, (10, o, 0)),
            (d, o, [2, 1, 1, 1, 2, 1, 1, 1], 5, 3, (0, [0, 0, 1], 5)),
            (d, o, [2, 1, 1, 1, 2, 1, 1, 1], 4, 3, (9, o, 3)),
            (q, [1, 0, 1], [1, 1], 3, 8, (0, o, 3)),
            (q, o, [2, 1, 1, 1], 9, 8, (0, [1, 1, 1], 1)),
            (q, o, [1, 1, 2, 1], 9, 8, (0, [1, 1, 0], 0)),
            (h, [0] * 4, [2, 2, 1, 1], 4, 4, (0, [1, 2, 2, 1], 4)),
            (d, [1, 0, 1], [], 0, 0, (0, [1, 0, 1], 0)),
            (d, o, [1, 1], 0, 0, (10, o, 0)),
            (d, o, [2, 5], 9, 1, (0, [0, 1, 0], 2))]:
        expect(plain.call('collect', numbers, start, word, budget, 3 * room), wanted, (numbers[:2], start, word, budget, room))
    expect(plain.call('collect', d, o, [2, 1, 1, 1, 2, 1, 1, 1], 99, 6)[0], 10, 'D, room 2')
    expect(plain.call('collect', d, o, [1, 1], 9, 2), (10, o, 0), 'a workspace of two numbers')
    expect(plain.call('product', d, o, [1, 1, 0], 9, 3), (10, o, 0), 'two starting slots, room 1')
    expect(plain.call('inverse', q, [1, 0, 0], None, 9, 9), (0, [1, 0, 1], 2), 'Q, inverse')
    expect(plain.call('inverse', d, o, None, 0, 0), (0, o, 0), 'inverse of the identity')
    expect(plain.call('inverse', d, [0, 1, 0], None, 0, 0), (10, [0, 1, 0], 0), 'inverse, room 0')
    for vec, wanted in [(o, 3), ([0, 0, 1], 3), ([0, 1, 1], 2), ([1, 0, 0], 1)]:
        expect(plain.depth(d, vec), (0, wanted), ('depth', vec))
    expect(plain.depth(d, [0, 2, 0]), (7, 0), 'depth of no vector')
    expect(plain.check_line(q), 'pass 2 3 10', 'Q')
    expect(plain.check_line(z), 'differs 4 1 0 0 : 1 1 1 : 1 1 0', 'Z')
    expect(plain.check_line(d, room=4), 'pass 2 3 10', 'D, room 4')
    expect(plain.check_line(d, room=3).split()[:2], ['refused', '10'], 'D, room 3')
    for n, words, wanted in [(5, {(1, 2): [(3, 1)], (3, 4): [(5, 1)]}, 'differs 1 1 2 4'), (4, {(2, 2): [(3, 1)], (1, 3): [(4, 1)]}, 'differs 2 1 2 0'),
                             (4, {(1, 1): [(3, 1)], (2, 3): [(4, 1)]}, 'differs 3 1 2 0')]:
        expect(plain.check_line(numbers_of(2, n, words))[:len(wanted)], wanted, wanted)
    for numbers, wanted in [([], 1), ([2], 1), ([247, 1], 2), ([253, 1], 2), ([1, 1], 2), ([2, 0], 3), ([2, 41], 3), ([251, 1, 0, 0], 0),
                            (numbers_of(2, 40, {}), 0), (d + [0], 5), (d[:-1], 5), ([2, 2, 0, 65535, 65535, 1, 0, 0], 4),
                            ([2, 2, 0, 65535, 65535, 0, 65535, 65535], 5)]:
        expect(plain.judge(numbers), wanted, numbers[:8])
        if wanted:
            expect(plain.check_line(numbers), 'refused %d' % wanted, numbers[:8])
            expect(plain.call('collect', numbers, [9], [0], 9, 9), (wanted, [9], 0), numbers[:8])
    for vec, word, wanted in [([0, 0], [], 7), ([0, 2, 0], [0], 7), (o, [1], 8), (o, [0, 1], 8), (o, [4, 1], 8), (o, [1, 0], 8),
                              (o, [1, 1] * 4097, 8), (o, [1, 1] * 4096, 0), (o, [1, 65535], 0)]:
        expect(plain.call('collect', d, vec, word, 999999, 9)[0], wanted, (vec, word[:4]))
    expect(plain.call('product', d, o, [0, 0], 9, 9), (7, o, 0), 'right vector')


def random_words(rng, p, n, density):
    words = {}
    for i in range(1, n + 1):
        for j in range(i, n + 1):
            pairs = [(g, rng.randrange(1, p)) for g in range(j + 1, n + 1) if rng.random() < density]
            if pairs:
                words[i, j] = pairs
    return words


def random_cases(plain, rng, many):
    """Random small presentations against the definition, and against the placing rule at every budget and room that matters."""
    compared = refused = 0
    for _ in range(many):
        p, n = rng.choice([(2, 2), (2, 3), (2, 4), (2, 5), (3, 3), (3, 4), (5, 3)])
        words = random_words(rng, p, n, rng.choice([0.2, 0.5, 0.9]))
        presentation, numbers = (p, n, words), numbers_of(p, n, words)
        start = [rng.randrange(p) for _ in range(n)]
        pairs = [(rng.randrange(1, n + 1), rng.randrange(1, p + 2)) for _ in range(rng.randrange(5))]
        flat = [x for pair in pairs for x in pair]
        right = [rng.randrange(p) for _ in range(n)]
        found = model.rewrite(presentation, model.letters_of(list(enumerate(start, 1)) + pairs))
        expect(plain.call('collect', numbers, start, flat, 1000000, 3072), (0,) + found, (presentation, start, pairs))
        found = model.rewrite(presentation, model.letters_of(list(enumerate(start, 1)) + list(enumerate(right, 1))))
        expect(plain.call('product', numbers, start, right, 1000000, 3072), (0,) + found, (presentation, start, right))
        compared += 2
        for name, second, call in [('collect', flat, lambda b, r: model.collect(presentation, start, pairs, b, r)),
                                   ('product', right, lambda b, r: model.product(presentation, start, right, b, r)),
                                   ('inverse', None, lambda b, r: model.inverse(presentation, start, b, r))]:
            _, _, count, used = call(10 ** 9, 10 ** 9)
            for _ in range(6):
                budget, room = rng.randrange(count + 2), rng.randrange(used + 2)
                number, after, counted, _ = call(budget, room)
                wanted = (number, after if number == 0 else start, counted)
                expect(plain.call(name, numbers, start, second, budget, 3 * room + rng.randrange(3)), wanted,
                       (name, presentation, start, second, budget, room))
                refused += number != 0
                compared += 1
    print('%d random calls on %d presentations, %d of them refused by budget or room' % (compared, many, refused))


def main(arguments):
    plain = Plain(os.path.abspath(arguments[0]))
    examples(plain)
    for folder in arguments[1:]:
        folder_tables(plain, folder)
    random_cases(plain, random.Random(20240501), 1500)
    print('%d calls in all, each with its workspace looked at: as the rules say' % plain.calls)


if __name__ == '__main__':
    if len(sys.argv) < 2:
        sys.exit('usage: selftest.py SHARED_OBJECT FOLDER..')
    main(sys.argv[1:])
