#!/usr/bin/env python3
"""Makes larger consistent presentations (n from 30 to 40) for the benchmark, from groups that are known in another way.

    groups.py FOLDER

Each group is a concrete one, of matrices, polynomials or algebraic integers, in which elements are multiplied without any collection.
It comes with generators x_1 .. x_n whose subgroups G_i = <x_i, .., x_n> form a central series with factors of order p, and with a way
to read off, of an element of G_i, its exponent at x_i. From these alone the words w_i = x_i^p and w_ij = [x_j,x_i] are worked out.

Why the presentations are consistent: the relations hold in a group that the x_i generate and whose order is p^n (each factor
G_i/G_{i+1} has order p), and a group so presented never has a larger order than p^n. What is tested here all the same, for each group:
that each word uses only generators high enough, that each relation holds when its word is multiplied out again, that exponents are
read back from products of powers, and that a small collector (model.py) agrees with the concrete multiplication.

Written into FOLDER: NAME.pcp, groups.tsv (name, p, n, the line of the consistency check), products.tsv (name, u, v, uv) and
inverses.tsv (name, u, inverse), the products and inverses by the concrete multiplication. The same files come out each time.

    utM_P          unitriangular M x M matrices over the field of P elements, by rising superdiagonal: n = M(M - 1)/2
    utcolM_P       the same group by columns, with 1 - E_ab for 1 + E_ab: then all exponents are 1 where in utM_P some are P - 1,
                   which at P = 251 takes the check past the program's budget
    utM_P_mixed    the same group on generators that are multiplied by random elements of the next subgroup, so that words are long
    coverD_P       the largest group with D generators whose p-th powers and commutators are central of order p: n = D + D(D + 1)/2
    wreath_P_M     the cyclic group of order P wreathed by the cyclic group of order M, a power of P: n = M + log M
    maxclass_P_N   the maximal class group O/(z - 1)^(N - 1) extended by z, O the integers with a P-th root of unity z: n = N
    ut5x4_P        four unitriangular groups of 5 x 5 matrices side by side, their generators interleaved: n = 40
"""

import os
import random
import sys

sys.path.insert(0, os.path.join(os.path.dirname(os.path.abspath(__file__)), '..', 'tools'))
import model  # noqa: E402
import pcp_text as pcp  # noqa: E402


class Concrete:
    """A concrete group: p, its generators, one, mul, inv, and lead(a) = (i, e), the first exponent e != 0 of a, at x_i; None of one."""

    def power(self, a, e):
        result = self.one
        while e:
            if e & 1:
                result = self.mul(result, a)
            a = self.mul(a, a)
            e >>= 1
        return result

    def evaluate(self, vector):
        result = self.one
        for x, e in zip(self.gens, vector):
            if e:
                result = self.mul(result, self.power(x, e))
        return result

    def exponents(self, a):
        """The vector of a: its leading exponent, then that of what is left."""
        vector = [0] * len(self.gens)
        while True:
            found = self.lead(a)
            if found is None:
                return vector
            i, e = found
            assert vector[i - 1] == 0 and 0 < e < self.p
            vector[i - 1] = e
            a = self.mul(self.inv(self.power(self.gens[i - 1], e)), a)


class Unitriangular(Concrete):
    """Matrices, as tuples of rows. The generators are 1 + E_ab, by b - a and then a: the lower central series, refined. Or they are
    1 - E_ab, by b and then falling a: [x_bc, x_ab] = x_ac."""

    def __init__(self, size, p, columns=False):
        self.p, self.size, self.sign = p, size, -1 if columns else 1
        if columns:
            self.places = [(a, b) for b in range(size) for a in reversed(range(b))]
        else:
            self.places = [(a, a + h) for h in range(1, size) for a in range(size - h)]
        self.one = tuple(tuple(int(a == b) for b in range(size)) for a in range(size))
        self.gens = [self.elementary(a, b) for a, b in self.places]

    def elementary(self, a, b):
        return tuple(tuple(self.sign % self.p if (r, c) == (a, b) else int(r == c) for c in range(self.size)) for r in range(self.size))

    def mul(self, x, y):
        size, p = self.size, self.p
        return tuple(tuple(sum(x[r][m] * y[m][c] for m in range(r, c + 1)) % p if c >= r else 0 for c in range(size))
                     for r in range(size))

    def inv(self, x):
        # 1 - N + N^2 - .. for x = 1 + N, N nilpotent: row by row from below.
        size, p = self.size, self.p
        rows = [None] * size
        for r in reversed(range(size)):
            row = [0] * size
            row[r] = 1
            for m in range(r + 1, size):
                for c in range(m, size):
                    row[c] = (row[c] - x[r][m] * rows[m][c]) % p
            rows[r] = row
        return tuple(map(tuple, rows))

    def lead(self, x):
        for i, (a, b) in enumerate(self.places, 1):
            if x[a][b]:
                return i, x[a][b] * self.sign % self.p
        return None


class Mixed(Concrete):
    """Another group on generators x_i times a random element of the next subgroup: leading exponents stay as they are."""

    def __init__(self, inner, rng):
        self.p, self.one, self.mul, self.inv, self.lead = inner.p, inner.one, inner.mul, inner.inv, inner.lead
        self.gens = []
        for i, x in enumerate(inner.gens):
            tail = [0] * (i + 1) + [rng.randrange(self.p) for _ in inner.gens[i + 1:]]
            self.gens.append(inner.mul(x, inner.evaluate(tail)))


class Cover(Concrete):
    """Pairs (a, y): a has D entries modulo p; y has a place for each x_i^p and each [x_j,x_i], and is central."""

    def __init__(self, d, p):
        self.p, self.d = p, d
        self.pairs = [(i, j) for i in range(d) for j in range(i + 1, d)]
        self.one = (0,) * (d + d + len(self.pairs))
        self.gens = [tuple(int(k == i) for k in range(len(self.one))) for i in range(len(self.one))]

    def mul(self, x, y):
        d, p = self.d, self.p
        # Moving x_i^b past x_j^a costs a * b commutators; a sum that passes p carries into the p-th power.
        carries = [int(x[i] + y[i] >= p) for i in range(d)]
        moves = [x[j] * y[i] for i, j in self.pairs]
        extra = [0] * d + carries + moves
        return tuple((a + b + c) % p for a, b, c in zip(x, y, extra))

    def inv(self, x):
        # The first entries negated give an inverse but for a central part.
        y = tuple(-a % self.p for a in x[:self.d]) + self.one[self.d:]
        rest = self.mul(x, y)
        return self.mul(y, tuple(-a % self.p for a in rest))

    def lead(self, x):
        return next(((i, e) for i, e in enumerate(x, 1) if e), None)


class Wreath(Concrete):
    """Pairs (t, f): f in F_p[x]/(x - 1)^m by powers of x - 1, m = p^k, and t modulo m acting as x^t. t is generated by its digits."""

    def __init__(self, p, m):
        self.p, self.m, self.k = p, m, 0
        while p ** self.k < m:
            self.k += 1
        assert p ** self.k == m
        self.one = (0, (0,) * m)
        self.gens = [(p ** s, (0,) * m) for s in range(self.k)]
        self.gens += [(0, tuple(int(r == c) for c in range(m))) for r in range(m)]

    def act(self, f, t):
        # x^(p^s) = 1 + (x - 1)^(p^s) in characteristic p.
        shift = 1
        while t:
            t, digit = divmod(t, self.p)
            for _ in range(digit):
                f = tuple((f[r] + (f[r - shift] if r >= shift else 0)) % self.p for r in range(self.m))
            shift *= self.p
        return f

    def mul(self, x, y):
        return (x[0] + y[0]) % self.m, tuple((a + b) % self.p for a, b in zip(self.act(x[1], y[0]), y[1]))

    def inv(self, x):
        t = -x[0] % self.m
        return t, tuple(-a % self.p for a in self.act(x[1], t))

    def lead(self, x):
        t = x[0]
        if t:
            s = 0
            while t % self.p == 0:
                t, s = t // self.p, s + 1
            return s + 1, t % self.p
        return next(((self.k + r, e) for r, e in enumerate(x[1], 1) if e), None)


class MaximalClass(Concrete):
    """Pairs (s, f): s modulo p acting as z^s, and f in Z[z]/pi^m, pi = z - 1, kept as its digits 0 .. p - 1 at the powers of pi."""

    def __init__(self, p, n):
        self.p, self.m = p, n - 1
        self.pis = [[1] + [0] * (p - 2)]
        for _ in range(self.m - 1):
            self.pis.append([a - b for a, b in zip(self.times_z(self.pis[-1]), self.pis[-1])])
        self.one = (0, (0,) * self.m)
        self.gens = [(1, (0,) * self.m)] + [(0, tuple(int(r == c) for c in range(self.m))) for r in range(self.m)]

    def times_z(self, f):
        # z^(p-1) = -(1 + z + .. + z^(p-2))
        return [a - f[-1] for a in [0] + f[:-1]]

    def integer(self, digits):
        return [sum(d * pi[c] for d, pi in zip(digits, self.pis)) for c in range(self.p - 1)]

    def digits(self, f):
        p, digits = self.p, []
        for _ in range(self.m):
            d = sum(f) % p
            digits.append(d)
            f = [f[0] - d] + f[1:]
            # f(1) is a multiple of p now: take off that multiple of 1 + z + .. + z^(p-1), which is 0, and divide by z - 1.
            q = sum(f) // p
            f = [a - q for a in f] + [-q]
            quotient = [0] * (p - 1)
            carry = 0
            for c in range(p - 1, 0, -1):
                carry += f[c]
                quotient[c - 1] = carry
            f = quotient
        return tuple(digits)

    def mul(self, x, y):
        f = self.integer(x[1])
        for _ in range(y[0]):
            f = self.times_z(f)
        return (x[0] + y[0]) % self.p, self.digits([a + b for a, b in zip(f, self.integer(y[1]))])

    def inv(self, x):
        s = -x[0] % self.p
        f = self.integer(x[1])
        for _ in range(s):
            f = self.times_z(f)
        return s, self.digits([-a for a in f])

    def lead(self, x):
        return next(((i, e) for i, e in enumerate((x[0],) + x[1], 1) if e), None)


class Direct(Concrete):
    """A direct product of groups of one prime and one size, their generators taken in turn."""

    def __init__(self, factors):
        self.factors, self.p, self.many = factors, factors[0].p, len(factors)
        self.one = tuple(f.one for f in factors)
        self.gens = [self.one[:k] + (f.gens[i],) + self.one[k + 1:] for i in range(len(factors[0].gens)) for k, f in enumerate(factors)]

    def mul(self, x, y):
        return tuple(f.mul(a, b) for f, a, b in zip(self.factors, x, y))

    def inv(self, x):
        return tuple(f.inv(a) for f, a in zip(self.factors, x))

    def lead(self, x):
        found = [((i - 1) * self.many + k + 1, e) for k, (f, a) in enumerate(zip(self.factors, x)) for i, e in [f.lead(a) or (0, 0)] if i]
        return min(found) if found else None


def make(rng):
    """Name and concrete group of each."""
    for p in (2, 3, 5):
        yield 'ut9_%d' % p, Unitriangular(9, p)
    yield 'utcol9_251', Unitriangular(9, 251, columns=True)
    for p in (2, 3):
        yield 'ut9_%d_mixed' % p, Mixed(Unitriangular(9, p), rng)
    for p in (2, 251):
        yield 'cover7_%d' % p, Cover(7, p)
    yield 'wreath_2_32', Wreath(2, 32)
    yield 'wreath_3_27', Wreath(3, 27)
    yield 'maxclass_5_31', MaximalClass(5, 31)
    yield 'maxclass_3_40', MaximalClass(3, 40)
    yield 'ut5x4_3', Direct([Unitriangular(5, 3) for _ in range(4)])


def presentation_of(group):
    """(p, n, words), each word worked out and each relation multiplied out again."""
    words, gens, n = {}, group.gens, len(group.gens)
    for i, j in pcp.relations(n):
        x, y = gens[i - 1], gens[j - 1]
        if i == j:
            value = group.power(x, group.p)
        else:
            value = group.mul(group.inv(group.mul(x, y)), group.mul(y, x))
        vector = group.exponents(value)
        assert not any(vector[:j]), 'not a central series'
        word = group.evaluate(vector)
        if i == j:
            assert group.power(x, group.p) == word
        else:
            assert group.mul(y, x) == group.mul(group.mul(x, y), word)
        pairs = [(g, e) for g, e in enumerate(vector, 1) if e]
        if pairs:
            words[i, j] = pairs
    return group.p, n, words


def random_vector(rng, p, n, most):
    """At most `most` entries that are not 0, so that a product stays within reach of a slow collector."""
    vector = [0] * n
    for _ in range(rng.randrange(1, most + 1)):
        vector[rng.randrange(n)] = rng.randrange(1, min(p, 8))
    return vector


def products_of(group, presentation, rng, wanted, limit):
    """Products u v by the concrete multiplication, each confirmed by the small collector."""
    p, n, _ = presentation
    found, tried = [], 0
    while len(found) < wanted:
        tried += 1
        most = max(1, 6 - tried // 8)
        u, v = random_vector(rng, p, n, most), random_vector(rng, p, n, most)
        number, got, _, _ = model.product(presentation, u, v, limit)
        if number != model.DONE:
            continue
        uv = group.exponents(group.mul(group.evaluate(u), group.evaluate(v)))
        assert got == uv, (u, v)
        found.append((u, v, uv))
    return found


def inverses_of(group, presentation, rng, wanted, limit):
    p, n, _ = presentation
    found, tried = [], 0
    while len(found) < wanted:
        tried += 1
        u = random_vector(rng, p, n, max(1, 4 - tried // 8))
        number, got, _, _ = model.inverse(presentation, u, limit)
        if number != model.DONE:
            continue
        result = group.exponents(group.inv(group.evaluate(u)))
        assert got == result, u
        found.append((u, result))
    return found


def text(vector):
    return ' '.join(map(str, vector))


def main(folder):
    rng = random.Random(9)
    os.makedirs(folder, exist_ok=True)
    lines = {'groups': ['name\tp\tn\tline'], 'products': ['name\tu\tv\tuv'], 'inverses': ['name\tu\tinverse']}
    for name, group in make(rng):
        presentation = p, n, words = presentation_of(group)
        for _ in range(20):
            vector = [rng.randrange(p) for _ in range(n)]
            assert group.exponents(group.evaluate(vector)) == vector
        numbers = pcp.to_numbers(p, n, words)
        assert pcp.from_numbers(numbers)[:2] == (p, n)
        with open(os.path.join(folder, name + '.pcp'), 'wb') as file:
            file.write(pcp.to_bytes(numbers))
        overlaps = n * (n - 1) * (n - 2) // 6 + n * (n - 1) + n
        lines['groups'].append('%s\t%d\t%d\tpass %d %d %d' % (name, p, n, p, n, overlaps))
        for u, v, uv in products_of(group, presentation, rng, 6, 20000):
            lines['products'].append('\t'.join([name, text(u), text(v), text(uv)]))
        for u, inverse in inverses_of(group, presentation, rng, 3, 20000):
            lines['inverses'].append('\t'.join([name, text(u), text(inverse)]))
        print('%-16s p %3d  n %2d  %5d pairs in its words' % (name, p, n, sum(map(len, words.values()))))
    for table, rows in lines.items():
        with open(os.path.join(folder, table + '.tsv'), 'w') as file:
            file.write('\n'.join(rows) + '\n')


if __name__ == '__main__':
    if len(sys.argv) != 2:
        sys.exit('usage: groups.py FOLDER')
    main(sys.argv[1])
