"""Checks the quaternion group of order 8 and multiplies its elements through ctypes: examples/run-python builds the shared object and
runs this.

    q8.py LIBRARY.so
"""
import ctypes as c
import sys

# p = 2, n = 3; x_1^2 = x_2^2 = x_3 and x_2 x_1 = x_1 x_2 x_3: p and n, start and length of each relation's word, the words.
Q8 = [2, 3, 0, 1, 1, 1, 2, 0, 2, 1, 3, 0, 3, 0, 3, 1, 3, 1, 3, 1]
# x_1^2 = x_2 and x_2 x_1 = x_1 x_2 x_3 alone: x_1 would not commute with its own square.
BROKEN = [2, 3, 0, 1, 1, 0, 1, 0, 1, 1, 2, 0, 2, 0, 2, 1, 3, 1]
BUDGET = 1000
ROOM = 64
RANK_MOST = 40
DIFFERS = 11


def array(kind, values):
    """The two arguments of a slice: the elements and their number."""
    return (kind * len(values))(*values), c.c_size_t(len(values))


class Group:
    """A presentation, and the calls on it. A call that is refused raises ValueError with its number."""

    def __init__(self, library, numbers):
        self.library = library
        self.numbers = array(c.c_uint16, numbers)
        self.work = array(c.c_uint16, [0] * (3 * ROOM))
        self.ask('judge')

    def ask(self, name, *words, answers=(0,)):
        call = getattr(self.library, 'yav_' + name)
        call.restype = c.c_uint8
        number = call(*self.numbers, *words)
        if number not in answers:
            raise ValueError(f'{name} was refused with number {number}')
        return number

    def check(self):
        """None if the presentation is consistent, else the overlap that shows it is not (its family and generators) and both vectors."""
        overlap = (c.c_uint16 * 4)()
        left, right = (c.c_uint8 * RANK_MOST)(), (c.c_uint8 * RANK_MOST)()
        verdict = self.ask('check', c.c_uint32(BUDGET), *self.work, overlap, left, right, answers=(0, DIFFERS))
        n = self.numbers[0][1]
        return (tuple(overlap), tuple(left[:n]), tuple(right[:n])) if verdict == DIFFERS else None

    def product(self, left, right):
        """The product's vector and the replacements that it took."""
        out, size = array(c.c_uint8, left)
        count = c.c_uint32()
        self.ask('product', out, size, *array(c.c_uint8, right), c.c_uint32(BUDGET), *self.work, c.byref(count))
        return tuple(out), count.value

    def inverse(self, vector):
        """The inverse's vector and the replacements that it took."""
        out, size = array(c.c_uint8, vector)
        count = c.c_uint32()
        self.ask('inverse', out, size, c.c_uint32(BUDGET), *self.work, c.byref(count))
        return tuple(out), count.value


def main():
    library = c.CDLL(sys.argv[1])
    group = Group(library, Q8)
    for name, one in (('Q8', group), ('an inconsistent one', Group(library, BROKEN))):
        verdict = one.check()
        print(f'check of {name}:', *(['pass'] if verdict is None else ['differs at', *verdict]))
    i, j = (1, 0, 0), (0, 1, 0)
    for left, right in ((i, j), (j, i), (i, i)):
        print(left, '*', right, '=', *group.product(left, right))
    print('the inverse of', i, 'is', *group.inverse(i))
    try:
        group.product((2, 0, 0), i)
    except ValueError as error:
        print(error)


main()
