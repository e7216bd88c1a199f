#!/usr/bin/env python3
"""Power-commutator presentations of finite p-groups: a plain text form, and the .pcp form that the collector reads.

    pcp_text.py to-pcp  TEXT PCP     from text to .pcp
    pcp_text.py to-text PCP TEXT     from .pcp to text
    pcp_text.py check   PCP          judge a .pcp alone: prints `accepted p n`

A file named `-` is standard input or standard output. A refusal is one line on standard error and exit status 1, and nothing is
written. It needs Python 3 and its standard library alone.

The text form
-------------
One statement to a line. `#` starts a comment, empty lines mean nothing, and spaces are free between the parts.

    p 2                  the prime, 2 to 251
    n 3                  the number of generators x1 .. xn, 1 to 40
    x1^2 = x3            a power relation: the p-th power of a generator is the word on the right
    [x2,x1] = x3         a commutator relation, the higher generator first

`p` and `n` come first, in this order. `[x_j,x_i]` with j > i is x_j^-1 x_i^-1 x_j x_i, as in GAP, so that the relation
[x_j,x_i] = w says x_j x_i = x_i x_j w. A word is a list of factors, as in `x3^2 x5`: generators strictly increasing, exponents 1 to
p - 1, and `^1` may be left out. The empty word is written `1`. A relation that is not named has the empty word, so the three lines

    p 3
    n 3
    [x2,x1] = x3

are the extraspecial group of order 27 and exponent 3. In x_i^p = w every generator of w lies above i, in [x_j,x_i] = w above j; a
relation is named at most once. Whether the presentation is consistent (whether the group has order p^n) is not judged here: that is
what the collector's check says.

The .pcp form
-------------
16-bit numbers, low byte first: p, n, then for each relation two numbers (where its word starts, and its length, both counted in pairs
from the first body), then the words as pairs generator, exponent. The relations stand in the order w_1 .. w_n, then w_12, w_13, ..,
w_1n, w_23, .. Each start is the sum of the earlier lengths.
"""

import re
import sys

PRIME_MAX = 251
RANK_MAX = 40
# The largest presentation there is: n = 40 with every word as long as its relation allows, 22,962 numbers.
BYTES_MAX = 45924

NAMES = {1: 'SHORT', 2: 'PRIME', 3: 'RANK', 4: 'CONTENTS', 5: 'LENGTH', 6: 'BODY'}


class TextError(Exception):
    """The text breaks a rule. It knows the line, 0 where no single line is at fault."""

    def __init__(self, line, message):
        super().__init__(message)
        self.line = line
        self.message = message


class Refused(Exception):
    """The numbers are not accepted. It knows the number that the collector gives back for them."""

    def __init__(self, number, message):
        super().__init__(message)
        self.number = number
        self.message = message


def is_prime(p):
    return p >= 2 and all(p % d for d in range(2, int(p ** 0.5) + 1))


def relations(n):
    """The relations in the order of the contents: (i, i) names x_i^p, and (i, j) with i < j names [x_j,x_i]."""
    powers = [(i, i) for i in range(1, n + 1)]
    commutators = [(i, j) for i in range(1, n + 1) for j in range(i + 1, n + 1)]
    return powers + commutators


def left_side(p, i, j):
    """A relation's left side, as the text form writes it."""
    return 'x%d^%d' % (i, p) if i == j else '[x%d,x%d]' % (j, i)


# --- the text form -----------------------------------------------------------------------------------------------------------------

# At most nine digits: a longer number is out of every range, and Python would refuse a very long one in its own way.
HEADER = re.compile(r'([pn])\s+(\d{1,9})$', re.ASCII)
# A p or an n that is meant as a header and is no number gets an error of its own.
HEADER_LIKE = re.compile(r'([pn])(\s|$)', re.ASCII)
POWER = re.compile(r'x(\d{1,9})\s*\^\s*(\d{1,9})$', re.ASCII)
COMMUTATOR = re.compile(r'\[\s*x(\d{1,9})\s*,\s*x(\d{1,9})\s*\]$', re.ASCII)
FACTOR = re.compile(r'x(\d{1,9})(?:\s*\^\s*(\d{1,9}))?(?=\s|$)\s*', re.ASCII)


def parse_word(text, p, n, floor, line):
    """The pairs of a word whose generators all have to lie above `floor`."""
    text = text.strip()
    if text == '1':
        return []
    if not text:
        raise TextError(line, 'no word after "=" (the empty word is written 1)')
    pairs, at, last = [], 0, floor
    while at < len(text):
        found = FACTOR.match(text, at)
        if not found:
            raise TextError(line, 'not a factor such as x3 or x3^2: "%s"' % text[at:])
        g = int(found.group(1))
        e = 1 if found.group(2) is None else int(found.group(2))
        factor = found.group(0).strip()
        if not 1 <= g <= n:
            raise TextError(line, '%s: the generators are x1 to x%d' % (factor, n))
        if g <= floor:
            raise TextError(line, '%s: the word of this relation may use only generators above x%d' % (factor, floor))
        if g <= last:
            raise TextError(line, '%s: generators must increase, and x%d stands before it' % (factor, last))
        if not 1 <= e < p:
            raise TextError(line, '%s: an exponent is 1 to %d' % (factor, p - 1))
        pairs.append((g, e))
        last, at = g, found.end()
    return pairs


def parse_left(text, p, n, line):
    """The relation (i, j) that a left side names."""
    power = POWER.match(text)
    if power:
        i, e = int(power.group(1)), int(power.group(2))
        if not 1 <= i <= n:
            raise TextError(line, 'x%d: the generators are x1 to x%d' % (i, n))
        if e != p:
            raise TextError(line, '%s: a power relation names the power %d' % (text, p))
        return i, i
    commutator = COMMUTATOR.match(text)
    if commutator:
        j, i = int(commutator.group(1)), int(commutator.group(2))
        for g in (j, i):
            if not 1 <= g <= n:
                raise TextError(line, 'x%d: the generators are x1 to x%d' % (g, n))
        if j <= i:
            raise TextError(line, '%s: the higher generator comes first' % text)
        return i, j
    raise TextError(line, 'not a left side such as x1^%d or [x2,x1]: "%s"' % (p, text))


def parse_text(text):
    """(p, n, words) of the text form, the words by (i, j); an empty word may be missing. Raises TextError."""
    header, words, named = {}, {}, {}
    for line, raw in enumerate(text.split('\n'), 1):
        statement = raw.split('#', 1)[0].strip()
        if not statement:
            continue
        found = HEADER.match(statement)
        if found:
            read_header(header, found.group(1), int(found.group(2)), line)
            continue
        if HEADER_LIKE.match(statement):
            raise TextError(line, '"%s" is not followed by one number' % statement[0])
        if '=' not in statement:
            raise TextError(line, 'neither "p NUMBER", "n NUMBER" nor a relation: "%s"' % statement)
        for name in 'pn':
            if name not in header:
                raise TextError(line, 'a relation before the line "%s NUMBER"' % name)
        p, n = header['p'], header['n']
        left, right = statement.split('=', 1)
        i, j = parse_left(left.strip(), p, n, line)
        if (i, j) in named:
            raise TextError(line, '%s is given already in line %d' % (left_side(p, i, j), named[i, j]))
        named[i, j] = line
        words[i, j] = parse_word(right, p, n, j, line)
    for name in 'pn':
        if name not in header:
            raise TextError(0, 'no line "%s NUMBER"' % name)
    return header['p'], header['n'], words


def read_header(header, name, value, line):
    if name in header:
        raise TextError(line, '"%s" is given twice' % name)
    if name == 'p' and not (value <= PRIME_MAX and is_prime(value)):
        raise TextError(line, 'p = %d is not a prime from 2 to %d' % (value, PRIME_MAX))
    if name == 'n' and 'p' not in header:
        raise TextError(line, '"n" stands before "p"')
    if name == 'n' and not 1 <= value <= RANK_MAX:
        raise TextError(line, 'n = %d is not from 1 to %d' % (value, RANK_MAX))
    header[name] = value


def word_text(pairs):
    return ' '.join('x%d' % g if e == 1 else 'x%d^%d' % (g, e) for g, e in pairs) or '1'


def print_text(p, n, words):
    """The text form, relations in the order of the contents and those with an empty word left out."""
    lines = ['p %d' % p, 'n %d' % n]
    for i, j in relations(n):
        pairs = words.get((i, j))
        if pairs:
            lines.append('%s = %s' % (left_side(p, i, j), word_text(pairs)))
    return '\n'.join(lines) + '\n'


# --- the .pcp form -----------------------------------------------------------------------------------------------------------------

def to_numbers(p, n, words):
    """The numbers of a presentation: contents first, then bodies."""
    contents, bodies = [], []
    for relation in relations(n):
        pairs = words.get(relation, [])
        contents += [len(bodies) // 2, len(pairs)]
        for g, e in pairs:
            bodies += [g, e]
    return [p, n] + contents + bodies


def from_numbers(numbers):
    """(p, n, words) of accepted numbers. Raises Refused with the collector's own number, tested in its order, and the place."""
    if len(numbers) < 2:
        raise Refused(1, 'it has %d numbers, and p and n are two' % len(numbers))
    p, n = numbers[0], numbers[1]
    if not (p <= PRIME_MAX and is_prime(p)):
        raise Refused(2, 'p = %d is not a prime from 2 to %d' % (p, PRIME_MAX))
    if not 1 <= n <= RANK_MAX:
        raise Refused(3, 'n = %d is not from 1 to %d' % (n, RANK_MAX))
    order = relations(n)
    first_body = 2 + 2 * len(order)
    if len(numbers) < first_body:
        raise Refused(4, 'it has %d numbers, and the contents of n = %d end at number %d' % (len(numbers), n, first_body))
    total = 0
    for k, (i, j) in enumerate(order):
        start, length = numbers[2 + 2 * k], numbers[3 + 2 * k]
        if start != total:
            raise Refused(4, 'number %d: %s starts at %d, and the words before it end at %d'
                          % (3 + 2 * k, left_side(p, i, j), start, total))
        total += length
    if len(numbers) != first_body + 2 * total:
        raise Refused(5, 'it has %d numbers, and its contents ask for %d' % (len(numbers), first_body + 2 * total))
    words = {}
    for k, (i, j) in enumerate(order):
        start, length = numbers[2 + 2 * k], numbers[3 + 2 * k]
        words[i, j] = body_word(numbers, first_body + 2 * start, length, p, n, i, j)
    return p, n, words


def body_word(numbers, at, length, p, n, i, j):
    """The pairs of the word of (i, j), which start at the number with index `at`; places are counted from 1 in errors."""
    pairs, last = [], j
    for m in range(length):
        where = at + 2 * m
        g, e = numbers[where], numbers[where + 1]
        here = 'pair %d of %s' % (m + 1, left_side(p, i, j))
        if g > n:
            raise Refused(6, 'number %d: generator %d in %s is above n = %d' % (where + 1, g, here, n))
        if g <= j:
            raise Refused(6, 'number %d: generator %d in %s is not above %d' % (where + 1, g, here, j))
        if g <= last:
            raise Refused(6, 'number %d: generator %d in %s does not rise from %d before it' % (where + 1, g, here, last))
        if not 1 <= e < p:
            raise Refused(6, 'number %d: exponent %d in %s is not 1 to %d' % (where + 2, e, here, p - 1))
        pairs.append((g, e))
        last = g
    return pairs


def to_bytes(numbers):
    return b''.join(x.to_bytes(2, 'little') for x in numbers)


def from_bytes(data):
    """The numbers of a file's bytes. A file's size is judged before any number in it, as the program does."""
    if len(data) % 2 or len(data) > BYTES_MAX:
        raise Refused(5, 'a file of %d bytes is no file of 16-bit numbers up to %d bytes' % (len(data), BYTES_MAX))
    return [data[k] + 256 * data[k + 1] for k in range(0, len(data), 2)]


# --- the command -------------------------------------------------------------------------------------------------------------------

def read_file(name):
    if name == '-':
        return sys.stdin.buffer.read()
    with open(name, 'rb') as file:
        return file.read()


def write_file(name, data):
    if name == '-':
        sys.stdout.buffer.write(data)
        sys.stdout.buffer.flush()
        return
    with open(name, 'wb') as file:
        file.write(data)


def main(arguments):
    commands = {'to-pcp': 2, 'to-text': 2, 'check': 1}
    if not arguments or commands.get(arguments[0]) != len(arguments) - 1:
        sys.stderr.write('usage: pcp_text.py to-pcp TEXT PCP | to-text PCP TEXT | check PCP   (- is standard input or output)\n')
        return 2
    command, source = arguments[0], arguments[1]
    try:
        data = read_file(source)
        if command == 'to-pcp':
            p, n, words = parse_text(data.decode('utf-8-sig'))
            write_file(arguments[2], to_bytes(to_numbers(p, n, words)))
        else:
            p, n, words = from_numbers(from_bytes(data))
            if command == 'to-text':
                write_file(arguments[2], print_text(p, n, words).encode())
            else:
                print('accepted %d %d' % (p, n))
    except TextError as error:
        where = '%s:%d' % (source, error.line) if error.line else source
        sys.stderr.write('%s: %s\n' % (where, error.message))
        return 1
    except Refused as error:
        sys.stderr.write('%s: refused %d (%s): %s\n' % (source, error.number, NAMES[error.number], error.message))
        return 1
    except UnicodeDecodeError as error:
        line = data[:error.start].count(b'\n') + 1
        sys.stderr.write('%s:%d: not UTF-8 text\n' % (source, line))
        return 1
    except OSError as error:
        sys.stderr.write('%s: %s\n' % (error.filename, error.strerror))
        return 1
    return 0


if __name__ == '__main__':
    sys.exit(main(sys.argv[1:]))
