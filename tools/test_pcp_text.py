#!/usr/bin/env python3
"""Tests of pcp_text.py: every .pcp of a folder there and back, and one text or file for each refusal.

    test_pcp_text.py FOLDER

The round trip pcp -> text -> pcp -> text is exact on each file. Each faulty text names the line at fault, and each faulty row of
numbers the collector's own number. Exit status 1, and the case, at the first failure.
"""

import os
import sys

sys.path.insert(0, os.path.dirname(os.path.abspath(__file__)))
import pcp_text as pcp  # noqa: E402

# (text, line at fault, a part of the message)
FAULTY_TEXTS = [
    ('p 4\n', 1, 'not a prime'),
    ('p 257\n', 1, 'not a prime'),
    ('n 3\np 2\n', 1, 'before "p"'),
    ('p 2\n\np 2\n', 3, 'twice'),
    ('p 2\nn 0\n', 2, 'not from 1 to 40'),
    ('p 2\nn 41\n', 2, 'not from 1 to 40'),
    ('p two\n', 1, 'one number'),
    ('p 2\n', 0, 'no line "n'),
    ('p 2\nx1^2 = x2\n', 2, 'before the line'),
    ('p 3\nn 3\nx1^2 = x2\n', 3, 'names the power 3'),
    ('p 3\nn 3\nx4^3 = 1\n', 3, 'x1 to x3'),
    ('p 3\nn 3\n[x4,x1] = 1\n', 3, 'x1 to x3'),
    ('p 3\nn 3\n[x1,x2] = x3\n', 3, 'higher generator'),
    ('p 3\nn 3\n[x2,x2] = x3\n', 3, 'higher generator'),
    ('p 3\nn 3\n# nothing\nx1^3 = x4\n', 4, 'x1 to x3'),
    ('p 3\nn 3\nx1^3 = x0\n', 3, 'x1 to x3'),
    ('p 3\nn 3\nx1^3 = x2^3\n', 3, '1 to 2'),
    ('p 3\nn 3\nx1^3 = x2^0\n', 3, '1 to 2'),
    ('p 3\nn 3\nx2^3 = x2\n', 3, 'above x2'),
    ('p 3\nn 3\n[x3,x1] = x3\n', 3, 'above x3'),
    ('p 3\nn 3\nx1^3 = x3 x2\n', 3, 'must increase'),
    ('p 3\nn 3\nx1^3 = x2 x2\n', 3, 'must increase'),
    ('p 3\nn 3\nx1^3 = x2x3\n', 3, 'not a factor'),
    ('p 3\nn 3\nx1^3 = x2^-1\n', 3, 'not a factor'),
    ('p 3\nn 3\nx1^3 =\n', 3, 'no word'),
    ('p 3\nn 3\nx1 x2 = x2 x1\n', 3, 'not a left side'),
    ('p 3\nn 3\nhello\n', 3, 'neither'),
    ('p 3\nn 3\n[x2,x1] = 1\n\n[x2,x1] = x3\n', 5, 'already in line 3'),
]

# (numbers, number given back, a part of the message)
FAULTY_NUMBERS = [
    ([], 1, 'has 0 numbers'),
    ([2], 1, 'has 1 numbers'),
    ([1, 1], 2, 'p = 1'),
    ([247, 1], 2, 'p = 247'),
    ([253, 1], 2, 'p = 253'),
    ([257, 1], 2, 'p = 257'),
    ([2, 0], 3, 'n = 0'),
    ([2, 41], 3, 'n = 41'),
    ([2, 2, 0, 0, 0, 0, 0], 4, 'end at number 8'),
    ([2, 1, 1, 0], 4, 'number 3'),
    ([2, 2, 0, 65535, 65535, 1, 0, 0], 4, 'number 7'),
    ([2, 2, 0, 65535, 65535, 0, 65535, 65535], 5, 'ask for'),
    ([2, 1, 0, 0, 0], 5, 'ask for 4'),
    ([2, 2, 0, 1, 1, 0, 1, 0, 1, 1], 6, 'number 9: generator 1 in pair 1 of x1^2'),
    ([2, 2, 0, 1, 1, 0, 1, 0, 3, 1], 6, 'above n = 2'),
    ([2, 2, 0, 1, 1, 0, 1, 0, 2, 0], 6, 'number 10: exponent 0'),
    ([2, 2, 0, 1, 1, 0, 1, 0, 2, 2], 6, 'number 10: exponent 2'),
    ([2, 2, 0, 0, 0, 0, 0, 1, 2, 1], 6, 'pair 1 of [x2,x1]'),
    ([2, 3, 0, 2] + [2, 0] * 5 + [3, 1, 2, 1], 6, 'does not rise'),
]

FAULTY_FILES = [(b'\x02', 5), (b'\x04\x00\x01', 5), (b'\x00' * 45926, 5), (b'', 1)]

# Free spaces, comments and the empty word change nothing; D of the collector's own examples.
SAME = [('p 2\nn 3\n[x2,x1] = x3\n', [2, 3, 0, 0, 0, 0, 0, 0, 0, 1, 1, 0, 1, 0, 3, 1]),
        ('# D\n\n p  2 # prime\r\nn 3\n [ x2 , x1 ]=x3^1 # w_12\nx1 ^ 2 = 1\n', [2, 3, 0, 0, 0, 0, 0, 0, 0, 1, 1, 0, 1, 0, 3, 1])]


def fail(case, what):
    sys.stderr.write('%r: %s\n' % (case, what))
    sys.exit(1)


def round_trips(folder):
    names = sorted(name for name in os.listdir(folder) if name.endswith('.pcp'))
    for name in names:
        with open(os.path.join(folder, name), 'rb') as file:
            data = file.read()
        text = pcp.print_text(*pcp.from_numbers(pcp.from_bytes(data)))
        again = pcp.to_bytes(pcp.to_numbers(*pcp.parse_text(text)))
        if again != data:
            fail(name, 'text -> pcp does not give the file back')
        if pcp.print_text(*pcp.from_numbers(pcp.from_bytes(again))) != text:
            fail(name, 'pcp -> text does not give the text back')
    return len(names)


def main(folder):
    for text, numbers in SAME:
        if pcp.to_numbers(*pcp.parse_text(text)) != numbers:
            fail(text, 'wrong numbers')
    for text, line, part in FAULTY_TEXTS:
        try:
            pcp.parse_text(text)
        except pcp.TextError as error:
            if error.line != line or part not in error.message:
                fail(text, 'line %d: %s' % (error.line, error.message))
        else:
            fail(text, 'is taken')
    for numbers, number, part in FAULTY_NUMBERS:
        try:
            pcp.from_numbers(numbers)
        except pcp.Refused as error:
            if error.number != number or part not in error.message:
                fail(numbers, 'refused %d: %s' % (error.number, error.message))
        else:
            fail(numbers, 'is accepted')
    for data, number in FAULTY_FILES:
        try:
            pcp.from_numbers(pcp.from_bytes(data))
        except pcp.Refused as error:
            if error.number != number:
                fail(data[:8], 'refused %d' % error.number)
        else:
            fail(data[:8], 'is accepted')
    print('%d texts and %d rows of numbers refused as they should be, %d files there and back'
          % (len(FAULTY_TEXTS), len(FAULTY_NUMBERS) + len(FAULTY_FILES), round_trips(folder)))


if __name__ == '__main__':
    if len(sys.argv) != 2:
        sys.exit('usage: test_pcp_text.py FOLDER')
    main(sys.argv[1])
