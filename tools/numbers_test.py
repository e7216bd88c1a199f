#!/usr/bin/env python3
"""Checks that the numbers given back, and the limits, are the same in the code, in the definitions and in the header for C.

    numbers_test.py [ROOT]      ROOT is the repository, and where it is left out the one that this file stands in

    the numbers     crates/numbers/src/lib.rt          pub const SHORT: u8 = 1;
                    crates/numbers/specs/Numbers.antt  SHORT : ℕ, and SHORT = 1
                    include/yavarosht.h                YAV_SHORT = 1; YAV_PASS is another name of DONE there
    the limits      crates/*/src/limits.rt             pub const RANK_MOST: u16 = 40;
                    specs/Limits.antt of that crate    rankMost : ℕ, and rankMost = 40
                    include/yavarosht.h                YAV_RANK_MOST = 40; it has only those that a caller in C needs

The prover holds the code against the definitions wherever a contract names a number; nothing proved reads the header.

Exit status: 0 if they agree; 1, and each line that differs, if not; 2 for a wrong call or a file that is missing.
"""

import collections
import glob
import os
import re
import sys

CODE = 'crates/numbers/src/lib.rt'
DEFINITIONS = 'crates/numbers/specs/Numbers.antt'
LIMITS = 'crates/*/src/limits.rt'
HEADER = 'include/yavarosht.h'

# The header's other names for a number of the table.
ALIASES = {'YAV_PASS': 'DONE'}

Place = collections.namedtuple('Place', 'file line value')


class Failure(Exception):
    """A wrong call, with the sentence that says why."""


def read(root, path):
    try:
        with open(os.path.join(root, path), encoding='utf-8') as file:
            return file.read()
    except OSError as error:
        raise Failure("can't read %s: %s" % (path, error.strerror)) from None
    except UnicodeDecodeError:
        raise Failure("can't read %s: not UTF-8 text" % path) from None


def blanked(text, comment):
    """The text without its comments, on the same lines."""
    return re.sub(comment, lambda found: '\n' * found.group().count('\n'), text, flags=re.S)


def value(digits):
    """The number that is written, also as 22_962 or 0xff; None where what stands there is no number."""
    try:
        return int(digits.replace('_', ''), 0)
    except ValueError:
        return None


def places(path, text, pattern):
    """Name to place, for each line with a name and a value. A name that comes twice keeps both, so that a difference is seen."""
    found = collections.defaultdict(list)
    for line, statement in enumerate(text.split('\n'), 1):
        for name, digits in re.findall(pattern, statement):
            found[name].append(Place(path, line, value(digits)))
    return found


def constants(root, path):
    return places(path, blanked(read(root, path), r'//[^\n]*'), r'^\s*pub const (\w+): \w+ = ([^;]*);')


def definitions(root, path):
    """The definitions whose type is ℕ. Others may stand beside them."""
    text = blanked(read(root, path), r'--[^\n]*')
    naturals = set(re.findall(r'^(?:\w+ )*(\w+) : ℕ *$', text, re.M))
    return {name: found for name, found in places(path, text, r'^(\w+) = (.*?) *$').items() if name in naturals}


def header(root):
    """The header's numbers, and its limits."""
    found = places(HEADER, blanked(read(root, HEADER), r'/\*.*?\*/|//[^\n]*'), r'\b(YAV_\w+) = ([^\s,}]+)')
    limits = {name: here for name, here in found.items() if name.endswith('_MOST')}
    return {name: here for name, here in found.items() if name not in limits}, limits


def camel(name):
    """RANK_MOST is rankMost among the definitions."""
    first, *rest = name.lower().split('_')
    return first + ''.join(part.capitalize() for part in rest)


def for_c(name):
    return 'YAV_' + name


def from_c(name):
    """A name of the header as the code has it."""
    return ALIASES.get(name, name[len('YAV_'):])


def told(place, name):
    return '%s:%d: %s = %s' % (place.file, place.line, name, 'no plain number' if place.value is None else place.value)


def differences(first, second, where, also=lambda name: name, whole=True):
    """A sentence for each name of `first` that `second` has not, or has with another value. `where` is second's file, and `also` the name
    that a name of first has there. If second is to have no others, `whole`, there is one for each of those too."""
    for name, here in first.items():
        there = second.get(also(name), [])
        for place in here:
            if place.value is None:
                yield told(place, name)
            elif not there:
                yield '%s, and %s has no %s' % (told(place, name), where, also(name))
            for other in there:
                if place.value is not None and other.value != place.value:
                    yield '%s, and %s' % (told(place, name), told(other, also(name)))
    for name in second if whole else []:
        if name not in {also(name) for name in first}:
            for other in second[name]:
                yield '%s, and it stands there alone' % told(other, name)


def limits_crate(root):
    found = sorted(glob.glob(os.path.join(root, LIMITS)))
    if len(found) != 1:
        raise Failure('%d files are %s, and one crate has the limits' % (len(found), LIMITS))
    code = os.path.relpath(found[0], root)
    return code, os.path.join(os.path.dirname(os.path.dirname(code)), 'specs', 'Limits.antt')


def check(root):
    """Every difference, and how many numbers and limits there are."""
    numbers = constants(root, CODE)
    in_c, limits_in_c = header(root)
    found = list(differences(numbers, definitions(root, DEFINITIONS), DEFINITIONS))
    aliases = {name: in_c.pop(name) for name in ALIASES if name in in_c}
    found += differences(numbers, in_c, HEADER, also=for_c)
    found += differences(aliases, numbers, CODE, also=from_c, whole=False)
    code, specs = limits_crate(root)
    limits = constants(root, code)
    found += differences(limits, definitions(root, specs), specs, also=camel)
    found += differences(limits_in_c, limits, code, also=from_c, whole=False)
    if not numbers or not limits:
        found.append('%s has no line such as "pub const NAME: u8 = 1;"' % (code if numbers else CODE))
    return found, len(numbers), len(limits)


def main(arguments):
    if len(arguments) > 1 or arguments and arguments[0].startswith('-'):
        sys.stderr.write('usage: numbers_test.py [ROOT]\n')
        return 2
    root = arguments[0] if arguments else os.path.dirname(os.path.dirname(os.path.abspath(__file__)))
    try:
        found, numbers, limits = check(root)
    except Failure as failure:
        sys.stderr.write('numbers_test.py: %s\n' % failure)
        return 2
    for difference in dict.fromkeys(found):
        sys.stderr.write(difference + '\n')
    if found:
        return 1
    print('%d numbers and %d limits are the same in code, definitions and header' % (numbers, limits))
    return 0


if __name__ == '__main__':
    sys.exit(main(sys.argv[1:]))
