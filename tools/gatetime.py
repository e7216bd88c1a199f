#!/usr/bin/env python3
"""Where the gate's time goes: a row for each crate, from what the gate printed.

    .ci/run >gate.log 2>&1
    gatetime.py gate.log            one gate
    gatetime.py before.log gate.log two gates, before and after a change, side by side

The columns: seconds of the crate's proof, its functions, its must-fail edits, and their seconds together. The crate that takes longest
stands first, by the last log; `-` is a crate that a log does not have. The last row has the sums.

Seconds are the clock's. Crates and edits run as many at a time as the machine has processors, so the sums are more than the gate takes, and a
busy machine makes all of them longer: compare logs of the same machine at rest, and shares rather than seconds.

Exit status: 0; 2 for a wrong call, or a file that is no log of the gate. It needs Python 3 and its standard library alone.
"""

import re
import sys

# The number of functions stands in a line of the prover's, before rt's own line about the crate.
FUNCTIONS = re.compile(r'logic=\S+ (?:.* )?functions=(\d+)')
PROOF = re.compile(r'rt: (\w+) (proved|NOT PROVED)(?: \((?:exit \d+, )?(\d+) s\)|[ :].*)?$')
# An edit that does not reach the prover has no seconds.
EDIT = re.compile(r'rt: must-fail (\w+)/\S+: (refused|NOT REFUSED|BAD EDIT)\b(?:.*?(\d+) s\))?')
LAST = re.compile(r'\d+ passed, \d+ failed$')

COLUMNS = ('proof s', 'functions', 'edits', 'edit s')


class Failure(Exception):
    """A wrong call, with the sentence that says why."""


class Gate:
    """What a log tells: for each crate its numbers, in the order of COLUMNS; what was not as it must be; and whether the gate ended."""

    def __init__(self):
        self.crates = {}
        self.faults = []
        self.ended = False

    def add(self, crate, numbers):
        self.crates[crate] = [a + b for a, b in zip(self.crates.get(crate, [0] * len(COLUMNS)), numbers)]

    def seconds(self, crate):
        numbers = self.crates.get(crate, [0] * len(COLUMNS))
        return numbers[0] + numbers[3]

    def sums(self):
        return [sum(column) for column in zip(*self.crates.values())]


def read_gate(lines):
    """The gate that printed these lines."""
    gate, functions = Gate(), 0
    for line in lines:
        line = line.rstrip()
        counted, proof, edit = FUNCTIONS.match(line), PROOF.match(line), EDIT.match(line)
        if counted:
            functions = int(counted.group(1))
        elif proof:
            crate, verdict, seconds = proof.groups()
            gate.add(crate, [int(seconds or 0), functions, 0, 0])
            functions = 0
            if verdict != 'proved':
                gate.faults.append('%s: not proved' % crate)
        elif edit:
            crate, verdict, seconds = edit.groups()
            gate.add(crate, [0, 0, 1, int(seconds or 0)])
            if verdict != 'refused':
                gate.faults.append('%s: %s' % (line.split(': ')[1], verdict.lower()))
        gate.ended = bool(LAST.match(line)) or gate.ended
    return gate


def read_log(name):
    try:
        with open(name, encoding='utf-8', errors='replace') as file:
            gate = read_gate(file)
    except OSError as error:
        raise Failure("can't read %s: %s" % (name, error.strerror)) from None
    if not gate.crates:
        raise Failure('%s is no log of the gate: no line of it is as "rt: layout proved (21 s)"' % name)
    return gate


def cells(numbers):
    """The numbers of a row, under the heads of the columns."""
    return ''.join('%*s' % (len(head) + 2, '-' if number is None else number)
                   for head, number in zip(COLUMNS, numbers or [None] * len(COLUMNS)))


def table(gates):
    crates = sorted({crate for gate in gates for crate in gate.crates}, key=lambda crate: (-gates[-1].seconds(crate), crate))
    width = max(len(crate) for crate in crates + ['crate'])
    rows = [('crate', [cells(COLUMNS)] * len(gates))]
    rows += [(crate, [cells(gate.crates.get(crate)) for gate in gates]) for crate in crates]
    rows += [('all', [cells(gate.sums()) for gate in gates])]
    return ['%-*s' % (width, first) + '   |'.join(parts) for first, parts in rows]


def notes(name, gate):
    """What a reader of the numbers has to know of a log."""
    if not gate.ended:
        yield '%s: the gate has not ended, its last line "N passed, M failed" is missing' % name
    for fault in gate.faults:
        yield '%s: %s' % (name, fault)


def main(arguments):
    if len(arguments) not in (1, 2) or arguments[0].startswith('-'):
        sys.stderr.write('usage: gatetime.py LOG [LOG]   (what .ci/run printed; with two, before and after)\n')
        return 2
    try:
        gates = [read_log(name) for name in arguments]
    except Failure as failure:
        sys.stderr.write('gatetime.py: %s\n' % failure)
        return 2
    lines = table(gates)
    for name, gate in zip(arguments, gates):
        lines += notes(name, gate)
    print('\n'.join(lines))
    return 0


if __name__ == '__main__':
    sys.exit(main(sys.argv[1:]))
