#!/usr/bin/env python3
"""Stores groups from outside for the program `foreign`.

    foreign_tables.py FOLDER CRATE

FOLDER has NAME.pcp for each group and three tables with a header line and tab-separated columns: groups.tsv (name, p, n, line of the
check), products.tsv (name, u, v, uv) and inverses.tsv (name, u, inverse), made by GAP or by exact matrices. Written are CRATE/data, with
the presentations and the questions (`calls`, one to a line, no answers), and CRATE/stdout, each question with the table's answer. No
collector runs here: an answer is the last column of its table and nothing else. The same files come out each time.
"""

import os
import shutil
import sys


def rows(folder, name):
    """The rows of a table, without its header line."""
    with open(os.path.join(folder, name + '.tsv'), encoding='utf-8') as file:
        return [line.rstrip('\n').split('\t') for line in file][1:]


def asked(folder):
    """Each question, as a list of fields, and its answer."""
    for name, _, _, line in rows(folder, 'groups'):
        yield ['group', name + '.pcp'], line
    for name, u, v, uv in rows(folder, 'products'):
        yield ['product', name + '.pcp', u, v], uv
    for name, u, inverse in rows(folder, 'inverses'):
        yield ['inverse', name + '.pcp', u], inverse


def main(folder, crate):
    data = os.path.join(crate, 'data')
    os.makedirs(data, exist_ok=True)
    for name, _, _, _ in rows(folder, 'groups'):
        shutil.copyfile(os.path.join(folder, name + '.pcp'), os.path.join(data, name + '.pcp'))
    calls = [('\t'.join(fields), answer) for fields, answer in asked(folder)]
    with open(os.path.join(data, 'calls'), 'w', encoding='ascii') as file:
        file.writelines(call + '\n' for call, _ in calls)
    with open(os.path.join(crate, 'stdout'), 'w', encoding='ascii') as file:
        file.writelines('%s = %s\n' % call for call in calls)


if __name__ == '__main__':
    if len(sys.argv) != 3:
        sys.exit('usage: foreign_tables.py FOLDER CRATE')
    main(sys.argv[1], sys.argv[2])
