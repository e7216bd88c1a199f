#!/usr/bin/env python3
"""Works out the cases of the program `corners`: the examples of the rules that are run, and the corners of the rules.

    corners.py CRATE

Written are CRATE/data (the presentations and `calls`, one call to a line) and CRATE/stdout, what the program must print. What must be
printed comes from a plain model of the rules: placing, products and inverses from bench/model.py, the numbers 1 to 6 from pcp_text.py,
the rest from here. Nothing is computed by the collector. Where the rules state a result in words, the case has it too (`says`), and
nothing is written if the model says otherwise. The same files come out each time.
"""

import os
import sys

HERE = os.path.dirname(os.path.abspath(__file__))
sys.path[:0] = [HERE, os.path.join(HERE, '..', 'bench')]
import model  # noqa: E402
import pcp_text as pcp  # noqa: E402

# What stands in each number of the workspace before a call.
SOIL = 43981
DONE, VECTOR, WORD, BUDGET, ROOM = 0, 7, 8, 9, 10
PAIRS_MAX = 4096
# Words of up to so many letters are also worked out by leftmost replacement, which is slow on long ones.
LETTERS_MAX = 600


# --- the rules ---------------------------------------------------------------------------------------------------------------------

def judge(numbers):
    """The presentation's number, and (p, n, words) if it is 0."""
    try:
        return DONE, pcp.from_numbers(numbers)
    except pcp.Refused as refused:
        return refused.number, None


def vector_right(presentation, vector):
    p, n, _ = presentation
    return len(vector) == n and all(e < p for e in vector)


def word_right(presentation, word):
    if len(word) % 2 or len(word) > 2 * PAIRS_MAX:
        return False
    return all(1 <= g <= presentation[1] for g in word[::2]) and all(e >= 1 for e in word[1::2])


def pairs_of(word):
    return list(zip(word[::2], word[1::2]))


def workspace(number, length):
    """What a workspace of this length holds after a call."""
    return [0 if number in (DONE, BUDGET, ROOM) else SOIL] * length


def change(numbers, vector, length, right, run, letters=None):
    """(number, count, vector, workspace) of collect, product or inverse. `right(presentation)` is the number of what is read beside the
    vector, `run(presentation, room)` the model's run. Where the run is of a word of few letters, leftmost replacement must agree."""
    number, presentation = judge(numbers)
    if number == DONE and not vector_right(presentation, vector):
        number = VECTOR
    if number == DONE:
        number = right(presentation)
    if number != DONE:
        return number, 0, vector, workspace(number, length)
    number, after, count, _ = run(presentation, length // 3)
    if number == DONE and letters is not None and len(letters) <= LETTERS_MAX:
        assert (after, count) == model.rewrite(presentation, letters), 'not what leftmost replacement gives'
    return number, count, after if number == DONE else vector, workspace(number, length)


def collect(numbers, vector, word, budget, length):
    return change(numbers, vector, length, lambda made: DONE if word_right(made, word) else WORD,
                  lambda made, room: model.collect(made, vector, pairs_of(word), budget, room),
                  model.letters_of(list(enumerate(vector, 1)) + pairs_of(word)))


def product(numbers, left, right, budget, length):
    return change(numbers, left, length, lambda made: DONE if vector_right(made, right) else VECTOR,
                  lambda made, room: model.product(made, left, right, budget, room),
                  model.letters_of(list(enumerate(left, 1)) + list(enumerate(right, 1))))


def inverse(numbers, vector, budget, length):
    return change(numbers, vector, length, lambda made: DONE, lambda made, room: model.inverse(made, vector, budget, room))


def depth(numbers, vector):
    number, presentation = judge(numbers)
    if number == DONE and not vector_right(presentation, vector):
        number = VECTOR
    if number != DONE:
        return number, 0
    return DONE, next((i for i, e in enumerate(vector, 1) if e), len(vector))


def word_of(numbers, i, j):
    number, presentation = judge(numbers)
    return presentation[2].get((i, j), []) if number == DONE else []


def overlaps(p, n):
    """The overlaps in their order: family, generators, and both sides. A part of a side is a power (g, e) or the word of a pair."""
    rising = range(1, n + 1)
    for i in rising:
        for j in range(i + 1, n + 1):
            for k in range(j + 1, n + 1):
                yield 1, (i, j, k), [(j, 1), (k, 1), ('w', j, k), (i, 1)], [(k, 1), (i, 1), (j, 1), ('w', i, j)]
    for i in rising:
        for j in range(i + 1, n + 1):
            yield 2, (i, j, 0), [('w', j, j), (i, 1)], [(j, p - 1), (i, 1), (j, 1), ('w', i, j)]
    for i in rising:
        for j in range(i + 1, n + 1):
            yield 3, (i, j, 0), [(i, 1), (j, 1), ('w', i, j), (i, p - 1)], [(j, 1), ('w', i, i)]
    for i in rising:
        yield 4, (i, 0, 0), [('w', i, i), (i, 1)], [(i, 1), ('w', i, i)]


def starting_slots(words, side):
    """The slots of a side, top last: each power is one, each word that isn't empty one string."""
    slots = []
    for part in reversed(side):
        if part[0] != 'w':
            slots.append(('power',) + part)
        elif words.get(part[1:]):
            slots.append(('string', words[part[1:]]))
    return slots


def verdict(numbers, budget, length):
    """The line of the check, and the workspace."""
    number, presentation = judge(numbers)
    if number != DONE:
        return 'refused %d' % number, workspace(number, length)
    p, n, words = presentation
    passed = 0
    for family, generators, left, right in overlaps(p, n):
        name, vectors = '%d %d %d %d' % ((family,) + generators), []
        for side in (left, right):
            number, vector, _, _ = model.run(presentation, [0] * n, starting_slots(words, side), budget, length // 3)
            if number != DONE:
                return 'refused %d %s' % (number, name), workspace(number, length)
            vectors.append(vector)
        if vectors[0] != vectors[1]:
            return 'differs %s : %s : %s' % ((name,) + tuple(map(spaced, vectors))), workspace(DONE, length)
        passed += 1
    return 'pass %d %d %d' % (p, n, passed), workspace(DONE, length)


# --- what is printed ---------------------------------------------------------------------------------------------------------------

def spaced(numbers):
    return ' '.join(map(str, numbers))


def state_text(work):
    if not work:
        return 'no work'
    return 'work zero' if all(x == 0 for x in work) else 'work kept' if all(x == SOIL for x in work) else 'work mixed'


def answer_text(answer):
    number, count, vector, work = answer
    return ' '.join(['%d; count %d; vector' % (number, count)] + list(map(str, vector))) + '; ' + state_text(work)


def verdict_text(told):
    return '%s; %s' % (told[0], state_text(told[1]))


# --- the presentations -------------------------------------------------------------------------------------------------------------

def full(p, n):
    """Every word as long as its relation allows, with exponents p - 1."""
    return pcp.to_numbers(p, n, {(i, j): [(g, p - 1) for g in range(j + 1, n + 1)] for i, j in pcp.relations(n)})


D = pcp.to_numbers(2, 3, {(1, 2): [(3, 1)]})
assert D == [2, 3, 0, 0, 0, 0, 0, 0, 0, 1, 1, 0, 1, 0, 3, 1]

GROUPS = {
    'd': D,
    'q': pcp.to_numbers(2, 3, {(1, 1): [(3, 1)], (2, 2): [(3, 1)], (1, 2): [(3, 1)]}),
    'h': pcp.to_numbers(3, 4, {(1, 2): [(3, 1)], (2, 3): [(4, 1)]}),
    'z': pcp.to_numbers(2, 3, {(1, 1): [(2, 1)], (1, 2): [(3, 1)]}),
    'd_more': D + [0],
    'd_fewer': D[:-1],
    'no_numbers': [],
    'one_number': [2],
    'p_0': pcp.to_numbers(0, 1, {}),
    'p_1': pcp.to_numbers(1, 1, {}),
    'p_2': pcp.to_numbers(2, 1, {}),
    'p_247': pcp.to_numbers(247, 1, {}),
    'p_251': pcp.to_numbers(251, 1, {}),
    'p_253': pcp.to_numbers(253, 1, {}),
    'p_257': pcp.to_numbers(257, 1, {}),
    'n_0': [2, 0],
    'n_40': pcp.to_numbers(2, 40, {}),
    'n_40_p_251': pcp.to_numbers(251, 40, {}),
    'n_41': pcp.to_numbers(2, 41, {}),
    'full': full(251, 40),
    'p_4_n_0': [4, 0],
    'n_0_more': [2, 0, 7],
    'contents_fewer': [2, 1, 0],
    'contents_start': [2, 2, 0, 0, 1, 0, 0, 0],
    # Sums of lengths that 16 bits do not hold: a start that is only right modulo 65,536, and one that is right so far.
    'start_past': [2, 2, 0, 65535, 65535, 1, 0, 0],
    'length_past': [2, 2, 0, 65535, 65535, 0, 65535, 65535],
    'body_low': pcp.to_numbers(3, 3, {(2, 2): [(2, 1)]}),
    'body_low_pair': pcp.to_numbers(3, 3, {(1, 2): [(2, 1)]}),
    'body_above': pcp.to_numbers(3, 3, {(1, 2): [(4, 1)]}),
    'body_same': pcp.to_numbers(3, 3, {(1, 1): [(2, 1), (2, 1)]}),
    'body_falls': pcp.to_numbers(3, 3, {(1, 1): [(3, 1), (2, 1)]}),
    'body_0': pcp.to_numbers(3, 3, {(1, 2): [(3, 0)]}),
    'body_p': pcp.to_numbers(3, 3, {(1, 2): [(3, 3)]}),
}


# --- the cases ---------------------------------------------------------------------------------------------------------------------

class Cases:
    """The calls, one line each, and what must be printed for each."""

    def __init__(self):
        self.calls, self.printed = [], []

    def add(self, label, call, group, fields, result, says):
        if says is not None and not (result + ';').startswith(says + ';'):
            raise SystemExit('%s: the model has "%s", stated is "%s"' % (label, result, says))
        self.calls.append('\t'.join([label, call, group + '.pcp'] + fields))
        self.printed.append((label + ': ' + result).rstrip(' '))

    def judge(self, label, group, says=None):
        self.add(label, 'judge', group, [], str(judge(GROUPS[group])[0]), says)

    def word(self, label, group, i, j, says=None):
        pairs = word_of(GROUPS[group], i, j)
        self.add(label, 'word', group, ['%d %d' % (i, j)], spaced(x for pair in pairs for x in pair), says)

    def depth(self, label, group, vector, says=None):
        self.add(label, 'depth', group, [spaced(vector)], '%d %d' % depth(GROUPS[group], vector), says)

    def collect(self, label, group, vector, word, budget, work, says=None):
        result = collect(GROUPS[group], vector, word, budget, work)
        self.add(label, 'collect', group, [spaced(vector), spaced(word), str(budget), str(work)], answer_text(result), says)

    def product(self, label, group, left, right, budget, work, says=None):
        result = product(GROUPS[group], left, right, budget, work)
        self.add(label, 'product', group, [spaced(left), spaced(right), str(budget), str(work)], answer_text(result), says)

    def inverse(self, label, group, vector, budget, work, says=None):
        result = inverse(GROUPS[group], vector, budget, work)
        self.add(label, 'inverse', group, [spaced(vector), '', str(budget), str(work)], answer_text(result), says)

    def verdict(self, label, group, budget, work, says=None):
        result = verdict(GROUPS[group], budget, work)
        self.add(label, 'verdict', group, ['', '', str(budget), str(work)], verdict_text(result), says)


def judging(c):
    """The numbers 1 to 6, and which comes first."""
    c.judge('no numbers', 'no_numbers', '1')
    c.judge('one number', 'one_number', '1')
    c.judge('p = 0', 'p_0', '2')
    c.judge('p = 1', 'p_1', '2')
    c.judge('p = 2', 'p_2', '0')
    c.judge('p = 247', 'p_247', '2')
    c.judge('p = 251', 'p_251', '0')
    c.judge('p = 253', 'p_253', '2')
    c.judge('p = 257', 'p_257', '2')
    c.judge('n = 0', 'n_0', '3')
    c.judge('n = 40', 'n_40', '0')
    c.judge('n = 40, p = 251', 'n_40_p_251', '0')
    c.judge('n = 41', 'n_41', '3')
    c.judge('22,962 numbers', 'full', '0')
    c.judge('D', 'd', '0')
    c.judge('D and one number more', 'd_more', '5')
    c.judge('D and one number fewer', 'd_fewer', '5')
    c.judge('p = 4 and n = 0', 'p_4_n_0', '2')
    c.judge('n = 0 and a number more', 'n_0_more', '3')
    c.judge('fewer numbers than contents', 'contents_fewer', '4')
    c.judge('a wrong start', 'contents_start', '4')
    c.judge('a start that is right modulo 65,536', 'start_past', '4')
    c.judge('starts right, lengths past 16 bits', 'length_past', '5')
    c.judge('w_2 with x_2', 'body_low', '6')
    c.judge('w_12 with x_2', 'body_low_pair', '6')
    c.judge('a generator above n', 'body_above', '6')
    c.judge('a generator twice', 'body_same', '6')
    c.judge('generators that fall', 'body_falls', '6')
    c.judge('exponent 0', 'body_0', '6')
    c.judge('exponent p', 'body_p', '6')


def fetching(c):
    """Words, and pairs that name none."""
    c.word('D, w_12', 'd', 1, 2, '3 1')
    c.word('D, w_1', 'd', 1, 1, '')
    c.word('D, (2, 1)', 'd', 2, 1, '')
    c.word('D, (0, 0)', 'd', 0, 0, '')
    c.word('D, (0, 2)', 'd', 0, 2, '')
    c.word('D, (3, 4)', 'd', 3, 4, '')
    c.word('D, (4, 4)', 'd', 4, 4, '')
    c.word('D and one number more, w_12', 'd_more', 1, 2, '')
    c.word('Z, w_1', 'z', 1, 1, '2 1')
    c.word('n = 40, the fullest, w_38', 'full', 38, 38, '39 250 40 250')
    c.word('n = 40, the fullest, w_(38,39)', 'full', 38, 39, '40 250')
    c.word('n = 40, the fullest, w_(39,40)', 'full', 39, 40, '')


def depths(c):
    """The first entry that isn't 0, n for the identity, 0 for a refusal."""
    c.depth('depth of D\'s identity', 'd', [0, 0, 0], '0 3')
    c.depth('depth of (0,0,1)', 'd', [0, 0, 1], '0 3')
    c.depth('depth of (0,1,1)', 'd', [0, 1, 1], '0 2')
    c.depth('depth of (1,0,0)', 'd', [1, 0, 0], '0 1')
    c.depth('depth of the identity, n = 40', 'n_40', [0] * 40, '0 40')
    c.depth('depth of the identity, n = 1', 'p_251', [0], '0 1')
    c.depth('depth of an entry p', 'd', [2, 0, 0], '7 0')
    c.depth('depth of a vector too short', 'd', [0, 0], '7 0')
    c.depth('depth over no numbers', 'no_numbers', [0], '1 0')


def refusals(c):
    """The numbers 1 to 8 in their order; each leaves vector and workspace as they are and answers the count 0."""
    x2x1 = [2, 1, 1, 1]
    for label, group, number in (('no numbers', 'no_numbers', 1), ('p = 253', 'p_253', 2), ('n = 0', 'n_0', 3),
                                 ('a wrong start', 'contents_start', 4), ('D and one number more', 'd_more', 5),
                                 ('an exponent p', 'body_p', 6)):
        # The vector and the word are wrong too: the presentation is judged first.
        c.collect('collect, ' + label, group, [9, 9], [0], 0, 2, str(number))
        c.product('product, ' + label, group, [9, 9], [9], 0, 2, str(number))
        c.inverse('inverse, ' + label, group, [9, 9], 0, 2, str(number))
        c.verdict('check, ' + label, group, 0, 2, 'refused %d' % number)
    for label, vector in (('no entries', []), ('an entry short', [1, 1]), ('an entry more', [1, 1, 0, 0]), ('an entry p', [1, 2, 0]),
                          ('an entry 255', [1, 0, 255])):
        c.collect('collect, vector with ' + label, 'd', vector, [0], 10, 30, '7')
        c.product('product, left with ' + label, 'd', vector, [1, 1], 10, 30, '7')
        c.product('product, right with ' + label, 'd', [1, 1, 0], vector, 10, 30, '7')
        c.inverse('inverse, vector with ' + label, 'd', vector, 10, 30, '7')
    for label, word in (('of odd length', x2x1 + [3]), ('of one number', [1]), ('with generator 0', x2x1 + [0, 1]),
                        ('with a generator above n', x2x1 + [4, 1]), ('with exponent 0', x2x1 + [1, 0])):
        c.collect('collect, word ' + label, 'd', [1, 1, 0], word, 10, 30, '8')
        # No budget and no room: they are looked at later.
        c.collect('collect, word ' + label + ', budget 0, no workspace', 'd', [1, 1, 0], word, 0, 0, '8')


def collecting(c):
    """Budget, room and workspaces, one short and just enough."""
    x2x1 = [2, 1, 1, 1]
    twice, one = x2x1 * 2, [0, 0, 0]
    c.collect('empty word, budget 0, no workspace', 'd', [1, 0, 1], [], 0, 0, '0; count 0; vector 1 0 1')
    c.collect('empty word, budget 0, workspace of 2', 'd', [1, 0, 1], [], 0, 2, '0; count 0; vector 1 0 1; work zero')
    c.collect('x_1, budget 0, no workspace', 'd', one, [1, 1], 0, 0, '10; count 0')
    c.collect('x_1, budget 0, workspace of 2', 'd', one, [1, 1], 0, 2, '10; count 0; vector 0 0 0; work zero')
    c.collect('x_1, budget 0, workspace of 3', 'd', one, [1, 1], 0, 3, '0; count 0; vector 1 0 0')
    c.collect('D, x_2 x_1, budget 0, room 1', 'd', one, x2x1, 0, 3, '9')
    c.collect('D, x_2 x_1, budget 0, room 2', 'd', one, x2x1, 0, 6, '9')
    for work in range(3, 10):
        says = '10' if work < 6 else '0; count 1; vector 1 1 1; work zero'
        c.collect('D, x_2 x_1, budget 1, workspace of %d' % work, 'd', one, x2x1, 1, work, says)
    c.collect('D, x_2 x_1, the largest budget', 'd', one, x2x1, 4294967295, 6, '0; count 1; vector 1 1 1')
    for budget in range(6):
        c.collect('D, x_2 x_1 twice, budget %d, room 3' % budget, 'd', one, twice, budget, 9,
                  '9' if budget < 5 else '0; count 5; vector 0 0 1')
    for room in range(4):
        c.collect('D, x_2 x_1 twice, budget 5, room %d' % room, 'd', one, twice, 5, 3 * room,
                  '10' if room < 3 else '0; count 5; vector 0 0 1')
    for budget in range(4):
        c.collect('Q, (1,0,1) then x_1, budget %d' % budget, 'q', [1, 0, 1], [1, 1], budget, 30,
                  '9; count 0; vector 1 0 1' if budget < 2 else '9' if budget < 3 else '0; count 3; vector 0 0 0')
    for room in range(5):
        c.collect('H, x_2^2 x_1, room %d' % room, 'h', [0] * 4, [2, 2, 1, 1], 4, 3 * room,
                  '10' if room < 4 else '0; count 4; vector 1 2 2 1')
    # The placing of x_1 over (0,1,1) needs 2 replacements and 3 slots: with neither, the budget is named.
    c.collect('D, (0,1,1) then x_1, budget 1, room 1', 'd', [0, 1, 1], [1, 1], 1, 3, '9; count 0; vector 0 1 1; work zero')
    c.collect('D, (0,1,1) then x_1, budget 2, room 1', 'd', [0, 1, 1], [1, 1], 2, 3, '10; count 0; vector 0 1 1; work zero')
    # What is left of a slot takes room before anything is replaced: the rest of the string, and above it the rest of the power.
    c.collect('x_1^2 x_2, room 1', 'h', [0] * 4, [1, 2, 2, 1], 100, 3, '10; count 0')
    c.collect('x_1^2 x_2, room 2', 'h', [0] * 4, [1, 2, 2, 1], 100, 6, '0; count 0; vector 2 1 0 0')
    c.collect('x_2^5, p = 2, room 1', 'd', one, [2, 5], 100, 3, '0; count 2; vector 0 1 0')
    c.collect('x_2^5, p = 2, room 1, budget 1', 'd', one, [2, 5], 1, 3, '9; count 1')
    c.collect('x_1^65535, p = 2', 'd', one, [1, 65535], 32767, 3, '0; count 32767; vector 1 0 0')
    c.collect('x_1^65535, p = 2, budget one short', 'd', one, [1, 65535], 32766, 3, '9; count 32766; vector 0 0 0')
    c.collect('x_1^65535, p = 251', 'p_251', [250], [1, 65535], 1000, 3)
    c.collect('Z, which is not consistent, x_1^3', 'z', one, [1, 3], 100, 30)
    c.collect('Q, x_2 x_1', 'q', one, x2x1, 100, 30, '0; count 1; vector 1 1 1')
    c.collect('Q, x_1 x_2', 'q', one, [1, 1, 2, 1], 100, 30, '0; count 0; vector 1 1 0')
    c.collect('n = 40, the fullest, x_39 x_1', 'full', [0] * 40, [39, 1, 1, 1], 1000, 30)
    c.collect('n = 40, the fullest, x_2 x_1, budget 1,000', 'full', [0] * 40, [2, 1, 1, 1], 1000, 24576)


def multiplying(c):
    """Products: as many starting slots as the right vector has entries that are not 0."""
    one = [0, 0, 0]
    c.product('identity times identity, budget 0, no workspace', 'd', one, one, 0, 0, '0; count 0; vector 0 0 0')
    c.product('(1,1,0) times identity, budget 0, workspace of 1', 'd', [1, 1, 0], one, 0, 1, '0; count 0; vector 1 1 0; work zero')
    for room in range(3):
        c.product('identity times (1,1,0), budget 0, room %d' % room, 'd', one, [1, 1, 0], 0, 3 * room,
                  '10; count 0; vector 0 0 0' if room < 2 else '0; count 0; vector 1 1 0')
    for budget in range(4):
        c.product('D, (0,1,0) times (1,1,0), budget %d' % budget, 'd', [0, 1, 0], [1, 1, 0], budget, 30)
    for room in range(6):
        c.product('D, (0,1,1) times (1,1,1), room %d' % room, 'd', [0, 1, 1], [1, 1, 1], 100, 3 * room)
    c.product('H, (0,2,2,2) times (2,2,0,0)', 'h', [0, 2, 2, 2], [2, 2, 0, 0], 1000, 300)
    c.product('p = 251, (250) times (250)', 'p_251', [250], [250], 1, 3, '0; count 1; vector 249')
    c.product('p = 251, (250) times (250), budget 0', 'p_251', [250], [250], 0, 3, '9; count 0; vector 250')
    ends = [250] + [0] * 38 + [250]
    c.product('n = 40, p = 251, 250 at both ends, times itself', 'n_40_p_251', ends, ends, 62502, 9)
    c.product('n = 40, p = 251, 250 at both ends, times itself, budget one short', 'n_40_p_251', ends, ends, 62501, 9)
    c.product('n = 40, p = 251, all entries 250, times itself, room 79', 'n_40_p_251', [250] * 40, [250] * 40, 20000, 237)
    c.product('n = 40, p = 251, all entries 250, times itself, room 78', 'n_40_p_251', [250] * 40, [250] * 40, 20000, 234)
    c.product('n = 40, p = 251, all entries 250, times itself, room 39', 'n_40_p_251', [250] * 40, [250] * 40, 10000, 117,
              '10; count 0')


def inverting(c):
    """Inverses: budget and count over the whole call, one starting slot at a time."""
    one = [0, 0, 0]
    c.inverse('inverse of the identity, budget 0, no workspace', 'd', one, 0, 0, '0; count 0; vector 0 0 0')
    c.inverse('inverse of the identity, workspace of 2', 'd', one, 0, 2, '0; count 0; vector 0 0 0; work zero')
    c.inverse('inverse of (0,0,1), no workspace', 'd', [0, 0, 1], 100, 0, '10; count 0; vector 0 0 1')
    c.inverse('inverse of (0,0,1), workspace of 2', 'd', [0, 0, 1], 100, 2, '10; count 0; vector 0 0 1; work zero')
    for budget in range(3):
        c.inverse('Q, inverse of (1,0,0), budget %d' % budget, 'q', [1, 0, 0], budget, 30,
                  '9' if budget < 2 else '0; count 2; vector 1 0 1')
    for budget in range(9):
        c.inverse('Q, inverse of (1,1,1), budget %d' % budget, 'q', [1, 1, 1], budget, 30)
    for room in range(8):
        c.inverse('H, inverse of (1,2,1,2), room %d' % room, 'h', [1, 2, 1, 2], 1000, 3 * room)
    c.inverse('p = 251, inverse of (1)', 'p_251', [1], 1, 3, '0; count 1; vector 250')
    c.inverse('p = 251, inverse of (250)', 'p_251', [250], 1, 3, '0; count 1; vector 1')
    c.inverse('Z, which is not consistent, inverse of (1,0,0)', 'z', [1, 0, 0], 100, 30)


def checking(c):
    """The check: rooms and budgets short of each overlap, and the largest rank."""
    c.verdict('D, no workspace', 'd', 1000000, 0, 'refused 10 1 1 2 3')
    c.verdict('D, workspace of 2', 'd', 1000000, 2, 'refused 10 1 1 2 3; work zero')
    for room in range(1, 5):
        c.verdict('D, room %d' % room, 'd', 1000000, 3 * room, None if room < 4 else 'pass 2 3 10; work zero')
    for budget in range(5):
        c.verdict('D, budget %d' % budget, 'd', budget, 30)
    c.verdict('Q', 'q', 1000000, 24576, 'pass 2 3 10')
    c.verdict('Z', 'z', 1000000, 24576, 'differs 4 1 0 0 : 1 1 1 : 1 1 0; work zero')
    for budget in range(6):
        c.verdict('Z, budget %d' % budget, 'z', budget, 30)
    for room in range(7):
        c.verdict('H, room %d' % room, 'h', 1000000, 3 * room)
    c.verdict('n = 1, no workspace', 'p_2', 1000000, 0, 'refused 10 4 1 0 0')
    c.verdict('n = 1, room 1', 'p_2', 1000000, 3, 'pass 2 1 1')
    c.verdict('n = 1, room 1, budget 0', 'p_2', 0, 3)
    c.verdict('n = 40, no relation', 'n_40', 1000000, 24576, 'pass 2 40 11480')
    c.verdict('n = 40, p = 251, no relation', 'n_40_p_251', 1000000, 24576, 'pass 251 40 11480')
    c.verdict('n = 40, p = 251, no relation, budget 250', 'n_40_p_251', 250, 24576)
    c.verdict('n = 40, the fullest', 'full', 10000, 24576)


def longest(c):
    """Words of 4,096 pairs and one more; they come last because their lines are long."""
    pairs = [1, 1, 2, 1] * 2048
    c.collect('D, a word of 4,096 pairs', 'd', [0, 0, 0], pairs, 1000000, 30)
    c.collect('D, a word of 4,097 pairs', 'd', [0, 0, 0], pairs + [1, 1], 1000000, 30, '8; count 0; vector 0 0 0; work kept')


def main(crate):
    data = os.path.join(crate, 'data')
    os.makedirs(data, exist_ok=True)
    cases = Cases()
    for part in (judging, fetching, depths, refusals, collecting, multiplying, inverting, checking, longest):
        part(cases)
    for name, numbers in GROUPS.items():
        with open(os.path.join(data, name + '.pcp'), 'wb') as file:
            file.write(pcp.to_bytes(numbers))
    for name, lines in ((os.path.join(data, 'calls'), cases.calls), (os.path.join(crate, 'stdout'), cases.printed)):
        with open(name, 'w', encoding='ascii') as file:
            file.writelines(line + '\n' for line in lines)


if __name__ == '__main__':
    if len(sys.argv) != 2:
        sys.exit('usage: corners.py CRATE')
    main(sys.argv[1])
