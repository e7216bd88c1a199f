"""Two small models of collection in Python, for the tests of this folder: no speed, nothing shared with the C or the Rattle code.

`collect` is the placing rule with slots, budget and room, as the rules state it. `rewrite` is the definition behind it: the leftmost
non-normal subword is replaced again and again. Both work on a presentation (p, n, words), words[i, i] and words[i, j] with i < j being
lists of pairs (generator, exponent).
"""

DONE, BUDGET, ROOM = 0, 9, 10


def word_of(words, i, j):
    return words.get((i, j), [])


def place(presentation, vector, slots):
    """One placing. `vector` and `slots` (top last) are changed; the number of replacements comes back."""
    p, n, words = presentation
    top = slots.pop()
    if top[0] == 'power':
        _, i, e = top
        if e > 1:
            slots.append(('power', i, e - 1))
    else:
        pairs = top[1]
        i, a = pairs[0]
        if len(pairs) > 1:
            slots.append(('string', pairs[1:]))
        if a > 1:
            slots.append(('power', i, a - 1))
    cost = 0
    for g in range(n, i, -1):
        b = vector[g - 1]
        if b == 0:
            continue
        vector[g - 1] = 0
        cost += b
        tail = word_of(words, i, g)
        if not tail:
            slots.append(('power', g, b))
        else:
            for _ in range(b):
                slots += [('string', tail), ('power', g, 1)]
    vector[i - 1] += 1
    if vector[i - 1] == p:
        cost += 1
        vector[i - 1] = 0
        for g, e in word_of(words, i, i):
            vector[g - 1] = e
    return cost


def run(presentation, vector, slots, budget, room, count=0):
    """(number, vector, count, room used). The slots have their top last; on a refusal the vector is the one before it."""
    most = len(slots)
    if most > room:
        return ROOM, vector, count, most
    while slots:
        now = list(vector)
        cost = place(presentation, now, slots)
        most = max(most, len(slots))
        if count + cost > budget:
            return BUDGET, vector, count, most
        if len(slots) > room:
            return ROOM, vector, count, most
        vector, count = now, count + cost
    return DONE, vector, count, most


def collect(presentation, vector, pairs, budget=10 ** 9, room=10 ** 9):
    return run(presentation, list(vector), [('string', list(pairs))] if pairs else [], budget, room)


def product(presentation, left, right, budget=10 ** 9, room=10 ** 9):
    slots = [('power', i, e) for i, e in reversed(list(enumerate(right, 1))) if e]
    return run(presentation, list(left), slots, budget, room)


def inverse(presentation, vector, budget=10 ** 9, room=10 ** 9):
    p, n, _ = presentation
    now, result, count, most = list(vector), [0] * n, 0, 0
    for i in range(1, n + 1):
        if now[i - 1]:
            result[i - 1] = p - now[i - 1]
            number, now, count, used = run(presentation, now, [('power', i, result[i - 1])], budget, room, count)
            most = max(most, used)
            if number != DONE:
                return number, list(vector), count, most
    return DONE, result, count, most


def letters_of(pairs):
    return [g for g, e in pairs for _ in range(e)]


def rewrite(presentation, letters, limit=10 ** 6):
    """The normal word's vector and the number of leftmost replacements, or None past the limit."""
    p, n, words = presentation
    letters, count = list(letters), 0
    while True:
        for at in range(len(letters)):
            i = letters[at]
            if letters[at:at + p] == [i] * p:
                letters[at:at + p] = letters_of(word_of(words, i, i))
                break
            if at + 1 < len(letters) and letters[at + 1] < i:
                j, low = i, letters[at + 1]
                letters[at:at + 2] = [low, j] + letters_of(word_of(words, low, j))
                break
        else:
            return [letters.count(g) for g in range(1, n + 1)], count
        count += 1
        if count > limit:
            return None
