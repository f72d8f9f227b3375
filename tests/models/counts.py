# How many words fit, and which (K10), and what a listing in pieces does. Written from the papers; nothing here is taken from crates/.
from paper import NARROW, common, fixed, next_with, stretches, top, words

# "quotient and remainder by 2^32"
UNIT = 1 << 32


# The fitting words from p upward, in rising order: at a narrow width by going through all words, at a wide one from stretch to stretch.
def fitting(w, rules, p=0):
    if w <= NARROW:
        fit = top(1 << w)
        for rule in rules:
            fit &= words(w, rule)
        yield from (x for x in range(p, 1 << w) if fit >> x & 1)
        return
    bits = fixed(rules)
    for a, b in held(w, rules) if bits else []:
        x = max(a, p)
        while x <= b:
            x = next_with(w, *bits, x)
            if x is None or x > b:
                break
            yield x
            x += 1


# The stretches whose words meet all rules outside form 7.
def held(w, rules):
    found = [(0, top(w))]
    for rule in rules:
        if rule[0] != 7:
            found = common(found, stretches(w, rule))
    return found


def how_many(w, rules):
    if w <= NARROW:
        return sum(1 for _ in fitting(w, rules))
    bits = fixed(rules)
    if bits is None:
        return 0
    return sum(before(w, *bits, b + 1) - before(w, *bits, a) for a, b in held(w, rules))


# How many words below p have the bits: the words that have them are numbered in order by their free bits, so it is the number of the next
# one, or where there is none all of them.
def before(w, mask, value, p):
    word = next_with(w, mask, value, p) if p <= top(w) else None
    free = [k for k in range(w) if not mask >> k & 1]
    if word is None:
        return 1 << len(free)
    return sum((word >> k & 1) << i for i, k in enumerate(free))


# "from a given word upward, as many fitting words as the lent buffer holds, in rising order, none left out"
def listing(w, rules, start, room):
    some = fitting(w, rules, start)
    return [x for _, x in zip(range(room), some)]


# Where a listing is carried on: one above the last word written, or None where no word is left: it was not full, or wrote the top word.
def onward(w, start, room, written):
    if room == 0:
        return start
    if len(written) < room or written[-1] == top(w):
        return None
    return written[-1] + 1
