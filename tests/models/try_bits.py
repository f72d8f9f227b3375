# Foretells crates/try_bits: the words that have fixed bits, found upwards and downwards.
from draws import SPREAD, after
from paper import fixed, half, highest, lowest, next_with, prev_with, top, words
from tally import Tally


# The nearest member of a set at or above p, and at or below it.
def up(members, p):
    above = members >> p
    return p + lowest(above) if above else None


def down(members, p):
    below = members & top(p + 1)
    return highest(below) if below else None


UP = next_with, up
DOWN = prev_with, down


# One form 7 rule or two, by search and by their bits. Downwards only those that a sheet takes, with no bit outside a mask, are tried.
def sheets(way):
    by_bits, search = way
    tally = Tally()
    for w in range(1, 5):
        n = 1 << w
        rules = [(7, 0, i % n, i // n) for i in range(n * n)]
        for pair in [(rule,) for rule in rules] + ([(a, b) for b in rules for a in rules] if w < 4 else []):
            if way == DOWN and any(c2 & ~c1 for _, _, c1, c2 in pair):
                continue
            members = top(n)
            for rule in pair:
                members &= words(w, rule)
            bits = fixed(pair)
            for p in range(n):
                tally.one((by_bits(w, *bits, p) if bits else None) == search(members, p))
    return tally


# Every mask that reaches at most one bit past the top word, or for downwards within it, every value that lies in the mask, and every word.
def small(way, past):
    by_bits, search = way
    tally = Tally()
    for w in range(1, 6):
        for mask in range(1 << w + past):
            for value in range(mask + 1):
                if value & mask == value:
                    members = sum(1 << x for x in range(1 << w) if x & mask == value)
                    for p in range(1 << w):
                        tally.one(by_bits(w, mask, value, p) == search(members, p))
    return tally


def word(w, i):
    drawn = after(after(i ^ SPREAD))
    corners = [0, 1, half(w) - 1, half(w), top(w) - 1, top(w)]
    return corners[i] if i < 6 else drawn & top(w) if i < 11 else drawn


# Each of sixteen words as the mask, as the value and as p. Upwards the mask may reach past the top word.
def wide(way):
    tally = Tally()
    for w in (31, 32, 63, 64):
        for i in range(16**3):
            mask = word(w, i % 16) & top(64 if way == UP else w)
            value = word(w, i // 16 % 16) & mask
            p = word(w, i // 256) & top(w)
            tally.one(way[0](w, mask, value, p) == nearest(way, w, mask, value, p))
    return tally


# The smallest word with the bits that is not below p, or the largest that is not above it, by halving: of the words with the bits, number k
# has the bits of k where no bit is fixed, so that a larger number has a larger word.
def nearest(way, w, mask, value, p):
    free = [1 << k for k in range(w) if not mask >> k & 1]
    if value > top(w):
        return None
    found = value if way == DOWN else value | sum(free)
    if found > p if way == DOWN else found < p:
        return None
    for bit in reversed(free):
        if way == DOWN and found | bit <= p:
            found |= bit
        if way == UP and found ^ bit >= p:
            found ^= bit
    return found


# Wrong expectations on the odd words of width 4.
def known():
    tally = Tally()
    tally.one(next_with(4, 1, 1, 2) == 2)
    tally.one(next_with(4, 1, 1, 2) is None)
    tally.one(prev_with(4, 1, 1, 2) == 2)
    tally.one(prev_with(4, 1, 1, 2) is None)
    tally.one(prev_with(4, 1, 1, 0) == 0)
    return tally


sheets(UP).line("next")
sheets(DOWN).line("prev")
small(UP, 1).line("small next")
small(DOWN, 0).line("small prev")
wide(UP).line("wide next")
wide(DOWN).line("wide prev")
known().line("known")
