# Foretells crates/try_spans: joins of intervals, which the model makes by search and bit by bit.
from draws import after
from joins import OPS, join, span, wide_span
from paper import top
from tally import Tally


# The intervals of words up to an end that are in order.
def intervals(words):
    return [(low, high) for low in words for high in words if low <= high]


# A join by search against the same bit by bit.
def one(tally, w, op, h, x, y):
    tally.one(join(w, op, h, x, y) == join(w, op, h, x, y, span=wide_span))


# Every x and y at the widths 1 to 4, with every word for h.
def pairs():
    tally = Tally()
    for w in range(1, 5):
        some = intervals(range(1 << w))
        for x in some:
            for y in some:
                for op in OPS:
                    one(tally, w, op, (0, top(w)), x, y)
    return tally


# Every h, x and y at the widths 1 to 3.
def triples():
    tally = Tally()
    for w in range(1, 4):
        some = intervals(range(1 << w))
        for h in some:
            for x in some:
                for y in some:
                    for op in OPS:
                        one(tally, w, op, h, x, y)
    return tally


# The intervals that a number draws, and one operation after the other at the widths 5 to 8, as crates/trial_joins/src/trial_spans.rt has them.
def drawn_interval(s, w):
    ends = s >> 8 & top(w), s >> 32 & top(w)
    return min(ends), max(ends)


def drawn():
    tally = Tally()
    s = 0x2545F4914F6CDD1D
    for i in range(4000):
        w = 5 + i % 4
        some = []
        for _ in range(3):
            some.append(drawn_interval(s, w))
            s = after(s)
        one(tally, w, OPS[i // 4 % 4], *some)
    return tally


# 0, half, the top word and their neighbours as ends, with three intervals of h, at wide widths. These words have a highest bit, a lowest, and
# between them bits that agree, and so have the smallest and the largest results: a search at width 5 finds them, against bit by bit.
def corners():
    tally = Tally()
    for w in (31, 32, 63, 64):
        half = top(w) // 2 + 1
        some = intervals([0, 1, half - 1, half, half + 1, top(w) - 1, top(w)])
        for h in [(0, top(w)), (half, top(w)), (1, half)]:
            for x in some:
                for y in some:
                    for op in OPS:
                        tally.one(join(w, op, h, x, y, five_bits) == join(w, op, h, x, y, wide_span))
    return tally


def five_bits(w, op, x, y):
    low, high = span(5, op, (narrowed(w, x[0]), narrowed(w, x[1])), (narrowed(w, y[0]), narrowed(w, y[1])))
    return widened(w, low), widened(w, high)


def narrowed(w, word):
    return word >> (w - 1) << 4 | 7 * (word >> 1 & 1) << 1 | word & 1


def widened(w, word):
    assert word >> 1 & 7 in (0, 7)
    return word >> 4 << (w - 1) | top(w - 2) * (word >> 1 & 1) << 1 | word & 1


# Ends of which some are above the top word of width 3, or in the wrong order, at a width that is right and two that are not.
def refusals():
    tally = Tally()
    ends = [(low, high) for low in (0, 7, 8) for high in (0, 7, 8)]
    for w in (0, 3, 65):
        for h in ends:
            for x in ends:
                for y in ends:
                    for op in OPS:
                        one(tally, w, op, h, x, y)
    return tally


# The prefix bound of an AND, 0, in the place of the smallest result, 1.
def known():
    tally = Tally()
    x, y = (1, 2), (3, 3)
    tally.one(join(3, "and", (0, 7), x, y) == (0, False, (0, 2), x, y))
    return tally


# The program has two ways to expect the pairs.
pairs().line("pairs, word by word:")
pairs().line("pairs, block by block:")
triples().line("triples:")
drawn().line("drawn:")
corners().line("corners:")
refusals().line("refusals:")
known().line("known:")
