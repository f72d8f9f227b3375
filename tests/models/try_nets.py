# Foretells crates/try_nets: runs of nets, what a search over all assignments finds, and nets that are made to end at a place or to be refused.
from itertools import product

from draws import WORD, after
from joins import JOINS, OPS, WORDS, Net, result, run
from paper import top
from tally import Tally

# ---- the draws, as crates/trial_joins/src/trial_nets has them


def drawn_interval(s, w):
    ends = s >> 8 & top(w), s >> 32 & top(w)
    return (min(ends), max(ends)) if s >> 60 & 1 else (0, top(w))


def drawn(seed, w, count):
    words = [(7, 7)] * WORDS
    s = seed
    for place in range(count):
        s = after(s)
        words[place] = drawn_interval(s, w)
    joins = []
    s = after(seed)
    for _ in range(JOINS):
        s = after(s)
        joins.append((OPS[s >> 32 & 3], (s >> 8 & 15) % count, (s >> 16 & 15) % count, (s >> 24 & 15) % count))
    return Net(w, tuple(words), count, tuple(joins), 1 + (seed >> 40) % 6)


# Widths 1 to 3 with 2 to 4 words, and 50 nets of each.
def nets():
    for kind in range(9):
        seed = 0x9E3779B97F4A7C15 ^ kind
        for _ in range(50):
            seed = after(seed)
            yield drawn(seed, 1 + kind % 3, 2 + kind // 3)


PAID = 40


# Each net paid 0 to 39 steps. "Paying more never changes an "empty" or "steady" answer."
def plain():
    tally = Tally()
    for net in nets():
        last = "spent", 0, net.words
        for pay in range(PAID):
            answer = run(net, pay)
            tally.one(answer == last if last[0] != "spent" else answer[1] <= pay)
            last = answer
    return tally


# "No assignment inside the given intervals that satisfies all joins is lost."
def search():
    tally = Tally()
    for net in nets():
        ended, _, left = run(net, PAID)
        kept = True
        for words in product(range(1 << net.width), repeat=net.count):
            if inside(net.words, words) and satisfied(net, words):
                kept = kept and ended != "empty" and inside(left, words)
        tally.one(kept)
    return tally


def inside(intervals, words):
    return all(low <= word <= high for (low, high), word in zip(intervals, words))


def satisfied(net, words):
    return all(words[h] == result(net.width, op, words[x], words[y]) for op, h, x, y in net.joins[: net.joined])


# ---- nets that are made, at width 2: the words 2, 1, 0 and any, and joins that change nothing but for one

FOUR = ((2, 2), (1, 1), (0, 0), (0, 3)) + ((9, 3),) * (WORDS - 4)
CHANGED = FOUR[:3] + ((1, 1),) + FOUR[4:]
QUIET = "not", 0, 1, 99
EMPTIES = "not", 0, 2, 99
CHANGES = "not", 3, 0, 99


def made(joined, place, odd):
    joins = [QUIET] * JOINS
    joins[place] = odd
    return Net(2, FOUR, 4, tuple(joins), joined)


# At each place of a round: with just enough to pay, with more than can be used, and with one step too few.
def places(odd, ended, left, round_more):
    tally = Tally()
    for joined in range(1, JOINS + 1):
        for place in range(joined):
            net = made(joined, place, odd)
            steps = place + 1 + (joined if round_more else 0)
            tally.one(run(net, steps) == (ended, steps, left))
            tally.one(run(net, WORD) == (ended, steps, left))
            tally.one(run(net, steps - 1) == ("spent", steps - 1, left))
    return tally


# Five ways to be refused with 16, or none, each with a wrong width, a bound above the top word and bounds in the wrong order, or not.
def refusals():
    tally = Tally()
    quiet = made(1, 0, CHANGES)
    ways = [quiet._replace(count=17), quiet._replace(joined=33)]
    ways += [made(2, 1, odd) for odd in [("and", 4, 0, 0), ("or", 0, 4, 0), ("xor", 0, 0, 4)]] + [quiet]
    for way, net in enumerate(ways):
        for order, bound, width in product((False, True), repeat=3):
            words = list(net.words)
            if bound:
                words[2] = 0, 4
            if order:
                words[1] = 2, 1
            tried = net._replace(words=tuple(words), width=(0 if way % 2 else 65) if width else 2)
            number = 16 if way < 5 else 2 if width else 5 if bound else 15 if order else 0
            tally.one(run(tried, 9) == ((number, 0, tried.words) if number else ("steady", 2, CHANGED)))
    return tally


# Spent, where the last step paid for makes the net steady.
def known():
    tally = Tally()
    tally.one(run(made(1, 0, CHANGES), 2) == ("spent", 2, CHANGED))
    return tally


plain().line("plain rule:")
search().line("search:")
places(EMPTIES, "empty", FOUR, False).line("empty at each place:")
places(CHANGES, "steady", CHANGED, True).line("steady at each place:")
refusals().line("refusals:")
known().line("known:")
