# Joins of words (K11) and nets of them (K12), by plain search. Written from the papers; nothing here is taken from crates/.
# An interval is (low, high).
from collections import namedtuple
from functools import lru_cache

from paper import top

OPS = ["not", "and", "or", "xor"]

# "up to 16 words with intervals and up to 32 joins"
WORDS = 16
JOINS = 32


def result(w, op, x, y):
    if op == "not":
        return top(w) ^ x
    if op == "and":
        return x & y
    return x | y if op == "or" else x ^ y


# "the span from the smallest to the largest result that the argument intervals give, exactly"
@lru_cache(1 << 16)
def span(w, op, x, y):
    results = [result(w, op, a, b) for a in range(x[0], x[1] + 1) for b in range(y[0], y[1] + 1)]
    return min(results), max(results)


# The same for words of any width, from the highest bit down: of the results those with the smaller bit there come first.
@lru_cache(1 << 16)
def wide_span(w, op, x, y):
    return extreme(w, op, x, y, 0), extreme(w, op, x, y, 1)


# The words of an interval with the highest of k bits clear or set, without that bit; or None.
def part(k, interval, bit):
    half = 1 << (k - 1)
    low, high = max(interval[0], bit * half), min(interval[1], half - 1 + bit * half)
    return (low - bit * half, high - bit * half) if low <= high else None


# The smallest or the largest result, as `wanted` is 0 or 1. The bits above the highest at which two ends differ are those of all words.
def extreme(w, op, x, y, wanted):
    k = (x[0] ^ x[1] | y[0] ^ y[1]).bit_length()
    made = result(w, op, x[0], y[0]) >> k
    pairs = {(low_bits(k, x), low_bits(k, y))}
    for k in range(k, 0, -1):
        found = {0: set(), 1: set()}
        for i, j in pairs:
            for a in (0, 1):
                for b in (0, 1):
                    halves = part(k, i, a), part(k, j, b)
                    if None not in halves:
                        found[result(1, op, a, b)].add(halves)
        bit = wanted if found[wanted] else 1 - wanted
        made = 2 * made + bit
        pairs = found[bit]
    return made


def low_bits(k, interval):
    return interval[0] & top(k), interval[1] & top(k)


def cut(i, j):
    return max(i[0], j[0]), min(i[1], j[1])


def is_empty(i):
    return i[1] < i[0]


# "A width outside 1 to 64 is refused with 2, then bounds above the top word with 5, then an interval with low above high with 15."
def refusal(w, intervals):
    if not 1 <= w <= 64:
        return 2
    if any(end > top(w) for i in intervals for end in i):
        return 5
    return 15 if any(is_empty(i) for i in intervals) else 0


# Number, whether a cut is empty, and the intervals. "A NOT has no y": it is not read, and comes back as it came.
def join(w, op, h, x, y, span=span):
    read = [h, x] if op == "not" else [h, x, y]
    number = refusal(w, read)
    if number:
        return number, False, h, x, y
    # "h's new one is its old one cut with the span"; "For NOT and XOR, the arguments are cut in the same way by the inverse operation; for AND
    # and OR they stay. All cuts read the intervals as given."
    no_y = (0, 0)
    h2, x2, y2 = cut(h, span(w, op, x, no_y if op == "not" else y)), x, y
    if op == "not":
        x2 = cut(x, span(w, op, h, no_y))
    if op == "xor":
        x2, y2 = cut(x, span(w, op, h, y)), cut(y, span(w, op, h, x))
    # "A refusal, and "empty", give the intervals back as they came."
    if is_empty(h2) or is_empty(x2) or (op != "not" and is_empty(y2)):
        return 0, True, h, x, y
    return 0, False, h2, x2, y2


# ---- K12. The words and joins are all places of a net, of which the first `count` and `joined` are in use; a join is (op, h, x, y).
Net = namedtuple("Net", "width words count joins joined")


def places(join):
    op, h, x, y = join
    return (h, x) if op == "not" else (h, x, y)


# "Too many words or joins, or a join naming a word that isn't there (a NOT's y isn't read): 16, before anything else; then 2, 5 and 15"
def net_refusal(net):
    if net.count > WORDS or net.joined > JOINS:
        return 16
    if any(place >= net.count for one in net.joins[: net.joined] for place in places(one)):
        return 16
    return refusal(net.width, net.words[: net.count])


# The words after a join, or None where a cut is empty. "A join that names a word twice cuts it by all its results."
@lru_cache(1 << 16)
def joined(w, words, one, span):
    op, h, x, y = one
    no_y = (0, 0)
    _, empty, *results = join(w, op, words[h], words[x], no_y if op == "not" else words[y], span)
    after = list(words)
    for place, new in zip(places(one), results):
        after[place] = cut(after[place], new)
        empty = empty or is_empty(after[place])
    return None if empty else tuple(after)


# How it ends, the steps used, and the words.
def run(net, pay, span=span):
    number = net_refusal(net)
    if number:
        return number, 0, net.words
    words = net.words
    quiet = steps = 0
    # "Stop at the first of: a cut is empty; as many steps in a row as there are joins changed nothing; the steps are spent."
    while True:
        if quiet == net.joined:
            return "steady", steps, words
        if steps == pay:
            return "spent", steps, words
        after = joined(net.width, words, net.joins[steps % net.joined], span)
        steps += 1
        # "A step that ends in "empty" is counted and leaves the intervals from before it."
        if after is None:
            return "empty", steps, words
        quiet = quiet + 1 if after == words else 0
        words = after
