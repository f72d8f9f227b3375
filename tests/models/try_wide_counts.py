# Foretells crates/try_wide_counts: rules with corners, and drawn sheets, of 31 to 64 bits, in each edition that has the width.
from calls import NEW, OLD, accepted
from counts import UNIT, fitting, how_many
from draws import FEW, corner, few_drawn, seeds, taken
from paper import FORMS, top
from seen import Seen


def tried(seen, w, rules):
    assert accepted(w, NEW, rules)
    for edition in (NEW, OLD):
        if accepted(w, edition, rules):
            seen.count(w, rules)
            for i in range(6):
                seen.pieces(w, rules, corner(w, i), [0, 1, 2, 3, 7])


# Eight forms in two senses with two of six corners, without those that a sheet refuses or that another number has.
def alone(w):
    seen = Seen()
    for i in range(2 * FORMS * 6 * 6):
        rule = 1 + i % FORMS, i // FORMS % 2, corner(w, i // (2 * FORMS) % 6), corner(w, i // (12 * FORMS) % 6)
        if rule == taken(rule):
            tried(seen, w, [rule])
    return seen


def drawn(w):
    seen = Seen()
    for s in seeds(500, w):
        tried(seen, w, few_drawn(s, w, 1 + s % FEW))
    return seen


# "since a free 64-bit word has 2^64": right, none, all of it as remainder, one more and one less; and its last three words: right, without the
# last, with one more, and with the last but one twice.
def known():
    seen = Seen()
    words = how_many(64, [])
    for quotient, remainder in [(UNIT, 0), (0, 0), (0, UNIT), (UNIT, 1), (UNIT - 1, UNIT - 1)]:
        seen.counted(quotient * UNIT + remainder, (quotient, remainder) == divmod(words, UNIT))
    start = top(64) - 2
    last = list(fitting(64, [], start))
    for some in [last, last[:2], last + [top(64)], last[:2] + [last[1]]]:
        seen.listed(some, some == last)
    return seen


for w in (31, 32, 33, 63, 64):
    alone(w).lines(f"{w} alone")
for w in (31, 32, 33, 63, 64):
    drawn(w).lines(f"{w} drawn")
known().lines("known")
