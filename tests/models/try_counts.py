# Foretells crates/try_counts: every rule at the widths 1 to 5, and drawn sheets of the widths 1 to 8, counted and listed in both editions.
from itertools import repeat

from calls import NEW, OLD, accepted
from counts import UNIT, fitting
from draws import drawn_sheet, lawful, numbered, rule_count, seeds, taken
from paper import top
from seen import Seen


ROOMS = (0, 1, 2, 3, 7, 256)


# In pieces of every size, and from every word where that is asked for.
def tried(seen, w, rules, each=True):
    for edition in (NEW, OLD):
        assert accepted(w, edition, rules)
        seen.count(w, rules)
        for room in ROOMS:
            seen.pieces(w, rules, 0, repeat(room) if room else [0])
        if each:
            for start in range(top(w) + 1):
                seen.pieces(w, rules, start, [2])


def all_rules():
    seen = Seen()
    for w in range(1, 6):
        for i in range(rule_count(w)):
            rule = numbered(i, w)
            if rule == taken(rule):
                tried(seen, w, [rule], each=w < 4)
    return seen


def drawn():
    seen = Seen()
    for s in seeds(200):
        w, rules = drawn_sheet(s)
        rules = [taken(rule) for rule in rules]
        assert all(lawful(w, rule) for rule in rules)
        tried(seen, w, rules)
    return seen


# Case 2, "many, 11, 14": right, without its last word, with the top word, with a word twice, with a word before the first, and with 2^32 more.
def known():
    seen = Seen()
    right = list(fitting(4, [(3, 0, 5, 3)]))
    for words, more in [
        ([11, 12, 13, 14], 0),
        ([11, 12, 13], 0),
        ([11, 12, 13, 14, 15], 0),
        ([11, 12, 12, 14], 0),
        ([10, 12, 13, 14], 0),
        ([11, 12, 13, 14], UNIT),
    ]:
        seen.counted(len(words) + more, len(words) + more == len(right))
        seen.listed(words, words == right)
    return seen


all_rules().lines("rules")
drawn().lines("drawn")
known().lines("known")
