# Foretells crates/try_chains: how many sheets come to none, one and many.
from calls import OLD, accepted
from draws import CASE8, CASES, drawn_sheet, numbered, rule_count, seeds, used
from paper import RULES, answer, buffer
from tally import Split, Tally

# The numbers of a full sheet's buffer.
LENT = 3 * (4 * RULES + 1)


# A sheet whose rules are accepted, with c2 taken away where a form does not use it.
def sheet(split, w, rules):
    rules = [used(rule) for rule in rules]
    if accepted(w, OLD, rules):
        (verdict, _, _), links = answer(w, rules)
        assert len(links) <= 4 * len(rules) + 1
        split.one(verdict)


# Every rule by itself at the widths 1 to 4.
def single():
    split = Split(3)
    for w in range(1, 5):
        for i in range(rule_count(w)):
            sheet(split, w, [numbered(i, w)])
    return split


# Every two rules at the widths 1 and 2.
def pairs():
    split = Split(3)
    for w in range(1, 3):
        rules = [numbered(i, w) for i in range(rule_count(w))]
        for second in rules:
            for first in rules:
                sheet(split, w, [first, second])
    return split


def drawn():
    split = Split(3)
    for s in seeds(20000):
        sheet(split, *drawn_sheet(s))
    return split


# The paper's answers against the model's.
def paper():
    split = Split(3)
    for w, rules, _, kept, links in CASES:
        split.one(kept[0], answer(w, rules) == (kept, links))
    return split


# Case 8 with wrong expectations: the verdict, the smallest, the largest, the number of links, a number of a link, and one after the links.
def known():
    tally = Tally()
    w, rules, _, kept, links = CASES[CASE8]
    said, written = answer(w, rules)
    for k in range(3):
        tally.one(said == turned(kept, k))
    tally.one(len(written) == len(links) ^ 1)
    tally.one(buffer(written, LENT) == turned(buffer(links, LENT), 1))
    tally.one(buffer(written, LENT) == buffer(links, LENT - 1) + [0])
    return tally


def turned(numbers, k):
    return numbers[:k] + type(numbers)([numbers[k] ^ 1]) + numbers[k + 1 :]


single().verdicts("single")
pairs().verdicts("pair")
drawn().verdicts("drawn")
paper().verdicts("paper")
known().line("known")
