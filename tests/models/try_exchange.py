# Foretells crates/try_exchange: the paper's exchange as calls, against what the paper says of cases 2 and 8.
from calls import NEW, OLD, add, ask_on, back, mark, on, open_on
from draws import CASE2, CASE8, CASES
from paper import UNTOUCHED, buffer
from sheets import BLANK_SHEET, CASE2_RULE, accepted, added, gone_back, marked, opened, refused
from tally import Tally

CASE8_RULE = CASES[CASE8][1][1]

# What asking wants of two rules.
LENT = 3 * (4 * 2 + 1)


# What is said and how many links there are; and for "none" each number of the links, and those after them as one.
def asked(tally, sheet, case):
    _, _, _, kept, links = CASES[case]
    number, said, written = ask_on(sheet, LENT)
    tally.one((number, said, len(written)) == (0, kept, len(links)))
    if links:
        same_links(tally, buffer(written, LENT), links)
        tally.one(untouched(buffer(written, LENT), 3 * len(links)))


def same_links(tally, numbers, links):
    for mine, right in zip(numbers, buffer(links, 3 * len(links))):
        tally.one(mine == right)


def untouched(numbers, start):
    return all(number is UNTOUCHED for number in numbers[start:])


def exchange():
    tally = Tally()
    for edition in (OLD, NEW):
        none = opened(4, edition)
        sheet = added(none, CASE2_RULE)
        two = added(marked(sheet), CASE8_RULE)
        after = gone_back(two)
        tally.one(accepted(open_on(BLANK_SHEET, 4, edition)))
        tally.one(accepted(on(none, add, edition, CASE2_RULE)))
        asked(tally, sheet, CASE2)
        tally.one(accepted(on(sheet, mark)))
        tally.one(accepted(on(marked(sheet), add, edition, CASE8_RULE)))
        asked(tally, two, CASE8)
        tally.one(accepted(on(two, back)))
        tally.one(refused(on(after, back), 8, after))
        asked(tally, after, CASE2)
    return tally


# Case 2 answered as case 3; a buffer that no link of case 8 was written to; and a buffer of which the last number was written to.
def known():
    tally = Tally()
    asked(tally, added(opened(4), CASE2_RULE), CASE2 + 1)
    same_links(tally, buffer([], LENT), CASES[CASE8][4])
    tally.one(untouched([0] * LENT, LENT - 1))
    return tally


exchange().line("exchange")
known().line("known")
