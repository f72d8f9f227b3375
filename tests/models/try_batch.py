# Foretells crates/try_batch: the number and the place that the batch call answers, against those that the program expects.
from calls import NEW, OLD, batch
from draws import NO_FORM, WORD
from paper import RULES, buffer, top
from sheets import CASE2_RULE, parts
from tally import Tally

# One rule more than a sheet takes; and the numbers of a buffer for a full sheet.
MOST = RULES + 1
LENT = 3 * (4 * RULES + 1)

alike = [CASE2_RULE] * MOST


def with_rule(place, rule):
    return alike[:place] + [rule] + alike[place + 1 :]


# The number and the place; then the six numbers of the answer and those of the buffer, which the calls one by one give too.
def case(tally, width, edition, rules, number, place, lent=LENT):
    answer, at = batch(width, edition, rules, lent)
    tally.one(answer[0] == number)
    tally.one(at == place)
    tally.agreed(6 + LENT)


def widths():
    tally = Tally()
    for width, edition in [(0, OLD), (33, OLD), (65, OLD), (WORD, OLD), (0, NEW), (65, NEW), (WORD, NEW)]:
        for rules in (alike[:0], alike[:3], parts(32)):
            case(tally, width, edition, rules, 2, len(rules))
    return tally


# The top word of a width in the third rule: right there in the new edition, no width of the old, and too large one bit below.
def editions():
    tally = Tally()
    for width in range(33, 65):
        rules = with_rule(2, (1, 0, top(width), top(width)))[:3]
        case(tally, width, NEW, rules, 0, 3)
        case(tally, width, OLD, rules, 2, 3)
        case(tally, width - 1, NEW, rules, 5, 2)
    return tally


def rules():
    tally = Tally()
    wrong = [(3, (NO_FORM, 0, 0, 0)), (4, (7, 1, 0, 0)), (5, (1, 0, 16, 0)), (5, (6, 0, 0, 1))]
    wrong += [(5, (7, 0, 6, 1)), (5, (7, 0, 1, 2)), (5, (7, 0, 7, 8))]
    for edition in (OLD, NEW):
        for place in range(5):
            for number, rule in wrong:
                case(tally, 4, edition, with_rule(place, rule)[:5], number, place)
            case(tally, 4, edition, with_rule(place, (7, 0, 6, 6))[:5], 0, 5)
    return tally


# Lists of no rule, of one and of as many as a sheet takes, with enough lent and one number too few; and one rule too many.
def lengths():
    tally = Tally()
    for width, edition, rules in [(4, OLD, alike), (4, NEW, alike), (32, OLD, parts(32)), (32, NEW, parts(32)), (64, NEW, parts(64))]:
        for n in (0, 1, RULES):
            wanted = 3 * (4 * n + 1)
            case(tally, width, edition, rules[:n], 0, n, wanted)
            case(tally, width, edition, rules[:n], 9, n, wanted - 1)
        case(tally, width, edition, rules, 6, RULES)
    return tally


# Case 2's answer against wrong ones: refused with 9 at 0, "one", 12, 13 and a link, and a buffer of zeros.
def known():
    tally = Tally()
    for edition in (OLD, NEW):
        (number, kept, links), place = batch(4, edition, alike[:1], LENT)
        for mine, wrong in [(number, 9), (place, 0), (number, 9), *zip(kept, (1, 12, 13)), (len(links), 1), (place, 0)]:
            tally.one(mine == wrong)
        for mine in buffer(links, LENT):
            tally.one(mine == 0)
    return tally


widths().line("widths")
editions().line("editions")
rules().line("rules")
lengths().line("lengths")
known().line("known")
