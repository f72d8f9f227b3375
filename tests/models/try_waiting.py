# Foretells crates/try_waiting: what waits after steps back, against what the program expects.
from calls import NEW, OLD, add, back, forward, on, open_on, other
from draws import NO_FORM
from sheets import CASE2_RULE, accepted, added, gone_back, gone_forward, marked, opened, refused
from tally import Tally


# A call accepted, and the sheet that it leaves.
def leaves(tally, answer, sheet):
    tally.one(accepted(answer))
    tally.one(answer[1] == sheet)


def none_waits(tally, sheet):
    tally.one(refused(on(sheet, forward), 12, sheet))


# The stretch most recently taken back comes first, and each step gives the very sheet from before.
def in_turn(tally, none, both, last, two):
    none_waits(tally, none)
    none_waits(tally, two)
    leaves(tally, on(last, forward), two)
    leaves(tally, on(both, forward), last)
    leaves(tally, on(gone_forward(both), forward), two)
    tally.one(refused(on(gone_forward(last), forward), 12, two))


# "An accepted add, mark or open empties them."
def emptied(tally, waits):
    none_waits(tally, added(waits, CASE2_RULE))
    none_waits(tally, marked(waits))
    for edition in (OLD, NEW):
        none_waits(tally, open_on(waits, 4, edition)[1])


# What is refused does not.
def left(tally, waits, before):
    foreign = other(waits.edition)
    for rule in [(NO_FORM, 0, 0, 0), (1, 2, 0, 0), (1, 0, 16, 0)]:
        leaves(tally, on(added(waits, rule), forward), before)
    leaves(tally, on(on(waits, add, foreign, CASE2_RULE)[1], forward), before)
    leaves(tally, on(open_on(waits, 65, foreign)[1], forward), before)


def waiting():
    tally = Tally()
    for edition in (OLD, NEW):
        none = opened(4, edition)
        one = added(marked(none), CASE2_RULE)
        two = added(marked(one), (4, 0, 7, 0))
        last = gone_back(two)
        both = gone_back(last)
        in_turn(tally, none, both, last, two)
        emptied(tally, last)
        left(tally, last, two)
        left(tally, both, last)
        tally.one(refused(on(both, back), 8, both))
        leaves(tally, on(gone_back(both), forward), last)
    return tally


# Both stretches at once; nothing after a step back; something after an add.
def known():
    tally = Tally()
    two = marked(added(marked(opened(4)), CASE2_RULE))
    last = gone_back(two)
    tally.one(gone_forward(gone_back(last)) == two)
    none_waits(tally, last)
    tally.one(accepted(on(added(last, CASE2_RULE), forward)))
    return tally


waiting().line("waiting")
known().line("known")
