# Foretells crates/try_calls: case 13 and the refusals of marks, of steps and of the blank sheet, against what the program expects.
from calls import NEW, OLD, add, ask_on, back, forward, mark, on, open_on
from draws import NO_FORM
from paper import MARKS
from sheets import BLANK_SHEET, CASE2_RULE, accepted, added, all_but_one, all_marks, ask_refused, gone_back, gone_forward, marked, opened, refused
from tally import Tally


def adds(sheet, rule):
    return on(sheet, add, sheet.edition, rule)


# The widths that no edition has, and those that the new one has alone.
def widths(tally, sheet):
    for width, edition in [(0, OLD), (33, OLD), (0, NEW), (65, NEW)]:
        tally.one(refused(open_on(sheet, width, edition), 2, sheet))
    for width in range(33, 65):
        tally.one(accepted(open_on(sheet, width, NEW)))


def on_blank(tally, blank):
    tally.one(refused(on(blank, add, OLD, CASE2_RULE), 1, blank))
    for call in (mark, back, forward):
        tally.one(refused(on(blank, call), 1, blank))
    tally.one(ask_refused(blank, 1))


# Case 13, and the bits of form 7 outside its mask (K4).
def rules(tally, sheet):
    for number, rule in [(3, (NO_FORM, 0, 0, 0)), (5, (1, 0, 16, 0)), (5, (1, 0, 0, 16)), (5, (7, 0, 6, 1)), (5, (7, 0, 1, 2)), (5, (7, 0, 7, 8))]:
        tally.one(refused(adds(sheet, rule), number, sheet))
    for rule in [(1, 0, 15, 0), (1, 0, 0, 15), (7, 0, 6, 6)]:
        tally.one(accepted(adds(sheet, rule)))


# The last rule stands after a mark.
def one_too_many(tally, edition):
    sheet = marked(all_but_one(edition))
    full = added(sheet, CASE2_RULE)
    struck = gone_back(full)
    tally.one(accepted(adds(sheet, CASE2_RULE)))
    tally.one(refused(adds(full, CASE2_RULE), 6, full))
    tally.one(accepted(on(full, back)))
    tally.one(accepted(adds(struck, CASE2_RULE)))
    tally.one(refused(adds(gone_forward(struck), CASE2_RULE), 6, full))


# "One rule with 14 numbers lent: 9; with 15, answered."
def asking(tally, sheet):
    one = added(sheet, CASE2_RULE)
    tally.one(ask_refused(one, 9))
    tally.one(ask_on(one, 15) == (0, (2, 11, 14), []))


# As many marks as a sheet takes, and one more; as many steps back; and as many forward.
def marks(tally, edition):
    sheet = opened(4, edition)
    for _ in range(MARKS):
        tally.one(accepted(on(sheet, mark)))
        sheet = marked(sheet)
    full = all_marks(edition)
    tally.one(refused(on(full, mark), 7, full))
    sheet = full
    for _ in range(MARKS):
        tally.one(accepted(on(sheet, back)))
        sheet = gone_back(sheet)
    tally.one(refused(on(sheet, back), 8, sheet))
    for _ in range(MARKS):
        tally.one(accepted(on(sheet, forward)))
        sheet = gone_forward(sheet)
    tally.one(refused(on(sheet, forward), 12, full))


def case13():
    tally = Tally()
    widths(tally, BLANK_SHEET)
    on_blank(tally, BLANK_SHEET)
    for edition in (OLD, NEW):
        sheet = opened(4, edition)
        widths(tally, sheet)
        rules(tally, sheet)
        one_too_many(tally, edition)
        asking(tally, sheet)
        marks(tally, edition)
    return tally


def known():
    tally = Tally()
    sheet = opened(4)
    more = added(sheet, CASE2_RULE)
    tally.one(refused(on(sheet, back), 7, sheet))
    tally.one(refused(on(sheet, back), 8, more))
    tally.one(ask_refused(more, 6))
    tally.one(accepted(on(sheet, back)))
    tally.one(refused(open_on(sheet, 65, NEW), 2, opened(4, NEW)))
    return tally


case13().line("case13")
known().line("known")
