# Foretells crates/try_order: which number is given where two refusals apply, against what the program expects.
from calls import NEW, OLD, add, ask_on, back, forward, mark, on, other
from draws import NO_FORM
from paper import NONE
from sheets import BLANK_SHEET, CASE2_RULE, added, all_marks, ask_refused, full, opened, refused
from tally import Tally


# No sheet keeps a verdict 3.
def hurt(sheet):
    return sheet._replace(verdict=3)


def adds(tally, sheet, edition, rule, number):
    tally.one(refused(on(sheet, add, edition, rule), number, sheet))


# 17 before 1.
def no_blank(tally, sheet):
    adds(tally, sheet, sheet.edition, CASE2_RULE, 17)
    for call in (mark, back, forward):
        tally.one(refused(on(sheet, call), 17, sheet))
    tally.one(ask_refused(sheet, 17))


# 1 before 11, 3, 4, 5, 8, 12 and 9: two numbers are too few for a chain of no rules.
def blank(tally, sheet):
    adds(tally, sheet, NEW, CASE2_RULE, 1)
    for rule in [(NO_FORM, 0, 0, 0), (7, 1, 0, 0), (4, 0, 0, 1)]:
        adds(tally, sheet, OLD, rule, 1)
    for call in (back, forward):
        tally.one(refused(on(sheet, call), 1, sheet))
    tally.one(ask_on(sheet, 2) == (1, NONE, []))


# 17 before 3, 4, 5, 11, 8, 12 and 9, and before 6 and 7.
def no_sheet(tally, sheet, one_rule, no_place, no_mark):
    for rule in [(NO_FORM, 0, 0, 0), (1, 2, 0, 0), (1, 0, 16, 0)]:
        adds(tally, sheet, sheet.edition, rule, 17)
    adds(tally, sheet, other(sheet.edition), CASE2_RULE, 17)
    for call in (back, forward):
        tally.one(refused(on(sheet, call), 17, sheet))
    tally.one(ask_refused(one_rule, 17))
    adds(tally, no_place, no_place.edition, CASE2_RULE, 17)
    tally.one(refused(on(no_mark, mark), 17, no_mark))


# 11 before 3, 4, 5 and 6, and by itself; 3 before 4 and 5; 4 before 5; and these three before 6.
def rules(tally, sheet, no_place):
    foreign = other(sheet.edition)
    for rule in [(NO_FORM, 0, 0, 0), (1, 2, 0, 0), (1, 0, 16, 0), (7, 0, 6, 1), CASE2_RULE]:
        adds(tally, sheet, foreign, rule, 11)
    adds(tally, no_place, foreign, CASE2_RULE, 11)
    for number, rule in [(3, (NO_FORM, 2, 0, 0)), (3, (0, 0, 16, 0)), (4, (7, 1, 16, 0)), (4, (7, 1, 6, 1))]:
        adds(tally, sheet, sheet.edition, rule, number)
    for number, rule in [(3, (NO_FORM, 0, 0, 0)), (4, (1, 2, 0, 0)), (5, (6, 0, 0, 1)), (5, (7, 0, 6, 1))]:
        adds(tally, no_place, sheet.edition, rule, number)


def order():
    tally = Tally()
    no_blank(tally, hurt(BLANK_SHEET))
    blank(tally, BLANK_SHEET)
    for edition in (OLD, NEW):
        sheet = opened(4, edition)
        no_place = full(edition)
        no_sheet(tally, hurt(sheet), hurt(added(sheet, CASE2_RULE)), hurt(no_place), hurt(all_marks(edition)))
        rules(tally, sheet, no_place)
    return tally


# 3 before 11, and 11 before 1.
def known():
    tally = Tally()
    adds(tally, opened(4), NEW, (NO_FORM, 0, 0, 0), 3)
    adds(tally, BLANK_SHEET, NEW, CASE2_RULE, 11)
    return tally


order().line("order")
known().line("known")
