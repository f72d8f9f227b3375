# Foretells crates/try_pages: which calls of drawn sequences are accepted.
from calls import BLANK, MARK, NEW, OLD, Page, add, in_force, is_fresh, mark, marks_in_force, opening, record
from drawn_calls import drawn, drawn_rule, further
from draws import after
from paper import MARKS, RULES
from sheets import CASE2_RULE
from tally import Split, Tally


# So many drawn calls.
def called(split, seed, page, count):
    for _ in range(count):
        call, *numbers = drawn(seed, page)
        number, page = call(page, *numbers)
        split.one(0 if number == 0 else 1, is_fresh(page))
        seed = further(seed)


def long():
    split = Split(2)
    for i in range(30):
        called(split, after(i + 1), BLANK, 200)
    return split


# Four rules and two marks fewer than a sheet takes, with each mark before one of the last rules.
GIVEN = RULES - 4
MARKED = MARKS - 2


def full():
    split = Split(2)
    for i in range(10):
        for seed, width, edition in [(i + 1, i + 1, OLD), (i + 11, i + 1, NEW), (i + 21, 64 - i, NEW)]:
            called(split, *filled(further(seed), width, edition), 30)
    return split


def filled(seed, width, edition):
    _, page = opening(BLANK, width, edition)
    for _ in range(2 * RULES + MARKS):
        count, marked = len(in_force(page)), marks_in_force(page)
        if count < GIVEN:
            if marked < MARKED and GIVEN - MARKED + marked == count:
                _, page = mark(page)
            else:
                _, page = add(page, edition, drawn_rule(seed, further(seed), width))
            seed = further(seed)
    return seed, page


# Sheets against wrong pages: without an add, without a mark and a step back, and of the other edition.
def known():
    tally = Tally()
    page = Page(4, OLD, (), ())
    for other_page in [page._replace(stands=(CASE2_RULE,)), page._replace(pile=((MARK,),)), page._replace(edition=NEW)]:
        tally.one(record(other_page) == record(page))
    return tally


long().calls("long")
full().calls("full")
known().line("known")
