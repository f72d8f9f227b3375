# Foretells crates/try_counts_refused: the blank sheet, starts above the top word, and records that are no sheet.
from calls import NEW, OLD, blank, first, in_force, page_of
from counts import how_many, listing
from draws import WORD
from paper import RULES, top
from records import NUMBERS, raised, stands, turned, waited
from sheets import BLANK_SHEET, opened
from tally import Tally

# "Both refuse 17 and 1 as asking does; a start above the top word gets 5; a refused listing touches no buffer."


def count_on(sheet):
    page = page_of(sheet)
    number = 17 if page is None else first([(1, lambda: blank(page))])
    return number, 0 if number else how_many(page.width, in_force(page))


def list_on(sheet, start, room):
    page = page_of(sheet)
    number = 17 if page is None else first([(1, lambda: blank(page)), (5, lambda: start > top(page.width))])
    return number, [] if number else listing(page.width, in_force(page), start, room)


def count_refused(sheet, number):
    return count_on(sheet) == (number, 0)


def list_refused(sheet, start, room, number):
    return list_on(sheet, start, room) == (number, [])


ROOMS = (0, 1, 7)


def starts(tally, sheet, some, number):
    for start in some:
        for room in ROOMS:
            tally.one(list_refused(sheet, start, room, number))


def on_blank():
    tally = Tally()
    tally.one(count_refused(BLANK_SHEET, 1))
    starts(tally, BLANK_SHEET, [0, 1, WORD], 1)
    return tally


def above():
    tally = Tally()
    for edition, widest in [(NEW, 63), (OLD, 32)]:
        for w in range(1, widest + 1):
            sheet = opened(w, edition)
            starts(tally, sheet, [top(w) + 1, top(w) + 1 + top(w) // 2, WORD], 5)
            for room in ROOMS:
                tally.one(list_on(sheet, top(w), room) == (0, [top(w)][:room]))
    return tally


def no_sheets():
    tally = Tally()
    sheets = [BLANK_SHEET]
    for width, edition in [(4, OLD), (4, NEW), (63, NEW)]:
        sheet = stands(width, top(width), edition)
        sheets += [sheet, waited(sheet, top(width))]
    records = [raised(sheet, at, by) for sheet in sheets for at in NUMBERS for by in (1, RULES, 0x100000000)]
    records += [turned(sheet) for sheet in [BLANK_SHEET, *sheets[-2:], opened(33, NEW), opened(64, NEW)]]
    for sheet in records:
        tally.one(count_refused(sheet, 17))
        starts(tally, sheet, [0, WORD], 17)
    return tally


# A free sheet is not refused, the blank one with 1, a start above the top word with 5, and 14 is not the last word.
def known():
    tally = Tally()
    sheet = opened(4)
    tally.one(count_refused(sheet, 1))
    tally.one(count_refused(BLANK_SHEET, 17))
    tally.one(list_refused(sheet, 15, 0, 5))
    tally.one(list_refused(sheet, 16, 1, 1))
    tally.one(list_refused(BLANK_SHEET, 16, 1, 5))
    tally.one(list_on(sheet, 14, 7) == (0, [14]))
    return tally


on_blank().line("blank")
above().line("above")
no_sheets().line("no sheet")
known().line("known")
