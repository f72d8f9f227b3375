# Foretells crates/try_records: records that are no sheet, and some that are.
from calls import NEW, OLD, add, back, forward, mark, on, other, page_of
from paper import RULES, top
from records import NUMBERS, raised, stands, turned, waited
from sheets import BLANK_SHEET, accepted, ask_refused, opened, refused
from tally import Tally

TOP = top(63)


# What is_sheet and each call but an opening say of a record that is no sheet.
def looks(tally, sheet):
    tally.one(page_of(sheet) is None)
    tally.one(refused(on(sheet, add, sheet.edition, (3, 0, 0, 1)), 17, sheet))
    for call in (mark, back, forward):
        tally.one(refused(on(sheet, call), 17, sheet))
    tally.one(ask_refused(sheet, 17))


def damaged():
    tally = Tally()
    sheets = [BLANK_SHEET]
    for width, edition in [(4, OLD), (4, NEW), (63, NEW)]:
        sheet = stands(width, top(width), edition)
        sheets += [sheet, waited(sheet, top(width))]
    for sheet in sheets:
        for at in NUMBERS:
            for by in (1, RULES, 0x100000000):
                looks(tally, raised(sheet, at, by))
    return tally


# A record that is a sheet: the one that calls give, with the adds of its edition.
def same_page(tally, sheet, wanted):
    more = (3, 0, 0, 1)
    tally.one(page_of(sheet) is not None)
    tally.one(sheet == wanted)
    tally.one(accepted(on(sheet, add, wanted.edition, more)))
    tally.one(refused(on(sheet, add, other(wanted.edition), more), 11, sheet))


# Records with the other edition.
def editions():
    tally = Tally()
    wide = stands(63, TOP, NEW)
    for sheet in [BLANK_SHEET, wide, waited(wide, TOP), opened(33, NEW), opened(64, NEW)]:
        looks(tally, turned(sheet))
    for edition in (OLD, NEW):
        sheet, start = stands(4, 15, edition), stands(4, 15, other(edition))
        same_page(tally, turned(start), sheet)
        same_page(tally, turned(waited(start, 15)), waited(sheet, 15))
        for width in (1, 32):
            same_page(tally, turned(opened(width, other(edition))), opened(width, edition))
    return tally


# A sheet against itself with the other edition, and with each number raised.
def known():
    tally = Tally()
    sheet = opened(4)
    tally.one(sheet == turned(sheet))
    for at in NUMBERS:
        tally.one(sheet == raised(sheet, at, 1))
    return tally


damaged().line("damaged")
editions().line("edition")
known().line("known")
