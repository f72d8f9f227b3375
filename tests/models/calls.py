# The clerk's page, the calls on it, and what a record has to be. Written from the papers; nothing here is taken from crates/.
from collections import namedtuple
from functools import lru_cache

from gates import rules as four
from paper import FORMS, MARKS, NONE, RULES, answer, top

# The editions: `01` opens a sheet of the old one, `11` of the new (K7).
OLD, NEW = 0, 1
WIDEST = {OLD: 32, NEW: 64}

MARK = "mark"

# How it was opened; the lines that stand on it, rules and marks; and the pile of stretches that wait, the top one last, each of them the
# mark and the rules after it (K1).
Page = namedtuple("Page", "width edition stands pile")
BLANK = Page(0, OLD, (), ())


def other(edition):
    return NEW if edition == OLD else OLD


def in_force(page):
    return [line for line in page.stands if line != MARK]


def marks_in_force(page):
    return sum(line == MARK for line in page.stands)


# The number of the first row that applies, in the papers' order: "the lowest number is given", but 11 "right after 1".
def first(rows):
    for number, applies in rows:
        if applies():
            return number
    return 0


def blank(page):
    return page.width == 0


# Whether the numbers of a rule are refused: 3, 4 and 5, the last as K4 has it too.
def rule_rows(w, rule):
    form, sense, c1, c2 = rule
    return [
        (3, lambda: not 1 <= form <= FORMS),
        (4, lambda: sense > 1 or (sense == 1 and form == 7)),
        (5, lambda: c1 > top(w) or c2 > top(w) or (form in (4, 5, 6) and c2 != 0) or (form == 7 and c2 & ~c1 != 0)),
    ]


# ---- the calls: each answers its number, 0 where it is accepted, and the page after it; "a refusal answers its number ... the sheet as it was"


def opening(page, width, edition):
    # "A width outside 1 to 64 gets 2"
    if not 1 <= width <= WIDEST[edition]:
        return 2, page
    return 0, Page(width, edition, (), ())


def add(page, edition, rule):
    rows = [(1, lambda: blank(page)), (11, lambda: edition != page.edition)]
    rows += rule_rows(page.width, rule)
    rows += [(6, lambda: len(in_force(page)) >= RULES)]
    number = first(rows)
    if number:
        return number, page
    # "clears the pile at an accepted add, mark or open"
    return 0, page._replace(stands=page.stands + (rule,), pile=())


def mark(page):
    number = first([(1, lambda: blank(page)), (7, lambda: marks_in_force(page) >= MARKS)])
    if number:
        return number, page
    return 0, page._replace(stands=page.stands + (MARK,), pile=())


# "Going back strikes the newest mark and the rules added after it."
def back(page):
    number = first([(1, lambda: blank(page)), (8, lambda: marks_in_force(page) == 0)])
    if number:
        return number, page
    at = max(i for i, line in enumerate(page.stands) if line == MARK)
    return 0, page._replace(stands=page.stands[:at], pile=page.pile + (page.stands[at:],))


# "writes the top one back below what stands on the page at each accepted step forward"
def forward(page):
    number = first([(1, lambda: blank(page)), (12, lambda: not page.pile)])
    if number:
        return number, page
    return 0, page._replace(stands=page.stands + page.pile[-1], pile=page.pile[:-1])


# "In the order 17, 1, 13, 14, 6"; "On the clerk's page a gate counts as its four rules, and as an accepted add it empties what waits."
def set_gate(page, kind, *limits):
    found = four(kind, limits)
    rows = [(1, lambda: blank(page)), (13, lambda: page.width != 32), (14, lambda: found is None), (6, lambda: RULES - len(in_force(page)) < 4)]
    number = first(rows)
    if number:
        return number, page
    for c1, c2 in found:
        number, page = add(page, page.edition, (3, 0, c1, c2))
    return number, page


@lru_cache(1 << 12)
def said(width, rules):
    return answer(width, list(rules))


# The number, what is kept, and the links. "A refusal answers its number, with zeros in the answer's other places".
def ask(page, lent):
    number = first([(1, lambda: blank(page)), (9, lambda: lent < 3 * (4 * len(in_force(page)) + 1))])
    if number:
        return number, NONE, []
    return (0, *said(page.width, tuple(in_force(page))))


# "It answers as opening a sheet, adding each rule in order and asking would, stops at the first refusal, and says beside that answer at which
# rule (for 2, for 9 and where nothing is refused: the list's length)."
def batch(width, edition, rules, lent):
    number, page = opening(BLANK, width, edition)
    if number:
        return (number, NONE, []), len(rules)
    for place, rule in enumerate(rules):
        number, page = add(page, edition, rule)
        if number:
            return (number, NONE, []), place
    return ask(page, lent), len(rules)


# Whether opening and adding each rule in order are all accepted, without a page for each: what the rows above come to.
def accepted(width, edition, rules):
    number, _ = opening(BLANK, width, edition)
    return number == 0 and len(rules) <= RULES and not any(first(rule_rows(width, rule)) for rule in rules)


# ---- records

# How a page stands in a record: the rules in force and then those that wait, each mark as the number of rules before it, and how many of
# each are in force and were given. "Places not in use hold zeros."
Record = namedtuple("Record", "width edition rules count marks marked verdict smallest largest given waiting")

NO_RULE = (0, 0, 0, 0)


@lru_cache(1 << 12)
def record(page):
    lines = list(page.stands)
    for stretch in reversed(page.pile):
        lines += stretch
    rules = [line for line in lines if line != MARK]
    marks = []
    before = 0
    for line in lines:
        if line == MARK:
            marks.append(before)
        else:
            before += 1
    kept = NONE if blank(page) else said(page.width, tuple(in_force(page)))[0]
    return Record(
        page.width,
        page.edition,
        tuple(rules + [NO_RULE] * (RULES - len(rules))),
        len(in_force(page)),
        tuple(marks + [0] * (MARKS - len(marks))),
        marks_in_force(page),
        *kept,
        len(rules),
        len(page.pile),
    )


# The page that some lines give, opened afresh, and taken back so many times; or None where a call is refused.
def fresh(width, edition, lines, times):
    number, page = opening(BLANK, width, edition)
    calls = [(mark,) if line == MARK else (add, edition, line) for line in lines]
    for call, *numbers in calls + [(back,)] * times:
        if number:
            return None
        number, page = call(page, *numbers)
    return None if number else page


# The page is the one that a fresh sheet comes to, given what stands on it and what waits, and taken back once for each stretch that waits.
def is_fresh(page):
    if page.width == 0:
        return page == BLANK
    lines = page.stands + sum(reversed(page.pile), ())
    return fresh(page.width, page.edition, lines, len(page.pile)) == page


# "A record is a sheet when some page of accepted calls gives it": the page that the record's own lines give, or None where there is none, or
# its record is another.
@lru_cache(1 << 12)
def page_of(some):
    if some == record(BLANK):
        return BLANK
    marks = some.marked + some.waiting
    if some.given > RULES or marks > MARKS:
        return None
    lines = list(some.rules[: some.given])
    for before in sorted(some.marks[:marks], reverse=True):
        lines.insert(before, MARK)
    page = fresh(some.width, some.edition, lines, some.waiting)
    return page if page and record(page) == some else None


# A call on a record, and the number and the record after it. "Number 17 comes before all others".
def on(some, call, *numbers):
    page = page_of(some)
    if page is None:
        return 17, some
    number, page = call(page, *numbers)
    return number, record(page) if number == 0 else some


# "Opening doesn't read the old record." "A refused opening keeps the old sheet; an accepted one discards it."
def open_on(some, width, edition):
    number, page = opening(BLANK, width, edition)
    return number, record(page) if number == 0 else some


def ask_on(some, lent):
    page = page_of(some)
    return (17, NONE, []) if page is None else ask(page, lent)
