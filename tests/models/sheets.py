# Sheets that the programs of calls make, as crates/trial_calls have them, and what they look at in an answer.
from calls import BLANK, OLD, add, ask_on, back, forward, mark, on, open_on, record
from draws import CASE2, CASES
from paper import MARKS, NONE, RULES, top

CASE2_RULE = CASES[CASE2][1][0]
BLANK_SHEET = record(BLANK)


def opened(width, edition=OLD):
    return open_on(BLANK_SHEET, width, edition)[1]


def added(sheet, rule):
    return on(sheet, add, sheet.edition, rule)[1]


def marked(sheet):
    return on(sheet, mark)[1]


def gone_back(sheet):
    return on(sheet, back)[1]


def gone_forward(sheet):
    return on(sheet, forward)[1]


# A sheet with one place free, one with none, and one on which no further mark may be set.
def all_but_one(edition):
    sheet = opened(4, edition)
    for _ in range(RULES - 1):
        sheet = added(sheet, CASE2_RULE)
    return sheet


def full(edition):
    return added(all_but_one(edition), CASE2_RULE)


def all_marks(edition):
    sheet = opened(4, edition)
    for _ in range(MARKS):
        sheet = marked(sheet)
    return sheet


def accepted(answer):
    return answer[0] == 0


# Refused with the number, and the sheet handed back as it was.
def refused(answer, number, was):
    return answer == (number, was)


# Asking is refused with the number where one number too few for one rule is lent.
def ask_refused(sheet, number):
    return ask_on(sheet, 14) == (number, NONE, [])


# One rule more than a sheet takes, of which each forbids one part of the words.
def parts(w):
    last = top(w) // RULES
    return [(3, 1, (i + 1) * (last + 1) & top(w), last) for i in range(RULES + 1)]
