# Sheets, and records made of them that are none, or another, as crates/trial_calls has them.
from calls import other
from draws import WORD
from paper import MARKS, RULES
from sheets import CASE2_RULE, added, gone_back, marked, opened

OTHERS = ["width", "count", "marked", "given", "waiting", "verdict", "smallest", "largest"]


# The record with one of its numbers raised: four of each rule, one of each mark, and the others.
def raised(sheet, at, by):
    if at < 4 * RULES:
        rules = [list(rule) for rule in sheet.rules]
        rules[at // 4][at % 4] = rules[at // 4][at % 4] + by & WORD
        return sheet._replace(rules=tuple(map(tuple, rules)))
    at -= 4 * RULES
    if at < MARKS:
        marks = list(sheet.marks)
        marks[at] = marks[at] + by & WORD
        return sheet._replace(marks=tuple(marks))
    name = OTHERS[at - MARKS]
    return sheet._replace(**{name: getattr(sheet, name) + by & WORD})


NUMBERS = range(4 * RULES + MARKS + len(OTHERS))


# Two rules and a mark; and the same with two stretches that wait.
def stands(width, w_top, edition):
    return marked(added(added(opened(width, edition), CASE2_RULE), (4, 0, w_top // 2, 0)))


def waited(sheet, w_top):
    one = added(marked(sheet), (8, 1, w_top, w_top))
    return gone_back(gone_back(marked(one)))


def turned(sheet):
    return sheet._replace(edition=other(sheet.edition))


