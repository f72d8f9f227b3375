# Foretells crates/try_rules: single rules word by word, and the paper's sheets.
from draws import CASE2, CASES, lawful, negated, numbered, rule_count
from paper import meets, others, signed, stretches, top, words
from tally import Tally


# Each lawful rule with each word, at the widths 1 to 4. Form 7 has no run, and only a word that fails is in one.
def over_widths(look):
    tally = Tally()
    for w in range(1, 5):
        for i in range(rule_count(w)):
            rule = numbered(i, w)
            if lawful(w, rule):
                for x in range(1 << w):
                    look(tally, w, rule, x)
    return tally


# The sets of words that the models go by are those of the meaning.
def look_meets(tally, w, rule, x):
    tally.one(meets(w, rule, x) == (words(w, rule) >> x & 1 == 1))


def inside(stretches, x):
    return any(a <= x <= b for a, b in stretches)


# And so are the stretches, outside form 7.
def look_holds(tally, w, rule, x):
    if rule[0] != 7:
        tally.one(meets(w, rule, x) == inside(stretches(w, rule), x))


# The run around a word that fails, by a walk and as a stretch.
def run(w, rule, x):
    start = end = x
    while 0 < start and not meets(w, rule, start - 1):
        start -= 1
    while end < top(w) and not meets(w, rule, end + 1):
        end += 1
    return start, end


def look_runs(tally, w, rule, x):
    if rule[0] != 7 and not meets(w, rule, x):
        tally.one(run(w, rule, x) in others(w, stretches(w, rule)))


def fits(w, rules, x):
    return all(meets(w, rule, x) for rule in rules)


# The sheets of width 4 that have rules, and five answers: at width 32 case 3 negated has the top word and neither of those beside it, word 13
# reads as -3 at width 4, and at width 64 the sum of the top word and 1 is 0.
def paper():
    tally = Tally()
    for w, rules, fitting, _, _ in CASES[CASE2:-1]:
        for x in range(16):
            tally.one(fits(w, rules, x) == (fitting >> x & 1 == 1))
    for x, right in [(0xFFFFFFFE, False), (0xFFFFFFFF, True), (0, False)]:
        tally.one(meets(32, (1, 1, 0, 1), x) == right)
    tally.one(signed(4, 13) == -3)
    tally.one((top(64) + 1) % (1 << 64) == 0)
    return tally


# Wrong expectations: of a rule its negation's, or another rule's run; and of case 2's words one that is turned.
def known():
    tally = Tally()
    rule, other = (3, 0, 5, 3), (3, 0, 6, 3)
    tally.one(meets(4, rule, 0) == meets(4, negated(rule), 0))
    tally.one(inside(stretches(4, rule), 0) == meets(4, negated(rule), 0))
    for x in (0, 15):
        tally.one(run(4, rule, x) == run(4, other, x))
    w, rules, fitting, _, _ = CASES[CASE2]
    tally.one(fits(w, rules, 0) == ((fitting ^ 1) & 1 == 1))
    return tally


over_widths(look_meets).line("meets")
over_widths(look_holds).line("holds")
over_widths(look_runs).line("runs")
paper().line("paper")
known().line("known")
