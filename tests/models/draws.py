# The inputs that the programs share, as crates/trial_* draw or number them: these are no claims, and are read off the programs.
from paper import FORMS, RULES, meets, top

WORD = (1 << 64) - 1

# crates/trial_direct: draw
SPREAD = 0x9E3779B97F4A7C15


def after(s):
    s ^= s << 13 & WORD
    s ^= s >> 7
    return s ^ s << 17 & WORD


# The seeds of so many drawn sheets.
def seeds(count, seed=0):
    for _ in range(count):
        seed = seed + SPREAD & WORD
        yield after(after(seed))


# crates/trial_direct: rules
def rule_count(w):
    return 2 * FORMS << 2 * w


def numbered(i, w):
    n = 1 << w
    i, form = divmod(i, FORMS)
    i, sense = divmod(i, 2)
    return 1 + form, sense, i % n, i // n % n


# The least number past the forms.
NO_FORM = FORMS + 1


def negated(rule):
    form, sense, c1, c2 = rule
    return form, sense ^ 1, c1, c2


# The rule without the constant that it does not use: "Forms 4, 5 and 6 use c1 only".
def used(rule):
    form, sense, c1, c2 = rule
    return (form, sense, c1, 0) if form in (4, 5, 6) else rule


# What the leaves take: constants that are words, and form 7 as written.
def lawful(w, rule):
    form, sense, c1, c2 = rule
    return c1 <= top(w) and c2 <= top(w) and (form != 7 or sense == 0)


# crates/trial_sheets: drawn
def drawn_count(s):
    return (s >> 8) % (RULES + 1 if s & 1 == 0 else 8)


def drawn_rules(seed, n, w):
    x = (seed >> 32) % (1 << w)
    rules = []
    s = seed
    for _ in range(n):
        s = after(s)
        rules.append(drawn_rule(s, w, x))
    return rules


def drawn_rule(s, w, x):
    form = 1 + s % FORMS
    c1 = (s >> 8) % (1 << w)
    c2 = (s >> 20) % (1 << w)
    free = s >> 60 == 0
    if form == 7:
        mask = c1 & c2
        return form, 0, mask, mask & (x ^ 1 if free else x)
    rule = form, s >> 40 & 1, c1, c2
    if free or meets(w, rule, x):
        return rule
    return negated(rule)


# The width and the rules of a drawn sheet, as try_chains, try_checker and try_editions have it.
def drawn_sheet(s):
    w = 1 + s % 8
    return w, drawn_rules(s, drawn_count(s >> 8), w)


# crates/trial_wide: sheets, the most rules of a sheet that it draws
FEW = 6


# The rule, changed where a sheet would refuse it.
def taken(rule):
    form, _, c1, c2 = rule
    return (form, 0, c1, c1 & c2) if form == 7 else used(rule)


def corner(w, i):
    half = 1 << (w - 1)
    return [0, 1, half - 1, half, top(w) - 1, top(w)][i]


def few_drawn(seed, w, n):
    rules = []
    s = seed
    for _ in range(n):
        s = after(s)
        rules.append(taken((1 + s % FORMS, s >> 4 & 1, few_word(w, s >> 8), few_word(w, s >> 32))))
    return rules


def few_word(w, s):
    if s & 3 == 0:
        return after(after(s)) & top(w)
    return corner(w, (s >> 2) % 6)


# crates/trial_direct: cases. The paper's sheets worked by hand, in the programs' order, with what the paper says of each: the width, the
# rules, the fitting words of width 4, what is kept, and the links. In the place of case 9, a refusal since K4, stand two rules of form 7 that
# contradict each other; case 12 is as K2 has it. Case 3 negated at width 32 stands last.
CASES = [
    (1, [], 0b11, (2, 0, 1), []),
    (4, [], 0xFFFF, (2, 0, 15), []),
    (4, [(3, 0, 5, 3)], 0x7800, (2, 11, 14), []),
    (4, [(1, 0, 0, 1)], 0x7FFF, (2, 0, 14), []),
    (4, [(1, 1, 0, 1)], 0x8000, (1, 15, 15), []),
    (4, [(1, 0, 0, 0)], 0xFFFF, (2, 0, 15), []),
    (4, [(3, 0, 0, 15)], 0xFFFF, (2, 0, 15), []),
    (4, [(4, 0, 3, 0), (5, 0, 13, 0)], 0xE00F, (2, 0, 15), []),
    (4, [(3, 0, 5, 3), (7, 0, 3, 3)], 0x0800, (1, 11, 11), []),
    (4, [(3, 0, 5, 3), (7, 0, 12, 4)], 0, (0, 0, 0), [(0, 10, 0), (11, 15, 255)]),
    (4, [(7, 0, 1, 1), (7, 0, 1, 0)], 0, (0, 0, 0), [(0, 15, 255)]),
    (4, [(6, 0, 9, 0), (6, 1, 9, 0)], 0, (0, 0, 0), [(0, 8, 0), (9, 9, 1), (10, 15, 0)]),
    (4, [(3, 0, 0, 2), (3, 0, 0, 2), (2, 0, 3, 0)], 0, (0, 0, 0), [(0, 2, 2), (3, 15, 0)]),
    (4, [(8, 0, 14, 3)], 0x003E, (2, 1, 5), []),
    (32, [(1, 1, 0, 1)], 0, (1, 0xFFFFFFFF, 0xFFFFFFFF), []),
]
CASE2 = 2
CASE8 = 9
