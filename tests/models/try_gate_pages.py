# Foretells crates/try_gate_pages: drawn gates on words, and sequences of calls with gates among them.
from calls import BLANK, MARK, NEW, OLD, Page, add, is_fresh, mark, opening, record, said, set_gate
from drawn_calls import drawn, drawn_rule, further
from draws import SPREAD, after
from gates import HALF, WHOLE, rules, value
from tally import Split, Tally

# ---- the draws, as the program has them

KINDS = ["least", "most", "within"]


# A gate, as its kind and the limits that the kind has; and both patterns.
def limits(seed):
    more = after(seed)
    low, high = pattern(seed // 8), pattern(more // 8)
    if seed % 8 != 0:
        low |= HALF
    if more % 8 != 0:
        high %= HALF
    kind = KINDS[(seed >> 48) % 3]
    return (kind, *{"least": [low], "most": [high], "within": [low, high]}[kind]), low, high


def pattern(seed):
    some = seed // 16 % WHOLE
    sign = some & HALF
    return [some | 0x7F800000, sign | 0x7F800000, sign, sign | some & 0x7FFFFF][seed % 16] if seed % 16 < 4 else some


# A limit with either sign or a neighbour, or a drawn word.
def word(low, high, seed, k):
    if k < 12:
        return ([low, high, low ^ HALF, high ^ HALF][k % 4] + k // 4 - 1) % WHOLE
    return after(after(seed ^ k)) >> 32


# A call and its numbers, for a page.
def drawn_or_gate(seed, page):
    more = after(seed)
    kind = (seed >> 32) % 128
    if kind == 0 if page.width == 32 else kind < 16:
        return opening, 30 + more // 8 % 4 if more % 8 == 0 else 32, OLD if more // 0x10000 % 2 == 0 else NEW
    if (seed >> 40) % 16 < (1 if page.pile else 6):
        return set_gate, *limits(more)[0]
    return drawn(seed, page)


# ---- drawn gates

WORDS = 24


# "at least a limit, at most a limit, or within a span, ends included"; "a reading that is not a number meets none"
def fits(kind, patterns, x):
    v = value(x)
    if v is None:
        return False
    return (kind == "most" or value(patterns[0]) <= v) and (kind == "least" or v <= value(patterns[-1]))


def gates():
    turned, fit, unfit, asked = Tally(), Tally(), Tally(), Tally()
    seed = SPREAD
    for _ in range(1000):
        seed = further(seed)
        (kind, *patterns), low, high = limits(seed)
        number = all(value(p) is not None for p in patterns)
        four = rules(kind, patterns)
        turned.one((four is not None) == number)
        if not number:
            continue
        for k in range(WORDS):
            x = word(low, high, seed, k)
            fitting = fits(kind, patterns, x)
            held = all((c1 + x) % WHOLE <= c2 for c1, c2 in four)
            (fit if fitting else unfit).one(held == fitting)
        x = word(low, high, seed, seed // 0x1000 % WORDS)
        kept, _ = said(32, (*((3, 0, c1, c2) for c1, c2 in four), (6, 0, x, 0)))
        asked.one(kept == ((1, x, x) if fits(kind, patterns, x) else (0, 0, 0)))
    turned.line("drawn")
    fit.line("fit")
    unfit.line("unfit")
    asked.line("asked")


# ---- sequences


class Counts:
    def __init__(self):
        self.gates = {number: Tally() for number in (0, 1, 13, 14, 6)}
        self.others = Split(2)

    def called(self, page, call, *numbers):
        number, page = call(page, *numbers)
        if call is set_gate:
            self.gates[number].one(is_fresh(page))
        else:
            self.others.one(0 if number == 0 else 1, is_fresh(page))
        return page

    def lines(self):
        for said_as, number in [("accepted", 0), ("blank", 1), ("width", 13), ("limit", 14), ("room", 6)]:
            self.gates[number].line(said_as)
        self.others.calls("others")


def called(counts, seed, page, count):
    for _ in range(count):
        page = counts.called(page, *drawn_or_gate(seed, page))
        seed = further(seed)


def long(counts):
    for i in range(20):
        called(counts, after(after(i + 1)), BLANK, 100)


def full(counts):
    for i in range(4):
        called(counts, *filled(counts, after(after(i + 1)), Page(32, [OLD, NEW][i % 2], (), ())), 20)


# Of eight calls six are gates, one is an add and the last a mark.
def filled(counts, seed, page):
    for i in range(72):
        more = after(seed)
        if i % 8 == 3:
            page = counts.called(page, add, page.edition, drawn_rule(more, after(more), page.width))
        elif i % 8 == 7:
            page = counts.called(page, mark)
        else:
            page = counts.called(page, set_gate, *limits(more)[0])
        seed = further(seed)
    return seed, page


# ---- wrong expectations


def known():
    tally = Tally()
    page = Page(32, OLD, (), ())
    one = 0x3F800000
    four = tuple((3, 0, c1, c2) for c1, c2 in rules("least", [one]))
    # Without the gate, without its last rule, and with what waits kept.
    for start, wrong in [(page, page), (page, page._replace(stands=four[:3])), (page._replace(pile=((MARK,),)), Page(32, OLD, four, ((MARK,),)))]:
        number, left = set_gate(start, "least", one)
        tally.one(number == 0 and record(left) == record(wrong))
    narrow = page._replace(width=31)
    tally.one(set_gate(narrow, "least", 0x7FC00000) == (14, narrow))
    tally.one(fits("least", [one], 0x40000000) == fits("most", [one], 0x40000000))
    tally.line("known")


gates()
counts = Counts()
long(counts)
full(counts)
counts.lines()
known()
