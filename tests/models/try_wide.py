# Foretells crates/try_wide: sheets of few rules at wide widths, in each edition that has the width.
import editions
from draws import FEW, corner, few_drawn, seeds, taken
from paper import FORMS, half, top

# Eight forms in two senses with two of six corners; every eleventh of them stands second in a pair.
CORNERS = 2 * FORMS * 6 * 6
STEP = 11


def cornered(w, i):
    return 1 + i % FORMS, i // FORMS % 2, corner(w, i // (2 * FORMS) % 6), corner(w, i // (12 * FORMS) % 6)


# The rules of some numbers, without those that a sheet refuses or that another number has.
def rules(w, numbers):
    some = [cornered(w, i) for i in numbers]
    return [rule for rule in some if rule == taken(rule)]


def alone(w):
    return [(w, [rule]) for rule in rules(w, range(CORNERS))]


def paired(w):
    seconds = rules(w, range(0, CORNERS, STEP))
    return [(w, [first, second]) for second in seconds for first in rules(w, range(CORNERS))]


# A rule that wants a bit, and five that forbid a fifth of the words each, round from a corner; a fifth may be a word short or long.
def tiled(w):
    n = 1 << w
    fifth = top(w) // 5
    for i in range(6 * 2 * 2 * 3**5):
        bit = 1 if i // 6 % 2 == 0 else half(w)
        sheet = [(7, 0, bit, 0 if i // 12 % 2 == 0 else bit)]
        start = corner(w, i % 6)
        lengths = i // 24
        for k in range(1, FEW):
            whole = fifth - 1 if k < 5 else top(w) - 4 * fifth
            sheet.append((3, 1, -start % n, (whole + lengths % 3 - 1) % n))
            start = (start + fifth) % n
            lengths //= 3
        yield w, sheet


# Of 32 widths from one on.
def drawn(first):
    for s in seeds(4000, first):
        w = first + s % 32
        yield w, few_drawn(s >> 8, w, 1 + (s >> 8) % FEW)


editions.lines("64 alone", alone(64))
editions.lines("64 paired", paired(64))
editions.lines("64 tiled", tiled(64))
editions.lines("32 alone", alone(32))
editions.lines("32 paired", paired(32))
editions.lines("32 tiled", tiled(32))
editions.lines("31 alone", alone(31))
editions.lines("31 paired", paired(31))
editions.lines("33 to 64 drawn", drawn(33))
editions.lines("1 to 32 drawn", drawn(1))
editions.known().line("known")
