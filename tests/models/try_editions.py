# Foretells crates/try_editions: drawn sheets of the widths 1 to 8 in both editions, and two ways to answer.
import editions
from draws import FEW, drawn_sheet, few_drawn, lawful, seeds, taken
from paper import searched, stretched
from tally import Tally


def drawn():
    for s in seeds(2000):
        w, rules = drawn_sheet(s)
        yield w, [taken(rule) for rule in rules]


# Sheets of up to six rules, word by word and from stretch to stretch.
def ways():
    tally = Tally()
    for s in seeds(8000):
        w = 1 + s % 8
        rules = few_drawn(s >> 8, w, 1 + (s >> 8) % FEW)
        if all(lawful(w, rule) for rule in rules):
            tally.one(searched(w, rules) == stretched(w, rules))
    return tally


editions.lines("drawn", drawn())
ways().line("ways")
editions.known().line("known")
