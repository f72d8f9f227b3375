# What try_editions and try_wide count: sheets asked in each edition that has their width.
from calls import NEW, OLD, accepted
from paper import BITS, NONE, RULES, answer, buffer, top
from tally import Split, Tally


# Sheets by their verdicts; their links, those of bits, and the most of a sheet; and the sheets that fit 0, and the top word.
class Seen:
    def __init__(self):
        self.sheets = Split(3)
        self.links = self.bits = self.most = self.zeros = self.tops = 0

    def one(self, w, rules):
        (verdict, smallest, largest), links = answer(w, rules)
        self.sheets.one(verdict)
        self.links += len(links)
        self.bits += sum(reason == BITS for _, _, reason in links)
        self.most = max(self.most, len(links))
        self.zeros += verdict != 0 and smallest == 0
        self.tops += verdict != 0 and largest == top(w)

    def lines(self, name):
        self.sheets.verdicts(name)
        print(f"{name} {self.links} links, {self.bits} of bits, at most {self.most} a sheet; {self.zeros} from 0, {self.tops} to the top")


# The lines of some sheets: "an old answer read as a new one shows the same word", so what is seen of them in one edition is seen in both.
def lines(name, sheets):
    seen = Seen()
    old = 0
    for w, rules in sheets:
        assert accepted(w, NEW, rules)
        old += accepted(w, OLD, rules)
        seen.one(w, rules)
    seen.lines(name + " new")
    if old:
        assert old == seen.sheets.compared()
        seen.lines(name + " old")
        both = Tally()
        both.agreed(old)
        both.line(name + " in both")


# What is right of "x is 0" and "x is odd" at width 64, and in a number each wrong: the verdict, the smallest, the largest, how many links, a
# number of a link, and one after the links; and answers of two widths.
def known():
    tally = Tally()
    lent = 3 * (4 * RULES + 1)
    kept, links = answer(64, [(6, 0, 0, 0), (7, 0, 1, 1)])
    said = kept, len(links), buffer(links, lent)
    right = buffer([(0, 0, BITS), (1, top(64), 0)], lent)
    for wrong in [(0, 0, 0), (1, 0, 0), (0, 1, 0), (0, 0, 1)]:
        tally.one(said == (wrong, 2, right))
    tally.one(said == (NONE, 1, right))
    tally.one(said == (NONE, 2, right[:1] + [1] + right[2:]))
    tally.one(said == (NONE, 2, right[:-1] + [0]))
    tally.one(answer(32, []) == answer(33, []))
    return tally
