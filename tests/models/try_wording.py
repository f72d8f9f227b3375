# Foretells crates/try_wording: every rule that a sheet accepts at the widths 1 to 4, written by docs/VET.md and read again by written.py.
import written
from draws import numbered, rule_count
from tally import Tally


# "Form 7 with a bit in c2 that c1 lacks", "sense 1 with form 7" and "c2 not zero in forms 4, 5, 6" are refused.
def accepted(rule):
    form, sense, c1, c2 = rule
    if form == 7:
        return sense == 0 and c2 & ~c1 == 0
    return c2 == 0 or form not in (4, 5, 6)


def main():
    back, known = Tally(), Tally()
    for w in range(1, 5):
        for i in range(rule_count(w)):
            rule = numbered(i, w)
            if accepted(rule):
                form, sense, c1, c2 = rule
                read = written.read(written.text(w, rule).encode(), w)
                back.one(read == ([1, *rule], (0, 0)))
                known.one(read == ([1, form, sense ^ 1, c1, c2], (0, 0)))
    back.line("back")
    known.line("known")


main()
