# Foretells crates/try_gating: gates set on sheets, against what the program expects.
import struct

from calls import NEW, OLD, forward, on, set_gate
from gates import rules as four
from paper import RULES
from sheets import BLANK_SHEET, CASE2_RULE, accepted, added, gone_back, marked, opened, refused
from tally import Tally


# The bits of a single-precision float.
def bits(x):
    return struct.unpack(">I", struct.pack(">f", x))[0]


NO_NUMBER = 0x7FC00000
ONE, TWO = bits(1.0), bits(2.0)


def keeps(tally, sheet, gate, *expected):
    number, left = on(sheet, set_gate, *gate)
    tally.one(number == 0 and (left.verdict, left.smallest, left.largest) == expected)


def refuses(tally, sheet, gate, number):
    tally.one(refused(on(sheet, set_gate, *gate), number, sheet))


def same_as(tally, sheet, gate):
    answer = on(sheet, set_gate, *gate)
    one_by_one = sheet
    for c1, c2 in four(gate[0], gate[1:]):
        one_by_one = added(one_by_one, (3, 0, c1, c2))
    tally.one(accepted(answer) and answer[1] == one_by_one)


def hurt(sheet):
    return sheet._replace(verdict=3)


def filled(sheet, n):
    for _ in range(n):
        sheet = added(sheet, CASE2_RULE)
    return sheet


LEAST_ONE = ("least", ONE)
LEAST_NONE = ("least", NO_NUMBER)


def kept(tally, edition):
    sheet = opened(32, edition)
    keeps(tally, sheet, LEAST_ONE, 2, 0x3F800000, 0x7F800000)
    keeps(tally, sheet, ("most", ONE), 2, 0, 0xFF800000)
    keeps(tally, sheet, ("within", ONE, TWO), 2, 0x3F800000, 0x40000000)
    keeps(tally, sheet, ("within", TWO, TWO), 1, 0x40000000, 0x40000000)
    keeps(tally, sheet, ("within", bits(0.0), bits(-0.0)), 2, 0, 0x80000000)
    keeps(tally, sheet, ("within", TWO, ONE), 0, 0, 0)


def as_added(tally, edition):
    sheet = opened(32, edition)
    for start in (sheet, added(sheet, CASE2_RULE)):
        for gate in [("least", bits(-1.0)), ("most", bits(100.0)), ("within", bits(-0.5), bits(0.5))]:
            same_as(tally, start, gate)


def order(tally, edition):
    sheet, narrow = opened(32, edition), opened(4, edition)
    full = filled(sheet, RULES)
    refuses(tally, hurt(BLANK_SHEET), LEAST_ONE, 17)
    refuses(tally, hurt(narrow), LEAST_ONE, 17)
    refuses(tally, hurt(sheet), LEAST_NONE, 17)
    refuses(tally, hurt(full), LEAST_ONE, 17)
    refuses(tally, BLANK_SHEET, LEAST_ONE, 1)
    refuses(tally, BLANK_SHEET, LEAST_NONE, 1)
    refuses(tally, opened(31, edition), LEAST_ONE, 13)
    refuses(tally, narrow, LEAST_ONE, 13)
    refuses(tally, narrow, LEAST_NONE, 13)
    refuses(tally, filled(narrow, RULES), LEAST_ONE, 13)
    for gate in [LEAST_NONE, ("most", NO_NUMBER), ("within", NO_NUMBER, ONE), ("within", ONE, NO_NUMBER)]:
        refuses(tally, sheet, gate, 14)
    refuses(tally, full, LEAST_NONE, 14)


def room(tally, edition):
    gate = ("most", ONE)
    most = filled(opened(32, edition), 196)
    same_as(tally, most, gate)
    for n in (1, 3, 4):
        refuses(tally, filled(most, n), gate, 6)


def waits(tally, edition):
    sheet = gone_back(added(marked(opened(32, edition)), CASE2_RULE))
    full = gone_back(marked(filled(opened(32, edition), 197)))
    for start, gate, number in [(sheet, LEAST_ONE, 12), (sheet, LEAST_NONE, 0), (full, LEAST_ONE, 0)]:
        tally.one(on(on(start, set_gate, *gate)[1], forward)[0] == number)


for name, part in [("kept", kept), ("added", as_added), ("order", order), ("room", room), ("waits", waits)]:
    tally = Tally()
    for edition in (OLD, NEW):
        part(tally, edition)
    tally.line(name)
known = Tally()
sheet = opened(32, OLD)
keeps(known, sheet, ("least", bits(0.0)), 2, 0, 0x7F800000)
refuses(known, sheet, ("within", TWO, ONE), 5)
known.line("known")
