# Foretells crates/desk: what the program writes for the lines of its run.
import re
import sys

from calls import BLANK, NEW, OLD, add, ask, back, forward, mark, opening
from paper import RULES

# "`01` width(2): open. `02` form(2) sense(2) c1(8) c2(8): add. `03` mark. `04` back. `05` ask."; K1's `06`; and K7's `11` and `12`, with
# constants and words of 16 digits.
FRAMES = [
    ("01 2", OLD, opening),
    ("02 2 2 8 8", OLD, add),
    ("03", None, mark),
    ("04", None, back),
    ("05", None, ask),
    ("06", None, forward),
    ("11 2", NEW, opening),
    ("12 2 2 16 16", NEW, add),
]
DIGITS = {OLD: 8, NEW: 16}

# "the program always lends enough for the chain"
LENT = 3 * (4 * RULES + 1)


# "lowercase digits"; "No blanks, no carriage return."
def pattern(frame):
    code, *lengths = frame.split()
    return re.compile((code + "".join("([0-9a-f]{%s})" % length for length in lengths)).encode())


PATTERNS = [(pattern(frame), edition, call) for frame, edition, call in FRAMES]


def refused(number):
    return ["ff%02x" % number]


def asked(page):
    number, (verdict, smallest, largest), links = ask(page, LENT)
    if number:
        return refused(number)
    n = DIGITS[page.edition]
    return [f"a0{verdict:02x}{smallest:0{n}x}{largest:0{n}x}"] + [f"c0{a:0{n}x}{b:0{n}x}{reason:02x}" for a, b, reason in links]


# The lines that are answered, and the page after it.
def answered(page, line):
    for frame, edition, call in PATTERNS:
        found = frame.fullmatch(line)
        if found:
            break
    else:
        return refused(10), page
    if call == ask:
        return asked(page), page
    numbers = [int(digits, 16) for digits in found.groups()]
    if call == opening:
        number, page = opening(page, numbers[0], edition)
    elif call == add:
        number, page = add(page, edition, tuple(numbers))
    else:
        number, page = call(page)
    return refused(number) if number else ["00"], page


# "each line ended by byte 10; the last may lack it, and a final byte 10 opens no further line"
lines = sys.stdin.buffer.read().split(b"\n")
if lines[-1] == b"":
    lines.pop()
page = BLANK
for line in lines:
    out, page = answered(page, line)
    for one in out:
        print(one)
