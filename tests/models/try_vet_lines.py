# Foretells crates/try_vet_lines: the lines of its input, read by written.py. With --lines it writes that input.
import itertools
import random
import sys

import written


# Every line of up to two pieces of each kind, and of three of a few; the rows with drawn numbers and blanks, whole and cut short or with a
# piece changed; numbers at their ends; and lines of odd letters.
def lines():
    some = ["x", "+", "<=", "<", ">", "=", "&", "9", "-3", "5.5", "not", "signed", "a", ":", "watts", "at", "list", "from", "word", "mark", "?"]
    for n in (1, 2):
        for pieces in itertools.product(some, repeat=n):
            yield " ".join(pieces)
    draw = random.Random(33)
    numbers = ["0", "1", "3", "9", "007", "128", "255", "0x0", "0xff", "0b101", "18446744073709551615", "18446744073709551616", "0x", "1a", "-1", "-128", "-129",
               "-0", "-", "5.5", "20.", ".5", "0.125", "1.1234567890", "-2.5", "0xffffffffffffffff", "0x10000000000000000", "99999999999999999999"]
    rows = written.RULES + written.WATTS + written.OTHERS
    fill = {"N": numbers[:11], "M": ["-1", "-3", "-128", "-129", "-0"], "W": ["5.5", "20", "-2.5", "0.125", "0x10"]}
    for i in range(900):
        pieces = [draw.choice(fill[p]) if p in fill else p for p in draw.choice(rows).split()]
        how = draw.randrange(6)
        if how == 1:
            pieces = pieces[:-1]
        elif how == 2:
            pieces[draw.randrange(len(pieces))] = draw.choice(written.TEXTS + numbers)
        elif how == 3:
            pieces.append(draw.choice(written.TEXTS + numbers))
        before = draw.choice(["", "", "not ", "late: ", "late:not ", "a.1 : not "])
        glue = draw.choice([" ", " ", "  ", "\t"])
        yield before + glue.join(pieces) + draw.choice(["", "", " ", "\r", " # x <= 9", "#"])
        if i % 60 == 0:
            yield f"word {draw.choice([1, 4, 8, 16, 32, 64, 0, 65])}"
    for tight in ["x<=9", "x+5<=3", "3<=x+5", "x&12=4", "signed x<=-3", "-3<=signed x", "a:x<9", "x<= 9", "x < =9", "x=9#", "watts within 5.5..20",
                  "settled since 0xfff0 for 30", "unsettled: not settled since 0xfff0 for 30", "settledsince 1 for 2", "forwards", "settledx", "x <= 9 x",
                  "not not x <= 9", "a: b: x <= 9", "a: mark", "not mark", "not watts at least 5", "a: watts at least 5", ":", "a", "a:", "not", "a: not", "%", "x <= 9;",
                  "x <= " + "9" * 30, "y" * 40 + ": x = 1", "#" * 1024, "#" * 1025, " " * 1024 + "#", "x <= 1, x >= 0", "X <= 9", "x _ 9", "\u00e9"]:
        yield tight
    for n in numbers:
        yield f"signed x <= {n}"
        yield f"word {n}"
        yield f"watts at most {n}"


def main():
    if "--lines" in sys.argv:
        sys.stdout.buffer.write(b"".join(line.encode() + b"\n" for line in lines()))
        return
    width = 64
    for line in sys.stdin.buffer.read().split(b"\n")[:-1]:
        said, name = written.read(line, width)
        if said[0] == 5 and 1 <= said[1] <= 64:
            width = said[1]
        print(*said, *name, "")


main()
