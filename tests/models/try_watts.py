# Foretells crates/try_watts: the same draws, read by fractions. The nearest pattern is looked for by halving over all finite ones, as
# docs/VET.md has it; what the program compares it with is worked out again, the machine's division and conversion as IEEE 754 defines them: the
# pattern nearest to the quotient.
from fractions import Fraction

from draws import WORD, after, seeds

ROUNDS = 2000
INFINITY = 0x7F800000
PLACES = 9


# What a pattern without a sign is worth.
def value(p):
    exponent, fraction = divmod(p, 1 << 23)
    if exponent == 0:
        return Fraction(fraction, 1 << 149)
    return Fraction((1 << 23) + fraction) * Fraction(2) ** (exponent - 150)


# The pattern nearest to a fraction, and of two as near the even one.
def nearest(x):
    low, past = 0, INFINITY
    while past - low > 1:
        middle = (low + past) // 2
        if value(middle) <= x:
            low = middle
        else:
            past = middle
    under, over = x - value(low), value(low + 1) - x
    if under != over:
        return low if under < over else low + 1
    return low if low % 2 == 0 else low + 1


# The bits, or None where there are too many digits after the point.
def read(minus, digits, places):
    if places > PLACES:
        return None
    return nearest(Fraction(digits, 10**places)) + (minus << 31)


def show(name, pairs):
    total = sum(WORD if bits is None else bits for bits, _ in pairs) & WORD
    print(f"{name} {len(pairs)} compared, {sum(bits != expected for bits, expected in pairs)} differ")
    print(f"{name} bits {total}")


# m times 2^t, with 24 places.
def pattern(m, t):
    return (t + 149 << 23) + m


def place(s):
    return (1 << 23) + s % (1 << 23), 1 + (s >> 24) % 8


def divided(s):
    digits, places = s % (1 << 24), (s >> 24) % 10
    return read(0, digits, places), nearest(Fraction(digits, 10**places))


def whole(s):
    digits = s % (1 << 32)
    return read(0, digits, 0), nearest(Fraction(digits))


def half(s):
    m, j = place(s)
    return read(0, (2 * m + 1) * 5**j, j), pattern(m, 1 - j) + m % 2


def less(s):
    m, j = place(s)
    return read(0, (2 * m + 1) * 5**j * 10 - 1, j + 1), pattern(m, 1 - j)


def more(s):
    m, j = place(s)
    return read(0, (2 * m + 1) * 5**j * 10 + 1, j + 1), pattern(m, 1 - j) + 1


def large(s):
    m, j = place(s)[0], (s >> 24) % 39
    return read(0, (2 * m + 1) << j, 0), pattern(m, j + 1) + m % 2


# Worked by hand: whether it is below zero, digits, places, bits.
CORNERS = [
    (0, 55, 1, 0x40B00000),
    (0, 20, 0, 0x41A00000),
    (0, 1, 1, 0x3DCCCCCD),
    (1, 1, 1, 0xBDCCCCCD),
    (0, 0, 0, 0),
    (1, 0, 9, 0x80000000),
    (0, 1, 0, 0x3F800000),
    (0, 10**9, 9, 0x3F800000),
    (0, 16777217, 0, 0x4B800000),
    (0, 16777219, 0, 0x4B800002),
    (0, 16777217 * 10**9 + 1, 9, 0x4B800001),
    (0, 167772155, 1, 0x4B800000),
    (0, 1, 9, 0x3089705F),
    (0, WORD, 0, 0x5F800000),
    (0, WORD, 9, 0x5089705F),
    (0, 1, 10, None),
]

for name, kind in [("divided", divided), ("whole", whole), ("half", half), ("less", less), ("more", more), ("large", large)]:
    show(name, [kind(s) for s in seeds(ROUNDS)])
show("corners", [(read(*row[:3]), row[3]) for row in CORNERS])

taken, fine = [], 0
for s in seeds(ROUNDS):
    t = after(s)
    bits = read(t % 2, s >> (t >> 8) % 64, (t >> 16) % 11)
    if bits is None:
        fine += 1
    else:
        taken.append(bits)
print(f"drawn {len(taken)} accepted, {fine} refused")
print(f"drawn bits {sum(taken) & WORD}")
show("known", [(read(0, 16777217, 0), 0x4B800001), (read(1, 1, 1), 0x3DCCCCCD)])
