# Power gates by a plain reading of IEEE 754: what K9 says of each gate. A pattern's value is read from its three fields as an exact fraction; the
# ends of the fitting words of a half are found by bisection, since the numbers of a half rise or fall with their bits. Written from the paper;
# nothing here is taken from crates/. By itself it prints the rules of a gate, given as a kind and patterns: `gates.py within 00000001 7f800000`.
import sys
from fractions import Fraction

HALF, WHOLE = 1 << 31, 1 << 32
TOP = WHOLE - 1


# None, or a pair that Python orders: (-1, 0) and (1, 0) for the infinities, (0, number) for the others.
def value(p):
    sign, exponent, fraction = p >> 31, (p >> 23) & 255, p & 0x7FFFFF
    if exponent == 255:
        if fraction:
            return None
        return (-1 if sign else 1, 0)
    size = Fraction(fraction, 1 << 149) if exponent == 0 else Fraction((1 << 23) + fraction) * Fraction(2) ** (exponent - 150)
    return (0, -size if sign else size)


# The first number from low on and before high that passes a test which stays true once it is; high where none does.
def first_true(low, high, test):
    while low < high:
        middle = (low + high) // 2
        if test(middle):
            high = middle
        else:
            low = middle + 1
    return low


# The smallest and the largest fitting word of the half from start, or None.
def ends(kind, limits, start):
    numbers = 0x7F800001
    low = value(limits[0]) if kind != "most" else (-1, 0)
    high = value(limits[-1]) if kind != "least" else (1, 0)
    if start == 0:
        a = first_true(0, numbers, lambda y: value(y) >= low)
        b = first_true(0, numbers, lambda y: value(y) > high)
    else:
        a = first_true(0, numbers, lambda y: value(HALF + y) <= high)
        b = first_true(0, numbers, lambda y: value(HALF + y) < low)
    return (start + a, start + b - 1) if a < b else None


# The constants of the rule of form 3, sense 0 that fails just the words from a on and before b; one that fails none is 0, top.
def failing(a, b):
    return (0, TOP) if a >= b else ((WHOLE - b) % WHOLE, TOP - (b - a))


# The constants of the four rules, or None where a limit is not a number.
def rules(kind, limits):
    if any(value(p) is None for p in limits):
        return None
    out = []
    for start in (0, HALF):
        e = ends(kind, limits, start)
        if e is None:
            out += [failing(start, start + HALF), failing(0, 0)]
        else:
            out += [failing(start, e[0]), failing(e[1] + 1, start + HALF)]
    return out


if __name__ == "__main__":
    kind, limits = sys.argv[1], [int(a, 16) for a in sys.argv[2:]]
    found = rules(kind, limits)
    print("not a number" if found is None else " ".join(f"{a:08x} {b:08x}" for a, b in found))
