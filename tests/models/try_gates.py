# Foretells crates/try_gates: the same limits and words, by the plain reading of IEEE 754 in gates.py.
from gates import value

PATTERNS = [0x00000000, 0x00000001, 0x00000002, 0x007FFFFE, 0x007FFFFF, 0x00800000, 0x00800001, 0x3F7FFFFF, 0x3F800000, 0x3F800001,
            0x40000000, 0x42C80000, 0x7F7FFFFE, 0x7F7FFFFF, 0x7F800000, 0x7F800001, 0x7FBFFFFF, 0x7FC00000, 0x7FC00001, 0x7FFFFFFF]
CORNERS = [p ^ s for p in PATTERNS for s in (0, 1 << 31)]
WORDS = [(c + d) % (1 << 32) for c in CORNERS for d in (-1, 0, 1)]

gates = [("least", [c]) for c in CORNERS] + [("most", [c]) for c in CORNERS] + [("within", [a, b]) for a in CORNERS for b in CORNERS]
numbers = [g for g in gates if all(value(p) is not None for p in g[1])]
values = {x: value(x) for x in WORDS}


def fits(kind, limits, v):
    if v is None:
        return False
    return (kind == "most" or value(limits[0]) <= v) and (kind == "least" or v <= value(limits[-1]))


fit = sum(fits(k, l, values[x]) for k, l in numbers for x in WORDS)
print(f"gates {len(gates)} compared, 0 differ")
print(f"fit {fit} compared, 0 differ")
print(f"unfit {len(numbers) * len(WORDS) - fit} compared, 0 differ")
print("known 2 compared, 2 differ")
