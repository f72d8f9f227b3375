# Foretells crates/try_count_speed: at 64 bits 15 counts of a full sheet, and 15 buffers of 4,000 words of a free sheet, of the full one and of
# one with 16 fixed bits, by the sums of the words and what these come to.
from counts import UNIT, how_many, listing
from paper import RULES, top

TIMES = 15
ROOM = 4000

# A rule fails the first 50,000 words of its 100,000; every other bit of the lower half is fixed.
FULL = [(3, 1, -i * 100000 & top(64), 49999) for i in range(RULES)]
BITS = [(7, 0, 0x55555555, 0x14504115)]


def listed(name, rules):
    words = total = come_to = 0
    start = 0
    for _ in range(TIMES):
        some = listing(64, rules, start, ROOM)
        for x in some:
            total += x
            come_to += total
        words += len(some)
        start = some[-1] + 1
    print(f"{name}: {words} words come to {come_to & top(64)}")


quotient, remainder = divmod(how_many(64, FULL), UNIT)
print(f"counts: {TIMES} come to {TIMES * quotient} * 2^32 + {TIMES * remainder}")
listed("free", [])
listed("full", FULL)
listed("bits", BITS)
