# Foretells crates/try_net_speed: 400 nets of 16 words and 32 joins at 64 bits, each paid 25 steps, and how many steps are spent.
from draws import SPREAD, after
from joins import JOINS, OPS, WORDS, Net, result, run, wide_span

# Each join has the words of the two places before its own.
PLACES = [2 + k % 14 for k in range(JOINS)]
ALL = tuple((OPS[h % 4], h, h - 1, h - 2) for h in PLACES)


# Up to 15 words on each side of words that satisfy all joins.
def around(word):
    return word - (word >> 60), word + (15 - (word >> 60))


def words(before, word):
    out = []
    for k in range(WORDS):
        out.append(around(before))
        before, word = word, result(64, OPS[(2 + k) % 4], word, before)
    return tuple(out)


spent = 0
seed = SPREAD
for _ in range(400):
    seed = after(seed)
    ended, steps, _ = run(Net(64, words(seed, after(seed)), WORDS, ALL, JOINS), 25, wide_span)
    spent += steps if ended == "spent" else 0
print(f"{spent} steps")
