# Foretells crates/try_gate_speed: gates of the three kinds in turn, each narrower than the one before, as many as a sheet takes, on two
# sheets, by how many are accepted and what the smallest and the largest word after each come to.
from gates import rules as four
from paper import RULES, answer

SHEETS = 2

# The patterns of 1 and of 4096 watts, and how far a limit moves.
LOW, HIGH, STEP = 0x3F800000, 0x45800000, 0x10000

rules, gates, words = [], 0, 0
while len(rules) + 4 <= RULES:
    low, high = LOW + gates * STEP, HIGH - gates * STEP
    gate = (("least", low), ("most", high), ("within", low, high))[gates % 3]
    rules += [(3, 0, c1, c2) for c1, c2 in four(gate[0], gate[1:])]
    (_, smallest, largest), _ = answer(32, rules)
    gates += 1
    words += smallest + largest
print(f"{SHEETS * gates} gates come to {SHEETS * words}")
