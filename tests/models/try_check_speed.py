# Foretells crates/try_check_speed: the chain of a full sheet of 32 bits, over and over up to 300,000 numbers, checked ten times.
from paper import RULES, accepts, answer, buffer, in_stretches
from sheets import parts

rules = parts(32)[:RULES]
_, links = answer(32, rules)
chain = buffer(links, 3 * len(links))
numbers = [chain[i % len(chain)] for i in range(300000)]
print(f"{10 if accepts(32, rules, numbers, in_stretches(32, rules)) else 0} times yes")
