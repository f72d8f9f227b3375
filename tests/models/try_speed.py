# Foretells crates/try_speed: one full sheet of 32 bits asked 10,000 times, and how many of the answers have a link for each rule.
from paper import RULES, answer
from sheets import parts

_, links = answer(32, parts(32)[:RULES])
print(f"{10000 if len(links) == RULES else 0} answers of {RULES} links")
