# Foretells crates/try_long_chains: sheets of tiles whose chains have many links, at widths of 6 to 8, and drawn out to 64 bits.
from calls import NEW, accepted
from draws import SPREAD, WORD, after
from editions import Seen
from paper import RULES, answer, buffer, top
from tally import Tally

# The most links of a chain that is found without an order.
SHORT = 12

# The numbers of a full sheet's buffer.
LENT = 3 * (4 * RULES + 1)


# crates/try_long_chains: tiles. These are no claims, and are read off the program.
def laid(seed, w):
    rules = [(7, 0, 1, 1)]
    s = seed
    for at in range(1 << w):
        s = after(s)
        if len(rules) < RULES and (at & 1 or s & 3 == 0):
            rules.append(tile(s >> 8, at, w))
    return mixed(rules, s)


def tile(s, at, w):
    length = 1 + s % 4
    c1 = -at & top(w)
    if s >> 4 & 1 == 0:
        return 3, 1, c1, length - 1
    return 3, 0, c1 - length & top(w), top(w) - length & top(w)


def mixed(rules, s):
    for i in range(len(rules)):
        s = after(s)
        j = s % RULES
        if j < len(rules):
            rules[i], rules[j] = rules[j], rules[i]
    return rules


# A rule that the words of a block of 2^by words meet where their word meets this one.
def block(rule, by):
    form, sense, c1, c2 = rule
    return form, sense, c1 << by, (c2 << by) + (0 if form == 7 else (1 << by) - 1)


def sheets(w, by):
    seed = w
    for _ in range(150):
        seed = seed + SPREAD & WORD
        yield w + by, [block(rule, by) for rule in laid(after(after(seed)), w)]


def lines(name, some):
    seen = Seen()
    longer = Tally()
    for w, rules in some:
        assert accepted(w, NEW, rules)
        seen.one(w, rules)
        if len(answer(w, rules)[1]) > SHORT:
            longer.one(True)
    seen.lines(name + " bits")
    longer.line(name + " bits, longer")


# A chain with a wrong reason of its 13th link, a wrong last word of it, and a wrong number of links.
def known():
    tally = Tally()
    _, links = answer(6, laid(1, 6))
    said = len(links), buffer(links, LENT)
    for k in (2, 1):
        wrong = buffer(links, LENT)
        wrong[3 * SHORT + k] ^= 1
        tally.one(said == (len(links), wrong))
    tally.one(said == (len(links) ^ 1, said[1]))
    return tally


for w in (6, 7, 8):
    lines(str(w), sheets(w, 0))
lines("64", [sheet for w in (6, 7, 8) for sheet in sheets(w, 64 - w)])
known().line("known")
