# Foretells crates/try_checker: chains as asking writes them, changed at every place, and drawn lists, by what K3's check says of each.
from calls import NEW, OLD, accepted
from draws import CASE8, CASES, SPREAD, WORD, after, drawn_sheet, lawful, numbered, rule_count, seeds, used
from paper import BITS, NARROW, accepts, answer, in_sets, words
from tally import Split, Tally

# The check reads nothing of the edition: a list gets the same answer in both.
EDITIONS = (OLD, NEW)

KINDS = ["written", "raised", "lowered", "left out", "doubled", "moved", "cut", "other", "no sheet", "fitting"]


class Counts:
    def __init__(self):
        self.none = self.some = 0
        self.lists = {kind: Split(2) for kind in KINDS}

    # A list on a sheet of each edition, and what is expected of it: what the check says, or the contrary.
    def one(self, kind, yes, wrong):
        for _ in EDITIONS:
            self.lists[kind].one(0 if yes else 1, not wrong)


# Each chain changed at a place.
def changed(chain):
    yield "written", chain
    for at, number in enumerate(chain):
        yield "raised", chain[:at] + [number + 1 & WORD] + chain[at + 1 :]
        yield "lowered", chain[:at] + [number - 1 & WORD] + chain[at + 1 :]
        yield "cut", chain[:at]
    for at in range(0, len(chain), 3):
        link = chain[at : at + 3]
        yield "left out", chain[:at] + chain[at + 3 :]
        yield "doubled", chain[: at + 3] + link + chain[at + 3 :]
        yield "moved", chain[:at] + chain[at + 3 :] + link


# One to four links of drawn words and reasons, of which the first starts at 0.
def drawn_list(seed, n, w):
    numbers = []
    s = seed
    for i in range(3 + 3 * (seed % 4)):
        s = after(s)
        word = (s >> 8) % (1 << w)
        reason = BITS if s & 3 == 0 else (s >> 8) % (n + 1)
        numbers.append(0 if i == 0 else reason if i % 3 == 2 else word)
    return numbers


def sheet(counts, w, rules, seed, wrong=False):
    if not all(lawful(w, rule) for rule in rules):
        return
    rules = [used(rule) for rule in rules]
    if not all(accepted(w, edition, rules) for edition in EDITIONS):
        return
    sets = [words(w, rule) for rule in rules]
    against = in_sets(w, rules, sets)
    _, links = answer(w, rules)
    if not links:
        counts.some += len(EDITIONS)
        counts.one("fitting", accepts(w, rules, drawn_list(seed, len(rules), w), against), wrong)
        return
    counts.none += len(EDITIONS)
    chain = [number for link in links for number in link]
    for kind, numbers in changed(chain):
        counts.one(kind, accepts(w, rules, numbers, against), wrong)
    # The sheet without its last rule; and "so does a record that is no sheet", the one with another verdict kept.
    if rules:
        counts.one("other", accepts(w, rules[:-1], chain, in_sets(w, rules[:-1], sets[:-1])), wrong)
    counts.one("no sheet", False, wrong)


def single(counts):
    for w in range(1, 5):
        for i in range(rule_count(w)):
            sheet(counts, w, [numbered(i, w)], after(i + SPREAD & WORD))


def pairs(counts):
    w = 1
    count = rule_count(w)
    for i in range(count * count):
        sheet(counts, w, [numbered(i % count, w), numbered(i // count, w)], after(i + SPREAD & WORD))


def drawn(counts):
    for s in seeds(5000):
        sheet(counts, *drawn_sheet(s), s)


def paper(counts):
    for w, rules, _, _, _ in CASES:
        if w <= NARROW:
            sheet(counts, w, rules, SPREAD)


# Case 8's lists, with the wrong answer expected of each.
def known():
    counts = Counts()
    w, rules, _, _, _ = CASES[CASE8]
    sheet(counts, w, rules, SPREAD, True)
    tally = Tally()
    for split in counts.lists.values():
        tally.compared += split.compared()
        tally.differ += split.differ
    return tally


counts = Counts()
single(counts)
pairs(counts)
drawn(counts)
paper(counts)
print(f"sheets {counts.none} none, {counts.some} one or many")
for kind in KINDS:
    counts.lists[kind].answers(kind)
known().line("known")
