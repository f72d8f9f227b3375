# What the papers say of rules, sheets and chains, by plain search. Written from the papers; nothing here is taken from crates/.
# A rule is (form, sense, c1, c2), a link (from, to, reason), and a set of words of a narrow width a number of which bit x says whether x is in it.
from functools import lru_cache

# "The eight forms of rule"; "Raise the rules in force to 200 and the marks to 32"; "255 kept apart".
FORMS = 8
RULES = 200
MARKS = 32
BITS = 255

# At these widths a search goes through all words.
NARROW = 8


def top(w):
    return (1 << w) - 1


def half(w):
    return 1 << (w - 1)


# "s(a) is a where a < half, else a - 2^w"
def signed(w, a):
    return a if a < half(w) else a - (1 << w)


# The table of forms; form 8 as K2 has it.
def meets(w, rule, x):
    form, sense, c1, c2 = rule
    n = 1 << w
    if form == 1:
        held = (c1 + x) % n <= (c2 + x) % n
    elif form == 2:
        held = c1 <= (c2 + x) % n
    elif form == 3:
        held = (c1 + x) % n <= c2
    elif form == 4:
        held = signed(w, x) <= signed(w, c1)
    elif form == 5:
        held = signed(w, c1) <= signed(w, x)
    elif form == 6:
        held = x == c1
    elif form == 7:
        held = x & c1 == c2
    elif form == 8:
        held = c2 <= (x - c1) % n < half(w)
    else:
        raise ValueError("no such form")
    return not held if sense == 1 else held


# The lowest and the highest member of a set.
def lowest(words):
    return (words & -words).bit_length() - 1


def highest(words):
    return words.bit_length() - 1


# The words from one to another.
def from_to(low, high):
    return (2 << high) - (1 << low)


@lru_cache(None)
def searched_words(w, rule):
    return sum(1 << x for x in range(1 << w) if meets(w, rule, x))


# The words that meet a rule. Forms 1, 2, 3 and 8 look only at the sum of x and a constant, so that one search serves for many rules: x meets the
# rule where x + turn meets the one without that constant. (try_rules.py holds this to the meaning of every rule at the widths 1 to 4.)
def words(w, rule):
    form, sense, c1, c2 = rule
    n = 1 << w
    if form == 1:
        turn, still = c1, (1, 0, 0, (c2 - c1) % n)
    elif form == 2:
        turn, still = c2, (2, 0, c1, 0)
    elif form == 3:
        turn, still = c1, (3, 0, 0, c2)
    elif form == 8:
        turn, still = -c1 % n, (8, 0, 0, c2)
    elif form == 7:
        turn, still = 0, (7, 0, c1, c2)
    else:
        turn, still = 0, (form, 0, c1, 0)
    held = searched_words(w, still)
    held = (held >> turn | held << (n - turn)) & top(n)
    return held ^ top(n) if sense == 1 else held


# "the kept verdict (0 none, 1 one, 2 many), smallest and largest fitting word"; "for "none" both words are 0"
def kept(smallest, largest):
    return (1 if smallest == largest else 2, smallest, largest)


NONE = (0, 0, 0)


# What is said of the rules, and the chain: at a narrow width by going through all words, at a wide one from stretch to stretch.
def answer(w, rules):
    return searched(w, rules) if w <= NARROW else stretched(w, rules)


def searched(w, rules):
    sets = [words(w, rule) for rule in rules]
    fit = top(1 << w)
    for one in sets:
        fit &= one
    if fit:
        return kept(lowest(fit), highest(fit)), []
    return NONE, chain(w, rules, sets)


# "It is written for "none" only. Start at p = 0."
def chain(w, rules, sets):
    every = top(1 << w)
    bits = every
    failed = []
    for i, rule in enumerate(rules):
        if rule[0] == 7:
            bits &= sets[i]
        else:
            failed.append((i, sets[i] ^ every))
    links = []
    p = 0
    while p <= top(w):
        best = None
        for i, fails in failed:
            if fails >> p & 1:
                # "the largest q such that every word from p to q fails it"
                q = p + lowest(~(fails >> p)) - 1
                # "Take the rule of furthest reach, the lowest number on a tie."
                if best is None or best[0] < q:
                    best = q, i, fails
        if best:
            q, i, fails = best
            # K8: "start where that rule's run of failing words starts"
            links.append((highest(~fails & top(p)) + 1, q, i))
        else:
            # "one less than the smallest word above p that meets all form 7 rules, or the top word if there is none"
            above = bits >> (p + 1)
            q = p + lowest(above) if above else top(w)
            links.append((p, q, BITS))
        # "Stop after the link that ends at the top word; else go on with p = q + 1."
        p = q + 1
    return links


# What a lent buffer holds after asking: "three a link", and "numbers after the last link stay untouched".
UNTOUCHED = None


def buffer(links, lent):
    numbers = [number for link in links for number in link]
    return numbers + [UNTOUCHED] * (lent - len(numbers))


# ---- Wide words: a sum that wraps is, on each of two stretches of words, x and a fixed whole number.


# The stretches on which (x + c) mod 2^w is x + k: (first, last, k).
def summed(w, c):
    n = 1 << w
    return [piece for piece in [(0, n - c - 1, c), (n - c, n - 1, c - n)] if piece[0] <= piece[1]]


# The words that meet the rule as written, as stretches (first, last) in rising order, none empty and no two in touch. (try_rules.py and
# try_editions.py hold them to the search.)
def held_stretches(w, rule):
    form, _, c1, c2 = rule
    n = 1 << w
    found = []
    if form == 1:
        for a, b, k in summed(w, c1):
            for a2, b2, k2 in summed(w, c2):
                if k <= k2:
                    found.append((max(a, a2), min(b, b2)))
    elif form == 2:
        found = [(max(a, c1 - k), b) for a, b, k in summed(w, c2)]
    elif form == 3:
        found = [(a, min(b, c2 - k)) for a, b, k in summed(w, c1)]
    elif form == 4:
        s = signed(w, c1)
        found = [(0, min(half(w) - 1, s)), (half(w), min(n - 1, s + n))]
    elif form == 5:
        s = signed(w, c1)
        found = [(max(0, s), half(w) - 1), (max(half(w), s + n), n - 1)]
    elif form == 6:
        found = [(c1, c1)]
    elif form == 8:
        found = [(max(a, c2 - k), min(b, half(w) - 1 - k)) for a, b, k in summed(w, -c1 % n)]
    else:
        raise ValueError("no stretches")
    return joined(sorted(one for one in found if one[0] <= one[1]))


# Stretches in rising order, those that touch made one.
def joined(stretches):
    out = []
    for a, b in stretches:
        if out and a <= out[-1][1] + 1:
            out[-1] = out[-1][0], max(out[-1][1], b)
        else:
            out.append((a, b))
    return out


# The words in between.
def others(w, stretches):
    out = []
    a = 0
    for first, last in stretches:
        if a < first:
            out.append((a, first - 1))
        a = last + 1
    if a <= top(w):
        out.append((a, top(w)))
    return out


@lru_cache(1 << 12)
def stretches(w, rule):
    held = held_stretches(w, rule)
    return others(w, held) if rule[1] == 1 else held


def common(a, b):
    out = []
    i = j = 0
    while i < len(a) and j < len(b):
        low = max(a[i][0], b[j][0])
        high = min(a[i][1], b[j][1])
        if low <= high:
            out.append((low, high))
        if a[i][1] < b[j][1]:
            i += 1
        else:
            j += 1
    return out


# The form 7 rules in one: the bits that they look at and what these have to be, or None where two of them contradict each other.
def fixed(rules):
    mask = value = 0
    for form, _, c1, c2 in rules:
        if form == 7:
            if c2 & ~c1 or (value ^ c2) & mask & c1:
                return None
            mask |= c1
            value |= c2
    return mask, value


# The smallest word at or above p with the bits, or None: p itself, or a word that is as p above some bit and has that bit where p lacks it.
# The lower the bit the smaller the word.
def next_with(w, mask, value, p):
    if p & mask == value:
        return p
    for k in range(w):
        bit = 1 << k
        if not p & bit and (value & bit or not mask & bit) and (p ^ value) & mask >> (k + 1) << (k + 1) == 0:
            return p >> (k + 1) << (k + 1) | bit | value & (bit - 1)
    return None


# The largest at or below p: with all bits turned, up is down.
def prev_with(w, mask, value, p):
    found = next_with(w, mask, value ^ mask, p ^ top(w))
    return None if found is None else found ^ top(w)


def stretched(w, rules):
    bits = fixed(rules)
    fit = [(0, top(w))] if bits else []
    for rule in rules:
        if rule[0] != 7:
            fit = common(fit, stretches(w, rule))
    for a, b in fit:
        smallest = next_with(w, *bits, a)
        if smallest is not None and smallest <= b:
            break
    else:
        return NONE, stretched_chain(w, rules, bits)
    for a, b in reversed(fit):
        largest = prev_with(w, *bits, b)
        if largest is not None and a <= largest:
            return kept(smallest, largest), []


# The chain, as above.
def stretched_chain(w, rules, bits):
    runs = [(i, run) for i, rule in enumerate(rules) if rule[0] != 7 for run in others(w, stretches(w, rule))]
    links = []
    p = 0
    while p <= top(w):
        here = [(-run[1], i, run) for i, run in runs if run[0] <= p <= run[1]]
        if here:
            _, i, (start, q) = min(here)
            links.append((start, q, i))
        else:
            word = next_with(w, *bits, p + 1) if bits and p < top(w) else None
            q = top(w) if word is None else word - 1
            links.append((p, q, BITS))
        p = q + 1
    return links


# ---- K3: "says yes exactly when". Whether some word of a link speaks against its reason is told by `against`, one of the two below.


def accepts(w, rules, numbers, against):
    # "A length that isn't a multiple of three gets no." "the list isn't empty"
    if len(numbers) % 3 != 0 or not numbers:
        return False
    end = -1
    for k in range(0, len(numbers), 3):
        first, last, reason = numbers[k : k + 3]
        # "each link has from <= to <= top"
        if not first <= last <= top(w):
            return False
        # "the first starts at 0; each later one starts at most one past the largest end so far"
        if end + 1 < first:
            return False
        end = max(end, last)
        # "either the number of a rule in force, not of form 7, which every word of the link fails, or 255 where no word of the link meets all
        # form 7 rules"
        if reason != BITS and (reason >= len(rules) or rules[reason][0] == 7):
            return False
        if against(first, last, reason):
            return False
    # "the largest end is the top word"
    return end == top(w)


# By the sets of the words that meet each rule.
def in_sets(w, rules, sets):
    bits = top(1 << w)
    for rule, one in zip(rules, sets):
        if rule[0] == 7:
            bits &= one
    return lambda first, last, reason: from_to(first, last) & (bits if reason == BITS else sets[reason]) != 0


# From stretch to stretch.
def in_stretches(w, rules):
    bits = fixed(rules)

    def against(first, last, reason):
        if reason == BITS:
            word = next_with(w, *bits, first) if bits else None
            return word is not None and word <= last
        return any(a <= last and first <= b for a, b in stretches(w, rules[reason]))

    return against
