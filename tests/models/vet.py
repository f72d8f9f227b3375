# Foretells crates/vet: the lines of its run, read by written.py and answered as docs/VET.md has it, by a clerk's page and a search over all words. What it
# says of a mistake goes to standard error, and nothing follows.
import sys

import written
from paper import BITS, chain, meets, searched_words
from pictures import row


def number(x):
    return f"{x} ({x:#x})"


class Page:
    """The page: rules with their names and marks in the order written, and the stretches that wait."""

    def __init__(self, width):
        self.width, self.entries, self.pile = width, [], []

    def rules(self):
        return [e[0] for e in self.entries if e != "mark"]

    def names(self):
        return [e[1] for e in self.entries if e != "mark"]

    # A free word needs no search.
    def fitting(self):
        rules = self.rules()
        words = range(1 << self.width)
        return [x for x in words if all(meets(self.width, r, x) for r in rules)] if rules else words

    def back(self):
        at = max(i for i, e in enumerate(self.entries) if e == "mark")
        self.pile.append(self.entries[at:])
        del self.entries[at:]


def said_of(page, i):
    return f"rule {page.names()[i] or i}: {written.text(page.width, page.rules()[i])}"


def asked(page):
    w, rules, fit = page.width, page.rules(), page.fitting()
    if len(fit) == 1:
        yield f"one word fits: {fit[0]} ({fit[0]:#x}, {fit[0]:#b})"
    elif len(fit):
        yield f"many words fit, {len(fit)} of {1 << w}: the smallest is {number(fit[0])}, the largest {number(fit[-1])}"
    else:
        yield "no word fits"
        for low, high, reason in chain(w, rules, [searched_words(w, r) for r in rules]):
            yield f"{number(low)} .. {number(high)} fail {'the fixed bits' if reason == BITS else said_of(page, reason)}"


def shown(page):
    w = page.width
    yield f"word {w}"
    i = 0
    for entry in page.entries:
        if entry == "mark":
            yield entry
            continue
        rule, name = entry
        yield f"{name + ': ' if name else ''}{written.text(w, rule)}  # rule {i}"
        i += 1
    for i, rule in enumerate(page.rules()):
        yield f"# |{''.join(row(w, [rule]))}| rule {i}"
    yield f"# |{''.join(row(w, page.rules()))}| all"


def why(page, x):
    failed = [i for i, r in enumerate(page.rules()) if not meets(page.width, r, x)]
    return [f"{number(x)} fails {said_of(page, i)}" for i in failed] or [f"{number(x)} meets every rule"]


def answers(page, said):
    what, rest = said[0], said[1:]
    if what == 9:
        return asked(page)
    if what == 10:
        fit = page.fitting()
        total = 1 << page.width
        return [f"{total if len(page.rules()) == 0 else len(fit)} of {total} words fit"]
    if what == 11:
        return [number(x) for x in [y for y in page.fitting() if y >= rest[0]][: rest[1]]]
    if what == 12:
        return why(page, rest[0])
    if what == 13:
        return shown(page)
    return []


def main():
    page = None
    for line in sys.stdin.buffer.read().split(b"\n")[:-1]:
        said, (at, to) = written.read(line, page.width if page else 64)
        what, rest = said[0], said[1:]
        if what == 14:
            return
        if what == 1:
            page.entries.append((tuple(rest), line[at:to].decode()))
        elif what == 5:
            page = Page(rest[0])
        elif what == 6:
            page.entries.append("mark")
        elif what == 7:
            page.back()
        elif what == 8:
            page.entries += page.pile.pop()
        if what in (1, 6):
            page.pile = []
        for answer in answers(page, said) if page else []:
            print(answer)


main()
