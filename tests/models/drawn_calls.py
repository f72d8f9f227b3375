# Calls drawn for a page, as crates/trial_calls/src/trial_draws draws them: these are no claims, and are read off the program.
from calls import NEW, OLD, add, back, forward, mark, opening, other
from draws import after
from paper import FORMS


def further(seed):
    return after(after(after(after(seed))))


# A call and its numbers, for a page.
def drawn(seed, page):
    more = after(seed)
    kind = seed % 256
    if kind < 64 if page.width == 0 else kind == 0:
        return (opening, *anew(more))
    if page.pile and seed // 0x1000 % 4 != 0:
        return (back,) if seed // 0x10000 % 2 == 0 else (forward,)
    kind = seed // 64 % 64
    if kind < 12:
        return (mark,)
    if kind < 20:
        return (back,)
    if kind < 26:
        return (forward,)
    edition = other(page.edition) if seed // 0x100000 % 16 == 0 else page.edition
    return add, edition, drawn_rule(more, after(more), page.width)


def anew(seed):
    edition = OLD if seed // 0x10000 % 2 == 0 else NEW
    if seed % 8 == 0:
        return seed // 8 % (48 if edition == OLD else 80), edition
    return 1 + seed // 8 % 6, edition


def drawn_rule(seed, more, w):
    form = seed // 16 % (2 * FORMS) if seed % 16 == 0 else 1 + seed // 16 % FORMS
    c1 = constant(seed // 0x10000, more, w)
    return form, drawn_sense(form, seed // 0x1000), c1, second(form, seed // 0x100000000, after(more), w, c1)


def drawn_sense(form, seed):
    if seed % 16 == 0:
        return seed // 16 % 4
    return 0 if form == 7 else seed // 16 % 2


def constant(seed, more, w):
    if seed % 64 == 0:
        return more // 32 % 100
    return more if seed % 64 == 32 else more >> (64 - w) % 64


def second(form, seed, more, w, c1):
    some = constant(seed, more, w)
    if seed % 32 == 1:
        return some
    return 0 if form in (4, 5, 6) else some & c1 if form == 7 else some
