# What try_outward writes: the frames by 01 and K7, and the rules in SMT-LIB's theory of bit vectors, from 01's table of forms and K2.
# "02 form(2) sense(2) c1(8) c2(8)", and by K7 "11 opens .. its adds are frame 12, with constants of 16 digits".


def frames(width, rules):
    yield f"11{width:02x}"
    for form, sense, c1, c2 in rules:
        yield f"12{form:02x}{sense:02x}{c1:016x}{c2:016x}"
    yield "05"


# c is the constant, s the sum with x and d the difference from x, which the theory has modulo 2^w.
def formula(w, form, c1, c2):
    c = lambda n: f"(_ bv{n} {w})"
    s = lambda n: f"(bvadd {c(n)} x)"
    d = f"(bvsub x {c(c1)})"
    return {
        1: f"(bvule {s(c1)} {s(c2)})",
        2: f"(bvule {c(c1)} {s(c2)})",
        3: f"(bvule {s(c1)} {c(c2)})",
        4: f"(bvsle x {c(c1)})",
        5: f"(bvsle {c(c1)} x)",
        6: f"(= x {c(c1)})",
        7: f"(= (bvand x {c(c1)}) {c(c2)})",
        8: f"(and (bvule {c(c2)} {d}) (bvult {d} {c(2 ** (w - 1))}))",
    }[form]


def smt(w, rules):
    yield "(set-logic QF_BV)"
    yield f"(declare-const x (_ BitVec {w}))"
    for form, sense, c1, c2 in rules:
        written = formula(w, form, c1, c2)
        yield f"(assert {written})" if sense == 0 else f"(assert (not {written}))"
    yield "(check-sat)"


# Each form with these constants, as written and negated; 01 refuses form 7 negated (4), a c2 that is not used (5), and K4 a bit outside the mask (5).
def forms(c1, c2):
    for form in range(1, 9):
        second = 0 if form in (4, 5, 6) else c1 & c2 if form == 7 else c2
        for sense in (0, 1) if form != 7 else (0,):
            yield form, sense, c1, second


for width, c1, c2 in (4, 5, 3), (1, 1, 0), (64, 0xFEDCBA9876543210, 0x10), (33, 1 << 32, 0xFFFF):
    rules = list(forms(c1, c2))
    print(*frames(width, rules), sep="\n")
    print(*smt(width, rules), sep="\n")
print(*frames(0, []), sep="\n")
