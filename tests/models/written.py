# Lines as docs/VET.md has them: its rows, read by regular expressions and by trying every row, with nothing of the code's way.
import re

from paper import signed

# The rows in the order of the page: a rule's row has its form, its sense and the places of its numbers.
RULES = [
    "x <= N", "x < N", "x >= N", "x > N", "x = N", "x + N <= N", "x + N <= x + N", "N <= x + N", "x & N = N",
    "signed x <= N", "signed x <= M", "N <= signed x", "M <= signed x", "settled since N for N",
]
NOT = ["not"]
WATTS = ["watts at least W", "watts at most W", "watts within W .. W"]
NAME = ["A :"]
OTHERS = ["word N", "mark", "back", "forward", "ask", "count", "list N", "list from N N", "why N", "show"]
ROWS = [r.split() for r in RULES + NOT + WATTS + NAME + OTHERS]
AFTER_NOT = len(RULES)
AFTER_NAME = len(RULES + NOT + WATTS)

TEXTS = ("x + <= < >= > = & .. : not signed settled since for watts at least most within word mark back forward ask count list from why "
         "show").split()
CODES = {text: i + 1 for i, text in enumerate(TEXTS)}
CODES.update({"N": 31, "M": 32, "W": 33, "F": 34, "A": 35, "end": 0, "large": 37, "statement": 38, "rule": 39, "signed word": 40, "shorter": 41})
# What is expected where a number may stand: one below 2^64 is said of a larger one.
NUMBERS = [CODES[what] for what in ("N", "M", "W", "statement", "rule")]
LIMIT = 1024

# A minus begins a number, signs and words are runs of their letters, and anything else is in no line.
PIECES = re.compile(rb"-?[A-Za-z0-9_.]+|-|[&+:<=>]+|[^\sA-Za-z0-9_.&+:<=>#-]+|[\n\v\f]+")


def number(text):
    """(kind, value, places), or None: decimal digits with at most nine places, or 0x and 0b with their digits."""
    sign = text.startswith("-")
    bare = text[1:] if sign else text
    whole = re.fullmatch(r"[0-9]+", bare)
    point = re.fullmatch(r"([0-9]+)\.([0-9]+)", bare)
    based = None if sign else re.fullmatch(r"0(x[0-9a-f]+|b[01]+)", bare)
    if based:
        value = int(bare[2:], 16 if bare[1] == "x" else 2)
        return ("large", 0, 0) if value >> 64 else ("N", value, 0)
    if whole:
        return ("large", 0, 0) if int(bare) >> 64 else ("M" if sign else "N", int(bare), 0)
    if point:
        value, places = 0, 0
        for i, digit in enumerate(point.group(1) + point.group(2)):
            if places == 9:
                return None
            if value * 10 + int(digit) >> 64:
                return ("large", 0, 0)
            value = value * 10 + int(digit)
            places += i >= len(point.group(1))
        return ("F", value, places)
    return None


def pieces(line):
    body = line.split(b"#")[0]
    for m in PIECES.finditer(body.replace(b"\t", b" ").replace(b"\r", b" ")):
        yield m.start(), m.end(), m.group().decode("latin-1")


def kind(text):
    read = number(text)
    if read:
        return read
    if text in CODES and text in TEXTS:
        return (text, 0, 0)
    if re.fullmatch(r"-?[A-Za-z0-9_.]+", text) and not re.fullmatch(r"0[xb]|-?[0-9]+\.", text):
        return ("A", 0, 0)
    return ("other", 0, 0)


def read(line, width):
    """The numbers that a line is, with the name's place."""
    if len(line) > LIMIT:
        return [14, LIMIT, CODES["shorter"]], (0, 0)
    limit, sofar, negated, name, numbers = len(ROWS), [], False, (0, 0), []
    for at, to, text in pieces(line):
        what, value, places = kind(text)
        if what in ("N", "M", "F") and sofar[:1] == ["watts"]:
            what = "W"
        go = [r for r in ROWS[:limit] if r[:len(sofar) + 1] == sofar + [what]]
        if not go:
            expected = wanted(sofar, limit)
            return [14, at, CODES["large"] if what == "large" and expected in NUMBERS else expected], name
        sofar.append(what)
        if what in ("N", "M", "W", "F"):
            numbers.append((at, text.startswith("-"), value, places))
        if what == "A":
            name = (at, to)
        if sofar == ["not"]:
            limit, sofar, negated = AFTER_NOT, [], True
        if sofar == ["A", ":"]:
            limit, sofar = AFTER_NAME, []
    if not sofar and limit == len(ROWS):
        return [0], name
    if sofar not in ROWS[:limit]:
        return [14, len(line.split(b"#")[0].rstrip(b" \t\r")), wanted(sofar, limit)], name
    return said(ROWS.index(sofar), negated, numbers, width), name


def wanted(sofar, limit):
    if not sofar:
        return CODES["statement"] if limit == len(ROWS) else CODES["rule"]
    row = next(r for r in ROWS[:limit] if r[:len(sofar)] == sofar)
    return CODES[row[len(sofar)]] if len(row) > len(sofar) else CODES["end"]


def said(row, negated, numbers, width):
    words = [n[2] for n in numbers]
    if row < AFTER_NOT:
        text = RULES[row]
        if "signed" in text:
            at, minus, value, _ = numbers[0]
            value = -value if minus else value
            if not -(1 << width - 1) <= value < 1 << width - 1:
                return [14, at, CODES["signed word"]]
            form, sense, constants = 4 if text.startswith("signed") else 5, 0, (value % (1 << width), 0)
        else:
            form, sense, constants = {
                "x <= N": lambda n: (3, 0, (0, n)), "x < N": lambda n: (2, 1, (n, 0)), "x >= N": lambda n: (2, 0, (n, 0)),
                "x > N": lambda n: (3, 1, (0, n)), "x = N": lambda n: (6, 0, (n, 0)), "x + N <= N": lambda a, b: (3, 0, (a, b)),
                "x + N <= x + N": lambda a, b: (1, 0, (a, b)), "N <= x + N": lambda a, b: (2, 0, (a, b)),
                "x & N = N": lambda a, b: (7, 0, (a, b)), "settled since N for N": lambda a, b: (8, 0, (a, b)),
            }[text](*words)
        return [1, form, sense ^ negated, *constants]
    text = (RULES + NOT + WATTS + NAME + OTHERS)[row]
    amounts = [x for n in numbers for x in (int(n[1]), n[2], n[3])]
    plain = {"mark": 6, "back": 7, "forward": 8, "ask": 9, "count": 10, "show": 13}
    if text in plain:
        return [plain[text]]
    return {"watts at least W": [2, *amounts], "watts at most W": [3, *amounts], "watts within W .. W": [4, *amounts], "word N": [5, *words],
            "list N": [11, 0, *words], "list from N N": [11, *words], "why N": [12, *words]}[text]


# A rule as docs/VET.md writes it back.
def text(w, rule):
    form, sense, c1, c2 = rule
    if form == 2 and c2 == 0:
        return f"x {'<' if sense else '>='} {c1}"
    if form == 3 and c1 == 0:
        return f"x {'>' if sense else '<='} {c2}"
    row = {1: f"x + {c1} <= x + {c2}", 2: f"{c1} <= x + {c2}", 3: f"x + {c1} <= {c2}", 4: f"signed x <= {signed(w, c1)}", 5: f"{signed(w, c1)} <= signed x",
           6: f"x = {c1}", 7: f"x & {c1} = {c2}", 8: f"settled since {c1} for {c2}"}[form]
    return f"not {row}" if sense else row
