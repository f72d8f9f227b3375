# The columns of a picture, as docs/VET.md has them: every word of each looked at by 01's table of forms.
from paper import meets


def row(w, rules):
    columns = min(2**w, 64)
    size = 2**w // columns
    for column in range(columns):
        fit = sum(all(meets(w, rule, x) for rule in rules) for x in range(column * size, (column + 1) * size))
        yield "#" if fit == 0 else "." if fit == size else "+"
