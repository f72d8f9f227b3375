# What try_picture prints: each sheet's columns, every word of each looked at by 01's table of forms.
from pictures import row

SHEETS = (
    (4, [(3, 0, 5, 3), (7, 0, 12, 4)]),
    (1, [(6, 1, 1, 0)]),
    (5, [(5, 0, 30, 0), (4, 1, 3, 0)]),
    (6, [(1, 0, 9, 40), (7, 0, 33, 1)]),
    (8, [(2, 1, 77, 200), (7, 0, 0xC0, 0x40)]),
    (12, [(7, 0, 0x800, 0x800), (8, 1, 0xFF0, 30), (3, 0, 0, 2100)]),
)


for w, rules in SHEETS:
    for rule in rules:
        print("".join(row(w, [rule])))
    print("".join(row(w, rules)))
    print("-")
# a record that is no sheet: no cell, but a line for each rule that it says is in force, and one for all
print("\n\n\n-")
