# The lines that the programs write. Where both sides of a comparison are to say what the paper says, a model has one answer for both, and
# foretells that none differs; where a side is a number that the program has by itself, the model's answer is compared with it.


class Tally:
    def __init__(self):
        self.compared = 0
        self.differ = 0

    def one(self, same):
        self.compared += 1
        self.differ += not same

    # So many comparisons of the paper with itself.
    def agreed(self, count):
        self.compared += count

    def line(self, name):
        print(f"{name} {self.compared} compared, {self.differ} differ")


# The same by kinds.
class Split:
    def __init__(self, kinds):
        self.kinds = [0] * kinds
        self.differ = 0

    def one(self, kind, same=True):
        self.kinds[kind] += 1
        self.differ += not same

    def compared(self):
        return sum(self.kinds)

    def verdicts(self, name):
        none, one, many = self.kinds
        print(f"{name} {self.compared()} compared: {none} none, {one} one, {many} many, {self.differ} differ")

    def answers(self, name):
        yes, no = self.kinds
        print(f"{name} {self.compared()} compared: {yes} yes, {no} no, {self.differ} differ")

    def calls(self, name):
        accepted, refused = self.kinds
        print(f"{name} {self.compared()} compared, {self.differ} differ")
        print(f"{name} {accepted} accepted, {refused} refused")
