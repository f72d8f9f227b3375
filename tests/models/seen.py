# What try_counts and try_wide_counts count, and print: counts with the words that they give in all, and listings with the words written.
from counts import UNIT, how_many, listing, onward
from tally import Tally


class Seen:
    def __init__(self):
        self.counts = Tally()
        self.total = 0
        self.lists = Tally()
        self.words = 0

    def counted(self, words, same=True):
        self.counts.one(same)
        self.total += words

    def listed(self, words, same=True):
        self.lists.one(same)
        self.words += len(words)

    # A sheet is counted, and listed in pieces of so many words from a start on, one after another up to the end.
    def count(self, w, rules):
        self.counted(how_many(w, rules))

    def pieces(self, w, rules, start, rooms):
        for room in rooms:
            words = listing(w, rules, start, room)
            self.listed(words)
            start = onward(w, start, room, words)
            if start is None:
                break

    def lines(self, name):
        self.counts.line(name + " counts")
        print(f"{name} counted {self.total // UNIT} * 2^32 + {self.total % UNIT}")
        self.lists.line(name + " lists")
        print(f"{name} listed {self.words}")
