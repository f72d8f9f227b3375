# Foretells crates/try_examples: the functions that the documents show, by search over words of 4 bits and of 8, and by plain sums at 64.
import struct


# Case 8's rules at width 4: x + 5 <= 3 with a sum that wraps, and x AND 12 equals 4.
def sums(x, bits):
    return (x + 5) % 2**bits <= 3


def masked(x):
    return x & 12 == 4


FOUR = range(16)
LINKS = [(0, 10, 0), (11, 15, 255)]
SHORT = [(0, 10, 0), (12, 15, 255)]


# Whether links show that no word of 4 bits fits both: they cover every word, and each word fails for its link's reason.
def shows(links):
    covered = [x for first, last, _ in links for x in range(first, last + 1)]
    fails = {0: lambda x: not sums(x, 4), 255: lambda x: not masked(x)}
    return sorted(covered) == list(FOUR) and all(fails[why](x) for first, last, why in links for x in range(first, last + 1))


def yes(what, so):
    print(what + ("yes" if so else "no"))


# The pattern of a float as a number, from which its order among numbers that are not below zero can be read.
def pattern(x):
    return struct.unpack(">I", struct.pack(">f", x))[0]


yes("a word of 4 bits fits both rules of case 8: ", any(sums(x, 4) and masked(x) for x in FOUR))
yes("a word of 4 bits fits the first of them twice: ", any(sums(x, 4) for x in FOUR))
yes("the paper's links show that none does: ", shows(LINKS))
yes("the same with one word left out: ", shows(SHORT))

# At 64 bits x + 5 is one of 0 to 3, so x is one of four words below 2^64.
fitting = sorted((total - 5) % 2**64 for total in range(4))
print("words of 64 bits that fit the first and are 0: %d" % len([x for x in fitting if x == 0]))
print("words of 64 bits that fit the first: %d" % len(fitting))
print("the first of them: %d" % fitting[0])

yes("some reading lies from 5.5 to 20 watts: ", pattern(5.5) <= pattern(20.0))
yes("some reading lies from 20 to 5.5 watts: ", pattern(20.0) <= pattern(5.5))

# The flags are what a status word of 8 bits leaves under the mask 15, and equal a counter from 5 to 9.
flags = sorted({status & 15 for status in range(256) for counter in range(5, 10) if (status & 15) ^ counter == 0})
print("the flags are from %d" % flags[0])
print("to %d" % flags[-1])
