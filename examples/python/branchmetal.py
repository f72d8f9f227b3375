"""Can "viewing" and "not yet settled" hold together? The library from Python, to copy, and the question that the desk was built for.

Make a shared object of the archive, and name it:
    cc -shared -o target/libbranchmetal.so -Wl,--whole-archive target/staticlib/libbranchmetal.a -Wl,--no-whole-archive
    python3 examples/python/branchmetal.py target/libbranchmetal.so
"""
import ctypes
import sys

OLD, NEW = 0, 1
NONE, ONE, MANY = 0, 1, 2


class Refused(Exception):
    """The number of a refusal, and the place of the rule that was refused, or the list's length."""


def _number(n):
    """A number as the library takes it. ctypes would cut one that is larger, or below zero, and say nothing."""
    if not 0 <= n < 2**64:
        raise OverflowError(f"{n} is not a number of 64 bits")
    return n


class Library:
    def __init__(self, path):
        self._c = ctypes.CDLL(path)
        words, length, number = ctypes.POINTER(ctypes.c_uint64), ctypes.c_size_t, ctypes.c_uint64
        self._c.branchmetal_vet.argtypes = [number, number, words, length, words, length, words]
        self._c.branchmetal_count.argtypes = [number, number, words, length, words]
        self._c.branchmetal_sheet_open.argtypes = [words, number, number]
        self._c.branchmetal_sheet_add.argtypes = [words, number, words]
        self._c.branchmetal_sheet_mark.argtypes = [words]
        self._c.branchmetal_sheet_back.argtypes = [words]
        self._c.branchmetal_sheet_forward.argtypes = [words]
        self._c.branchmetal_sheet_ask.argtypes = [words, words, length, words]
        self._c.branchmetal_sheet_count.argtypes = [words, words]
        for name in ("vet", "count", *(f"sheet_{call}" for call in ("open", "add", "mark", "back", "forward", "ask", "count"))):
            getattr(self._c, f"branchmetal_{name}").restype = number

    @staticmethod
    def _rules(rules):
        numbers = [_number(n) for form, sense, c1, c2 in rules for n in (form, sense, c1, c2)]
        return (ctypes.c_uint64 * len(numbers))(*numbers), len(rules)

    def vet(self, width, edition, rules):
        """The verdict, the smallest and the largest word, and for NONE the links: (from, to, reason)."""
        links = (ctypes.c_uint64 * (3 * (4 * min(len(rules), 200) + 1)))()
        answer = (ctypes.c_uint64 * 5)()
        number = self._c.branchmetal_vet(_number(width), _number(edition), *self._rules(rules), links, len(links), answer)
        verdict, smallest, largest, count, place = answer
        if number:
            raise Refused(number, place)
        return verdict, smallest, largest, [tuple(links[3 * i : 3 * i + 3]) for i in range(count)]

    def count(self, width, edition, rules):
        """How many words meet all rules."""
        answer = (ctypes.c_uint64 * 3)()
        number = self._c.branchmetal_count(_number(width), _number(edition), *self._rules(rules), answer)
        quotient, remainder, place = answer
        if number:
            raise Refused(number, place)
        return quotient * 2**32 + remainder

    def sheet(self, width, edition):
        """A sheet that is kept between calls."""
        return Sheet(self._c, width, edition)


class Sheet:
    """Plain memory that the library alone reads and writes. Each call raises Refused with the number of a refusal, and then changes nothing."""

    def __init__(self, c, width, edition):
        self._c, self._edition, self._numbers = c, edition, (ctypes.c_uint64 * 841)()
        self._call("open", _number(width), _number(edition))

    def _call(self, name, *arguments):
        number = getattr(self._c, f"branchmetal_sheet_{name}")(self._numbers, *arguments)
        if number:
            raise Refused(number)

    def add(self, form, sense, c1, c2):
        self._call("add", self._edition, (ctypes.c_uint64 * 4)(*map(_number, (form, sense, c1, c2))))

    def mark(self):
        self._call("mark")

    def back(self):
        """Strikes the newest mark and the rules added after it, which wait to come forward."""
        self._call("back")

    def forward(self):
        self._call("forward")

    def ask(self):
        """As Library.vet, of the rules in force."""
        links, answer = (ctypes.c_uint64 * (3 * 801))(), (ctypes.c_uint64 * 4)()
        self._call("ask", links, len(links), answer)
        verdict, smallest, largest, count = answer
        return verdict, smallest, largest, [tuple(links[3 * i : 3 * i + 3]) for i in range(count)]

    def count(self):
        """How many words meet the rules in force."""
        answer = (ctypes.c_uint64 * 2)()
        self._call("count", answer)
        quotient, remainder = answer
        return quotient * 2**32 + remainder


def main():
    library = Library(sys.argv[1])
    # The power came on at tick 65000, and the panel settles in 1000 ticks; it has been viewing from tick 65200 to tick 200 past the wrap.
    unsettled, viewing = (8, 1, 65000, 1000), (3, 0, 336, 536)
    verdict, smallest, largest, links = library.vet(16, OLD, [unsettled, viewing])
    if verdict == NONE:
        print("no tick is both:", links)
        return
    # The same on a sheet that is kept. A step back strikes the rule again, so that other spans of viewing could be tried.
    sheet = library.sheet(16, OLD)
    sheet.add(*unsettled)
    sheet.mark()
    sheet.add(*viewing)
    ticks = sheet.count()
    sheet.back()
    print(f"{ticks} ticks are both: the smallest is {smallest}, the largest {largest}")


if __name__ == "__main__":
    main()
