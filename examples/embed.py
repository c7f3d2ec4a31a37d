#!/usr/bin/env python3
"""The kept mixture from Python: examples/acetone-methanol.charge, answered in the words of the program charge.

    (cd crates/kiltgrit && rt lib); mkdir -p target
    gcc -shared -Wl,--whole-archive crates/kiltgrit/out/libkiltgrit.a -Wl,--no-whole-archive -o target/libkiltgrit.so
    python3 examples/embed.py target/libkiltgrit.so

The structs are those of include/kiltgrit.h; the calls take and give them by value.
"""
import ctypes
import struct
import sys
from ctypes import POINTER, Structure, c_double, c_int64, c_size_t, c_uint8, c_uint32

VALUES, CELLS, MARKS = 5328, 1408, 1036
LN_GAMMA, GAMMA, EXCESS_GIBBS = range(3)
WILSON = 1
TEMPERATURE, ENTRY, TD_ENTRY, SIZE, COUNT, TOLERANCE = 5, 7, 8, 9, 10, 14
VERSION = 1 << 16 | 3 << 8


class Head(Structure):
    _fields_ = [
        ("model", c_uint8), ("form", c_uint8), ("unused", c_uint8 * 6), ("n", c_size_t), ("ng", c_size_t),
        ("lens", c_uint8 * 12), ("groups", c_uint8 * 144), ("changes", c_uint32), ("t", c_double), ("x", c_double * 12),
        ("has_t", c_uint8), ("has_x", c_uint8), ("also_unused", c_uint8 * 6), ("tolerance", c_double),
    ]


class Answer(Structure):
    _fields_ = [("value", c_double), ("cells_worked", c_size_t), ("renewed", c_size_t), ("refused", c_uint32), ("unused", c_uint32)]


class Reply(Structure):
    _fields_ = [("head", Head), *Answer._fields_]


class Setting(Structure):
    _fields_ = [("v", c_double * 5), ("i", c_size_t), ("j", c_size_t), ("kind", c_uint32), ("unused", c_uint32)]


class Shown(Structure):
    _fields_ = [("millionths", c_int64), ("refused", c_uint32), ("unused", c_uint32)]


assert [ctypes.sizeof(each) for each in (Head, Reply, Answer, Setting, Shown)] == [304, 336, 32, 64, 16]


def floats_ok(library):
    """Whether floats are rounded to nearest even and subnormals kept: kiltgrit_floats_ok of the header."""
    for name in ("kiltgrit_exp", "kiltgrit_log"):
        call = getattr(library, name)
        call.restype, call.argtypes = c_double, [c_double]
    least, ulp = sys.float_info.min, sys.float_info.epsilon
    half = least * 0.5
    return (
        half > 0.0 and half + half == least
        and 1.0 + ulp * 0.5 == 1.0 and (1.0 + ulp) + ulp * 0.5 == 1.0 + 2.0 * ulp and -1.0 - ulp * 0.5 == -1.0
        and library.kiltgrit_exp(-1.0) == 0.36787944117144233 and library.kiltgrit_log(3.0) == 1.0986122886681096
    )


class Refused(Exception):
    """A call was refused, with the documents' number; it has changed nothing."""


def refusal(call, *arguments):
    """The number of a call's refusal, 0 where it is taken."""
    try:
        call(*arguments)
    except Refused as refused:
        return refused.args[0]
    return 0


def millionths(library, v):
    """ln gamma as a panel shows it: a whole number of millionths, a tie to the even one."""
    call = library.kiltgrit_millionths
    call.restype, call.argtypes = Shown, [c_double]
    shown = call(v)
    if shown.refused:
        raise Refused(shown.refused)
    return shown.millionths


def energies(library, text, n):
    """The n * n energies of a supplier's list (bytes), by rows."""
    call = library.kiltgrit_import
    call.restype, call.argtypes = c_uint32, [ctypes.c_char_p, c_size_t, c_size_t, POINTER(c_double), c_size_t]
    entries = (c_double * (n * n))()
    refused = call(text, len(text), n, entries, n * n)
    if refused:
        raise Refused(refused)
    return list(entries)


class Mixture:
    """A mixture in memory of its own, opened."""

    def __init__(self, library):
        if library.kiltgrit_version() != VERSION or not floats_ok(library):
            raise OSError("the library is another version's, or floats are not rounded to nearest with subnormals kept")
        floats, bytes_ = POINTER(c_double), POINTER(c_uint8)
        lent = [floats, c_size_t, floats, c_size_t, bytes_, c_size_t, Head]
        of = {
            "open": (Reply, []),
            "load": (Reply, [c_uint32, c_uint32, c_size_t, c_size_t, bytes_, c_size_t, bytes_, c_size_t, floats, c_size_t]),
            "set": (Reply, [Setting]),
            "fractions": (Reply, [floats, c_size_t]),
            "query": (Answer, [c_uint32, c_size_t]),
        }
        self.calls = {}
        for name, (gives, takes) in of.items():
            call = getattr(library, f"kiltgrit_mixture_{name}")
            call.restype, call.argtypes = gives, lent + takes
            self.calls[name] = call
        self.values, self.cells, self.marks, self.head = (c_double * VALUES)(), (c_double * CELLS)(), (c_uint8 * MARKS)(), Head()
        self._call("open")

    def _call(self, name, *arguments):
        given = self.calls[name](self.values, VALUES, self.cells, CELLS, self.marks, MARKS, self.head, *arguments)
        if name != "query":
            self.head = given.head
        if given.refused:
            raise Refused(given.refused)
        return given

    def load(self, model, n, given, ng=0, lens=b"", groups=b""):
        def as_bytes(b):
            return (c_uint8 * max(len(b), 1)).from_buffer_copy(bytes(b) or b"\0"), len(b)

        self._call("load", model, 0, n, ng, *as_bytes(lens), *as_bytes(groups), (c_double * len(given))(*given), len(given))

    def set(self, kind, *v, i=0, j=0):
        """A temperature or tolerance; an entry, td entry (five numbers) or size at i, j; a count of i at place j."""
        self._call("set", Setting((c_double * 5)(*v), i, j, kind, 0))

    def fractions(self, x):
        self._call("fractions", (c_double * len(x))(*x), len(x))

    def query(self, asked, i=0):
        """The value, and how many exponentials were worked out for it."""
        given = self._call("query", asked, i)
        return given.value, given.cells_worked


def say(call, *arguments):
    number = refusal(call, *arguments)
    print(f"refused {number}" if number else "ok")


def ask(library, still, asked, i=0):
    """A query, of which a panel shows six digits where it is ln gamma."""
    value, cells = still.query(asked, i)
    if asked == LN_GAMMA:
        size = millionths(library, value)
        assert f"{size // 1000000}.{size % 1000000:06}" == f"{value:.6f}"
    print("nan" if value != value else struct.pack(">d", value).hex(), cells)


def by_hand(still):
    """Fractions weighed by hand, off 1 by 1e-5: a tolerance of 0.01 is refused, one of 1e-4 takes them."""
    x = [0.78001, 0.22]
    assert refusal(still.set, TOLERANCE, 0.01) == 14 and refusal(still.fractions, x) == 6
    still.set(TOLERANCE, 1e-4)
    still.fractions(x)


def main():
    library = ctypes.CDLL(sys.argv[1])
    still = Mixture(library)
    # energies by rows, of a supplier's list in cal/mol, then the molar volumes
    listed = energies(library, b"0,-161.88\n583.11,0\n", 2)
    say(still.load, WILSON, 2, [energy / 1.987204 for energy in listed] + [74.05, 40.73])
    say(still.set, TEMPERATURE, 328.7)
    for x in ([0.78, 0.22], [0.01, 0.99], [0.99, 0.01]):
        say(still.fractions, x)
        for i in range(2):
            ask(library, still, LN_GAMMA, i)
            ask(library, still, GAMMA, i)
        ask(library, still, EXCESS_GIBBS)
    by_hand(still)


if __name__ == "__main__":
    main()
