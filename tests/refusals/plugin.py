"""A valid module of the shape of a small plugin, made anew: a few types, imports, functions, globals and exports, and short bodies."""
from samples import HEADER, unsigned

TYPES, IMPORTS, FUNCS, GLOBALS = 12, 16, 20, 24
CLASSES = 8  # types that functions have; type t takes t % 5 values of i32, and gives one where t is odd
DEPTH, LABELS = 5, 20
I32, END = b"\x7f", b"\x0b"
LOCALS = b"\x03\x08\x7f\x02\x7e\x01\x7c"


def vector(items):
    return unsigned(len(items)) + b"".join(items)


def sized(data):
    return unsigned(len(data)) + data


def section(number, contents):
    return bytes([number]) + sized(contents)


def constant(number):
    return b"\x41" + bytes([number]) + END


def func_type(index):
    if index >= CLASSES:
        return b"\x60" + vector([b"\x7e"] * (index - CLASSES)) + b"\x00"
    return b"\x60" + vector([I32] * (index % 5)) + vector([I32] * (index % 2))


def call(func):
    ty = func % CLASSES
    return b"\x20\x00" * (ty % 5) + b"\x10" + unsigned(func) + b"\x1a" * (ty % 2)


def body(ty):
    table = b"\x20\x00\x0e" + unsigned(LABELS) + b"".join(unsigned(n % DEPTH) for n in range(LABELS + 1))
    nested = b"\x02\x40" * DEPTH + table + END * DEPTH
    stored = b"\x41\x00" * 9 + b"\x6a" * 8 + b"\x24\x00"
    calls = b"".join(map(call, range(IMPORTS)))
    return sized(LOCALS + nested + stored + calls + b"\x41\x00" * (ty % 2) + END)


def plugin():
    imports = [sized(b"env") + sized(b"host%06x" % n) + b"\x00" + unsigned(n % CLASSES) for n in range(IMPORTS)]
    types = [n % CLASSES for n in range(FUNCS)]
    return HEADER + b"".join((
        section(1, vector([func_type(n) for n in range(TYPES)])),
        section(2, vector(imports)),
        section(3, vector(list(map(unsigned, types)))),
        section(4, vector([b"\x70\x00\x01"])),
        section(5, vector([b"\x00\x11"])),
        section(6, vector([I32 + b"\x01" + constant(n) for n in range(GLOBALS)])),
        section(7, vector([sized(b"name%d" % n) + b"\x00" + unsigned(n) for n in range(3)])),
        section(9, vector([b"\x00" + constant(0) + vector([b"\x10"])])),
        section(10, vector(list(map(body, types)))),
        section(11, vector([b"\x00" + constant(n) + sized(b"data") for n in range(2)])),
        section(0, sized(b"producers") + b"none"),
    ))
