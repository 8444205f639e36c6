"""Where the items of a module and their tokens lie in its bytes, by the plain reader of tests/bytes."""
import os
import sys

sys.path.insert(0, os.path.join(os.path.dirname(os.path.dirname(os.path.realpath(__file__))), "bytes"))
from reader import Code, Contents, Cursor, Fault  # noqa: E402


class NotedCode(Code):
    """Code, of which the offset of each token is noted, but for an else without instructions behind it: it is no token."""

    def __init__(self, cursor, is_extended, tokens):
        super().__init__(cursor, is_extended)
        self.tokens = tokens

    def begin_token(self, at, opcode):
        if opcode != 0x05 or self.cursor.data[self.cursor.at : self.cursor.at + 1] != b"\x0b":
            self.tokens.append(at)


class NotedContents(Contents):
    """The contents of a section. `tokens` and `funcs` have those of the item that was read last, and `in_body` says whether its body was begun."""

    def __init__(self, cursor, is_extended):
        self.tokens, self.funcs, self.in_body, self.is_func = [], [], False, False
        super().__init__(cursor, is_extended)

    def code_at(self, cursor, is_extended):
        self.in_body = cursor is not self.cursor
        return NotedCode(cursor, is_extended, self.tokens)

    def imported(self):
        self.cursor.name()
        self.cursor.name()
        kind = self.cursor.one_of(b"\0\1\2\3")
        self.is_func = kind == 0
        (self.cursor.u32, self.table_type, self.limits, self.global_type)[kind]()

    def element(self):
        self.cursor.u32()
        self.code.expression()
        self.cursor.vector(lambda: self.funcs.append(self.cursor.u32()))

    def next(self, number):
        """Reads an item, and gives its offset and what is noted of it."""
        del self.tokens[:], self.funcs[:]
        self.in_body, self.is_func, at = False, False, self.cursor.at
        self.item(number)()
        return at, list(self.tokens), list(self.funcs), self.is_func


class Places:
    """The items of each section: of each its offset, the offsets of its tokens, and the functions that a segment names."""

    def __init__(self, data, is_extended):
        self.items, self.imported, self.declared, self.broken = {}, 0, 0, None
        cursor = Cursor(data, 8, len(data))
        while cursor.at < cursor.end:
            number = cursor.byte()
            contents = cursor.take(cursor.u32())
            if number != 0:
                self.items[number] = []
                self.walk(number, contents, is_extended)

    def walk(self, number, contents, is_extended):
        noted = NotedContents(contents, is_extended)
        count = 1 if number == 8 else contents.u32()
        if number == 10 and count != self.declared:
            return
        for _ in range(count):
            try:
                at, tokens, funcs, is_func = noted.next(number)
            except Fault as fault:
                if number == 10 and noted.in_body:
                    self.broken = self.imported + len(self.items[10]), str(fault)
                raise
            self.items[number].append((at, tokens, funcs))
            self.imported += is_func
            self.declared += number == 3

    def of(self, section, item, token):
        """The offset of a place."""
        at, tokens, _ = self.items[section][item]
        return at if token is None else tokens[token]

    def entry(self, segment):
        """The number of the first function of a segment that the module has not, where the segment has several functions."""
        funcs = self.items[9][segment][2]
        unknown = [number for number, func in enumerate(funcs) if func >= self.imported + self.declared]
        return unknown[0] if unknown and len(funcs) > 1 else None


def broken_function(data, is_extended, line):
    """The function in whose body the fault lies that a line `malformed ..` tells, or nothing where it lies in none."""
    places = Places.__new__(Places)
    try:
        places.__init__(data, is_extended)
    except (Fault, KeyError):
        pass
    return places.broken[0] if places.broken and line == f"malformed {places.broken[1]}" else None
