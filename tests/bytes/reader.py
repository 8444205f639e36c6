"""A plain reader of modules, written from docs/FORMAT.md alone: it says what is wrong with bytes first, or nothing."""

LIMIT, DEPTH = 2_147_483_647, 20_000
VALUE_TYPES = b"\x7f\x7e\x7d\x7c"


class Fault(Exception):
    """What is wrong, and where."""

    def __init__(self, number, name, at):
        super().__init__(f"R{number} {name} at 0x{at:08x}")


def end_at(at):
    return Fault(3, "UnexpectedEnd", at)


def bad_byte(at):
    return Fault(10, "BadByte", at)


class Cursor:
    """Bytes from one offset to another."""

    def __init__(self, data, at, end):
        self.data, self.at, self.end = data, at, end

    def byte(self):
        if self.at == self.end:
            raise end_at(self.at)
        self.at += 1
        return self.data[self.at - 1]

    def one_of(self, allowed):
        at, byte = self.at, self.byte()
        if byte not in allowed:
            raise bad_byte(at)
        return byte

    def take(self, count):
        """So many bytes, as a cursor of their own."""
        if count > self.end - self.at:
            raise end_at(self.at)
        self.at += count
        return Cursor(self.data, self.at - count, self.at)

    def integer(self, bits, signed=False):
        """LEB128 of at most bits / 7 bytes."""
        start, most, value = self.at, -(-bits // 7), 0
        for place in range(most):
            if self.at == self.end:
                raise end_at(start)
            byte = self.data[self.at]
            self.at += 1
            value |= (byte & 127) << (7 * place)
            if byte < 128:
                break
        else:
            raise Fault(4, "IntTooLong", start)
        used = bits - 7 * (most - 1)
        if place == most - 1 and used < 7:
            unused = byte >> (used - 1 if signed else used)
            if unused not in ((0, (1 << (7 - used + 1)) - 1) if signed else (0,)):
                raise Fault(5, "IntTooLarge", start)
        if signed and byte & 64:
            value -= 1 << (7 * (place + 1))
        return value

    def u32(self):
        return self.integer(32)

    def vector(self, item):
        for _ in range(self.u32()):
            item()

    def name(self):
        inside = self.take(self.u32())
        try:
            self.data[inside.at:inside.end].decode("utf-8")
        except UnicodeDecodeError:
            raise Fault(9, "BadUtf8", inside.at) from None


class Code:
    """Expressions and bodies of a profile."""

    def __init__(self, cursor, is_extended):
        self.cursor, self.is_extended = cursor, is_extended

    def begin_token(self, at, opcode):
        """Does nothing. It is called with the offset of each token and its first byte."""

    def block_type(self):
        at = self.cursor.at
        if self.cursor.byte() in b"\x40" + VALUE_TYPES:
            return
        if not self.is_extended:
            raise bad_byte(at)
        self.cursor.at = at
        if self.cursor.integer(33, signed=True) < 0:
            raise bad_byte(at)

    def expression(self):
        """Instructions up to the end that closes no block. An open `if` that may have an else branch yet is True."""
        cursor, opened = self.cursor, []
        while True:
            at, opcode = cursor.at, cursor.byte()
            self.begin_token(at, opcode)
            if opcode == 0x0B:
                if not opened:
                    return
                opened.pop()
            elif opcode == 0x05:
                if not opened or not opened[-1]:
                    raise Fault(11, "UnknownOpcode", at)
                opened[-1] = False
            elif opcode in (0x02, 0x03, 0x04):
                if len(opened) == DEPTH:
                    raise Fault(15, "TooDeep", at)
                self.block_type()
                opened.append(opcode == 0x04)
            else:
                self.instruction(at, opcode)

    def instruction(self, at, opcode):
        cursor = self.cursor
        if opcode in (0x0C, 0x0D, 0x10) or 0x20 <= opcode <= 0x24:
            cursor.u32()
        elif opcode == 0x0E:
            cursor.vector(cursor.u32)
            cursor.u32()
        elif opcode == 0x11:
            cursor.u32()
            cursor.one_of(b"\0")
        elif 0x28 <= opcode <= 0x3E:
            cursor.u32()
            cursor.u32()
        elif opcode in (0x3F, 0x40):
            cursor.one_of(b"\0")
        elif opcode == 0x41:
            cursor.integer(32, signed=True)
        elif opcode == 0x42:
            cursor.integer(64, signed=True)
        elif opcode == 0x43:
            cursor.take(4)
        elif opcode == 0x44:
            cursor.take(8)
        elif opcode not in (0x00, 0x01, 0x0F, 0x1A, 0x1B) and not 0x45 <= opcode <= (0xC4 if self.is_extended else 0xBF):
            raise Fault(11, "UnknownOpcode", at)

    def body(self):
        total = 0

        def group():
            nonlocal total
            at = self.cursor.at
            total += self.cursor.u32()
            if total >= 2**32:
                raise Fault(12, "TooManyLocals", at)
            self.cursor.one_of(VALUE_TYPES)

        self.cursor.vector(group)
        self.expression()


class Contents:
    """The contents of one section."""

    def __init__(self, cursor, is_extended):
        self.cursor, self.is_extended = cursor, is_extended
        self.code = self.code_at(cursor, is_extended)

    def code_at(self, cursor, is_extended):
        """What reads code from there."""
        return Code(cursor, is_extended)

    def limits(self):
        if self.cursor.one_of(b"\0\1") == 1:
            self.cursor.u32()
        self.cursor.u32()

    def table_type(self):
        self.cursor.one_of(b"\x70")
        self.limits()

    def global_type(self):
        self.cursor.one_of(VALUE_TYPES)
        self.cursor.one_of(b"\0\1")

    def function_type(self):
        self.cursor.one_of(b"\x60")
        for _ in range(2):
            self.cursor.vector(lambda: self.cursor.one_of(VALUE_TYPES))

    def imported(self):
        self.cursor.name()
        self.cursor.name()
        (self.cursor.u32, self.table_type, self.limits, self.global_type)[self.cursor.one_of(b"\0\1\2\3")]()

    def defined_global(self):
        self.global_type()
        self.code.expression()

    def export(self):
        self.cursor.name()
        self.cursor.one_of(b"\0\1\2\3")
        self.cursor.u32()

    def element(self):
        self.cursor.u32()
        self.code.expression()
        self.cursor.vector(self.cursor.u32)

    def data(self):
        self.cursor.u32()
        self.code.expression()
        self.cursor.take(self.cursor.u32())

    def coded(self):
        inside = self.cursor.take(self.cursor.u32())
        self.code_at(inside, self.is_extended).body()
        if inside.at < inside.end:
            raise Fault(14, "BodySize", inside.at)

    def item(self, number):
        """What reads an item of the section of an id, but for custom ones. That of id 8 has one, without a count."""
        return {
            1: self.function_type,
            2: self.imported,
            3: self.cursor.u32,
            4: self.table_type,
            5: self.limits,
            6: self.defined_global,
            7: self.export,
            8: self.cursor.u32,
            9: self.element,
            10: self.coded,
            11: self.data,
        }[number]

    def section(self, number):
        """The section of an id but for custom ones and those that are counted, 3 and 10."""
        if number == 8:
            self.cursor.u32()
        else:
            self.cursor.vector(self.item(number))


def read_section(number, contents, is_extended, functions):
    """Reads one section whole. Returns how many functions are declared."""
    start, inside = contents.at, Contents(contents, is_extended)
    if number == 0:
        contents.name()
        return functions
    if number == 3:
        functions = contents.u32()
        for _ in range(functions):
            contents.u32()
    elif number == 10:
        count = contents.u32()
        if count != functions:
            raise Fault(13, "FuncCodeCount", start)
        for _ in range(count):
            inside.coded()
    else:
        inside.section(number)
    if contents.at < contents.end:
        raise Fault(8, "SectionSize", contents.at)
    return functions


def read(data, is_extended=False):
    """Reads a module. Raises the first fault."""
    if len(data) > LIMIT:
        raise Fault(16, "LongInput", LIMIT)
    cursor = Cursor(data, 0, len(data))
    for number, name, wanted in ((1, "BadMagic", b"\0asm"), (2, "BadVersion", b"\1\0\0\0")):
        half = cursor.take(4)
        if data[half.at:half.end] != wanted:
            raise Fault(number, name, half.at)
    last = functions = 0
    has_codes = False
    while cursor.at < cursor.end:
        at, number = cursor.at, cursor.byte()
        if number > 11:
            raise Fault(6, "UnknownSection", at)
        if 0 < number <= last:
            raise Fault(7, "SectionOrder", at)
        last = max(last, number)
        functions = read_section(number, cursor.take(cursor.u32()), is_extended, functions)
        has_codes = has_codes or number == 10
    if functions and not has_codes:
        raise Fault(13, "FuncCodeCount", len(data))


def first_fault(data, is_extended=False):
    """The words that tell the first fault, or nothing."""
    try:
        read(data, is_extended)
    except Fault as fault:
        return str(fault)
    return None
