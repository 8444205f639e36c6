"""Random modules, random changes of them, and random scripts of edits."""
import random

I32, I64, F32, F64 = 0x7F, 0x7E, 0x7D, 0x7C
TYPES = (I32, I64, F32, F64)
NAMES = {I32: "i32", I64: "i64", F32: "f32", F64: "f64"}
HEADER = b"\0asm\1\0\0\0"


def leb(n, pad=0):
    """An unsigned number, with so many bytes more than it needs, as far as five bytes hold them."""
    out = bytearray()
    while True:
        byte, n = n & 127, n >> 7
        if n == 0:
            break
        out.append(byte | 128)
    pad = min(pad, 4 - len(out))
    if pad <= 0:
        return bytes(out) + bytes([byte])
    return bytes(out) + bytes([byte | 128]) + b"\x80" * (pad - 1) + b"\0"


def sleb(n):
    """A signed number in its shortest spelling."""
    out = bytearray()
    while True:
        byte, n = n & 127, n >> 7
        if (n, byte & 64) in ((0, 0), (-1, 64)):
            return bytes(out) + bytes([byte])
        out.append(byte | 128)


def constant(ty, chance):
    """The constant of a type."""
    if ty == I32:
        return b"\x41" + sleb(chance.choice([0, 1, -1, 63, 64, -65, 2**31 - 1, -(2**31), chance.randrange(-500, 500)]))
    if ty == I64:
        return b"\x42" + sleb(chance.choice([0, -1, 2**63 - 1, -(2**63), chance.randrange(-(2**40), 2**40)]))
    return (b"\x43" + chance.randbytes(4)) if ty == F32 else (b"\x44" + chance.randbytes(8))


# Instructions by what they take and give: opcodes without immediates.
PLAIN = {
    ((I32,), I32): [0x45, 0x67, 0x68, 0x69],
    ((I32, I32), I32): [*range(0x46, 0x50), *range(0x6A, 0x79)],
    ((I64,), I32): [0x50, 0xA7],
    ((I64, I64), I32): [*range(0x51, 0x5B)],
    ((I64,), I64): [0x79, 0x7A, 0x7B],
    ((I64, I64), I64): [*range(0x7C, 0x8B)],
    ((I32,), I64): [0xAC, 0xAD],
    ((F32,), F32): [*range(0x8B, 0x92)],
    ((F32, F32), F32): [*range(0x92, 0x99)],
    ((F32, F32), I32): [*range(0x5B, 0x61)],
    ((F64,), F64): [*range(0x99, 0xA0)],
    ((F64, F64), F64): [*range(0xA0, 0xA7)],
    ((F64, F64), I32): [*range(0x61, 0x67)],
    ((F64,), F32): [0xB6],
    ((F32,), F64): [0xBB],
    ((F32,), I32): [0xA8, 0xA9, 0xBC],
    ((I32,), F32): [0xB2, 0xB3, 0xBE],
    ((F64,), I64): [0xB0, 0xB1, 0xBD],
    ((I64,), F64): [0xB9, 0xBA, 0xBF],
}
# Those of the extended profile besides.
SIGN_EXTENSIONS = {((I32,), I32): [0xC0, 0xC1], ((I64,), I64): [0xC2, 0xC3, 0xC4]}
EXTENDED = {key: PLAIN.get(key, []) + SIGN_EXTENSIONS.get(key, []) for key in {**PLAIN, **SIGN_EXTENSIONS}}
LOADS = {I32: [(0x28, 2), (0x2C, 0), (0x2F, 1)], I64: [(0x29, 3), (0x30, 0), (0x35, 2)], F32: [(0x2A, 2)], F64: [(0x2B, 3)]}
STORES = {I32: [(0x36, 2), (0x3A, 0)], I64: [(0x37, 3), (0x3E, 2)], F32: [(0x38, 2)], F64: [(0x39, 3)]}


class Shape:
    """What a module holds, as far as its code asks."""

    def __init__(self, chance, extended=False):
        self.chance, self.extended = chance, extended
        pick = lambda most: tuple(chance.choice(TYPES) for _ in range(chance.randrange(most + 1)))
        self.types = [((), ())] + [(pick(3), pick(3 if extended else 1)) for _ in range(chance.randrange(4))]
        self.imports = [chance.choice(["func", "func", "global"]) for _ in range(chance.randrange(4))]
        self.table = chance.choice([None, None, "own", "imported"])
        self.memory = chance.choice([None, "own", "own", "imported"])
        self.imported_funcs = [chance.randrange(len(self.types)) for it in self.imports if it == "func"]
        self.own_funcs = [chance.randrange(len(self.types)) for _ in range(chance.randrange(5))]
        self.imported_globals = [(chance.choice(TYPES), chance.random() < 0.3) for it in self.imports if it == "global"]
        self.own_globals = [(chance.choice(TYPES), chance.random() < 0.5) for _ in range(chance.randrange(4))]

    @property
    def funcs(self):
        return self.imported_funcs + self.own_funcs

    @property
    def globals(self):
        return self.imported_globals + self.own_globals


class Body:
    """Code that is written while the operands are counted, so that most of it is valid."""

    def __init__(self, shape, ty):
        self.shape, self.chance = shape, shape.chance
        params, self.results = shape.types[ty]
        self.groups = [(self.chance.randrange(3), self.chance.choice(TYPES)) for _ in range(self.chance.randrange(3))]
        self.locals = list(params) + [ty for count, ty in self.groups for _ in range(count)]
        self.out = bytearray()
        self.labels = [self.results]

    def number(self, n):
        return leb(n, self.chance.choice([0, 0, 0, 0, 1, 4]))

    def run(self, stack, left, depth):
        """Instructions over a stack of their own; returns the stack at their end."""
        chance = self.chance
        for _ in range(left):
            choice = chance.randrange(12)
            if choice < 3 or not stack:
                ty = chance.choice(TYPES)
                self.out += constant(ty, chance)
                stack.append(ty)
            elif choice == 3 and self.locals:
                x = chance.randrange(len(self.locals))
                if stack[-1] == self.locals[x] and chance.random() < 0.7:
                    op = chance.choice([0x21, 0x22])
                    self.out += bytes([op]) + self.number(x)
                    if op == 0x21:
                        stack.pop()
                else:
                    self.out += b"\x20" + self.number(x)
                    stack.append(self.locals[x])
            elif choice == 4 and self.shape.globals:
                x = chance.randrange(len(self.shape.globals))
                ty, is_var = self.shape.globals[x]
                if is_var and stack[-1] == ty:
                    self.out += b"\x24" + self.number(x)
                    stack.pop()
                else:
                    self.out += b"\x23" + self.number(x)
                    stack.append(ty)
            elif choice == 5 and self.shape.funcs:
                x = chance.randrange(len(self.shape.funcs))
                params, results = self.shape.types[self.shape.funcs[x]]
                for ty in params:
                    self.out += constant(ty, chance)
                self.out += b"\x10" + self.number(x)
                stack += results
            elif choice == 6 and depth < 4:
                self.block(stack, left // 2, depth)
            elif choice == 7 and self.shape.memory:
                self.access(stack)
            elif choice == 8 and chance.random() < 0.4:
                self.branch(stack)
            elif choice == 9:
                self.out += b"\x1a"
                stack.pop()
            else:
                self.numeric(stack)
        return stack

    def numeric(self, stack):
        table = EXTENDED if self.shape.extended else PLAIN
        fitting = [(k, v) for k, v in table.items() if tuple(stack[-len(k[0]):]) == k[0]]
        if fitting:
            (takes, gives), ops = self.chance.choice(fitting)
            self.out.append(self.chance.choice(ops))
            del stack[-len(takes):]
            stack.append(gives)

    def access(self, stack):
        ty = self.chance.choice(TYPES)
        stores = self.chance.random() < 0.5
        op, most = self.chance.choice((STORES if stores else LOADS)[ty])
        self.out += constant(I32, self.chance) + (constant(ty, self.chance) if stores else b"")
        self.out += bytes([op]) + self.number(self.chance.randrange(most + 1)) + self.number(self.chance.randrange(2**16))
        if not stores:
            stack.append(ty)

    def block(self, stack, left, depth):
        result = self.chance.choice([None, *TYPES])
        results = () if result is None else (result,)
        kind = self.chance.choice([0x02, 0x03, 0x04])
        if kind == 0x04:
            self.out += constant(I32, self.chance)
        self.out += bytes([kind, 0x40 if result is None else result])
        self.labels.append(() if kind == 0x03 else results)
        self.finish(self.run([], left, depth + 1), results)
        if kind == 0x04 and (result is not None or self.chance.random() < 0.5):
            self.out += b"\x05"
            if result is not None or self.chance.random() < 0.5:
                self.finish(self.run([], left // 2, depth + 1), results)
        self.labels.pop()
        self.out += b"\x0b"
        stack += results

    def branch(self, stack):
        """A branch that may be taken, to a label whose operands are put there first."""
        depth = self.chance.randrange(len(self.labels))
        types = self.labels[-1 - depth]
        for ty in types:
            self.out += constant(ty, self.chance)
        self.out += constant(I32, self.chance) + b"\x0d" + self.number(depth)
        stack += types

    def finish(self, stack, results):
        if self.chance.random() < 0.05:
            self.out.append(self.chance.choice([0x00, 0x0F]) if self.labels[0] == () else 0x00)
            return
        self.out += b"\x1a" * len(stack)
        for ty in results:
            self.out += constant(ty, self.chance)

    def code(self):
        """The code, without its size."""
        self.finish(self.run([], self.chance.randrange(20), 0), self.results)
        groups = b"".join(self.number(count) + bytes([ty]) for count, ty in self.groups)
        return leb(len(self.groups)) + groups + bytes(self.out) + b"\x0b"


def name(chance):
    """A name that a script can spell."""
    return chance.choice(["f", "g", "memory", "main", "env", "a b", "x:61", "", "é", "table", "0"])


def sized(data, chance):
    return leb(len(data), chance.choice([0, 0, 0, 2])) + data


def vector(items, chance):
    return leb(len(items), chance.choice([0, 0, 0, 1])) + b"".join(items)


def text(word, chance):
    return sized(word.encode(), chance)


def limits(chance, most):
    least = chance.randrange(5)
    return bytes([1]) + leb(least) + leb(least + chance.randrange(most)) if chance.random() < 0.5 else bytes([0]) + leb(least)


def initialiser(shape, ty, seen):
    """An expression of a type; `seen` are the globals that it may read."""
    fitting = [x for x, (its, is_var) in enumerate(seen) if its == ty and not is_var]
    if fitting and shape.chance.random() < 0.4:
        return b"\x23" + leb(shape.chance.choice(fitting)) + b"\x0b"
    return constant(ty, shape.chance) + b"\x0b"


def imports_of(shape):
    chance = shape.chance
    funcs, globals_ = iter(shape.imported_funcs), iter(shape.imported_globals)
    descs = []
    for kind in shape.imports:
        if kind == "func":
            descs.append(b"\0" + leb(next(funcs)))
        else:
            ty, is_var = next(globals_)
            descs.append(bytes([3, ty, is_var]))
    if shape.table == "imported":
        descs.append(b"\1\x70" + limits(chance, 10))
    if shape.memory == "imported":
        descs.append(b"\2" + limits(chance, 100))
    return [text(name(chance), chance) + text(name(chance), chance) + desc for desc in descs]


def exports_of(shape):
    chance = shape.chance
    found, used = [], set()
    spaces = [(0, len(shape.funcs)), (1, shape.table is not None), (2, shape.memory is not None), (3, len(shape.globals))]
    for _ in range(chance.randrange(4)):
        kind, count = chance.choice(spaces)
        word = name(chance)
        if count and (word not in used or chance.random() < 0.05):
            used.add(word)
            found.append(text(word, chance) + bytes([kind]) + leb(chance.randrange(count)))
    return found


def module(chance, extended=False):
    """A module that is mostly valid, of WebAssembly 1.0 or of the extended profile."""
    shape = Shape(chance, extended)
    globals_ = [bytes([ty, is_var]) + initialiser(shape, ty, shape.imported_globals) for ty, is_var in shape.own_globals]
    starts = [x for x, ty in enumerate(shape.funcs) if shape.types[ty] == ((), ())]
    offset = lambda: initialiser(shape, I32, shape.imported_globals)
    elems = datas = []
    if shape.table and shape.funcs:
        elems = [b"\0" + offset() + vector([leb(chance.randrange(len(shape.funcs))) for _ in range(3)], chance) for _ in range(chance.randrange(3))]
    if shape.memory:
        datas = [b"\0" + offset() + sized(chance.randbytes(chance.randrange(5)), chance) for _ in range(chance.randrange(3))]
    value_types = lambda types: vector([bytes([ty]) for ty in types], chance)
    lists = [
        (1, [b"\x60" + value_types(params) + value_types(results) for params, results in shape.types]),
        (2, imports_of(shape)),
        (3, [leb(ty) for ty in shape.own_funcs]),
        (4, [b"\x70" + limits(chance, 10)] if shape.table == "own" else []),
        (5, [limits(chance, 100)] if shape.memory == "own" else []),
        (6, globals_),
        (7, exports_of(shape)),
        (8, leb(chance.choice(starts)) if starts and chance.random() < 0.4 else b""),
        (9, elems),
        (10, [sized(Body(shape, ty).code(), chance) for ty in shape.own_funcs]),
        (11, datas),
    ]
    out = bytearray(HEADER)
    for number, items in lists:
        while chance.random() < 0.1:
            out += b"\0" + sized(text(name(chance), chance) + chance.randbytes(chance.randrange(4)), chance)
        if items or (number != 8 and chance.random() < 0.05):
            out += bytes([number]) + sized(items if number == 8 else vector(items, chance), chance)
    return bytes(out)


def changed(data, chance):
    """The bytes with a place or two changed, cut, or put in."""
    data = bytearray(data)
    for _ in range(chance.choice([1, 1, 1, 2, 4])):
        at = chance.randrange(len(data)) if data else 0
        how = chance.randrange(10)
        if how < 6 and data:
            data[at] = chance.choice([chance.randrange(256), data[at] ^ (1 << chance.randrange(8)), 0x0B, 0x80, 0])
        elif how < 8 and data:
            del data[at:at + chance.randrange(1, 4)]
        elif how < 9:
            data[at:at] = chance.randbytes(chance.randrange(1, 4))
        else:
            del data[at:]
    return bytes(data)


def hexadecimal(data):
    return data.hex() or "-"


def word(chance):
    """A name, as a script spells it."""
    it = name(chance)
    if it and all(0x21 <= byte <= 0x7E for byte in it.encode()) and not it.startswith("x:"):
        return it
    return "x:" + it.encode().hex()


def types(chance, most):
    return ",".join(NAMES[chance.choice(TYPES)] for _ in range(chance.randrange(most + 1))) or "-"


def line(chance, shape):
    """A line of a script."""
    index = lambda: str(chance.choice([0, 0, 1, 2, 3, 5, 4294967295]))
    value_type, mut = NAMES[chance.choice(TYPES)], chance.choice(["const", "var"])
    code = Body(shape, chance.randrange(len(shape.types))).code()
    code = changed(code, chance) if chance.random() < 0.2 else code
    first = constant(chance.choice(TYPES), chance) + b"\x0b"
    return chance.choice([
        lambda: f"type {types(chance, 3)} {types(chance, 1)}",
        lambda: f"import func {word(chance)} {word(chance)} {index()}",
        lambda: f"import table {word(chance)} {word(chance)} 1",
        lambda: f"import memory {word(chance)} {word(chance)} 1 3",
        lambda: f"import global {word(chance)} {word(chance)} {value_type} {mut}",
        lambda: f"func {index()} {hexadecimal(code)}",
        lambda: f"body {index()} {hexadecimal(code)}",
        lambda: f"global {value_type} {mut} {hexadecimal(first)}",
        lambda: f"export {chance.choice(['func', 'table', 'memory', 'global'])} {word(chance)} {index()}",
        lambda: f"unexport {word(chance)}",
        lambda: f"custom set {word(chance)} {hexadecimal(chance.randbytes(chance.randrange(3)))}",
        lambda: f"custom strip {word(chance)}",
        lambda: "strip",
    ])()


def script(chance, extended=False):
    """Lines of edits, without a fault of the language."""
    shape = Shape(chance, extended)
    return [line(chance, shape) for _ in range(chance.randrange(1, 7))]


def source(seed):
    return random.Random(seed)
