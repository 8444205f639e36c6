"""Command lines whose allocations are refused, and what they answer where none is."""
from dataclasses import dataclass

from samples import (
    ALL_EDITED,
    ALL_KEPT,
    BAD_WORDS,
    BEHIND_PIECES,
    BRANCHES,
    CODE,
    DETAILS,
    EDITED,
    EXTENDED,
    EXTENDED_CODE,
    EXTENDED_EDITED,
    EXTENDED_USES,
    HEADER,
    HEADERS,
    HELP,
    INVALID_LINE,
    INVALID_MODULE,
    KEPT,
    LONG,
    LONG_EDITED,
    LONG_INVALID,
    LONG_INVALID_EDITED,
    LONG_INVALID_LINE,
    LONG_KEPT,
    MODULE,
    MOVING,
    MOVING_STRIPPED,
    NO_FUNC,
    NO_FUNC_LINES,
    NO_OPCODE,
    NO_OPCODE_LINES,
    NO_OPERAND,
    NO_OPERAND_LINES,
    NO_OUT,
    OF_EACH_KIND,
    OF_MOST_KINDS,
    OF_TWO_RESULTS,
    ONE_TYPE,
    PADDED,
    PADDED_DETAILS,
    PADDED_HEADERS,
    SCRIPT,
    UNKNOWN_LAST,
    UNREAD,
    USES,
    VALID,
    WIDE,
    WIDE_EDITED,
    WIDE_KEPT,
    WIDE_OF_EACH_KIND,
    WIDE_STRIPPED,
    WITH_CUSTOM,
)


@dataclass
class Command:
    """A command line, the files that it finds, and what it answers where no allocation is refused. The files that it finds
    stay as they are. In the place of bytes a link has the name that it leads to."""

    name: str
    words: list
    files: dict
    status: int
    stdout: bytes = b""
    stderr: bytes = b""
    out: bytes = None  # what OUT holds, or None where it is not made
    # The beginnings of standard output that may stand there where memory is wanting, beside nothing. The last one is left once at least.
    pieces: tuple = ()

    def is_usual(self, ran):
        files = self.files if self.out is None else {**self.files, "out.wasm": self.out}
        return (ran.status, ran.stdout, ran.stderr, ran.files) == (self.status, self.stdout, self.stderr, files)

    def of_memory(self, is_onward):
        """What both streams may have where an allocation was refused, alone or with all behind it."""
        return {(piece, NO_MEMORY) for piece in (b"", *self.pieces)}

    def wanted(self):
        """What both streams have for one refusal at least."""
        return {(piece, NO_MEMORY) for piece in (b"", *self.pieces)[-1:]}


@dataclass
class Each(Command):
    """`validate --each`, and of each file what it adds to standard output and to standard error."""

    answers: tuple = ()

    def of_files(self, answers):
        return b"".join(out for out, _ in answers), b"".join(err for _, err in answers)

    def of_memory_at_one(self, is_onward):
        wanting = (b"", NO_MEMORY)
        for at in range(len(self.answers)):
            behind = [wanting] * (len(self.answers) - at - 1) if is_onward else self.answers[at + 1 :]
            yield self.of_files([*self.answers[:at], wanting, *behind])

    def of_memory(self, is_onward):
        return {(b"", NO_MEMORY), *self.of_memory_at_one(is_onward)}

    def wanted(self):
        return {*self.of_memory_at_one(False), *self.of_memory_at_one(True)}


def each(name, words, files, status, answers):
    """The command line, whose files are asked for in their order."""
    command = Each(name, words, files, status, answers=answers)
    command.stdout, command.stderr = command.of_files(answers)
    return command


NO_MEMORY = b"out of memory\n"
EDIT = ["edit", "in.wasm", "edits", "out.wasm"]
EDIT_EXTENDED = [*EDIT, "--extended"]
EDIT_KEPT = [*EDIT, "--keep-valid"]
OBJDUMP = ["objdump", "in.wasm"]
SECTIONS = ["sections", "in.wasm"]
VALIDATE = ["validate", "in.wasm"]
STRIP = ["strip", "--keep", "first", "in.wasm", "out.wasm"]
REPORT = b"1 ok\n2 ok\n3 refused E3 NoSuchCustom\n4 ok\n5 refused E3 NoSuchCustom\n6 ok\nvalid\n"
FINE = b"1 ok\nvalid\n"
ALL_OK = b"".join(b"%d ok\n" % line for line in range(1, 14))
TABLES, MEMORIES = b"V5 TooManyTables at section 2 item 5\n", b"V6 TooManyMemories at section 2 item 5\n"
ALL_REPORT = ALL_OK + b"invalid " + TABLES
KEPT_REPORT = (
    ALL_OK.replace(b"3 ok\n4 ok\n", b"3 refused E7 WouldBreak " + TABLES + b"4 refused E7 WouldBreak " + MEMORIES, 1) + b"valid\n"
)
MOST_REPORT = ALL_OK.replace(b"12 ok\n13 ok\n", b"") + b"valid\n"
WIDE_TABLES, WIDE_MEMORIES = b"V5 TooManyTables at section 4 item 0\n", b"V6 TooManyMemories at section 5 item 0\n"
WIDE_REPORT = ALL_OK + b"invalid " + WIDE_TABLES
WIDE_KEPT_REPORT = KEPT_REPORT.replace(TABLES, WIDE_TABLES).replace(MEMORIES, WIDE_MEMORIES)
INVALID = b"1 ok\ninvalid V1 TypeArity at section 1 item 3\n"
MALFORMED = b"malformed R6 UnknownSection at 0x00000008\n"
BAD_CODE = b"malformed R11 UnknownOpcode at 0x00000028\n"
BAD_SCRIPT = b"script S1 BadWord line 2\n"
OF_CUSTOMS = b"custom set second 00ff\ncustom set new -\nstrip\ncustom set x:c3a9 07\n"
CUSTOMS_REPORT = b"1 ok\n2 ok\n3 ok\n4 ok\nvalid\n"
LISTED = (
    b"  Custom start=0x0000000a end=0x00000010 size=0x00000006\n"
    b"    Type start=0x00000012 end=0x00000023 size=0x00000011\n"
    b"  Custom start=0x00000025 end=0x0000002f size=0x0000000a\n"
    b"  Custom start=0x00000031 end=0x00000038 size=0x00000007\n"
    b"  Custom start=0x0000003a end=0x00000042 size=0x00000008\n"
)


# By the first OUT is `out.wasm`.
LINKS = {"first": "./second", "second": "out.wasm"}


def files(module, script):
    return {"in.wasm": module, "edits": script}


COMMANDS = [
    Command("edit", EDIT, files(MODULE, SCRIPT), 1, REPORT, out=EDITED),
    Command("edit of the empty module", EDIT, files(HEADER, b"type - -\n"), 0, FINE, out=ONE_TYPE),
    Command("edit that makes an invalid module", EDIT, files(MODULE, b"type - i32,i32"), 1, INVALID, out=OF_TWO_RESULTS),
    Command("edit through links", [*EDIT[:3], "first"], {**files(MODULE, SCRIPT), **LINKS}, 1, REPORT, out=EDITED),
    Command("edit of a malformed module", EDIT, files(HEADER + b"\x0c\x00", b""), 2, MALFORMED),
    Command("edit by a bad script", EDIT, files(MODULE, b"type - -\ntype"), 3, BAD_SCRIPT),
    Command("edit of a missing file", EDIT, {"edits": b""}, 4, stderr=UNREAD),
    Command("edit with a word missing", EDIT[:3], files(MODULE, b""), 3, stderr=NO_OUT),
    Command("edit onto the script", [*EDIT[:3], "edits"], files(MODULE, b""), 3, stderr=BAD_WORDS),
    Command("edit of custom sections", EDIT, files(MODULE, OF_CUSTOMS), 0, CUSTOMS_REPORT, out=WITH_CUSTOM),
    Command("edit in the other profile", EDIT_EXTENDED, files(EXTENDED, b"type - -"), 0, FINE, out=EXTENDED_EDITED),
    Command("edit of each kind", EDIT, files(MOVING, OF_EACH_KIND), 1, ALL_REPORT, out=ALL_EDITED),
    Command("edit of each kind that keeps valid", EDIT_KEPT, files(MOVING, OF_EACH_KIND), 1, KEPT_REPORT, out=ALL_KEPT),
    Command("edit of each kind by a draft", EDIT, files(LONG, OF_EACH_KIND), 1, ALL_REPORT, out=LONG_EDITED),
    Command(
        "edit of an invalid module of long bodies",
        EDIT,
        files(LONG_INVALID, b"type - -"),
        1,
        b"1 ok\n" + LONG_INVALID_LINE,
        out=LONG_INVALID_EDITED,
    ),
    Command("edit by a draft that gives up", EDIT_KEPT, files(LONG, OF_EACH_KIND), 1, KEPT_REPORT, out=LONG_KEPT),
    Command("edit by a draft that keeps valid", EDIT_KEPT, files(LONG, OF_MOST_KINDS), 0, MOST_REPORT, out=LONG_KEPT),
    Command(
        "edit of each kind in the other profile",
        EDIT_EXTENDED,
        files(WIDE, WIDE_OF_EACH_KIND),
        1,
        WIDE_REPORT,
        out=WIDE_EDITED,
    ),
    Command(
        "edit of each kind that keeps valid in the other profile",
        [*EDIT_EXTENDED, "--keep-valid"],
        files(WIDE, WIDE_OF_EACH_KIND),
        1,
        WIDE_KEPT_REPORT,
        out=WIDE_KEPT,
    ),
    Command("objdump", OBJDUMP, {"in.wasm": VALID}, 0, HEADERS),
    Command("objdump of details", [*OBJDUMP, "--details"], {"in.wasm": VALID}, 0, DETAILS),
    Command("objdump of code", [*OBJDUMP, "--code"], {"in.wasm": VALID}, 0, CODE),
    Command("objdump of uses", [*OBJDUMP, "--uses"], {"in.wasm": VALID}, 0, USES),
    Command(
        "objdump of two parts",
        [*OBJDUMP, "--uses", "--headers"],
        {"in.wasm": VALID},
        0,
        HEADERS + USES,
        pieces=(HEADERS,),
    ),
    Command(
        "objdump of headers and details of padded codes",
        [*OBJDUMP, "--headers", "--details"],
        {"in.wasm": PADDED},
        0,
        PADDED_HEADERS + PADDED_DETAILS,
        pieces=(PADDED_HEADERS,),
    ),
    Command("objdump of a malformed code behind a padded one", OBJDUMP, {"in.wasm": PADDED[:-1] + b"\x06"}, 2, BAD_CODE),
    Command(
        "objdump in the other profile",
        [*OBJDUMP, "--code", "--uses", "--extended"],
        {"in.wasm": EXTENDED},
        0,
        EXTENDED_CODE + EXTENDED_USES,
        pieces=(EXTENDED_CODE,),
    ),
    *(
        Command(f"objdump of code behind {what}", [*OBJDUMP, "--code"], {"in.wasm": module}, 0, text, pieces=tuple(pieces[:-1]))
        for what, (module, text, pieces) in BEHIND_PIECES.items()
    ),
    Command("objdump of a malformed module", OBJDUMP, {"in.wasm": HEADER + b"\x0c\x00"}, 2, MALFORMED),
    Command("objdump of a missing file", OBJDUMP, {}, 4, stderr=UNREAD),
    Command("sections", SECTIONS, {"in.wasm": MODULE}, 0, LISTED),
    Command("sections of a malformed module", SECTIONS, {"in.wasm": MODULE + b"\x0c\x00"}, 2, LISTED + UNKNOWN_LAST),
    Command("sections of a missing file", SECTIONS, {}, 4, stderr=UNREAD),
    Command("validate", VALIDATE, {"in.wasm": VALID}, 0, b"valid\n"),
    Command("validate of labels", VALIDATE, {"in.wasm": BRANCHES}, 0, b"valid\n"),
    Command("validate of an invalid module", VALIDATE, {"in.wasm": INVALID_MODULE}, 1, INVALID_LINE),
    Command("validate of a malformed module", VALIDATE, {"in.wasm": HEADER + b"\x0c\x00"}, 2, MALFORMED),
    Command("validate of a missing file", VALIDATE, {}, 4, stderr=UNREAD),
    Command("validate with the place of a token", [*VALIDATE, "--explain"], {"in.wasm": NO_OPERAND}, 1, NO_OPERAND_LINES),
    Command("validate with the entry of a segment", [*VALIDATE, "--explain"], {"in.wasm": NO_FUNC}, 1, NO_FUNC_LINES),
    Command("validate with the body of a fault", [*VALIDATE, "--explain"], {"in.wasm": NO_OPCODE}, 2, NO_OPCODE_LINES),
    Command("validate in the other profile", [*VALIDATE, "--extended"], {"in.wasm": EXTENDED}, 0, b"valid\n"),
    each(
        "validate of several files",
        ["validate", "--each", "in.wasm", "none", "wrong.wasm", "bad.wasm", "in.wasm", "x:y"],
        {"in.wasm": VALID, "wrong.wasm": INVALID_MODULE, "bad.wasm": HEADER + b"\x0c\x00", "x:y": BRANCHES},
        4,
        (
            (b"in.wasm: valid\n", b""),
            (b"", b"cannot read none\n"),
            (b"wrong.wasm: " + INVALID_LINE, b""),
            (b"bad.wasm: " + MALFORMED, b""),
            (b"in.wasm: valid\n", b""),
            (b"x:783a79: valid\n", b""),
        ),
    ),
    each("validate of one file of several", ["validate", "in.wasm", "--each"], {"in.wasm": VALID}, 0, ((b"in.wasm: valid\n", b""),)),
    Command("validate of several files without a word for it", ["validate", "in.wasm", "x"], {"in.wasm": VALID}, 3, stderr=BAD_WORDS),
    Command("strip", STRIP, {"in.wasm": MODULE}, 0, out=KEPT),
    Command("strip in the other profile", ["strip", "--extended", *STRIP[3:]], {"in.wasm": EXTENDED}, 0, out=EXTENDED),
    Command("strip of code", ["strip", *STRIP[3:]], {"in.wasm": MOVING}, 0, out=MOVING_STRIPPED),
    Command("strip of each section in the other profile", ["strip", "--extended", *STRIP[3:]], {"in.wasm": WIDE}, 0, out=WIDE_STRIPPED),
    Command("validate of each section in the other profile", [*VALIDATE, "--extended"], {"in.wasm": WIDE}, 0, b"valid\n"),
    Command("strip of a malformed module", STRIP, {"in.wasm": HEADER + b"\x0c\x00"}, 2, MALFORMED),
    Command("strip of a missing file", STRIP, {}, 4, stderr=UNREAD),
    Command("strip onto the module", [*STRIP[:3], "in.wasm", "in.wasm"], {"in.wasm": MODULE}, 3, stderr=BAD_WORDS),
    Command("strip but for no name", ["strip", "--keep", "x:f", *STRIP[3:]], {"in.wasm": MODULE}, 3, stderr=BAD_WORDS),
    Command("--help", ["--help"], {}, 3, stderr=HELP),
    Command("--version", ["--version"], {}, 3, stderr=b"wasmkit 0.9.0\n"),
]
