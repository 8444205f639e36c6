"""Modules and scripts whose allocations are refused, what is listed of them, and what edits make of them."""

HEADER = b"\0asm\1\0\0\0"
# Three types, with a custom section before them and three behind them, two of one name.
MODULE = (
    HEADER
    + b"\x00\x06\x04name\x07"
    + b"\x01\x11\x03\x60\x00\x00\x60\x02\x7f\x7e\x01\x7d\x60\x04\x7f\x7f\x7c\x7c\x00"
    + b"\x00\x0a\x05first\x01\x02\x03\x04"
    + b"\x00\x07\x06second"
    + b"\x00\x08\x05first\x05\x06"
)
# A valid module with imports of each kind, an initialiser, exports, a start function, offsets, and a body with a block.
VALID = (
    HEADER
    + b"\x01\x09\x02\x60\x00\x00\x60\x01\x7f\x01\x7e"
    + b"\x02\x1e\x04\x01a\x01f\x00\x00\x01a\x01t\x01\x70\x01\x01\x02\x01a\x01m\x02\x00\x01\x01a\x01g\x03\x7f\x00"
    + b"\x03\x02\x01\x01"
    + b"\x06\x06\x01\x7f\x01\x41\x00\x0b"
    + b"\x07\x09\x02\x01f\x00\x01\x01g\x03\x01"
    + b"\x08\x01\x00"
    + b"\x09\x08\x01\x00\x23\x00\x0b\x02\x00\x01"
    + b"\x0a\x0f\x01\x0d\x01\x01\x7e\x02\x40\x20\x00\x0d\x00\x0b\x42\x00\x0b"
    + b"\x0b\x08\x01\x00\x41\x00\x0b\x02\xaa\xbb"
)
# A valid module whose exports, start function, elements, calls and globals move behind imports, with custom sections in three places.
MOVING = (
    HEADER
    + b"\x00\x04\x01\x63\x01\x02"
    + b"\x01\x09\x02\x60\x00\x00\x60\x01\x7f\x01\x7e"
    + b"\x02\x1e\x04\x01\x61\x01\x66\x00\x00\x01\x61\x01\x74\x01\x70\x01\x01\x02\x01\x61\x01\x6d\x02\x00\x01\x01\x61\x01"
    + b"\x67\x03\x7f\x00"
    + b"\x03\x03\x02\x01\x00"
    + b"\x06\x06\x01\x7f\x01\x23\x00\x0b"
    + b"\x07\x11\x04\x01\x66\x00\x01\x01\x74\x01\x00\x01\x6d\x02\x00\x01\x67\x03\x01"
    + b"\x08\x01\x02"
    + b"\x09\x09\x01\x00\x23\x00\x0b\x03\x00\x01\x02"
    + b"\x00\x02\x01\x64"
    + b"\x0a\x1d\x02\x12\x01\x01\x7e\x02\x40\x20\x00\x0d\x00\x0b\x10\x02\x23\x01\x1a\x42\x00\x0b\x08\x00\x10\x00\x23\x00"
    + b"\x24\x01\x0b"
    + b"\x0b\x08\x01\x00\x41\x00\x0b\x02\xaa\xbb"
    + b"\x00\x03\x01\x63\x03"
)
# A body with a br_table.
BRANCHES = HEADER + b"\x01\x04\x01\x60\x00\x00\x03\x02\x01\x00\x0a\x0a\x01\x08\x00\x41\x00\x0e\x01\x00\x00\x0b"
# A body that leaves an operand.
INVALID_MODULE = HEADER + b"\x01\x04\x01\x60\x00\x00\x03\x02\x01\x00\x0a\x06\x01\x04\x00\x41\x01\x0b"
INVALID_LINE = b"invalid V15 StackHeight at section 10 item 0 token 1\n"
# A branch with a label and no operand, and a body that cannot be read, each with what is said of the place.
NO_OPERAND = HEADER + b"\x01\x04\x01\x60\x00\x00\x03\x02\x01\x00\x0a\x08\x01\x06\x00\x0e\x01\x00\x00\x0b"
NO_OPERAND_LINES = b"invalid V13 StackUnderflow at section 10 item 0 token 0\n at 0x00000017 in func[0]: br_table 0 0\n"
NO_OPCODE = HEADER + b"\x01\x04\x01\x60\x00\x00\x03\x02\x01\x00\x0a\x05\x01\x03\x00\xff\x0b"
NO_OPCODE_LINES = b"malformed R11 UnknownOpcode at 0x00000017\n in func[0]\n"
# A segment of two functions, of which the second is not there.
NO_FUNC = HEADER + b"\x01\x04\x01\x60\x00\x00\x03\x02\x01\x00\x04\x04\x01\x70\x00\x02\x09\x08\x01\x00\x41\x00\x0b\x02\x00\x01\x0a\x04\x01\x02\x00\x0b"
NO_FUNC_LINES = b"invalid V7 UnknownFunc at section 9 item 0\n at 0x0000001b entry 1\n"
# Modules with a fault behind what takes memory to read: in the blocks of a second body, which is invalid or malformed, and at a second type with two
# results, in the profile that has none.
FAULTY = {
    "a body that is invalid": HEADER
    + b"\x01\x04\x01\x60\x00\x00\x02\x07\x01\x01a\x01f\x00\x00\x03\x03\x02\x00\x00"
    + b"\x0a\x0f\x02\x02\x00\x0b\x0a\x00\x02\x40\x02\x40\x6a\x0b\x0b\x01\x0b",
    "a body that is malformed": HEADER
    + b"\x01\x04\x01\x60\x00\x00\x02\x07\x01\x01a\x01f\x00\x00\x03\x03\x02\x00\x00"
    + b"\x0a\x0f\x02\x02\x00\x0b\x0a\x00\x02\x40\x02\x40\xff\x0b\x0b\x01\x0b",
    "a type with two results": HEADER + b"\x01\x0b\x02\x60\x01\x7f\x00\x60\x01\x7e\x02\x7f\x7f",
}
FAULTY_IN = {"a type with two results": "0"}  # the profiles, where they are not both
# A block whose type is the index of a function type.
EXTENDED = (
    HEADER
    + b"\x01\x09\x02\x60\x00\x00\x60\x01\x7f\x01\x7f"
    + b"\x03\x02\x01\x00\x0a\x0b\x01\x09\x00\x41\x00\x02\x01\x45\x0b\x1a\x0b"
)
# Every section, and code and a type that only the other profile has.
WIDE = (
    HEADER
    + b"\x00\x04\x01\x63\x01\x02"
    + b"\x01\x10\x03\x60\x00\x00\x60\x01\x7f\x01\x7e\x60\x02\x7f\x7f\x02\x7f\x7f"
    + b"\x02\x0e\x02\x01\x61\x01\x66\x00\x00\x01\x61\x01\x67\x03\x7f\x00"
    + b"\x03\x03\x02\x01\x00"
    + b"\x04\x04\x01\x70\x00\x03"
    + b"\x05\x04\x01\x01\x01\x02"
    + b"\x06\x06\x01\x7f\x01\x23\x00\x0b"
    + b"\x07\x11\x04\x01\x66\x00\x01\x01\x74\x01\x00\x01\x6d\x02\x00\x01\x67\x03\x01"
    + b"\x08\x01\x02"
    + b"\x09\x09\x01\x00\x23\x00\x0b\x03\x00\x01\x02"
    + b"\x00\x02\x01\x64"
    + b"\x0a\x2c\x02\x13\x01\x01\x7e\x20\x00\x41\x01\x02\x02\xc1\x0b\x6a\xac\x10\x02\x23\x01\x1a\x0b\x16\x00\x10\x00\x23"
    + b"\x00\x24\x01\x41\x05\x03\x01\xac\x0b\xc4\x1a\x41\x00\x0e\x01\x00\x00\x0b"
    + b"\x0b\x08\x01\x00\x41\x00\x0b\x02\xaa\xbb"
    + b"\x00\x03\x01\x63\x03"
)
# An edit of each kind. The imports of a table and of a memory make MOVING invalid.
OF_EACH_KIND = b"""type i32 f64
import func a h 1
import table a u 4
import memory a n 1 3
import global a i i64 const
func 0 00410010021a0b
body 2 01017e20010b
global i32 var 23000b
export func h 2
unexport g
custom set c 0909
custom strip c
strip
"""
# The same, with code that only the other profile has.
WIDE_OF_EACH_KIND = OF_EACH_KIND.replace(b"00410010021a0b", b"0041001002c21a0b").replace(b"01017e20010b", b"01017e20000201ac0b0b")
SCRIPT = b"type i32,i64 f32\ncustom strip first\n\ncustom strip absent\ntype - -\ncustom strip x:73\ntype f64 i32"
# What is listed of VALID, and of EXTENDED.
HEADERS = b"""    Type start=0x0000000a end=0x00000013 size=0x00000009 count=2
  Import start=0x00000015 end=0x00000033 size=0x0000001e count=4
Function start=0x00000035 end=0x00000037 size=0x00000002 count=1
  Global start=0x00000039 end=0x0000003f size=0x00000006 count=1
  Export start=0x00000041 end=0x0000004a size=0x00000009 count=2
   Start start=0x0000004c end=0x0000004d size=0x00000001 index=0
    Elem start=0x0000004f end=0x00000057 size=0x00000008 count=1
    Code start=0x00000059 end=0x00000068 size=0x0000000f count=1
    Data start=0x0000006a end=0x00000072 size=0x00000008 count=1
"""
DETAILS = b"""Type[2]:
 - type[0] ()->()
 - type[1] (i32)->(i64)
Import[4]:
 - import[0] a f func[0] type=0
 - import[1] a t table[0] min=1 max=2
 - import[2] a m memory[0] min=1
 - import[3] a g global[0] i32 const
Function[1]:
 - func[1] type=1
Global[1]:
 - global[1] i32 var init=41000b
Export[2]:
 - export[0] f func 1
 - export[1] g global 1
Start:
 - start 0
Elem[1]:
 - elem[0] table=0 offset=23000b funcs=0,1
Code[1]:
 - func[1] size=13
Data[1]:
 - data[0] memory=0 offset=41000b bytes=aabb
"""
CODE = b"""func[1] type=1:
 locals i64*1
 0000005e: block
 00000060:   local.get 0
 00000062:   br_if 0
 00000064: end
 00000065: i64.const 0
 00000067: end
"""
USES = b"func[1]: type[1]\n"
EXTENDED_CODE = b"""func[0] type=0:
 0000001c: i32.const 0
 0000001e: block type=1
 00000020:   i32.eqz
 00000021: end
 00000022: drop
 00000023: end
"""
EXTENDED_USES = b"func[0]: type[0] type[1]\n"
# A module of two codes: the first spells its size, its counts, an integer and an empty else longer than need be. What is listed of it.
PADDED = HEADER + (
    b"\x01\x04\x01\x60\x00\x00"
    b"\x03\x03\x02\x00\x00"
    b"\x0a\x14\x02\x8e\x00\x81\x00\x82\x80\x00\x7f\x41\x80\x00\x04\x40\x05\x0b\x0b\x02\x00\x0b"
)
PADDED_HEADERS = b"""    Type start=0x0000000a end=0x0000000e size=0x00000004 count=1
Function start=0x00000010 end=0x00000013 size=0x00000003 count=2
    Code start=0x00000015 end=0x00000023 size=0x0000000e count=2
"""
PADDED_DETAILS = b"""Type[1]:
 - type[0] ()->()
Function[2]:
 - func[0] type=0
 - func[1] type=0
Code[2]:
 - func[0] size=9
 - func[1] size=2
"""
UNKNOWN_LAST = b"malformed R6 UnknownSection at 0x00000042\n"
UNREAD = b"cannot read in.wasm\n"
BAD_WORDS = b"bad command line\n"
NO_OUT = b"""error: the following required arguments were not provided:
  <OUT>

Usage: wasmkit edit <FILE> <SCRIPT> <OUT>

For more information, try '--help'.
"""
HELP = b"""Reads, judges, lists and edits WebAssembly 1.0 binary modules

Usage: wasmkit <COMMAND>

Commands:
  edit      Makes the edits of a script on a module
  objdump   Lists parts of a module, by its written form
  sections  Lists the sections of a module, unread
  strip     Removes the custom sections of a module
  validate  Says whether a module is valid, or its first fault
  help      Print this message or the help of the given subcommand(s)

Options:
  -h, --help     Print help
  -V, --version  Print version

Example:
  wasmkit validate app.wasm

Exit status:
  0  it was done; of edit and validate: the module is valid, and each edit was made
  1  the module is invalid, or an edit was refused
  2  the file is not a module
  3  the command line or the script is wrong, or it asked for help or the version
  4  a file could not be read or written, or standard output could not be written
  5  there was not enough memory
"""

# What the commands make, of MODULE but where the name says else.
ONE_TYPE = HEADER + b"\x01\x04\x01\x60\x00\x00"
TYPES = b"\x60\x00\x00\x60\x02\x7f\x7e\x01\x7d\x60\x04\x7f\x7f\x7c\x7c\x00"
EDITED = (
    HEADER
    + b"\x00\x06\x04name\x07"
    + b"\x01\x1f\x06"
    + TYPES
    + b"\x60\x02\x7f\x7e\x01\x7d\x60\x00\x00\x60\x01\x7c\x01\x7f"
    + b"\x00\x07\x06second"
)
OF_TWO_RESULTS = MODULE.replace(b"\x01\x11\x03" + TYPES, b"\x01\x16\x04" + TYPES + b"\x60\x00\x02\x7f\x7f")
WITH_CUSTOM = HEADER + b"\x01\x11\x03" + TYPES + b"\x00\x04\x02\xc3\xa9\x07"
KEPT = HEADER + b"\x01\x11\x03" + TYPES + b"\x00\x0a\x05first\x01\x02\x03\x04" + b"\x00\x08\x05first\x05\x06"
EXTENDED_TYPES = b"\x60\x00\x00\x60\x01\x7f\x01\x7f"
EXTENDED_EDITED = EXTENDED.replace(
    b"\x01\x09\x02" + EXTENDED_TYPES, b"\x01\x0c\x03" + EXTENDED_TYPES + b"\x60\x00\x00"
)
# What OF_EACH_KIND makes of MOVING, and what it makes where the module has to stay valid.
ALL_EDITED = (
    HEADER
    + b"\x01\x0e\x03\x60\x00\x00\x60\x01\x7f\x01\x7e\x60\x01\x7f\x01\x7c"
    + b"\x02\x3b\x08\x01\x61\x01\x66\x00\x00\x01\x61\x01\x74\x01\x70\x01\x01\x02\x01\x61\x01\x6d\x02\x00\x01\x01\x61\x01"
    + b"\x67\x03\x7f\x00\x01\x61\x01\x68\x00\x01\x01\x61\x01\x75\x01\x70\x00\x04\x01\x61\x01\x6e\x02\x01\x01\x03\x01\x61"
    + b"\x01\x69\x03\x7e\x00"
    + b"\x03\x04\x03\x01\x00\x00"
    + b"\x06\x0b\x02\x7f\x01\x23\x00\x0b\x7f\x01\x23\x00\x0b"
    + b"\x07\x11\x04\x01\x66\x00\x02\x01\x74\x01\x00\x01\x6d\x02\x00\x01\x68\x00\x02"
    + b"\x08\x01\x03"
    + b"\x09\x09\x01\x00\x23\x00\x0b\x03\x00\x02\x03"
    + b"\x0a\x19\x03\x06\x01\x01\x7e\x20\x01\x0b\x08\x00\x10\x00\x23\x00\x24\x02\x0b\x07\x00\x41\x00\x10\x02\x1a\x0b"
    + b"\x0b\x08\x01\x00\x41\x00\x0b\x02\xaa\xbb"
)
ALL_KEPT = (
    HEADER
    + b"\x01\x0e\x03\x60\x00\x00\x60\x01\x7f\x01\x7e\x60\x01\x7f\x01\x7c"
    + b"\x02\x2b\x06\x01\x61\x01\x66\x00\x00\x01\x61\x01\x74\x01\x70\x01\x01\x02\x01\x61\x01\x6d\x02\x00\x01\x01\x61\x01"
    + b"\x67\x03\x7f\x00\x01\x61\x01\x68\x00\x01\x01\x61\x01\x69\x03\x7e\x00"
    + b"\x03\x04\x03\x01\x00\x00"
    + b"\x06\x0b\x02\x7f\x01\x23\x00\x0b\x7f\x01\x23\x00\x0b"
    + b"\x07\x11\x04\x01\x66\x00\x02\x01\x74\x01\x00\x01\x6d\x02\x00\x01\x68\x00\x02"
    + b"\x08\x01\x03"
    + b"\x09\x09\x01\x00\x23\x00\x0b\x03\x00\x02\x03"
    + b"\x0a\x19\x03\x06\x01\x01\x7e\x20\x01\x0b\x08\x00\x10\x00\x23\x00\x24\x02\x0b\x07\x00\x41\x00\x10\x02\x1a\x0b"
    + b"\x0b\x08\x01\x00\x41\x00\x0b\x02\xaa\xbb"
)
NOPS = 1600


def two_bytes(number):
    """A number of two bytes, in its shortest form."""
    return bytes([number % 128 + 128, number // 128])


def lengthened(module, size):
    """A module with nops in its second body, of eight bytes, where its code section has that many."""
    section = module.index(b"\x0a" + bytes([size]))
    body = module.index(b"\x08\x00\x10\x00\x23\x00\x24", section)
    front = module[:section] + b"\x0a" + two_bytes(size + 1 + NOPS) + module[section + 2 : body]
    return front + two_bytes(8 + NOPS) + module[body + 1 : body + 8] + b"\x01" * NOPS + module[body + 8 :]


# MOVING with bodies so long that `edit` holds a draft of it, and what OF_EACH_KIND makes of it. Where it has to stay valid, the imports of a
# table and of a memory have a session over all of it make the edits; without them the draft serves.
LONG, LONG_EDITED, LONG_KEPT = lengthened(MOVING, 0x1D), lengthened(ALL_EDITED, 0x19), lengthened(ALL_KEPT, 0x19)
OF_MOST_KINDS = OF_EACH_KIND.replace(b"import table a u 4\nimport memory a n 1 3\n", b"")


def invalid(types):
    """A module with so many types of no parameters and results, and with a body so long that an outline is read of it, which leaves an operand."""
    body = b"\x00" + b"\x01" * NOPS + b"\x41\x01\x0b"
    code = b"\x01" + two_bytes(len(body)) + body
    front = b"\x01" + bytes([1 + 3 * types, types]) + b"\x60\x00\x00" * types + b"\x03\x02\x01\x00"
    return HEADER + front + b"\x0a" + two_bytes(len(code)) + code


LONG_INVALID, LONG_INVALID_EDITED = invalid(1), invalid(2)
LONG_INVALID_LINE = b"invalid V15 StackHeight at section 10 item 0 token %d\n" % (NOPS + 1)
# What WIDE_OF_EACH_KIND makes of WIDE, and what it makes where the module has to stay valid.
WIDE_EDITED = (
    HEADER
    + b"\x01\x15\x04\x60\x00\x00\x60\x01\x7f\x01\x7e\x60\x02\x7f\x7f\x02\x7f\x7f\x60\x01\x7f\x01\x7c"
    + b"\x02\x2b\x06\x01\x61\x01\x66\x00\x00\x01\x61\x01\x67\x03\x7f\x00\x01\x61\x01\x68\x00\x01\x01\x61\x01\x75\x01\x70"
    + b"\x00\x04\x01\x61\x01\x6e\x02\x01\x01\x03\x01\x61\x01\x69\x03\x7e\x00"
    + b"\x03\x04\x03\x01\x00\x00"
    + b"\x04\x04\x01\x70\x00\x03"
    + b"\x05\x04\x01\x01\x01\x02"
    + b"\x06\x0b\x02\x7f\x01\x23\x00\x0b\x7f\x01\x23\x00\x0b"
    + b"\x07\x11\x04\x01\x66\x00\x02\x01\x74\x01\x01\x01\x6d\x02\x01\x01\x68\x00\x02"
    + b"\x08\x01\x03"
    + b"\x09\x09\x01\x01\x23\x00\x0b\x03\x00\x02\x03"
    + b"\x0a\x2c\x03\x0a\x01\x01\x7e\x20\x00\x02\x01\xac\x0b\x0b\x16\x00\x10\x00\x23\x00\x24\x02\x41\x05\x03\x01\xac\x0b"
    + b"\xc4\x1a\x41\x00\x0e\x01\x00\x00\x0b\x08\x00\x41\x00\x10\x02\xc2\x1a\x0b"
    + b"\x0b\x08\x01\x01\x41\x00\x0b\x02\xaa\xbb"
)
WIDE_KEPT = (
    HEADER
    + b"\x01\x15\x04\x60\x00\x00\x60\x01\x7f\x01\x7e\x60\x02\x7f\x7f\x02\x7f\x7f\x60\x01\x7f\x01\x7c"
    + b"\x02\x1b\x04\x01\x61\x01\x66\x00\x00\x01\x61\x01\x67\x03\x7f\x00\x01\x61\x01\x68\x00\x01\x01\x61\x01\x69\x03\x7e"
    + b"\x00"
    + b"\x03\x04\x03\x01\x00\x00"
    + b"\x04\x04\x01\x70\x00\x03"
    + b"\x05\x04\x01\x01\x01\x02"
    + b"\x06\x0b\x02\x7f\x01\x23\x00\x0b\x7f\x01\x23\x00\x0b"
    + b"\x07\x11\x04\x01\x66\x00\x02\x01\x74\x01\x00\x01\x6d\x02\x00\x01\x68\x00\x02"
    + b"\x08\x01\x03"
    + b"\x09\x09\x01\x00\x23\x00\x0b\x03\x00\x02\x03"
    + b"\x0a\x2c\x03\x0a\x01\x01\x7e\x20\x00\x02\x01\xac\x0b\x0b\x16\x00\x10\x00\x23\x00\x24\x02\x41\x05\x03\x01\xac\x0b"
    + b"\xc4\x1a\x41\x00\x0e\x01\x00\x00\x0b\x08\x00\x41\x00\x10\x02\xc2\x1a\x0b"
    + b"\x0b\x08\x01\x00\x41\x00\x0b\x02\xaa\xbb"
)
MOVING_STRIPPED = MOVING.replace(b"\x00\x04\x01\x63\x01\x02", b"", 1).replace(b"\x00\x02\x01\x64", b"").replace(b"\x00\x03\x01\x63\x03", b"")
WIDE_STRIPPED = WIDE.replace(b"\x00\x04\x01\x63\x01\x02", b"", 1).replace(b"\x00\x02\x01\x64", b"").replace(b"\x00\x03\x01\x63\x03", b"")
PIECE = 1 << 16  # how many bytes of a listing go out together, with the rest of their last line


def unsigned(number):
    """A number as WebAssembly spells it, in as few bytes as may be."""
    low, high = number & 0x7F, number >> 7
    return bytes([low | 0x80]) + unsigned(high) if high else bytes([low])


def run_of(nops, labels):
    """Nops, and a br_table of so many labels."""
    return nops * [(b"nop", b"\x01")] + [(b"br_table" + (labels + 1) * b" 0", b"\x0e" + unsigned(labels) + (labels + 1) * b"\x00")]


def long_code(*runs):
    """A module of one body, which has these runs of nops, each with a br_table behind it. Also what is listed of its code, and the beginnings
    of that at which pieces of it go out, as lines come one by one."""
    tokens = [token for run in runs for token in run_of(*run)] + [(b"end", b"\x0b")]
    body = b"\x00" + b"".join(code for _, code in tokens)
    contents = b"\x01" + unsigned(len(body)) + body
    module = HEADER + b"\x01\x04\x01\x60\x00\x00\x03\x02\x01\x00\x0a" + unsigned(len(contents)) + contents
    text, at, gone, pieces = bytearray(b"func[0] type=0:\n"), len(module) - len(body) + 1, 0, []
    for line, code in tokens:
        text += b" %08x: %s\n" % (at, line)
        at += len(code)
        if len(text) - gone >= PIECE:
            gone = len(text)
            pieces.append(bytes(text))
    return module, bytes(text), pieces


# The line of a long br_table asks for memory, behind these.
BEHIND_PIECES = {
    "two pieces": long_code((9034, 100000)),
    "one piece": long_code((4456, 100000)),
    "lines of all lengths": long_code((4000, 5), (100, 3000), (3000, 0), (1400, 100000), (7, 9)),
}
