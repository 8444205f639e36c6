"""A plain reader of scripts, written from docs/SCRIPTS.md alone: it says what is wrong with one first, or how many edits it makes."""
import re

VALUE_TYPES = ("i32", "i64", "f32", "f64")


def is_number(word):
    return re.fullmatch("0|[1-9][0-9]*", word) is not None and int(word) < 2**32


def is_bytes(word):
    return word == "-" or re.fullmatch("([0-9a-fA-F]{2})+", word) is not None


def is_name(word):
    if not word.startswith("x:"):
        return True
    if not re.fullmatch("([0-9a-fA-F]{2})*", word[2:]):
        return False
    try:
        bytes.fromhex(word[2:]).decode("utf-8")
    except UnicodeDecodeError:
        return False
    return True


def are_types(word):
    return word == "-" or all(it in VALUE_TYPES for it in word.split(","))


def is_kind(word):
    return word in ("func", "table", "memory", "global")


def is_value_type(word):
    return word in VALUE_TYPES


def is_mutability(word):
    return word in ("const", "var")


# The words that stand there, or what says whether a word may.
LINES = [
    ["type", are_types, are_types],
    ["import", "func", is_name, is_name, is_number],
    *(["import", kind, is_name, is_name, *sizes] for kind in ("table", "memory") for sizes in ([is_number], 2 * [is_number])),
    ["import", "global", is_name, is_name, is_value_type, is_mutability],
    ["func", is_number, is_bytes],
    ["body", is_number, is_bytes],
    ["global", is_value_type, is_mutability, is_bytes],
    ["export", is_kind, is_name, is_number],
    ["unexport", is_name],
    ["custom", "set", is_name, is_bytes],
    ["custom", "strip", is_name],
    ["strip"],
]


def is_at(wanted, word):
    return word == wanted if isinstance(wanted, str) else wanted(word)


def is_edit(line):
    words = line.decode("ascii").split(" ")
    if not all(re.fullmatch("[\x21-\x7e]+", word) for word in words):
        return False
    return any(len(line) == len(words) and all(map(is_at, line, words)) for line in LINES)


def read(script):
    """The line that tells the first fault, or nothing, and how many edits there are."""
    edits = 0
    for number, line in enumerate(script.split(b"\n"), 1):
        if any(byte > 127 for byte in line):
            return f"script S2 NotAscii line {number}", 0
        if line and not is_edit(line):
            return f"script S1 BadWord line {number}", 0
        edits += bool(line)
    return None, edits
