"""What has to hold of a case: a module, and two scripts."""
import re

from commands import PARTS, Wrong

# The line of a section, as far as both listings have it.
HEADER = re.compile(r"^ *(\w+) (start=\S+ end=\S+ size=\S+)", re.M)


def same(what, one, other):
    if one != other:
        raise Wrong(f"{what}: {one!r} and {other!r}")


def edit(commands, data, lines, keep_valid=False):
    """The replies of a script on a module, the verdict's line, and the module that was written."""
    status, report, out = commands.edit(data, "".join(f"{line}\n" for line in lines).encode(), keep_valid)
    said = report.splitlines()
    if len(said) != len(lines) + 1 or out is None:
        raise Wrong(f"{len(lines)} edits are answered by {said}")
    is_good = said[-1] == "valid" and all(line.endswith(" ok") for line in said[:-1])
    same("the status of edit", status, 0 if is_good else 1)
    return [line.partition(" ")[2] for line in said[:-1]], said[-1], out


def place_of(line):
    """The offset of a fault in its line."""
    return int(re.search(r"at 0x([0-9a-f]{8})$", line)[1], 16)


def try_malformed(commands, data, line):
    """Every command that reads the module gives the same line, and makes no module; no fault of frames comes before it."""
    same("edit", commands.edit(data, b"strip\n", False), (2, line + "\n", None))
    same("edit that keeps modules valid", commands.edit(data, b"strip\n", True), (2, line + "\n", None))
    same("strip", commands.strip(data), (2, line + "\n", None))
    for part in PARTS:
        same(f"objdump --{part}", commands.objdump(data, [part]), (2, line + "\n"))
    status, text = commands.sections(data)
    if status == 2 and place_of(text.splitlines()[-1]) < place_of(line):
        raise Wrong(f"sections finds {text.splitlines()[-1]}, and validate {line}")


def try_written(commands, data, line):
    """Writing, stripping and listing a module."""
    same("the status of sections", commands.sections(data)[0], 0)
    replies, verdict, written = edit(commands, data, [])
    same("no edits", (replies, verdict), ([], line))
    same("validate what was written", commands.validate(written), (0 if line == "valid" else 1, line + "\n"))
    same("written twice", edit(commands, written, [])[2], written)
    status, text, bare = commands.strip(data)
    same("strip", (status, text), (0, ""))
    same("strip twice", commands.strip(bare), (0, "", bare))
    same("strip what was written", commands.strip(written), (0, "", bare))
    same("strip by a script", edit(commands, data, ["strip"])[2], bare)
    same("no edits of what was stripped", edit(commands, bare, []), ([], line, bare))
    listed = commands.objdump(data, PARTS)
    same("objdump", listed, commands.objdump(written, PARTS))
    status, text = commands.objdump(data, PARTS[:2])
    same("headers and details alone", (status, text), (listed[0], listed[1][: len(text)]))
    headers = HEADER.findall(commands.objdump(data, PARTS[:1])[1])
    same("headers", headers, HEADER.findall(commands.sections(written)[1]))


def try_scripts(commands, data, line, one, other):
    """Two scripts, apart and together, and with the module kept valid."""
    first, middle, between = edit(commands, data, one)
    same("validate behind a script", commands.validate(between)[1], middle + "\n")
    second, last, end = edit(commands, between, other)
    same("validate behind two scripts", commands.validate(end)[1], last + "\n")
    same("objdump behind two scripts", commands.objdump(end, PARTS)[0], 0)
    same("two scripts as one", edit(commands, data, one + other), (first + second, last, end))
    replies, verdict, kept = edit(commands, data, one + other, keep_valid=True)
    if line == "valid":
        same("kept valid", verdict, "valid")
    same("validate what was kept", commands.validate(kept)[1], verdict + "\n")
    accepted = [it for it, reply in zip(one + other, replies) if reply == "ok"]
    same("the accepted edits alone", edit(commands, data, accepted)[2], kept)


def try_all(commands, data, one, other):
    """Tries all of it. Returns the line of the module's verdict."""
    status, text = commands.validate(data)
    line = text.rstrip("\n")
    same("validate's status", status, {"valid": 0, "invalid": 1, "malformed": 2}[line.split()[0]])
    if status == 2:
        try_malformed(commands, data, line)
    else:
        try_written(commands, data, line)
        try_scripts(commands, data, line, one, other)
    return line
