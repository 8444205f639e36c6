"""The public calls of the crates, with their clauses, as their sources have them."""
import os
import re
from dataclasses import dataclass, field

TOP = os.path.dirname(os.path.dirname(os.path.dirname(os.path.realpath(__file__))))
CRATES = os.path.join(TOP, "crates")
# What stands between quotes, and comments: none of it is code.
PASSED_OVER = re.compile(r"//[^\n]*|/\*.*?\*/|b?\"(?:[^\"\\]|\\.)*\"|b?'(?:[^'\\\n]|\\[^\n]{1,8})'", re.S)
OPENERS, CLOSERS = "([{", ")]}"


@dataclass
class Clause:
    """A clause of a call: its name, which may be empty, its text in one line, and whether its word has a star: then it is about memory."""

    name: str
    text: str
    is_starred: bool = False


@dataclass
class Call:
    """A public call: whose it is, its name, its parameters and what it gives, and its clauses."""

    crate: str
    owner: str  # a type, or a trait, or `Trait of Type`; nothing of a free function
    name: str
    parameters: list
    result: str
    clauses: list = field(default_factory=list)  # each `ensures`
    asks: list = field(default_factory=list)  # each `requires`
    laws: list = field(default_factory=list)  # of a trait that is not the repository's, what its implementation says

    @property
    def trait(self):
        """The trait of which this is an implementation, or nothing."""
        return self.owner.partition(" of ")[0] if " of " in self.owner else ""

    @property
    def type_name(self):
        return self.owner.partition(" of ")[2] or self.owner

    @property
    def title(self):
        if self.trait:
            return f"{self.trait}::{self.name} of {self.type_name}"
        return f"{self.owner}::{self.name}" if self.owner else self.name


def without_comments(text):
    """The text with comments and what stands in quotes made blank, so that each place stays where it was."""
    blank = lambda match: re.sub(r"[^\n]", " ", match[0])
    return PASSED_OVER.sub(blank, text)


def closing(text, at):
    """Where the bracket at a place is closed."""
    depth = 0
    for place in range(at, len(text)):
        depth += (text[place] in OPENERS) - (text[place] in CLOSERS)
        if depth == 0:
            return place
    raise ValueError("a bracket is not closed")


def split_top(text):
    """The parts of a list between commas that stand in no bracket; `<` and `>` are brackets of types here."""
    parts, depth, begin = [], 0, 0
    for place, sign in enumerate(text):
        if sign in OPENERS + "<":
            depth += 1
        elif sign in CLOSERS or (sign == ">" and text[place - 1] != "-"):
            depth -= 1
        elif sign == "," and depth == 0:
            parts.append(text[begin:place])
            begin = place + 1
    parts.append(text[begin:])
    return [" ".join(part.split()) for part in parts if part.strip()]


def clauses_from(text, at):
    """Each `ensures` and each `requires` that stands behind a head."""
    found = {"ensures": [], "requires": []}
    pattern = re.compile(r"\s*(ensures|requires)(\*?)\s*(\w*)\s*\{")
    while match := pattern.match(text, at):
        end = closing(text, match.end() - 1)
        found[match[1]].append(Clause(match[3], " ".join(text[match.end() : end].split()), bool(match[2])))
        at = end + 1
    return found["ensures"], found["requires"]


def functions_in(text, crate, owner, is_public):
    """The functions whose heads stand in this text: all of them, or those that are `pub`."""
    pattern = re.compile(r"^[ \t]*(pub )?(?:const )?(?:unsafe )?(?:extern \s*)?fn (\w+)", re.M)
    for match in pattern.finditer(text):
        if not (match[1] or is_public):
            continue
        begin = text.index("(", skip_generics(text, match.end()))
        end = closing(text, begin)
        head = re.compile(r"\s*(?:->\s*((?:\[[^\]]*\]|[^{;\[])*?))?\s*(?=\bwhere\b|\bensures\b|\brequires\b|\{|;)", re.S).match(text, end + 1)
        where = re.compile(r"where\b[^{;]*?(?=\bensures\b|\brequires\b|\{|;)", re.S).match(text, head.end())
        ensures, requires = clauses_from(text, where.end() if where else head.end())
        result = " ".join((head[1] or "").split())
        yield Call(crate, owner, match[2], split_top(text[begin + 1 : end]), result, ensures, requires)


def skip_generics(text, at):
    """The place behind the parameters of types that begin at a place, or the place itself."""
    if text[at] != "<":
        return at
    depth = 0
    for place in range(at, len(text)):
        depth += (text[place] == "<") - (text[place] == ">" and text[place - 1] != "-")
        if depth == 0:
            return place + 1
    raise ValueError("parameters of types are not closed")


def sources_of(crate):
    """The sources of a crate, without comments, by their names."""
    found = {}
    for folder, _, names in sorted(os.walk(os.path.join(CRATES, crate, "src"))):
        for name in sorted(names):
            path = os.path.join(folder, name)
            with open(path, encoding="utf-8") as file:
                found[os.path.relpath(path, CRATES)] = without_comments(file.read())
    return found


def handed_on(root):
    """The names that a crate's root file hands on of its own modules, without those of other crates."""
    names = set()
    for match in re.finditer(r"\bpub use (\w+)::(?:\{([^}]*)\}|(\w+))\s*;", root):
        if not match[1].startswith("wk_"):
            names |= {name.strip() for name in (match[2] or match[3]).split(",") if name.strip()}
    return names


def blocks_in(text):
    """The `impl` and `trait` blocks of a source: the head and the place of what stands inside."""
    for match in re.finditer(r"^(pub trait|impl)\b", text, re.M):
        begin = text.index("{", match.end())
        yield " ".join(text[match.start() : begin].split()), begin, closing(text, begin)


def plain_type(text):
    """The name of a type without its parameters."""
    return re.match(r"[\w:]*", text.strip())[0].split("::")[-1]


def owner_of(head):
    """The trait, with its parameters, and the type of the head of a block; either may be empty."""
    if head.startswith("pub trait"):
        return re.match(r"pub trait (\w+)", head)[1], ""
    rest = head[skip_generics(head, len("impl")) :].strip()
    trait, of, type_name = rest.partition(" for ")
    return (trait.split("::")[-1], plain_type(type_name)) if of else ("", plain_type(rest))


def calls_of_block(head, body, crate, names, hidden):
    """The public calls of an `impl` or `trait` block, unless it is of one of the hidden traits."""
    trait, type_name = owner_of(head)
    if head.startswith("pub trait"):
        return list(functions_in(body, crate, trait, True)) if trait in names else []
    if type_name not in names or trait.partition("<")[0] in hidden:
        return []
    if not trait:
        return list(functions_in(body, crate, type_name, False))
    calls = list(functions_in(body, crate, f"{trait} of {type_name}", True))
    for call in calls:
        call.laws = re.findall(r"^\s*ghost (\w+) =", body, re.M)
    return calls


def calls_of_source(text, file, crate, names, hidden):
    """The public calls that stand in one source of a crate."""
    found, outside = [], text
    for head, begin, end in blocks_in(text):
        found += calls_of_block(head, text[begin + 1 : end], crate, names, hidden)
        outside = outside[:begin] + re.sub(r"[^\n]", " ", text[begin:end]) + outside[end:]
    free = functions_in(outside, crate, "", False)
    return found + [call for call in free if call.name in names or file.endswith("/lib.rt")]


def crates_below_tests():
    """The libraries of crates.txt that are no tests, samples or programs, lowest first."""
    with open(os.path.join(TOP, "crates.txt"), encoding="utf-8") as file:
        named = [line.partition("#")[0].partition(":")[0].split()[0] for line in file if line.partition("#")[0].strip()]
    has_root = lambda name: os.path.exists(os.path.join(CRATES, name, "src", "lib.rt"))
    return [name for name in named if has_root(name) and not name.endswith("_tests") and name != "wk_samples"]


def unit_types():
    """The types whose value is the unit, as their models say."""
    pattern = re.compile(r"\bimpl Model for (\w+)[^{]*\{\s*ghost Value = \{ Unit \{0\} \};")
    return {match[1] for crate in crates_below_tests() for text in sources_of(crate).values() for match in pattern.finditer(text)}


def public_calls():
    """Every public call of the libraries, in the order of crates, of types and traits, and of names."""
    found = []
    for crate in crates_below_tests():
        sources = sources_of(crate)
        names = handed_on(sources[f"{crate}/src/lib.rt"])
        hidden = {name for text in sources.values() for name in re.findall(r"\btrait (\w+)", text)} - names
        calls = [call for file, text in sources.items() for call in calls_of_source(text, file, crate, names, hidden)]
        found += sorted(calls, key=lambda call: (call.type_name, call.trait, call.name))
    return found
