"""The public functions of the crates with their clauses, and the definitions of their specifications, read from the sources."""

import re
from typing import NamedTuple

from crates import ROOT, listed_crates

# What begins a function, a type or a trait with its functions, and a clause; and what a definition begins with.
FUNCTION = re.compile(r"^( *)((?:pub(?:\(crate\))? )?)(?:unsafe |const )*fn (\w+)", re.M)
OWNER = re.compile(r"^(?:pub(?:\(crate\))? )?(?:impl|trait)\b(?:<[^{]*?>)? ?(?:[^{]*? for )?&?(?:mut )?(\w+)[^{;]*\{", re.M)
CLAUSE = re.compile(r"\b(requires|ensures)\b(?: (\w+))? \{")
DEFINITION = re.compile(r"^(?:abbrev |unfoldable )*pub (?:data |record )?(\S+)", re.M)
USE = re.compile(r"^(?:pub )?use Rattle\.(\w+)\.specs\.(\w+)(?:\.\{| as |$)", re.M)
IMPORT = re.compile(r"\bghost use Rattle\.(\w+)\.specs\.(\w+)\.\{(.*?)\};", re.S)
OPENED, CLOSED = "([{", ")]}"


class Clause(NamedTuple):
    """A clause, by its kind: requires or ensures."""

    name: str
    text: str
    kind: str


class Function(NamedTuple):
    """A function of a crate: the type or the trait that it belongs to, if any, whether other crates can call it, and its line."""

    crate: str
    file: str
    owner: str
    name: str
    is_public: bool
    clauses: tuple
    line: int


class Definition(NamedTuple):
    crate: str
    module: str
    name: str
    comment: str


def sources(crate):
    return sorted((ROOT / "crates" / crate / "src").glob("*.rt"))


def specifications(crate):
    return sorted(it for it in (ROOT / "crates" / crate / "specs").glob("*.antt") if it.name != "Lib.antt")


def behind_braces(text, place):
    """Returns where the text ends that began with the brace at the place."""
    depth = 0
    for at in range(place, len(text)):
        depth += (text[at] in OPENED) - (text[at] in CLOSED)
        if depth == 0:
            return at + 1
    return len(text)


def clauses_from(text, place):
    """Returns the clauses between the name of a function and its body."""
    found = []
    while place < len(text):
        clause = CLAUSE.match(text, place)
        if clause:
            end = behind_braces(text, clause.end() - 1)
            found.append(Clause(clause[2] or "", text[clause.end():end - 1], clause[1]))
            place = end
        elif text[place] in "{;":
            break
        elif text[place] in "([":
            place = behind_braces(text, place)
        elif text.startswith("//", place):
            place = text.find("\n", place)
        else:
            place += 1
    return tuple(found)


def exported_names(crate):
    """Returns the names that a library's root hands out, and its public modules. A program hands out nothing: its functions count
    as public where other modules of it can call them."""
    root = ROOT / "crates" / crate / "src/lib.rt"
    text = root.read_text(encoding="utf-8") if root.exists() else ""
    listed = re.findall(r"^pub use [\w:]*?(?:\{(.*?)\}|(\w+));", text, re.M | re.S)
    names = {it for group in listed for part in group for it in re.findall(r"\w+", part)}
    return names, set(re.findall(r"^pub mod (\w+);", text, re.M))


def functions_of(crate):
    """Returns all functions of a crate with their clauses."""
    names, modules = exported_names(crate)
    is_program = (ROOT / "crates" / crate / "src/main.rt").exists()
    found = []
    for file in sources(crate):
        text = file.read_text(encoding="utf-8")
        owners = [(it.start(), behind_braces(text, it.end() - 1), it) for it in OWNER.finditer(text)]
        for head in FUNCTION.finditer(text):
            inside = [it for begin, end, it in owners if begin < head.start() < end]
            owner = inside[0][1] if inside and head[1] else ""
            is_trait = bool(owner) and re.match(r"pub trait\b", inside[0][0])
            is_shown = file.stem in modules or (owner or head[3]) in names
            is_public = bool(head[2]) if is_program else is_shown and (head[2] == "pub " or bool(is_trait))
            line = text.count("\n", 0, head.start()) + 1
            found.append(Function(crate, file.name, owner, head[3], is_public, clauses_from(text, head.end()), line))
    return found


def comment_above(lines, row):
    """Returns the comment that stands right above a line, as one line."""
    above = []
    while row > 0 and lines[row - 1].startswith("-- "):
        row -= 1
        above.insert(0, lines[row][3:].strip())
    return " ".join(above)


def definitions_of(crate):
    """Returns the public definitions of a crate's specification by their module and name."""
    found = {}
    for file in specifications(crate):
        lines = file.read_text(encoding="utf-8").splitlines()
        for row, line in enumerate(lines):
            head = DEFINITION.match(line)
            if head and head[1] not in ("mod", "use"):
                found[file.stem, head[1]] = Definition(crate, file.stem, head[1], comment_above(lines, row))
    return found


def imports_of(file):
    """Returns where the names come from that a file takes from specifications: a crate, a module and a name for each."""
    found = {}
    for crate, module, names in IMPORT.findall(file.read_text(encoding="utf-8")):
        for item in names.split(","):
            name, _, other = item.strip().partition(" as ")
            found[other.strip() or name.strip()] = (crate, module, name.strip())
    return found


def specifications_below(file):
    """Returns this file of specifications and all that it stands on, at any depth, of this repository, in the order of crates.txt."""
    found, left = set(), [file]
    while left:
        file = left.pop()
        if file not in found:
            found.add(file)
            uses = [ROOT / "crates" / crate / "specs" / f"{module}.antt" for crate, module in USE.findall(file.read_text(encoding="utf-8"))]
            left += [it for it in uses if it.exists()]
    order = list(listed_crates())
    return sorted(found, key=lambda it: (order.index(it.parent.parent.name), it.name))


def lines_of(files):
    return sum(it.read_text(encoding="utf-8").count("\n") for it in files)
