"""What stands in the sources of the crates: the functions, clauses and public items of .rt files, and the definitions of
specifications. It reads them as text, and takes them to be in the layout of rt fmt."""

import re
from typing import NamedTuple

# A string, a letter in quotes, or a comment.
QUOTED = re.compile(r'''"(?:[^"\\]|\\.)*"|'(?:[^'\\\n]|\\.[^'\n]*)'|//[^\n]*''', re.S)
FUNCTION = re.compile(r"(?m)^[ \t]*(pub )?(?:pub\([^)]*\) )?(?:const |unsafe )*fn (\w+)")
TYPE = re.compile(r"(?m)^[ \t]*pub (?:struct|enum|trait|const|static|type) (?!fn )(\w+)")
PUBLIC_TRAIT = re.compile(r"(?m)^[ \t]*pub trait [^{;]*\{")
CLAUSE = re.compile(r"\b(?:requires|ensures)\b[\s*]*\w*\s*$")
INVARIANT = re.compile(r"\binvariant = \{")
USE = re.compile(r"\bghost use Rattle\.(\w+)\.specs\.([\w.]+)\.\{([^}]*)\};", re.S)
# A type or a trait of any kind, private ones too.
OWN_TYPE = re.compile(r"(?m)^[ \t]*(?:pub(?:\([^)]*\))? )?(?:struct|enum|trait|union) (\w+)")
DEFINITION = re.compile(r"^(?:abbrev |unfoldable )?pub (?:record |data )?(?!mod |use )(\S+)|^ +(?:abbrev |unfoldable )pub (\S+)")


class Clause(NamedTuple):
    """A clause: its line, its text with white space made one, and whether callers elsewhere read it."""

    line: int
    text: str
    is_public: bool


class Function(NamedTuple):
    """A function: its first line, how many parameters it has, and how many lines its body, or None where it has none."""

    line: int
    name: str
    parameters: int
    body: int


class Item(NamedTuple):
    """A public item: its line, its name, and whether it has a docstring."""

    line: int
    name: str
    has_docstring: bool


class Definition(NamedTuple):
    """A definition of a specification: its line, its name, its text, and whether a comment stands above it."""

    line: int
    name: str
    text: str
    has_comment: bool


def in_one_line(text):
    return " ".join(text.split())


def blanked(text, has_strings):
    """The text with blanks in place of its comments, and of its strings where it isn't to have these. Each place stays."""
    def blank(match):
        return match.group() if has_strings and match.group()[0] != "/" else re.sub(r"[^\n]", " ", match.group())
    return QUOTED.sub(blank, text)


class Source:
    """An .rt file: its functions, clauses and public items, and of each name of a specification that it brings in the crate, the
    file and the name there."""

    def __init__(self, text):
        self.text, self.lines = text, text.split("\n")
        self.code, self.bare = blanked(text, True), blanked(text, False)
        self.traits = [(it.start(), self.end_of(it.end() - 1)) for it in PUBLIC_TRAIT.finditer(self.bare)]
        self.functions, self.clauses, self.items = [], [], []
        for found in FUNCTION.finditer(self.bare):
            self.read_function(found)
        for found in INVARIANT.finditer(self.bare):
            self.note_clause(found.end() - 1, False)
        for found in TYPE.finditer(self.bare):
            self.note_item(found.start(1), found[1])
        self.cited = {it.split()[-1]: (crate, path, it.split()[0])
                      for crate, path, names in USE.findall(text) for it in names.split(",") if it.strip()}

    def line_of(self, place):
        return self.bare.count("\n", 0, place) + 1

    def end_of(self, place):
        """Where the bracket that opens here is closed."""
        depth = 0
        for at in range(place, len(self.bare)):
            depth += (self.bare[at] in "([{") - (self.bare[at] in ")]}")
            if depth == 0:
                return at
        return len(self.bare) - 1

    def begin_of_parameters(self, place):
        """The parenthesis behind the generic parameters, which may have some of their own."""
        depth = 0
        for at in range(place, len(self.bare)):
            letter = self.bare[at]
            if letter == "(" and depth == 0:
                return at
            depth += (letter == "<") - (letter == ">" and self.bare[at - 1] not in "-=")
        return len(self.bare) - 1

    def read_function(self, found):
        is_public = bool(found[1]) or any(begin < found.start() < end for begin, end in self.traits)
        opening = self.begin_of_parameters(found.end())
        at = closing = self.end_of(opening)
        body, last = None, closing + 1
        while at + 1 < len(self.bare):
            at += 1
            if self.bare[at] in "([":
                at = self.end_of(at)
            elif self.bare[at] == ";":
                break
            elif self.bare[at] == "{":
                end = self.end_of(at)
                if not CLAUSE.search(self.bare[last:at]):
                    body = sum(bool(line.strip()) for line in self.text[at + 1:end].split("\n"))
                    break
                self.note_clause(at, is_public)
                at, last = end, end + 1
        name = found[2]
        self.functions.append(Function(self.line_of(found.start(2)), name, self.count(opening, closing), body))
        if is_public:
            self.note_item(found.start(2), name)

    def count(self, opening, closing):
        """How many parameters stand between two parentheses."""
        depth, parts, part = 0, 0, ""
        for at in range(opening + 1, closing):
            letter = self.bare[at]
            depth += (letter in "([{<") - (letter in ")]}" or letter == ">" and self.bare[at - 1] not in "-=")
            if letter == "," and depth == 0:
                parts, part = parts + bool(part.strip()), ""
            else:
                part += letter
        return parts + bool(part.strip())

    def note_clause(self, opening, is_public):
        text = in_one_line(self.code[opening + 1:self.end_of(opening)])
        self.clauses.append(Clause(self.line_of(opening), text, is_public))

    def note_item(self, place, name):
        line = at = self.line_of(place)
        while at > 1 and self.lines[at - 2].lstrip().startswith(("#[", "ghost use ", "// ")):
            at -= 1
        self.items.append(Item(line, name, at > 1 and self.lines[at - 2].lstrip().startswith("///")))


def definitions_of(text):
    """The definitions of a specification, each up to the next blank line."""
    lines, found = text.split("\n"), []
    for at, line in enumerate(lines):
        if begun := DEFINITION.match(line):
            end = next((it for it in range(at, len(lines)) if not lines[it].strip()), len(lines))
            has_comment = at > 0 and lines[at - 1].lstrip().startswith("--")
            found.append(Definition(at + 1, begun[1] or begun[2], in_one_line(" ".join(lines[at:end])), has_comment))
    return found


def crates_of_names(texts):
    """Where the types, traits and definitions of sources stand, given as texts by their paths crates/NAME/..: the crates of each
    name."""
    found = {}
    for path, text in texts.items():
        names = OWN_TYPE.findall(text) if path.endswith(".rt") else [it.name for it in definitions_of(text)]
        for name in names:
            found.setdefault(name, set()).add(path.split("/")[1])
    return found
