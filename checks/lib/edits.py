"""The edits that make a wrong body of a function, and which of them can be tried in one copy of their crate."""

import re
from typing import NamedTuple

from crates import PARTS

# The first line of a function, with its indentation and its name.
FUNCTION = re.compile(r"( *)(?:pub(?:\([^)]*\))? )?(?:const )?fn (\w+)")


class Failure(Exception):
    """Why an edit or a crate fails: its kind, as the usage of wrong-bodies lists them, and the reason."""

    def __init__(self, kind, why):
        super().__init__(f"{kind}: {why}")


def edited_texts(edit, crate):
    """Returns the texts that the edit makes of the crate's files, by their path in it."""
    path, old, texts = None, None, {}
    for line in edit.read_text(encoding="utf-8").splitlines():
        word, _, text = line.partition(":")
        text = text.removeprefix(" ")
        if word == "file":
            path = text.strip()
            if not path.startswith(tuple(f"{it}/" for it in PARTS)) or not (crate / path).is_file():
                raise Failure("NOT APPLIED", f"{path} is no file of the crate")
            texts.setdefault(path, (crate / path).read_text(encoding="utf-8"))
        elif word == "old":
            old = text
        elif word == "new":
            if not path or not old:
                raise Failure("NOT APPLIED", "a line 'new:' has no 'file:' or no 'old:' before it")
            count = texts[path].count(old)
            if count != 1:
                raise Failure("NOT APPLIED", f"{path} has this {count} times: {old.strip()}")
            texts[path], old = texts[path].replace(old, text), None
        elif line.strip():
            raise Failure("NOT APPLIED", f"no line of an edit: {line}")
    if not texts:
        raise Failure("NOT APPLIED", "it has no line 'file:'")
    if all(text == (crate / it).read_text(encoding="utf-8") for it, text in texts.items()):
        raise Failure("NOT APPLIED", "it changes nothing")
    return texts


class Span(NamedTuple):
    """Where a function stands: its file, which of that file's functions it is, its lines from 1 on, and its name."""

    path: str
    place: int
    first: int
    last: int
    name: str

    def holds(self, path, line):
        return path == self.path and self.first <= int(line) <= self.last

    def is_function(self, full_name):
        """Whether a name such as low::reading::Reader::read may be that of this function."""
        words, modules = full_name.split("::")[1:], self.path.removeprefix("src/").removesuffix(".rt").split("/")
        return words[-1] == self.name and (modules == ["lib"] or words[: len(modules)] == modules)


def spans_of(path, text):
    """Returns where the functions of a file stand, which rt fmt has formatted."""
    found, lines = [], text.splitlines()
    for first, line in enumerate(lines, 1):
        begins = FUNCTION.match(line)
        if begins:
            ends = (it for it, end in enumerate(lines[first - 1 :], first) if end == f"{begins[1]}}}")
            last = first if line.endswith("}") else next(ends, first)
            found.append(Span(path, len(found), first, last, begins[2]))
    return found


def lines_of(text, span):
    return text.splitlines()[span.first - 1 : span.last]


def lines_outside(text, spans):
    """Returns the lines of a file that stand in none of these functions."""
    inside = {line for span in spans for line in range(span.first, span.last + 1)}
    return [it for number, it in enumerate(text.splitlines(), 1) if number not in inside]


def edited_function(edit, crate):
    """Returns the one function that holds all that the edit changes, and its lines then. There may be none."""
    texts = edited_texts(edit, crate)
    path, text = next(iter(texts.items()))
    before = (crate / path).read_text(encoding="utf-8")
    was, now = spans_of(path, before), spans_of(path, text)
    if len(texts) > 1 or not path.startswith("src/") or [it.name for it in was] != [it.name for it in now]:
        return None
    if lines_outside(before, was) != lines_outside(text, now):
        return None
    changed = [then for first, then in zip(was, now) if lines_of(before, first) != lines_of(text, then)]
    return (changed[0], lines_of(text, changed[0])) if len(changed) == 1 else None


def groups_of(edits, crate):
    """Returns the edits in groups, each of which has at most one edit of a function, or one edit alone."""
    groups, alone = [], []
    for edit in edits:
        try:
            found = edited_function(edit, crate)
        except Failure:
            found = None
        if not found:
            alone.append([edit])
            continue
        key = (found[0].path, found[0].place)
        group = next((it for it in groups if key not in it), None)
        if group is None:
            groups.append(group := {})
        group[key] = edit
    return [list(it.values()) for it in groups] + alone


def joined_texts(edits, crate):
    """Returns the texts that the edits of a group make together, by their path, and where each edit's function is then."""
    made = {edit: edited_function(edit, crate) for edit in edits}
    texts = {}
    for path in {span.path for span, _ in made.values()}:
        text = (crate / path).read_text(encoding="utf-8")
        bodies = {span.place: lines for span, lines in made.values() if span.path == path}
        lines = text.splitlines()
        for span in reversed(spans_of(path, text)):
            if span.place in bodies:
                lines[span.first - 1 : span.last] = bodies[span.place]
        texts[path] = "\n".join(lines) + "\n"
    places = {edit: spans_of(span.path, texts[span.path])[span.place] for edit, (span, _) in made.items()}
    return texts, places
