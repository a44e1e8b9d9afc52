#!/usr/bin/env python3
"""Plays examples over servers with a wrong body, on each of which they have to come otherwise than is written.

    checks/bodies.py                          those of checks/bodies, in the build of the player that all checks share
    checks/bodies.py CRATE/NAME [FILE..]      another one, in a build of its own

Most bodies of checks/bodies are allowed by every contract, since a request may always be answered 500 or 503, and an
export may find no memory, so only examples refuse them. Three the prover refuses as well: `replies_before_it_commits` and
`forgets_the_timed_out` show that the rounds over disks that stop find such a server, `repeat_leaves_the_moment` that the
examples of idle uploads do. Each is in force only where the abstract of the configuration is its name, or, where the
configuration isn't at hand, at a number that no example file has. So one build plays for each a file that refuses it, with
that abstract, or an example with that number. The first example that comes otherwise is then played with another abstract,
or number: there it has to be as it is written.

CRATE/NAME is an edit NAME.edit of crates/CRATE/must-fail or wrong-bodies. It is played over the files, each behind
texts.txt (by default all that checks/player/args names), of which one has to refuse it. The prover may refuse it too:
nothing is proved here.

Each body has a line. The status is 0 where all are refused. It needs the kit, and builds the player where that has to be
built (checks/lib/player.py).
"""

import sys
sys.path.insert(0, f"{sys.path[0]}/lib")

import os
import pathlib
import re
import tempfile
from concurrent.futures import ThreadPoolExecutor

from crates import DATA, ROOT
from edits import Failure
from example_play import listed_files
from player import built_player, play, player_of, shared_edits

# Which file of examples refuses which body.
PLAYED = {"always_500": "one-file.txt", "always_503": "one-file.txt", "asks_find_no_memory": "host-turns.txt",
          "breaks_off_each_content": "host-turns.txt", "check_finds_no_memory": "one-file.txt", "connects_never": "hubs.txt",
          "cuts_each_content": "one-file.txt", "ends_at_once": "conversations.txt", "ends_by_a_bound": "conversations.txt",
          "ends_by_a_read_fault": "conversations.txt", "ends_by_a_write_fault": "conversations.txt",
          "export_finds_no_memory": "exports.txt", "forgets_the_timed_out": "stopped-disks.txt",
          "hashes_for_good": "host-references.txt", "hub_finds_no_memory": "one-file.txt",
          "repeat_leaves_the_moment": "repeated-segments.txt", "replies_before_it_commits": "stopped-disks.txt"}
# These don't know the configuration: the example of their file that is played, and what its number is of.
NUMBERED = {"export_finds_no_memory": ("an object without files has an empty folder data", "object", "export "),
            "repeat_leaves_the_moment": ("the upload stays by one segment that comes again, hour after hour", "upload",
                                         "/staging/")}
# The number at which they are in force, and another one.
NUMBER, OTHER_NUMBER = 9, 8
WITHOUT = "no_wrong_body"
# The service document without its abstract.
SERVICE_LENGTH = 639
MOST_SECONDS = 900


def read(name):
    return (DATA / name).read_text(encoding="utf-8")


def with_abstract(file, abstract):
    """The texts that all files share, and the examples of a file, each with this abstract, which the service document tells."""
    lines = f"config abstract {abstract}\nlet abstract {abstract}\nlet service-length {SERVICE_LENGTH + len(abstract)}"
    return read("texts.txt"), re.sub(r"(?m)^(# .*)$", rf"\1\n{lines}", read(file))


def with_number(file, number, title, kind, before):
    """The texts that all files share, and the example of a file that has this title, with this number in the place of 1."""
    lines = f"# {title}\nnext {kind} {number}\nlet {kind} {number}"
    texts = read("texts.txt"), example_of(read(file), title).replace(f"# {title}", lines)
    return tuple(re.sub(rf"{before}1\b", f"{before}{number}", it) for it in texts)


def example_of(text, title):
    """The text of a file, of whose examples only this one is there."""
    front, *examples = text.split("\n# ")
    return "\n# ".join([front, *(it for it in examples if it.partition("\n")[0] == title)]) + "\n"


def cases_of(body):
    """The two texts at which the body is in force, and the two at which it isn't."""
    if body in NUMBERED:
        return [with_number(PLAYED[body], number, *NUMBERED[body]) for number in (NUMBER, OTHER_NUMBER)]
    return [with_abstract(PLAYED[body], abstract) for abstract in (body, WITHOUT)]


def played(program, texts):
    """Plays two texts, one behind the other. Returns the status and what was printed."""
    with tempfile.TemporaryDirectory(prefix="bodies-") as folder:
        for name, text in zip(("texts.txt", "case"), texts):
            pathlib.Path(folder, name).write_text(text, encoding="utf-8")
        return play(program, ["texts.txt", "case"], cwd=folder, timeout=MOST_SECONDS)


def told(printed):
    """The first line on an example, if there is one."""
    return next((line for line in printed.splitlines() if re.match(r"\S+:\d+: ", line)), printed)


def is_refused(program, body):
    """Tries a body of the build that all share. Returns whether it is refused, and what is to be printed of it."""
    (texts, case), (other_texts, other) = cases_of(body)
    status, printed = played(program, (texts, case))
    title = re.match(r'case:\d+: "(.*?)", (?:row |in )', told(printed))
    if status not in (1, 2) or not title:
        return False, f"NOT REFUSED: {body}: status {status}\n{printed}"
    beside, others = played(program, (other_texts, example_of(other, title[1])))
    if beside or "case: 1 examples" not in others:
        return False, f"NOT REFUSED: {body}: status {beside} without it\n{printed}{others}"
    return True, f"refused: {body}, by {PLAYED[body]}: {told(printed)}\n"


def try_together():
    """Tries the bodies that share a build. Returns how many are refused, and how many not."""
    program, bodies = built_player(), [it.stem for it in shared_edits()]
    with ThreadPoolExecutor(os.cpu_count()) as pool:
        found = list(pool.map(lambda it: is_refused(program, it), bodies))
    for _, told_of_it in found:
        print(told_of_it, end="")
    refused = sum(it for it, _ in found)
    return refused, len(bodies) - refused


def edit_of(crate, body):
    """The edit of this name that stands with the crate."""
    for folder in ("must-fail", "wrong-bodies"):
        edit = ROOT / "crates" / crate / folder / f"{body}.edit"
        if edit.exists():
            return edit
    raise Failure("NOT APPLIED", f"{crate} has no edit {body}")


def try_alone(name, files):
    """Tries a body in a build of its own. Returns how many are refused, and how many not."""
    crate, _, body = name.partition("/")
    files = [pathlib.Path(it) for it in files] or [it for it in listed_files() if it.name != "texts.txt"]
    cases = [(read("texts.txt"), it.read_text(encoding="utf-8")) for it in files]
    with player_of(edit_of(crate, body)) as program, ThreadPoolExecutor(os.cpu_count()) as pool:
        came = list(zip(files, pool.map(lambda it: played(program, it), cases)))
    refusing = [(file.name, printed) for file, (status, printed) in came if status in (1, 2)]
    for file, printed in refusing:
        print(f"refused: {name}, by {file}: {told(printed)}")
    if not refusing:
        print(f"NOT REFUSED: {name}, by any of {len(came)} files")
    return int(bool(refusing)), int(not refusing)


def main(words):
    try:
        refused, others = try_alone(words[0], words[1:]) if words else try_together()
    except Failure as failure:
        sys.exit(f"bodies.py: {failure}")
    print(f"wrong bodies: {refused} refused, {others} not")
    return 1 if others else 0


if __name__ == "__main__":
    sys.exit(main(sys.argv[1:]))
