"""The crates that crates.txt lists, the programs that were built of them, and copies of them in folders of their own, over
the work that their checks kept."""

import os
import shutil
import sys
from pathlib import Path

ROOT = Path(__file__).resolve().parent.parent.parent
# The files of examples, their player, and the wrong bodies that they refuse.
DATA = ROOT / "checks/examples"
PLAYER = ROOT / "checks/player"
BODIES = ROOT / "checks/bodies"
PARTS = ("src", "specs", "proofs")
# Second names of programs, by which they do something else.
SECOND_NAMES = {"swordd_host": "swordd"}


def listed_crates(file=ROOT / "crates.txt"):
    """Returns the lines of crates.txt by the name of their crate, in their order."""
    lines = {}
    for line in file.read_text(encoding="utf-8").splitlines():
        head, colon, _ = line.partition(":")
        if colon and not line.startswith("#"):
            lines[head.split()[0]] = line
    return lines


def layers(file=ROOT / "crates.txt"):
    """Returns the layers of crates.txt by their names, lowest first: what each is for, and its crates in their order."""
    found = {}
    for line in file.read_text(encoding="utf-8").splitlines():
        head, colon, rest = line.partition(":")
        if line.startswith("# Layer "):
            found[head.split()[-1]] = (rest.strip(), [])
            crates = found[head.split()[-1]][1]
        elif colon and not line.startswith("#"):
            crates.append(head.split()[0])
    return found


def libraries_below(name, lines):
    """Returns the repository's own libraries that the crate stands on, at any depth."""
    found, unread = set(), [name]
    while unread:
        below = set(lines[unread.pop()].partition(":")[2].split()) & set(lines) - found
        found |= below
        unread += below
    return found


def built_program(name):
    """Returns the whole path of a program: the one that the gate or deploy/build built, or the one that the environment names under
    the name in capitals (SWORDD, SWORDD_HOST). Where there is none, this program ends."""
    crate = SECOND_NAMES.get(name, name)
    built = ROOT / "crates" / crate / "out" / name
    if name != crate and built.with_name(crate).exists():
        name_second(built.with_name(crate), built)
    path = Path(os.environ.get(name.upper()) or built).absolute()
    if not os.access(path, os.X_OK):
        print(f"{path} isn't there: build it by deploy/build", file=sys.stderr)
        sys.exit(2)
    return path


def name_second(program, name):
    """Gives a program this second name, where another file has it or none. It is no symbolic link, since rt ci takes none below
    crates/."""
    if not name.is_symlink() and name.exists() and name.samefile(program):
        return
    part = name.with_name(f"{name.name}.{os.getpid()}")
    os.link(program, part)
    os.replace(part, name)


def begin_room(room, names, lines):
    """Makes the folder a repository of these crates, which have no files yet."""
    (room / "crates").mkdir(parents=True, exist_ok=True)
    (room / "crates.txt").write_text("".join(f"{lines[it]}\n" for it in names), encoding="utf-8")
    if (ROOT / "HANDLES").exists():
        shutil.copy(ROOT / "HANDLES", room)


def copy_library(name, room):
    """Puts a library as it stands into such a folder, with what was built of it."""
    source, to = ROOT / "crates" / name, room / "crates" / name
    copy_parts(source, to)
    built = Path("out", "rlib")
    if (source / built / "stamp").is_file():
        shutil.rmtree(to / built, ignore_errors=True)
        copy_kept(source / built, to / built)


def copy_parts(source, to):
    """Copies the files of a crate that its check reads, in the place of those that are there."""
    for part in PARTS:
        shutil.rmtree(to / part, ignore_errors=True)
        if (source / part).is_dir():
            shutil.copytree(source / part, to / part)


def copy_kept(source, to):
    """Copies a folder of kept work by links: rt makes such files anew and never writes into one."""
    if source.is_dir():
        shutil.copytree(source, to, copy_function=link)


def link(source, to):
    try:
        os.link(source, to)
    except OSError:
        shutil.copy2(source, to)
