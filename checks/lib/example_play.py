"""Plays the lines of an example against the second server of the profile (model.py), and reads the files of examples.

docs/EXAMPLES.md says how a file is written.
"""

import pathlib
import re
from typing import NamedTuple

import model
from crates import DATA, PLAYER, ROOT

# How many examples of each file no socket brings about.
NO_SOCKET = ROOT / "checks/no_socket.txt"
MOMENT = 1_523_836_800
WORDS = ("open", "closed", "cut", "gone", "ended", "served")
CALLED = ("done", "damaged", "no-such-object", "transfer-fault")
BLOCK = 65_536
LEFT_OUT = {"reader-fails", "reads", "writer-takes", "writer-fails-after", "unserved", "bound", "read-fault",
            "write-fault", "crowd", "full", "sql", "store", "unopened", "cut", "store-fault"}
NAMES = {"base": "base", "title": "title", "abstract": "abstract", "depositor": "depositor",
         "on-behalf-of": "on_behalf_of", "require-if-match": "require_if_match", "max-upload": "max_upload",
         "max-assembled": "max_assembled", "max-segments": "max_segments", "staging-max-idle": "staging_max_idle"}


class LeftOut(Exception):
    pass


class Wrong(Exception):
    pass


def fill(words, text):
    """The text with the named texts filled in, up to six deep."""
    def named(match):
        inside = match.group(1)
        counted = re.fullmatch(r"(\d+) (?:to (\d+) )?(.*)", inside)
        if counted and counted.group(3) in words:
            first, last, text = counted.group(1), counted.group(2), words[counted.group(3)]
            numbers = range(int(first), int(last) + 1) if last else range(int(first))
            return "".join(text.replace("\\{#}", str(number)) for number in numbers)
        return words.get(inside, match.group(0))
    for _ in range(6):
        text = re.sub(r"\\\{([^}]*)\}", named, text)
    return text


def expand(words, text):
    def escape(match):
        sign = match.group(0)
        if sign[1] == "x":
            return bytes([int(sign[2:], 16)]).decode("latin-1")
        if sign[1] == "{":
            count, _, letters = sign[2:-1].partition(" ")
            if not count.isdigit():
                raise Wrong(f"no text has the name {sign[2:-1]}")
            return int(count) * letters
        return {"r": "\r", "n": "\n", "t": "\t"}[sign[1]]
    text = fill(words, text).encode().decode("latin-1")
    return re.sub(r"\\(?:[rnt]|x[0-9A-Fa-f]{2}|\{[^}]*\})", escape, text).encode("latin-1")


def pieces(way, stream):
    if way == "whole":
        return [stream]
    if isinstance(way, tuple):
        return [stream[:way[0]], stream[way[0]:]]
    size = int(way)
    return [stream[at:at + size] for at in range(0, max(len(stream), 1), size)]


def given(bag, failing):
    """What an export gives a sink, of which a call may fail, and what it comes to."""
    calls = [("folder", b"folder data\r\n")]
    for path, _, content in bag:
        calls.append(("begin", b"file %s\r\n" % path.encode()))
        calls += [("write", content[at:at + BLOCK]) for at in range(0, len(content), BLOCK)]
        calls.append(("finish", b"\r\n"))
    failing, _, count = failing.partition(" fails ")
    places = [place for place, (call, _) in enumerate(calls) if call == failing]
    end = places[int(count) - 1] if failing else len(calls)
    return b"".join(part for _, part in calls[:end]), "transfer-fault" if failing else "done"


class Play:
    """An example that is played, its bytes cut in one way."""

    # The first words of lines that it doesn't play.
    left_out = LEFT_OUT

    def __init__(self, words, way, lengths):
        self.words, self.way, self.lengths = dict(words), way, lengths
        self.config, self.archive, self.server = model.Config(), model.Archive(), None
        self.moment, self.stream, self.want, self.name = MOMENT, b"", b"", None
        self.current, self.longest, self.call = 1, 0, None
        self.has_faults, self.looks, self.intake, self.played = False, [], None, set()

    def line(self, line):
        word, _, rest = line.partition(" ")
        if word in ("", "//", "pieces", "each", "-"):
            return
        if word in self.left_out:
            raise LeftOut
        if word in "<>":
            front = rest[:-1] if rest.endswith("\\") else rest + "\\r\\n"
            if word == ">":
                self.stream += expand(self.words, front)
            else:
                self.want += expand(self.words, front)
        elif word in ("let", "text"):
            self.name, _, text = rest.partition(" ")
            self.words[self.name] = text if word == "let" else ""
        elif word == "|":
            self.words[self.name] += rest[:-1] if rest.endswith("\\") else rest + "\\r\\n"
        elif word in WORDS:
            self.ends(word)
        elif word in CALLED:
            self.compare(*self.call, word)
            self.want = b""
        else:
            self.sets(word, fill(self.words, rest))

    def open(self):
        if self.server is None:
            if not self.config.is_accepted():
                raise Wrong("the configuration is refused")
            self.server = model.Server(self.config, self.archive)
            self.current = self.server.connect()

    def sets(self, word, rest):
        if word == "at":
            self.moment = int(rest)
        elif word == "config":
            name, _, value = rest.partition(" ")
            old = getattr(self.config, NAMES[name])
            new = value == "true" if isinstance(old, bool) else int(value) if isinstance(old, int) else value
            self.config = model.Config(**{**vars(self.config), NAMES[name]: new})
        elif word == "next":
            kind, _, value = rest.partition(" ")
            self.archive.next[kind], self.server = int(value), None
        elif word in ("restart", "reopen"):
            self.server = None
        elif word == "refused":
            if self.config.is_accepted():
                raise Wrong("the configuration is accepted")
            self.server = None
        elif word == "intake":
            self.intake = model.Intake(self.config)
        elif word == "shut":
            self.intake.is_dead = True
        elif word in ("fails", "stops"):
            self.has_faults = True
        elif word == "looks":
            self.looks = rest.split()
        elif word == "audit":
            self.server = None
            counts = {str(key): len(item.files) for key, item in self.archive.objects.items()}
            line = b"files %d damaged 0\n" % sum(counts.values()) if rest == "all" \
                else b"checked %d\r\n" % counts.get(rest, 0)
            self.call = line, "done"
        elif word == "export":
            self.server, (number, _, failing) = None, rest.partition(" ")
            item = self.archive.objects.get(int(number))
            self.call = given(model.bag_of(item), failing) if item else (b"", "no-such-object")
        elif word == "connection":
            self.open()
            if int(rest) == len(self.server.connections) + 1:
                self.server.connect()
            self.current = int(rest)
        elif word == "close":
            self.open()
            self.server.connections[int(rest) - 1] = None
        else:
            raise Wrong(f"no line begins with {word}")

    def ends(self, word):
        self.open()
        current, before = self.current, self.looked()
        if self.has_faults:
            current = self.server.connect()
        if word in ("ended", "served"):
            current, word = self.server.connect(), {"ended": "open", "served": "closed"}[word]
        sent, came = b"", "open"
        self.longest = max(self.longest, len(self.stream))
        for piece in pieces(self.way, self.stream):
            part, came = self.intake.arrive(piece) if self.intake else self.server.arrive(current, piece, self.moment)
            sent += part
        self.compare(sent, came, word)
        may_stay = self.stream.startswith(b"GET ") or self.want.startswith(b"HTTP/1.1 4") or self.stream in self.played
        if self.has_faults and not may_stay and before == self.looked():
            raise Wrong("nothing that is looked at has changed")
        self.played.add(self.stream)
        self.stream, self.want = b"", b""

    def looked(self):
        """The replies to what is looked at, once the time has passed."""
        asked = [f"GET {path} HTTP/1.1\r\nHost: a\r\n\r\n".encode() for path in self.looks]
        return [self.server.arrive(self.server.connect(), request, self.moment) for request in asked]

    def compare(self, sent, came, word):
        want = self.measured(self.want)
        if want != sent:
            place = next((i for i, (a, b) in enumerate(zip(want, sent)) if a != b), min(len(want), len(sent)))
            place = max(place - 30, 0)
            raise Wrong(f"they part\n  written: {want[place:place + 300]}\n  sent:    {sent[place:place + 300]}")
        if came != word:
            raise Wrong(f"written to end as {word}, and came to {came}")

    def measured(self, want):
        """The replies with their lengths filled in."""
        if not self.lengths or b"Content-Length: ?" not in want:
            return want
        head, body = want.split(b"\r\n\r\n", 1)
        print(f"    length {len(body)}: {head.splitlines()[0].decode()}")
        return want.replace(b"Content-Length: ?", b"Content-Length: %d" % len(body))


def play_lines(play, lines, place):
    """Plays the lines one after another. What is wrong in one is told behind its place, in which `{}` is its number."""
    for number, line in lines:
        try:
            play.line(line)
        except Wrong as wrong:
            raise Wrong(f"{place.format(number)}: {wrong}") from None


def played(words, lines, way, lengths):
    play = Play(words, way, lengths)
    play_lines(play, lines, f"{{}}, {way}")
    number = lines[-1][0] if lines else 0
    if play.stream or play.want:
        raise Wrong(f"{number}: no word says what the last exchange comes to")
    if play.has_faults != bool(play.looks):
        raise Wrong(f"{number}: an example has faults and looks, or neither")
    return play


def play_example(words, lines, lengths):
    for cells in cells_of(lines):
        for way in ways_of(lines):
            if way == "pairs":
                way = "anywhere"
            try:
                if way == "anywhere":
                    longest = played({**words, **cells}, lines, (0,), lengths).longest
                    if longest > 5000:
                        continue
                    for at in range(1, longest + 1):
                        played({**words, **cells}, lines, (at,), lengths)
                else:
                    played({**words, **cells}, lines, way, lengths)
            except Wrong as wrong:
                raise Wrong(f"row {cells}: {wrong}" if cells else str(wrong)) from None


def cells_of(lines):
    """For each row of an example the texts that it gives to the names; an example without rows has one of none."""
    names = [it.strip() for _, line in lines if line.startswith("each ") for it in line[5:].split("|")]
    rows = [[it.strip() for it in line[1:].split("|")] for _, line in lines if line.startswith("-")] or [[]]
    if any(len(row) != len(names) for row in rows):
        raise Wrong(f"{lines[0][0]}: a cell is missing or too many")
    return [dict(zip(names, row)) for row in rows]


def ways_of(lines):
    """The ways in which an example's bytes are cut."""
    return next((line[7:].split() for _, line in lines if line.startswith("pieces ")), ["whole"])


class Example(NamedTuple):
    """An example of a file: the number of its first line, its title, and its lines with their numbers."""

    number: int
    title: str
    lines: list


def read_file(path):
    """The numbered lines above the first example of a file, and its examples."""
    numbered = list(enumerate(pathlib.Path(path).read_text(encoding="utf-8").split("\n"), 1))
    starts = [at for at, (_, line) in enumerate(numbered) if line.startswith("# ")] + [len(numbered)]
    examples = [Example(numbered[at][0], numbered[at][1][2:], numbered[at + 1:end]) for at, end in zip(starts, starts[1:])]
    return numbered[:starts[0]], examples


def is_of_a_host(path):
    """Whether a host plays the file's examples, which are of sockets, spools and clocks that a script has."""
    with open(path, encoding="utf-8") as lines:
        return lines.readline() == "host\n"


def listed_files():
    """The files that the player plays, texts.txt first."""
    return [DATA / it for it in (PLAYER / "args").read_text(encoding="utf-8").split()]


def counts_in(path):
    """How many examples of each file a list names."""
    return {name: int(count) for name, count in re.findall(r"(?m)^(\S+): (\d+) examples", path.read_text(encoding="utf-8"))}


def counts_over_sockets():
    """How many examples of each file are played over sockets: all that the player counts, but for those that no socket brings about."""
    counts = counts_in(PLAYER / "stdout")
    for name, count in counts_in(NO_SOCKET).items():
        counts[name] -= count
    return counts


def put(path, text, is_check):
    """Writes a file of examples, or leaves it as it is for a check. Returns whether the file has the text."""
    if not is_check:
        path.write_text(text, encoding="utf-8")
    return path.exists() and path.read_text(encoding="utf-8") == text


def texts_above(words, front, lengths=False):
    """The texts that the lines above the first example of a file make, and those that are given."""
    return played(words, front, "whole", lengths).words


def texts_of(path, words=None):
    """The texts that stand in a file above its first example, and those that are given."""
    return texts_above(words or {}, read_file(path)[0])
