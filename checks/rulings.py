#!/usr/bin/env python3
"""Writes the examples on the order of refusals: checks/examples/order.txt.

    checks/rulings.py
    checks/rulings.py --check        # says whether the file is as it would be written

It tells how many cases the file has: requests, but those that only set something up, each once for each row.

It shares no code with the server. checks/lib/order.py is the order of refusals, written from docs/PROFILE.md alone,
and order_cases.py beside it has the requests; each one is looked up there before it is written. What the replies are made
of stands in texts.txt, their numbers follow from docs/PROFILE.md, and a length is counted over the text.
"""

import sys
sys.path.insert(0, f"{sys.path[0]}/lib")

import itertools
import re
from dataclasses import dataclass, field, replace

import order_cases as cases
from crates import DATA
from example_play import expand, fill, put, texts_of
from order import FIELDS, accepted, key_of, refusal, sha256, sha512, told, with_settings

WORDS = texts_of(DATA / "texts.txt")
MOMENT, AN_HOUR_AND_A_SECOND_BEFORE = 1_523_836_800, 1_523_833_199
CONFIG = ["base http://127.0.0.1:8080", "on-behalf-of false", "require-if-match false", "max-upload 16777216",
          "max-assembled 17179869184", "max-segments 10000"]
CONFIG_KEYS = {key_of(setting) for setting in CONFIG}
KINDS = ("object", "file", "upload", "change")


# ---- texts

def as_text(name, text):
    """The lines of a named text."""
    *lines, last = text.split("\\r\\n")
    return [f"text {name}", *(f"| {line}".rstrip() for line in lines), *([f"| {last}\\"] if last else [])]


def names_in(words, text):
    """The names that stand in a text, and in the texts that these stand for."""
    found = set()
    for name in re.findall(r"\\\{([^}]*)\}", text):
        found |= {name} | names_in(words, words.get(name, ""))
    return found


@dataclass
class Reply:
    """A named text of texts.txt, and the names in it that stand for something else than there."""
    text: str
    names: dict = field(default_factory=dict)

    def words(self):
        return {**WORDS, **{name: str(value) for name, value in self.names.items()}}

    def measured(self, name, document):
        """The same, with the length of the document under the name."""
        length = len(expand(self.words(), f"\\{{{document}}}"))
        return Reply(self.text, {**self.names, name: length})

    def other_names(self):
        """Those that it needs and that stand for something else."""
        words = self.words()
        return {name: words[name] for name in self.names
                if words[name] != WORDS.get(name) and name in names_in(words, f"\\{{{self.text}}}")}

    def filled(self):
        return fill(self.words(), f"\\{{{self.text}}}")


# The names of error documents in texts.txt that aren't spelled as their refusals.
OTHERWISE_NAMED = {"ETagNotMatched": "tag-not-matched", "ETagRequired": "tag-required", "SegmentedUploadTimedOut": "timed-out"}
HEADS = {"bad-request": "bad-request-head", "on-behalf-of-not-allowed": "on-behalf-of-not-allowed-head",
         "not-found": "not-found-head", "timed-out": "timed-out-head"}


# ---- what a request is answered, by the profile's pages on what it does and on replies

def status(text, names, links):
    listed = ",".join(f"\\{{{link}}}" for link in links) or "\\{nothing}"
    return Reply(text, {**names, "links": listed}).measured("document-length", "status-document")


def opened(upload, size, count, segment_size, **more):
    expecting = ",".join(str(k) for k in range(1, count + 1))
    names = {"upload": upload, "upload-size": size, "segment-size": segment_size, "expecting": expecting, **more}
    return Reply("opened", names).measured("upload-length", "upload-document")


def new_files(asked, first, change):
    """The links of the files that are added, and what these tell."""
    names, links = {}, ["link-b", "link-c"][:len(asked.files)]
    for at, letter in enumerate("bc"[:len(asked.files)]):
        names |= {f"file-{letter}": first + at, f"tag-{letter}": change}
    for file in asked.files[:1]:
        names |= {"media-b": file.media, "origin-b": "byReference" if file.by_reference else "original"}
        if file.behalf is not None:
            names["for-whom"] = f',"depositedOnBehalfOf":"{file.behalf}"'
    return names, links


def made(asked, case, change):
    names, links = new_files(asked, int(told(case, "next file")), change)
    names |= {"object": told(case, "next object"), "tag": change, "metadata-tag": change, "files-tag": change}
    return status("made", {**names, "state": "inProgress" if asked.going_on else "ingested"}, links)


def changed(asked, case, change):
    """The reply to a POST or PUT on an object, which has file 1 and is ingested."""
    names, links = new_files(asked, int(told(case, "next file")), change)
    is_whole, number = asked.method == "PUT", asked.numbers[0]
    _, _, metadata, files = told(case, f"object {number}").split()
    names |= {"object": number, "tag": change, "metadata-tag": change if is_whole or asked.kind == "metadata" else metadata,
              "files-tag": change if is_whole or asked.files else files}
    return status("status", names, links if is_whole else ["link", *links])


def shown(asked, case):
    """The reply to a GET: of object 1 and of upload 2 as the worlds below have them."""
    if asked.resource == "service":
        return Reply("service", {"on-behalf-of": told(case, "on-behalf-of")}).measured("service-length", "service-document")
    if asked.resource == "upload":
        return Reply("upload-reply", {"upload": 2, "expecting": "2", "received": "1,3"}).measured("upload-length", "upload-document")
    if asked.resource == "object":
        return status("status", {"tag": 5, "metadata-tag": 4, "files-tag": 3}, ["link"])
    if asked.resource == "metadata":
        return Reply("metadata-reply", {"metadata-tag": 4})
    return Reply({"file": "file-reply", "bag": "bag-list", "bag file": "bag-file"}[asked.resource])


def answer(asked, case):
    change = int(told(case, "next change"))
    if asked.method == "GET":
        return shown(asked, case)
    if asked.method == "HEAD":
        reply = shown(asked, case)
        return Reply(reply.text.removesuffix("-reply") + "-head", reply.names)
    if asked.method == "DELETE" or asked.resource == "upload":
        return Reply("no-content")
    if asked.resource == "staging":
        return opened(told(case, "next upload"), *asked.told[:3])
    if asked.resource in ("metadata", "files", "file"):
        return Reply("no-content-with-tag", {"tag": change})
    return made(asked, case, change) if asked.resource == "service" else changed(asked, case, change)


def document_of(refused):
    """The name in texts.txt of the error document of a refusal: its own in small letters, with a hyphen before each other word."""
    return OTHERWISE_NAMED.get(refused) or re.sub(r"(?<!^)(?=[A-Z])", "-", refused).lower()


def reply_to(case):
    """The reply by the order of refusals, and else by what the request asks for."""
    refused = refusal(case)
    if refused is None:
        return answer(accepted(case), case)
    text = document_of(refused)
    return Reply(HEADS[text] if told(case, "request").startswith("HEAD ") else text)


# ---- the worlds: what is there before a request is played

def asking(line, *fields, content=""):
    """A request that sets something up, with the escapes of the files."""
    sized = [f"Content-Length: {len(content)}"] if content else []
    return "\\r\\n".join([f"{line} HTTP/1.1", "Host: 127.0.0.1:8080", *fields, *sized, "", content])


@dataclass
class SetUp:
    """Requests with their replies, what a file says of them, and what the rules see of what is there then."""
    says: str | None = None
    requests: list = field(default_factory=list)
    replies: list = field(default_factory=list)
    seen: list = field(default_factory=list)

    def add(self, request, reply):
        self.requests.append(request)
        self.replies.append(reply)

    def texts(self, name):
        replies = as_text(f"{name}-replies", "".join(reply.filled() for reply in self.replies))
        if self.says is None:
            return replies
        return [f"// {self.says}", *as_text(name, "".join(self.requests)), "", *replies]


def uploads(says, first, *rows):
    """Uploads with these sizes, promised digests and segments, None for a segment that isn't sent."""
    made_up = SetUp(says)
    for upload, (size, count, segment_size, promised, *segments) in enumerate(rows, first):
        digest = f"; digest={promised}" if promised else ""
        sizes = f"size={size}; segment_count={count}; segment_size={segment_size}"
        made_up.add(asking("POST /staging", f"Content-Disposition: segment-init; {sizes}{digest}"), opened(upload, size, count, segment_size))
        for k, content in enumerate(segments, 1):
            if content is not None:
                where = f"Content-Disposition: segment; segment_number={k}"
                made_up.add(asking(f"POST /staging/{upload}", where, content=content), Reply("no-content"))
        kept = " ".join("-" if content is None else content for content in segments)
        made_up.seen.append(f"upload {upload} {size} {count} {segment_size} promised {promised} segments {kept}")
    return made_up


def promise_of(text, other=None):
    """Both digests of a text, or the SHA-512 of another one."""
    return f"SHA-256={sha256(text)},SHA-512={sha512(text if other is None else other)}"


SET_UPS = {
    "an-object": SetUp(
        "Object 1 with file 1: its own tag is 5, that of its metadata 4, of its files 3 and of file 1 still 1. File 2 was deleted.",
        ["\\{deposit}", "\\{second-file}", asking("DELETE /objects/1/files/2"), asking("PUT /objects/1/metadata", content='{"dc:title":"T"}'),
         asking("POST /objects/1")],
        [Reply("created"), status("status", {"tag": 2, "files-tag": 2}, ["link", "link-b"]), Reply("no-content"),
         Reply("no-content-with-tag", {"tag": 4}), status("status", {"tag": 5, "metadata-tag": 4, "files-tag": 3}, ["link"])],
        ["object 1 tags 5 4 3", "file 1 1 tag 1", "path data/1/a.txt"]),
    "others": SetUp(
        "Object 2, which is deleted, and object 3 with file 3.",
        ["\\{metadata-deposit}", asking("DELETE /objects/2"), "\\{deposit}"],
        [status("made", {"object": 2, "tag": 6, "metadata-tag": 6, "files-tag": 6}, []), Reply("no-content"),
         Reply("created", {"object": 3, "file": 3, "tag": 7})],
        ["object 3 tags 7 7 7", "file 3 3 tag 7"]),
    "deposit": SetUp(replies=[Reply("created")], seen=["object 1 tags 1 1 1", "file 1 1 tag 1"]),
    "idle-upload": SetUp(
        "Upload 1, which is left idle for an hour and a second.",
        [asking("POST /staging", "Content-Disposition: segment-init; size=5; segment_count=3; segment_size=2")],
        [opened(1, 5, 3, 2, date="Sun, 15 Apr 2018 22:59:59 GMT")], ["upload 1 timed out"]),
    "whole-uploads": uploads(
        "Uploads 2 to 10: `abcde`, `f`, `ab` without what follows, `abcd`, `gh`, `ijk`, and `f` thrice though a digest of `g` was promised.",
        2,
        (5, 3, 2, promise_of("abcde"), "ab", "cd", "e"), (1, 1, 1, "", "f"), (4, 2, 2, "", "ab", None), (4, 1, 4, "", "abcd"),
        (2, 1, 2, "", "gh"), (3, 1, 3, "", "ijk"), (1, 1, 1, "SHA-256=" + sha256("g"), "f"),
        (1, 1, 1, "SHA-512=" + sha512("g"), "f"), (1, 1, 1, promise_of("f", "g"), "f")),
    "begun-uploads": uploads(
        "Uploads 2 and 3 of `abcde`: the segment in the middle and the last one are missing.", 2,
        (5, 3, 2, "", "ab", None, "e"), (5, 3, 2, "", "ab", "cd", None)),
}


@dataclass
class World:
    """The names of set-ups, each at its moment, and the numbers that are given next."""
    steps: list
    following: dict

    def settings(self):
        numbers = [f"next {kind} {self.following.get(kind, 1)}" for kind in KINDS]
        return [*CONFIG, *(setting for _, name in self.steps for setting in SET_UPS[name].seen), *numbers]

    def lines(self):
        lines, now = [], MOMENT
        for moment, steps in itertools.groupby(self.steps, key=lambda step: step[0]):
            names = [name for _, name in steps]
            asked, replies = "".join(f"\\{{{name}}}" for name in names), "".join(f"\\{{{name}-replies}}" for name in names)
            lines += [f"at {moment}"] * (moment != now) + [f"> {asked}\\", f"< {replies}\\", "open"]
            now = moment
        return lines


IDLE = (AN_HOUR_AND_A_SECOND_BEFORE, "idle-upload")
WORLDS = {
    "service": World([], {}),
    "object": World([(MOMENT, "an-object")], {"object": 2, "file": 3, "change": 6}),
    "objects": World([(MOMENT, "an-object"), (MOMENT, "others")], {"object": 4, "file": 4, "change": 8}),
    "uploads": World([IDLE, (MOMENT, "whole-uploads")], {"upload": 11}),
    "object and uploads": World([IDLE, (MOMENT, "whole-uploads"), (MOMENT, "deposit")], {"object": 2, "file": 2, "upload": 11, "change": 2}),
    "upload": World([IDLE, (MOMENT, "begun-uploads")], {"upload": 4}),
}


# ---- requests

CELLS = {"On-Behalf-Of": "behalf", "Content-Disposition": "disposition", "In-Progress": "progress", "Packaging": "packaging",
         "Metadata-Format": "format", "Content-Type": "type", "Content-Encoding": "encoding", "Digest": "digest", "If-Match": "tags",
         "request": "line", "content": "sent"}
ENTRY_KEYS = [f"entry {k}" for k in range(1, 13)]
ENTRY_NAMES = ("a-number", "no-url", "no-name", "no-media-type", "no-length", "no-packaging", "no-digest", "another-host",
               "another-number", "a-package", "abcde-again", "an-idle-upload", "an-unknown-upload", "a-missing-segment",
               "a-smaller-length", "a-greater-length", "another-digest", "another-sha512", "a-broken-promise",
               "a-broken-sha512", "a-broken-promise-of-two")
# What stands in many requests has a name.
NAMES = {
    "as-file": cases.AS_FILE, "as-metadata": cases.AS_METADATA, "as-references": cases.AS_REFERENCES, "as-opening": cases.OPENING,
    "as-segment": cases.SEGMENT, "as-last-segment": cases.LAST, "as-first-segment": cases.RECEIVED,
    "sent-ab": "content ab", "sent-abc": "content abc", "dc-title": cases.TITLE, "sent-cd": "content cd",
    "sent-e": "content e", "sent-nothing": "no content", "with-f": cases.ENTRIES[0], "and-abcde": cases.ENTRIES[1],
    "named-twice": cases.NO_KIND[1][1], "both-kinds": cases.NO_KIND[4][1], "binary-twice": cases.PACKAGING[0][1],
    "zip": cases.PACKAGING[1][1], "format-twice": cases.FORMATS[0][1], "other-format": cases.FORMATS[1][1],
    "json-twice": cases.JSON_TYPE[0][1], "long-type": cases.TYPE[2][1], "digest-of-other": cases.DIGEST[2][1],
    "two-digests": cases.DIGEST[3][1], "sha512-of-other": cases.DIGEST[5][1],
    **{f"with-{name}": setting for name, (_, setting) in zip(ENTRY_NAMES, cases.REFERENCES, strict=True)},
}
NAME_OF = {setting: name for name, setting in NAMES.items()}


def chunk(text):
    return f"{len(text):x}\\r\\n{text}\\r\\n"


# The document of references comes in chunks: its front, each entry, its end.
FRONT, END = "Transfer-Encoding: chunked\\r\\n\\r\\n" + chunk('{"byReferenceFiles":['), chunk("]}") + "0\\r\\n\\r\\n"


def spelled(setting):
    """What a setting is in a request: its line, the lines of a field, a content, or the chunk of an entry."""
    key = key_of(setting)
    value = "" if setting.startswith("no ") else setting[len(key) + 1:].replace("\\", "\\x5C")
    if key == "request":
        return value
    if key == "content":
        return f"Content-Length: {len(value)}\\r\\n\\r\\n{value}"
    if key in ENTRY_KEYS:
        place = int(key[6:])
        return chunk("," * (place > 7) + value + "," * (place < 7))
    if setting.startswith("no "):
        return ""
    return "".join(f"{key}: {line.strip()}".strip() + "\\r\\n" for line in value.split("|"))


def short(setting):
    """The same, by its name where it has one."""
    return f"\\{{{NAME_OF[setting]}}}" if setting in NAME_OF else spelled(setting)


def request_of(case, cells=()):
    """The request of a case in one line. What a table tells stands there by the names of its cells."""
    def part(key):
        if key in cells:
            return f"\\{{{cell_of(key)}}}"
        return short(case[key]) if key in case else ""
    front = part("request") + "\\{host}" + "".join(map(part, FIELDS))
    if any(key in case or key in cells for key in ENTRY_KEYS):
        return front + "\\{first-chunk}" + "".join(map(part, ENTRY_KEYS)) + "\\{last-chunk}"
    return front + (part("content") or "\\r\\n")


def cell_of(key):
    return CELLS.get(key, "entry")


def without_line(case):
    return request_of(case, {"request"}).removeprefix("\\{line}\\{host}")


# ---- sections

def is_around(setting):
    """Whether it isn't of the request: it is of the configuration, or a number that is given next."""
    return key_of(setting) in CONFIG_KEYS or is_next(setting)


def is_next(setting):
    return setting.startswith("next ")


def parted(settings):
    """The settings of the request, and those around it."""
    return [s for s in settings if not is_around(s)], tuple(s for s in settings if is_around(s))


def keys_of(settings):
    return {key_of(setting) for setting in settings}


# The replies to the requests as they stand that are told by names of their own.
REPLY_NAMES = {
    "a file, deposited at the service": "file-made", "metadata, deposited at the service": "metadata-made",
    "uploads, deposited at the service": "uploads-made", "a file, added to an object": "file-added",
    "metadata, added to an object": "metadata-added", "uploads, added to an object": "uploads-added",
    "an object that is complete": "completed", "a file in place of all that an object has": "file-alone",
    "metadata in place of all that an object has": "metadata-alone", "uploads in place of all that an object has": "uploads-alone",
    "GET of an object": "object-shown", "GET of an upload": "upload-shown",
}


@dataclass
class Section:
    """An operation that is accepted as it stands, what breaks one rule of it, and what breaks none."""
    title: str
    base: list
    broken: list
    held: list
    world: str

    def case(self, settings=()):
        line, *rest = self.base
        return with_settings({}, [*WORLDS[self.world].settings(), f"request {line}", *rest, *settings])

    def rules(self):
        """What breaks a rule, with the rule, in the order of the rules."""
        return [(rule, setting.split(" & ")) for rule, setting in sorted(self.broken, key=lambda b: b[0])]

    def groups(self):
        """What breaks one rule by the same part of a request and with the same settings around it, group by group."""
        found = {}
        for rule, settings in self.rules():
            asked, around = parted(settings)
            found.setdefault((rule, frozenset(keys_of(asked)), around), []).append(asked)
        return [Group(self, *by, rows) for by, rows in found.items()]


RULES = {6: "what is there", 13: "the document", 13.1: "entries that can be read", 13.2: "uploads of this server",
         13.3: "the packaging of entries", 13.4: "each upload once", 13.5: "uploads that are there", 13.6: "all segments",
         13.7: "lengths", 13.8: "digests", 14.1: "the size of the whole", 14.2: "the number of segments",
         14.3: "the size of the segments", 14.4: "which segment", 14.5: "the size of a segment"}
AROUND = {"on-behalf-of true": ", where On-Behalf-Of is allowed", "require-if-match true": ", where If-Match is required"}


@dataclass
class Group:
    """Ways to break one rule by the same part of a request, with the same settings around it."""
    section: Section
    rule: float
    keys: frozenset
    around: tuple
    rows: list

    def title(self):
        parts = sorted("a content" if key == "content" else key for key in self.keys)
        return RULES.get(self.rule, " and ".join(parts)) + "".join(AROUND.get(setting, "") for setting in self.around)

    def refusals(self):
        return [refusal(self.section.case([*row, *self.around])) for row in self.rows]

    def later(self):
        """What breaks a later rule by another part, by the settings around it: all that breaks the rule that follows, and one of each
        refusal of each further rule. It is left out where that refusal is the group's own, which shows no order."""
        own, taken = set(self.refusals()), self.keys | keys_of(self.around)
        found, following, seen = {}, None, set()
        for rule, settings in self.section.rules():
            asked, around = parted(settings)
            came = refusal(self.section.case(settings))
            if rule <= self.rule or rule == 15 or taken & keys_of(settings) or own == {came}:
                continue
            following = following or rule
            if rule == following or (rule, around, came) not in seen:
                found.setdefault(around, []).append(asked)
            seen.add((rule, around, came))
        return found

    def check(self, others, around):
        """Looks up that each row is the answer, with each of the others."""
        for (row, came), other in itertools.product(zip(self.rows, self.refusals()), others):
            both = refusal(self.section.case([*row, *self.around, *other, *around]))
            assert both == came, (self.section.title, row, other, around, came, both)


# ---- examples

class Example:
    """An example of a section that is written line by line. It counts its cases."""

    def __init__(self, section, title):
        self.section, self.title = section, f"{section.title}: {title}"
        self.table, self.lines, self.replies = [], [], {}
        self.rows, self.cases = 1, 0
        self.around, self.is_open = with_settings({}, CONFIG), False

    def text(self):
        return [f"# {self.title}", *self.table, *self.lines]

    def add_table(self, names, rows):
        self.rows = len(rows)
        self.table = ["each " + " | ".join(names)]
        self.table += ["- " + " | ".join(cell.replace("|", "\\x7C") or "\\{nothing}" for cell in row) for row in rows]

    def set_up(self):
        self.lines += WORLDS[self.section.world].lines()
        self.is_open = bool(self.lines)

    def turn_to(self, settings=()):
        """Sets what is around the requests: what the section has, and these settings."""
        wanted = {key: s for key, s in self.section.case(settings).items() if is_around(s)}
        changed_settings = [s for key, s in wanted.items() if self.around.get(key, self.section.case()[key]) != s]
        self.lines += [f"config {s}" for s in changed_settings if not is_next(s)]
        self.lines += [s for s in changed_settings if is_next(s)]
        if self.is_open and changed_settings and not any(map(is_next, changed_settings)):
            self.lines.append("restart")
        self.around = wanted

    def send(self, *requests):
        self.lines += [f"> {request}\\" for request in requests]
        self.cases += len(requests) * self.rows

    def expect(self, text, count=1):
        self.lines.append(f"< \\{{{text}}}\\" if count == 1 else f"< \\{{{count} {text}}}\\")

    def expect_reply(self, reply, hidden=()):
        """A reply, behind the names that it needs but those of the table."""
        self.lines += [f"let {name} {value}" for name, value in reply.other_names().items() if name not in hidden]
        self.expect(reply.text)

    def end(self):
        self.lines.append("open")
        self.is_open = True

    def stand(self, around=()):
        """The request as it stands, and its reply, which may have a name of its own."""
        reply, name = reply_to(self.section.case(around)), REPLY_NAMES.get(self.section.title)
        self.send(request_of(self.section.case()))
        if name is None or reply != reply_to(self.section.case()) or self.section.world == "objects":
            self.expect_reply(reply)
        else:
            self.replies[name] = reply.filled()
            self.expect(name)
        self.end()


def table_of(example, group):
    """Tells the rows of a group in a table where they are several. It returns the parts of the request that the table has, and
    the name of the reply."""
    replies = [reply_to(group.section.case([*row, *group.around])).text for row in group.rows]
    if len(group.rows) == 1:
        return (), replies[0]
    keys, varies = sorted(group.keys), len(set(replies)) > 1
    parts = [[short(next(s for s in row if key_of(s) == key)) for key in keys] for row in group.rows]
    example.add_table([*map(cell_of, keys), *["reply"] * varies],
                      [[*row, *[f"\\{{{reply}}}"] * varies] for row, reply in zip(parts, replies)])
    return group.keys, "reply" if varies else replies[0]


def refused_example(group):
    """What breaks a rule, alone and with what breaks a later one; in the end the request as it stands."""
    section = group.section
    example = Example(section, group.title())
    cells, text = table_of(example, group)
    later = group.later()
    example.set_up()
    for around in [*filter(None, later), ()]:
        others = later[around] if around else [[], *later.get((), [])]
        group.check(others, around)
        example.turn_to([*group.around, *around])
        example.send(*(request_of(section.case([*group.rows[0], *other]), cells) for other in others))
        example.expect(text, len(others))
        if around or refusal(section.case(group.around)) is not None:
            example.end()
    if refusal(section.case(group.around)) is None:
        example.stand(group.around)
    else:
        example.turn_to()
        example.stand()
    return example


def add_replies(example, names, rows, replies):
    """Tells requests with their replies in a table where they are several. It returns the names that the table has of the replies."""
    if len(rows) == 1:
        return []
    told_names = dict.fromkeys(name for reply in replies for name in reply.other_names())
    varying = [name for name in told_names if len({reply.words().get(name) for reply in replies}) > 1]
    example.add_table([*names, *varying], [[*row, *(reply.words()[name] for name in varying)] for row, reply in zip(rows, replies)])
    return varying


def held_example(section, around, rows):
    """What breaks no rule, with the same settings around it."""
    example = Example(section, "what breaks no rule" + "".join(AROUND.get(setting, "") for setting in around))
    found = [section.case([*row, *around]) for row in rows]
    assert all(refusal(case) is None for case in found), (section.title, rows, around)
    replies = [reply_to(case) for case in found]
    requests = [without_line(section.case(row)) for row in rows]
    hidden = add_replies(example, ["request"], [[request] for request in requests], replies)
    example.set_up()
    example.turn_to(around)
    example.send(section.base[0] + "\\{host}" + (requests[0] if len(rows) == 1 else "\\{request}"))
    example.expect_reply(replies[0], hidden)
    example.end()
    return example


def settings_example(section, title, settings):
    """The request as it stands, with one setting around it in each row: a number that is given next, or of the configuration."""
    example = Example(section, title)
    word = "next" if is_next(settings[0]) else "config"
    rows = [setting.removeprefix("next ").split(" ", 1) for setting in settings]
    replies = [reply_to(section.case([setting])) for setting in settings]
    assert len({reply.text for reply in replies}) == 1, (section.title, settings)
    hidden = add_replies(example, ["kind", "number"], rows, replies)
    example.set_up()
    example.turn_to()
    example.lines.append(f"{word} " + (" ".join(rows[0]) if len(rows) == 1 else "\\{kind} \\{number}"))
    if example.is_open and word == "config":
        example.lines.append("restart")
    example.send(request_of(section.case()))
    example.expect_reply(replies[0], hidden)
    example.end()
    return example


def full_example(section, around):
    """What breaks a rule where no number is left either."""
    example = Example(section, "no number is left, and an earlier rule is broken")
    rows = [settings for rule, settings in section.rules() if rule < 15 and not parted(settings)[1]]
    replies = [reply_to(section.case(row)) for row in rows]
    assert replies == [reply_to(section.case([*row, *around])) for row in rows], section.title
    example.add_table(["request", "reply"], [[request_of(section.case(row)), f"\\{{{reply.text}}}"] for row, reply in zip(rows, replies)])
    example.set_up()
    example.turn_to(around)
    example.send("\\{request}")
    example.expect("reply")
    example.end()
    return example


def held_examples(section):
    """What breaks no rule, in the request and around it."""
    held, alone = {(): [[]]}, {True: [], False: []}
    for settings in section.held:
        asked, around = parted(settings.split(" & "))
        if asked:
            held.setdefault(around, []).append(asked)
        else:
            alone[is_next(around[0])] += around
    yield from (held_example(section, around, rows) for around, rows in held.items())
    if alone[False]:
        yield settings_example(section, "configurations that allow it", alone[False])
    if alone[True]:
        yield settings_example(section, "numbers that are left", alone[True])


def examples_of(section):
    """What breaks no rule, and then the rules in their order."""
    yield from held_examples(section)
    for group in (group for group in section.groups() if group.rule < 15):
        among_others = group.rule == 6 and section.world == "object"
        yield refused_example(replace(group, section=replace(section, world="objects")) if among_others else group)
    used_up = [setting for rule, settings in section.rules() if rule == 15 for setting in settings]
    if used_up:
        yield settings_example(section, "no number is left", used_up)
        yield full_example(section, used_up[-1:])


# ---- the file

BAG = ("bagit.txt", "bag-info.txt", "manifest-sha256.txt", "manifest-sha512.txt", "metadata/sword.json", "tagmanifest-sha256.txt",
       "tagmanifest-sha512.txt", "data/1/a.txt")
FILE = DATA / "order.txt"
# The operations, by the world in which they are played.
OPERATIONS = [
    ("service", cases.deposits()), ("uploads", cases.deposits_by_reference()), ("object", cases.additions()),
    ("object and uploads", cases.additions_by_reference()), ("object", cases.replacements()), ("object", cases.completions()),
    ("object and uploads", cases.replacements_by_reference()), ("object and uploads", cases.files_by_reference()),
    ("object", cases.metadata()), ("object", cases.file_replacements()), ("object", cases.deletions()), ("service", cases.openings()),
    ("upload", cases.segments()),
    *((world, cases.reads(method, world)) for method in ("GET", "HEAD") for world in cases.READ),
]
HEAD = """\
// The order of refusals, operation by operation. checks/rulings.py writes this file, from docs/PROFILE.md alone.
//
// First what breaks no rule: the request as it stands, and what it may have besides. Then the rules in their order: the rows are
// ways to break one, which is the answer alone and together with what breaks a later one. What was refused has changed nothing:
// behind it the request as it stands is accepted."""
HOST = as_text("host", "\\x20HTTP/1.1\\r\\nHost: 127.0.0.1:8080\\r\\n")


def reading_texts():
    """Replies to GET and HEAD that no other file needs."""
    for name, media, lines in (("bag-list", "text/plain; charset=utf-8", [line + "\\n" for line in BAG]), ("bag-file", "text/plain", ["abc"])):
        length = len("".join(lines).replace("\\n", "\n"))
        head = ["HTTP/1.1 200 OK", "Date: \\{date}", f"Content-Type: {media}", f"Content-Length: {length}", "", ""]
        yield f"{name}-head", "\\r\\n".join(head)
        yield name, f"\\{{{name}-head}}" + "".join(lines)
    for text, head in HEADS.items():
        if head not in WORDS:
            yield head, WORDS[text].partition("\\r\\n\\r\\n")[0] + "\\r\\n\\r\\n"


def named_texts(written, lines):
    """The texts that the examples name and texts.txt hasn't, in the order in which the file has them."""
    used, replies = set(re.findall(r"\\\{(?:\d+ )?([^ }]+)\}", "\n".join(lines))), {}
    for example in written:
        replies |= example.replies
    lets = {**{name: spelled(setting) for name, setting in NAMES.items()}, "first-chunk": FRONT, "last-chunk": END}
    yield [f"let {name} {text}" for name, text in lets.items() if name in used]
    yield from (SET_UPS[name].texts(name) for name in SET_UPS if f"{name}-replies" in used)
    reading = dict(reading_texts())
    used |= {f"{name}-head" for name in used if name in reading}
    yield from (as_text(name, text) for name, text in {**reading, **replies}.items() if name in used)


def give_own_titles(written):
    """A rule that an operation has broken by the same part before has `, again` behind its title."""
    taken = set()
    for example in written:
        example.title += ", again" * (example.title in taken)
        taken.add(example.title)
    assert len(taken) == len(written), "a title stands twice"


def file_text():
    """The text of the file, and how many examples and cases it has."""
    sections = [Section(*titled, *what, world) for world, found in OPERATIONS for *titled, what in found]
    written = [example for section in sections for example in examples_of(section)]
    give_own_titles(written)
    parts = [HEAD.split("\n"), HOST]
    bodies = [example.text() for example in written]
    parts += [*filter(None, named_texts(written, itertools.chain(*bodies))), *bodies]
    return "\n\n".join("\n".join(part) for part in parts) + "\n", len(written), sum(example.cases for example in written)


def main():
    text, examples, cases_there = file_text()
    print(f"{FILE.name}: {text.count(chr(10))} lines, {len(text.encode())} bytes, {examples} examples")
    is_as_written = put(FILE, text, "--check" in sys.argv)
    print(f"order of refusals: {cases_there} cases")
    sys.exit(0 if is_as_written else f"not as it would be written: {FILE.name}")


if __name__ == "__main__":
    main()
