"""The order of refusals of docs/PROFILE.md once more, for the examples that checks/rulings.py writes.

It is written from that page alone, and shares no code with the server nor with model.py. `accepted` says what a
request asks for in a state, or which refusal is the answer. A request, the state and the configuration are a case: a
dictionary of settings, each of which sets one thing.

Settings: the `request`, a field of it (its values parted by `|` where it stands more than once), its `content`, or
`entry K` (the content is then the document of references with these entries); `object N tags` of the object, its metadata
and its file set, `file OBJECT N tag`, the `path` that the bag has, `upload N SIZE COUNT SEGMENT-SIZE promised DIGESTS segments`
(DIGESTS as a Digest field has them, and `-` for a segment that isn't there), the `next` number of a kind; and the
configuration. `no` takes away what was set.
"""

import base64
import hashlib
import json
import re
from dataclasses import dataclass, field

GREATEST = 4_000_000_000_000_000_000
BINARY = "http://purl.org/net/sword/3.0/package/Binary"
FORMAT = "http://purl.org/net/sword/3.0/types/Metadata"
ZIP = "http://purl.org/net/sword/3.0/package/SimpleZip"
FIELDS = ["On-Behalf-Of", "Content-Disposition", "In-Progress", "Packaging", "Metadata-Format",
          "Content-Type", "Content-Encoding", "Digest", "If-Match"]


def sha256(text):
    return hashlib.sha256(text.encode()).hexdigest()


def sha512(text):
    return hashlib.sha512(text.encode()).hexdigest()


# The digests that a text may promise: the name of each, its size in bytes, and that of a content in hexadecimal digits.
DIGESTS = {"sha-256": (32, sha256), "sha-512": (64, sha512)}


# ---- settings: each sets one thing of the archive, the configuration or the request

def key_of(setting):
    """What a setting sets: later ones take the place of earlier ones with the same key."""
    for name in FIELDS:
        if setting.startswith(name + ":") or setting == "no " + name:
            return name
    words = setting.removeprefix("no ").split()
    count = {"upload": 2, "entry": 2, "next": 2, "object": 2, "file": 3}
    return " ".join(words[:count.get(words[0], 1)])


def with_settings(case, settings):
    case = dict(case)
    for setting in settings:
        case[key_of(setting)] = setting
    return case


def told(case, key):
    """The words behind the key, or nothing where it was taken away."""
    setting = case.get(key)
    if setting is None or setting.startswith("no "):
        return None
    return setting[len(key):].strip()


# ---- the rules, in their order

class Refused(Exception):
    pass


def refuse_if(broken, refusal):
    if broken:
        raise Refused(refusal)


def values(case, name):
    """The values of a field's lines."""
    text = told(case, name)
    return None if text is None else [value.strip() for value in text[1:].split("|")]


def listed(case, name):
    lines = values(case, name)
    return None if lines is None else [m.strip(" \t") for m in ",".join(lines).split(",") if m.strip(" \t")]


def hexadecimal(value, size):
    """The digits of a digest of so many bytes, in either spelling."""
    if re.fullmatch(r"[0-9a-fA-F]+", value) and len(value) == 2 * size:
        return value.lower()
    try:
        raw = base64.b64decode(value, validate=True)
    except ValueError:
        raise Refused("BadRequest")
    refuse_if(len(raw) != size, "BadRequest")
    return raw.hex()


def digests_read(members):
    """What a Digest text promises, by the names of DIGESTS, Refused where it's unreadable."""
    refuse_if(any("=" not in member for member in members), "BadRequest")
    pairs = [member.split("=", 1) for member in members]
    promised = {}
    for known, (size, _) in DIGESTS.items():
        found = {hexadecimal(value, size) for name, value in pairs if name.lower() == known}
        refuse_if(len(found) > 1, "BadRequest")
        promised |= {known: digest for digest in found}
    return promised


def is_kept(promised, content):
    return all(DIGESTS[name][1](content) == digest for name, digest in promised.items())


def disposition_read(text):
    """Type and parameters, or None. The table has no quoted strings."""
    kind, *parts = [part.strip(" \t") for part in text.split(";")]
    parameters = {}
    for part in filter(None, parts):
        if not re.fullmatch(r"[A-Za-z0-9_*-]+=[!-~]+", part):
            return None
        name, value = part.split("=", 1)
        if name.lower() in parameters:
            return None
        parameters[name.lower()] = value
    return (kind.lower(), parameters) if kind else None


def good_name(name):
    return name is not None and 1 <= len(name.encode()) <= 255 and not re.search(r"[/\\\x00-\x1f\x7f]", name) \
        and name not in (".", "..")


def number(text, least):
    if text is None or not re.fullmatch(r"[0-9]+", text) or int(text) < least:
        return None
    return min(int(text), 2 ** 64 - 1)


def kind_read(text):
    """(kind, what it says), or None."""
    read = disposition_read(text)
    if read is None:
        return None
    form, given = read
    if form == "attachment":
        flags = [given.get(name, "false").lower() for name in ("metadata", "by-reference")]
        if any(flag not in ("true", "false") for flag in flags) or flags == ["true", "true"]:
            return None
        if flags[0] == "true":
            return ("metadata", None)
        if flags[1] == "true":
            return ("references", None)
        return ("file", given["filename"]) if good_name(given.get("filename")) else None
    if form == "segment-init":
        sizes = [number(given.get(name), 1) for name in ("size", "segment_count", "segment_size")]
        try:
            promised = digests_read([m for m in given.get("digest", "").split(",") if m])
        except Refused:
            return None
        return None if None in sizes else ("opening", (*sizes, promised))
    if form == "segment":
        segment = number(given.get("segment_number"), 0)
        return None if segment is None else ("segment", segment)
    return None


KINDS = {
    ("POST", "service"): {"file", "metadata", "references"},
    ("PUT", "object"): {"file", "metadata", "references"},
    ("POST", "object"): {"file", "metadata", "references"},
    ("PUT", "metadata"): {"metadata"},
    ("PUT", "files"): {"file", "references"},
    ("PUT", "file"): {"file"},
    ("POST", "staging"): {"opening"},
    ("POST", "upload"): {"segment"},
}
RESOURCES = [
    ("service", r"/service"), ("object", r"/objects/(\d+)"), ("metadata", r"/objects/(\d+)/metadata"),
    ("files", r"/objects/(\d+)/files"), ("file", r"/objects/(\d+)/files/(\d+)"), ("staging", r"/staging"),
    ("upload", r"/staging/(\d+)"), ("bag", r"/objects/(\d+)/bag"), ("bag file", r"/objects/(\d+)/bag/(.+)"),
]


class Upload:
    def __init__(self, text):
        parts = re.fullmatch(r"(\d+) (\d+) (\d+) promised (\S*) segments (.*)", text)
        self.size, self.count, self.segment_size = (int(parts[i]) for i in (1, 2, 3))
        self.promised = digests_read([member for member in parts[4].split(",") if member])
        self.segments = [None if s == "-" else s for s in parts[5].split()]
        assert len(self.segments) == self.count

    def length(self, k):
        return self.size - (self.count - 1) * self.segment_size if k == self.count else self.segment_size


def upload_at(case, n):
    text = told(case, f"upload {n}")
    refuse_if(text is None, "NotFound")
    refuse_if(text == "timed out", "SegmentedUploadTimedOut")
    return Upload(text)


def content_of(case):
    entries = [told(case, f"entry {k}") for k in range(1, 13)]
    entries = [entry for entry in entries if entry is not None]
    if entries:
        return '{"byReferenceFiles":[' + ",".join(entries) + "]}"
    return told(case, "content") or ""


def flag(case, key):
    return told(case, key) == "true"


def limit(case, key):
    return int(told(case, key))


def behalf(case):
    lines = values(case, "On-Behalf-Of")
    if lines is None:
        return None
    refuse_if(not flag(case, "on-behalf-of"), "OnBehalfOfNotAllowed")
    refuse_if(len(lines) != 1 or lines[0] == "", "BadRequest")
    return lines[0]


def presence(case, resource, numbers):
    if resource in ("object", "metadata", "files", "bag", "bag file"):
        refuse_if(told(case, f"object {numbers[0]}") is None, "NotFound")
    if resource == "file":
        refuse_if(told(case, "file {} {}".format(*numbers)) is None, "NotFound")
    if resource == "upload":
        upload_at(case, numbers[0])
    if resource == "bag file":
        refuse_if(told(case, "path") != numbers[1], "NotFound")


def tag_of(case, resource, numbers):
    """The tag of the resource of the URL, or None where If-Match isn't looked at."""
    if resource == "file":
        return told(case, "file {} {}".format(*numbers)).split()[1]
    place = {"object": 1, "metadata": 2, "files": 3}.get(resource)
    return told(case, f"object {numbers[0]}").split()[place] if place else None


def tag_held(case, resource, numbers):
    """If-Match against that tag."""
    tag = tag_of(case, resource, numbers)
    if tag is None:
        return
    members = listed(case, "If-Match")
    refuse_if(members is None and flag(case, "require-if-match"), "ETagRequired")
    refuse_if(members is not None and not {"*", tag, f'"{tag}"'} & set(members), "ETagNotMatched")


def once(case, name, accepts, refusal):
    lines = values(case, name)
    if lines is not None:
        refuse_if(len(lines) != 1, "BadRequest")
        refuse_if(not accepts(lines[0]), refusal)


def kind_of(case, method, resource):
    lines = values(case, "Content-Disposition")
    progress = values(case, "In-Progress") or [""]
    if lines is None:
        if (method, resource) == ("PUT", "metadata"):
            return ("metadata", None)
        whole = (method, resource) == ("POST", "object") and content_of(case) == "" \
            and not (len(progress) == 1 and progress[0].lower() == "true")
        refuse_if(not whole, "BadRequest")
        return ("completion", None)
    kind = kind_read(lines[0]) if len(lines) == 1 else None
    refuse_if(kind is None or kind[0] not in KINDS[method, resource], "BadRequest")
    refuse_if(kind[0] == "opening" and content_of(case) != "", "BadRequest")
    return kind


def is_media(text):
    return re.fullmatch(r"[ -~]{1,255}", text) is not None


def is_json(text):
    return text.split(";")[0].strip(" \t").lower() in ("application/json", "application/ld+json")


def metadata_read(content):
    try:
        document = json.loads(content)
    except ValueError:
        raise Refused("ContentMalformed")
    refuse_if(not isinstance(document, dict) or document.get("@type", "Metadata") != "Metadata", "ContentMalformed")
    kept = {}
    for name, texts in document.items():
        if name.startswith(("dc:", "dcterms:")):
            texts = [texts] if isinstance(texts, str) else texts
            refuse_if(not isinstance(texts, list) or not all(isinstance(t, str) for t in texts), "ContentMalformed")
            if texts:
                kept[name] = texts
    return kept


class Entry:
    def __init__(self, entry, base):
        refuse_if(not isinstance(entry, dict), "ContentMalformed")
        url = entry.get("@id")
        refuse_if(not isinstance(url, str) or not re.fullmatch(r"[a-z]+://[^ ]+", url), "ContentMalformed")
        text = entry.get("contentDisposition")
        read = disposition_read(text) if isinstance(text, str) else None
        refuse_if(read is None or read[0] != "attachment" or not good_name(read[1].get("filename")), "ContentMalformed")
        self.name = read[1]["filename"]
        self.media = entry.get("contentType", "application/octet-stream")
        refuse_if(not isinstance(self.media, str) or not is_media(self.media), "ContentMalformed")
        self.length = entry.get("contentLength")
        refuse_if("contentLength" in entry and not isinstance(self.length, int), "ContentMalformed")
        self.packaging = entry.get("packaging", BINARY)
        refuse_if(not isinstance(self.packaging, str), "ContentMalformed")
        try:
            self.promised = digests_read(entry.get("digest", "").split(",") if entry.get("digest") else [])
        except Refused:
            raise Refused("ContentMalformed")
        found = re.fullmatch(re.escape(base) + r"/staging/([1-9]\d*)", url)
        self.upload = int(found[1]) if found and int(found[1]) <= GREATEST else None


def references_read(case):
    """The entries of a document that every rule on references passes."""
    try:
        document = json.loads(content_of(case))
    except ValueError:
        raise Refused("ContentMalformed")
    refuse_if(not isinstance(document, dict) or document.get("@type", "ByReference") != "ByReference", "ContentMalformed")
    listing = document.get("byReferenceFiles")
    refuse_if(not isinstance(listing, list) or not listing, "ContentMalformed")
    entries = [Entry(entry, told(case, "base")) for entry in listing]
    refuse_if(any(e.upload is None for e in entries), "ByReferenceNotAllowed")
    refuse_if(any(e.packaging != BINARY for e in entries), "PackagingFormatNotAcceptable")
    refuse_if(len({e.upload for e in entries}) < len(entries), "BadRequest")
    uploads = [(e, upload_at(case, e.upload)) for e in entries]
    refuse_if(any(None in u.segments for _, u in uploads), "BadRequest")
    refuse_if(any(e.length is not None and e.length != u.size for e, u in uploads), "BadRequest")
    for e, u in uploads:
        joined = "".join(u.segments)
        refuse_if(not is_kept(u.promised, joined) or not is_kept(e.promised, joined), "DigestMismatch")
    return entries


def sizes(case, kind, numbers, content):
    if kind[0] == "opening":
        size, count, segment_size, _ = kind[1]
        refuse_if(size > limit(case, "max-assembled"), "MaxAssembledSizeExceeded")
        refuse_if(count > limit(case, "max-segments"), "SegmentLimitExceeded")
        refuse_if(segment_size > limit(case, "max-upload"), "InvalidSegmentSize")
        refuse_if(not (count - 1) * segment_size < size <= count * segment_size, "InvalidSegmentSize")
    if kind[0] == "segment":
        upload, k = upload_at(case, numbers[0]), kind[1]
        refuse_if(k < 1 or k > upload.count, "UnexpectedSegment")
        received = upload.segments[k - 1]
        refuse_if(received not in (None, content), "UnexpectedSegment")
        refuse_if(received is None and len(content) != upload.length(k), "InvalidSegmentSize")


@dataclass
class File:
    """A file that a request deposits."""
    name: str
    media: str
    by_reference: bool
    behalf: str | None


@dataclass
class Asked:
    """What an accepted request asks for: its `kind` is that of its content, and `told` what Content-Disposition tells."""
    method: str
    resource: str
    numbers: tuple
    kind: str | None = None
    told: object = None
    going_on: bool = False
    files: list = field(default_factory=list)
    metadata: dict | None = None

    def counts(self):
        """How many numbers of objects, files, uploads and changes it takes."""
        if self.method in ("GET", "HEAD") or self.resource == "upload" or (self.method, self.resource) == ("DELETE", "object"):
            return 0, 0, 0, 0
        if self.resource == "staging":
            return 0, 0, 1, 0
        files = 0 if self.resource == "file" else len(self.files)
        return int(self.resource == "service"), files, 0, 1


def add_deposit(asked, case, for_whom):
    """Adds what the content deposits."""
    if asked.kind == "file":
        media = (values(case, "Content-Type") or ["application/octet-stream"])[0]
        asked.files.append(File(asked.told, media, False, for_whom))
    if asked.kind == "metadata":
        asked.metadata = metadata_read(content_of(case))
    if asked.kind == "references":
        asked.files += [File(e.name, e.media, True, for_whom) for e in references_read(case)]


def room(case, taken):
    for name, wanted in zip(("object", "file", "upload", "change"), taken):
        refuse_if(wanted > 0 and int(told(case, "next " + name)) + wanted > GREATEST, "StoreFull")


def add_content(asked, case, for_whom):
    """Rules 8 to 14, for what has a content."""
    method, resource, content = asked.method, asked.resource, content_of(case)
    once(case, "Content-Encoding", lambda v: v.lower() == "identity", "ContentTypeNotAcceptable")
    asked.kind, asked.told = kind_of(case, method, resource)
    if (method, resource) in (("POST", "service"), ("POST", "object"), ("PUT", "object")):
        once(case, "In-Progress", lambda v: v.lower() in ("true", "false"), "BadRequest")
        asked.going_on = (values(case, "In-Progress") or [""])[0].lower() == "true"
    if asked.kind == "file":
        once(case, "Packaging", lambda v: v == BINARY, "PackagingFormatNotAcceptable")
    if asked.kind == "metadata":
        once(case, "Metadata-Format", lambda v: v == FORMAT, "MetadataFormatNotAcceptable")
    if asked.kind in ("file", "metadata", "references"):
        once(case, "Content-Type", is_media, "BadRequest")
    if asked.kind in ("metadata", "references"):
        once(case, "Content-Type", is_json, "ContentTypeNotAcceptable")
    refuse_if(not is_kept(digests_read(listed(case, "Digest") or []), content), "DigestMismatch")
    add_deposit(asked, case, for_whom)
    sizes(case, (asked.kind, asked.told), asked.numbers, content)


def accepted(case):
    """What an accepted request asks for; Refused by the first rule that is broken."""
    method, path = told(case, "request").split()
    resource, found = next((r, m) for r, p in RESOURCES if (m := re.fullmatch(p, path)))
    asked = Asked(method, resource, found.groups())
    for_whom = behalf(case)
    presence(case, resource, asked.numbers)
    if method in ("GET", "HEAD") or (method, resource) == ("DELETE", "upload"):
        return asked
    tag_held(case, resource, asked.numbers)
    if method != "DELETE":
        add_content(asked, case, for_whom)
    room(case, asked.counts())
    return asked


def refusal(case):
    """The refusal that is the answer, or None."""
    try:
        accepted(case)
        return None
    except Refused as refused:
        return refused.args[0]
