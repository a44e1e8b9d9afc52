"""A second server of the profile, in Python, written from docs/PROFILE.md and the standards alone.

It shares no code with the server of this repository. checks/examples.py plays the examples against it, so that two
readings of one page have to agree before a byte of an example is believed.
"""

import base64
import binascii
import copy
import hashlib
import ipaddress
import json
import re
import time
from dataclasses import dataclass, field
from urllib.parse import unquote

GREATEST = 4_000_000_000_000_000_000
LAST_SECOND = 253_402_300_799
CONTEXT = "https://swordapp.github.io/swordv3/swordv3.jsonld"
SWORD = "http://purl.org/net/sword/3.0"
BINARY = SWORD + "/package/Binary"
METADATA = SWORD + "/types/Metadata"
ALGORITHMS = {b"sha-256": hashlib.sha256, b"sha-512": hashlib.sha512}
TOKEN = re.compile(rb"[!#$%&'*+\-.^_`|~0-9A-Za-z]+")

REFUSALS = {
    "BadRequest": (1, 400, "The request is not well formed for this operation"),
    "ContentMalformed": (2, 400, "The document could not be read"),
    "InvalidSegmentSize": (3, 400, "The segment sizes do not fit the upload"),
    "UnexpectedSegment": (4, 400, "This segment is not expected"),
    "SegmentLimitExceeded": (5, 400, "Too many segments"),
    "MaxAssembledSizeExceeded": (6, 400, "The assembled file would be too large"),
    "NotFound": (7, 404, "There is nothing at this URL"),
    "MethodNotAllowed": (8, 405, "The method is not allowed here"),
    "SegmentedUploadTimedOut": (9, 410, "The upload has timed out"),
    "DigestMismatch": (10, 412, "The content does not match its digest"),
    "ETagNotMatched": (11, 412, "The entity tag does not match"),
    "ETagRequired": (12, 412, "An entity tag is required"),
    "OnBehalfOfNotAllowed": (13, 412, "Deposit on behalf of others is not allowed"),
    "ByReferenceNotAllowed": (14, 412, "This reference is not allowed"),
    "MaxUploadSizeExceeded": (15, 413, "The content is too large"),
    "ContentTypeNotAcceptable": (16, 415, "The content type is not acceptable"),
    "MetadataFormatNotAcceptable": (17, 415, "The metadata format is not acceptable"),
    "PackagingFormatNotAcceptable": (18, 415, "The packaging format is not acceptable"),
    "StoreFull": (19, 507, "No more numbers can be given"),
}
PHRASES = {
    200: "OK", 201: "Created", 204: "No Content", 400: "Bad Request", 404: "Not Found", 405: "Method Not Allowed",
    410: "Gone", 412: "Precondition Failed", 413: "Content Too Large", 415: "Unsupported Media Type",
    507: "Insufficient Storage",
}
METHODS = {
    "service": "GET, HEAD, POST", "object": "GET, HEAD, POST, PUT, DELETE", "metadata": "GET, HEAD, PUT, DELETE",
    "files": "PUT, DELETE", "file": "GET, HEAD, PUT, DELETE", "staging": "POST",
    "upload": "GET, HEAD, POST, DELETE", "bag": "GET, HEAD", "part": "GET, HEAD",
}
KINDS = {
    ("POST", "service"): ("file", "metadata", "references"),
    ("PUT", "object"): ("file", "metadata", "references"),
    ("POST", "object"): ("file", "metadata", "references", "completion"),
    ("PUT", "metadata"): ("metadata", "absent"),
    ("PUT", "files"): ("file", "references"),
    ("PUT", "file"): ("file",),
    ("POST", "staging"): ("opening",),
    ("POST", "upload"): ("segment",),
}
TAGGED = {("POST", "object"), ("PUT", "object"), ("DELETE", "object"), ("PUT", "metadata"), ("DELETE", "metadata"),
          ("PUT", "files"), ("DELETE", "files"), ("PUT", "file"), ("DELETE", "file")}


class Refused(Exception):
    pass


class Malformed(Exception):
    pass


def refuse_if(broken, refusal):
    if broken:
        raise Refused(refusal)


def compact(document):
    return json.dumps(document, ensure_ascii=False, separators=(",", ":"), sort_keys=True).encode()


def stamp(moment):
    return time.strftime("%Y-%m-%dT%H:%M:%SZ", time.gmtime(moment))


def http_date(moment):
    return time.strftime("%a, %d %b %Y %H:%M:%S GMT", time.gmtime(moment))


# ---- what is kept

@dataclass
class File:
    name: str
    media: str
    content: bytes
    tag: int = 0
    deposited: int = 0
    behalf: str | None = None
    by_reference: bool = False


@dataclass
class Object:
    ingested: bool = False
    tag: int = 0
    metadata_tag: int = 0
    files_tag: int = 0
    changed: int = 0
    metadata: dict = field(default_factory=dict)
    files: dict = field(default_factory=dict)


@dataclass
class Upload:
    size: int
    count: int
    segment_size: int
    promised: dict
    last: int
    segments: dict = field(default_factory=dict)


@dataclass
class Config:
    base: str = "http://127.0.0.1:8080"
    title: str = "swordd"
    abstract: str = "Deposit service"
    depositor: str = "depositor"
    on_behalf_of: bool = False
    require_if_match: bool = False
    max_upload: int = 16_777_216
    max_assembled: int = 17_179_869_184
    max_segments: int = 10_000
    staging_max_idle: int = 3_600

    def is_accepted(self):
        base = re.fullmatch(r"http://(\[[0-9a-f:]+\]|[0-9a-z.\-]+)(?::([1-9][0-9]*))?", self.base)
        return (base is not None and base.group(2) != "80" and int(base.group(2) or 1) < 65_536
                and 1 <= self.max_upload <= 16_777_216 and 1 <= self.max_assembled <= 17_179_869_184
                and 1 <= self.max_segments <= 10_000 and 1 <= self.staging_max_idle <= 31_536_000)


@dataclass
class Archive:
    clock: int = 0
    next: dict = field(default_factory=lambda: {"object": 1, "file": 1, "upload": 1, "change": 1})
    objects: dict = field(default_factory=dict)
    uploads: dict = field(default_factory=dict)
    timed_out: set = field(default_factory=set)

    def tick(self, config, moment):
        self.clock = max(self.clock, min(moment, LAST_SECOND))
        for number, upload in list(self.uploads.items()):
            if self.clock - upload.last > config.staging_max_idle:
                del self.uploads[number]
                self.timed_out.add(number)

    def take(self, kind, count=1):
        first = self.next[kind]
        refuse_if(first + count > GREATEST, "StoreFull")
        self.next[kind] += count
        return first


# ---- fields

@dataclass
class Request:
    method: str
    target: bytes
    version: int
    fields: list
    content: bytes = b""

    def values(self, name):
        return [value for key, value in self.fields if key.lower() == name.lower()]

    def closes(self):
        asked = [member.lower() for member in self.members("Connection")]
        return self.version == 0 or b"close" in asked

    def members(self, name):
        """The members of a comma list over several lines, empty ones skipped."""
        found = [member.strip(b" \t") for value in self.values(name) for member in value.split(b",")]
        return [member for member in found if member]

    def single(self, name):
        """The value of a field that may stand once; twice is bad."""
        found = self.values(name)
        refuse_if(len(found) > 1, "BadRequest")
        return found[0] if found else None


def read_disposition(value):
    """The type and the parameters, names in lower case."""
    kind = TOKEN.match(value)
    if not kind:
        raise Malformed
    at, parameters = kind.end(), {}
    while True:
        blank = re.compile(rb"[ \t]*").match(value, at).end()
        if blank == len(value):
            return kind.group().lower(), parameters
        if value[blank:blank + 1] != b";":
            raise Malformed
        at = re.compile(rb"[ \t]*").match(value, blank + 1).end()
        name = TOKEN.match(value, at)
        if not name:
            continue
        at = name.end()
        if value[at:at + 1] != b"=":
            raise Malformed
        quoted = re.compile(rb'"((?:[^"\\\x00-\x08\x0a-\x1f\x7f]|\\[^\x00-\x1f\x7f])*)"').match(value, at + 1)
        plain = re.compile(rb"[\x21\x23-\x3a\x3c-\x7e]+").match(value, at + 1)
        if quoted:
            text, at = re.sub(rb"\\(.)", rb"\1", quoted.group(1)), quoted.end()
        elif plain:
            text, at = plain.group(), plain.end()
        else:
            raise Malformed
        if name.group().lower() in parameters:
            raise Malformed
        parameters[name.group().lower()] = text


def file_name(parameters):
    if b"filename*" in parameters:
        form = re.fullmatch(rb"(?i:utf-8)'[^']*'((?:[^%]|%[0-9A-Fa-f]{2})*)", parameters[b"filename*"], re.S)
        if not form:
            raise Malformed
        name = re.sub(rb"%(..)", lambda m: bytes([int(m.group(1), 16)]), form.group(1), flags=re.S)
    elif b"filename" in parameters:
        name = parameters[b"filename"]
    else:
        raise Malformed
    if not 1 <= len(name) <= 255 or name in (b".", b"..") or re.search(rb"[\x00-\x1f\x7f/\\]", name):
        raise Malformed
    try:
        return name.decode()
    except UnicodeDecodeError:
        raise Malformed from None


def truth(parameters, name):
    value = parameters.get(name, b"false").lower()
    if value not in (b"true", b"false"):
        raise Malformed
    return value == b"true"


def number(parameters, name):
    value = parameters.get(name, b"")
    if not re.fullmatch(rb"[0-9]+", value):
        raise Malformed
    return min(int(value), 2**64 - 1)


def kind_of(value):
    """The kind that a Content-Disposition names, and what it tells."""
    kind, parameters = read_disposition(value)
    if kind == b"attachment":
        metadata, references = truth(parameters, b"metadata"), truth(parameters, b"by-reference")
        if metadata and references:
            raise Malformed
        if metadata:
            return "metadata", None
        if references:
            return "references", None
        return "file", file_name(parameters)
    if kind == b"segment-init":
        numbers = [number(parameters, name) for name in (b"size", b"segment_count", b"segment_size")]
        if 0 in numbers:
            raise Malformed
        return "opening", (*numbers, read_digests(parameters.get(b"digest", b"").split(b",")))
    if kind == b"segment":
        return "segment", number(parameters, b"segment_number")
    raise Malformed


def read_digests(members):
    """The digests that are promised, by the names of their algorithms in lower case."""
    promised = {}
    for member in members:
        member = member.strip(b" \t")
        if not member:
            continue
        name, sign, value = member.partition(b"=")
        if not sign:
            raise Malformed
        name = name.lower()
        if name not in ALGORITHMS:
            continue
        digest = spelled_digest(value, ALGORITHMS[name]().digest_size)
        if promised.setdefault(name, digest) != digest:
            raise Malformed
    return promised


def spelled_digest(value, size):
    """The digest of so many bytes that a text spells."""
    if re.fullmatch(rb"[0-9A-Fa-f]{%d}" % (2 * size), value):
        return bytes.fromhex(value.decode())
    try:
        digest = base64.b64decode(value, validate=True)
    except binascii.Error:
        raise Malformed from None
    if len(digest) != size or base64.b64encode(digest) != value:
        raise Malformed
    return digest


def has_digests(content, promised):
    return all(ALGORITHMS[name](content).digest() == digest for name, digest in promised.items())


# ---- documents read

def no_constant(text):
    raise ValueError(text)


def whole(text):
    return -0.0 if text == "-0" else int(text)


def finite(text):
    value = float(text)
    if value in (float("inf"), float("-inf")):
        raise ValueError(text)
    return value


def read_json(content):
    try:
        document = json.loads(content.decode(), parse_constant=no_constant, parse_int=whole, parse_float=finite)
        compact(document)  # no half of a surrogate pair
    except (ValueError, RecursionError):
        raise Refused("ContentMalformed") from None
    depth, deepest, inside = 0, 0, False
    for sign in re.findall(r'\\.|["\[\]{}]', content.decode()):
        if sign == '"':
            inside = not inside
        elif not inside and sign in "[{":
            depth += 1
            deepest = max(deepest, depth)
        elif not inside and sign in "]}":
            depth -= 1
    refuse_if(deepest > 127, "ContentMalformed")
    return document


def read_metadata(content):
    document = read_json(content)
    refuse_if(not isinstance(document, dict), "ContentMalformed")
    refuse_if("@type" in document and document["@type"] != "Metadata", "ContentMalformed")
    kept = {}
    for name, value in document.items():
        if not name.startswith(("dc:", "dcterms:")):
            continue
        texts = [value] if isinstance(value, str) else value
        refuse_if(not isinstance(texts, list), "ContentMalformed")
        refuse_if(not all(isinstance(text, str) for text in texts), "ContentMalformed")
        if texts:
            kept[name] = list(texts)
    return kept


@dataclass
class Reference:
    url: str
    name: str
    media: str
    length: int | None
    packaging: str | None
    promised: dict


def ipv4_number(part):
    """A part of an IPv4 address: decimal, octal behind 0, hexadecimal behind 0x."""
    base, digits = 10, part
    if part[:2].lower() == "0x":
        base, digits = 16, part[2:]
    elif part.startswith("0") and len(part) > 1:
        base, digits = 8, part[1:]
    try:
        return int(digits or "0", base)
    except ValueError:
        raise Malformed from None


def host_text(host):
    """A host as the standard of URLs writes it; of IDNA no more than letter case."""
    if host.startswith("["):
        try:
            return f"[{ipaddress.IPv6Address(host[1:-1] if host.endswith(']') else '')}]"
        except ValueError:
            raise Malformed from None
    host = unquote(host).lower()
    if not host or re.search(r"[\x00-\x20#/:<>?@\[\\\]^|%\x7f]", host):
        raise Malformed
    parts = host.removesuffix(".").split(".")
    if not re.fullmatch(r"[0-9]+|0x[0-9a-f]*", parts[-1]):
        return host
    numbers = [ipv4_number(part) for part in parts]
    if len(numbers) > 4 or any(number > 255 for number in numbers[:-1]) or numbers[-1] >= 256 ** (5 - len(numbers)):
        raise Malformed
    fronts = sum(number * 256 ** (3 - place) for place, number in enumerate(numbers[:-1]))
    return str(ipaddress.IPv4Address(fronts + numbers[-1]))


def url_text(text):
    """The text of an absolute URL as its standard writes it (url.spec.whatwg.org), as far as the examples go."""
    text = re.sub(r"[\t\n\r]", "", text.strip("".join(map(chr, range(33)))))
    scheme = re.match(r"[A-Za-z][A-Za-z0-9+.\-]*:", text)
    if not scheme:
        raise Malformed
    if scheme.group().lower() not in ("http:", "https:"):
        return text
    authority, path, rest = re.fullmatch(r"[/\\]*([^/\\?#]*)([^?#]*)(.*)", text[scheme.end():]).groups()
    user, _, place = authority.rpartition("@")
    host, port = re.fullmatch(r"(\[.*\]|\[.*|[^:]*)(?::(.*))?", place).groups()
    if port and (not re.fullmatch("[0-9]+", port) or int(port) > 65_535):
        raise Malformed
    standard = {"http:": 80, "https:": 443}[scheme.group().lower()]
    port = f":{int(port)}" if port and int(port) != standard else ""
    steps, listed = [], re.split(r"[/\\]", path)[1:] or [""]
    for at, step in enumerate(listed):
        plain = step.lower().replace("%2e", ".")
        steps = steps[:-1] if plain == ".." else steps if plain == "." else [*steps, step]
        if plain in (".", "..") and at == len(listed) - 1:
            steps.append("")
    user = user + "@" if user else ""
    return f"{scheme.group().lower()}//{user}{host_text(host)}{port}/{'/'.join(steps)}{rest}"


def read_reference(entry):
    if not isinstance(entry, dict) or not isinstance(entry.get("@id"), str):
        raise Malformed
    if not isinstance(entry.get("contentDisposition"), str):
        raise Malformed
    kind, parameters = read_disposition(entry["contentDisposition"].encode())
    if kind != b"attachment":
        raise Malformed
    name = file_name(parameters)
    media = entry.get("contentType", "application/octet-stream")
    if not isinstance(media, str) or not re.fullmatch(r"[\x20-\x7e]{1,255}", media):
        raise Malformed
    length = entry.get("contentLength")
    if "contentLength" in entry and (type(length) is not int or not 0 <= length < 2**64):
        raise Malformed
    packaging = entry.get("packaging")
    if "packaging" in entry and not isinstance(packaging, str):
        raise Malformed
    digest = entry.get("digest", "")
    if not isinstance(digest, str):
        raise Malformed
    return Reference(url_text(entry["@id"]), name, media, length, packaging, read_digests(digest.encode().split(b",")))


def read_references(content):
    document = read_json(content)
    refuse_if(not isinstance(document, dict), "ContentMalformed")
    refuse_if("@type" in document and document["@type"] != "ByReference", "ContentMalformed")
    entries = document.get("byReferenceFiles")
    refuse_if(not isinstance(entries, list) or not entries, "ContentMalformed")
    try:
        return [read_reference(entry) for entry in entries]
    except Malformed:
        raise Refused("ContentMalformed") from None


# ---- documents written

def service_document(config):
    return compact({
        "@context": CONTEXT, "@id": config.base + "/service", "@type": "ServiceDocument", "accept": ["*/*"],
        "acceptDeposits": True, "acceptMetadata": [METADATA], "acceptPackaging": [BINARY],
        "byReferenceDeposit": True, "dc:title": config.title, "dcterms:abstract": config.abstract,
        "digest": ["SHA-256", "SHA-512"], "maxAssembledSize": config.max_assembled, "maxSegments": config.max_segments,
        "maxUploadSize": config.max_upload, "onBehalfOf": config.on_behalf_of, "root": config.base + "/service",
        "staging": config.base + "/staging", "stagingMaxIdle": config.staging_max_idle, "version": SWORD,
    })


def link(config, number, file, url):
    told = {
        "@id": f"{url}/files/{number}", "contentType": file.media, "depositedBy": config.depositor,
        "depositedOn": stamp(file.deposited), "eTag": str(file.tag), "packaging": BINARY,
        "rel": [SWORD + "/terms/" + ("byReferenceDeposit" if file.by_reference else "originalDeposit"),
                SWORD + "/terms/fileSetFile"],
        "status": SWORD + "/filestate/ingested",
    }
    if file.behalf is not None:
        told["depositedOnBehalfOf"] = file.behalf
    return told


def status_document(config, number, item):
    url = f"{config.base}/objects/{number}"
    actions = ["getMetadata", "getFiles", "appendMetadata", "appendFiles", "replaceMetadata", "replaceFiles",
               "deleteMetadata", "deleteFiles", "deleteObject"]
    return compact({
        "@context": CONTEXT, "@id": url, "@type": "Status", "actions": {name: True for name in actions},
        "eTag": str(item.tag), "fileSet": {"@id": url + "/files", "eTag": str(item.files_tag)},
        "links": [link(config, key, file, url) for key, file in sorted(item.files.items())],
        "metadata": {"@id": url + "/metadata", "eTag": str(item.metadata_tag)}, "service": config.base + "/service",
        "state": [{"@id": SWORD + "/state/" + ("ingested" if item.ingested else "inProgress")}],
    })


def metadata_document(metadata, url=None):
    told = {name: texts[0] if len(texts) == 1 else texts for name, texts in metadata.items()}
    told |= {"@context": CONTEXT, "@type": "Metadata"}
    if url is not None:
        told["@id"] = url
    return compact(told)


def upload_document(config, number, upload):
    received = sorted(upload.segments)
    expecting = [n for n in range(1, upload.count + 1) if n not in upload.segments]
    return compact({
        "@context": CONTEXT, "@id": f"{config.base}/staging/{number}", "@type": "Temporary",
        "segments": {"expecting": expecting, "received": received, "segment_size": upload.segment_size,
                     "size": upload.size},
    })


def error_document(refusal, clock):
    code, _, text = REFUSALS[refusal]
    return compact({"@context": CONTEXT, "@type": refusal, "error": text, "log": f"refusal {code}",
                    "timestamp": stamp(clock)})


def bag_of(item):
    """The files of a bag, in their order: path, media type, content."""
    payload = [(f"data/{key}/{file.name}", file.media, file.content) for key, file in sorted(item.files.items())]

    def manifests(kind, files):
        for name in ("sha256", "sha512"):
            lines = [f"{hashlib.new(name, content).hexdigest()}  {path.replace('%', '%25')}\n" for path, _, content in files]
            yield f"{kind}-{name}.txt", plain, "".join(lines).encode()

    plain = "text/plain; charset=utf-8"
    info = f"Bagging-Date: {stamp(item.changed)[:10]}\n"
    info += f"Payload-Oxum: {sum(len(content) for _, _, content in payload)}.{len(payload)}\n"
    tags = [
        ("bagit.txt", plain, b"BagIt-Version: 1.0\nTag-File-Character-Encoding: UTF-8\n"),
        ("bag-info.txt", plain, info.encode()),
        *manifests("manifest", payload),
        ("metadata/sword.json", "application/json", metadata_document(item.metadata)),
    ]
    return [*tags, *manifests("tagmanifest", tags), *payload]


# ---- one request

@dataclass
class Reply:
    status: int
    media: str | None = None
    content: bytes = b""
    tag: int | None = None
    location: str | None = None
    allow: str | None = None
    closes: bool = False

    def spelled(self, clock, bare):
        lines = [f"HTTP/1.1 {self.status} {PHRASES[self.status]}", f"Date: {http_date(clock)}"]
        if self.media is not None:
            lines += [f"Content-Type: {self.media}", f"Content-Length: {len(self.content)}"]
        if self.tag is not None:
            lines.append(f'ETag: "{self.tag}"')
        if self.location is not None:
            lines.append(f"Location: {self.location}")
        if self.allow is not None:
            lines.append(f"Allow: {self.allow}")
        if self.closes:
            lines.append("Connection: close")
        return "\r\n".join([*lines, "", ""]).encode() + (b"" if bare else self.content)


def a_number(text):
    return int(text) if re.fullmatch(r"[1-9][0-9]{0,18}", text) and int(text) <= GREATEST else None


def path_of(target):
    path = re.sub(rb"[?#].*", b"", target, flags=re.S)
    path = re.sub(rb"^[A-Za-z][A-Za-z0-9+.\-]*://[^/]*", b"", path) or (b"/" if b"://" in target else b"")
    return path.decode("latin-1")


def resource(target):
    """The resource of a target, with its numbers, or None."""
    parts = path_of(target).split("/")
    if parts[0] != "" or len(parts) < 2:
        return None
    parts = parts[1:]
    if parts == ["service"] or parts == ["staging"]:
        return parts[0], None, None
    if len(parts) == 2 and parts[0] == "staging" and a_number(parts[1]):
        return "upload", a_number(parts[1]), None
    if len(parts) < 2 or parts[0] != "objects" or not a_number(parts[1]):
        return None
    key, rest = a_number(parts[1]), parts[2:]
    if not rest:
        return "object", key, None
    if rest in (["metadata"], ["files"], ["bag"]):
        return rest[0], key, None
    if len(rest) == 2 and rest[0] == "files" and a_number(rest[1]):
        return "file", key, a_number(rest[1])
    if len(rest) >= 2 and rest[0] == "bag" and "/".join(rest[1:]):
        coded = "/".join(rest[1:]).encode("latin-1")
        return "part", key, re.sub(rb"%([0-9A-Fa-f]{2})", lambda m: bytes([int(m.group(1), 16)]), coded)
    return None


class Step:
    """The answer to one request, over an archive that has ticked."""

    def __init__(self, config, archive, request):
        self.config, self.archive, self.request = config, archive, request

    def answer(self):
        found = resource(self.request.target)
        refuse_if(found is None, "NotFound")
        self.kind_of_resource, self.key, self.part = found
        method = self.method = self.request.method
        refuse_if(method not in METHODS[self.kind_of_resource].split(", "), "MethodNotAllowed")
        self.check_behalf()
        self.find()
        if method in ("GET", "HEAD"):
            return self.show()
        if (method, self.kind_of_resource) == ("DELETE", "upload"):
            del self.archive.uploads[self.key]
            return Reply(204)
        if (method, self.kind_of_resource) in TAGGED:
            self.check_tag()
        if method == "DELETE":
            return self.delete()
        self.check_fields()
        return self.change()

    def check_behalf(self):
        values, self.behalf = self.request.values("On-Behalf-Of"), None
        if not values:
            return
        refuse_if(not self.config.on_behalf_of, "OnBehalfOfNotAllowed")
        refuse_if(len(values) > 1 or not values[0], "BadRequest")
        try:
            self.behalf = values[0].decode()
        except UnicodeDecodeError:
            raise Refused("BadRequest") from None

    def find(self):
        self.object = None
        if self.kind_of_resource == "upload":
            refuse_if(self.key in self.archive.timed_out, "SegmentedUploadTimedOut")
            refuse_if(self.key not in self.archive.uploads, "NotFound")
            return
        if self.key is None:
            return
        refuse_if(self.key not in self.archive.objects, "NotFound")
        self.object = self.archive.objects[self.key]
        if self.kind_of_resource == "file":
            refuse_if(self.part not in self.object.files, "NotFound")
        if self.kind_of_resource == "part":
            paths = [path.encode() for path, _, _ in bag_of(self.object)]
            refuse_if(self.part not in paths, "NotFound")

    def show(self):
        config, item, kind = self.config, self.object, self.kind_of_resource
        document = "application/json"
        if kind == "service":
            return Reply(200, document, service_document(config))
        if kind == "object":
            return Reply(200, document, status_document(config, self.key, item), item.tag)
        if kind == "metadata":
            url = f"{config.base}/objects/{self.key}/metadata"
            return Reply(200, document, metadata_document(item.metadata, url), item.metadata_tag)
        if kind == "file":
            file = item.files[self.part]
            return Reply(200, file.media, file.content, file.tag)
        if kind == "upload":
            return Reply(200, document, upload_document(config, self.key, self.archive.uploads[self.key]))
        if kind == "bag":
            paths = "".join(path + "\n" for path, _, _ in bag_of(item))
            return Reply(200, "text/plain; charset=utf-8", paths.encode())
        for path, media, content in bag_of(item):
            if path.encode() == self.part:
                return Reply(200, media, content)

    def check_tag(self):
        item = self.object
        tag = {"object": item.tag, "metadata": item.metadata_tag, "files": item.files_tag}.get(self.kind_of_resource)
        if self.kind_of_resource == "file":
            tag = item.files[self.part].tag
        if not self.request.values("If-Match"):
            refuse_if(self.config.require_if_match, "ETagRequired")
            return
        good = {b"*", b"%d" % tag, b'"%d"' % tag}
        refuse_if(not good & set(self.request.members("If-Match")), "ETagNotMatched")

    def delete(self):
        item, kind = self.object, self.kind_of_resource
        if kind == "object":
            del self.archive.objects[self.key]
            return Reply(204)
        change = self.archive.take("change")
        item.tag, item.changed = change, self.archive.clock
        if kind == "metadata":
            item.metadata, item.metadata_tag = {}, change
        elif kind == "files":
            item.files, item.files_tag = {}, change
        else:
            del item.files[self.part]
            item.files_tag = change
        return Reply(204)

    def check_fields(self):
        request, operation = self.request, (self.method, self.kind_of_resource)
        coding = request.single("Content-Encoding")
        refuse_if(coding is not None and coding.lower() != b"identity", "ContentTypeNotAcceptable")
        deposits = operation in (("POST", "service"), ("POST", "object"), ("PUT", "object"))
        self.kind, self.told = self.read_kind(operation)
        self.in_progress = False
        if deposits:
            value = request.single("In-Progress")
            refuse_if(value is not None and value.lower() not in (b"true", b"false"), "BadRequest")
            self.in_progress = value is not None and value.lower() == b"true"
        self.check_formats()
        self.media = self.check_media()
        try:
            promised = read_digests(request.members("Digest"))
        except Malformed:
            raise Refused("BadRequest") from None
        refuse_if(not has_digests(request.content, promised), "DigestMismatch")

    def read_kind(self, operation):
        values, kind, told = self.request.values("Content-Disposition"), None, None
        refuse_if(len(values) > 1, "BadRequest")
        if not values:
            progress = [value.lower() for value in self.request.values("In-Progress")]
            if "absent" in KINDS[operation]:
                return "metadata", None
            is_completion = not self.request.content and progress != [b"true"]
            refuse_if(not is_completion or "completion" not in KINDS[operation], "BadRequest")
            return "completion", None
        try:
            kind, told = kind_of(values[0])
        except Malformed:
            raise Refused("BadRequest") from None
        refuse_if(kind not in KINDS[operation], "BadRequest")
        refuse_if(kind == "opening" and self.request.content != b"", "BadRequest")
        return kind, told

    def check_formats(self):
        if self.kind == "file":
            value = self.request.single("Packaging")
            refuse_if(value not in (None, BINARY.encode()), "PackagingFormatNotAcceptable")
        if self.kind == "metadata":
            value = self.request.single("Metadata-Format")
            refuse_if(value not in (None, METADATA.encode()), "MetadataFormatNotAcceptable")

    def check_media(self):
        if self.kind not in ("file", "metadata", "references"):
            return None
        value = self.request.single("Content-Type")
        refuse_if(value is not None and not re.fullmatch(rb"[\x20-\x7e]{1,255}", value), "BadRequest")
        if self.kind == "file":
            return "application/octet-stream" if value is None else value.decode()
        form = b"application/json" if value is None else value.split(b";")[0].strip(b" \t").lower()
        refuse_if(form not in (b"application/json", b"application/ld+json"), "ContentTypeNotAcceptable")
        return None

    def change(self):
        if self.kind == "opening":
            return self.open_upload()
        if self.kind == "segment":
            return self.add_segment()
        metadata = read_metadata(self.request.content) if self.kind == "metadata" else None
        references = self.check_references() if self.kind == "references" else []
        kept = copy.deepcopy(self.archive)
        try:
            return self.carry_out(metadata, references)
        except Refused:
            vars(self.archive).update(vars(kept))
            raise

    def open_upload(self):
        size, count, segment_size, promised = self.told
        config, archive = self.config, self.archive
        refuse_if(size > config.max_assembled, "MaxAssembledSizeExceeded")
        refuse_if(count > config.max_segments, "SegmentLimitExceeded")
        refuse_if(segment_size > config.max_upload, "InvalidSegmentSize")
        refuse_if(not (count - 1) * segment_size < size <= count * segment_size, "InvalidSegmentSize")
        key = archive.take("upload")
        upload = archive.uploads[key] = Upload(size, count, segment_size, promised, archive.clock)
        location = f"{config.base}/staging/{key}"
        return Reply(201, "application/json", upload_document(config, key, upload), location=location)

    def add_segment(self):
        upload, place, content = self.archive.uploads[self.key], self.told, self.request.content
        refuse_if(not 1 <= place <= upload.count, "UnexpectedSegment")
        if place in upload.segments:
            refuse_if(content != upload.segments[place], "UnexpectedSegment")
        else:
            rest = upload.size - (upload.count - 1) * upload.segment_size
            refuse_if(len(content) != (rest if place == upload.count else upload.segment_size), "InvalidSegmentSize")
            upload.segments[place] = content
        upload.last = self.archive.clock
        return Reply(204)

    def check_references(self):
        """The references with the numbers of their uploads, by the rules one after another."""
        archive, front = self.archive, self.config.base + "/staging/"
        references = read_references(self.request.content)
        keys = [a_number(r.url[len(front):]) if r.url.startswith(front) else None for r in references]
        refuse_if(None in keys, "ByReferenceNotAllowed")
        refuse_if(any(r.packaging not in (None, BINARY) for r in references), "PackagingFormatNotAcceptable")
        refuse_if(len(set(keys)) < len(keys), "BadRequest")
        for key in keys:
            refuse_if(key in archive.timed_out, "SegmentedUploadTimedOut")
            refuse_if(key not in archive.uploads, "NotFound")
        uploads = [archive.uploads[key] for key in keys]
        refuse_if(any(len(upload.segments) < upload.count for upload in uploads), "BadRequest")
        refuse_if(any(r.length not in (None, u.size) for r, u in zip(references, uploads)), "BadRequest")
        for reference, upload in zip(references, uploads):
            joined = b"".join(content for _, content in sorted(upload.segments.items()))
            refuse_if(not has_digests(joined, upload.promised), "DigestMismatch")
            refuse_if(not has_digests(joined, reference.promised), "DigestMismatch")
        return list(zip(keys, references))

    def new_files(self, change, references):
        archive, files = self.archive, []
        for key, reference in references:
            segments = archive.uploads.pop(key).segments
            joined = b"".join(content for _, content in sorted(segments.items()))
            files.append(File(reference.name, reference.media, joined, by_reference=True))
        if self.kind == "file":
            files.append(File(self.told, self.media, self.request.content))
        for file in files:
            file.tag, file.deposited, file.behalf = change, archive.clock, self.behalf
        return files

    def carry_out(self, metadata, references):
        archive, config, kind = self.archive, self.config, self.kind_of_resource
        operation = (self.method, kind)
        if operation == ("POST", "service"):
            self.key = archive.take("object")
            self.object = archive.objects[self.key] = Object()
        else:
            self.object = archive.objects[self.key]
        change = archive.take("change")
        item = self.object
        files = self.new_files(change, references)
        first = archive.take("file", len(files)) if files and kind != "file" else archive.next["file"]
        item.tag, item.changed = change, archive.clock
        if operation == ("PUT", "file"):
            item.files[self.part], item.files_tag = files[0], change
            return Reply(204, tag=change)
        if operation in (("PUT", "object"), ("PUT", "files")):
            item.files = {}
        if operation in (("PUT", "object"), ("PUT", "metadata")):
            item.metadata = {}
        if files or operation in (("POST", "service"), ("PUT", "object")):
            item.files_tag = change
        if metadata is not None or operation in (("POST", "service"), ("PUT", "object")):
            item.metadata_tag = change
        item.files |= {first + place: file for place, file in enumerate(files)}
        for name, texts in (metadata or {}).items():
            item.metadata[name] = item.metadata.get(name, []) + texts
        if kind in ("metadata", "files"):
            return Reply(204, tag=change)
        item.ingested = item.ingested or not self.in_progress
        document = status_document(config, self.key, item)
        if operation == ("POST", "service"):
            location = f"{config.base}/objects/{self.key}"
            return Reply(201, "application/json", document, change, location)
        return Reply(200, "application/json", document, change)


# ---- the bytes of a connection

class Fault(Exception):
    def __init__(self, refusal, bare=False):
        super().__init__(refusal)
        self.refusal, self.bare = refusal, bare


class Connection:
    """The bytes of a connection that no request has used, and how far the request in work was read: its head, its content
    so far, and the place behind what of the bytes is read."""

    def __init__(self):
        self.rest, self.is_open = bytearray(), True
        self.begin()

    def begin(self):
        self.head, self.content, self.place, self.told_to_go_on = None, bytearray(), 0, False

    def next(self, config):
        """The next item: a request, "continue", a Fault that is raised, or None."""
        if self.head is None:
            end = self.rest.find(b"\r\n\r\n", 0, 16384)
            if end < 0:
                if len(self.rest) >= 16384:
                    raise Fault("BadRequest")
                return None
            self.head, self.place = read_head(bytes(self.rest[:end + 4])), end + 4
        request = self.head
        try:
            waits, used = self.body(request, config)
        except Fault as fault:
            raise Fault(fault.refusal, request.method == "HEAD") from None
        if waits and not self.told_to_go_on:
            self.told_to_go_on = True
            return "continue"
        if used is None:
            return None
        request.content = bytes(self.content)
        del self.rest[:used]
        self.begin()
        return request

    def body(self, request, config):
        """Whether the client waits to be told to go on, and the place behind the content, once that is there."""
        lengths, codings = request.values("Content-Length"), request.values("Transfer-Encoding")
        expects = [value.lower() for value in request.values("Expect")] == [b"100-continue"]
        if not lengths and not codings:
            return False, self.place
        if not codings and len(lengths) == 1 and re.fullmatch(rb"[0-9]+", lengths[0]):
            length = int(lengths[0])
            if length > config.max_upload:
                raise Fault("MaxUploadSizeExceeded")
            if expects and length > 0 and request.version == 1 and not self.told_to_go_on:
                return True, None
            end = self.place + length
            if len(self.rest) < end:
                return False, None
            self.content += self.rest[self.place:end]
            return False, end
        if not lengths and len(codings) == 1 and codings[0].lower() == b"chunked" and request.version == 1:
            if expects and not self.told_to_go_on:
                return True, None
            return False, self.chunks(config.max_upload)
        raise Fault("BadRequest")

    def chunks(self, most):
        while True:
            end = self.rest.find(b"\r\n", self.place, self.place + 1024)
            if end < 0:
                if len(self.rest) - self.place >= 1024:
                    raise Fault("BadRequest")
                return None
            line = re.fullmatch(rb"([0-9A-Fa-f]+)(?:[; \t][\t\x20-\x7e\x80-\xff]*)?", self.rest[self.place:end])
            if not line:
                raise Fault("BadRequest")
            size, at = int(line.group(1), 16), end + 2
            if size == 0:
                return self.trailers(at)
            if len(self.content) + size > most:
                raise Fault("MaxUploadSizeExceeded")
            if len(self.rest) < at + size + 2:
                return None
            if self.rest[at + size:at + size + 2] != b"\r\n":
                raise Fault("BadRequest")
            self.content += self.rest[at:at + size]
            self.place = at + size + 2

    def trailers(self, at):
        """The place behind them. They end at CR LF where they begin so, and else at their first CR LF CR LF."""
        if self.rest.startswith(b"\r\n", at):
            return at + 2
        end = self.rest.find(b"\r\n\r\n", at, at + 16384)
        if end < 0:
            if len(self.rest) - at >= 16384:
                raise Fault("BadRequest")
            return None
        lines = self.rest[at:end].split(b"\r\n")
        if not all(re.fullmatch(TOKEN.pattern + rb":[^\x00\r\n]*", line) for line in lines):
            raise Fault("BadRequest")
        return end + 4


def read_head(text):
    lines = re.sub(rb"^(\r?\n)+", b"", text)[:-4]
    lines = re.split(rb"\r?\n", lines)
    first = re.fullmatch(rb"([!#$%&'*+\-.^_`|~0-9A-Za-z]+) +([\x21-\x7e\x80-\xff]+) +HTTP/1\.([01])", lines[0])
    if not first:
        raise Fault("BadRequest")
    bare = first.group(1) == b"HEAD"
    fields = []
    for line in lines[1:]:
        named = re.fullmatch(rb"([!#$%&'*+\-.^_`|~0-9A-Za-z]+):[ \t]*((?:[\t\x20-\x7e\x80-\xff]*[^\t ])?)[ \t]*", line)
        if not named or re.search(rb"[\x00-\x08\x0a-\x1f\x7f]", named.group(2)):
            raise Fault("BadRequest")
        fields.append((named.group(1).decode(), named.group(2)))
    request = Request(first.group(1).decode(), first.group(2), int(first.group(3)), fields)
    hosts = len(request.values("Host"))
    if len(fields) > 64 or hosts > 1 or (request.version == 1 and hosts == 0):
        raise Fault("BadRequest", bare and len(fields) <= 64)
    if not re.fullmatch(rb"/[^#]*(#.*)?|[A-Za-z][A-Za-z0-9+.\-]*://[^/?#]+([/?#].*)?|\*|[^/:@?#]+(:[0-9]+)?", request.target):
        raise Fault("BadRequest", False)
    return request


class Intake:
    """A stream by itself, whose items are told as lines."""

    def __init__(self, config):
        self.config, self.connection, self.is_dead, self.has_ended = config, Connection(), False, False

    def arrive(self, piece):
        """The lines of the items that the piece completes, and whether the stream is open."""
        told = b""
        self.connection.rest += piece
        while not self.is_dead and not self.has_ended:
            try:
                item = self.connection.next(self.config)
            except Fault as fault:
                self.is_dead = True
                return told + b"refused %s%s\r\n" % (fault.refusal.encode(), b" without-body" * fault.bare), "closed"
            if item is None:
                break
            if item == "continue":
                told += b"continue\r\n"
                continue
            self.has_ended = item.closes()
            words = " closing" * self.has_ended + " without-body" * (item.method == "HEAD")
            told += f"{item.method} {path_of(item.target)}{words}: ".encode("latin-1") + item.content + b"\r\n"
        return told, "closed" if self.is_dead else "open"


class Server:
    """Connections over one archive."""

    def __init__(self, config, archive):
        self.config, self.archive, self.connections = config, archive, []

    def connect(self):
        self.connections.append(Connection())
        return len(self.connections)

    def arrive(self, key, piece, moment):
        """What is sent, and whether the connection is open."""
        connection = self.connections[key - 1]
        if connection is None:
            return b"", "gone"
        sent = b""
        connection.rest += piece
        while connection.is_open:
            try:
                item = connection.next(self.config)
            except Fault as fault:
                self.archive.tick(self.config, moment)
                connection.is_open = False
                reply = self.refused(fault.refusal)
                reply.closes = True
                return sent + reply.spelled(self.archive.clock, fault.bare), "closed"
            if item is None:
                return sent, "open"
            if item == "continue":
                sent += b"HTTP/1.1 100 Continue\r\n\r\n"
                continue
            sent += self.step(connection, item, moment)
        return sent, "closed"

    def refused(self, refusal):
        reply = Reply(REFUSALS[refusal][1], "application/json", error_document(refusal, self.archive.clock))
        return reply

    def step(self, connection, request, moment):
        self.archive.tick(self.config, moment)
        try:
            reply = Step(self.config, self.archive, request).answer()
        except Refused as refused:
            reply = self.refused(refused.args[0])
            if refused.args[0] == "MethodNotAllowed":
                reply.allow = METHODS[resource(request.target)[0]]
        reply.closes = request.closes()
        connection.is_open = not reply.closes
        return reply.spelled(self.archive.clock, request.method == "HEAD")
