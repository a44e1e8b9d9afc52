"""What breaks a rule of the order of refusals and what breaks none, operation by operation: the cases of the examples
that checks/rulings.py writes.

A section is an operation that is accepted as it stands. What breaks one of its rules stands there with the rule's number in
docs/PROFILE.md; a part behind the dot is a rule within a rule, as they are numbered there or in the order of the text. How a
setting is written says order.py; ` & ` joins several.
"""

import json

from order import BINARY, FORMAT, GREATEST, ZIP, sha256, sha512

# ---- what breaks a rule, by the number of the rule, and what breaks none

BEHALF = [(5, "On-Behalf-Of: ann"), (5, "On-Behalf-Of:"),
          (5, "On-Behalf-Of: ann | ann & on-behalf-of true"), (5, "On-Behalf-Of: & on-behalf-of true")]
ENCODING = [(8, "Content-Encoding: identity | identity"), (8, "Content-Encoding: gzip"), (8, "Content-Encoding:"),
            (8, "Content-Encoding: identity, identity")]
PROGRESS = [(9.5, "In-Progress: yes"), (9.5, "In-Progress: true | true"), (9.5, "In-Progress:")]
PACKAGING = [(10, f"Packaging: {BINARY} | {BINARY}"), (10, f"Packaging: {ZIP}"), (10, "Packaging:")]
FORMATS = [(10, f"Metadata-Format: {FORMAT} | {FORMAT}"), (10, f"Metadata-Format: {FORMAT}/"), (10, "Metadata-Format:")]
TYPE = [(11, "Content-Type: text/plain | text/plain"), (11, "Content-Type:"), (11, "Content-Type: " + 256 * "x")]
JSON_TYPE = [(11, "Content-Type: application/json | application/json"), (11, "Content-Type:"),
             (11, "Content-Type: text/plain"), (11, "Content-Type: application/jsonp")]
DIGEST = [(12, "Digest: SHA-256"), (12, "Digest: SHA-256=x"), (12, "Digest: SHA-256=" + sha256("other")),
          (12, f"Digest: SHA-256={sha256('a')}, SHA-256={sha256('b')}"), (12, "Digest: SHA-512=x"),
          (12, "Digest: SHA-512=" + sha512("other"))]
GIVEN = ["On-Behalf-Of: ann & on-behalf-of true", "Content-Encoding: IDENTITY", "Digest: MD5=x", "Digest:"]
NO_KIND = [(9, "Content-Disposition: attachment"), (9, "Content-Disposition: attachment; filename=a | attachment; filename=a"),
           (9, "Content-Disposition: attachment; filename=.."), (9, "Content-Disposition: attachment; metadata=yes"),
           (9, "Content-Disposition: attachment; metadata=true; by-reference=true"),
           (9, "Content-Disposition: inline; filename=a")]
OPENING = "Content-Disposition: segment-init; size=5; segment_count=3; segment_size=2"
SEGMENT = "Content-Disposition: segment; segment_number=2"
LAST = "Content-Disposition: segment; segment_number=3"
RECEIVED = "Content-Disposition: segment; segment_number=1"
AS_FILE = "Content-Disposition: attachment; filename=a.txt"
AS_METADATA = "Content-Disposition: attachment; metadata=true"
AS_REFERENCES = "Content-Disposition: attachment; by-reference=true"
TITLE = 'content {"dc:title":"T"}'


def tags(tag, *others):
    broken = [(7, "no If-Match & require-if-match true")]
    broken += [(7, f"If-Match: {text}") for text in ('"9"', f'W/"{tag}"', '"*"', f"0{tag}", "", *(f'"{o}"' for o in others))]
    held = [f"If-Match: {text} & require-if-match true" for text in ("*", f'"{tag}"', str(tag), f'"9", "{tag}"', f'"9" | "{tag}"')]
    return broken, held


def full(*kinds, count=1):
    """StoreFull at the first number of each kind that can't be given, and the last that can."""
    broken = [(15, f"next {kind} {GREATEST - (count if kind == 'file' else 1) + 1}") for kind in kinds]
    held = [f"next {kind} {GREATEST - (count if kind == 'file' else 1)}" for kind in kinds]
    held += [f"next {kind} {GREATEST}" for kind in ("object", "file", "upload", "change") if kind not in kinds]
    return broken, held


def entry(upload, name, **more):
    return json.dumps({"@id": f"http://127.0.0.1:8080/staging/{upload}", "contentDisposition": f"attachment; filename={name}", **more},
                      separators=(",", ":"))


ENTRIES = [f"entry 6 {entry(3, 'f.bin')}", "entry 7 " + entry(2, "x.bin", contentLength=5, digest="SHA-256=" + sha256("abcde"))]
# The entries of earlier rules stand behind those of later ones, so that no rule is met entry by entry.
REFERENCES = [
    (13.1, "entry 12 5"), (13.1, 'entry 12 {"@id":"x y","contentDisposition":"attachment; filename=a"}'),
    (13.1, "entry 12 " + entry(6, "..")), (13.1, "entry 12 " + entry(6, "g", contentType="")),
    (13.1, "entry 12 " + entry(6, "g", contentLength="2")), (13.1, "entry 12 " + entry(6, "g", packaging=1)),
    (13.1, "entry 12 " + entry(6, "g", digest="SHA-256")),
    (13.2, 'entry 11 {"@id":"http://example.org/a","contentDisposition":"attachment; filename=a"}'),
    (13.2, "entry 11 " + entry("06", "g")),
    (13.3, "entry 10 " + entry(6, "g", packaging=ZIP)),
    (13.4, "entry 9 " + entry(2, "y.bin")),
    (13.5, "entry 4 " + entry(1, "timed-out")), (13.5, "entry 4 " + entry(11, "unknown")),
    (13.6, "entry 3 " + entry(4, "incomplete")),
    (13.7, "entry 2 " + entry(5, "abcd", contentLength=2)), (13.7, "entry 2 " + entry(5, "abcd", contentLength=5)),
    (13.8, "entry 1 " + entry(7, "ijk", digest="SHA-256=" + sha256("abc"))),
    (13.8, "entry 1 " + entry(7, "ijk", digest="SHA-512=" + sha512("abc"))),
    (13.8, "entry 1 " + entry(8, "f")), (13.8, "entry 1 " + entry(9, "f")), (13.8, "entry 1 " + entry(10, "f")),
]
REFERENCES_HELD = ["entry 6 " + entry(7, "ijk", contentLength=3, packaging=BINARY),
                   "entry 6 " + entry(3, "f.bin", contentType="text/plain", ttl=None),
                   "Content-Type: application/ld+json; charset=utf-8"]
DOCUMENT = [(13, "content {"), (13, "content []"), (13, 'content {"@type":"ByReference"}'), (13, 'content {"dc:title":1}'),
            (13, 'content {"dc:title":["T",null]}')]
DOCUMENT_HELD = ["content {}", 'content {"dc:title":["U","V"],"dcterms:issued":"1999","x":1,"dc:date":[]}',
                 'content {"@type":"Metadata","dc:title":"T"}']
FILE_HELD = ["Content-Type: text/plain", f"Packaging: {BINARY}", "Digest: sha-256=" + sha256("abc"),
             f"Digest: SHA-512={sha512('abc')}, SHA-256={sha256('abc')}", "no content",
             "Content-Disposition: attachment; filename=b; metadata=false", "Metadata-Format: x"]
METADATA_HELD = [f"Metadata-Format: {FORMAT}", "Content-Type: Application/JSON ;x", f"Packaging: {ZIP}"]
UNREAD = " & ".join(["require-if-match true", 'If-Match: "9"', "Content-Encoding: gzip", "Content-Disposition: x", "In-Progress: yes",
                     f"Packaging: {ZIP}", "Metadata-Format: x", "Content-Type: text/plain", "Digest: x", "content {",
                     f"next change {GREATEST}"])
SINCE_TAG = " & ".join(["Content-Encoding: gzip", "Content-Disposition: x", "In-Progress: yes", f"Packaging: {ZIP}",
                        "Metadata-Format: x", "Content-Type: text/plain", "Digest: x", "content {"])
GOING_ON = ["In-Progress: TRUE", "In-Progress: false"]
TOO_MUCH = [
    (14.1, "Content-Disposition: segment-init; size=5001; segment_count=6; segment_size=1"),
    (14.1, "Content-Disposition: segment-init; size=18446744073709551616; segment_count=3; segment_size=2"),
    (14.2, "Content-Disposition: segment-init; size=6; segment_count=6; segment_size=2"),
    (14.3, "Content-Disposition: segment-init; size=2002; segment_count=2; segment_size=1001"),
    (14.3, "Content-Disposition: segment-init; size=6; segment_count=2; segment_size=2"),
    (14.3, "Content-Disposition: segment-init; size=4; segment_count=3; segment_size=2"),
]


def flat(*groups):
    """Broken rules and settings that break none, of groups of either or of pairs of both."""
    broken, held = [], []
    for group in groups:
        if isinstance(group, tuple):
            broken += group[0]
            held += group[1]
        elif group and isinstance(group[0], tuple):
            broken += group
        else:
            held += group
    return broken, held


def absent(*requests):
    return [(6, f"request {request}") for request in requests]


# ---- the sections: title, the request as it stands, and what breaks a rule and what breaks none

def deposits():
    yield "a file, deposited at the service", ["POST /service", AS_FILE, "content abc"], flat(
        BEHALF, ENCODING, NO_KIND, [(9, "no Content-Disposition"), (9, OPENING), (9, SEGMENT)], PROGRESS, PACKAGING, TYPE, DIGEST,
        full("object", "file", "change"), GIVEN, FILE_HELD, GOING_ON, ['If-Match: "9"', "require-if-match true"])
    yield "metadata, deposited at the service", ["POST /service", AS_METADATA, TITLE], flat(
        BEHALF, ENCODING, NO_KIND, PROGRESS, FORMATS, JSON_TYPE, DIGEST, DOCUMENT, full("object", "change"), GIVEN,
        METADATA_HELD, DOCUMENT_HELD, GOING_ON)


GONE = absent("POST /objects/2", "POST /objects/9")


def additions():
    yield "a file, added to an object", ["POST /objects/1", AS_FILE, "content abc"], flat(
        BEHALF, GONE, tags(5, 4, 3, 1), ENCODING, NO_KIND, [(9, "no Content-Disposition")], PROGRESS, PACKAGING, TYPE, DIGEST,
        full("file", "change"), FILE_HELD, GOING_ON)
    yield "metadata, added to an object", ["POST /objects/1", AS_METADATA, TITLE], flat(
        BEHALF, GONE, tags(5), ENCODING, PROGRESS, FORMATS, JSON_TYPE, DIGEST, DOCUMENT, full("change"), DOCUMENT_HELD)


def completions():
    yield "an object that is complete", ["POST /objects/1"], flat(
        BEHALF, GONE, tags(5), ENCODING, [(9, "In-Progress: true"), (9, "content a")], PROGRESS, DIGEST, full("change"), GIVEN,
        ["In-Progress: false", "Content-Type: text/plain", f"Packaging: {ZIP}", "Digest: SHA-256=" + sha256("")])


def replacements():
    gone = absent("PUT /objects/2", "PUT /objects/9")
    yield "a file in place of all that an object has", ["PUT /objects/1", AS_FILE, "content abc"], flat(
        BEHALF, gone, tags(5, 4, 3), ENCODING, NO_KIND, [(9, "no Content-Disposition"), (9, "no Content-Disposition & no content")],
        PROGRESS, PACKAGING, TYPE, DIGEST, full("file", "change"), FILE_HELD, GOING_ON)
    yield "metadata in place of all that an object has", ["PUT /objects/1", AS_METADATA, TITLE], flat(
        BEHALF, gone, tags(5), ENCODING, PROGRESS, FORMATS, JSON_TYPE, DIGEST, DOCUMENT, full("change"), DOCUMENT_HELD, GOING_ON)


def no_file(method):
    """One that was deleted, one that never was there, one of another object, and a file that is there with another object."""
    return absent(*(f"{method} /objects/{place}" for place in ("1/files/2", "1/files/9", "1/files/3", "3/files/1")))


def metadata():
    yield "other metadata of an object", ["PUT /objects/1/metadata", AS_METADATA, TITLE], flat(
        BEHALF, absent("PUT /objects/2/metadata", "PUT /objects/9/metadata"), tags(4, 5, 3), ENCODING, NO_KIND,
        [(9, AS_FILE), (9, AS_REFERENCES)], FORMATS, JSON_TYPE, DIGEST, DOCUMENT,
        full("change"), METADATA_HELD, DOCUMENT_HELD, ["no Content-Disposition", "In-Progress: yes"])


def file_replacements():
    yield "a file in place of an object's files", ["PUT /objects/1/files", AS_FILE, "content abc"], flat(
        BEHALF, absent("PUT /objects/2/files", "PUT /objects/9/files"), tags(3, 5, 4), ENCODING, NO_KIND,
        [(9, AS_METADATA), (9, "no Content-Disposition")], PACKAGING, TYPE, DIGEST,
        full("file", "change"), FILE_HELD, ["In-Progress: yes"])
    yield "a file in place of a file", ["PUT /objects/1/files/1", AS_FILE, "content abc"], flat(
        BEHALF, no_file("PUT"), tags(1, 5, 3), ENCODING, NO_KIND, [(9, AS_METADATA), (9, AS_REFERENCES)], PACKAGING, TYPE, DIGEST,
        full("change"), FILE_HELD, ["In-Progress: yes"])


def deletions():
    yield "an object that is deleted", ["DELETE /objects/1"], flat(
        BEHALF, absent("DELETE /objects/2", "DELETE /objects/9"), tags(5, 4, 3), full(), [SINCE_TAG])
    for title, target, tag in (("no metadata", "metadata", 4), ("no files", "files", 3), ("no file", "files/1", 1)):
        gone = no_file("DELETE") if tag == 1 else absent(f"DELETE /objects/2/{target}", f"DELETE /objects/9/{target}")
        yield f"an object with {title} from now on", [f"DELETE /objects/1/{target}"], flat(
            BEHALF, gone, tags(tag, 5), full("change"), [SINCE_TAG])


def deposits_by_reference():
    yield "uploads, deposited at the service", ["POST /service", AS_REFERENCES, *ENTRIES], flat(
        BEHALF, ENCODING, NO_KIND, PROGRESS, JSON_TYPE, DIGEST, REFERENCES, full("object", "file", "change", count=2), GIVEN,
        REFERENCES_HELD, GOING_ON, [f"Packaging: {ZIP}", "Metadata-Format: x"])


def additions_by_reference():
    yield "uploads, added to an object", ["POST /objects/1", AS_REFERENCES, *ENTRIES], flat(
        BEHALF, absent("POST /objects/9"), tags(1), ENCODING, PROGRESS, JSON_TYPE, DIGEST, REFERENCES, full("file", "change", count=2),
        REFERENCES_HELD)


def replacements_by_reference():
    yield "uploads in place of all that an object has", ["PUT /objects/1", AS_REFERENCES, *ENTRIES], flat(
        BEHALF, absent("PUT /objects/9"), tags(1), ENCODING, PROGRESS, JSON_TYPE, DIGEST, REFERENCES, full("file", "change", count=2),
        GOING_ON)


def files_by_reference():
    yield "uploads in place of an object's files", ["PUT /objects/1/files", AS_REFERENCES, *ENTRIES], flat(
        BEHALF, absent("PUT /objects/9/files"), tags(1), ENCODING, JSON_TYPE, DIGEST, REFERENCES, full("file", "change", count=2),
        REFERENCES_HELD)


LIMITS = ["max-upload 1000", "max-assembled 5000", "max-segments 5"]


def openings():
    yield "an upload that is opened", ["POST /staging", OPENING, *LIMITS], flat(
        BEHALF, ENCODING, [(9, AS_FILE), (9, "no Content-Disposition"), (9, "content a"), (9, OPENING.replace("=5", "=0")),
                           (9, OPENING + "; digest=x"), (9, OPENING.replace("; segment_size=2", ""))],
        DIGEST, TOO_MUCH, full("upload"), GIVEN, ["max-segments 3", "max-assembled 5", "max-upload 2", "require-if-match true",
        "In-Progress: yes", f"Packaging: {ZIP}", "Content-Type:", OPENING + "; digest=SHA-256=" + sha256("abcde"),
        OPENING + "; digest=SHA-512=" + sha512("abcde"),
        OPENING + f"; digest=SHA-256={sha256('abcde')},SHA-512={sha512('abcde')}", OPENING.replace("size=5", "size=6")])
    yield "an upload of smaller limits", ["POST /staging", OPENING, *LIMITS], flat(
        BEHALF, ENCODING, [(9, "content a")], DIGEST, [(14.1, "max-assembled 4"), (14.2, "max-segments 2"), (14.3, "max-upload 1")],
        full("upload"))


def segments():
    gone = absent("POST /staging/1", "POST /staging/9")
    yield "a segment in the middle", ["POST /staging/2", SEGMENT, "content cd"], flat(
        BEHALF, gone, ENCODING, [(9, AS_FILE), (9, OPENING), (9, "no Content-Disposition"), (9, SEGMENT.replace("=2", "=x"))], DIGEST,
        [(14.4, SEGMENT.replace("=2", f"={k}")) for k in (0, 1, 3, 4, 18446744073709551616)],
        [(14.5, "content c"), (14.5, "content cde"), (14.5, "no content")], full(), GIVEN,
        ["require-if-match true", 'If-Match: "9"', "Content-Type:", "In-Progress: yes", "Digest: SHA-256=" + sha256("cd")])
    yield "the last segment", ["POST /staging/3", LAST, "content e"], flat(
        BEHALF, absent("POST /staging/1"), [(14.4, SEGMENT)], [(14.5, "content ef"), (14.5, "no content")], full())
    yield "a segment that comes again", ["POST /staging/2", RECEIVED, "content ab"], flat(
        BEHALF, gone, ENCODING, [(9, AS_FILE), (9, "no Content-Disposition"), (9, RECEIVED.replace("=1", "=x"))], DIGEST,
        [(14.4, RECEIVED.replace("=1", f"={k}")) for k in (0, 3, 4)],
        [(14.4, f"content {other}") for other in ("ax", "xb", "a", "abc")], [(14.4, "no content")], full(), GIVEN,
        ["require-if-match true", 'If-Match: "9"', "Content-Type:", "In-Progress: yes", "Digest: SHA-256=" + sha256("ab")])
    yield "an upload that is dropped", ["DELETE /staging/2"], flat(
        BEHALF, absent("DELETE /staging/1", "DELETE /staging/9"), [UNREAD], full())


READ = {
    "object": (("an object", "/objects/1", ("/objects/2", "/objects/9")),
               ("metadata", "/objects/1/metadata", ("/objects/2/metadata", "/objects/9/metadata")),
               ("a file", "/objects/1/files/1", ("/objects/1/files/2", "/objects/1/files/9", "/objects/1/files/3", "/objects/3/files/1")),
               ("a bag", "/objects/1/bag", ("/objects/2/bag", "/objects/9/bag")),
               ("a file of a bag", "/objects/1/bag/data/1/a.txt",
                ("/objects/9/bag/data/1/a.txt", "/objects/1/bag/data/1/a.txtx", "/objects/1/bag/data/1/a"))),
    "service": (("the service", "/service", ()),),
    "upload": (("an upload", "/staging/2", ("/staging/1", "/staging/9")),),
}


def reads(method, of):
    for title, target, gone in READ[of]:
        yield f"{method} of {title}", [f"{method} {target}"], flat(
            BEHALF, absent(*(f"{method} {path}" for path in gone)), [UNREAD])
