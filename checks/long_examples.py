#!/usr/bin/env python3
"""Writes the example files that are too long to be written by hand, into checks/examples.

    checks/long_examples.py
    checks/long_examples.py --check        # says whether the files are as they would be written

rounds.txt: round n, from 0 on, is a deposit of n * n bytes, a GET of its file, a PUT of metadata, a GET of the list of
its bag, and a DELETE of the object, on connection n mod 10 + 1. cut-requests.txt: each proper front of a deposit by
reference, and then the end of the input. It shares no code with the server: what the replies are made of stands in
texts.txt, their numbers follow from docs/PROFILE.md, and a length is counted over the text.
"""

import sys
sys.path.insert(0, f"{sys.path[0]}/lib")

from crates import DATA
from example_play import expand, put, texts_of

ROUNDS, CONNECTIONS = 300, 10
ROUNDS_HEAD = """\
// 300 rounds on ten connections. checks/long_examples.py writes this file, from docs/PROFILE.md alone.
//
// Each round deposits a file, reads it, gives its object metadata, reads the list of its bag, and deletes the object. The
// bytes of the files are as many as the squares of 0 to 299.

let host Host: 127.0.0.1:8080

text bag-list
| HTTP/1.1 200 OK
| Date: \\{date}
| Content-Type: text/plain; charset=utf-8
| Content-Length: \\{list-length}
|
| bagit.txt\\nbag-info.txt\\nmanifest-sha256.txt\\nmanifest-sha512.txt\\nmetadata/sword.json\\ntagmanifest-sha256.txt\\ntagmanifest-sha512.txt\\ndata/\\{file}/a.txt\\n\\

# 300 rounds on ten connections in turn"""
ROUND = """\
connection {connection}
let object {number}
let file {number}
let tag {deposit_tag}
let document-length {document_length}
let list-length {list_length}
let length {length}
let content {content}
> \\{{deposit-head}}\\
> Content-Length: {length}
>
> \\{{content}}\\
< \\{{created}}\\
open
> GET /objects/{number}/files/{number} HTTP/1.1
> \\{{host}}
>
< \\{{file-reply}}\\
open
> PUT /objects/{number}/metadata HTTP/1.1
> \\{{host}}
> Content-Length: 16
>
> {{"dc:title":"T"}}\\
let tag {metadata_tag}
< \\{{no-content-with-tag}}\\
open
> GET /objects/{number}/bag HTTP/1.1
> \\{{host}}
>
< \\{{bag-list}}\\
open
> DELETE /objects/{number} HTTP/1.1
> \\{{host}}
>
< \\{{no-content}}\\
open"""


def length_of(words, name):
    """How many bytes the body of a reply has that texts.txt or this file names."""
    return len(expand(words, words[name]).partition(b"\r\n\r\n")[2])


def round_text(words, number):
    """The lines of the round that makes the object of this number. Each deposit and each PUT is a change."""
    length = (number - 1) ** 2
    mine = {**words, "object": str(number), "file": str(number), "tag": str(2 * number - 1)}
    return ROUND.format(
        connection=(number - 1) % CONNECTIONS + 1, number=number, deposit_tag=2 * number - 1, metadata_tag=2 * number,
        document_length=length_of(mine, "created"), list_length=length_of(mine, "bag-list"), length=length,
        content=f"\\{{{length} x}}" if length else "\\{nothing}")


def rounds(words):
    words = words | {"list-length": "0", "bag-list": "\r\n\r\n" + ROUNDS_HEAD.split("|\n| ")[1].split("\\\n")[0]}
    return "\n".join([ROUNDS_HEAD, *(round_text(words, number) for number in range(1, ROUNDS + 1))]) + "\n"


CUTS = """\
// Requests that end with the input before their last byte. checks/long_examples.py writes this file.
//
// Each is a proper front of a deposit by reference. Nothing is sent for one, nothing is stored, and the upload is there
// as it was.

# a deposit by reference without its last bytes stores nothing
> \\{opening}\\{segment-1}\\{segment-2}\\{segment-3}\\
< \\{opened}\\{no-content}\\{no-content}\\{no-content}\\
open
let expecting \\{nothing}
let received 1,2,3"""
CUT = """\
> {front}\\
ended
> \\{{get-upload}}\\{{get-object}}\\
< \\{{upload-reply}}\\{{not-found}}\\
open"""


def cut_requests(words):
    request = expand(words, words["deposit-by-reference"]).decode()
    fronts = (request[:end].replace("\r", "\\r").replace("\n", "\\n") for end in range(1, len(request)))
    return "\n".join([CUTS, *(CUT.format(front=front) for front in fronts)]) + "\n"


FILES = {"rounds.txt": rounds, "cut-requests.txt": cut_requests}


def main():
    words, others = texts_of(DATA / "texts.txt"), []
    for name, made in FILES.items():
        text = made(words)
        if not put(DATA / name, text, "--check" in sys.argv):
            others.append(name)
        print(f"{name}: {text.count(chr(10))} lines, {len(text.encode())} bytes")
    print(f"long examples: {len(FILES)} files")
    sys.exit(f"not as they would be written: {' '.join(others)}" if others else 0)


if __name__ == "__main__":
    main()
