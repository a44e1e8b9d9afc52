"""Parts of checks/host.py: large segments, and how long one client's requests make the others wait."""

import hashlib
import json
import os
import tempfile
import threading
import time
from concurrent.futures import ThreadPoolExecutor

from depositing import JSON, Client, as_file, by_reference, exchange, first_file
from expectations import expect
from growing import fill_object
from hosted import MIB, PATIENCE, Host, rest

# ---- segments ----

# In MiB: from what any check sends else up to the greatest.
SIZES = range(7, 17)


def upload(client, content, size):
    """Sends a content in segments of this size. Returns the upload's URL."""
    count = -(-len(content) // size)
    url = client.open(len(content), count, size)
    for number in range(1, count + 1):
        client.segment(204, url, number, content[(number - 1) * size:number * size])
    return url


def segments():
    """An upload of each size: two whole segments, but for the last byte."""
    content = os.urandom(2 * SIZES[-1] * MIB)
    with Host() as host, Client(host, PATIENCE) as client:
        urls = {upload(client, content[:2 * it * MIB - 1], it * MIB): it for it in SIZES}
        dispositions = {url: f"attachment; filename={it}" for url, it in urls.items()}
        _, document = client.ask(201, "POST", "/service", *by_reference(dispositions))
        for link, it in zip(json.loads(document)["links"], SIZES):
            _, came = client.ask(200, "GET", host.path_of(link["@id"]))
            expect(f"the bytes of a file of segments of {it} MiB", came == content[:2 * it * MIB - 1], True)
    return f"an upload for each size of segments from {SIZES[0]} to {SIZES[-1]} MiB, deposited and read"


# ---- waits ----

METADATA = {"Content-Disposition": "attachment; metadata=true", **JSON}

# So many milliseconds may another client wait at most. One that is seldom longer is measured up to TRIES times.
MOST, TRIES = 100, 5
# An idle machine sums up so many squares in so many seconds. Where one takes longer, as beside the other checks, others may wait
# longer by as much.
SQUARES, USUAL = 1_000_000, 0.1
SIZE, SEGMENT_SIZE, TEXTS, NOTHING = 64 * MIB, 16 * MIB, 400_000, 60_000
# Beside the large upload there are so many of this size. Where they, or it, are hashed already, a request for their digests takes
# so many seconds of the processor at most; else it takes twice as many and more.
SMALL, SMALL_SIZE, LITTLE = 40, 2 * MIB, 0.15


class Other:
    """A client that asks for the service document over and over, and notes how long it waited, in milliseconds."""

    def __init__(self, host):
        self.host, self.waits, self.is_over = host, [], threading.Event()
        self.thread = threading.Thread(target=self.go_on)

    @property
    def longest(self):
        return max(self.waits, default=0)

    def hundredth(self, number):
        """So many hundredths of its requests waited no longer."""
        return sorted(self.waits)[len(self.waits) * number // 100]

    def go_on(self):
        with Client(self.host, PATIENCE) as client:
            while not self.is_over.is_set():
                began = time.monotonic()
                exchange(client.connection, "GET", "/service")
                self.waits.append(1000 * (time.monotonic() - began))
                time.sleep(0.001)

    def __enter__(self):
        self.thread.start()
        time.sleep(0.1)
        return self

    def __exit__(self, *_):
        time.sleep(0.1)
        self.is_over.set()
        self.thread.join()


def waited(host, *request):
    """How long another client waits at most while one makes this request."""
    with Client(host, PATIENCE) as client, Other(host) as other:
        client.ask(*request)
    return other.longest


def slowness():
    """How many times as long as an idle machine this one takes just now, at least once."""
    began = time.monotonic()
    sum(it * it for it in range(SQUARES))
    return max(1, (time.monotonic() - began) / USUAL)


def is_short(what, measure):
    """Another client hardly waits by this measure. Returns how long it would have waited on an idle machine."""
    shortest = 1e9
    for _ in range(TRIES):
        shortest = min(shortest, measure() / slowness())
        if shortest <= MOST:
            break
    expect(f"whether others wait at most {MOST} ms for {what}, {shortest:.0f} ms", shortest <= MOST, True)
    return shortest


def waited_anew(folder, paths):
    """How long another client waits at most behind a restart, while one makes a deposit of these uploads that has to hash them."""
    with Host(folder) as host:
        return waited(host, *refused(host, paths))


def refused(host, paths):
    """A deposit of these uploads, which is refused for a digest of the last one."""
    body, fields = by_reference({host.base + path: f"attachment; filename={at}" for at, path in enumerate(paths)})
    entries = json.loads(body)["byReferenceFiles"]
    entries[-1]["digest"] = f"SHA-256={64 * '0'}"
    return 412, "POST", "/service", json.dumps({"byReferenceFiles": entries}), fields


def is_known(what, host, *requests):
    """These requests hash nothing anew. Returns how many seconds of the processor they take."""
    before = host.seconds()
    with Client(host, PATIENCE) as client:
        for request in requests:
            client.ask(*request)
    took = host.seconds() - before
    expect(f"whether {what} takes at most {LITTLE} s of the processor, {took:.2f} s", took <= LITTLE, True)
    return took


# A deposit whose upload has to be hashed is answered after so many seconds at most, beside so many others who make new ones.
NEWCOMERS, SOON = 8, 20


def hashed_in_turn(folder, path):
    """How many seconds a deposit takes that has to be hashed behind a restart, beside clients who make deposits of nothing over and
    over: each of these waits for its turn to be prepared, too."""
    with Host(folder) as host, ThreadPoolExecutor(NEWCOMERS) as pool:
        nothing = by_reference({f"{host.base}/staging/{10**6}": "attachment; filename=a"})
        is_over = threading.Event()

        def come_anew(_):
            with Client(host, PATIENCE) as client:
                while not is_over.is_set():
                    client.ask(404, "POST", "/service", *nothing)

        coming = [pool.submit(come_anew, it) for it in range(NEWCOMERS)]
        time.sleep(0.1)
        with Client(host, PATIENCE) as client:
            began = time.monotonic()
            client.ask(*refused(host, [path]))
            took = time.monotonic() - began
        is_over.set()
        for it in coming:
            it.result()
    expect(f"whether a deposit is hashed within {SOON} s beside {NEWCOMERS} who make new ones, {took:.1f} s", took <= SOON, True)
    return took


# Texts and files are read ahead of a request that shows them, so many at once.
PAGE, FILES = 512, 20_000


def shown_whole(host):
    """The metadata of an object is shown whole: of a name with some pages of texts, and of some pages of names with a few texts."""
    texts = {"dc:subject": [str(it) for it in range(3 * PAGE)]}
    texts |= {f"dc:n{it:04}": [str(place) for place in range(1 + it % 3)] for it in range(2 * PAGE)}
    with Client(host, PATIENCE) as client:
        reply, _ = client.ask(201, "POST", "/service", json.dumps(texts), METADATA)
        _, document = client.ask(200, "GET", f"{host.path_of(reply.headers['Location'])}/metadata")
    came = {name: it if isinstance(it, list) else [it] for name, it in json.loads(document).items() if not name.startswith("@")}
    expect(f"the metadata of {len(texts):,} names", came == texts, True)


def listed_whole(count):
    """An object of so many files lists all of them, and one more behind a POST. Returns how long others would have waited at most."""
    with tempfile.TemporaryDirectory() as folder:
        with Host(folder) as host, Client(host, PATIENCE) as client:
            reply, _ = client.ask(201, "POST", "/service", b"x", as_file("a"))
            path = host.path_of(reply.headers["Location"])
        fill_object(host.store, count)
        with Host(folder) as host:
            told = []
            for what, *request in (("status", "GET", path), ("bag", "GET", f"{path}/bag"), ("reply", "POST", path, b"x", as_file("a")),
                                   *((it, "GET", f"{path}/bag/manifest-{it}.txt") for it in ("sha256", "sha512"))):
                with Client(host, PATIENCE) as client:
                    _, listed = client.ask(200, *request)
                count += what == "reply"
                expect(f"the {what} of {count:,} files", numbers_in(what, listed), list(range(1, count + 1)))
                if what != "reply":
                    told.append(is_short(f"the {what} of {count:,} files", lambda: waited(host, 200, *request)))
            return max(told)


def numbers_in(what, listed):
    """The numbers of the files that a status or a bag lists, or a manifest with the digest of their content."""
    if what in ("status", "reply"):
        return [int(it["@id"].rpartition("/")[2]) for it in json.loads(listed)["links"]]
    lines = listed.decode().split("\n")
    if what == "bag":
        return [int(it.split("/")[1]) for it in lines if it.startswith("data/")]
    return [int(it.partition(f"{hashlib.new(what, b'x').hexdigest()}  data/")[2].partition("/")[0]) for it in lines[:-1]]


# References of a document of more bytes are read ahead of its request, so many at once.
LONG, REFERENCES = 65_536, 4_096


def read_in_parts(host):
    """A long document of references is ruled and deposited as a whole, also where its entries are read in parts."""
    nothing = {f"{host.base}/staging/{10**6 + it}": "attachment; filename=a" for it in range(2 * REFERENCES)}
    body, fields = by_reference(nothing)
    with Client(host, PATIENCE) as client:
        client.ask(404, "POST", "/service", body, fields)
        for at in (0, REFERENCES - 1, REFERENCES, 2 * REFERENCES - 1):
            for status, url in ((400, "x y"), (412, "http://example.org/a")):
                entries = json.loads(body)["byReferenceFiles"]
                entries[at]["@id"] = url
                client.ask(status, "POST", "/service", json.dumps({"byReferenceFiles": entries}), fields)
        names = [f"a-name-of-{120 * 'x'}-{it}" for it in range(LONG // 160)]
        uploads = {upload(client, name.encode(), len(name)): f"attachment; filename={name}" for name in names}
        body, fields = by_reference(uploads)
        expect("whether the document is long", len(body) > LONG, True)
        reply, document = client.ask(201, "POST", "/service", body, fields)
        links = json.loads(document)["links"]
        came = [client.ask(200, "GET", host.path_of(it["@id"]))[1].decode() for it in links]
    expect(f"the contents of {len(names)} files by reference", came == names, True)


def waits():
    """What is refused without a look at an upload's bytes, or once they were hashed, and what reads or adds to an object's many texts,
    holds nobody up, nor does the hashing that a deposit has to wait for. What a host had time to hash isn't hashed anew, also behind
    a restart, of more than a few uploads."""
    with tempfile.TemporaryDirectory() as folder:
        with Host(folder) as host, Client(host, PATIENCE) as client:
            path = host.path_of(upload(client, os.urandom(SIZE), SEGMENT_SIZE))
            small = [host.path_of(upload(client, os.urandom(SMALL_SIZE), SMALL_SIZE)) for _ in range(SMALL)]
            texts = json.dumps({"dc:subject": TEXTS * [""]})
            reply, _ = client.ask(201, "POST", "/service", texts, METADATA)
            described = host.path_of(reply.headers["Location"])
        # What was hashed ahead of a deposit is forgotten here.
        with Host(folder) as host:
            body, fields = by_reference({host.base + path: "attachment; filename=a"})
            nothing = {f"{host.base}/staging/{10**6 + it}": "attachment; filename=a" for it in range(NOTHING)}
            asked = {"a refused deposit of an upload": (404, "POST", "/objects/999", body, fields),
                     "one that is refused for a digest, again": refused(host, [path]),
                     "a HEAD of many texts": (200, "HEAD", described),
                     "the bagit.txt of many texts": (200, "GET", f"{described}/bag/bagit.txt"),
                     "the manifest of many texts": (200, "GET", f"{described}/bag/manifest-sha512.txt"),
                     "a HEAD of their tag manifest": (200, "HEAD", f"{described}/bag/tagmanifest-sha256.txt"),
                     "a GET of their tag manifest": (200, "GET", f"{described}/bag/tagmanifest-sha256.txt"),
                     "a GET of many texts": (200, "GET", f"{described}/metadata"),
                     "one text more": (200, "POST", described, '{"dc:subject":""}', METADATA),
                     "references of nothing": (404, "POST", "/service", *by_reference(nothing))}
            told = [is_short(what, lambda: waited(host, *request)) for what, request in asked.items()]
            shown_whole(host)
            read_in_parts(host)
        told += [listed_whole(it) for it in (2, PAGE, 2 * PAGE + 1, FILES)]
        told += [is_short(f"the digests of {SIZE // MIB} MiB behind a restart", lambda: waited_anew(folder, [path])),
                 is_short(f"those of {SMALL} uploads", lambda: waited_anew(folder, small))]
        in_turn = hashed_in_turn(folder, path)
        with Host(folder) as host:
            expect("whether a host rests behind a restart", rest(host), True)
            took = [is_known("a deposit behind a restart", host, refused(host, [path])),
                    is_known(f"a deposit of {SMALL} uploads", host, refused(host, small)),
                    is_known(f"{SMALL} deposits, one after another", host, *(refused(host, [it]) for it in small))]
    return (f"others waited {max(told):.0f} ms at most for refused deposits of {SIZE // MIB} MiB, and beside {TEXTS:,} texts; what was "
            f"hashed behind a restart took {max(took):.2f} s, and a deposit beside {NEWCOMERS} newcomers {in_turn:.1f} s")


# ---- fair ----

# So many milliseconds an eleventh client waits at most, but for one request in a hundred, beside ten who do so for so many seconds.
FAIR, BUSY_CLIENTS, BUSY_SECONDS = 500, 10, 8


def keeps_busy(host, number, ends):
    """Does what takes the host most, over and over: each client one thing."""
    content = os.urandom(SEGMENT_SIZE)
    with Client(host, PATIENCE) as client:
        reply, document = client.ask(201, "POST", "/service", content, as_file("a"))
        path, file, count = host.path_of(reply.headers["Location"]), host.path_of(first_file(document)), 0
        acts = [lambda: client.ask(201, "POST", "/service", content, as_file("a")), lambda: client.ask(200, "GET", file),
                lambda: client.ask(204, "PUT", file, content, as_file("a")),
                lambda: client.ask(200, "GET", f"{path}/bag/manifest-sha512.txt"),
                lambda: client.ask(201, "POST", "/service", *by_reference({upload(client, content, SEGMENT_SIZE): "attachment; filename=b"}))]
        while time.monotonic() < ends:
            acts[number % len(acts)]()
            count += 1
        return count


def fair():
    with Host() as host:
        with Other(host) as other, ThreadPoolExecutor(BUSY_CLIENTS) as pool:
            ends = time.monotonic() + BUSY_SECONDS
            counts = list(pool.map(lambda it: keeps_busy(host, it, ends), range(BUSY_CLIENTS)))
        waited = other.hundredth(99)
        expect(f"whether an eleventh client waits at most {FAIR} ms by the 99th hundredth, {waited:.0f} ms", waited <= FAIR, True)
        return (f"beside {BUSY_CLIENTS} clients with {sum(counts)} large requests another waited {waited:.0f} ms by the 99th hundredth, "
                f"{other.longest:.0f} ms at most")


PARTS = {it.__name__: it for it in (segments, waits, fair)}
