"""What a person does who deposits by the page: the stories of checks/page.py. What the archive then has is read over HTTP."""

import hashlib
import importlib.util
import json
import os
import time

from crates import ROOT
from expectations import expect, find
from fronted import CURATOR
from page_relays import Cutting, Watching
from paged import MOST_SECONDS, Browser, Site

SEGMENT = 65_536
# Names that need care, as deposited names.
NAMES = ("two  blanks and one .txt", "50%.txt", "a#b", "what?", "%2e%2e", "line\u2028end", "turned\u202etxt.exe", "it's (a) *star*",
         "dépôt ✓", "é" * 127 + "x", " begins and ends ", "&amp;<b>bold", "C:colon", "semi;colon\"quote", "empty one", "...")


def write(folder, contents):
    """Writes these files. Returns their paths."""
    for name, content in contents.items():
        path = folder / name
        path.parent.mkdir(parents=True, exist_ok=True)
        path.write_bytes(content)
    return [folder / name for name in contents]


def compare(what, site, number, contents):
    """The object has just these files, and is ingested."""
    came = dict(site.files(number))
    expect(f"{what}: the names", sorted(came), sorted(contents))
    expect(f"{what}: how many files", len(site.files(number)), len(contents))
    expect(f"{what}: contents that are otherwise", [name for name in contents if came.get(name) != contents[name]], [])
    expect(f"{what}: whether it is ingested", site.state(number), True)


def nothing_is_left(what, site, numbers):
    """No other object stands there, but empty ones in progress."""
    for other in set(site.objects()) - set(numbers):
        find(f"{what}: object {other} is empty and in progress", not site.state(other) and not site.files(other))


def three_files(kept, place):
    """Three files with metadata, some of it repeated."""
    site = Site(kept)
    browser = kept.enter_context(Browser(site.front().port, place / "profile")).enter()
    contents = {"a.txt": b"abc", "b.bin": os.urandom(100_000), "empty": b""}
    browser.choose(*write(place / "files", contents))
    fields = browser.finds("#deposit-view textarea")
    fields[0].send_keys("Observations")
    fields[1].send_keys("Kim")
    browser.press("Add a field")
    browser.run("const it = [...document.querySelectorAll('#deposit-view select')].at(-1); it.value = 'dc:creator';"
                "it.dispatchEvent(new Event('change'))")
    browser.finds("#deposit-view textarea")[-1].send_keys("Lee")
    browser.begin()
    number = browser.ends()
    compare("three files", site, number, contents)
    expect("their metadata", site.metadata(number), {"dc:title": "Observations", "dc:creator": ["Kim", "Lee"]})
    links = json.loads(site.ask("GET", f"/objects/{number}")[2])["links"]
    expect("their media types", sorted(it["contentType"] for it in links),
           ["application/octet-stream", "application/octet-stream", "text/plain"])
    nothing_is_left("three files", site, [number])
    browser.open("#objects")
    expect("the list of this browser", browser.text("#own").split("\n")[0], f"Object {number}: Observations")
    expect("the faults of the page", [it for it in browser.faults() if "/objects/0" not in it], [])


def names_are_kept(kept, place):
    """Names with blanks, signs of URLs, ends of lines and turns of direction, of 255 bytes; and empty files. They can be checked."""
    site = Site(kept)
    browser = kept.enter_context(Browser(site.front().port, place / "profile")).enter()
    contents = {name: b"" if at % 4 == 0 else name.encode() * at for at, name in enumerate(NAMES)}
    expect("the bytes of the longest name", max(len(it.encode()) for it in NAMES), 255)
    write(place / "files", contents)
    browser.choose(place / "files", is_folder=True)
    browser.wait(f"document.querySelectorAll('#chosen li').length === {len(NAMES)}")
    find("what isn't seen is written out", "turned⟨U+202E⟩txt.exe" in browser.text("#chosen") and "line⟨U+2028⟩end" in browser.text("#chosen"))
    browser.begin()
    number = browser.ends()
    compare("names", site, number, contents)
    browser.open(f"#objects/{number}")
    check(browser, f"{len(NAMES)} files and 5 records about them were checked, ", "none differs")


def check(browser, *words, seconds=MOST_SECONDS):
    """A check of the object that is shown, which has to say these words."""
    browser.wait("document.querySelector('#check button')")
    browser.press("Check", "#check")
    line = browser.wait("/were checked|Stopped|changed during/.test(document.querySelector('#check-line').textContent)"
                        " && document.querySelector('#check-line').textContent", seconds)
    for it in words:
        find(f"the check says {it!r}, not {line!r}", it in line)


def names_that_do_not_fit(kept, place):
    """A name that the server refuses, and two files of one name, are told before anything is sent."""
    site = Site(kept)
    browser = kept.enter_context(Browser(site.front().port, place / "profile")).enter()
    write(place / "folder", {"a/b": b"1", "a__b": b"2", "back\\slash": b"3", "control\x01": b"4", "good": b"5"})
    browser.choose(place / "folder", is_folder=True)
    browser.wait("document.querySelectorAll('#chosen li').length === 5")
    browser.begin()
    told = browser.text("#deposit-view form")
    find("they are told", told.count("Another file has the same name") == 2 and told.count("doesn't take this name") == 2)
    expect("what was made", site.objects(5), [])
    for name in ("back\\slash", "control\x01", "a__b"):
        browser.press(f"Leave out {name}")
    browser.begin()
    left = {"a__b": b"1", "good": b"5"} if dict(site.files(number := browser.ends())).get("a__b") == b"1" else {"a__b": b"2", "good": b"5"}
    compare("those that fit", site, number, left)


def folder_is_dropped(kept, place):
    """A folder of more files than the browser tells at once, with folders in it, gets the names that deposit.py gives."""
    site = Site(kept)
    browser = kept.enter_context(Browser(site.front().port, place / "profile")).enter()
    contents = {**{f"many/{at:03}": b"%d" % at for at in range(130)}, "deep/er/x y": b"x", "top": b"top"}
    write(place / "folder", contents)
    spec = importlib.util.spec_from_file_location("deposit", ROOT / "deploy/deposit.py")
    tool = importlib.util.module_from_spec(spec)
    spec.loader.exec_module(tool)
    wanted = {it.name: it.path.read_bytes() for it in tool.files_of(place / "folder", "__")}
    browser.drop(place / "folder")
    browser.wait(f"document.querySelectorAll('#chosen li').length === {len(contents)}")
    find("the map is shown", "deep/er/x y is deposited as deep__er__x y" in browser.run(
        "return document.querySelector('#chosen').textContent"))
    browser.begin()
    compare("a folder that is dropped", site, browser.ends(), wanted)
    browser.press("Another deposit")
    browser.choose(place / "folder", is_folder=True)
    browser.wait(f"document.querySelectorAll('#chosen li').length === {len(contents)}")
    browser.begin()
    compare("a folder that is chosen", site, browser.ends(), wanted)


def go_on(browser, *paths, **how):
    """Chooses the same files again, in a page that was loaded anew, and goes on."""
    browser.wait("[...document.querySelectorAll('#deposit-view button')].some((it) => it.textContent === 'Go on')")
    browser.run("[...document.querySelectorAll('#deposit-view button')].find((it) => it.textContent === 'Go on').click()")
    browser.wait("document.querySelector('#running input[type=file]')")
    browser.choose(*paths, within="#running", **how)
    browser.wait("/chosen again/.test(document.querySelector('#running').textContent)")
    browser.press("Go on", "#running")


def server_is_killed(kept, place, size):
    """SIGKILL of the server in the middle of a large file; a reload; going on. What it received isn't sent a second time."""
    site = Site(kept, **({} if size > 50_000_000 else {"max_upload": SEGMENT}))
    relay = Watching(site.host.port)
    browser = kept.enter_context(Browser(site.front(relay.port).port, place / "profile")).enter()
    contents = {"large.bin": os.urandom(size), "small": b"small"}
    paths = write(place / "files", contents)
    browser.choose(*paths)
    browser.begin()
    browser.wait(f"document.querySelector('#all-progress').value > {size // 2}", 600)
    site.kill()
    browser.wait("/can't be reached/.test(document.body.innerText)")
    browser.driver.get("about:blank")
    browser.driver.get(f"{browser.url}/")
    browser.wait("/can't be reached/.test(document.body.innerText)")
    site.again()
    received = {(path, number) for path in {path for path, _ in relay.segments()}
                for number in json.loads(site.ask("GET", path)[2])["segments"]["received"]}
    before = len(relay.requests)
    browser.wait("document.body.dataset.ready")
    go_on(browser, *paths)
    number = browser.ends(seconds=600)
    compare("a server that was killed", site, number, contents)
    find("it had received some of it, and not all", 0 < sum(path.endswith("/1") or True for path, _ in received) < len(relay.segments()))
    expect("received segments that were sent again", sorted(received & set(relay.segments(before))), [])
    nothing_is_left("a server that was killed", site, [number])
    relay.close()


def browser_is_killed(kept, place):
    """SIGKILL of the browser in the middle; another one with its profile goes on."""
    site = Site(kept, max_upload=SEGMENT)
    relay = Watching(site.host.port)
    port = site.front(relay.port).port
    contents = {"large.bin": os.urandom(100 * SEGMENT + 1), "small": b"small", "empty": b""}
    paths = write(place / "files", contents)
    browser = Browser(port, place / "profile").enter()
    browser.choose(*paths)
    browser.begin()
    browser.wait(f"document.querySelector('#all-progress').value > {30 * SEGMENT}")
    browser.kill()
    time.sleep(1)
    uploads = {path for path, _ in relay.segments()}
    told = [site.ask("GET", path) for path in uploads]
    received = {(path, number) for path, (status, _, text) in zip(uploads, told) if status == 200
                for number in json.loads(text)["segments"]["received"]}
    before = len(relay.requests)
    for lock in place.glob("profile/Singleton*"):
        lock.unlink()
    with Browser(port, place / "profile") as browser:
        browser.enter()
        go_on(browser, *paths)
        number = browser.ends()
    compare("a browser that was killed", site, number, contents)
    find("segments were received before", len(received) > 20)
    expect("received segments that were sent again", sorted(received & set(relay.segments(before))), [])
    nothing_is_left("a browser that was killed", site, [number])
    expect("changes of the object without If-Match", relay.untagged, [])
    relay.close()


def connections_are_cut(kept, place, every=7):
    """The connection breaks in place of each reply, one in seven of a deposit: each file stands once."""
    site = Site(kept, max_upload=SEGMENT)
    relay = Cutting(site.front().port)
    browser = kept.enter_context(Browser(relay.port, place / "profile")).enter()
    contents = {"empty": b"", "small": b"small", "other": b"other", "large.bin": os.urandom(3 * SEGMENT + 1)}
    paths, numbers = write(place / "files", contents), []
    for at in range(every):
        browser.open()
        browser.choose(*paths)
        relay.number, relay.cuts = 0, lambda number, at=at: number % every == at
        browser.begin()
        try:
            numbers.append(browser.ends(seconds=180))
        finally:
            relay.cuts = lambda number: False
        compare(f"cut at {at}", site, numbers[-1], contents)
    expect("the objects that are there", site.objects(100), numbers)
    find(f"many connections were cut ({relay.cut})", relay.cut > 2 * every)
    relay.close()


def two_tabs(kept, place):
    """A deposit that is open in one tab can't be gone on with in another."""
    site = Site(kept, max_upload=SEGMENT)
    browser = kept.enter_context(Browser(site.front().port, place / "profile")).enter()
    contents = {"large.bin": os.urandom(200 * SEGMENT)}
    paths = write(place / "files", contents)
    browser.choose(*paths)
    browser.begin()
    browser.wait(f"document.querySelector('#all-progress').value > {3 * SEGMENT}")
    browser.press("Pause")
    browser.ends("paused")
    first = browser.driver.current_window_handle
    browser.driver.switch_to.new_window("tab")
    browser.open()
    browser.wait("document.querySelector('#unfinished button')")
    browser.finds("#unfinished button")[0].click()
    browser.wait("/open in another tab/.test(document.body.innerText)")
    expect("what runs in the second tab", browser.find("#running").is_displayed(), False)
    browser.driver.close()
    browser.driver.switch_to.window(first)
    browser.press("Go on", "#running")
    compare("two tabs", site, browser.ends(), contents)


def digest_is_refused(kept, place):
    """A segment that comes otherwise than it was sent is refused, and told in the server's words; then it comes as it is."""
    site = Site(kept)
    relay = Watching(site.host.port)
    browser = kept.enter_context(Browser(site.front(relay.port).port, place / "profile")).enter()
    contents = {"a.txt": b"abc", "b.txt": b"b" * 1000}
    browser.choose(*write(place / "files", contents))
    relay.spoils = lambda path: path.startswith("/staging/")
    browser.begin()
    browser.ends("stopped")
    told = browser.text("#running .fault")
    for words in ("The content does not match its digest", "DigestMismatch", "refusal 10", "Try again"):
        find(f"the page says {words!r}", words in told)
    relay.spoils = lambda path: False
    browser.press("Try again", "#running")
    compare("after a refused digest", site, browser.ends(), contents)
    relay.close()


def put_back(path, content):
    """Writes another content, and puts the old date back."""
    was = path.stat()
    path.write_bytes(content)
    os.utime(path, ns=(was.st_atime_ns, was.st_mtime_ns))


def file_changes(kept, place):
    """A file that changes while it is sent, its old date put back, begins anew; one with a new date has to be chosen again."""
    site = Site(kept, max_upload=SEGMENT)
    browser = kept.enter_context(Browser(site.front().port, place / "profile")).enter()
    for number, is_put_back in enumerate((True, False)):
        browser.open()
        contents = {"large.bin": os.urandom(200 * SEGMENT), "small": b"small"}
        paths = write(place / f"files-{number}", contents)
        browser.choose(*paths)
        browser.begin()
        browser.wait(f"document.querySelector('#all-progress').value > {5 * SEGMENT}")
        browser.press("Pause")
        browser.ends("paused")
        contents["large.bin"] = os.urandom(200 * SEGMENT)
        if is_put_back:
            put_back(paths[0], contents["large.bin"])
        else:
            time.sleep(1.1)
            paths[0].write_bytes(contents["large.bin"])
        browser.press("Go on", "#running")
        if not is_put_back:
            browser.ends("needs files")
            find("the page says so", "changed meanwhile: choose it again" in browser.text("#running"))
            expect("whether it is ingested", site.state(max(site.objects())), False)
            browser.choose(paths[0], within="#running")
            browser.wait("/2 of 2 files chosen again/.test(document.querySelector('#running').textContent)")
            browser.press("Go on", "#running")
        compare(f"a file that changes, its date put back: {is_put_back}", site, browser.ends(), contents)


def change_before_the_end(kept, place):
    """A file that changes once it was deposited, and before the object is ingested, its old date put back."""
    site = Site(kept, max_upload=SEGMENT)
    relay = Watching(site.host.port)
    browser = kept.enter_context(Browser(site.front(relay.port).port, place / "profile")).enter()
    contents = {"first": b"1" * 1000, **{f"{at:03}": b"%d" % at for at in range(110)}, "large.bin": os.urandom(40 * SEGMENT)}
    paths = write(place / "files", contents)
    browser.choose(*paths)
    relay.goes_on.clear()
    browser.begin()
    browser.wait("document.querySelector('#items li').dataset.state === 'there'")
    contents["first"] = b"2" * 1000
    put_back(paths[0], contents["first"])
    relay.goes_on.set()
    compare("a file that changes once it was deposited", site, browser.ends(), contents)
    expect("changes without If-Match", relay.untagged, [])
    relay.close()


def uploads_are_kept_alive(kept, place):
    """A paused upload is kept beyond the time after which it would time out; one whose browser is away is opened anew."""
    site = Site(kept, max_upload=SEGMENT, staging_max_idle=3)
    relay = Watching(site.host.port)
    browser = kept.enter_context(Browser(site.front(relay.port).port, place / "profile")).enter()
    contents = {"large.bin": os.urandom(300 * SEGMENT)}
    paths = write(place / "files", contents)
    browser.choose(*paths)
    browser.begin()
    browser.wait(f"document.querySelector('#all-progress').value > {5 * SEGMENT}")
    browser.press("Pause")
    browser.ends("paused")
    time.sleep(8)
    upload = relay.segments()[0][0]
    expect("a paused upload", site.ask("GET", upload)[0], 200)
    browser.driver.get("about:blank")
    time.sleep(6)
    expect("an upload whose page is away", site.ask("GET", upload)[0], 410)
    browser.open()
    go_on(browser, *paths)
    compare("an upload that timed out", site, browser.ends(), contents)
    relay.close()


def password_in_the_url(kept, place):
    """The page that was opened by a URL with the password in it deposits, hashes in its worker, and checks."""
    site = Site(kept, max_upload=SEGMENT)
    browser = kept.enter_context(Browser(site.front().port, place / "profile"))
    browser.driver.get(f"{browser.with_password}/")
    browser.wait("document.body.dataset.ready")
    contents = {"large.bin": os.urandom(3 * SEGMENT)}
    browser.choose(*write(place / "files", contents))
    browser.begin()
    number = browser.ends()
    compare("a password in the URL", site, number, contents)
    browser.find("#running a").click()
    check(browser, "1 file and 5 records about them were checked, ", "none differs")


def server_is_away(kept, place):
    """The first request of the page is tried until the server is there; nothing of nginx's is shown."""
    site = Site(kept)
    port = site.front().port
    browser = kept.enter_context(Browser(port, place / "profile")).enter()
    site.kill()
    browser.driver.get("about:blank")
    browser.driver.get(f"{browser.url}/")
    browser.wait("/can't be reached/.test(document.body.innerText)")
    find("nothing of nginx's is shown", "nginx" not in browser.text("body") and "502" not in browser.text("body"))
    site.again()
    browser.wait("document.body.dataset.ready")
    expect("what was told is gone", "can't be reached" in browser.text("body"), False)


def behalf_is_told(kept, place):
    """On whose behalf: the user whom nginx knows."""
    site = Site(kept)
    browser = kept.enter_context(Browser(site.front().port, place / "profile")).enter()
    contents = {"a": b"abc", "empty": b""}
    browser.choose(*write(place / "files", contents))
    browser.begin()
    number = browser.ends()
    links = json.loads(site.ask("GET", f"/objects/{number}")[2])["links"]
    expect("on whose behalf", [it.get("depositedOnBehalfOf") for it in links], [CURATOR] * 2)
    browser.open(f"#objects/{number}")
    browser.wait("document.querySelectorAll('#files li').length === 2")
    told = browser.run("return document.querySelector('#files').textContent")
    expect("how often the page says so", told.count(f"on behalf of {CURATOR}"), 2)


def many_files(kept, place, count):
    """Many small files, a hundred at a time by reference. Returns the seconds."""
    site = Site(kept)
    browser = kept.enter_context(Browser(site.front().port, place / "profile")).enter()
    contents = {f"{at // 500}__{at:04}.txt": hashlib.sha256(b"%d" % at).digest() * (at % 9) for at in range(count)}
    write(place / "folder", {name.replace("__", "/"): content for name, content in contents.items()})
    browser.choose(place / "folder", is_folder=True)
    browser.wait(f"document.querySelectorAll('#chosen li').length === {count}")
    began = time.monotonic()
    browser.begin()
    number = browser.ends(seconds=1200)
    seconds = time.monotonic() - began
    compare(f"{count} files", site, number, contents)
    return seconds


