"""What a person does who looks at objects, checks them, and changes them: stories of checks/page.py."""

import json
import os
import sqlite3

from depositing import as_file
from expectations import expect, find
from hosted import until
from page_deposits import check, write
from page_speed import memory_of
from paged import Browser, Site

JSON = {"Content-Type": "application/json"}
# What a tab may take above its rest, in MiB: a third of the large file.
MOST_MEMORY = 100


def deposited(site, contents, names=()):
    """An object of these files, by requests to the host itself. Returns its number."""
    fields = {"Content-Disposition": "attachment; metadata=true", "In-Progress": "true", **JSON}
    status, headers, _ = site.ask("POST", "/service", json.dumps(dict(names)).encode(), fields)
    expect("the making of an object", status, 201)
    path = headers["Location"].removeprefix(site.settings["base"])
    for name, content in contents.items():
        status, _, _ = site.ask("POST", path, content, {**as_file(name, "text/plain"), "In-Progress": "true"})
        expect(f"the deposit of {name}", status, 200)
    expect("the ingestion", site.ask("POST", path)[0], 200)
    return int(path.split("/")[-1])


def shown(browser, number):
    browser.open(f"#objects/{number}")
    browser.wait("document.querySelector('#files') || document.querySelector('#object .fault')")
    return browser


def object_is_shown(kept, place):
    """An object by its number, its path and its URL; what isn't there, in the server's words; nothing of another server. A visit
    keeps nothing in the browser: where it was left meanwhile, Chromium would keep nothing at all."""
    site = Site(kept)
    number = deposited(site, {"a.txt": b"abc", "b.txt": b"b" * 2000}, {"dc:title": "T\u202eurned", "dc:creator": ["Kim", "Lee"]})
    browser = kept.enter_context(Browser(site.front().port, place / "profile")).enter()
    made = browser.driver.execute_async_script("const done = arguments[0]; setTimeout(() => indexedDB.databases().then(done), 500)")
    expect("the databases that a visit makes", made, [])
    for words in (str(number), f"/objects/{number}", f"http://deposit.example.org/objects/{number}", f"{browser.url}/objects/{number}/files/1"):
        browser.open("#objects")
        browser.find("#object-view input").send_keys(words)
        browser.press("Show", "#object-view")
        browser.wait("document.querySelectorAll('#files li').length === 2")
    told = browser.wait("/3 bytes[^]*2.0 kB/.test(document.querySelector('#files').innerText) && document.querySelector('#object').innerText")
    for words in (f"http://deposit.example.org/objects/{number}", "ingested", "T⟨U+202E⟩urned", "Kim", "Lee", "a.txt", "3 bytes", "text/plain",
                  "depositor", "number 2"):
        find(f"the page shows {words!r}", words in told)
    download(browser, place, "a.txt", b"abc")
    browser.press("The list of its bag", "#object")
    expect("the list of the bag", browser.text("#bag").split("\n"), site.ask("GET", f"/objects/{number}/bag")[2].decode().split("\n")[:-1])
    for words, wanted in (("9", "There is nothing at this URL (NotFound, refusal 7)"), ("nine", "no number and no address"),
                          ("https://other.example.net/objects/1", "of another server, other.example.net")):
        browser.open("#objects")
        browser.find("#object-view input").send_keys(words)
        browser.press("Show", "#object-view")
        browser.wait(f"document.body.innerText.includes({json.dumps(wanted)})")


def download(browser, place, name, content):
    """The link of a file gives the file, under its name."""
    folder = place / "downloads"
    folder.mkdir()
    browser.driver.execute_cdp_cmd("Browser.setDownloadBehavior", {"behavior": "allow", "downloadPath": str(folder)})
    browser.driver.find_element("link text", name).click()
    find(f"{name} is downloaded", until(lambda: (folder / name).exists() and (folder / name).read_bytes() == content, 20))


def metadata_in_two_tabs(kept, place):
    """Who saves second is told, sees both, and may save over it. Who sent what stands there isn't told of himself."""
    site = Site(kept)
    number = deposited(site, {"a": b"abc"}, {"dc:title": "First"})
    browser = kept.enter_context(Browser(site.front().port, place / "profile")).enter()
    edit(shown(browser, number), "Mine")
    first = browser.driver.current_window_handle
    browser.driver.switch_to.new_window("tab")
    edit(shown(browser, number), "Theirs")
    browser.press("Save", "#metadata")
    browser.wait("/Saved/.test(document.querySelector('#metadata').innerText)")
    expect("what was saved first", site.metadata(number), {"dc:title": "Theirs"})
    browser.driver.switch_to.window(first)
    browser.press("Save", "#metadata")
    browser.wait("document.querySelector('#conflict')")
    expect("what stands there", site.metadata(number), {"dc:title": "Theirs"})
    find("both are shown", "Theirs" in browser.text("#theirs") and browser.find("#metadata textarea").get_attribute("value") == "Mine")
    browser.press("Save yours in its place", "#metadata")
    browser.wait("/Saved/.test(document.querySelector('#metadata').innerText)")
    expect("what was saved in its place", site.metadata(number), {"dc:title": "Mine"})
    edit(browser, "Same")
    _, headers, _ = site.ask("GET", f"/objects/{number}/metadata")
    site.ask("PUT", f"/objects/{number}/metadata", b'{"dc:title":"Same"}', {**JSON, "If-Match": headers["ETag"]})
    browser.press("Save", "#metadata")
    browser.wait("/Saved/.test(document.querySelector('#metadata').innerText)")


def edit(browser, title):
    """Begins to edit the description: another title."""
    browser.press("Edit the description", "#metadata")
    field = browser.find("#metadata textarea")
    field.clear()
    field.send_keys(title)


def damage_is_seen(kept, place):
    """A file whose bytes were changed in the database, and one that lacks a block: a check tells both, and the others are well."""
    site = Site(kept)
    number = deposited(site, {"sound": b"sound", "changed": b"changed", "cut": os.urandom(200_000), "gone": b"gone"})
    browser = kept.enter_context(Browser(site.front().port, place / "profile")).enter()
    check(shown(browser, number), "4 files and 5 records about them were checked, ", "none differs, and all could be read")
    site.host.process.terminate()
    site.host.process.wait()
    with sqlite3.connect(site.host.store) as database:
        changed = [database.execute("UPDATE blocks SET bytes = ? WHERE kind = 0 AND owner = 2", (b"chanGed",)).rowcount,
                   database.execute("DELETE FROM blocks WHERE kind = 0 AND owner = 3 AND place = 2").rowcount,
                   database.execute("DELETE FROM blocks WHERE kind = 0 AND owner = 4").rowcount]
    database.close()
    expect("the blocks that were damaged", changed, [1, 1, 1])
    site.again()
    check(shown(browser, number), "4 files and 5 records about them were checked: 1 differs, 2 couldn't be read")
    marks = browser.run("return [...document.querySelectorAll('#files li')].map((it) => it.querySelector('a').innerText + ' ' +"
                        "it.querySelector('.mark').innerText)")
    expect("the marks", marks, ["sound ✓ as deposited", "changed ✗ differs", "cut ✗ couldn't be read", "gone ✗ couldn't be read"])
    expect("the damaged files", [it.split(" ")[0] for it in browser.text("#check-bad").split("\n")],
           ["data/2/changed", "data/3/cut", "data/4/gone"])


def things_are_deleted(kept, place):
    """A file and an object, once the number was typed; not by another number, nor what was changed meanwhile."""
    site = Site(kept)
    number = deposited(site, {"a": b"abc", "b": b"abd"})
    browser = kept.enter_context(Browser(site.front().port, place / "profile")).enter()
    shown(browser, number)
    confirm(browser, "Delete a", "2")
    browser.wait("/another number/.test(document.querySelector('dialog').innerText)")
    expect("after another number", len(site.files(number)), 2)
    browser.press("Cancel", "dialog")
    confirm(browser, "Delete a", "1")
    browser.wait("/^Deleted: the file a/.test(document.querySelector('#object').innerText)")
    expect("the files", site.files(number), [("b", b"abd")])
    site.ask("PUT", f"/objects/{number}/files/2", b"anew", as_file("b"))
    confirm(browser, "Delete b", "2")
    browser.wait("/changed meanwhile/.test(document.querySelector('#object').innerText)")
    expect("a file that was replaced", site.files(number), [("b", b"anew")])
    confirm(browser, "Delete the object", str(number))
    browser.wait("/^Deleted: object/.test(document.querySelector('#object').innerText)")
    expect("the object", site.ask("GET", f"/objects/{number}")[0], 404)


def confirm(browser, label, number):
    """Presses the button, types the number, and confirms."""
    browser.press(label, "#object")
    browser.wait("document.querySelector('dialog').open")
    browser.find("dialog input").send_keys(number)
    browser.press("Delete", "dialog")


def large_file_is_checked(kept, place, size):
    """A large file is sent, and read back in one stream, by a tab that never has much of it in memory."""
    site = Site(kept)
    browser = kept.enter_context(Browser(site.front().port, place / "profile")).enter()
    browser.choose(*write(place / "files", {"large.bin": os.urandom(size)}))
    with memory_of(browser) as sent:
        browser.begin()
        number = browser.ends(seconds=600)
    shown(browser, number)
    with memory_of(browser) as checked:
        check(browser, "1 file and 5 records about them were checked, ", "none differs", seconds=600)
    for what, (above, _) in (("deposit", sent), ("check", checked)):
        find(f"the {what} of {size} bytes takes {above:.0f} MiB in the tab, more than {MOST_MEMORY}", above <= MOST_MEMORY)
