"""The pictures of the page's main views: docs/page/*.png (checks/page.py --pictures docs/page)."""

import os
import sqlite3

from page_deposits import SEGMENT, write
from page_objects import check, edit, shown
from paged import Browser, Site

WIDTH = 820
FILES = {"field-notes/observations.txt": b"Observations of a day\n" * 90, "field-notes/1902/may.txt": b"Rain\n" * 40,
         "field-notes/1902/june.txt": b"Sun\n" * 70}


def draw(kept, place, folder):
    """Draws all of them, in the order in which a new depositor sees them."""
    folder.mkdir(parents=True, exist_ok=True)
    site = Site(kept, max_upload=SEGMENT, title="Deposits", abstract="Deposit service of the institution")
    browser = kept.enter_context(Browser(site.front().port, place / "profile", width=WIDTH)).enter()
    scans = {"field-notes/scans.tif": os.urandom(400 * SEGMENT)}
    write(place, {**FILES, **scans})
    browser.choose(place / "field-notes", is_folder=True)
    browser.wait("document.querySelectorAll('#chosen li').length === 4")
    for field, text in zip(browser.finds("#deposit-view textarea"), ("Field notes", "Kim")):
        field.send_keys(text)
    browser.picture(folder / "deposit.png", 1060)
    browser.begin()
    browser.wait(f"document.querySelector('#all-progress').value > {90 * SEGMENT} && / left/.test(document.querySelector('#figures').textContent)")
    browser.picture(folder / "progress.png", 560)
    browser.driver.get("about:blank")
    browser.open()
    browser.wait("document.querySelector('#unfinished button')")
    browser.picture(folder / "broken-off.png", 400)
    browser.press("Go on with Field notes", "#unfinished")
    browser.choose(place / "field-notes", is_folder=True, within="#running")
    browser.wait("/4 of 4 files chosen again/.test(document.querySelector('#running').textContent)")
    browser.press("Go on", "#running")
    number = browser.ends()
    draw_object(site, browser, number, folder)


def draw_object(site, browser, number, folder):
    check(shown(browser, number), "none differs")
    browser.picture(folder / "object.png", 1260)
    site.host.process.terminate()
    site.host.process.wait()
    with sqlite3.connect(site.host.store) as database:
        database.execute("UPDATE blocks SET bytes = zeroblob(length(bytes)) WHERE kind = 0 AND owner IN (SELECT max(file) FROM files WHERE size < 1000)")
    database.close()
    site.again()
    check(shown(browser, number), "1 differs")
    browser.run("document.querySelector('#check').scrollIntoView()")
    browser.picture(folder / "damage.png", 560)
    browser.open()
    edit(shown(browser, number), "Field notes of 1902")
    _, headers, _ = site.ask("GET", f"/objects/{number}/metadata")
    site.ask("PUT", f"/objects/{number}/metadata", b'{"dc:title":"Notes in the field","dc:creator":"Kim"}',
             {"Content-Type": "application/json", "If-Match": headers["ETag"]})
    browser.press("Save", "#metadata")
    browser.wait("document.querySelector('#conflict')")
    browser.run("document.querySelector('#metadata').scrollIntoView()")
    browser.picture(folder / "conflict.png", 560)
