#!/usr/bin/env python3
"""Drives the page of deploy/page in Debian's chromium, over nginx with TLS and a password and a real swordd_host, as people do:
deposits that are broken off and gone on with, objects that are looked at, checked and changed, and what the page has to be
safe from. What the archive then has is read back over HTTP, and compared byte by byte.

    checks/page.py [--large BYTES] [--count FILES] [--list] [STORY..]
    checks/page.py --pictures FOLDER
    checks/page.py --speed [--large BYTES] [--count FILES]

--large is the size of the large files, 300 MiB by default, --count the number of the many ones, 2,000 by default; --list prints
the stories; --pictures draws those of docs/page instead, and --speed prints the
figures of docs/SPEED.md. The status is 0 where all came as it should. It needs nginx, openssl, chromium, chromium-driver and python3-selenium
(apt-get install them), and says so where one is missing. It takes some ten minutes.
"""

import sys
sys.path.insert(0, f"{sys.path[0]}/lib")

import argparse
import contextlib
import functools
import pathlib
import tempfile
import time
import traceback

import page_deposits
import page_objects
import page_pictures
import page_safety
import page_speed
import paged
from expectations import expect, status_of


def stories(large, count):
    """All stories, by their names."""
    told = [
        page_deposits.three_files, page_deposits.names_are_kept, page_deposits.names_that_do_not_fit, page_deposits.folder_is_dropped,
        functools.partial(page_deposits.server_is_killed, size=large), page_deposits.browser_is_killed, page_deposits.connections_are_cut,
        page_deposits.two_tabs, page_deposits.digest_is_refused, page_deposits.file_changes, page_deposits.change_before_the_end,
        page_deposits.uploads_are_kept_alive, page_deposits.password_in_the_url, page_deposits.server_is_away,
        page_deposits.behalf_is_told,
        functools.partial(page_deposits.many_files, count=count), page_objects.object_is_shown, page_objects.metadata_in_two_tabs,
        page_objects.damage_is_seen, page_objects.things_are_deleted, functools.partial(page_objects.large_file_is_checked, size=large),
        page_safety.deposits_do_nothing, page_safety.foreign_forms_do_nothing, page_safety.fields_of_replies,
        page_safety.words_and_digests, page_safety.contents_are_read_whole, page_safety.everybody_can_use_it,
    ]
    return {getattr(it, "func", it).__name__: it for it in told}


def tell(name, story):
    """One story, over a store and a profile of its own."""
    began = time.monotonic()
    with tempfile.TemporaryDirectory(ignore_cleanup_errors=True) as folder, contextlib.ExitStack() as kept:
        try:
            story(kept, pathlib.Path(folder))
        except Exception:  # pylint: disable=broad-exception-caught
            expect(f"the end of {name}", traceback.format_exc(), "")
    print(f"{name}: {time.monotonic() - began:.0f} s", flush=True)


def main():
    words = argparse.ArgumentParser(description=__doc__, formatter_class=argparse.RawTextHelpFormatter)
    words.add_argument("--large", type=int, default=300 << 20)
    words.add_argument("--count", type=int, default=2000)
    words.add_argument("--list", action="store_true")
    words.add_argument("--pictures", type=pathlib.Path)
    words.add_argument("--speed", action="store_true")
    words.add_argument("stories", nargs="*", metavar="STORY")
    given = words.parse_args()
    known = stories(given.large, given.count)
    if given.list:
        print("\n".join(known))
        return 0
    if paged.missing():
        print(f"page: skipped, since {paged.missing()} isn't installed (apt-get install nginx openssl chromium chromium-driver python3-selenium)")
        return 0
    if given.pictures:
        known = {"pictures": functools.partial(page_pictures.draw, folder=given.pictures)}
    if given.speed:
        known = {"speed": functools.partial(page_speed.measure, size=given.large, count=given.count)}
    chosen = given.stories or list(known)
    for name in chosen:
        tell(name, known[name])
    return status_of(f"page: {len(chosen)} stories")


if __name__ == "__main__":
    sys.exit(main())
