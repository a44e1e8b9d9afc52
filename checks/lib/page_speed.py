"""What the page costs: the figures of docs/SPEED.md (checks/page.py --speed)."""

import contextlib
import http.client
import os
import pathlib
import subprocess
import sys
import threading
import time

import fronted
from crates import ROOT
from page_deposits import check, compare, many_files, write
from paged import Browser, Site


class Sampler:
    """Does this again and again beside what is measured, and keeps the greatest of what it returned."""

    def __init__(self, sample, between):
        self.sample, self.between, self.greatest, self.is_over = sample, between, 0, threading.Event()
        self.thread = threading.Thread(target=self.go, daemon=True)

    def go(self):
        while not self.is_over.wait(self.between):
            self.greatest = max(self.greatest, self.sample())

    def __enter__(self):
        self.thread.start()
        return self

    def __exit__(self, *_):
        self.is_over.set()
        self.thread.join()


def tab_memory(browser):
    """The memory that the renderers of a browser have for themselves, in MiB."""
    total = 0
    for folder in descendants(browser.driver.service.process.pid):
        with contextlib.suppress(OSError):
            if b"--type=renderer" in (folder / "cmdline").read_bytes():
                lines = (folder / "smaps_rollup").read_text().splitlines()
                total += sum(int(line.split()[1]) for line in lines if line.startswith("Pss:")) / 1024
    return total


def descendants(pid):
    """The folders of /proc of the processes that it started, of whichever of its threads."""
    found = []
    with contextlib.suppress(OSError):
        for children in pathlib.Path(f"/proc/{pid}/task").glob("*/children"):
            for child in children.read_text().split():
                found += [pathlib.Path(f"/proc/{child}"), *descendants(int(child))]
    return found


@contextlib.contextmanager
def memory_of(browser):
    """Beside what is done in it: the most that the tab takes above its rest, and this rest, in MiB, as a list that it fills."""
    time.sleep(2)
    rest, told = tab_memory(browser), []
    with Sampler(lambda: tab_memory(browser), 0.2) as memory:
        yield told
    told += [memory.greatest - rest, rest]


def wait_of(site):
    """How long another client waits for the service document, in seconds."""
    connection = http.client.HTTPConnection("127.0.0.1", site.host.port, timeout=600)
    began = time.monotonic()
    connection.request("GET", "/service")
    connection.getresponse().read()
    connection.close()
    return time.monotonic() - began


def by_tool(proxy, folder):
    """The seconds of deploy/deposit.py for a folder, through nginx."""
    told = {**os.environ, "SSL_CERT_FILE": str(proxy.certificate), "DEPOSIT_USER": fronted.USER, "DEPOSIT_PASSWORD": fronted.PASSWORD}
    began = time.monotonic()
    subprocess.run([sys.executable, ROOT / "deploy/deposit.py", proxy.url, folder], env=told, check=True, capture_output=True)
    return time.monotonic() - began


def measure(kept, place, size, count):
    """Prints them all."""
    site = Site(kept)
    proxy = site.front()
    contents = {"large.bin": os.urandom(size)}
    paths = write(place / "folder", contents)
    browser = kept.enter_context(Browser(proxy.port, place / "profile")).enter()
    browser.choose(*paths)
    with memory_of(browser) as memory, Sampler(lambda: wait_of(site), 0.005) as waits:
        began = time.monotonic()
        browser.begin()
        browser.wait("['sent', 'there'].includes(document.querySelector('#items li')?.dataset.state)", 1200)
        sent, longest_sent = time.monotonic() - began, waits.greatest
        number = browser.ends(seconds=1200)
        page = time.monotonic() - began
    compare("the measured deposit", site, number, contents)
    tool = by_tool(proxy, place / "folder")
    print(f"{size >> 20} MiB: by the page {page:.1f} s ({sent:.1f} s until all is sent), by deposit.py {tool:.1f} s, {page / tool:.2f} times")
    print(f"the tab: {memory[0]:.0f} MiB above its rest of {memory[1]:.0f} MiB")
    print(f"another client waits at most {longest_sent * 1000:.0f} ms while segments come, {waits.greatest * 1000:.0f} ms in all")
    browser.open(f"#objects/{number}")
    browser.wait("document.querySelector('#check button')")
    with memory_of(browser) as memory:
        began = time.monotonic()
        check(browser, "none differs", seconds=1200)
        seconds = time.monotonic() - began
    print(f"its check: {seconds:.1f} s, the tab {memory[0]:.0f} MiB above its rest of {memory[1]:.0f} MiB")
    seconds = many_files(kept, place / "many", count)
    print(f"{count} files: by the page {seconds:.1f} s, by deposit.py {by_tool(proxy, place / 'many' / 'folder'):.1f} s")
