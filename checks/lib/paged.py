"""Drives the page of deploy/page in Debian's chromium: over nginx with TLS and a password, and a real `swordd_host`."""

import contextlib
import http.client
import json
import os
import pathlib
import shutil
import signal
import sys
import tempfile

import fronted
from conformance import folder_in_memory
from depositing import ADDRESS, exchange

# Where Debian puts its Python's packages, for another python3.
sys.path.append("/usr/lib/python3/dist-packages")
MOST_SECONDS = 120
WAIT = """
const done = arguments[arguments.length - 1];
const holds = () => { try { return (%s); } catch { return null; } };
const told = holds();
if (told) { done(told); } else {
    const observer = new MutationObserver(() => { const it = holds(); if (it) { observer.disconnect(); done(it); } });
    observer.observe(document, { subtree: true, childList: true, attributes: true, characterData: true });
}
"""
STATE = "document.querySelector('#running').dataset.state"


def missing():
    """What this machine lacks for the page, or None."""
    if fronted.missing() or not shutil.which("chromium") or not shutil.which("chromedriver"):
        return fronted.missing() or "chromium or chromium-driver"
    try:
        import selenium  # noqa: F401 pylint: disable=import-outside-toplevel,unused-import
    except ImportError:
        return "python3-selenium"
    return None


class Site:
    """A host, and nginx with the page in front of it, in a folder of its own. What it has is read over HTTP from the host."""

    def __init__(self, kept, **settings):
        self.folder = pathlib.Path(kept.enter_context(tempfile.TemporaryDirectory(dir=folder_in_memory())))
        self.kept, self.settings = kept, {"base": f"http://{fronted.NAME}", "on_behalf_of": True, **settings}
        self.host, self.store = None, self.folder / "store"
        self.start()

    def start(self, port=None):
        """Starts the host, again at the port that it had."""
        self.host = fronted.Host(self.store, **self.settings, **({"port": port} if port else {}))
        self.host.port = port or self.host.port
        self.kept.enter_context(self.host)

    def front(self, behind=None):
        """nginx in front of the host, or of what stands at this port before it."""
        folder = pathlib.Path(self.kept.enter_context(tempfile.TemporaryDirectory(dir=self.folder)))
        return self.kept.enter_context(fronted.Proxy(folder, behind or self.host.port))

    def kill(self):
        self.host.process.send_signal(signal.SIGKILL)
        self.host.process.wait()

    def again(self):
        self.start(self.host.port)

    def ask(self, method, path, content=None, fields=None):
        """One request to the host itself. Returns its status, its fields and its content."""
        connection = http.client.HTTPConnection(ADDRESS, self.host.port, timeout=60)
        reply, read = exchange(connection, method, path, content, fields)
        connection.close()
        return reply.status, reply.headers, read

    def objects(self, most=60):
        """The numbers of the objects that are there."""
        return [it for it in range(1, most) if self.ask("GET", f"/objects/{it}")[0] == 200]

    def state(self, number):
        """Whether an object is ingested."""
        return b"/state/ingested" in self.ask("GET", f"/objects/{number}")[2]

    def files(self, number):
        """The names and contents of an object's files, in order: names by its bag, contents by their own URLs."""
        listed = self.ask("GET", f"/objects/{number}/bag")[2].decode().split("\n")
        paths = [it.split("/", 2)[1:] for it in listed if it.startswith("data/")]
        return [(name, self.ask("GET", f"/objects/{number}/files/{file}")[2]) for file, name in paths]

    def metadata(self, number):
        """The Dublin Core of an object."""
        document = json.loads(self.ask("GET", f"/objects/{number}/metadata")[2])
        return {name: text for name, text in document.items() if name.startswith("dc")}


class Browser:
    """Chromium, at a page whose password it was told. A profile that is given is kept, also where it was killed."""

    def __init__(self, port, profile, width=1000, flags=(), scheme="light"):
        from selenium import webdriver  # pylint: disable=import-outside-toplevel
        from selenium.webdriver.chrome.service import Service  # pylint: disable=import-outside-toplevel
        options = webdriver.ChromeOptions()
        options.binary_location = shutil.which("chromium")
        for word in ("--headless=new", "--no-sandbox", "--ignore-certificate-errors", f"--user-data-dir={profile}",
                     f"--window-size={width},1000", "--host-resolver-rules=MAP * 127.0.0.1", "--disable-background-networking",
                     "--disable-component-update", "--no-first-run", "--force-device-scale-factor=1",
                     *(["--force-dark-mode"] if scheme == "dark" else []), *flags):
            options.add_argument(word)
        options.set_capability("goog:loggingPrefs", {"browser": "ALL"})
        options.set_capability("unhandledPromptBehavior", "ignore")
        self.url = f"https://{fronted.NAME}:{port}"
        self.with_password = f"https://{fronted.CURATOR}:{fronted.PASSWORD}@{fronted.NAME}:{port}"
        self.driver = webdriver.Chrome(service=Service(shutil.which("chromedriver")), options=options)
        self.driver.set_script_timeout(MOST_SECONDS)
        self.driver.set_window_size(width, 1000)

    def enter(self):
        """Tells the password, by a resource that is no page, and opens the page without it."""
        self.driver.get(f"{self.with_password}/objects/0")
        return self.open()

    def open(self, place=""):
        self.driver.get("about:blank")
        self.driver.get(f"{self.url}/{place}")
        self.wait("document.body.dataset.ready")
        return self

    def wait(self, condition, seconds=MOST_SECONDS):
        """Waits until it holds, by an observer of the document: polling would slow the page. Returns what it is."""
        from selenium.common.exceptions import TimeoutException  # pylint: disable=import-outside-toplevel
        self.driver.set_script_timeout(seconds)
        try:
            return self.driver.execute_async_script(WAIT % condition)
        except TimeoutException:
            raise TimeoutError(f"{condition} doesn't come to hold; the page says {self.text('body')}") from None

    def run(self, script, *words):
        return self.driver.execute_script(script, *words)

    def find(self, selector):
        return self.driver.find_element("css selector", selector)

    def finds(self, selector):
        return self.driver.find_elements("css selector", selector)

    def text(self, selector):
        return self.run("return document.querySelector(arguments[0])?.innerText ?? ''", selector)

    def press(self, label, within="body"):
        """Presses the button that has this label, as a person does."""
        found = self.run("""return [...document.querySelectorAll(`${arguments[1]} button, ${arguments[1]} summary`)].find((it) =>
            it.checkVisibility() && (it.ariaLabel ?? it.textContent) === arguments[0])""", label, within)
        if not found:
            raise LookupError(f"no button {label}")
        found.click()

    def choose(self, *paths, is_folder=False, within="#deposit-view"):
        """Chooses these files, or a folder, in the form that is seen."""
        inputs = [it for it in self.finds(f"{within} input[type=file]") if it.is_displayed()]
        inputs[1 if is_folder else 0].send_keys("\n".join(str(it) for it in paths))

    def drop(self, *paths):
        """Drops files and folders at the place for them, as a file manager does."""
        place = next(it for it in self.finds(".drop") if it.is_displayed())
        box = self.run("const it = arguments[0].getBoundingClientRect(); return [it.x + it.width / 2, it.y + 10]", place)
        data = {"items": [], "files": [str(it) for it in paths], "dragOperationsMask": 1}
        for kind in ("dragEnter", "dragOver", "drop"):
            self.driver.execute_cdp_cmd("Input.dispatchDragEvent", {"type": kind, "x": box[0], "y": box[1], "data": data})

    def begin(self):
        """Begins the deposit of what was chosen."""
        self.press("Deposit", "form")

    def ends(self, state="done", seconds=MOST_SECONDS):
        """Waits until the deposit is in this state. Returns the number of its object, where it is done."""
        self.wait(f"{STATE} === '{state}'", seconds)
        return int(self.find("#running a").get_attribute("href").split("/")[-1]) if state == "done" else None

    def picture(self, path, height=1000):
        """What is seen in a window of this height."""
        width = self.driver.get_window_size()["width"]
        self.driver.execute_cdp_cmd("Emulation.setScrollbarsHidden", {"hidden": True})
        self.driver.execute_cdp_cmd("Emulation.setDeviceMetricsOverride",
                                    {"width": width, "height": height, "deviceScaleFactor": 1, "mobile": False})
        self.driver.save_screenshot(str(path))
        self.driver.execute_cdp_cmd("Emulation.clearDeviceMetricsOverride", {})

    def faults(self):
        """What its console told of faults of the page."""
        return [it["message"] for it in self.driver.get_log("browser") if it["level"] == "SEVERE" and "favicon" not in it["message"]]

    def kill(self):
        """SIGKILL of the browser and all that it started."""
        pid = self.driver.service.process.pid
        children = [int(it) for it in pathlib.Path(f"/proc/{pid}/task/{pid}/children").read_text().split()]
        for child in children:
            os.kill(child, signal.SIGKILL)
        self.quit()

    def quit(self):
        with contextlib.suppress(Exception):
            self.driver.quit()
        self.driver.service.stop()

    def __enter__(self):
        return self

    def __exit__(self, *_):
        self.quit()
