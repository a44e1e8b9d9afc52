"""That the page is safe to open beside deposits and other sites, and can be used by everybody: stories of checks/page.py."""

import contextlib
import functools
import http.client
import http.server
import re
import ssl
import threading

from crates import ROOT
from expectations import expect, find
from fronted import NAME
from page_deposits import write
from page_objects import deposited, shown
from paged import Browser, Site

CONTRAST = """
const part = (value) => { const it = value / 255; return it <= 0.03928 ? it / 12.92 : ((it + 0.055) / 1.055) ** 2.4; };
const light = (color) => { const [r, g, b] = color.match(/[\\d.]+/g).map(Number); return 0.2126 * part(r) + 0.7152 * part(g) + 0.0722 * part(b); };
const ground = (it) => { for (; it; it = it.parentElement) { const color = getComputedStyle(it).backgroundColor;
    if (!/, 0\\)$/.test(color)) { return color; } } return getComputedStyle(document.documentElement).backgroundColor; };
const texts = [...document.querySelectorAll('body *')].filter((it) => it.checkVisibility() &&
    [...it.childNodes].some((node) => node.nodeType === 3 && node.data.trim()));
return texts.map((it) => { const [a, b] = [light(getComputedStyle(it).color), light(ground(it))].sort((x, y) => y - x);
    return [(a + 0.05) / (b + 0.05), it.tagName + ' ' + it.innerText.slice(0, 30)]; }).filter(([ratio]) => ratio < 4.5);
"""
NAMELESS = """
return [...document.querySelectorAll('input, select, textarea, button, progress, dialog')].filter((it) => it.checkVisibility() &&
    !(it.ariaLabel || [...(it.labels ?? [])].some((label) => label.textContent.trim()) || (it.tagName === 'BUTTON' && it.textContent.trim())))
    .map((it) => it.outerHTML.slice(0, 80));
"""
FORM = """<!DOCTYPE html><form id=f method=post action="{url}/objects/{number}"></form><script>f.submit()</script>"""
HARMFUL = b"""<!DOCTYPE html><title>harmful</title><script>document.title = "ran"; fetch("/objects/1", { method: "DELETE" });</script>"""


@contextlib.contextmanager
def other_site(folder, proxy):
    """Another site over TLS, whose files stand in a folder. Its port."""
    class Quiet(http.server.SimpleHTTPRequestHandler):
        """Says nothing of its requests."""

        def log_message(self, *_):
            pass
    server = http.server.ThreadingHTTPServer(("127.0.0.1", 0), functools.partial(Quiet, directory=folder))
    context = ssl.SSLContext(ssl.PROTOCOL_TLS_SERVER)
    context.load_cert_chain(proxy.certificate, proxy.folder / "deposit.key")
    server.socket = context.wrap_socket(server.socket, server_side=True)
    threading.Thread(target=server.serve_forever, daemon=True).start()
    yield server.server_address[1]
    server.shutdown()


def deposits_do_nothing(kept, place):
    """A deposited HTML page doesn't run when it is opened, and a deposited script doesn't run on the page."""
    site = Site(kept)
    number = deposited(site, {"page.html": HARMFUL, "code.js": b"document.title = 'ran';"})
    for name, media in (("page.html", "text/html"), ("code.js", "text/javascript")):
        at = 1 if name == "page.html" else 2
        site.ask("PUT", f"/objects/{number}/files/{at}", HARMFUL if at == 1 else b"document.title = 'ran';",
                 {"Content-Disposition": f"attachment; filename={name}", "Content-Type": media})
    browser = kept.enter_context(Browser(site.front().port, place / "profile")).enter()
    for path in (f"/objects/{number}/files/1", f"/objects/{number}/bag/data/1/page.html"):
        browser.driver.get(browser.url + path)
        browser.wait("document.readyState === 'complete'")
        expect(f"the title of {path}", browser.driver.title, "harmful")
    expect("the object", site.ask("GET", f"/objects/{number}")[0], 200)
    browser.open()
    was = browser.driver.title
    told = browser.driver.execute_async_script("""
        const done = arguments[1], code = document.createElement("script");
        code.onload = () => done("loaded"); code.onerror = () => done("refused"); code.src = arguments[0]; document.head.append(code);
        """, f"/objects/{number}/files/2")
    expect("a deposited script on the page", (told, browser.driver.title), ("refused", was))
    told = browser.driver.execute_async_script("""
        const done = arguments[1]; try { const it = new Worker(location.origin + arguments[0]); it.onerror = () => done("refused");
        it.onmessage = () => done("ran"); setTimeout(() => done("silent"), 1000); } catch { done("refused"); }
        """, f"/objects/{number}/files/2")
    expect("a deposited worker on the page", told, "refused")


def foreign_forms_do_nothing(kept, place):
    """A form on another site, and on a neighbour of the same one, ingests nothing; without a browser's fields it would."""
    site, folder = Site(kept), place / "other"
    proxy = site.front()
    folder.mkdir()
    fields = {"Content-Disposition": "attachment; metadata=true", "Content-Type": "application/json", "In-Progress": "true"}
    site.ask("POST", "/service", b"{}", fields)
    browser = kept.enter_context(Browser(proxy.port, place / "profile")).enter()
    (folder / "index.html").write_text(FORM.format(url=browser.url, number=1), encoding="utf-8")
    with other_site(folder, proxy) as port:
        for name in ("other.example.net", "neighbour.example.org"):
            browser.driver.get(f"https://{name}:{port}/index.html")
            browser.wait("location.host.startsWith('deposit') && document.readyState === 'complete'")
            find(f"a form on {name} is refused", "403" in browser.text("body"))
            expect(f"the object after a form on {name}", site.state(1), False)
    connection = http.client.HTTPSConnection("127.0.0.1", proxy.port, context=proxy.context())
    connection.request("POST", "/objects/1", headers={**browser_fields("same-origin"), **password()})
    expect("a request of the page itself", connection.getresponse().status, 200)
    expect("the object after it", site.state(1), True)


def browser_fields(site):
    return {"Sec-Fetch-Site": site, "Sec-Fetch-Dest": "empty", "Sec-Fetch-Mode": "cors"}


def password():
    import base64  # pylint: disable=import-outside-toplevel
    from fronted import PASSWORD, USER  # pylint: disable=import-outside-toplevel
    return {"Authorization": "Basic " + base64.b64encode(f"{USER}:{PASSWORD}".encode()).decode(), "Host": NAME}


def fields_of_replies(kept, _):
    """What nginx adds to the server's replies for browsers, and for no other client; and what the page comes with."""
    site = Site(kept)
    proxy = site.front()
    connection = http.client.HTTPSConnection("127.0.0.1", proxy.port, context=proxy.context())

    def ask(method, path, fields, has_password=True):
        connection.request(method, path, headers={**fields, **(password() if has_password else {"Host": NAME})})
        reply = connection.getresponse()
        content = reply.read()
        return reply.status, reply.headers, content
    for path in ("/service", "/objects/9"):
        _, headers, _ = ask("GET", path, browser_fields("none"))
        expect(f"the policy of {path}", [headers[it] for it in ("Content-Security-Policy", "X-Content-Type-Options")], ["sandbox", "nosniff"])
        find(f"{path} asks for TLS", headers["Strict-Transport-Security"])
        _, headers, _ = ask("GET", path, {})
        expect(f"what another client is told of {path}", [it for it in headers if it.startswith(("Content-Sec", "X-", "Strict"))], [])
    for method, place, status in (("POST", "cross-site", 403), ("DELETE", "same-site", 403), ("PUT", "cross-site", 403),
                                  ("GET", "cross-site", 200), ("HEAD", "same-site", 200), ("POST", "none", 400)):
        expect(f"{method} from {place}", ask(method, "/service", browser_fields(place))[0], status)
    for path in ("/", "/page/main.js", "/page/worker.js", "/page/page.css"):
        status, headers, content = ask("GET", path, {})
        policy = headers["Content-Security-Policy"]
        expect(f"{path} comes", (status, len(content) > 100), (200, True))
        find(f"the policy of {path}", policy.startswith("default-src 'none'; ") and f"script-src https://{NAME}/page/;" in policy
             and "connect-src 'self'" in policy and "unsafe" not in policy)
        expect(f"{path} without a password", ask("GET", path, {}, has_password=False)[0], 401)
    expect("// is the server's", ask("GET", "//", {})[1]["Content-Type"], "application/json")
    _, _, content = ask("GET", "/", {})
    expect("inline scripts and styles", [it for it in (b"<style", b"style=", b"onclick", b"<script>") if it in content], [])


def words_and_digests(kept, place):
    """Each refusal of the profile has words and a help; and the page's SHA-256 is that of the browser, whatever the pieces."""
    browser = kept.enter_context(Browser(Site(kept).front().port, place / "profile")).enter()
    names = re.findall(r"(?m)^\| \d+ \| (\w+) \| \d+ \|", (ROOT / "docs/PROFILE.md").read_text(encoding="utf-8"))
    find("the refusals of the profile", bool(names))
    lacking = browser.driver.execute_async_script("""const [names, done] = arguments;
        Promise.all([import("/page/texts.js"), import("/page/server.js")]).then(([{ told }, { Refused }]) => done(names.filter((name) => {
            const { words, help } = told(new Refused(400, { "@type": name, error: "Why", log: "refusal 0" }));
            return words !== `Why (${name}, refusal 0).` || !help; })))""", names)
    expect("the refusals that have none", lacking, [])
    wrong = browser.driver.execute_async_script("""const done = arguments[0];
        import("/page/sha256.js").then(async ({ Sha256 }) => {
            const wrong = [];
            for (let length = 0; length < 400; length += 1) {
                const bytes = crypto.getRandomValues(new Uint8Array(length)), digest = new Sha256();
                for (let from = 0, step = 1; from < length; from += step, step = (step * 7 + 3) % 131) {
                    digest.update(bytes.subarray(from, Math.min(from + step, length))); }
                const wanted = [...new Uint8Array(await crypto.subtle.digest("SHA-256", bytes))].map((it) => it.toString(16).padStart(2, "0")).join("");
                if (digest.hex() !== wanted) { wrong.push(length); }
            }
            done(wrong); })""")
    expect("the lengths whose digest is wrong", wrong, [])


def contents_are_read_whole(kept, place):
    """Contents are read to their end, however often the browser collects what nothing holds."""
    browser = Browser(Site(kept).front().port, place / "profile", flags=["--js-flags=--expose-gc"])
    kept.enter_context(browser).enter()
    size = 30 << 20
    came = browser.driver.execute_async_script("""const [size, done] = arguments;
        import("/page/reading.js").then(async ({ eachPiece }) => {
            const timer = setInterval(gc, 5);
            let came = 0;
            const read = eachPiece(new Blob([new Uint8Array(size)]).stream(), (piece) => (came += piece.length));
            await Promise.race([read, new Promise((resolve) => setTimeout(resolve, 20_000))]);
            clearInterval(timer);
            done(came); })""", size)
    expect("the bytes that came", came, size)


def everybody_can_use_it(kept, place):
    """Each field and button has a name, the keyboard reaches all of them in the order of the page, texts stand out enough, and
    nothing is wider than 320 pixels."""
    site = Site(kept)
    number = deposited(site, {"a" * 200: b"abc", "b.txt": b"b"}, {"dc:title": "A title " * 20})
    port = site.front().port
    for scheme in ("light", "dark"):
        with Browser(port, place / f"profile-{scheme}", width=320, scheme=scheme) as browser:
            browser.enter()
            expect("whether it is dark", browser.run("return matchMedia('(prefers-color-scheme: dark)').matches"), scheme == "dark")
            browser.choose(*write(place / "files", {"a" * 100: b"abc", "b": b"b"}))
            look_at(browser, f"the deposit, {scheme}")
            keyboard_reaches(browser, f"the deposit, {scheme}")
            keyboard_chooses(browser, f"the deposit, {scheme}")
            browser.begin()
            browser.ends()
            look_at(browser, f"what was deposited, {scheme}")
            shown(browser, number)
            look_at(browser, f"an object, {scheme}")
            keyboard_reaches(browser, f"an object, {scheme}")
            browser.press("Edit the description", "#metadata")
            look_at(browser, f"a description that is edited, {scheme}")
            browser.press("Delete the object", "#object")
            look_at(browser, f"a deletion, {scheme}")


def look_at(browser, what):
    expect(f"{what}: what is wider than 320 pixels", browser.run("return document.documentElement.scrollWidth > innerWidth"), False)
    expect(f"{what}: what has no name", browser.run(NAMELESS), [])
    expect(f"{what}: what doesn't stand out", browser.run(CONTRAST), [])


def keyboard_chooses(browser, what):
    """Enter and the space bar ask for files and for a folder."""
    from selenium.webdriver import ActionChains, Keys  # pylint: disable=import-outside-toplevel
    browser.driver.execute_cdp_cmd("Page.setInterceptFileChooserDialog", {"enabled": True})
    browser.run("""window.asked = [];
        document.querySelectorAll('#deposit-view input[type=file]').forEach((it) => it.addEventListener('click', () => asked.push(it.labels[0].innerText)))""")
    fields = browser.finds("#deposit-view input[type=file]")
    for field in fields:
        for key in (Keys.ENTER, Keys.SPACE):
            browser.run("arguments[0].focus()", field)
            ActionChains(browser.driver).send_keys(key).perform()
    expect(f"{what}: what the keyboard asks for", browser.run("return asked"), ["Choose files"] * 2 + ["Choose a folder"] * 2)
    browser.driver.execute_cdp_cmd("Page.setInterceptFileChooserDialog", {"enabled": False})


def keyboard_reaches(browser, what):
    """Tab goes to each of them, in their order."""
    from selenium.webdriver import ActionChains, Keys  # pylint: disable=import-outside-toplevel
    browser.run("document.activeElement.blur(); window.getSelection().removeAllRanges(); document.querySelectorAll('.reached').forEach((it) =>"
                "it.classList.remove('reached')); scrollTo(0, 0)")
    wanted = browser.run("""window.all = [...document.querySelectorAll('a[href], button, input, select, textarea, summary')].filter((it) =>
        it.checkVisibility({ contentVisibilityAuto: false }) && !it.disabled); return all.length""")
    browser.run("document.body.tabIndex = -1; document.body.focus()")
    came = []
    for _ in range(wanted):
        ActionChains(browser.driver).send_keys(Keys.TAB).perform()
        came.append(browser.run("return all.indexOf(document.activeElement)"))
    expect(f"{what}: the order of Tab", came, list(range(wanted)))
