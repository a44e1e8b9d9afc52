// The page: its head, its two views, and what is told of the server.

import { DepositView } from "./deposit_view.js";
import { button, faultBox, fill, make } from "./elements.js";
import { ObjectView } from "./object_view.js";
import { line, serviceOf, tryNow } from "./server.js";
import { text } from "./texts.js";

const title = make("h1", { textContent: document.title });
const abstract = make("p", { className: "soft" });
const links = { deposit: make("a", { href: "#deposit", textContent: text.deposit }), objects: make("a", { href: "#objects", textContent: text.objects }) };
const waiting = make("p", { role: "status" });
const waits = make("div", { className: "fault", hidden: true }, waiting, button(text.tryNow, tryNow));
const main = make("main", { id: "content", tabIndex: -1 }, make("p", { textContent: text.loading }));
const places = { deposit: make("section", { id: "deposit-view" }), objects: make("section", { id: "object-view" }) };

document.body.append(make("a", { className: "skip", href: "#content", textContent: text.skip, on: { click: (event) => {
    event.preventDefault();
    main.focus();
} } }), make("header", {}, title, abstract, make("nav", { "aria-label": text.views }, links.deposit, links.objects)), waits, main);

line.addEventListener("waits", ({ detail }) => {
    waiting.textContent = text.waits(detail);
    waits.hidden = false;
});
line.addEventListener("goes", () => (waits.hidden = true));

// The view that the address names: `#objects`, `#objects/N`, or the deposit's.
function route(views) {
    const [, name, number] = /^#(deposit|objects)(?:\/(\d+))?/.exec(location.hash) ?? [null, "deposit"];
    for (const [id, place] of Object.entries(places)) {
        place.hidden = id !== name;
        links[id].ariaCurrent = id === name ? "page" : null;
    }
    if (name === "objects") {
        views.objects.open(number);
    } else {
        views.deposit.open();
    }
}

async function begin() {
    try {
        const service = await serviceOf();
        title.textContent = document.title = service["dc:title"];
        abstract.textContent = service["dcterms:abstract"];
        const views = { deposit: new DepositView(places.deposit, service), objects: new ObjectView(places.objects, service) };
        fill(main, places.deposit, places.objects);
        addEventListener("hashchange", () => route(views));
        route(views);
        document.body.dataset.ready = "yes";
    } catch (fault) {
        fill(main, faultBox(fault, button(text.again, begin)));
    }
}

begin();
