// Elements of the page, and what many of them show.

import { shownPieces } from "./names.js";
import { told } from "./texts.js";

// An element with these properties; `on` has its listeners, a name with a dash or `role` is an attribute.
export function make(tag, properties = {}, ...children) {
    const element = document.createElement(tag);
    for (const [name, value] of Object.entries(properties)) {
        if (name === "on") {
            Object.entries(value).forEach(([event, listener]) => element.addEventListener(event, listener));
        } else if (name.includes("-") || name === "role" || name === "for") {
            element.setAttribute(name, value);
        } else {
            element[name] = value;
        }
    }
    element.append(...children.filter((child) => child !== null && child !== undefined));
    return element;
}

export const button = (label, onClick, properties = {}) =>
    make("button", { type: "button", textContent: label, on: { click: onClick }, ...properties });

// A name as it is: its direction is its own, and what isn't seen stands as its number.
export function shown(name) {
    const pieces = shownPieces(name).map(({ text, isSign }) => (isSign ? make("span", { className: "sign", textContent: text }) : text));
    return make("bdi", {}, ...pieces);
}

// The same for a text of several lines.
export const shownLines = (text) => make("span", { className: "lines" },
    ...text.split("\n").flatMap((line, at) => (at === 0 ? [shown(line)] : [make("br"), shown(line)])));

let last = 0;

// A labelled field.
export function labelled(label, field, properties = {}) {
    last += 1;
    field.id ||= `field-${last}`;
    return make("div", { className: "field", ...properties }, make("label", { for: field.id, textContent: label }), field);
}

// What a fault says, and what the person can do.
export function faultBox(fault, ...actions) {
    const { words, help } = told(fault);
    return make("div", { className: "fault", role: "alert" }, make("p", { className: "words", textContent: words }),
        make("p", { textContent: help }), ...actions);
}

export const moment = (value) => new Date(value).toLocaleString("en-GB", { dateStyle: "medium", timeStyle: "short" });

// Shows this alone in a place.
export function fill(place, ...children) {
    place.replaceChildren(...children.filter((child) => child !== null && child !== undefined));
}
