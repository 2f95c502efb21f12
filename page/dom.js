// Small functions to build the page's elements. Text is always set as text and never read as markup.
"use strict";

// el(tag, attributes, children..): an element; on* attributes are listeners, null children are left out.
function el(tag, attributes, ...children) {
    const node = document.createElement(tag);
    for (const [name, value] of Object.entries(attributes || {})) {
        if (name.startsWith("on")) node.addEventListener(name.slice(2), value);
        else if (value === true) node.setAttribute(name, "");
        else if (value !== false && value !== null && value !== undefined) node.setAttribute(name, value);
    }
    node.append(...present(children));
    return node;
}

const present = (children) => children.flat(Infinity).filter((child) => child !== null && child !== undefined);

const byId = (id) => document.getElementById(id);

function fill(id, ...children) {
    byId(id).replaceChildren(...present(children));
}

// ---- what stands often

const hint = (...children) => el("p", { class: "hint" }, children);
const aside = (...children) => el("span", { class: "hint" }, children);
const heading = (level, ...children) => el(`h${level}`, {}, children);

// A button, and a link to a part of the page.
const button = (word, onclick, attributes) => el("button", { type: "button", onclick, ...attributes }, word);
const linkTo = (part, word) => el("a", { href: `#${part}`, "data-go": part }, word);

// A form that is handled here.
function form(id, onsent, ...children) {
    const sent = (event) => {
        event.preventDefault();
        onsent();
    };
    return el("form", { id, onsubmit: sent }, children);
}

// A row of a table, from cells or what is in them; a table with a head; a frame that scrolls where it is too wide.
const cellOf = (cell) => (cell instanceof HTMLTableCellElement ? cell : el("td", {}, cell));
const row = (cells, attributes) => el("tr", attributes, cells.map(cellOf));
const head = (words) => el("thead", {}, el("tr", {}, words.map((word) => el("th", { scope: "col" }, word))));
const table = (kind, words, rows) => el("table", { class: kind }, words ? head(words) : null, el("tbody", {}, rows));
const scrolling = (label, child) => el("div", { class: "picture", tabindex: "0", role: "group", "aria-label": label }, child);

// A field for a text of the desk, which no browser should correct.
const UNCORRECTED = { spellcheck: "false", autocomplete: "off", autocapitalize: "off" };

// Ctrl and Enter send what stands in a field.
function sendsByKey(field, send) {
    field.addEventListener("keydown", (event) => {
        if (event.key !== "Enter" || !(event.ctrlKey || event.metaKey)) return;
        event.preventDefault();
        send();
    });
}

// ---- what the desk says

// A token, its sort marked where it is a blank or a part.
function tokenNode(token) {
    if (token.kind === "sign") return token.text;
    return el("span", { class: token.kind === "part" ? "part" : `blank blank-${token.kind}` }, token.text);
}

const code = (tokens, className) => el("code", { class: className || "line" }, tokens.map(tokenNode));

// 1 line, 2 lines
const counted = (n, word) => `${withCommas(n)} ${word}${n === 1 ? "" : "s"}`;

// A badge says in a sign and in a word what colour says too.
const BADGES = {
    settled: { sign: "✓", word: "settled" },
    open: { sign: "?", word: "open" },
    none: { sign: "✕", word: "none" },
    refused: { sign: "!", word: "refused" },
};

const badgeSign = (kind, className) => el("span", { class: className, "aria-hidden": "true" }, BADGES[kind].sign);
const badge = (kind, word) => el("span", { class: `badge ${kind}` }, badgeSign(kind, "sign"), word || BADGES[kind].word);

// A banner has the sign large, and whatever is said beside it.
function bannerOf(kind, attributes, ...children) {
    return el("div", { class: `banner ${kind}`, ...attributes }, badgeSign(kind, "sign big"), el("div", {}, children));
}

// A refusal: its number, what it means, what to do.
function refusalNote(number) {
    const entry = numberEntry(number);
    const word = number === BROKE_OFF ? "broken off" : `number ${number}`;
    return el(
        "div",
        { class: "note refused", role: "status", "data-number": number },
        el("p", { class: "lead" }, badge("refused", word), " ", entry.means),
        el("p", {}, entry.remedy),
        el("p", { class: "onward" }, linkTo("numbers", "All numbers")),
    );
}
