// Numbers: the limits, said before they are hit, and every number with what it means and what to do about it.
"use strict";

function startNumbers() {
    const count = (text) => el("td", { class: "count" }, text);
    const limits = LIMIT_ROWS.map(([what, limit, numbers]) => row([what, count(withCommas(limit)), count(numbers)]));
    const numbers = NUMBERS.map((entry) =>
        row([el("th", { scope: "row" }, entry.number), entry.about, entry.means, entry.remedy], { id: `number-${entry.number}` }),
    );
    fill(
        "numbers-body",
        el("p", {}, "Where the desk does not answer it gives a number, and never a guess. A number says why; it promises nothing about reports."),
        heading(3, "The limits"),
        table("plain", ["at most", "limit", "past it"], limits),
        heading(3, "The numbers"),
        scrolling("The numbers", table("plain numbers", ["no.", "about", "it means", "what to do"], numbers)),
    );
}
