// The page in a real browser: clicked through as a person would, and what it shows compared with what the desk says, by its calls (asking.js) and
// at its prompt (tests/said/desk).
//
//     node clicks.js CHROMIUM PAGE FOLDER PICTURES    FOLDER has the WebAssembly libraries; in PICTURES a picture of each view is left
"use strict";
const fs = require("fs");
const path = require("path");
const { deskIn } = require("./asking.js");
const { open } = require("./chromium.js");
const { read, tally } = require("./load.js");

const [program, file, folder, pictures] = process.argv.slice(2);
const { same, end } = tally();
const desk = deskIn(folder);
const texts = desk.has("desk_read_text");
const walks = desk.has("desk_solve_trail") && desk.has("desk_step");

const picture = (name) => path.join(pictures, name);
const address = (tab, name, value) => `${file}#${tab}?${name}=${encodeURIComponent(value)}`;
const exampleFile = (name) => read("examples", `${name}.txt`).replace(/#.*/g, "").trim().split(/\s+/).map(Number);

// What the desk says at its prompt: lines, open lines and steps.
function said(name) {
    const counts = /lines (\d+), open lines (\d+), steps (\d+)/.exec(read("tests/said/desk", `${name}.txt`));
    const [lines, openLines, steps] = counts.slice(1).map(Number);
    return { lines, open: openLines, steps: walks ? steps : null };
}

// ---- what the page shows

const titleOf = ({ lines, open: openLines }) => (lines === 0 ? "None" : openLines === 0 ? "Settled" : "Still open");

// The outcome: its title, and its counts.
async function outcome(page) {
    const data = await page.dataOf("#outcome .banner");
    const number = (text) => (text === undefined ? null : Number(text));
    return [await page.textOf("#outcome .title"), { lines: number(data.lines), open: number(data.open), steps: number(data.steps) }];
}

// The lines with their marks, alternatives and examples, as desk.linesOf has them.
const lines = (page) =>
    page.run(`[...document.querySelectorAll("#lines .card-line")].map((card) => ({
        mark: Number(card.dataset.mark),
        alternative: Number(card.dataset.alternative),
        filling: card.querySelector(".example")?.dataset.filling ?? null,
    }))`);

// What each line says.
const tests = (page) =>
    page.run(`[...document.querySelectorAll("#lines .card-line")].map((card) =>
        [...card.querySelectorAll(":scope > .tests code")].map((code) => code.textContent))`);

// ---- P1 to P12, and what else is one click away

const TESTS = {
    P1: [],
    P2: [[]],
    P3: [],
    P4: [["*p = ()", "*q = (a, b)"], ["*p = a", "*q = b"], ["*p = (a, b)", "*q = ()"]],
    P5: [["*p = a"]],
    P6: [["(*p, a) = (a, *p)"]],
    P7: [],
    P8: [["%X = g", "a = *p"]],
    P9: [["*p = (f(a, a), b)"]],
    P10: [["?x in a"]],
    P11: [["*p in f", "*q = ()"], ["*p = ()", "*q in f"]],
    P12: [],
};

async function paperCases(page) {
    for (const id of Object.keys(TESTS)) {
        await page.click("nav a[data-tab=ask]");
        await page.click(`[data-example=${id}]`);
        const told = said(id);
        same(`${id}: the outcome`, await outcome(page), [titleOf(told), told]);
        same(`${id}: the outcome under the question`, await page.textOf("#outcome-short .title"), titleOf(told));
        const words = texts ? desk.wordsOfText(await page.valueOf("#question")) : exampleFile(id);
        same(`${id}: its lines and their examples`, await lines(page), desk.linesOf(words));
        if (texts) same(`${id}: what the lines say`, await tests(page), TESTS[id]);
        if (id === "P4" || id === "P9") same(`${id}: each example is drawn`, (await page.count("#lines svg.tree")) >= told.lines, true);
        await page.click("nav a[data-tab=read]");
        await page.picture(picture(`${id}.png`));
    }
}

async function misreadings(page) {
    await page.click("nav a[data-tab=ask]");
    same("four misreadings", await page.count("#misreadings .card"), 4);
    const told = [];
    for (let i = 1; i <= 4; i += 1) {
        await page.click(`#misreadings .card:nth-child(${i})`);
        const [title, counts] = await outcome(page);
        told.push([title, counts.lines]);
    }
    same("what they come to", told, [["Settled", 1], ["Settled", 3], ["Settled", 1], ["Still open", 1]]);
}

async function shuffled(page) {
    await page.click("nav a[data-tab=ask]");
    for (const id of ["shuffled", "shuffled-shape"]) {
        await page.click(`[data-example=${id}]`);
        same(`${id}: the outcome`, await outcome(page), [titleOf(said(id)), said(id)]);
        same(`${id}: its lines and their examples`, await lines(page), desk.linesOf(exampleFile(id)));
    }
}

// ---- walks

// A "none" walked to its end, step by step, by the keyboard: the trail that the desk gives.
async function walkNone(page) {
    const text = "(*p, b) = (a, a), *p in a*";
    const trail = desk.trailOf(desk.wordsOfText(text));
    await page.go(address("walk", "text", text));
    same("the walk begins before the first step", await page.textOf("#step-count"), `0 of ${trail.length}`);
    same("a walk of some steps", trail.length > 2, true);
    for (let i = 0; i < trail.length; i += 1) {
        await page.press("ArrowRight");
        const { step, rule, literal, swapped, results } = await page.dataOf("#step-card .step");
        same(`step ${i + 1} of the walk`, [step, rule, literal, swapped].map(Number), [i, ...trail[i]]);
        if (results === "0") {
            same(`step ${i + 1} says that its case ends`, (await page.textOf("#step-card .end")).endsWith("no report can meet this case."), true);
            same(`step ${i + 1} says why`, (await page.textOf("#step-card .says")).length > 20, true);
        }
    }
    same("the walk ends in none", await page.textOf("#step-end .title"), "None");
    same("nothing waits in the tree", await page.count("#step-tree .later"), 0);
    same("no step is left", await page.of("#step-next", "node.disabled"), true);
    same("the address has the step", await page.run("location.hash.split('&')[1]"), `step=${trail.length}`);
    await page.picture(picture("walk-none.png"));
    await page.press("ArrowLeft");
    same("one step back", await page.textOf("#step-count"), `${trail.length - 1} of ${trail.length}`);
}

// A long walk: thousands of steps, of which any can be gone to.
async function longWalk(page) {
    const text = `(*p, *q, *r, b) = (${Array(18).fill("a").join(", ")})`;
    await page.go(address("walk", "text", text));
    await page.click("#step-last");
    const last = desk.trailOf(desk.wordsOfText(text)).length - 1;
    same("the last of thousands of steps", (await page.dataOf("#step-card .step")).step, String(last));
    same("and what it comes to", await page.textOf("#step-end .title"), "None");
}

// ---- mistakes

// In words: the place that the desk says is marked.
async function mistakeInWords(page) {
    const input = "4 0 2 0 1 7 15 5000 2000 2001 3000 0 3001 0 0";
    const words = input.split(" ").map(Number);
    await page.go(address("ask", "words", input));
    same("a mistake: its number", (await page.dataOf("#reading .note")).number, String(desk.refusalOf(words)));
    const { from } = await page.dataOf("#reading mark");
    same("a mistake: its place", input.slice(0, Number(from)).trim().split(" ").length, desk.placeOf(words));
    same("a mistake is said to those who do not see it", await page.of("#question", "node.getAttribute('aria-invalid')"), "true");
    await page.picture(picture("mistake-words.png"));
}

// In a text that is typed, and mended, by the keyboard.
async function mistakeInText(page) {
    const text = "tank(*p, valve) = tank(valve)\ntank(*p, valve)) = a";
    const place = desk.has("desk_text_place") ? desk.textPlaceOf(text) : text.indexOf("))") + 1;
    await page.go(address("ask", "text", "a"));
    await page.write("#question", text);
    await page.press("Enter", true);
    same("a text with a mistake: 17", (await page.dataOf("#reading .note")).number, "17");
    same("a text with a mistake: its place", (await page.dataOf("#reading mark")).from, String(place));
    await page.click("#reading .note button");
    same("the cursor goes there", await page.of("#question", "node.selectionStart"), place);
    await page.picture(picture("mistake-text.png"));
    await page.write("#question", "(*p, *q) = (a, b)");
    await page.press("Enter", true);
    same("mended by the keyboard", (await outcome(page))[0], "Settled");
}

// What was written is asked before it is read.
async function unasked(page) {
    await page.go(address("ask", "text", "a = a"));
    await page.write("#question", "a = b");
    await page.click("nav a[data-tab=read]");
    same("what was written is what is read", [await page.textOf("#read-question"), await page.textOf("#outcome .title")], ["a = b", "None"]);
}

// The deepest shape that a question has room for: the browser may end the call, and the page goes on either way.
async function deepest(page) {
    const stars = 4085;
    const words = [1, 0, 1, 0, 1, 7, 11 + stars, 6000, 2000, 0, ...Array(stars).fill(7003), 7000].join(" ");
    await page.go(address("read", "words", words));
    const shown = (await page.textOf("#outcome .title")) ?? (await page.dataOf("#outcome .note")).number;
    same("a shape nested thousands deep is answered or broken off", shown === "Settled" || shown === "99", true);
    await page.click("nav a[data-tab=ask]");
    await page.click("[data-example=P4]");
    same("and the next question is answered", (await outcome(page))[0], "Settled");
}

// ---- fillings and rules

async function fillings(page) {
    await page.go(address("read", "text", "(*p, *q) = (a, b)"));
    const attempt = async (p, q) => {
        await page.write("#value-0", p);
        await page.write("#value-1", q);
        await page.click("#trial-form button[type=submit]");
        return (await page.dataOf("#verdict [data-verdict]"))?.verdict ?? (await page.dataOf("#verdict .note")).number;
    };
    same("a filling that meets it", await attempt("a", "b"), "yes");
    same("a filling in brackets", await attempt("()", "(a, b)"), "yes");
    same("a filling that does not", await attempt("b", "a"), "no");
    same("a name of no part", await attempt("c", "a"), "12");
    same("no text", await attempt("a(", " "), "17");
    await page.click("#lines .card-line:nth-of-type(3) .example button");
    same("an example taken over", [await page.valueOf("#value-0"), await page.valueOf("#value-1")], ["a, b", ""]);
    await page.click("#trial-form button[type=submit]");
    same("it meets the question", await page.textOf("#verdict .title"), "Yes, it meets the question.");
    await page.picture(picture("filling.png"));
}

// The pairs that the desk names at its prompt for the same sheet.
async function liveRules(page) {
    await page.click("nav a[data-tab=rules]");
    const told = read("tests/said/desk/overlap.txt");
    const pairs = [...told.matchAll(/^ {2}(\d+) \w+, (\d+) \w+: (can meet|not settled)/gm)].map((found) => [`${found[1]} ${found[2]}`, found[3]]);
    const shown = await page.run(`[...document.querySelectorAll("#pairs .card-line")].map((card) =>
        [card.dataset.pair, card.querySelector(".badge").lastChild.textContent])`);
    same("the pairs that can meet, those with different actions first", shown, pairs);
    same("the pairs that cannot", await page.count("#pairs td[data-told='100']"), Number(/(\d+) pairs? cannot meet/.exec(told)[1]));
    same("a report for each pair that can meet", await page.count("#pairs .settled svg.tree"), await page.count("#pairs .card-line.settled"));
    if (texts) same("the report of the first pair", await page.textOf("#pairs .card-line figcaption"), "Both match report(alarm, any)");
    await page.picture(picture("rules.png"));
}

// ---- links, the keyboard alone, a phone, paper

async function links(page) {
    await page.go(address("read", "text", "?x = f(?x)"));
    same("a link carries its question", await page.valueOf("#question"), "?x = f(?x)");
    same("and is answered", (await outcome(page))[0], "None");
    await page.of("nav a", "node.focus()");
    await page.press("Tab");
    await page.press("Tab");
    await page.press("Enter");
    same("by the keyboard to the third part", await page.run("document.body.dataset.tab"), walks ? "walk" : "rules");
}

async function phone(page) {
    await page.resize({ width: 390, height: 800, phone: true });
    for (const tab of ["ask", "read", "walk", "rules", "numbers"]) {
        if (tab === "walk" && !walks) continue;
        await page.click(`nav a[data-tab=${tab}]`);
        same(`on a phone, ${tab} is no wider than the screen`, await page.run("document.documentElement.scrollWidth <= 390"), true);
        await page.picture(picture(`phone-${tab}.png`));
    }
}

async function paper(page) {
    await page.resize({ width: 1440, height: 900 });
    await page.go(texts ? address("read", "text", "(*p, *q) = (a, b)") : file);
    await page.picture(picture("wide.png"));
    await page.paper(picture("read.pdf"));
    if (!walks) return;
    await page.click("nav a[data-tab=walk]");
    await page.paper(picture("walk.pdf"));
}

// Tables are made of cells, whatever stands in them.
async function cells(page) {
    same("only cells stand in the rows of tables", await page.count("tr > :not(td):not(th)"), 0);
}

async function numbers(page) {
    await page.click("nav a[data-tab=numbers]");
    same("every number has its row", await page.count("#numbers-body tr[id]"), 30);
    await page.picture(picture("numbers.png"));
}

async function all(page) {
    await page.go(file);
    await paperCases(page);
    await shuffled(page);
    await mistakeInWords(page);
    await liveRules(page);
    await deepest(page);
    await numbers(page);
    if (texts) for (const part of [misreadings, mistakeInText, unasked, fillings, links]) await part(page);
    if (texts && walks) for (const part of [walkNone, longWalk]) await part(page);
    await phone(page);
    await paper(page);
    await cells(page);
}

async function main() {
    fs.mkdirSync(pictures, { recursive: true });
    const page = await open(program, { width: 1000, height: 900 });
    try {
        await all(page);
    } catch (error) {
        same("the test in the browser", String(error), "its end");
    }
    same("no error, and nothing leaves the page", page.noise, []);
    await page.close();
    end();
}

main();
