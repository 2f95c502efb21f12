// Ask: what is written, how far the desk reads it, its mistake, and the questions that are one click away.
"use strict";

// One place for what is asked and answered. `asked` is null or {mode, input, words, sheet, header, answer, walk}.
const state = { desk: null, mode: "text", input: "", asked: null, step: 0, rules: RULE_SHEET };

// ---- what is read of it

// How full a question is; what is near its limit is said before it is hit.
function gauge(label, used, limit) {
    const near = used > 0.8 * limit;
    const text = `${withCommas(used)} of ${withCommas(limit)} ${label}`;
    return el("li", { class: near ? "near" : null }, text, near ? el("strong", {}, " (nearly full)") : null);
}

function gauges(header, words) {
    return el(
        "ul",
        { class: "gauges", "aria-label": "How much of each limit the question takes" },
        gauge("words", words.length, LIMITS.question),
        gauge("names of parts", header.parts, LIMITS.each),
        gauge("blanks for a part", header.terms, LIMITS.each),
        gauge("for a run", header.runs, LIMITS.each),
        gauge("for a name", header.names, LIMITS.each),
        gauge("alternatives", header.alternatives.length, LIMITS.alternatives),
    );
}

// The counts of a question in words, which nobody has checked yet.
function roughHeader(words) {
    return { parts: words[0] % 256, terms: words[1], runs: words[2], names: words[3], alternatives: { length: words[4] } };
}

// The line with the mistake, the wrong part marked, and a button that goes there in the field that has it.
function mistakeNote(field, input, mistake) {
    const note = mistake.refusal ? refusalNote(mistake.refusal) : el("div", { class: "note refused", role: "status" });
    if (mistake.from === null || mistake.from === undefined) return note;
    const place = placeIn(input, mistake.from);
    const from = place.column - 1;
    const to = Math.max(from, Math.min(place.row.length, from + (mistake.to - mistake.from)));
    const wrong = el("mark", { "data-from": mistake.from }, place.row.slice(from, to) || "⏎");
    note.prepend(
        el("p", { class: "lead" }, mistake.refusal ? null : badge("refused", mistake.what || "no word"), " ", mistake.says),
        el("pre", { class: "echo" }, place.row.slice(0, from), wrong, place.row.slice(to)),
    );
    const there = button("Go there", () => goTo(field, mistake.from, mistake.to));
    const links = note.querySelector(".onward");
    if (links) links.prepend(there);
    else note.append(there);
    return note;
}

function goTo(id, from, to) {
    const field = byId(id);
    field.focus();
    field.setSelectionRange(from, to);
}

const isUnread = (read) => read.refusal !== 0 || read.words === null;

// showReading(): reads what stands in the field and says how far the desk gets.
function showReading() {
    const read = readInput(state.desk, state.mode, state.input);
    byId("question").setAttribute("aria-invalid", String(isUnread(read)));
    if (isUnread(read)) fill("reading", mistakeNote("question", state.input, read));
    else if (state.mode === "text") fill("reading", gauges(readHeader(read.words), read.words));
    else if (read.words.length < 6 || read.words.length > LIMITS.question) fill("reading", refusalNote(2));
    else fill("reading", gauges(roughHeader(read.words), read.words));
    return read;
}

// ---- asking

// What comes of a question that was read.
function answered(read) {
    const answer = state.desk.solve(read.words);
    const asked = { input: state.input, mode: state.mode, words: read.words, answer };
    // a question that is refused for its words has no header to be read
    if (answer.refusal === 0 || answer.refusal >= 7) {
        asked.header = readHeader(read.words);
        asked.sheet = sheetOf(namesFor(read.text, asked.header), asked.header);
    }
    if (answer.refusal === 5 || answer.refusal === 6) {
        asked.mistake = { refusal: answer.refusal, ...wordMistake(state.input, read.places, answer.place) };
    }
    return asked;
}

// ask(): reads and solves, and shows what comes of it everywhere.
function ask() {
    const read = showReading();
    state.step = 0;
    state.asked = isUnread(read) ? { input: state.input, mode: state.mode, unread: read } : answered(read);
    if (state.asked.mistake) {
        byId("question").setAttribute("aria-invalid", "true");
        fill("reading", mistakeNote("question", state.input, state.asked.mistake));
    }
    showRead();
    if (document.body.dataset.tab === "walk") showWalk();
    writeAddress();
}

// put(mode, written): another question, asked at once.
function put(mode, written) {
    const input = written.replace(/\r\n?/g, "\n");
    state.mode = mode;
    state.input = input;
    byId("question").value = input;
    for (const radio of document.querySelectorAll("input[name=mode]")) radio.checked = radio.value === mode;
    showHint();
    ask();
}

function showHint() {
    const text = state.mode === "text";
    byId("question-hint").textContent = text
        ? "Each line is one alternative, and one of them is enough. Tests on a line have commas between them."
        : "Words in decimal: the counts, the offsets, the tests. # begins a remark.";
    byId("question").rows = text ? 4 : 7;
}

// The same question the other way, by the desk: the words of a text, or the text of words where there is one.
function changeMode(mode) {
    const read = readInput(state.desk, state.mode, state.input);
    if (isUnread(read)) return put(mode, state.input);
    if (mode === "words") return put(mode, read.words.join(" "));
    const written = state.desk.writeText(read.words);
    if (written.refusal === 0) return put(mode, written.text);
    put("words", state.input);
    return fill("reading", refusalNote(written.refusal));
}

async function copyLink() {
    writeAddress();
    try {
        await navigator.clipboard.writeText(location.href);
        byId("copied").textContent = "The link is copied.";
    } catch (error) {
        byId("copied").textContent = "The address above is the link.";
    }
}

// ---- what is one click away

// The words of an example that is a file of the repository.
const exampleWords = (id) => byId(`example-${id}`).textContent.trim();

function putExample(example) {
    if (example.text !== undefined && state.desk.readsTexts) put("text", example.text);
    else put("words", exampleWords(example.id));
    showOutcome();
}

// On a small screen the outcome stands below the question.
function showOutcome() {
    const outcome = byId("outcome-short");
    if (outcome.offsetParent) outcome.scrollIntoView({ block: "nearest" });
}

function card(title, example) {
    return button(
        [
            el("strong", {}, title),
            example.text === undefined ? null : el("code", {}, example.text === "" ? "(no line at all)" : example.text),
            el("span", {}, example.says),
        ],
        () => putExample(example),
        { class: "card", "data-example": example.id || title },
    );
}

const cards = (examples) => el("div", { class: "cards" }, examples.map((one) => card(one.title || one.id, one)));

function showShelves() {
    if (state.desk.readsTexts) fill("misreadings", heading(3, "Four ways to misread a run"), cards(MISREADINGS));
    fill("cases", heading(3, "The paper's cases"), cards(PAPER_CASES));
    fill("in-any-order", heading(3, "Parts in any order"), hint("Said in words, since the text form has no such parts."), cards(IN_ANY_ORDER));
}

const HOW = [
    ["valve, a, 7b", "the name of a part: letters and digits"],
    ["?x", "a blank for one part"],
    ["*p", "a blank for a run of parts, perhaps none"],
    ["%X", "a blank for a name"],
    ["tank(valve, *p)", "a part with parts in it"],
    ["(a, b)", "several parts beside each other; () is none"],
    ["side = side", "both sides are the same"],
    ["side in shape", "the side has this shape"],
    ["test, test", "both tests, and so on"],
    ["()", "on a line by itself: nothing is asked, every report meets it"],
    ["f(R), (R, S)", "shapes: a part f with R in it; R and then S"],
    ["R + S, R*", "shapes: one or the other; any number of them, perhaps none"],
];

function showHow() {
    const rows = HOW.map(([written, means]) => row([el("code", {}, written), means]));
    const order = "A star binds tightest, then +, then the comma. A new line is another alternative.";
    fill("how-body", table("plain", ["you write", "it means"], rows), el("p", {}, order));
}

function startAsk() {
    const field = byId("question");
    let later = 0;
    const send = () => {
        clearTimeout(later);
        ask();
    };
    field.addEventListener("input", () => {
        state.input = field.value;
        clearTimeout(later);
        later = setTimeout(showReading, 250);
    });
    sendsByKey(field, send);
    byId("ask-form").addEventListener("submit", (event) => {
        event.preventDefault();
        send();
        showOutcome();
    });
    for (const radio of document.querySelectorAll("input[name=mode]")) radio.addEventListener("change", () => changeMode(radio.value));
    byId("copy-link").addEventListener("click", copyLink);
    byId("modes").hidden = !state.desk.readsTexts;
    byId("how").hidden = !state.desk.readsTexts;
    showShelves();
    showHow();
}
