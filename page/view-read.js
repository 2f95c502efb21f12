// Read: the outcome first, then each line with its example.
"use strict";

const OUTCOMES = {
    none: { kind: "none", title: "None", says: "A promise: no report can meet this." },
    settled: { kind: "settled", title: "Settled", says: "Every line can be met, and each has an example." },
    open: { kind: "open", title: "Still open", says: "It promises nothing yet: some report may meet an open line, or none at all." },
    mixed: { kind: "open", title: "Settled in part", says: "The settled lines can be met. The open ones promise nothing yet." },
};

function outcomeOf(answer) {
    if (answer.lines.length === 0) return OUTCOMES.none;
    if (answer.open === 0) return OUTCOMES.settled;
    return answer.open === answer.lines.length ? OUTCOMES.open : OUTCOMES.mixed;
}

function countsOf(answer) {
    const steps = answer.steps === null ? "" : `, ${counted(answer.steps, "step")}`;
    return `${counted(answer.lines.length, "line")}, ${counted(answer.open, "open line")}${steps}`;
}

function banner(answer) {
    const { kind, title, says } = outcomeOf(answer);
    const data = { "data-outcome": kind, "data-lines": answer.lines.length, "data-open": answer.open, "data-steps": answer.steps };
    return bannerOf(kind, data, el("p", { class: "title" }, title), el("p", {}, says), el("p", { class: "counts" }, countsOf(answer)));
}

// An alternative of the question as the desk read it.
function alternativeCode(asked, alternative, className) {
    return code(conjunctionTokens(asked.sheet, readLiterals(asked.header.alternatives[alternative])), className);
}

// The question as it was asked.
function askedPanel(asked) {
    if (!asked.sheet) return el("pre", { class: "echo" }, asked.input);
    const count = asked.header.alternatives.length;
    if (count === 0) return hint("A question with no alternative.");
    const rows = asked.header.alternatives.map((_, i) => el("li", {}, alternativeCode(asked, i)));
    return el("ol", { class: count === 1 ? "alternatives single" : "alternatives", start: 0 }, rows);
}

// ---- examples

// valuesOf(header, filling): what each variable is filled with.
function valuesOf(header, filling) {
    const values = readFilling(filling);
    const places = new Map(variablesOf(header).map((variable, i) => [variable.kind + variable.number, values[i]]));
    return (tree) => places.get(tree.kind + tree.number);
}

// Trees with values in the place of their blanks.
function filledOut(trees, valueOf) {
    const out = [];
    for (const tree of trees) {
        if (tree.kind === "part") out.push({ ...tree, children: filledOut(tree.children, valueOf) });
        else if (tree.kind === "name") out.push({ ...valueOf(tree)[0], children: filledOut(tree.children, valueOf) });
        else out.push(...valueOf(tree));
    }
    return out;
}

function blanksIn(trees) {
    return trees.reduce((sum, tree) => sum + (tree.kind === "part" ? 0 : 1) + (tree.children ? blanksIn(tree.children) : 0), 0);
}

// The side of a literal that is drawn: that with more blanks in it.
function drawnSide(literal) {
    if (literal.kind === "membership") return literal.left;
    return blanksIn(literal.right) > blanksIn(literal.left) ? literal.right : literal.left;
}

const MOST_PICTURES = 6;
const MOST_BOXES = 200;

// The tests of a line's alternative with the example put in, each as a tree; what is the same is drawn once.
function pictures(asked, alternative, valueOf) {
    const seen = new Set();
    const drawn = [];
    for (const literal of readLiterals(asked.header.alternatives[alternative])) {
        const side = drawnSide(literal);
        const trees = filledTrees(asked.sheet, side, valueOf);
        const key = JSON.stringify(trees);
        if (seen.has(key) || trees.length === 0 || layout(trees).boxes.length > MOST_BOXES) continue;
        seen.add(key);
        const words = plain(sideTokens(asked.sheet, filledOut(side, valueOf)));
        drawn.push(figure(trees, words, `${plain(sideTokens(asked.sheet, side))} filled in`));
    }
    return drawn.slice(0, MOST_PICTURES);
}

const variableToken = (asked, variable) => nameToken(asked.sheet, variable.kind, variable.number);

const valueTokens = (asked, trees) => (trees.length === 0 ? [sign("nothing")] : listTokens(asked.sheet, trees));

// The values of the blanks that stand in an alternative; the others may be anything there.
function valueTable(asked, alternative, valueOf) {
    const words = new Set(asked.header.alternatives[alternative]);
    const stands = (variable) => words.has(WORD[variable.kind] + variable.number);
    const variables = variablesOf(asked.header);
    const rows = variables.filter(stands).map((variable) => {
        const name = el("th", { scope: "row" }, code([variableToken(asked, variable)]));
        return row([name, code(valueTokens(asked, valueOf(variable)))]);
    });
    const others = variables.filter((variable) => !stands(variable)).map((variable) => [variableToken(asked, variable)]);
    return [
        rows.length === 0 ? null : table("values", null, rows),
        others.length === 0 ? null : hint(code(joined(others, ", ")), " may be anything: not in this alternative."),
    ];
}

function exampleOf(asked, index) {
    const shown = state.desk.example(asked.words, index, false);
    if (shown.refusal !== 0) return refusalNote(shown.refusal);
    const { alternative } = asked.answer.lines[index];
    const valueOf = valuesOf(asked.header, shown.words);
    const blanks = variablesOf(asked.header).length > 0;
    const drawn = pictures(asked, alternative, valueOf);
    const title = blanks ? "An example" : "What it asks for, drawn";
    const take = () => fillTrial(asked, valueOf);
    return el(
        "div",
        { class: "example", "data-filling": shown.words.join(" ") },
        blanks || drawn.length > 0 ? heading(4, title) : null,
        valueTable(asked, alternative, valueOf),
        drawn,
        blanks && state.desk.readsTexts ? button("Take it as a filling of your own", take, { class: "quiet" }) : null,
    );
}

// ---- lines

const NOT_SAID =
    "No rule applies any more, and it is not settled: whether any report meets this line is not said. A filling of your own may show that one does.";

// The tests of a line.
function lineTests(asked, line) {
    const literals = readLiterals(line.words);
    if (literals.length === 0) return el("p", {}, "Nothing is asked: every report meets this line.");
    return el("ul", { class: "tests" }, literals.map((literal) => el("li", {}, code(literalTokens(asked.sheet, literal)))));
}

function lineCard(asked, line, index) {
    const kind = line.settled ? "settled" : "open";
    const whose = asked.header.alternatives.length > 1 ? alternativeCode(asked, line.alternative, "whose") : null;
    return el(
        "article",
        { class: `card-line ${kind}`, "data-line": index, "data-mark": line.settled ? 1 : 2, "data-alternative": line.alternative },
        el("header", {}, badge(kind), heading(3, `Line ${index}`), aside(`of alternative ${line.alternative}`), whose),
        lineTests(asked, line),
        line.settled ? exampleOf(asked, index) : hint(NOT_SAID),
    );
}

// A long answer shows its first lines at once and the rest on request.
const LINES_AT_ONCE = 24;

function showLines(asked) {
    const { lines } = asked.answer;
    const rest = lines.length - LINES_AT_ONCE;
    const more = button(`Show the other ${counted(rest, "line")}`, () => more.replaceWith(...cardsFrom(LINES_AT_ONCE, lines.length)));
    const cardsFrom = (from, to) => lines.slice(from, to).map((line, i) => lineCard(asked, line, from + i));
    fill("lines", cardsFrom(0, LINES_AT_ONCE), rest > 0 ? more : null);
}

// ---- all of it

function showAnswer(asked) {
    const some = asked.answer.lines.length > 0;
    const walk = (word) => (state.desk.walks ? linkTo("walk", word) : null);
    const from0 = some ? aside("Lines and alternatives are counted from 0, as at the prompt.") : null;
    const short = el("p", { class: "onward" }, linkTo("read", "Read the lines"), walk("Walk through the steps"));
    const long = el("p", { class: "onward" }, walk(some ? "Walk through the steps" : "Walk through the steps to see why"), from0);
    fill("outcome-short", banner(asked.answer), short);
    fill("outcome", banner(asked.answer), long);
    showLines(asked);
    showTrial(asked);
}

function showRefusal(asked) {
    // where the mistake has a place it is said beside the question already
    fill("outcome-short", asked.mistake ? null : refusalNote(asked.answer.refusal));
    fill("outcome", refusalNote(asked.answer.refusal), asked.mistake ? el("p", {}, asked.mistake.says) : null);
}

function showRead() {
    const { asked } = state;
    for (const id of ["outcome-short", "read-question", "outcome", "lines", "trial"]) fill(id);
    if (!asked) return fill("outcome", hint("Ask something first."));
    if (asked.unread) return fill("outcome", hint("This cannot be read yet: Ask says where."));
    fill("read-question", askedPanel(asked));
    return asked.answer.refusal === 0 ? showAnswer(asked) : showRefusal(asked);
}
