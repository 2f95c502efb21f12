// Walk: the steps of the desk, one at a time, and the tree that they make.
"use strict";

// The tree is drawn up to so many conjunctions; the steps can all be walked.
const MOST_NODES = 600;

// ---- what is said of a step

// The sentence of a step, with the names of the sheet.
function saying(asked, node) {
    const about = lookedAt(node, readLiterals(node.words));
    const token = about ? nameToken(asked.sheet, about.kind, about.number) : sign("it");
    const [before, behind] = sentenceOf(node.step.rule, node.children.length).split("{v}");
    const first = before.charAt(0).toUpperCase() + before.slice(1);
    return behind === undefined ? [`${first}.`] : [first, code([token]), `${behind}.`];
}

// What a conjunction has become: a line, nothing, or it still waits.
function fate(asked, node) {
    if (node.line !== null) {
        const kind = asked.answer.lines[node.line].settled ? "settled" : "open";
        return badge(kind, `line ${node.line}, ${kind}`);
    }
    return node.step && node.children.length === 0 ? badge("none", "ends in nothing") : null;
}

// ---- the card of a step

// The literals of a conjunction; what is said of some stands beside them: remarks are {place: {kind, word}}.
function conjunctionList(asked, words, remarks) {
    const literals = readLiterals(words);
    if (literals.length === 0) return hint("Nothing is left to ask: every report meets this.");
    const rows = literals.map((literal, i) => {
        const remark = remarks[i];
        const word = remark ? el("span", { class: "aside" }, remark.word) : null;
        return el("li", { class: remark ? remark.kind : null }, code(literalTokens(asked.sheet, literal)), word);
    });
    return el("ul", { class: "tests" }, rows);
}

// The literals that a step is about, and what is said of them.
function remarksBefore(asked, node) {
    const { rule, swapped } = node.step;
    const { taken, named } = concerned(state.desk, asked.words, node, readLiterals(node.words));
    const takenWord = rule === RULE_FOLD ? "removed" : swapped ? "looked at, sides swapped" : "looked at";
    const namedWord = rule === RULE_FOLD ? "stands here already" : "clashes with it";
    const remarks = {};
    for (const i of named) remarks[i] = { kind: "named", word: namedWord };
    for (const i of taken) remarks[i] = { kind: "taken", word: takenWord };
    return remarks;
}

function remarksAfter(node, child) {
    const changes = changesIn(node, readLiterals(node.words), readLiterals(child.words));
    const remark = (word) => ({ kind: word === "filled in" ? "named" : "taken", word });
    return Object.fromEntries(Object.entries(changes).map(([i, word]) => [i, remark(word)]));
}

function resultOf(asked, node, child, i) {
    const count = node.children.length;
    return el(
        "div",
        { class: "result" },
        count > 1 ? el("p", { class: "branch" }, `Case ${i + 1} of ${count}`) : null,
        conjunctionList(asked, child.words, remarksAfter(node, child)),
        child.line === null ? null : el("p", {}, "No rule applies any more: ", fate(asked, child)),
    );
}

// The results of a step, each a case. A case that ends in nothing says so, and the sentence of its step why.
function resultsOf(asked, node) {
    if (node.children.length > 0) return node.children.map((child, i) => resultOf(asked, node, child, i));
    return el("div", { class: "note none end" }, el("p", { class: "lead" }, fate(asked, node), " So no report can meet this case."));
}

function stepCard(asked, node) {
    const { step } = node;
    const rule = RULES[step.rule];
    const data = {
        "data-step": step.index,
        "data-rule": step.rule,
        "data-literal": step.literal,
        "data-swapped": step.swapped ? 1 : 0,
        "data-results": node.children.length,
    };
    const before = conjunctionList(asked, node.words, remarksBefore(asked, node));
    return el(
        "article",
        { class: "step", ...data },
        heading(3, el("span", { class: "count" }, `Step ${step.index + 1}`), " ", el("span", { class: "rule" }, rule.code), " ", rule.name),
        el("p", { class: "says" }, saying(asked, node)),
        el(
            "div",
            { class: "sides" },
            el("div", { class: "before" }, heading(4, "Before"), before),
            el("div", { class: "after" }, heading(4, "After"), resultsOf(asked, node)),
        ),
    );
}

function startCard(asked) {
    const { roots, steps } = asked.walk;
    const waits = roots.length === 1 ? "waits" : "wait, and are taken in order";
    const begin = roots.length === 0 ? "No alternative is given, so nothing waits: none." : `${counted(roots.length, "alternative")} ${waits}.`;
    const rest = steps.length === 0 && roots.length > 0 ? " No rule applies, so no step is made." : "";
    const waiting = roots.map((root) =>
        el("div", { class: "result" }, conjunctionList(asked, root.words, {}), root.line === null ? null : el("p", {}, fate(asked, root))),
    );
    return el("article", { class: "step start" }, heading(3, "The start"), el("p", { class: "says" }, begin + rest), waiting);
}

// ---- the tree

// The steps from a conjunction on: a result that is alone follows in the same row, and cases stand below.
function pathItems(asked, node, shown, left) {
    const items = [];
    for (let at = node; at; at = at.children.length === 1 ? at.children[0] : null) {
        if (left.nodes === 0) return items;
        left.nodes -= 1;
        items.push(nodeItem(asked, at, shown));
        if (at.children.length > 1) {
            const cases = at.children.map((child) => el("ol", { class: "path" }, pathItems(asked, child, shown, left)));
            items.push(el("li", { class: at.step.index < shown ? "branches" : "branches later" }, cases));
        }
    }
    return items;
}

// The button of a step in the tree: it goes there.
function stepButton(step, made, current) {
    const rule = RULES[step.rule];
    return button(`${step.index + 1} ${rule.code}`, () => goToStep(step.index + 1), {
        class: made ? "rule" : "rule not-yet",
        "aria-label": `Step ${step.index + 1}: ${rule.code}, ${rule.name}`,
        "aria-current": current ? "step" : null,
    });
}

function nodeItem(asked, node, shown) {
    const { step } = node;
    const made = step !== null && step.index < shown;
    const current = step !== null && step.index === shown - 1;
    const classes = [node.made > shown ? "later" : "", current ? "current" : ""].filter(Boolean).join(" ");
    return el(
        "li",
        { class: classes || null },
        code(conjunctionTokens(asked.sheet, readLiterals(node.words))),
        " ",
        step ? stepButton(step, made, current) : null,
        node.line !== null || made ? fate(asked, node) : null,
        made && node.children.length === 0 ? el("span", { class: "aside" }, saying(asked, node)) : null,
    );
}

function treeOf(asked, shown) {
    const left = { nodes: MOST_NODES };
    const many = asked.walk.roots.length > 1;
    const paths = asked.walk.roots.map((root, i) => [
        many ? el("p", { class: "branch" }, `Alternative ${i}`) : null,
        el("ol", { class: "path" }, pathItems(asked, root, shown, left)),
    ]);
    const more = left.nodes === 0 ? hint(`Only the first ${MOST_NODES} are drawn.`) : null;
    return el("div", { class: "steps-tree" }, heading(3, "The tree of steps"), paths, more);
}

// ---- from step to step

function goToStep(step) {
    state.step = Math.max(0, Math.min(state.asked.walk.steps.length, step));
    showStep();
}

function stepper(last) {
    const go = (id, word, label, to) => button(word, () => goToStep(to()), { id, "aria-label": label });
    const slide = (event) => goToStep(Number(event.target.value));
    return el(
        "div",
        { class: "stepper", role: "group", "aria-label": "Steps" },
        go("step-first", "|◂", "To the start", () => 0),
        go("step-back", "◂ Back", "One step back", () => state.step - 1),
        go("step-next", "Next ▸", "One step on", () => state.step + 1),
        go("step-last", "▸|", "To the last step", () => last),
        el("input", { type: "range", id: "step-range", min: 0, max: last, value: 0, "aria-label": "Step", oninput: slide }),
        el("output", { id: "step-count", for: "step-range" }),
        el("span", { class: "hint keys" }, "The arrow keys walk too."),
    );
}

function showStep() {
    const { asked, step } = state;
    const { steps, refusal } = asked.walk;
    const last = steps.length;
    byId("step-count").textContent = `${step} of ${withCommas(last)}`;
    byId("step-range").value = step;
    for (const id of ["step-first", "step-back"]) byId(id).disabled = step === 0;
    for (const id of ["step-next", "step-last"]) byId(id).disabled = step === last;
    fill("step-card", step === 0 ? startCard(asked) : stepCard(asked, steps[step - 1]));
    const ended = last === 0 || refusal !== 0 ? "The answer:" : "That was the last step. The answer:";
    fill("step-end", step === last ? [hint(ended), banner(asked.answer)] : null);
    fill("step-tree", treeOf(asked, step));
    writeAddress();
}

// Why there is nothing to walk, or null.
function noWalk(asked) {
    if (!asked) return hint("Ask something first.");
    if (asked.unread) return hint("This cannot be read yet: Ask says where.");
    if (asked.answer.refusal !== 0) return [refusalNote(asked.answer.refusal), hint("A question that is refused has no steps to walk.")];
    return state.desk.walks ? null : hint("This desk does not say its steps.");
}

function showWalk() {
    const { asked } = state;
    fill("walk-question", asked && asked.sheet ? askedPanel(asked) : null);
    const none = noWalk(asked);
    if (none) return fill("walk-body", none);
    // thousands of steps take a moment, so they are made when they are wanted
    asked.walk = asked.walk || walkOf(state.desk, asked.words, asked.answer);
    const { steps, refusal } = asked.walk;
    const short = `From step ${steps.length + 1} on the walk is too long to be shown (number ${refusal}).`;
    const part = (id, attributes) => el("div", { id, ...attributes });
    fill(
        "walk-body",
        refusal === 0 ? null : el("p", { class: "note open" }, short),
        stepper(steps.length),
        part("step-card", { "aria-live": "polite" }),
        part("step-end"),
        part("step-tree"),
        part("step-print"),
    );
    return showStep();
}

// Arrow keys walk, where they are not needed for writing.
function walkByKey(event) {
    const writing = /^(INPUT|TEXTAREA|SELECT)$/.test(event.target.tagName);
    if (document.body.dataset.tab !== "walk" || writing || event.altKey || event.ctrlKey || event.metaKey) return;
    if (!state.asked || !state.asked.walk) return;
    const by = { ArrowRight: 1, ArrowLeft: -1 }[event.key];
    if (by === undefined) return;
    goToStep(state.step + by);
    event.preventDefault();
}

// On paper every step stands.
function printSteps() {
    if (!byId("step-print") || !state.asked || !state.asked.walk) return;
    fill("step-print", el("div", { class: "all-steps" }, state.asked.walk.steps.slice(0, MOST_NODES).map((node) => stepCard(state.asked, node))));
}

function startWalk() {
    document.addEventListener("keydown", walkByKey);
    window.addEventListener("beforeprint", printSteps);
    window.addEventListener("afterprint", () => {
        if (byId("step-print")) fill("step-print");
    });
}
