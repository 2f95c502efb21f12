// Rules: a sheet of live rules, the table of its pairs, and a report for each pair that can meet.
"use strict";

// The words of a report's room: what the overlap desk shows of a pair.
const REPORT_WORDS = 1024;

// ---- the table

const ruleLabel = (rule, i) => el("span", { class: "rule-label" }, `${i} `, el("span", { class: "action" }, ACTIONS[rule.action]));

// The cell of a pair; a pair that can meet and is treated in different ways is framed.
function pairCell(rules, pair) {
    if (!pair) return el("td", { class: "blank-cell" });
    const { kind, word } = meetingOf(pair);
    const differs = kind === "settled" && rules[pair.first].action !== rules[pair.second].action;
    const data = { "data-pair": `${pair.first} ${pair.second}`, "data-told": pair.told };
    return el("td", { class: `meets ${kind}${differs ? " different" : ""}`, ...data }, badge(kind, kind === "settled" ? "can meet" : word));
}

// A row for each rule but the last, a column for each but the first.
function pairTable(rules, pairs) {
    const at = new Map(pairs.map((pair) => [`${pair.first} ${pair.second}`, pair]));
    const others = rules.slice(1);
    const rows = rules.slice(0, -1).map((rule, i) => {
        const cells = others.map((_, j) => pairCell(rules, at.get(`${i} ${j + 1}`)));
        return row([el("th", { scope: "row" }, ruleLabel(rule, i)), ...cells]);
    });
    const columns = others.map((rule, j) => el("th", { scope: "col" }, ruleLabel(rule, j + 1)));
    return scrolling("The table of all pairs", el("table", { class: "pairs" }, el("thead", {}, row(["", ...columns])), el("tbody", {}, rows)));
}

// ---- a pair

// What is said below a pair's patterns: a report that both match, or why there is none.
function pairSays(read, pair) {
    const { kind } = meetingOf(pair);
    if (kind === "open") return hint("The desk left only open lines: it promises nothing yet.");
    if (kind === "refused") return el("p", {}, `${numberEntry(pair.told).means} ${numberEntry(pair.told).remedy}`);
    if (!pair.report) return null;
    const header = { parts: read.words[0] % 256, unordered: Math.floor(read.words[0] / 256) };
    const sheet = sheetOf({ part: read.names, term: [], run: [], name: [] }, header);
    const { trees } = readHedge(pair.report, 0);
    const words = plain(listTokens(sheet, trees));
    return figure(filledTrees(sheet, trees, () => []), words, `Both match ${words}`);
}

function pairCard(read, pair) {
    const two = [pair.first, pair.second];
    const { kind, word } = meetingOf(pair);
    const title = two.map((i) => `${i} ${ACTIONS[read.rules[i].action]}`).join(", ");
    const patterns = two.map((i) => el("li", {}, code(listTokens(read.rules[i].sheet, read.rules[i].trees))));
    const data = { "data-pair": two.join(" "), "data-report": pair.report ? pair.report.join(" ") : null };
    return el(
        "article",
        { class: `card-line ${kind}`, ...data },
        el("header", {}, badge(kind, word), heading(3, title)),
        el("ul", { class: "tests" }, patterns),
        pairSays(read, pair),
    );
}

// ---- the sheet

function showPairs(read) {
    if (read.mistake) {
        const rule = hint("A rule is a line: keep, drop or forward, and then one pattern, such as tank(*p, valve).");
        return fill("pairs", mistakeNote("sheet", state.rules, read.mistake), rule);
    }
    if (read.rules.length < 2) return fill("pairs", hint("Two rules at least make a pair."));
    const answer = state.desk.overlapSheet(read.words, read.rules.length, REPORT_WORDS);
    if (answer.refusal !== 0) return fill("pairs", refusalNote(answer.refusal));
    const differs = (pair) => read.rules[pair.first].action !== read.rules[pair.second].action;
    const told = answer.rows.filter((pair) => pair.told !== 100);
    const apart = answer.rows.length - told.length;
    const group = (title, pairs) => [heading(3, title), pairs.length === 0 ? hint("None.") : pairs.map((pair) => pairCard(read, pair))];
    return fill(
        "pairs",
        heading(3, "All pairs"),
        pairTable(read.rules, answer.rows),
        el("p", {}, `${counted(apart, "pair")} cannot meet: no report matches both, and that is a promise.`),
        group("Pairs with different actions", told.filter(differs)),
        group("Pairs with the same action", told.filter((pair) => !differs(pair))),
    );
}

// A desk that reads no texts takes a sheet in words.
function readSheet() {
    if (state.desk.readsTexts) return sheetRead(state.desk, state.rules);
    const { words, wrong } = parseWords(state.rules);
    return wrong ? { mistake: { refusal: 0, says: "Not a word.", ...wrong }, rules: [] } : rulesOfWords(words);
}

function askRules() {
    showPairs(readSheet());
    writeAddress();
}

function putRules(text) {
    state.rules = text;
    byId("sheet").value = text;
    askRules();
}

const SHEET_HINT =
    `A line for each rule, at most ${LIMITS.rules}: what is done (keep, drop or forward) and the pattern, which is one part with blanks. ` +
    'In a report, "any" is a part that may be any.';

function startRules() {
    const texts = state.desk.readsTexts;
    if (!texts) state.rules = exampleWords("live-rules");
    const field = el("textarea", { id: "sheet", rows: 8, "aria-describedby": "sheet-hint", ...UNCORRECTED });
    field.value = state.rules;
    field.addEventListener("input", () => {
        state.rules = field.value;
    });
    sendsByKey(field, askRules);
    const again = texts ? button("The example sheet", () => putRules(RULE_SHEET)) : null;
    fill(
        "rules-body",
        form(
            "rules-form",
            askRules,
            el("label", { for: "sheet" }, "A sheet of live rules"),
            el("p", { class: "hint", id: "sheet-hint" }, texts ? SHEET_HINT : "A sheet of live rules in words."),
            field,
            el("div", { class: "actions" }, el("button", { type: "submit", class: "primary" }, "Which can meet?"), again),
        ),
        el("div", { id: "pairs", "aria-live": "polite" }),
    );
}
