// The page with the desk in node: texts and where they stop being one, fillings, sheets of rules, walks. What a desk does not have is passed over.
//
//     node texts.js FOLDER    the folder has the WebAssembly libraries
"use strict";
const { load, tally } = require("./load.js");

const page = load(process.argv[2]);
const { same, end } = tally();

const TEXTS = [
    "",
    "()",
    "a = b",
    "tank(*p, valve) = tank(valve)",
    "*p in (f(a*), b*), *p = (f(a, a), b)",
    "?x in (a + b*, c)**, ?y in f((a, b)*, ())",
    "?x in (a + b) + (c, d) + e, ?x in (a, b + c, (d, e), ())",
    "?x in ((a, b), c), ?x in ((a + b) + c)",
    "in in in(in), in = b\n%X(a) = g(*p)\n(?x, ?x) in (a, b)",
    "(a, ?a, *a, %a) = (), () in ()",
];

// What is no text, and the first byte that cannot continue one.
const WRONG = [
    ["a ) b", 2],
    ["a = b\na ) b", 8],
    ["tank(*p, valve)) = a", 15],
    ["a = b = c", 6],
    ["? x = a", 1],
    ["a, b = c", 1],
    ["a =", 3],
    ["a i", 3],
    ["a in", 4],
    ["a im b", 3],
    ["a in b*c", 7],
    ["?x in (a, b", 11],
    ["(*p, *q = a", 8],
    ["a =\nb = c", 3],
    ["Fü = a", 1],
    ["a = b_c", 5],
    [")", 0],
    ["a in *p", 5],
    ["a + b = c", 2],
    ["f(a)) in b", 4],
    ["a = b,", 6],
    ["%", 1],
];

// What is written is read back as the same words.
function writtenBack(text) {
    return page(
        `(() => {
            const { words } = desk.readText(given);
            const header = readHeader(words);
            const sheet = sheetOf(namesFor(given, header), header);
            const written = header.alternatives.map((one) => plain(conjunctionTokens(sheet, readLiterals(one)))).join("\\n");
            return [words, desk.readText(written).words];
        })()`,
        { given: text },
    );
}

// Every beginning of a text can be continued.
function goesOn(text) {
    return page(
        `(() => {
            const isText = (bytes) => desk.readText(new TextDecoder().decode(bytes)).refusal !== 17;
            const beginnings = Array.from({ length: given.length + 1 }, (_, n) => new TextEncoder().encode(given.slice(0, n)));
            return beginnings.every((bytes) => canGoOn(isText, bytes));
        })()`,
        { given: text },
    );
}

function texts() {
    for (const text of TEXTS) {
        const [words, again] = writtenBack(text);
        same(`written and read back: ${text}`, again, words);
        same(`every beginning goes on: ${text}`, goesOn(text), true);
    }
    for (const [text, at] of WRONG) {
        same(`where ${JSON.stringify(text)} stops being a text`, page("desk.readText(given).place", { given: text }), at);
    }
}

function fillings() {
    const parts = (written) => {
        const read = page("partsRead(desk, ['a', 'b', 'f'], given)", { given: written });
        return [read.refusal, read.trees && page("hedgeWords(trees)", { trees: read.trees }), read.strange];
    };
    same("parts with a sheet's names", parts("f(b), a"), [0, [3002, 3001, 0, 0, 3000, 0], []]);
    same("no parts", parts("  "), [0, [], []]);
    same("parts in brackets", parts("(b, b)"), [0, [3001, 0, 3001, 0], []]);
    same("a name that is not on the sheet", parts("f(c)"), [0, [3002, 3003, 0, 0], ["c"]]);
    same("parts that are none", parts("f("), [17, null, []]);
    same("parts that would be more than one side", parts("a) = (), (b"), [17, null, []]);
}

function sheets() {
    const sheet = (text) => page("sheetRead(desk, given)", { given: text });
    const two = sheet("keep f(a, *p)\n\n drop %X()");
    same("a sheet of rules", [two.mistake, two.names], [null, ["f", "a", "any"]]);
    same("its words", two.words, [3, 2, 0, 5, 3000, 3001, 0, 2000, 0, 1, 2, 4000, 0]);
    const place = (text) => (({ refusal, from, to }) => [refusal, from, to])(sheet(text).mistake);
    same("a rule without an action", sheet("keep f\nf(a)").mistake.says, "Line 2 does not begin with keep, drop or forward.");
    same("a rule that is no pattern", place("keep f\n drop  g(a))"), [17, 18, 19]);
    same("a rule that breaks off", place("keep f("), [17, 7, 7]);
    same("a rule of two patterns", sheet("keep f = (), g").mistake.says, "Line 1: a rule has one pattern.");
}

// As many steps as the desk says, every line met once and in order, and nothing left waiting.
function walks() {
    for (const one of page("PAPER_CASES.concat(MISREADINGS)")) {
        const walked = page(
            `(() => {
                const { words } = desk.readText(given);
                const answer = desk.solve(words);
                const walk = walkOf(desk, words, answer);
                const lines = [];
                let waiting = 0;
                const visit = (node) => {
                    if (node.line !== null) lines.push(node.line);
                    else if (node.step === null) waiting += 1;
                    node.children.forEach(visit);
                };
                walk.roots.forEach(visit);
                const inOrder = lines.length === answer.lines.length && lines.every((line, i) => line === i);
                return { refusal: walk.refusal, more: walk.steps.length - answer.steps, inOrder, waiting };
            })()`,
            { given: one.text },
        );
        same(`the walk of ${one.id || one.title}`, walked, { refusal: 0, more: 0, inOrder: true, waiting: 0 });
    }
}

if (page("desk.readsTexts")) {
    texts();
    fillings();
    sheets();
    if (page("desk.walks")) walks();
} else console.log("this desk reads no texts");
end();
