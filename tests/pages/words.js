// The page's own JavaScript by itself: words and trees, names, mistakes, pictures, addresses, steps.
"use strict";
const fs = require("fs");
const path = require("path");
const vm = require("vm");
const { index, load, read, tally, top } = require("./load.js");

const page = load();
const { same, end } = tally();

// ---- each file of the page is JavaScript, and the page names each
function wrongIn(name) {
    try {
        new vm.Script(read("page", name));
        return "";
    } catch (error) {
        return String(error);
    }
}
for (const name of fs.readdirSync(path.join(top, "page"))) {
    if (name !== "index.html") same(`page/${name} is named`, index.includes(`="${name}"`), true);
    if (name.endsWith(".js")) same(`page/${name}`, wrongIn(name), "");
}

// ---- words and trees
same("a hedge", page("readHedge([3000, 1001, 0, 2000, 0, 9], 0)"), {
    trees: [
        { kind: "part", number: 0, children: [{ kind: "term", number: 1 }] },
        { kind: "run", number: 0 },
    ],
    at: 5,
});
const again = [3000, 1001, 0, 4002, 3001, 0, 0, 2000];
same("a hedge as words again", page("hedgeWords(readHedge([...words, 0], 0).trees)", { words: again }), again);
same("a filling", page("writeFilling([[3000, 0], [3001, 0]])"), [2, 4, 7, 10, 3000, 0, 0, 3001, 0, 0]);
same("an empty filling", page("writeFilling([])"), [0, 2]);
same("a filling's values", page("readFilling(writeFilling([[], [3001, 0]])).map((trees) => trees.length)"), [0, 1]);
same("words in decimal", page("parseWords('4 0 # 7\\n 2').words"), [4, 0, 2]);
same("not a word", page("parseWords('4 x 2').wrong"), { from: 2, to: 3 });
same("too large a word", page("parseWords('4 65536').wrong"), { from: 2, to: 7 });
same("words as bytes and back", page("wordsOfBytes(bytesOfWords([0, 255, 256, 65535]), 4)"), [0, 255, 256, 65535]);

// ---- names, in the order of their first appearance
const names = (text) => page("namesOf(given)", { given: text });
same("names", names("tank(*p, valve) = tank(valve, ?x), %F(b) in a*"), { part: ["tank", "valve", "b", "a"], term: ["x"], run: ["p"], name: ["F"] });
same("one name for four things", names("(a, ?a, *a, %a) = ()"), { part: ["a"], term: ["a"], run: ["a"], name: ["a"] });
same("in is a name too", names("in in in(c), (in, b) in b\nin = d").part, ["in", "c", "b", "d"]);
same("in behind brackets", names("(a) in b, f(in) in in").part, ["a", "b", "f", "in"]);
same("a star behind a shape", names("*p in (a* , b**) + c").run, ["p"]);
const namesFor = (text, header) => page("namesFor(given, header).part", { given: text, header: { terms: 0, runs: 0, names: 0, ...header } });
same("no name of a part", namesFor("*p = ()", { parts: 1, runs: 1 }), ["a0"]);
same("names that do not fit", namesFor("a = b", { parts: 3 }), ["a0", "a1", "a2"]);
same("no text", namesFor(null, { parts: 2 }), ["a0", "a1"]);
const twoParts = { names: { part: ["a", "b"] }, parts: 2, unordered: 1 };
same("an unordered part has its mark", page("plain(treeTokens(sheet, tree))", { sheet: twoParts, tree: { kind: "part", number: 1, children: [] } }), "b~");

// ---- mistakes
const mistake = (text, place) => page("readTyped({ readText: () => ({ refusal: 17, place: at }) }, given)", { given: text, at: place });
const said = (from, to, says) => ({ refusal: 17, from, to, says });
same("a wrong character", mistake("a = b\na ) b", 8), said(8, 9, "Line 2, character 3: ) cannot stand here."));
same("a line that breaks off", mistake("a =\nb = c", 3), said(3, 4, "Line 1 breaks off at its end."));
same("a text that breaks off", mistake("a = b\nf(", 8), said(8, 8, "The text breaks off at its end, in line 2."));
same("a character of several bytes", mistake("Fü = a", 1), said(1, 2, "Line 1, character 2: ü cannot stand here."));
same("a blank that is wrong", mistake("a = ? x", 5).says, "Line 1, character 6: a blank cannot stand here.");
same("no place is told", page("readTyped({ readText: () => ({ refusal: 18, place: null }) }, 'a')").from, null);
const wordAt = (text, place) => page("wordMistake(given, parseWords(given).places, at)", { given: text, at: place });
same("the word of a mistake", wordAt("1 0 9", 2), { from: 4, to: 5, says: "Word 2, 9, cannot stand here (the first is word 0)." });
same("behind the last word", wordAt("1 0 9 ", 3).from, 5);

// ---- addresses
const there = (tab, values) => page("readFragment(fragmentOf(tab, values))", { tab, values });
const carried = [{}, { text: "" }, { text: "(*p, a) = (a, *p)\n%X(a) = ?y & #" }, { words: "4 0", step: "3" }, { rules: "keep a\ndrop b?" }];
for (const values of carried) same("an address", there("walk", values), { tab: "walk", values });
same("an address of no part", page("readFragment('#main')"), { tab: "ask", values: {} });
same("an address that was cut off", page("readFragment('#read?text=%E')"), { tab: "read", values: {} });

// ---- pictures: boxes side by side, and children below
const sheet = { names: { part: ["tank", "valve", "a"], term: ["x"], run: ["p"], name: ["X"] }, parts: 3, unordered: 0 };
const boxes = page(
    `(() => {
        const { trees } = readHedge([3000, 2000, 3001, 1000, 0, 2000, 0, 3002, 0], 0);
        const values = { run0: [], term0: readHedge([3002, 3002, 0, 3002, 0, 0], 0).trees };
        const plan = layout(filledTrees(sheet, trees, (tree) => values[tree.kind + tree.number]));
        return plan.boxes.map((box) => ({ ...box, tree: box.tree.label + box.tree.tag }));
    })()`,
    { sheet },
);
same("what is drawn", boxes.map((box) => box.tree).sort(), ["a", "a", "a", "a?x", "nothing*p", "nothing*p", "tank", "valve"].sort());
const apart = (a, b) => a.y !== b.y || Math.abs(a.x - b.x) >= (a.width + b.width) / 2;
same("boxes stand apart", boxes.every((a, i) => boxes.every((b, j) => i === j || apart(a, b))), true);
const named = page("filledTrees(sheet, readHedge([4000, 3001, 0, 0, 0], 0).trees, () => readHedge([3002, 0, 0], 0).trees)");
same("a name that is filled in", [named[0].label, named[0].tag, named[0].children[0].label], ["a", "%X", "valve"]);

// ---- what a step does to the literals around it
const literals = (words) => words.map((one) => ({ words: one }));
const changes = (rule, literal, before, after) =>
    page("changesIn(node, before, after)", { node: { step: { rule, literal } }, before: literals(before), after: literals(after) });
same("two for one", changes(14, 1, [[1], [2], [3]], [[1], [4], [5], [3]]), { 1: "new", 2: "new" });
same("an equation that fills in", changes(16, 1, [[1], [2], [3]], [[9], [2], [8]]), { 0: "filled in", 1: "stays", 2: "filled in" });
same("one that goes", changes(0, 0, [[1], [2]], [[2]]), {});
same("the fold", changes(2, 0, [[1], [2], [1]], [[1], [2]]), {});

end();
