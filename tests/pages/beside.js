// What the page says beside what the repository has: the rules and their order, the sentences of the prompt, the numbers, the limits; and that its
// words can be read on what they stand on.
"use strict";
const fs = require("fs");
const path = require("path");
const { load, read, tally, top } = require("./load.js");

const page = load();
const { same, end } = tally();

// ---- the rules
const places = [...read("crates/rules/src/places.rt").matchAll(/const AT_([A-Z0-9]+)/g)].map((found) => found[1]);
same("the rules in their order", page("RULES.map((rule) => rule.code.toUpperCase())"), places);
const ending = ["F1", "F2", "F3", "F4", "F5", "F6", "F7", "M2", "clash"];
same("the rules that end a case say why", page("RULES.filter((rule) => rule.why).map((rule) => rule.code)"), ending);
same("the fold and the clash", page("[RULES[RULE_FOLD].code, RULES[RULE_CLASH].code]"), ["fold", "clash"]);
same("a sentence that counts its cases", page("[sentenceOf(18, 2), sentenceOf(18, 5), sentenceOf(13, 6), sentenceOf(24, 0)]"), [
    "the run {v} may take nothing or the one part: two cases",
    "the run {v} may take none of the parts, the first, the first two, and so on up to all: 5 cases",
    "the parts may stand in any order, so each order is tried: 6 cases",
    "only an empty run has this shape, and here are parts",
]);

// ---- the page and the prompt say the same of a step; where they come to differ it is said, and no test fails for a wording
if (fs.existsSync(path.join(top, "crates/walk_wording/src"))) {
    const prompt = ["sentences.rt", "reasons.rt"].map((name) => read("crates/walk_wording/src", name)).join("\n");
    const sentences = page("RULES.filter((rule) => rule.code !== 'clash').flatMap((rule) => [rule.says, rule.why])").filter((text) => typeof text === "string");
    for (const text of sentences) {
        const pieces = text.split(/\{v\}|\{n\}/).filter((piece) => piece !== "");
        if (!pieces.every((piece) => prompt.includes(`"${piece}"`))) console.log(`the prompt says it in other words: ${text}`);
    }
}

// ---- numbers and limits
same("every number once", page("NUMBERS.map((entry) => entry.number)"), [...Array.from({ length: 29 }, (_, i) => i + 1), 99]);
const limits = read("crates/language/src/limits.rt");
const limit = (name) => Number(new RegExp(`const ${name}: \\w+ = ([0-9]+);`).exec(limits)[1]);
for (const name of ["question", "room", "literal", "lines", "steps", "filling", "each", "alternatives", "pairs"]) {
    same(`the limit ${name}`, page(`LIMITS.${name}`), limit(name.toUpperCase()));
}
same("thousands", page("[7, 4096, 1234567].map(withCommas)"), ["7", "4,096", "1,234,567"]);

// ---- colours, by day and by night: 4.5 to 1 is what words of any size need
const colours = (text) => Object.fromEntries([...text.matchAll(/--([\w-]+): (#[0-9a-f]{6});/g)].map((found) => [found[1], found[2]]));
const palettes = [...read("page/style.css").matchAll(/:root \{([^}]*)\}/g)].map((found) => colours(found[1]));
const linear = (part) => (part <= 0.03928 ? part / 12.92 : ((part + 0.055) / 1.055) ** 2.4);
const light = (colour) => {
    const [red, green, blue] = [1, 3, 5].map((at) => linear(parseInt(colour.slice(at, at + 2), 16) / 255));
    return 0.2126 * red + 0.7152 * green + 0.0722 * blue;
};
const contrast = (a, b) => (Math.max(light(a), light(b)) + 0.05) / (Math.min(light(a), light(b)) + 0.05);
const outcomes = ["settled", "open", "none", "refused"];
const blanks = ["term", "run", "name"];
const grounds = [...outcomes, ...blanks].map((sort) => `${sort}-paper`);
const ON = {
    ink: ["paper", "card", ...grounds],
    soft: ["paper", "card", "settled-paper", "open-paper", "none-paper", "run-paper"],
    accent: ["paper", "card", "refused-paper"],
    "accent-ink": ["accent"],
};
for (const sort of [...outcomes, ...blanks]) ON[sort] = [`${sort}-paper`, "card", "paper"];
same("two palettes", palettes.length, 2);
for (const palette of palettes) {
    for (const [words, under] of Object.entries(ON)) {
        for (const ground of under) same(`${words} on ${ground}`, contrast(palette[words], palette[ground]) >= 4.5, true);
    }
}

end();
