// The names that a text gives its parts and blanks, in the order of their first appearance, which is how the desk numbers them. The text was
// read by the desk before, so it is one.
"use strict";

// The marks before the names of blanks.
const MARKS = { "?": "term", "*": "run", "%": "name" };

// tokensOf(text): names with the mark that stands directly before them, single characters, and line ends.
function tokensOf(text) {
    const tokens = [];
    const pattern = /([?%*]?)([0-9A-Za-z]+)|[^\s]|\n/g;
    for (let found = pattern.exec(text); found; found = pattern.exec(text)) {
        if (found[2] !== undefined) tokens.push({ mark: found[1], name: found[2], at: found.index });
        else tokens.push({ sign: found[0], at: found.index });
    }
    return tokens;
}

// namesOf(text): {part, term, run, name}, the names of each sort. Where a test's first side is whole, `in` is no name.
function namesOf(text) {
    const names = { part: [], term: [], run: [], name: [] };
    let depth = 0;
    let first = true;
    let related = false;
    for (const token of tokensOf(text)) {
        if (token.name !== undefined) {
            const isIn = token.mark === "" && depth === 0 && !first && !related;
            if (isIn) related = true;
            else {
                const sort = token.mark === "" ? "part" : MARKS[token.mark];
                if (!names[sort].includes(token.name)) names[sort].push(token.name);
            }
            first = false;
            continue;
        }
        if (token.sign === "(") depth += 1;
        if (token.sign === ")") depth -= 1;
        if (token.sign === "=") related = true;
        first = false;
        const ends = token.sign === "\n" || (token.sign === "," && depth === 0);
        if (ends) {
            first = true;
            related = false;
            depth = 0;
        }
    }
    return names;
}

// The desk's own names, for a question that came in words.
function ownNames(header) {
    const row = (letter, count) => Array.from({ length: count }, (_, i) => letter + i);
    return { part: row("a", header.parts), term: row("x", header.terms), run: row("p", header.runs), name: row("X", header.names) };
}

// namesFor(text, header): the text's names where they are as many as the desk counted, else the desk's own.
function namesFor(text, header) {
    const own = ownNames(header);
    if (text === null) return own;
    const names = namesOf(text);
    if (names.part.length === 0) names.part = own.part;
    const same = ["part", "term", "run", "name"].every((sort) => names[sort].length === own[sort].length);
    return same ? names : own;
}
