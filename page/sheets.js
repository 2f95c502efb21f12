// A sheet of live rules: a line for each, its action and its pattern. The desk's reader reads the patterns, and the overlap desk their pairs.
"use strict";

// rulesOf(text): the lines that have something, each {line, action, pattern, from}: action is null where a line begins with none.
function rulesOf(text) {
    const rules = [];
    let start = 0;
    text.split("\n").forEach((row, i) => {
        const found = /^(\s*)(keep|drop|forward)\s+(.*)$/.exec(row);
        if (found) rules.push({ line: i + 1, action: ACTIONS.indexOf(found[2]), pattern: found[3].trim(), from: start + row.length - found[3].length });
        else if (row.trim() !== "") rules.push({ line: i + 1, action: null, pattern: row.trim(), from: start });
        start += row.length + 1;
    });
    return rules;
}

// The part of a sheet that is to blame, from the place in a pattern's text; no place is none.
function patternPlace(rule, place) {
    if (place === null || place === undefined) return { from: rule.from, to: rule.from + rule.pattern.length };
    const at = Math.min(charOfByte(rule.pattern, place), rule.pattern.length);
    return { from: rule.from + at, to: rule.from + endOfChar(rule.pattern, at) };
}

// ruleMistake(desk, rule): why a line is no rule, or null. A pattern is read as the one side of a test.
function ruleMistake(desk, rule) {
    const whole = { from: rule.from, to: rule.from + rule.pattern.length };
    if (rule.action === null) return { refusal: 0, what: "no rule", says: `Line ${rule.line} does not begin with keep, drop or forward.`, ...whole };
    const read = desk.readText(`${rule.pattern} = ()`);
    if (read.refusal !== 0) return { refusal: read.refusal, says: `Line ${rule.line}: this is not a pattern.`, ...patternPlace(rule, read.place) };
    const literals = readLiterals(readHeader(read.words).alternatives[0] ?? []);
    if (literals.length !== 1) return { refusal: 17, says: `Line ${rule.line}: a rule has one pattern.`, ...whole };
    return null;
}

// The name that stands for a part that may be any: the last declared symbol fills such a blank in a report.
const ANY = "any";

// sheetRead(desk, text): {rules, names, words} or the first mistake. The names of parts are those of all patterns, in the order of their
// first appearance on the sheet, and behind them one for what may be any part.
function sheetRead(desk, text) {
    const rules = rulesOf(text);
    for (const rule of rules) {
        const mistake = ruleMistake(desk, rule);
        if (mistake) return { mistake, rules };
    }
    const names = namesOf(rules.map((rule) => `${rule.pattern} = ()`).join("\n")).part;
    if (!names.includes(ANY) && names.length < LIMITS.each) names.push(ANY);
    const words = [names.length, rules.length];
    for (const rule of rules) {
        const own = namesOf(`${rule.pattern} = ()`);
        const read = desk.readText(`(${names.join(", ")}) = (), ${rule.pattern} = ()`);
        if (read.refusal !== 0) return { mistake: { refusal: read.refusal, says: `Line ${rule.line}.`, ...patternPlace(rule, null) }, rules };
        const literals = readLiterals(readHeader(read.words).alternatives[0]);
        rule.trees = literals[1].left;
        rule.sheet = { names: { part: names, term: own.term, run: own.run, name: own.name }, parts: names.length, unordered: 0 };
        const pattern = hedgeWords(rule.trees);
        words.push(rule.action, pattern.length, ...pattern);
    }
    return { mistake: null, rules, names, words };
}

// rulesOfWords(words): the rules of a sheet in words, for a desk that reads no texts.
function rulesOfWords(words) {
    const rules = [];
    const header = { parts: words[0] % 256, unordered: Math.floor(words[0] / 256), terms: 0, runs: 0, names: 0 };
    const sheet = sheetOf(ownNames(header), header);
    let at = 2;
    for (let i = 0; i < words[1] && at < words.length; i += 1) {
        const pattern = words.slice(at + 2, at + 2 + words[at + 1]);
        rules.push({ line: i + 1, action: words[at], trees: readHedge(pattern, 0).trees, sheet });
        at += 2 + words[at + 1];
    }
    return { mistake: null, rules, names: sheet.names.part, words };
}

// What two rules come to, of a row of the table.
function meetingOf(row) {
    if (row.told === 100) return { kind: "none", word: "cannot meet" };
    if (row.told === 101) return { kind: "open", word: "not settled" };
    if (row.told >= 200) return { kind: "settled", word: "can meet" };
    if (row.told === 16) return { kind: "settled", word: "can meet, by a report that is too long to show" };
    return { kind: "refused", word: `number ${row.told}` };
}
