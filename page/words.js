// The words of a question, an answer and a filling, read as trees to be drawn. Nothing is decided here: what is read was accepted by the
// desk, or comes from it.
//
// A tree is {kind: "term" | "run", number}, or {kind: "part" | "name", number, children} for a symbol or a blank for one with its parts.
// An expression is {kind: "eps"}, {kind: "cat" | "alt", left, right}, {kind: "star", inner} or {kind: "part", number, inner}.
// A literal is {kind: "equation", left, right, words} or {kind: "membership", left, shape, words}.
"use strict";

const WORD = { end: 0, term: 1000, run: 2000, part: 3000, name: 4000, equation: 5000, membership: 6000, eps: 7000, cat: 7001, alt: 7002, star: 7003 };

// where the lines of an answer begin
const LINES_AT = 515;

function kindOf(word) {
    if (word >= WORD.term && word < WORD.term + 1000) return "term";
    if (word >= WORD.run && word < WORD.run + 1000) return "run";
    if (word >= WORD.part && word < WORD.part + 1000) return "part";
    if (word >= WORD.name && word < WORD.name + 1000) return "name";
    return "other";
}

// readHedge(words, at): the trees up to the end mark, or up to the end of the words, and the place behind it.
function readHedge(words, at) {
    const top = [];
    const open = [top];
    while (at < words.length) {
        const word = words[at];
        at += 1;
        const kind = kindOf(word);
        const trees = open[open.length - 1];
        if (word === WORD.end) {
            open.pop();
            if (open.length === 0) break;
        } else if (kind === "term" || kind === "run") {
            trees.push({ kind, number: word - WORD[kind] });
        } else {
            const tree = { kind, number: word - WORD[kind], children: [] };
            trees.push(tree);
            open.push(tree.children);
        }
    }
    return { trees: top, at };
}

// readExpression(words, at): an expression and the place behind it.
function readExpression(words, at) {
    const word = words[at];
    if (word === WORD.eps) return { shape: { kind: "eps" }, at: at + 1 };
    if (word === WORD.cat || word === WORD.alt) {
        const left = readExpression(words, at + 1);
        const right = readExpression(words, left.at);
        return { shape: { kind: word === WORD.cat ? "cat" : "alt", left: left.shape, right: right.shape }, at: right.at };
    }
    const inner = readExpression(words, at + 1);
    if (word === WORD.star) return { shape: { kind: "star", inner: inner.shape }, at: inner.at };
    return { shape: { kind: "part", number: word - WORD.part, inner: inner.shape }, at: inner.at };
}

// readLiterals(words): the literals of a conjunction.
function readLiterals(words) {
    const literals = [];
    let at = 0;
    while (at < words.length) {
        const from = at;
        const left = readHedge(words, at + 1);
        if (words[from] === WORD.equation) {
            const right = readHedge(words, left.at);
            at = right.at;
            literals.push({ kind: "equation", left: left.trees, right: right.trees, words: words.slice(from, at) });
        } else {
            const right = readExpression(words, left.at);
            at = right.at;
            literals.push({ kind: "membership", left: left.trees, shape: right.shape, words: words.slice(from, at) });
        }
    }
    return literals;
}

// readHeader(words): what a question counts, and the words of its alternatives.
function readHeader(words) {
    const alternatives = [];
    for (let i = 0; i < words[4]; i += 1) alternatives.push(words.slice(words[5 + i], words[6 + i]));
    return {
        parts: words[0] % 256,
        unordered: Math.floor(words[0] / 256),
        terms: words[1],
        runs: words[2],
        names: words[3],
        alternatives,
    };
}

// readAnswer(words): the lines, each with its mark, its alternative and its words.
function readAnswer(words) {
    const lines = [];
    for (let i = 0; i < words[0]; i += 1) {
        const line = words.slice(words[2 + i], words[3 + i]);
        lines.push({ settled: line[0] === 1, alternative: line[1], words: line.slice(2) });
    }
    return { lines, open: words[1] };
}

// The variables of a question in a filling's order: term, hedge and function variables.
function variablesOf(header) {
    const variables = [];
    for (let i = 0; i < header.terms; i += 1) variables.push({ kind: "term", number: i });
    for (let i = 0; i < header.runs; i += 1) variables.push({ kind: "run", number: i });
    for (let i = 0; i < header.names; i += 1) variables.push({ kind: "name", number: i });
    return variables;
}

// readFilling(words): the trees of each value.
function readFilling(words) {
    const values = [];
    for (let i = 0; i < words[0]; i += 1) values.push(readHedge(words.slice(words[1 + i], words[2 + i]), 0).trees);
    return values;
}

// writeFilling(values): the words of a filling, from the words of each value without its end mark.
function writeFilling(values) {
    const offsets = [];
    const body = [];
    for (const value of values) {
        offsets.push(values.length + 2 + body.length);
        body.push(...value, WORD.end);
    }
    offsets.push(values.length + 2 + body.length);
    return [values.length, ...offsets, ...body];
}

// hedgeWords(trees): trees as words again.
function hedgeWords(trees) {
    const words = [];
    for (const tree of trees) {
        words.push(WORD[tree.kind] + tree.number);
        if (tree.children) words.push(...hedgeWords(tree.children), WORD.end);
    }
    return words;
}

// parseWords(text): words in decimal, # beginning a remark; or where the first thing that is no word stands.
function parseWords(text) {
    const words = [];
    const pattern = /#[^\n]*|[^\s#]+/g;
    for (let found = pattern.exec(text); found; found = pattern.exec(text)) {
        const piece = found[0];
        if (piece[0] === "#") continue;
        if (!/^[0-9]{1,9}$/.test(piece) || Number(piece) > 65535) return { words, places: [], wrong: { from: found.index, to: found.index + piece.length } };
        words.push({ word: Number(piece), from: found.index, to: found.index + piece.length });
    }
    return { words: words.map((w) => w.word), places: words, wrong: null };
}
