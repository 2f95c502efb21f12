// Trees written as the text form, with the names of a sheet. What is written is a row of tokens, {text, kind}, so that the page can colour
// blanks; plain() makes a string of them.
"use strict";

const BLANK_MARKS = { term: "?", run: "*", name: "%" };

const plain = (tokens) => tokens.map((token) => token.text).join("");
const sign = (text) => ({ text, kind: "sign" });

// A sheet: its names, how many symbols it has, and how many of these, the last, are unordered.
function sheetOf(names, header) {
    return { names, parts: header.parts, unordered: header.unordered };
}

// nameToken(sheet, kind, number): a blank with its mark, or a part's name; behind that of an unordered symbol stands ~.
function nameToken(sheet, kind, number) {
    const own = { part: "a", term: "x", run: "p", name: "X" };
    const name = sheet.names[kind][number] ?? own[kind] + number;
    if (kind !== "part") return { text: BLANK_MARKS[kind] + name, kind };
    const shuffled = number < sheet.parts && sheet.parts - number <= sheet.unordered;
    return { text: shuffled ? name + "~" : name, kind };
}

function joined(rows, between) {
    const tokens = [];
    rows.forEach((row, i) => {
        if (i > 0) tokens.push(sign(between));
        tokens.push(...row);
    });
    return tokens;
}

function treeTokens(sheet, tree) {
    const token = nameToken(sheet, tree.kind, tree.number);
    if (!tree.children || tree.children.length === 0) return [token];
    return [token, sign("("), ...listTokens(sheet, tree.children), sign(")")];
}

const listTokens = (sheet, trees) => joined(trees.map((tree) => treeTokens(sheet, tree)), ", ");

// A side: one part as it is, several or none in brackets.
function sideTokens(sheet, trees) {
    if (trees.length === 1) return treeTokens(sheet, trees[0]);
    return [sign("("), ...listTokens(sheet, trees), sign(")")];
}

// Shapes: a star binds tightest, then +, then the comma. Rows of one kind are written without brackets where the desk would read them back so.
const chain = (shape, kind) => (shape.kind === kind ? [shape.left, ...chain(shape.right, kind)] : [shape]);

function shapeTokens(sheet, shape) {
    if (shape.kind === "alt") return joined(chain(shape, "alt").map((part) => starredTokens(sheet, part)), " + ");
    return starredTokens(sheet, shape);
}

function starredTokens(sheet, shape) {
    if (shape.kind === "star") return [...starredTokens(sheet, shape.inner), sign("*")];
    if (shape.kind === "part") {
        const token = nameToken(sheet, "part", shape.number);
        if (shape.inner.kind === "eps") return [token];
        return [token, sign("("), ...rowTokens(sheet, shape.inner), sign(")")];
    }
    if (shape.kind === "eps") return [sign("()")];
    return [sign("("), ...rowTokens(sheet, shape), sign(")")];
}

// Inside brackets commas may stand bare.
function rowTokens(sheet, shape) {
    if (shape.kind === "cat") return joined(chain(shape, "cat").map((part) => shapeTokens(sheet, part)), ", ");
    return shapeTokens(sheet, shape);
}

function literalTokens(sheet, literal) {
    const left = sideTokens(sheet, literal.left);
    if (literal.kind === "equation") return [...left, sign(" = "), ...sideTokens(sheet, literal.right)];
    return [...left, sign(" in "), ...shapeTokens(sheet, literal.shape)];
}

// A conjunction on one line; with no literal it is ().
function conjunctionTokens(sheet, literals) {
    if (literals.length === 0) return [sign("()")];
    return joined(literals.map((literal) => literalTokens(sheet, literal)), ", ");
}
