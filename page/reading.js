// What a person wrote, handed to the desk's reader, and where its mistake stands. Texts are read by the desk alone.
"use strict";

// charOfByte(text, byte): the place in a text of a byte of its encoding.
function charOfByte(text, byte) {
    const bytes = new TextEncoder().encode(text);
    return new TextDecoder().decode(bytes.slice(0, byte)).length;
}

// placeIn(text, index): line and column, both from 1, and the line itself.
function placeIn(text, index) {
    const before = text.slice(0, index).split("\n");
    const column = before[before.length - 1].length;
    const line = text.split("\n")[before.length - 1];
    return { line: before.length, column: column + 1, row: line };
}

// The character that ends at a place; one that takes two units is one.
function endOfChar(text, from) {
    const point = text.codePointAt(from);
    return point === undefined ? from : from + (point > 0xffff ? 2 : 1);
}

// readInput(desk, mode, input): {refusal: 0, words, text}, or a mistake {refusal, from, to, says} with the part of the input that is to
// blame; from is null where no place is told.
function readInput(desk, mode, input) {
    return mode === "text" ? readTyped(desk, input) : readDecimal(input);
}

function readTyped(desk, input) {
    const read = desk.readText(input);
    if (read.refusal === 0) return { refusal: 0, words: read.words, text: input };
    if (read.place === null || read.place === undefined) return { refusal: read.refusal, from: null, to: null, says: "" };
    const from = charOfByte(input, read.place);
    return { refusal: read.refusal, from, to: endOfChar(input, from), says: textMistake(input, from) };
}

function textMistake(input, from) {
    const { line, column } = placeIn(input, from);
    if (from >= input.length) return `The text breaks off at its end, in line ${line}.`;
    const found = input.slice(from, endOfChar(input, from));
    if (found === "\n") return `Line ${line} breaks off at its end.`;
    return `Line ${line}, character ${column}: ${found === " " ? "a blank" : found} cannot stand here.`;
}

function readDecimal(input) {
    const { words, places, wrong } = parseWords(input);
    if (wrong) {
        const { line, column } = placeIn(input, wrong.from);
        const says = `Line ${line}, character ${column}: not a word. Words are numbers from 0 to 65535, with blanks between them; # begins a remark.`;
        return { refusal: 0, words: null, says, ...wrong };
    }
    return { refusal: 0, words, text: null, places };
}

// wordMistake(input, places, place): the word of a question that its refusal 5 or 6 is about, as a part of the input.
function wordMistake(input, places, place) {
    if (place >= places.length) return { from: input.trimEnd().length, to: input.trimEnd().length, says: `Word ${place}: the question breaks off here.` };
    const { word, from, to } = places[place];
    return { from, to, says: `Word ${place}, ${word}, cannot stand here (the first is word 0).` };
}

// partsRead(desk, names, written): the trees of parts that a person wrote with the names of a sheet. The desk's reader numbers names in the
// order of their first appearance, so it is given all names of the sheet first.
function partsRead(desk, names, written) {
    const side = written.trim().startsWith("(") ? written : `(${written})`;
    const text = `(${names.join(", ")}) = (), ${side} = ()`;
    const read = desk.readText(text);
    const alone = desk.readText(`${side} = ()`);
    if (alone.refusal !== 0) return { refusal: alone.refusal, trees: null, strange: [] };
    if (read.refusal !== 0) return { refusal: read.refusal, trees: null, strange: [] };
    const literals = readLiterals(readHeader(read.words).alternatives[0]);
    if (literals.length !== 2 || literals.some((l) => l.kind !== "equation")) return { refusal: 17, trees: null, strange: [] };
    return { refusal: 0, trees: literals[1].left, strange: namesOf(text).part.slice(names.length) };
}
