// The desk asked by its calls, without any of the page's own JavaScript.
"use strict";
const { librariesIn } = require("./load.js");

// deskIn(folder): has(name); call(name, args..), numbers as they are and buffers lent, which gives the number and the last buffer; and what a
// question's text, lines and trail are.
function deskIn(folder) {
    const loaded = librariesIn(folder).map((bytes) => new WebAssembly.Instance(new WebAssembly.Module(bytes), {}).exports);
    const holder = (name) => loaded.find((one) => one[name] !== undefined);

    function call(name, ...args) {
        const desk = holder(name);
        let at = desk.__heap_base.value;
        const given = [];
        for (const arg of args) {
            if (typeof arg === "number") given.push(arg);
            else {
                const short = at + arg.length - desk.memory.buffer.byteLength;
                if (short > 0) desk.memory.grow(Math.ceil(short / 65536));
                new Uint8Array(desk.memory.buffer, at, arg.length).set(arg);
                given.push(at, BigInt(arg.length));
                at += arg.length;
            }
        }
        const number = desk[name](...given) >>> 0;
        const last = args[args.length - 1];
        return { number, bytes: Buffer.from(new Uint8Array(desk.memory.buffer, at - last.length, last.length)) };
    }

    const wordsIn = (bytes, from, to) => Array.from({ length: to - from }, (_, i) => bytes.readUInt16LE(2 * (from + i)));
    const bytesOf = (words) => Buffer.from(Uint16Array.from(words).buffer);

    function wordsOfText(text) {
        const { number, bytes } = call("desk_read_text", Buffer.from(text), Buffer.alloc(8192));
        return wordsIn(bytes, 0, number - 100);
    }

    function exampleOf(words, line) {
        const { number, bytes } = call("desk_example", bytesOf(words), line, 0, Buffer.alloc(8192));
        return wordsIn(bytes, 0, number - 100).join(" ");
    }

    // The lines of an answer, and the example of each that is settled.
    function linesOf(words) {
        const { bytes } = call("desk_solve", bytesOf(words), Buffer.alloc(32768));
        return Array.from({ length: bytes.readUInt16LE(0) }, (_, i) => {
            const from = bytes.readUInt16LE(2 * (2 + i));
            const [mark, alternative] = wordsIn(bytes, from, from + 2);
            return { mark, alternative, filling: mark === 1 ? exampleOf(words, i) : null };
        });
    }

    // The steps of a question, three words each.
    function trailOf(words) {
        const { number, bytes } = call("desk_solve_trail", bytesOf(words), Buffer.alloc(32768), Buffer.alloc(60000));
        return Array.from({ length: number - 100 }, (_, i) => wordsIn(bytes, 3 * i, 3 * i + 3));
    }

    const refusalOf = (words) => call("desk_solve", bytesOf(words), Buffer.alloc(32768)).number;
    const placeOf = (words) => call("desk_place", bytesOf(words)).number;
    const textPlaceOf = (text) => call("desk_text_place", Buffer.from(text)).number;

    return { has: (name) => holder(name) !== undefined, wordsOfText, linesOf, trailOf, refusalOf, placeOf, textPlaceOf };
}

module.exports = { deskIn };
