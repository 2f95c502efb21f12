// The proved calls, on words. Each library is WebAssembly that imports nothing; a pointer is a 32-bit number there and a length a 64-bit one.
// What is lent to a call stands one behind another from __heap_base on, and is copied back out.
"use strict";

const ANSWER_BYTES = 32768;
const FILLING_BYTES = 8192;
const QUESTION_BYTES = 8192;
const TRAIL_BYTES = 60000;
const STEP_BYTES = 32768;
const TEXT_BYTES = 65536;

// What a call gives where the browser ended it: no refusal of the desk, which has numbers up to 29.
const BROKE_OFF = 99;

function bytesOfWords(words) {
    const bytes = new Uint8Array(2 * words.length);
    words.forEach((word, i) => {
        bytes[2 * i] = word % 256;
        bytes[2 * i + 1] = word >> 8;
    });
    return bytes;
}

function wordsOfBytes(bytes, count) {
    const words = new Array(count);
    for (let i = 0; i < count; i += 1) words[i] = bytes[2 * i] + 256 * bytes[2 * i + 1];
    return words;
}

function bytesOfBase64(text) {
    const letters = atob(text.trim());
    const bytes = new Uint8Array(letters.length);
    for (let i = 0; i < letters.length; i += 1) bytes[i] = letters.charCodeAt(i);
    return bytes;
}

// library(bytes): calls by name. A call that is ended by the browser (its stack is used up) leaves the library's own stack askew, so then
// it is made anew.
function library(bytes) {
    const module = new WebAssembly.Module(bytes);
    let lib = new WebAssembly.Instance(module, {}).exports;

    function memory(from, count) {
        const short = from + count - lib.memory.buffer.byteLength;
        if (short > 0) lib.memory.grow(Math.ceil(short / 65536));
        return new Uint8Array(lib.memory.buffer, from, count);
    }

    // call(name, args): numbers as they are, byte arrays lent. Gives the number, and the arrays as the call left them.
    function call(name, args) {
        let at = lib.__heap_base.value;
        const given = [];
        const lent = [];
        for (const arg of args) {
            if (typeof arg === "number") given.push(arg);
            else {
                memory(at, arg.length).set(arg);
                given.push(at, BigInt(arg.length));
                lent.push({ at, length: arg.length });
                at += arg.length;
            }
        }
        try {
            const number = lib[name](...given) >>> 0;
            return { number, blocks: lent.map((block) => memory(block.at, block.length).slice()) };
        } catch (error) {
            lib = new WebAssembly.Instance(module, {}).exports;
            return { number: BROKE_OFF, blocks: [] };
        }
    }

    return { call, has: (name) => typeof lib[name] === "function", arity: (name) => lib[name].length };
}

// together(libraries): the calls of all of them, each in the first that has it.
function together(libraries) {
    const holder = (name) => libraries.find((one) => one.has(name));
    return { call: (name, args) => holder(name).call(name, args), has: (name) => holder(name) !== undefined, arity: (name) => holder(name).arity(name) };
}

// A conjunction as a question of its own, with the counts of another.
const questionOfOne = (question, conjunction) => [...question.slice(0, 4), 1, 7, 7 + conjunction.length, ...conjunction];

// makeDesk(libraries): the calls that the page knows, on words. What a desk does not have yet the page does without.
function makeDesk(libraries) {
    const desk = together(libraries);
    const room = (count) => new Uint8Array(count);

    // Whether these bytes are a text, be it too long a one.
    const isText = (bytes) => desk.call("desk_read_text", [bytes, room(0)]).number !== 17;

    // Of what is no text, the first byte that cannot continue one; for other refusals there is no place.
    function placeOf(refusal, bytes) {
        if (refusal !== 17) return null;
        return desk.has("desk_text_place") ? desk.call("desk_text_place", [bytes]).number : placeByAsking(isText, bytes);
    }

    // The words of a text, or why there are none and where.
    function readText(text) {
        const bytes = new TextEncoder().encode(text);
        const { number, blocks } = desk.call("desk_read_text", [bytes, room(QUESTION_BYTES)]);
        if (number >= 100) return { refusal: 0, words: wordsOfBytes(blocks[1], number - 100) };
        return { refusal: number, words: null, place: placeOf(number, bytes) };
    }

    // A question as a text with the desk's own names, or why not.
    function writeText(words) {
        if (!desk.has("desk_write_text")) return { refusal: 20 };
        const { number, blocks } = desk.call("desk_write_text", [bytesOfWords(words), room(TEXT_BYTES)]);
        if (number < 100) return { refusal: number };
        return { refusal: 0, text: new TextDecoder().decode(blocks[1].subarray(0, number - 100)) };
    }

    // The answer of a question with its trail, or why there is none.
    function solve(words) {
        const question = bytesOfWords(words);
        const traced = desk.has("desk_solve_trail");
        const lent = traced ? [question, room(ANSWER_BYTES), room(TRAIL_BYTES)] : [question, room(ANSWER_BYTES)];
        const { number, blocks } = desk.call(traced ? "desk_solve_trail" : "desk_solve", lent);
        if (number !== 0 && number < 100) return { refusal: number, place: desk.call("desk_place", [question]).number };
        const steps = traced ? number - 100 : null;
        return {
            refusal: 0,
            ...readAnswer(wordsOfBytes(blocks[1], ANSWER_BYTES / 2)),
            steps,
            trail: traced ? wordsOfBytes(blocks[2], 3 * steps) : null,
        };
    }

    // Yes, no, or why it cannot be told.
    function tryFilling(words, filling) {
        const { number } = desk.call("desk_try", [bytesOfWords(words), bytesOfWords(filling)]);
        if (number < 100) return { refusal: number };
        return { refusal: 0, yes: number === 101 };
    }

    // The example of a settled line as a filling, or why there is none.
    function example(words, line, oldSheets) {
        const { number, blocks } = desk.call("desk_example", [bytesOfWords(words), line, oldSheets ? 1 : 0, room(FILLING_BYTES)]);
        if (number < 100) return { refusal: number };
        return { refusal: 0, words: wordsOfBytes(blocks[1], number - 100) };
    }

    // The results of one named step of one conjunction, each {alternative, words}. The call takes the conjunction beside the question, whose counts
    // hold for it, or as a question of its own.
    function step(question, conjunction, alternative, rule, literal, side) {
        const apart = desk.arity("desk_step") === 10;
        const asked = apart ? [bytesOfWords(question), bytesOfWords(conjunction)] : [bytesOfWords(questionOfOne(question, conjunction))];
        const { number, blocks } = desk.call("desk_step", [...asked, alternative, rule, literal, side, room(STEP_BYTES)]);
        if (number < 100) return { refusal: number };
        const all = wordsOfBytes(blocks[blocks.length - 1].subarray(2 * (number - 100)), STEP_BYTES / 2 - (number - 100));
        const results = [];
        for (let at = 0; at < all.length; at += 2 + all[at]) {
            results.push({ alternative: all[at + 1], words: all.slice(at + 2, at + 2 + all[at]) });
        }
        return { refusal: 0, results };
    }

    // The table of a sheet of live rules: a row for each pair, with room for a report of so many words.
    function overlapSheet(sheet, rules, reportWords) {
        const row = reportWords + 4;
        // a sheet of too many rules is refused before its room is looked at
        const pairs = rules > LIMITS.rules ? 0 : (rules * (rules - 1)) / 2;
        const { number, blocks } = desk.call("overlap_sheet", [bytesOfWords(sheet), reportWords, room(2 * pairs * row)]);
        if (number !== 0) return { refusal: number };
        const all = wordsOfBytes(blocks[1], pairs * row);
        const rows = [];
        for (let i = 0; i < rules; i += 1) {
            for (let j = i + 1; j < rules; j += 1) {
                const at = rows.length * row;
                const told = all[at + 2] + 65536 * all[at + 3];
                rows.push({ first: i, second: j, told, report: told >= 200 ? all.slice(at + 4, at + 4 + told - 200) : null });
            }
        }
        return { refusal: 0, rows };
    }

    return {
        readText,
        writeText,
        solve,
        tryFilling,
        example,
        step,
        overlapSheet,
        readsTexts: desk.has("desk_read_text"),
        walks: desk.has("desk_solve_trail") && desk.has("desk_step"),
    };
}
