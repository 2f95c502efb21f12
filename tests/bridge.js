// Calls the desk's WebAssembly build for a program on the other side of a pipe, as bridge.c does for the other builds; it says what is
// written and read.
//
//     node bridge.js DESK_WASM OVERLAP_WASM
//
// A pointer is a 32-bit number there, and a length a 64-bit one. Blocks that are lent stand one after another from __heap_base on, and the
// bytes behind the last of them are seen to stay as they are.
"use strict";
const fs = require("fs");

const LENT = 0xa5;
const BEHIND = 64;
// whether the desk has learnt a request, which bridge.c says
const bridge = fs.readFileSync(__dirname + "/bridge.c", "utf8");
const landed = (request) => bridge.split("\n").includes("#define LANDED_" + request);
const library = (file) => new WebAssembly.Instance(new WebAssembly.Module(fs.readFileSync(file)), {}).exports;
const desk = library(process.argv[2]);
const overlap = library(process.argv[3]);

// Bytes of standard input; fewer than asked for only at its end.
function bytesIn(count) {
    const bytes = Buffer.alloc(count);
    let have = 0;
    while (have < count) {
        const more = fs.readSync(0, bytes, have, count - have, null);
        if (more === 0) break;
        have += more;
    }
    return bytes.subarray(0, have);
}

function need(done) {
    if (!done) process.exit(1);
}

function numberIn() {
    const bytes = bytesIn(4);
    need(bytes.length === 4);
    return bytes.readUInt32LE(0);
}

function blockIn() {
    const count = numberIn();
    const bytes = bytesIn(count);
    need(bytes.length === count);
    return bytes;
}

function out(bytes) {
    for (let at = 0; at < bytes.length; ) at += fs.writeSync(1, bytes, at);
}

// The memory of a library from a place on, after it has grown to hold so many bytes there.
function memory(of, from, count) {
    const short = from + count - of.memory.buffer.byteLength;
    if (short > 0) of.memory.grow(Math.ceil(short / 65536));
    return new Uint8Array(of.memory.buffer, from, count);
}

// call(blocks, run, count, of): lends the blocks to a library, has run called with where each is and its length, and gives the number and the
// bytes of the last blocks, so many of them.
function call(blocks, run, count = 1, of = desk) {
    let at = of.__heap_base.value;
    const places = [];
    for (const block of blocks) {
        memory(of, at, block.length).set(block);
        places.push(at, BigInt(block.length));
        at += block.length;
    }
    memory(of, at, BEHIND).fill(LENT);
    const number = run(...places) >>> 0;
    need(memory(of, at, BEHIND).every((byte) => byte === LENT));
    const last = blocks.slice(-count).reduce((sum, block) => sum + block.length, 0);
    return [number, memory(of, at - last, last)];
}

const lent = (count) => new Uint8Array(count).fill(LENT);

for (let letter = bytesIn(1); letter.length === 1; letter = bytesIn(1)) {
    const question = blockIn();
    let number, bytes;
    if (letter[0] === 0x73) {
        [number, bytes] = call([question, lent(numberIn())], desk.desk_solve);
    } else if (letter[0] === 0x74) {
        [number] = call([question, blockIn()], desk.desk_try);
    } else if (letter[0] === 0x70) {
        [number] = call([question], desk.desk_place);
    } else if (letter[0] === 0x6f) {
        const second = blockIn();
        const word0 = numberIn();
        const pair = (...places) => overlap.overlap_pair(word0, ...places);
        [number, bytes] = call([question, second, lent(numberIn())], pair, 1, overlap);
    } else if (letter[0] === 0x4f) {
        const report = numberIn();
        const table = (sheet, length, ...room) => overlap.overlap_sheet(sheet, length, report, ...room);
        [number, bytes] = call([question, lent(numberIn())], table, 1, overlap);
    } else if (letter[0] === 0x72 || letter[0] === 0x77) {
        const text = letter[0] === 0x72 ? desk.desk_read_text : desk.desk_write_text;
        [number, bytes] = call([question, lent(numberIn())], text);
    } else if (letter[0] === 0x64) {
        [number, bytes] = call([question, lent(numberIn())], desk.desk_day);
    } else if (letter[0] === 0x53) {
        [number, bytes] = call([question, lent(numberIn()), lent(numberIn())], desk.desk_solve_trail, 2);
    } else if (letter[0] === 0x52) {
        [number, bytes] = call([question, blockIn(), lent(numberIn())], desk.desk_replay);
    } else if (letter[0] === 0x45) {
        const trail = blockIn();
        const flags = [numberIn(), numberIn()];
        const example = (q, qlen, t, tlen, room, length) => desk.desk_example_trail(q, qlen, t, tlen, ...flags, room, length);
        [number, bytes] = call([question, trail, lent(numberIn())], example);
    } else if (letter[0] === 0x4e) {
        const numbers = [numberIn(), numberIn(), numberIn(), numberIn()];
        const step = (q, qlen, room, length) => desk.desk_step(q, qlen, ...numbers, room, length);
        [number, bytes] = call([question, lent(numberIn())], step);
    } else {
        const flags = landed(8) ? [numberIn(), numberIn()] : [numberIn(), numberIn()].slice(0, 1);
        const example = (q, qlen, room, length) => desk.desk_example(q, qlen, ...flags, room, length);
        [number, bytes] = call([question, lent(numberIn())], example);
    }
    const head = Buffer.alloc(4);
    head.writeUInt32LE(number);
    out(head);
    if (bytes) out(bytes);
}
