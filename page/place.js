// Where a text stops being one, by asking the desk's reader. A beginning of a text can be continued where some ending makes it a text, and the
// reader says whether one does: the page only proposes the endings. They are enough: what is open is a name behind its mark, `in` that is
// written half, a side or a shape that is missing, and brackets.
"use strict";

const FILLERS = ["", "a"];
const TAILS = ["", "=a", " in a", "n a", " a"];

// How many brackets are open in the last line of a beginning.
function openBrackets(bytes) {
    let depth = 0;
    for (const byte of bytes) {
        if (byte === 0x0a) depth = 0;
        if (byte === 0x28) depth += 1;
        if (byte === 0x29) depth -= 1;
    }
    return Math.max(0, depth);
}

// canGoOn(isText, bytes): whether some ending makes a text of these bytes.
function canGoOn(isText, bytes) {
    const closing = ")".repeat(openBrackets(bytes));
    return FILLERS.some((filler) => TAILS.some((tail) => isText(new Uint8Array([...bytes, ...new TextEncoder().encode(filler + closing + tail)]))));
}

// placeByAsking(isText, bytes): the first byte that cannot continue a text, or the number of bytes where the text only breaks off.
function placeByAsking(isText, bytes) {
    let good = 0;
    let bad = bytes.length + 1;
    while (bad - good > 1) {
        const middle = Math.floor((good + bad) / 2);
        if (canGoOn(isText, bytes.subarray(0, middle))) good = middle;
        else bad = middle;
    }
    return good;
}
