// The page's own JavaScript in node, file after file in the page's order, without what needs a browser.
"use strict";
const fs = require("fs");
const path = require("path");
const vm = require("vm");

const top = path.join(__dirname, "../..");
const read = (...names) => fs.readFileSync(path.join(top, ...names), "utf8");

const index = read("page/index.html");
const scripts = [...index.matchAll(/<script src="([a-z-]+\.js)">/g)].map((found) => found[1]);
const logic = scripts.filter((name) => !/^(view-\w+|dom|main)\.js$/.test(name));

// librariesIn(folder): the bytes of each WebAssembly library.
function librariesIn(folder) {
    const names = fs.readdirSync(folder).filter((name) => name.endsWith(".wasm")).sort();
    return names.map((name) => fs.readFileSync(path.join(folder, name)));
}

// load(folder): runs an expression among the page's functions, `desk` being the desk of that folder where one is named.
function load(folder) {
    const context = vm.createContext({ WebAssembly, TextEncoder, TextDecoder, BigInt, Uint8Array, atob, console });
    const run = (text, given) => {
        Object.assign(context, given ?? {});
        return vm.runInContext(text, context);
    };
    for (const name of logic) vm.runInContext(read("page", name), context, { filename: name });
    if (folder) run("desk = makeDesk(bytes.map(library))", { bytes: librariesIn(folder) });
    return run;
}

// tally(): counts what is right, and says what is not.
function tally() {
    let passed = 0;
    let failed = 0;
    const same = (what, got, wanted) => {
        if (JSON.stringify(got) === JSON.stringify(wanted)) passed += 1;
        else {
            failed += 1;
            console.log(`${what}\n  is     ${JSON.stringify(got)}\n  wanted ${JSON.stringify(wanted)}`);
        }
    };
    const end = () => {
        console.log(`${passed} passed, ${failed} failed`);
        process.exitCode = failed === 0 ? 0 : 1;
    };
    return { same, end };
}

module.exports = { index, librariesIn, load, read, tally, top };
