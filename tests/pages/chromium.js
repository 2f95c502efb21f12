// A headless Chromium, driven by its own protocol over a pipe: no package is needed. Messages are JSON with a 0 byte behind each.
"use strict";
const { spawn } = require("child_process");
const fs = require("fs");
const os = require("os");
const path = require("path");

const FLAGS = ["--headless", "--no-sandbox", "--disable-gpu", "--no-first-run", "--disable-extensions", "--hide-scrollbars", "--remote-debugging-pipe"];

// connect(program): the browser, and send(method, params, session), which gives what it answers; hear is told what it says by itself.
function connect(program, profile, hear) {
    const browser = spawn(program, [...FLAGS, `--user-data-dir=${profile}`, "about:blank"], { stdio: ["ignore", "ignore", "ignore", "pipe", "pipe"] });
    const waiting = new Map();
    let last = 0;
    let rest = "";

    function take(message) {
        if (message.id === undefined) return hear(message);
        const { keep, refuse } = waiting.get(message.id);
        waiting.delete(message.id);
        return message.error ? refuse(new Error(message.error.message)) : keep(message.result);
    }

    browser.stdio[4].setEncoding("utf8");
    browser.stdio[4].on("data", (text) => {
        const pieces = (rest + text).split("\0");
        rest = pieces.pop();
        for (const piece of pieces) take(JSON.parse(piece));
    });
    browser.on("exit", () => {
        for (const { refuse } of waiting.values()) refuse(new Error("the browser ended"));
    });

    function send(method, params, sessionId) {
        last += 1;
        const id = last;
        browser.stdio[3].write(`${JSON.stringify({ id, method, params, sessionId })}\0`);
        return new Promise((keep, refuse) => waiting.set(id, { keep, refuse }));
    }

    return { browser, send };
}

// What a page should not have: an error, or a request that leaves the folder; or null.
function noiseIn({ method, params }) {
    if (method === "Runtime.exceptionThrown") return params.exceptionDetails.exception?.description ?? "an exception";
    if (method === "Log.entryAdded" && params.entry.level === "error") return params.entry.text;
    if (method === "Network.requestWillBeSent" && !/^(file|data|about):/.test(params.request.url)) return `asks for ${params.request.url}`;
    return null;
}

// open(program, size): a page of its own, empty at first. `noise` collects what it should not have.
async function open(program, size) {
    const profile = fs.mkdtempSync(path.join(os.tmpdir(), "desk-page-"));
    const noise = [];
    const { browser, send } = connect(program, profile, (message) => {
        const heard = noiseIn(message);
        if (heard !== null) noise.push(heard);
    });
    const { targetId } = await send("Target.createTarget", { url: "about:blank" });
    const { sessionId } = await send("Target.attachToTarget", { targetId, flatten: true });
    const say = (method, params) => send(method, params ?? {}, sessionId);
    for (const part of ["Page", "Runtime", "Log", "Network"]) await say(`${part}.enable`);
    await resize(size);

    // run(text): what an expression of the page comes to.
    async function run(text) {
        const { result, exceptionDetails } = await say("Runtime.evaluate", { expression: text, returnByValue: true, awaitPromise: true });
        if (exceptionDetails) throw new Error(exceptionDetails.exception?.description ?? exceptionDetails.text);
        return result.value;
    }

    // of(selector, text): what an expression comes to in which `node` is the first such element, or null where there is none.
    const of = (selector, text) => run(`((node) => node && (${text}))(document.querySelector(${JSON.stringify(selector)}))`);
    const textOf = (selector) => of(selector, "node.textContent");
    const dataOf = (selector) => of(selector, "({ ...node.dataset })");
    const valueOf = (selector) => of(selector, "node.value");
    const count = (selector) => run(`document.querySelectorAll(${JSON.stringify(selector)}).length`);

    async function until(text) {
        for (let tries = 0; tries < 2400; tries += 1) {
            if (await run(text)) return;
            await new Promise((after) => setTimeout(after, 25));
        }
        throw new Error(`never came true: ${text}`);
    }

    // go(to): a page loaded anew, which says itself when it is ready.
    async function go(to) {
        await say("Page.navigate", { url: "about:blank" });
        await say("Page.navigate", { url: to });
        await until("document.documentElement?.dataset.ready === 'yes'");
    }

    async function resize({ width, height, phone }) {
        await say("Emulation.setDeviceMetricsOverride", { width, height, deviceScaleFactor: 1, mobile: phone === true });
    }

    // click(selector): where the element is, with the mouse.
    async function click(selector) {
        await of(selector, "node.scrollIntoView({ block: 'center', behavior: 'instant' })");
        const where = await of(selector, "(({ x, y, width, height }) => ({ x: x + width / 2, y: y + height / 2 }))(node.getBoundingClientRect())");
        if (!where) throw new Error(`nothing to click: ${selector}`);
        for (const type of ["mousePressed", "mouseReleased"]) await say("Input.dispatchMouseEvent", { type, ...where, button: "left", clickCount: 1 });
    }

    const KEYS = { Enter: 13, Tab: 9, ArrowLeft: 37, ArrowRight: 39 };

    // press(key, ctrl): a key, with Ctrl where that is true.
    async function press(key, ctrl) {
        const params = { key, code: key, windowsVirtualKeyCode: KEYS[key], modifiers: ctrl ? 2 : 0, text: key === "Enter" ? "\r" : undefined };
        await say("Input.dispatchKeyEvent", { type: "keyDown", ...params });
        await say("Input.dispatchKeyEvent", { type: "keyUp", ...params });
    }

    // write(selector, text): into a field, in the place of what stands there.
    async function write(selector, text) {
        await click(selector);
        await of(selector, "node.select()");
        await say("Input.insertText", { text });
    }

    async function picture(file) {
        const { cssContentSize } = await say("Page.getLayoutMetrics");
        const clip = { x: 0, y: 0, width: cssContentSize.width, height: Math.min(cssContentSize.height, 6000), scale: 1 };
        const { data } = await say("Page.captureScreenshot", { format: "png", captureBeyondViewport: true, clip });
        fs.writeFileSync(file, Buffer.from(data, "base64"));
    }

    async function paper(file) {
        const { data } = await say("Page.printToPDF", { printBackground: false, preferCSSPageSize: true });
        fs.writeFileSync(file, Buffer.from(data, "base64"));
    }

    async function close() {
        const ended = new Promise((after) => browser.on("exit", after));
        send("Browser.close", {}).catch(() => {});
        await ended;
        fs.rmSync(profile, { recursive: true, force: true, maxRetries: 5 });
    }

    return { say, run, of, textOf, dataOf, valueOf, count, until, go, resize, click, press, write, picture, paper, close, noise };
}

module.exports = { open };
