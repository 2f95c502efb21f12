// The parts of the page, which of them is shown, and how it starts.
"use strict";

function addressOf(tab) {
    if (tab === "rules") return fragmentOf(tab, { rules: state.rules });
    if (tab === "numbers") return fragmentOf(tab, {});
    const values = { [state.mode]: state.input };
    if (tab === "walk" && state.step > 0) values.step = state.step;
    return fragmentOf(tab, values);
}

function writeAddress() {
    const fragment = addressOf(document.body.dataset.tab);
    if (location.hash !== fragment) remember("replaceState", fragment);
}

function showTab(tab) {
    document.body.dataset.tab = tab;
    for (const link of document.querySelectorAll("nav a")) {
        if (link.dataset.tab === tab) link.setAttribute("aria-current", "page");
        else link.removeAttribute("aria-current");
    }
    if (tab === "rules" && byId("pairs").childElementCount === 0) askRules();
    if (tab === "walk" && !(state.asked && state.asked.walk)) showWalk();
}

// Another part of the page; what was written since it was asked is asked first.
function openTab(tab) {
    const unasked = state.asked && state.asked.input !== state.input;
    if (unasked && (tab === "read" || tab === "walk")) ask();
    showTab(tab);
    remember("pushState", addressOf(tab));
    window.scrollTo(0, 0);
}

// A browser may refuse many changes of the address in a row; the page works without.
function remember(how, fragment) {
    try {
        history[how](null, "", fragment);
    } catch (error) {
        document.documentElement.dataset.address = "old";
    }
}

// What the address asks for.
function followAddress() {
    const { tab, values } = readFragment(location.hash);
    showTab(tab);
    if (values.rules !== undefined) putRules(values.rules);
    if (values.text !== undefined && state.desk.readsTexts) putOnce("text", values.text);
    else if (values.words !== undefined) putOnce("words", values.words);
    const step = Number(values.step);
    if (tab === "walk" && Number.isInteger(step) && state.asked && state.asked.walk) goToStep(step);
}

function putOnce(mode, input) {
    if (state.asked && state.asked.mode === mode && state.asked.input === input) return;
    put(mode, input);
}

function start() {
    const libraries = [...document.querySelectorAll("script.library")].map((one) => library(bytesOfBase64(one.textContent)));
    state.desk = makeDesk(libraries);
    if (!state.desk.walks) document.querySelector("nav a[data-tab=walk]").hidden = true;
    startRules();
    startNumbers();
    startAsk();
    startWalk();
    document.addEventListener("click", (event) => {
        const link = event.target.closest("a[data-tab], a[data-go], a.skip");
        if (!link) return;
        event.preventDefault();
        if (link.className === "skip") byId("main").focus();
        else openTab(link.dataset.tab || link.dataset.go);
    });
    window.addEventListener("hashchange", followAddress);
    window.addEventListener("popstate", followAddress);
    followAddress();
    if (!state.asked) {
        if (state.desk.readsTexts) put("text", FIRST_TEXT);
        else put("words", exampleWords("P4"));
    }
    document.documentElement.dataset.ready = "yes";
}

start();
