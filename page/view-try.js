// A filling of one's own: written with the names of the question, read by the desk, and tried by it.
"use strict";

const SORTS = { term: "one part", run: "parts with commas between them, or nothing", name: "one name" };

function valueField(asked, variable, i) {
    return el(
        "div",
        { class: "field" },
        el("label", { for: `value-${i}` }, code([variableToken(asked, variable)]), aside(SORTS[variable.kind])),
        el("input", { id: `value-${i}`, type: "text", ...UNCORRECTED }),
    );
}

function showTrial(asked) {
    const variables = variablesOf(asked.header);
    if (!state.desk.readsTexts || variables.length === 0) return;
    fill(
        "trial",
        heading(3, "A filling of your own"),
        hint("Fill the blanks, and the desk says whether that meets the question: yes or no. With names of the question only."),
        form(
            "trial-form",
            () => tryOwn(asked, variables),
            variables.map((variable, i) => valueField(asked, variable, i)),
            el("div", { class: "actions" }, el("button", { type: "submit", class: "primary" }, "Try it")),
            el("div", { id: "verdict", "aria-live": "polite" }),
        ),
    );
}

// An example is taken over into the fields.
function fillTrial(asked, valueOf) {
    variablesOf(asked.header).forEach((variable, i) => {
        byId(`value-${i}`).value = plain(listTokens(asked.sheet, valueOf(variable))).replaceAll("~", "");
    });
    fill("verdict");
    byId("value-0").focus();
    byId("trial").scrollIntoView({ block: "nearest" });
}

// What is said where a value cannot be read.
function unreadValue(asked, variable, i, refusal) {
    fill("verdict", refusalNote(refusal), el("p", {}, "It is about ", code([variableToken(asked, variable)]), "."));
    byId(`value-${i}`).focus();
}

function verdict(tried, strange) {
    if (tried.refusal !== 0) {
        const names = [...strange].join(", ");
        return [refusalNote(tried.refusal), names === "" ? null : el("p", {}, `Not a name of the question: ${names}.`)];
    }
    const says = tried.yes ? "Yes, it meets the question." : "No, it does not meet the question.";
    return bannerOf(tried.yes ? "settled" : "none", { "data-verdict": tried.yes ? "yes" : "no" }, el("p", { class: "title" }, says));
}

function tryOwn(asked, variables) {
    const values = [];
    const strange = new Set();
    for (let i = 0; i < variables.length; i += 1) {
        const read = partsRead(state.desk, asked.sheet.names.part, byId(`value-${i}`).value);
        if (read.refusal !== 0) {
            unreadValue(asked, variables[i], i, read.refusal);
            return;
        }
        read.strange.forEach((name) => strange.add(name));
        values.push(hedgeWords(read.trees));
    }
    fill("verdict", verdict(state.desk.tryFilling(asked.words, writeFilling(values)), strange));
}
