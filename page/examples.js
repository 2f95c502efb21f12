// The questions that are one click away: the instructor's four misreadings, and the paper's cases P1 to P12.
"use strict";

const MISREADINGS = [
    {
        title: "A run may be empty",
        text: "tank(*p, valve) = tank(valve)",
        says: "What stands before the valve? Nothing, and that is an answer: one settled line, with an empty run.",
    },
    {
        title: "A run beside a run: as many readings as cuts",
        text: "(*p, *q) = (a, b)",
        says: "Two runs beside each other make a, b. The cut stands before, between or behind: three settled lines.",
    },
    {
        title: "Endless is not unanswerable",
        text: "*p in a*",
        says: "A run of any number of a's. Endlessly many runs meet it, and still it is one settled line.",
    },
    {
        title: "Endless is not none",
        text: "(*p, a) = (a, *p)",
        says: "Every run of a's meets this, and no rule of the desk says so: one open line. Open promises nothing; it is not a no.",
    },
];

const PAPER_CASES = [
    { id: "P1", text: "", says: "No alternative is given, so nothing can meet the question." },
    { id: "P2", text: "()", says: "One alternative that asks for nothing: every report meets it." },
    { id: "P3", text: "a = b", says: "A part named a is never a part named b." },
    { id: "P4", text: "(*p, *q) = (a, b)", says: "Two runs together are a, b: the cut may stand before, between or behind them." },
    { id: "P5", text: "(*p, *p) = (a, a)", says: "The same run twice is a, a: each run is one a." },
    { id: "P6", text: "(*p, a) = (a, *p)", says: "A run and then a is a and then the run: endlessly many runs fit, and the line stays open." },
    { id: "P7", text: "?x = f(?x)", says: "A part would have to hold itself: none." },
    { id: "P8", text: "%X(a) = g(*p)", says: "A name is blank: it is g, and the run inside it is a." },
    { id: "P9", text: "*p in (f(a*), b*), *p = (f(a, a), b)", says: "A run must follow a shape and is also spelled out: it does." },
    { id: "P10", text: "?x in a, ?x in a", says: "The same shape twice for one blank: the later one is removed." },
    { id: "P11", text: "(*p, *q) in f", says: "Two runs together are one part f with nothing in it: it stands in the first or in the second." },
    { id: "P12", text: "(?x, ?x) in (a, b)", says: "The same part twice is to be a and then b: no report meets it." },
];

// These have parts that come in any order, which the text form does not say: they are words.
const IN_ANY_ORDER = [
    { id: "shuffled", title: "A shuffled station", says: "a3~ has its parts in any order, so both sides are one station where x0 and x1 are a0." },
    { id: "shuffled-shape", title: "A shape for shuffled parts", says: "One a0, any number of a1 and at most one a2, in any order: what is missing is the a0." },
];

// The question that an empty address opens.
const FIRST_TEXT = "tank(*before, valve, *behind) = tank(pump, valve, gauge, valve)";

const RULE_SHEET = `keep report(alarm, *rest)
drop report(?x, ?y)
forward valve(?x)
drop valve(level)
keep report(*before, valve(*inside), *behind)
forward %any()
`;

// Actions by their numbers.
const ACTIONS = ["keep", "drop", "forward"];
