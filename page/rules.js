// The rules by their places in the list: a short name, and a sentence as the desk says it at its prompt. In a sentence {v} is what the side that is
// looked at first begins with, which for many rules is the blank that it is about, and {n} how many cases there are. A rule that leaves
// nothing has `why` instead.
"use strict";

const RULES = [
    { code: "R1", name: "the same on both sides", says: "both sides are written the same, so it always holds and is struck" },
    { code: "R2", name: "nothing, where nothing will do", says: "nothing stands here, and the shape allows that, so it holds and is struck" },
    { code: "fold", name: "the same test twice", says: "the same is asked twice, so the later one is struck" },
    { code: "F1", name: "a part inside itself", why: "{v} would have to hold itself and more" },
    { code: "F2", name: "a run inside itself", why: "the run {v} would have to hold itself and more" },
    { code: "F3", name: "two different names", why: "the two parts have different names, so they are never the same" },
    { code: "F4", name: "nothing against something", why: "one side is empty, and the other has at least one part" },
    { code: "F5", name: "a shape of another name", why: "the part has another name than the shape asks for" },
    { code: "F6", name: "nothing, where something must be", why: "nothing stands here, and the shape asks for something" },
    { code: "F7", name: "something, where nothing may be", why: "only an empty run has this shape, and here is a part" },
    { code: "Del1", name: "the same run in front", says: "both sides begin with the run {v}, so it is struck from both" },
    { code: "Del2", name: "a shared part, in any order", says: "their order is free, and what both sides have in common is struck from both" },
    { code: "Del3", name: "a run among others", says: "the run {v} stands among others on the other side, so all of those are empty" },
    { code: "D1", name: "every order", says: "the parts may stand in any order, so each order is tried: {n}" },
    { code: "D2", name: "first part, then the rest", says: "the first parts of both sides must be the same, and so must what follows them" },
    { code: "D0", name: "the same name, so the same inside", says: "the two parts must have one name, so what is in them must be the same" },
    { code: "E1", name: "a blank is known", says: "the blank {v} is known now, and is filled in everywhere else" },
    { code: "E2", name: "a run is known", says: "the run {v} is known now, and is filled in everywhere else" },
    { code: "E3", name: "where the run ends", says: cutsSay },
    { code: "E4", name: "where the run ends, before itself", says: "the run {v} cannot reach the part that it stands in itself: {n}" },
    { code: "E5", name: "a name is known", says: "the name {v} is known now, and is filled in everywhere else" },
    { code: "E6", name: "first the name, then the inside", says: "the two parts must have one name, so {v} is the other's and is filled in everywhere" },
    { code: "E7", name: "every name", says: "the name {v} may be any symbol, so each is tried: {n}" },
    { code: "M1", name: "runs that must be empty", says: "only an empty run has this shape, so every run here is empty" },
    { code: "M2", name: "the first part by the shape", says: "the first part fits one beginning of the shape, and what follows fits the rest: {n}", why: "only an empty run has this shape, and here are parts" },
    { code: "M3", name: "which of them is the part", says: "the shape is one part: the run {v} is that part, or it is empty: two cases" },
    { code: "M4", name: "one part, so once", says: "one part of a repeated shape has that shape once" },
    { code: "M5", name: "which of the two it is", says: "one part has one of the two shapes in a row, and the other is empty: two cases" },
    { code: "M6", name: "one or the other, for a part", says: "the part has the one shape or the other: two cases" },
    { code: "M7", name: "one or the other, for all of it", says: "all of it has the one shape or the other: two cases" },
    { code: "M10", name: "the name by the shape", says: "the shape asks for its own name, so {v} is that and is filled in everywhere" },
    { code: "M11", name: "the inside by the shape", says: "the part has the name that the shape asks for, so what is in it has the shape inside" },
    { code: "M12", name: "the inside by the shape, in any order", says: "the parts may stand in any order, so each order is tried: {n}" },
    { code: "clash", name: "two shapes that clash", why: "the two tests share no report" },
];

const RULE_FOLD = 2;
const RULE_CLASH = 33;

// Which of the parts on the other side a run may take.
function cutsSay(count) {
    if (count === 1) return "the run {v} can take nothing here: one case";
    if (count === 2) return "the run {v} may take nothing or the one part: two cases";
    if (count === 3) return "the run {v} may take none, one or both of the parts: three cases";
    return "the run {v} may take none of the parts, the first, the first two, and so on up to all: {n}";
}

const casesSay = (count) => ["no case", "one case", "two cases", "three cases"][count] ?? `${count} cases`;

// sentenceOf(rule, count): the sentence of a step that leaves so many cases, with {v} still in it.
function sentenceOf(rule, count) {
    const { says, why } = RULES[rule];
    const text = count === 0 ? why : typeof says === "function" ? says(count) : says;
    return text.replace("{n}", casesSay(count));
}
