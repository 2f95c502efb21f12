// The way of a question through the rules, as a tree of conjunctions. The desk says which steps were made (the trail) and makes each of them
// again by itself (desk_step); here they are only put together.
//
// Conjunctions wait in order. Where the first has the words of the next line of the answer it is that line, since no rule applies to a
// line; otherwise the next step of the trail is made of it, and the results wait in its place.
"use strict";

function sameWords(left, right) {
    return left.length === right.length && left.every((word, i) => word === right[i]);
}

// walkOf(desk, question, answer): {roots, steps, refusal}; a refusal says why the walk breaks off. A node is {words, alternative, parent, step,
// line, children, made}: step is {index, rule, literal, swapped}, line the number of the answer's line that it is, made the number of steps
// after which it is there.
function walkOf(desk, question, answer) {
    const node = (words, alternative, parent, made) => ({ words, alternative, parent, step: null, line: null, children: [], made });
    const roots = readHeader(question).alternatives.map((words, i) => node(words, i, null, 0));
    const waiting = roots.slice().reverse();
    const steps = [];
    let line = 0;
    while (waiting.length > 0) {
        const first = waiting.pop();
        const next = answer.lines[line];
        if (next && next.alternative === first.alternative && sameWords(next.words, first.words)) {
            first.line = line;
            line += 1;
            continue;
        }
        const at = 3 * steps.length;
        if (at >= answer.trail.length) return { roots, steps, refusal: 27 };
        const [rule, literal, side] = answer.trail.slice(at, at + 3);
        const made = desk.step(question, first.words, first.alternative, rule, literal, side);
        if (made.refusal) return { roots, steps, refusal: made.refusal };
        first.step = { index: steps.length, rule, literal, swapped: side === 1 };
        steps.push(first);
        first.children = made.results.map((result) => node(result.words, result.alternative, first, steps.length));
        waiting.push(...first.children.slice().reverse());
    }
    return { roots, steps, refusal: 0 };
}

// The literals of a node that its step is about: that of the step, and for a rule of two literals the other one. With which later test a test
// clashes the desk says: it is asked about the two alone.
function concerned(desk, question, node, literals) {
    const { rule, literal } = node.step;
    if (rule === RULE_FOLD) {
        const again = literals.findIndex((l, i) => i > literal && sameWords(l.words, literals[literal].words));
        return { taken: [again], named: [literal] };
    }
    if (rule === RULE_CLASH) {
        const clashes = (other) => desk.step(question, [...literals[literal].words, ...other.words], 0, RULE_CLASH, 0, 0).refusal === 0;
        const second = literals.findIndex((l, i) => i > literal && l.kind === "membership" && clashes(l));
        return { taken: [literal], named: [second] };
    }
    return { taken: [literal], named: [] };
}

// What the side that is looked at first begins with, or null: for many rules the blank that a step is about.
function lookedAt(node, literals) {
    const literal = literals[node.step.literal];
    const side = node.step.swapped ? literal.right : literal.left;
    return side.length === 0 ? null : side[0];
}

// changesIn(node, before, after): what has become of the literals of a result, by their places: those that stand for the old one are "new", or
// "stays" where it is one of them; of the others "filled in" where a step wrote something into them.
function changesIn(node, before, after) {
    const { rule, literal } = node.step;
    const changes = {};
    if (rule === RULE_FOLD) return changes;
    const fresh = after.length - (before.length - 1);
    after.forEach(({ words }, i) => {
        if (i >= literal && i < literal + fresh) changes[i] = sameWords(words, before[literal].words) ? "stays" : "new";
        else if (!sameWords(words, before[i < literal ? i : i - fresh + 1].words)) changes[i] = "filled in";
    });
    return changes;
}
