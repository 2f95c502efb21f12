// Reports drawn as trees. What is drawn is {label, tag, sort, tint, children}: tag and sort name the blank that a part fills, tint is the
// sort of the blank that it stands inside. layout() places boxes and is plain arithmetic; drawing() makes the picture.
"use strict";

const BOX = { height: 28, tagged: 44, padding: 13, letter: 8.2, gap: 18, level: 78, margin: 6 };

// filledTrees(sheet, trees, valueOf): trees with the values of their blanks put in. An empty run is drawn as an empty place.
function filledTrees(sheet, trees, valueOf) {
    const label = (tree) => nameToken(sheet, "part", tree.number).text;
    const inside = (tree, sort) => ({ label: label(tree), tag: "", sort: "", tint: sort, children: tree.children.map((child) => inside(child, sort)) });
    const drawn = [];
    for (const tree of trees) {
        const tag = tree.kind === "part" ? "" : nameToken(sheet, tree.kind, tree.number).text;
        if (tree.kind === "part" || tree.kind === "name") {
            const named = tree.kind === "part" ? tree : valueOf(tree)[0];
            drawn.push({ label: label(named), tag, sort: tag && tree.kind, tint: "", children: filledTrees(sheet, tree.children, valueOf) });
            continue;
        }
        const value = valueOf(tree);
        if (value.length === 0) drawn.push({ label: "nothing", tag, sort: tree.kind, tint: "", empty: true, children: [] });
        for (const part of value) drawn.push({ ...inside(part, tree.kind), tag, sort: tree.kind });
    }
    return drawn;
}

const boxWidth = (tree) => Math.max(tree.label.length * BOX.letter, tree.tag.length * BOX.letter * 0.85) + 2 * BOX.padding;
const boxHeight = (tree) => (tree.tag ? BOX.tagged : BOX.height);

// layout(trees): {boxes, edges, width, height}; a box is {x, y, width, height, tree}, with x in its middle.
function layout(trees) {
    const boxes = [];
    const edges = [];
    let deepest = 0;

    const spread = (list) => list.reduce((sum, tree) => sum + span(tree), 0) + BOX.gap * Math.max(0, list.length - 1);
    const spans = new Map();
    function span(tree) {
        if (!spans.has(tree)) spans.set(tree, Math.max(boxWidth(tree), spread(tree.children)));
        return spans.get(tree);
    }

    function place(tree, left, y) {
        const height = boxHeight(tree);
        const inner = spread(tree.children);
        let from = left + (span(tree) - inner) / 2;
        const box = { x: left + span(tree) / 2, y, width: boxWidth(tree), height, tree };
        boxes.push(box);
        deepest = Math.max(deepest, y + height);
        const children = [];
        for (const child of tree.children) {
            children.push(place(child, from, y + BOX.level));
            from += span(child) + BOX.gap;
        }
        if (children.length > 0) box.x = (children[0].x + children[children.length - 1].x) / 2;
        for (const child of children) edges.push({ from: box, to: child });
        return box;
    }

    let left = BOX.margin;
    for (const tree of trees) {
        place(tree, left, BOX.margin);
        left += span(tree) + BOX.gap;
    }
    return { boxes, edges, width: Math.ceil(left - BOX.gap + BOX.margin), height: Math.ceil(deepest + BOX.margin) };
}

const SVG = "http://www.w3.org/2000/svg";

function shape(tag, attributes, text) {
    const node = document.createElementNS(SVG, tag);
    for (const [name, value] of Object.entries(attributes)) node.setAttribute(name, value);
    if (text !== undefined) node.textContent = text;
    return node;
}

// drawing(trees, words): the picture, with the words that say what it shows.
function drawing(trees, words) {
    const plan = layout(trees);
    const size = { width: plan.width, height: plan.height, viewBox: `0 0 ${plan.width} ${plan.height}` };
    const picture = shape("svg", { class: "tree", role: "img", "aria-label": words, ...size });
    for (const { from, to } of plan.edges) {
        const top = from.y + from.height;
        const middle = (top + to.y) / 2;
        picture.append(shape("path", { class: "edge", d: `M ${from.x} ${top} C ${from.x} ${middle}, ${to.x} ${middle}, ${to.x} ${to.y}` }));
    }
    for (const box of plan.boxes) {
        const { tree } = box;
        const sort = tree.sort || tree.tint;
        const kind = ["box", sort ? "fills-" + sort : "", tree.empty ? "empty" : ""].filter(Boolean).join(" ");
        picture.append(shape("rect", { class: kind, x: box.x - box.width / 2, y: box.y, width: box.width, height: box.height, rx: 7 }));
        picture.append(shape("text", { class: tree.empty ? "label faint" : "label", x: box.x, y: box.y + 19 }, tree.label));
        if (tree.tag) picture.append(shape("text", { class: "tag blank-" + tree.sort, x: box.x, y: box.y + 36 }, tree.tag));
    }
    return picture;
}

// A picture that may be wider than the page, in a frame that scrolls.
function figure(trees, words, caption) {
    const frame = el("div", { class: "picture" }, drawing(trees, words));
    return el("figure", {}, frame, caption ? el("figcaption", {}, caption) : null);
}
