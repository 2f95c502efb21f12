// The address: its fragment says which part of the page is shown and what is asked, so that a link carries a question.
"use strict";

const TABS = ["ask", "read", "walk", "rules", "numbers"];

// fragmentOf(tab, values): #walk?text=..&step=3
function fragmentOf(tab, values) {
    const pairs = Object.entries(values).map(([name, value]) => `${name}=${encodeURIComponent(value)}`);
    return pairs.length === 0 ? `#${tab}` : `#${tab}?${pairs.join("&")}`;
}

// readFragment(fragment): {tab, values}; what cannot be read is left out.
function readFragment(fragment) {
    const [tab, rest] = fragment.replace(/^#/, "").split(/\?(.*)/s);
    const values = {};
    for (const pair of (rest ?? "").split("&")) {
        const at = pair.indexOf("=");
        if (at < 0) continue;
        try {
            values[pair.slice(0, at)] = decodeURIComponent(pair.slice(at + 1));
        } catch (error) {
            // a link that was cut off
        }
    }
    return { tab: TABS.includes(tab) ? tab : "ask", values };
}
