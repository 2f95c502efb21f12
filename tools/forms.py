#!/usr/bin/env python3
"""Lists the places in crates/*/src that read like the older language, by the points of docs/DESIGN-PASS.md.

usage: tools/forms.py [POINT] [FOLDER]

POINT is a number from 1 to 7 and lists its places, a line each; without it each point's count is printed. FOLDER is a checkout (default: this one). The
patterns are those that docs/DESIGN-PASS.md names; they go by the text, so that a place that they find may have a reason to stand.
"""
import collections
import os
import re
import sys

ITEM = re.compile(r"^(?:#\[[^\n]*\]\n)*(?:pub(?:\(crate\))? )?(?:const )?(fn|struct|enum|impl|trait)\b", re.M)


def files(top):
    for crate in sorted(os.listdir(os.path.join(top, "crates"))):
        src = os.path.join(top, "crates", crate, "src")
        for folder, _, names in sorted(os.walk(src)):
            for name in sorted(names):
                if name.endswith(".rt"):
                    path = os.path.join(folder, name)
                    with open(path, encoding="utf-8") as f:
                        text = f.read()
                    yield crate, os.path.relpath(path, os.path.join(top, "crates")), re.sub(r"//[^\n]*", "", text)


class Item:
    def __init__(self, crate, path, kind, text):
        self.crate, self.path, self.kind, self.text = crate, path, kind, text
        head = re.search(r"\b%s\s+([A-Za-z_0-9]+)" % kind, text)
        self.name = head[1] if head else "?"
        self.body = text[text.rfind("\n{\n") :] if kind == "fn" and "\n{\n" in text else text[text.find("{") :]
        self.head = text[: len(text) - len(self.body)]

    def where(self):
        return f"{self.path} {self.name}"


def items(top):
    found = []
    for crate, path, text in files(top):
        at = [m for m in ITEM.finditer(text)]
        for m, after in zip(at, at[1:] + [None]):
            found.append(Item(crate, path, m[1], text[m.start() : after.start() if after else len(text)]))
        # methods
        for m in re.finditer(r"^    (?:pub )?fn (\w+)[^\n]*\n(?:.*\n)*?    }\n", text, re.M):
            found.append(Item(crate, path, "fn", m[0].replace("\n    ", "\n").strip() + "\n"))
    return found


def variants(it):
    inside = it.body.strip()[1:]
    return re.findall(r"^    ([A-Z]\w*)(\([^\n]*\)|\s*\{[^}]*\})?,", inside, re.M)


def fields(it):
    return re.findall(r"^    (?:pub )?(\w+): ([^\n]+),", it.body, re.M)


# 1. own enums of the shape of Option or Result, a flag with a value beside it, numbers for kinds or refusals
def point1(all_items):
    for it in all_items:
        if it.kind == "enum":
            v = variants(it)
            holds = [x for x in v if x[1]]
            if any("Refusal" in x[1] for x in v):
                yield f"{it.where()}: an enum with a refusal among {len(v)} variants"
            elif len(v) == 2 and len(holds) >= 1:
                yield f"{it.where()}: an enum of two variants with a value"
            elif len(v) == 3 and len(holds) == 1:
                yield f"{it.where()}: an enum of one value and two words"
        if it.kind == "struct":
            f = fields(it)
            flags = [n for n, t in f if t == "bool"]
            if flags and len(f) > len(flags):
                yield f"{it.where()}: a flag ({', '.join(flags)}) with a value beside it"
        if it.kind == "fn" and re.search(r"-> (u8|u16|u32|usize)\b", it.head) and len(re.findall(r"^\s+[A-Z]\w*::\w+(?:\([^)]*\))? => \d+,", it.body, re.M)) >= 3:
            yield f"{it.where()}: a number for each variant of an enum"


def shape(it):
    """A function's body with its own names taken out."""
    seen = {}
    def name(m):
        w = m[0]
        if w in ("if", "else", "while", "for", "in", "loop", "match", "return", "let", "mut", "fn", "true", "false", "as", "bool", "usize", "u8", "u16", "u32", "u64"):
            return w
        return seen.setdefault(w, f"x{len(seen)}")
    return re.sub(r"\b[A-Za-z_]\w*\b|\b\d\w*\b", name, " ".join(it.body.split()))


# 2. functions that differ only in a name, a type, a number: the same shape of ten words or more
def point2(all_items):
    groups = collections.defaultdict(list)
    for it in all_items:
        if it.kind == "fn":
            s = shape(it)
            if len(re.findall(r"\w+", s)) >= 7 and re.search(r"\b(if|while|for|match|as|loop)\b", s):
                groups[s].append(it)
    for s, group in sorted(groups.items(), key=lambda g: g[1][0].where()):
        if len(group) > 1:
            yield f"{len(group)}: " + ", ".join(it.where() for it in group)


# 3. a loop whose body counts a number up or down by one
def point3(all_items):
    for it in all_items:
        if it.kind != "fn":
            continue
        lines = it.text.split("\n")
        for i, line in enumerate(lines):
            m = re.match(r"(\s*)(while .*|loop) \{$", line)
            if not m:
                continue
            for inner in lines[i + 1 :]:
                if inner.startswith(m[1] + "}"):
                    break
                if re.match(r"\s*\w+(\.\w+)? (\+|-)= 1;", inner):
                    yield f"{it.where()}: {m[2]}"
                    break


# 4. equality, order, copying, conversion and printing by hand: a function that is a comparison, a cast or a copy
def point4(all_items):
    for it in all_items:
        if it.kind != "fn":
            continue
        body = " ".join(it.body.split())
        if re.fullmatch(r"\{ \w+ as (u8|u16|u32|u64|usize) \}", body):
            yield f"{it.where()}: a cast"
        elif re.fullmatch(r"\{ if (\w+) <=? (\w+) \{ (\1|\2) \} else \{ (\1|\2) \} \}", body):
            yield f"{it.where()}: the lesser or the greater"
        elif re.fullmatch(r"\{ if (\w+) < \d+ \{ (return )?\1 as u16;? \} (else \{ )?\d+ \}( \})?", body):
            yield f"{it.where()}: a cast with a bound"
        elif re.search(r"while .*\{\s*if (\w+)\[\w+\] != (\w+)\[\w+\] \{\s*return false", it.body):
            yield f"{it.where()}: equality of two slices"
        elif re.search(r"while .*\{\s*(\w+)\[[\w +]+\] = (\w+\[[\w +]+\]|0|false);\s*(\w+ \+= 1;\s*)+\}", it.body):
            yield f"{it.where()}: a copy or a fill"


# 5. a clause of what is required that stands at three or more functions of a crate, and three or more parameters that travel together
def point5(all_items):
    clauses = collections.defaultdict(set)
    groups = collections.defaultdict(set)
    for it in all_items:
        if it.kind != "fn":
            continue
        for c in re.findall(r"requires\*?[^{]*\{ (.*) \}\n", it.head):
            for part in c.split(" × "):
                clauses[(it.crate, part.strip("() "))].add(it.name)
        params = re.search(r"\(([^{]*?)\)(?: ->|\n|$)", it.head.split(it.name, 1)[-1].replace("\n", " ") + "\n")
        names = [p.strip() for p in params[1].split(", ")] if params else []
        names = [n.rstrip(",") for n in names if ":" in n]
        for n in range(3, len(names) + 1):
            for at in range(len(names) - n + 1):
                groups[(it.crate, tuple(names[at : at + n]))].add(it.name)
    for (crate, c), users in sorted(clauses.items()):
        if len(users) >= 3:
            yield f"{crate}: requires {c}: {len(users)} functions"
    longest = {k: v for k, v in groups.items() if len(v) >= 3}
    for (crate, g), users in sorted(longest.items()):
        if not any(o != g and oc == crate and len(o) > len(g) and set(g) <= set(o) and longest[(oc, o)] >= users for oc, o in longest):
            yield f"{crate}: ({', '.join(g)}): {len(users)} functions"


# 6. a buffer with a place beside it that is handed back: (.. &mut [T] .. usize ..) -> usize; an array with a count in one struct
def point6(all_items):
    for it in all_items:
        head = " ".join(it.head.split())
        if it.kind == "fn" and re.search(r"&mut \[[^\]]*\]", head) and re.search(r": usize", head) and re.search(r"-> usize\b", head):
            yield f"{it.where()}: writes at a place and hands back the next"
        if it.kind == "struct" and any(re.match(r"\[", t) for _, t in fields(it)):
            yield f"{it.where()}: an array in a struct"


# 7. a switch on a number: three tests or more of one value against numbers, one after another
def point7(all_items):
    for it in all_items:
        if it.kind == "fn":
            tested = collections.Counter(re.findall(r"if (\w+) == [\w]+ \{\s*return", it.body))
            if tested and max(tested.values()) >= 3:
                yield f"{it.where()}: {max(tested.values())} tests of {tested.most_common(1)[0][0]}"


POINTS = [point1, point2, point3, point4, point5, point6, point7]

if __name__ == "__main__":
    words = sys.argv[1:]
    number = int(words.pop(0)) if words and words[0].isdigit() else 0
    top = words[0] if words else os.path.join(os.path.dirname(os.path.abspath(__file__)), "..")
    everything = items(top)
    for i, point in enumerate(POINTS, 1):
        if number in (0, i):
            found = list(point(everything))
            if number:
                print("\n".join(found))
            print(f"point {i}: {len(found)} places")
