#!/usr/bin/env python3
"""Writes the names of definitions and lemmas in snake case: kindOf becomes kind_of, upTo-is becomes up_to-is.

usage: tools/respell.py [--check]

Run once at the top of the repository, after port.py. Names that a library has, functions of src/, strings, comments' prose and exported names stay.
--check writes nothing and prints the names that would fall together with others of a file.
"""
import os
import re
import sys

TOKEN = re.compile(r"[^\s(){}\[\];,.\"«»@|`'′]+'*")
CAMEL = re.compile(r"(?<![A-Za-z0-9])[a-z][a-z0-9]*[A-Z]")
USE = re.compile(r"use ([^\s{}]+?)\.\{([^{}]*)\}")

# Lemmas that would have their function's name: where they are declared, and their names.
LEMMAS = {
    "collecting.proofs.Names": ["at_f", "at_x"],
    "collecting.proofs.Taking": ["at_x"],
    "demands.proofs.Days": ["by_itself"],
    "exact.proofs.Wider": ["lines_fit"],
    "folding.proofs.Same": ["same_at"],
    "meaning.proofs.Values": ["with_value"],
    "named_steps.proofs.OfOne": ["of_one"],
    "overlap_demands.proofs.Rows": ["row_words"],
    "patterns.proofs.OneTerm": ["goes_on"],
    "running.proofs.Left": ["left_over"],
    "running.proofs.Lengths": ["lines_fit"],
    "text_survey.proofs.Scan": ["line_on"],
    "texts.proofs.RoundTrip": ["as_read"],
    "texts.proofs.Tables": ["in_order"],
    "walk.proofs.States": ["in_left", "in_right"],
    "walking.proofs.Elements": ["goes_on"],
    "write_text.proofs.Counting": ["as_read"],
}


def lemmas_of(path, text):
    """The lemmas of LEMMAS that a file declares or imports."""
    module = path.replace(os.sep, ".")[len("crates.") :].rpartition(".")[0]
    found = set(LEMMAS.get(module, []))
    for above, names in USE.findall(text):
        told = LEMMAS.get(above.removeprefix("Rattle."), [])
        found |= {n for n in (it.strip() for it in names.split(",")) if n in told}
    return found


def snake(word):
    return re.sub(r"(?<=[a-z0-9])([A-Z])", lambda it: "_" + it[1].lower(), word)


def texts():
    for folder, dirs, files in os.walk("crates"):
        dirs[:] = sorted(d for d in dirs if d != "out")
        for name in sorted(files):
            if name.endswith((".rt", ".antt", ".edit")):
                path = os.path.join(folder, name)
                with open(path, encoding="utf-8") as f:
                    yield path, f.read()


def main():
    check = "--check" in sys.argv
    own = {d for d in os.listdir("crates")}
    all_texts = list(texts())
    library = set()
    for _, text in all_texts:
        for module, names in USE.findall(text):
            parts = module.split(".")
            if not (parts[0] == "Rattle" and len(parts) > 1 and parts[1] in own):
                library |= {n.strip() for n in names.split(",")}
    turned = {}

    def turn(match):
        word = match[0]
        if not CAMEL.search(word) or word in library:
            return word
        turned[word] = snake(word)
        return turned[word]

    changed = 0
    fell = 0
    for path, text in all_texts:
        old = text
        if path.endswith(".antt"):
            for name in lemmas_of(path, text):
                text = re.sub(rf"(?<![\w.'-]){name}(?![\w.'-])", name + "_lem", text)
        lines = []
        here = set(TOKEN.findall(re.sub(r"--[^\n]*", "", text))) if path.endswith(".antt") else set()
        for line in text.split("\n"):
            # what stands in quotes in code is no name
            parts = re.split(r"(b?\"(?:[^\"\\]|\\.)*\")", line) if path.endswith((".rt", ".edit")) else [line]
            lines.append("".join(p if i % 2 else TOKEN.sub(turn, p) for i, p in enumerate(parts)))
        new = "\n".join(lines)
        for word in here:
            if CAMEL.search(word) and word not in library and snake(word) in here:
                print(f"together: {path}: {word} and {snake(word)}")
                fell += 1
        if new != old:
            changed += 1
            if not check:
                with open(path, "w", encoding="utf-8") as f:
                    f.write(new)
    print(f"{len(turned)} names in {changed} files; {fell} fall together")


main()
