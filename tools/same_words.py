#!/usr/bin/env python3
"""Sets the contracts, the definitions and the lemmas of two states of this repository side by side, word by word, whatever their spelling.

usage: tools/same_words.py OLD NEW

OLD is a folder with the state before the move to today's Rattle, NEW one with a state after it. Words are compared in their order, in snake case, with
brackets, clause names, imports and comments left out; what a reference holds at the start (now, old) and at the end (new) is told apart. Each place with
other words is printed, and last how many were compared. A bracket that moved is not seen.
"""
import collections
import difflib
import os
import re
import sys

CLAUSE = re.compile(r"\b(requires|ensures)\b\*?([^{}()]*)\{")
# one word each that today's library spells otherwise
TODAY = {"get_d": "get_or", "option_map": "map", "Option_map": "map", "list_Memᴰ": "Memᴰ", "List_Memᴰ": "Memᴰ"}


def snake(word):
    word = re.sub(r"(?<=[a-z0-9])([A-Z])", lambda it: "_" + it[1].lower(), word)
    word = word.replace("-", "_").replace("·", "_").replace("′", "'").replace("″", "''").replace("◌", "_").removesuffix("_lem")
    if re.match(r"[A-Z][a-z]?\w*_", word):
        word = word[0].lower() + word[1:]
    word = re.sub(r"(^|_)get_d(?=_|$)", r"\1get_or", word)
    return TODAY.get(word, word)


def words(text):
    found = [snake(it) for it in re.findall(r"[^\s(){}\[\];,.\"«»@]+|\.", text)]
    line = " ".join(found)
    line = line.replace("Option . map", "map").replace("List . Memᴰ", "Memᴰ").replace("list_Memᴰ_", "Memᴰ . ")
    # the two modules of a call's contract
    line = re.sub(r"(\S+)_contract \. ended", r"\1 . ended", line)
    line = re.sub(r"(\S+)_reads \. (Pre|Post)", r"\1 . Reads . \2", line)
    return line.split()


def closing(text, at):
    deep = 0
    for i in range(at, len(text)):
        deep += (text[i] == "{") - (text[i] == "}")
        if not deep:
            return i
    return len(text)


def heads(text):
    """The functions of a source file: name, signature, clauses."""
    text = re.sub(r"//[^\n]*", "", text)
    for m in re.finditer(r"\bfn (\w+)", text):
        at, clauses, sign, first = m.end(), [], None, None
        while True:
            brace = text.find("{", at)
            semi = text.find(";", at)
            if brace < 0:
                break
            c = CLAUSE.match(text, max(text.rfind("requires", at, brace), text.rfind("ensures", at, brace)))
            if not c or c.end() - 1 != brace:
                if first is None:
                    first = brace
                break
            if first is None:
                first = c.start()
            end = closing(text, brace)
            clauses.append((c[1], text[brace + 1 : end]))
            at = end + 1
        yield m[1], " ".join(text[m.end() : first].split()), clauses


def facts(clauses, old):
    """The words of the clauses of one kind."""
    found = []
    for _, text in clauses:
        result = None
        if old:
            m = re.match(r"\s*λ\s+(\S+)\.\s*(.*)$", text, re.S)
            if m:
                result, text = m[1], m[2]
            text = text.replace("⌜", " ").replace("⌝", " ")
        said = words(text)
        if result and result != "_":
            said = ["result" if it == snake(result) else it for it in said]
        found += said
    line = " ".join(found)
    if old:
        line = re.sub(r"now (\S+) \. entry", r"\1 . AT", line)
        line = re.sub(r"now (\S+) \. exit", r"\1 . OUT", line)
        line = re.sub(r"now (\S+)", r"\1 . AT", line)
        line = re.sub(r"(\S+) \. entry \. now", r"\1 . AT", line)
        line = line.replace(" . old", " . AT")
    else:
        line = re.sub(r" \. (now|old)(?= |$)", " . AT", line)
        line = re.sub(r" \. new(?= |$)", " . OUT", line)
    return [it for it in line.split() if it != "×"]


def sources(top):
    found = {}
    for folder, folders, files in os.walk(os.path.join(top, "crates")):
        folders[:] = sorted(it for it in folders if not (it == "out" and os.path.dirname(os.path.relpath(folder, top)) == "crates"))
        for name in sorted(files):
            path = os.path.relpath(os.path.join(folder, name), top)
            if name.endswith((".rt", ".antt")) and name != "Lib.antt":
                with open(os.path.join(top, path), encoding="utf-8") as f:
                    found[path] = f.read()
    return found


def definitions(text):
    text = re.sub(r"--[^\n]*", "", text)
    lines = [it for it in text.split("\n") if not re.match(r"\s*(pub |unfoldable |ghost )*use ", it)]
    return words("\n".join(lines))


def places(old, new):
    for op, a, b, c, d in difflib.SequenceMatcher(None, old, new, autojunk=False).get_opcodes():
        if op != "equal":
            yield " ".join(old[max(0, a - 3) : b + 3]), " ".join(new[max(0, c - 3) : d + 3])


def main(old_top, new_top):
    old, new = sources(old_top), sources(new_top)
    functions = files = lemmas = 0
    for path, text in old.items():
        parts = path.split(os.sep)
        if path.endswith(".rt"):
            now = collections.defaultdict(list)
            for name, sign, clauses in heads(new.get(path, "")):
                now[name].append((sign, clauses))
            for name, sign, clauses in heads(text):
                functions += 1
                if not now[name]:
                    print(f"{path}: {name}: is not there")
                    continue
                sign_now, clauses_now = now[name].pop(0)
                if sign != sign_now:
                    print(f"{path}: {name}: signature: {sign} | {sign_now}")
                for kind in ("requires", "ensures"):
                    a = facts([it for it in clauses if it[0] == kind], True)
                    b = facts([it for it in clauses_now if it[0] == kind], False)
                    if a != b:
                        print(f"{path}: {name}: {kind}: {' '.join(a)} | {' '.join(b)}")
        elif parts[2] == "specs":
            files += 1
            if path not in new:
                print(f"{path}: is not there")
                continue
            a, b = definitions(text), definitions(new[path])
            for x, y in places(a, b) if a != b else ():
                print(f"{path}: {x} | {y}")
        elif parts[2] == "proofs" and len(parts) == 4:
            lemmas += 1
            if path not in new:
                print(f"{path}: is not there")
                continue
            a, b = definitions(text), definitions(new[path])
            for x, y in places(a, b) if a != b else ():
                print(f"{path}: {x} | {y}")
    print(f"{functions} functions, {files} files of definitions, {lemmas} files of lemmas")


if len(sys.argv) != 3:
    print(__doc__)
    raise SystemExit(2)
main(*sys.argv[1:])
