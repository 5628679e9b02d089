#!/usr/bin/env python3
"""Spells this repository's own definitions and lemmas as today's Rattle does: words in snake case, modules in camel case.

usage: python3 tools/spell.py      once, at the top, right after the kit's port/port.py

Text alone: it proves nothing. Functions of src/, exported C names, strings and inputs are in snake case already and stay.
A name of a number (`FREE`) that is also a constant of src/ would mean that constant in a clause; each gets a word of what it numbers.
"""
import glob
import re

# words of std's own, and names of numbers written out
KEPT = re.compile(r"\w*_[A-Z]\w*|n[0-9A-F]+|getD")
PART = re.compile(r"(?<![A-Za-z0-9_₀-₉])[A-Za-z_][A-Za-z0-9_₀-₉]*")
WORDS = ["push-back", "drop-last", "open-walk", "next-back", "close-walk", "hand-over", "free-nodes"]
# what the numbers are of, and their names in specs/
NUMBERS = {
    "kind": "FREE LEAF BRANCH",
    "code": "NEW CLONE RELEASE LEN GET SET PUSH-BACK DROP-LAST OPEN-WALK NEXT NEXT-BACK CLOSE-WALK HAND-OVER FREE-NODES FIRST LAST COMPARE",
    "number": "DONE NO-PARTY NO-OPERATION HOST-ONLY OUT-OF-RANGE EMPTY-SOURCE LIVE-TARGET BAD-BITS NOTHING-THERE FULL NO-NODES"
    " ILL-FORMED NO-ROOM RAGGED NOT-A-FRAME",
    "flag": "SOURCE WALKED FILLED OPENED OTHER OWNERS HOST-ALONE READ CHANGED",
    "mark": "FRAME",
}
NAMES = {name: name.lower().replace("-", "_") + "_" + kind for kind, names in NUMBERS.items() for name in names.split()}
# lemmas that would have their function's name
LEMMAS = {"crates/audit_model/proofs/Decides.antt": ["is_free"], "crates/serving/proofs/Demands.antt": ["in_use"]}


def snake(m):
    t = m.group(0)
    if KEPT.fullmatch(t) or not re.match(r"[a-z]\w*[A-Z]", t):
        return t
    return re.sub(r"[A-Z]+", lambda c: "_" + c.group(0).lower(), t)


def whole(name):
    return re.compile(r"(?<![\w'-])" + re.escape(name) + r"(?![\w'-])")


NAME = re.compile(r"(?<![\w'-])(?:" + "|".join(sorted(NAMES, key=len, reverse=True)) + r")(?![\w'-])")


def numbers(text):
    return NAME.sub(lambda m: NAMES[m.group(0)], text)


# in a source only what clauses and their imports say, and names with a dash, which no constant has
def numbers_in_source(text):
    text = re.sub(r"^ghost use .*$", lambda m: numbers(m.group(0)), text, flags=re.M)
    out, at = [], 0
    for m in re.finditer(r"^    (?:requires|ensures)\b[^{\n]*\{", text, re.M):
        end, depth = m.end(), 1
        while depth:
            depth += {"{": 1, "}": -1}.get(text[end], 0)
            end += 1
        out += [text[at:m.end()], numbers(text[m.end():end])]
        at = end
    text = "".join(out) + text[at:]
    return NAME.sub(lambda m: NAMES[m.group(0)] if "-" in m.group(0) else m.group(0), text)


def spell(path, text):
    for name in LEMMAS.get(path, []):
        text = whole(name).sub(name + "_lem", text)
    for alias in set(re.findall(r" as ([a-z]\w*[A-Z]\w*)$", text, re.M)):
        text = whole(alias).sub(alias[0].upper() + alias[1:], text)
    text = PART.sub(snake, text)
    text = numbers_in_source(text) if path.endswith(".rt") else edit(text) if path.endswith(".edit") else numbers(text)
    return text if path.endswith(".rt") else "\n".join(constructors(path, line) for line in text.split("\n"))


# an edit of a source changes code, in which a constant keeps its name
def edit(text):
    return numbers(text) if "file: src/" not in text else "\n".join(numbers(line) if line.startswith("#") and "`" in line else line for line in text.split("\n"))


# constructors are one word each; comments keep their prose
def constructors(path, line):
    code, dashes, comment = line.partition("--")
    if path.endswith(".edit") and line.startswith("#"):
        return line
    for word in WORDS:
        code = whole(word).sub(word.replace("-", "_"), code)
    return code + dashes + comment


def main():
    paths = [p for end in ("specs/**/*.antt", "proofs/**/*.antt", "src/**/*.rt", "must-fail/*.edit") for p in glob.glob("crates/*/" + end, recursive=True)]
    changed = 0
    for path in sorted(set(paths)):
        with open(path, encoding="utf-8") as f:
            old = f.read()
        new = spell(path, old)
        if new != old:
            changed += 1
            with open(path, "w", encoding="utf-8") as f:
                f.write(new)
    print(f"spelled: {changed} files")


main()
