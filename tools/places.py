#!/usr/bin/env python3
"""The places in src/ that docs/DESIGN-PASS.md counts: python3 tools/places.py [-l] [COMMIT]. With -l each place, else a count for each row."""
import collections
import re
import subprocess
import sys

ARGS = [a for a in sys.argv[1:] if a != "-l"]
LIST = "-l" in sys.argv[1:]
COMMIT = ARGS[0] if ARGS else None


def lines_of(*cmd):
    return subprocess.run(cmd, check=True, capture_output=True, text=True).stdout


def files(pattern):
    if COMMIT:
        names = lines_of("git", "ls-tree", "-r", "--name-only", COMMIT).split("\n")
    else:
        names = lines_of("git", "ls-files", "-co", "--exclude-standard").split("\n")
    for name in sorted(names):
        if re.fullmatch(pattern, name):
            try:
                yield name, lines_of("git", "show", f"{COMMIT}:{name}") if COMMIT else open(name).read()
            except FileNotFoundError:
                pass


SRC = list(files(r"crates/[^/]+/src/.*\.rt"))
GHOST = re.compile(r"^\s*(ghost|requires|ensures|//)")
ROWS = collections.OrderedDict()


def row(name, places):
    ROWS[name] = list(places)


def grep(pattern, only=r".*", without=r"$^"):
    for name, text in SRC:
        if re.search(only, name):
            for n, line in enumerate(text.split("\n"), 1):
                if re.search(pattern, line) and not GHOST.match(line) and not re.search(without, line):
                    yield f"{name}:{n}: {line.strip()}"


# A function: its name, its parameters' names, the text of its parameters, its clauses and its body.
HEAD = re.compile(r"^ *(?:pub )?(?:extern \"C\" )?fn (\w+)(?:<[^(]*>)?\(([^)]*)\)", re.M)


def functions():
    for name, text in SRC:
        for m in HEAD.finditer(text):
            start = re.compile(r"^ *\{$|\{$", re.M).search(text, m.end())
            end = re.compile(r"^" + re.match(r" *", text[m.start():]).group() + r"\}$", re.M).search(text, m.end())
            if start and end:
                parameters = [p.split(":")[0].replace("mut ", "").strip(" &\n") for p in m.group(2).split(",") if p.strip()]
                yield name, text[: m.start()].count("\n") + 1, m.group(1), parameters, m.group(2), text[m.end():start.start()], text[start.end():end.start()]


def body(text):
    tokens = re.findall(r"//[^\n]*|(?:\w+::)*\w+|\S", text)
    seen = {}
    return tuple(seen.setdefault(t, f"_{len(seen)}") if re.match(r"\w", t) and t not in {"if", "else", "let", "mut", "while", "for", "in", "match", "return", "as", "self"} else t for t in tokens if not t.startswith("//"))


# ---- 1
row("1 enums of the shape of Option, Result or std's Ordering", grep(r"^(pub )?enum (Got|Edited|Ordering)\b"))
row("1 a kind, an operation, a mark or a refusal as a byte in a field, a parameter or a result", list(grep(r"\b(number|kind|operation|mark): u8")) + list(grep(r"fn (refusal|refusal_of_sizes|first|print_line).*-> u8")) + list(grep(r"^\) -> u8", r"refusals")))
row("1 constants that number kinds, operations, marks, refusals and uses", grep(r"^(pub )?const \w+: u(8|32) = ", r"limits/src/(numbers|operations)|limits/src/words|refusals|lines/src|limits/src/lib", r"PARTY|SLOT|LAST_WALK|PARTIES|HOST: |BITS|LENGTH|WIDTH|LAST_OPERATION|CELLS"))
row("1 comparisons with such a constant", grep(r"(==|!=|<) (operations|numbers)::|[=!]= (FREE|LEAF|BRANCH|FRAME|DONE)\b|words::(FREE|LEAF|BRANCH)"))
row("1 a flag beside the value that it says is there", grep(r"\b(there: bool|ok: bool|stores: bool|wanted: bool)|\.most == 0"))
# ---- 2
groups = collections.defaultdict(list)
for f in functions():
    key = (len(f[3]), body(f[6]))
    if len(key[1]) > 15:
        groups[key].append(f"{f[0]}:{f[1]}: {f[2]}")
row("2 functions whose body is another's but for names, types and constants", [p for g in groups.values() if len(g) > 1 for p in g])
# ---- 3
row("3 loops that count by hand", grep(r"^\s*(while|loop)\b"))
# ---- 4
row("4 a field taken out to compare two values", grep(r"\.0 [=!]= \w+\.0"))
row("4 a copy with all fields written out", grep(r"^\s*(\w+): \w+\.\1,$"))
row("4 conversions by `as`", grep(r" as (u8|u16|u32|u64|i32|usize)\b"))
row("4 big-endian bytes by hand", grep(r"16777216|>> 24"))
# ---- 5
for title, names in [("the store's slices", ("kinds", "used")), ("the store's free nodes", ("order", "free")), ("the same as a supply", ("order", "supply")), ("a walk's arrays", ("nodes", "indices")), ("a walk's slices", ("walk_numbers", "walk_nodes")), ("a tree's cells, bits and height", ("cells", "bits", "height")), ("requests, room and the frames left", ("requests", "room", "k", "count")), ("the reader's outputs", ("marks", "requests"))]:
    row(f"5 functions that take {title}", (f"{f[0]}:{f[1]}: {f[2]}" for f in functions() if all(n in f[3] for n in names)))
row("5 functions of eight parameters and more", (f"{f[0]}:{f[1]}: {f[2]}" for f in functions() if len(f[3]) >= 8))
# ---- 6
row("6 a buffer and its length", (f"{f[0]}:{f[1]}: {f[2]}" for f in functions() if {"begun", "len"} <= set(f[3]) or {"text", "len"} <= set(f[3])))
row("6 a table by value and back", (f"{f[0]}:{f[1]}: {f[2]}" for f in functions() if re.search(r"versions: \[(records::)?Version", f[4])))
# ---- 7
chains = collections.Counter()
for f in functions():
    hits = len(re.findall(r"operation == operations::", f[6]))
    if hits > 1:
        chains[f"{f[0]}:{f[1]}: {f[2]}"] = hits
row("7 functions that choose by a chain of tests of the operation", chains)
# ---- 8
ANSWERS = list(files(r"crates/[^/]+/proofs/.*/Answers\.antt"))
row("8 answers", (f"{n}: {m}" for n, t in ANSWERS for m in re.findall(r"^pub ([^ ]+) :", t, re.M)))
row("8 lines of proofs of functions", (f"{n}:{k}" for n, t in files(r"crates/[^/]+/proofs/.*/(Answers|Invariants|Proof)\.antt") for k in range(t.count("\n"))))

for name, places in ROWS.items():
    print(f"{len(places):5}  {name}")
    if LIST and not name.startswith("8"):
        for p in places:
            print("         " + p)
