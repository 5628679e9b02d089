"""Wrong headers by rule: mutants(text) yields (rule, line, what, wrong text) for each place where a rule applies."""
import re

TYPES = {"uint8_t": "int8_t", "uint32_t": "uint16_t", "int32_t": "uint32_t", "size_t": "uint32_t", "uintptr_t": "uint8_t"}
TURNED = {
    "==": ["!="], "!=": ["=="], "<": ["<=", ">", "!="], "||": ["&&"], "+": ["-"], "*": ["+"], "%": ["/"],
    "<<": [">>"], ">>": ["<<"], "|": ["&"], "+=": ["-="],
}
TOKEN = re.compile(r'[A-Za-z_]\w*|0[xX][0-9A-Fa-f]+u?|\d+u?|->|<<|>>|==|!=|<=|>=|\|\||&&|\+=|"[^"]*"|\S')


class Header:
    def __init__(self, text):
        self.text = text
        # comments become spaces, so that every place keeps its number
        self.code = re.sub(r"/\*.*?\*/", lambda m: re.sub(r"[^\n]", " ", m[0]), text, flags=re.S)
        self.tokens = [(m[0], m.start(), m.end()) for m in TOKEN.finditer(self.code)]
        self.structs = {m[1]: (m.start(2), m.end(2)) for m in re.finditer(r"typedef struct (\w+) \{(.*?)\}", self.code, re.S)}
        self.calls = {m[1]: (m.start(2), m.end(2)) for m in re.finditer(r"\nJUMPERLOFT1_CALL \w+ (\w+)\((.*?)\);", self.code, re.S)}
        self.inlines = {}
        for m in re.finditer(r"\nstatic inline [^(]*?(\w+)\((.*?)\)\n\{(.*?)\n\}", self.code, re.S):
            self.inlines[m[1]] = ((m.start(2), m.end(2)), (m.start(3), m.end(3)))

    def within(self, span):
        return [t for t in self.tokens if span[0] <= t[1] and t[2] <= span[1]]

    def bodies(self):
        return [body for _, body in self.inlines.values()]

    def edit(self, rule, *changes):
        """One wrong header; changes are (start, end, new text)."""
        start, end = min(c[0] for c in changes), max(c[1] for c in changes)
        wrong = self.text
        for at, to, new in sorted(changes, reverse=True):
            wrong = wrong[:at] + new + wrong[to:]
        line = self.text.count("\n", 0, start) + 1
        shown = wrong[start:end + len(wrong) - len(self.text)]
        words = " ".join(self.text[start:end].split()) + "  =>  " + " ".join(shown.split())
        return rule, line, words, wrong

    def swap(self, rule, a, b):
        return self.edit(rule, (a[0], a[1], self.text[b[0]:b[1]]), (b[0], b[1], self.text[a[0]:a[1]]))


def parts(header, span, separators):
    """The span cut at separators outside of all brackets: the spans between, without spaces round them."""
    depth, start, found = 0, span[0], []
    for word, at, to in header.within(span) + [("", span[1], span[1])]:
        depth += (word in "([{" and word != "") - (word in ")]}" and word != "")
        if (depth == 0 and word in separators) or word == "":
            piece = header.code[start:at]
            lead = len(piece) - len(piece.lstrip())
            found.append((start + lead, start + len(piece.rstrip()) if piece.strip() else start + lead))
            start = to
    return found


def declared(header, span, separator):
    """The (type, name's span) of every field or parameter in the span."""
    found = []
    for piece in parts(header, span, [separator]):
        words = header.within(piece)
        if not words:
            continue
        names = [piece] if separator == "," else parts(header, piece, [","])
        last = [header.within(n)[-1] for n in names]
        kind = " ".join(w for w, at, _ in words if at < last[0][1] and w != "const")
        found += [(kind, (at, to)) for _, at, to in last]
    return found


def pairs(things):
    return [(a, b) for i, a in enumerate(things) for b in things[i + 1:]]


# ---- the rules

def constants(header):
    for word, at, to in header.tokens:
        if word[0].isdigit():
            value, suffix = int(word.rstrip("u"), 0), "u" if word.endswith("u") else ""
            for other in (value + 1, value - 1):
                yield header.edit("a constant, one off", (at, to, f"{other}{suffix}" if other >= 0 else "(-1)"))


def swapped_fields(header):
    for span in header.structs.values():
        for (kind, a), (other, b) in pairs(declared(header, span, ";")):
            if kind == other:
                yield header.swap("two like fields swapped", a, b)


def swapped_parameters(header):
    for span, _ in header.inlines.values():
        for (kind, a), (other, b) in pairs(declared(header, span, ",")):
            if kind == other:
                yield header.swap("two like parameters swapped", a, b)
    # the names in a declaration mean nothing to C, so only parameters of different types
    for span in header.calls.values():
        whole, kinds = parts(header, span, [","]), declared(header, span, ",")
        for i in range(len(whole)):
            for k in (i + 1, i + 2):
                if k < len(whole) and kinds[i][0] != kinds[k][0]:
                    yield header.swap("two parameters of a call swapped", whole[i], whole[k])


def swapped_arguments(header):
    spans = {**header.calls, **{name: span for name, (span, _) in header.inlines.items()}}
    kinds = {name: [kind for kind, _ in declared(header, span, ",")] for name, span in spans.items()}
    for body in header.bodies():
        for m in re.finditer(r"\b(jumperloft1_\w+)\(", header.code[body[0]:body[1]]):
            if m[1] not in kinds:
                continue
            start, depth = body[0] + m.end(), 1
            end = start
            while depth:
                depth += {"(": 1, ")": -1}.get(header.code[end], 0)
                end += 1
            arguments = list(zip(kinds[m[1]], parts(header, (start, end - 1), [","])))
            for (kind, a), (other, b) in pairs(arguments):
                if kind == other:
                    yield header.swap("two like arguments swapped", a, b)


def other_fields(header):
    """A field for the next like one, wherever an inline function names it."""
    fields = {name: declared(header, span, ";") for name, span in header.structs.items()}
    for parameters, body in header.inlines.values():
        scope = header.code[parameters[0]:body[1]]
        variables = {m[2]: m[1] for m in re.finditer(r"(jumperloft1_\w+) \*?(\w+)\b(?!\()", scope) if m[1] in fields}
        words = header.within(body)
        for (variable, _, _), (link, _, _), (name, at, to) in zip(words, words[1:], words[2:]):
            if link in (".", "->") and variable in variables:
                named = [(kind, header.code[a:b]) for kind, (a, b) in fields[variables[variable]]]
                kind = next(k for k, n in named if n == name)
                like = [n for k, n in named if k == kind]
                if len(like) > 1:
                    yield header.edit("a field for the next like one", (at, to, like[(like.index(name) + 1) % len(like)]))


def is_value(word):
    return word in (")", "]") or (re.match(r"\w", word) and word not in TYPES and not re.match(r"jumperloft1_(version|report|sizes_of|state|answer)$|return$|const$", word))


def turned(header):
    defines = [m.span(1) for m in re.finditer(r"#define JUMPERLOFT1_\w+ (\(.*\))", header.code)]
    for span in header.bodies() + defines:
        words = header.within(span)
        for before, (word, at, to) in zip(words, words[1:]):
            if is_value(before[0]):
                for other in TURNED.get(word, []):
                    yield header.edit("an operator turned", (at, to, other))


def conditions(header):
    for body in header.bodies():
        for m in re.finditer(r"\bif \((.*)\) \{|\bfor \([^;]*;([^;]*);", header.code[body[0]:body[1]]):
            span = tuple(body[0] + at for at in m.span(1 if m[1] is not None else 2))
            whole = header.text[span[0]:span[1]]
            for new in (f"!({whole})", "0", "1"):
                yield header.edit("a condition turned", (span[0], span[1], new))
            yield from dropped_terms(header, span, ["||", "&&"], "a condition dropped")


def dropped_terms(header, span, separators, rule):
    terms = parts(header, span, separators)
    for i in range(len(terms) if len(terms) > 1 else 0):
        start, end = (terms[i][0], terms[i + 1][0]) if i == 0 else (terms[i - 1][1], terms[i][1])
        yield header.edit(rule, (start, end, ""))


def dropped(header):
    """Each statement, each term of a sum, a product or an or, each cast."""
    for body in header.bodies():
        for m in re.finditer(r"(?<=[;{}\n])\s*([^;{}]+;)", header.code[body[0]:body[1]]):
            if not re.match(r"for \(|at <", m[1]) and m[1].count("(") == m[1].count(")"):
                at = body[0] + m.start(1)
                yield header.edit("a statement dropped", (at, at + len(m[1]), ""))
                expression = re.search(r"(?:=|return)\s*(.+);", m[1], re.S)
                if expression:
                    span = at + expression.start(1), at + expression.end(1)
                    for separator in ("+", "|"):
                        yield from dropped_terms(header, span, [separator], "a term dropped")
        for m in re.finditer(r"\((?:uint\w+|int\w+)\)", header.code[body[0]:body[1]]):
            yield header.edit("a cast dropped", (body[0] + m.start(), body[0] + m.end(), ""))
    for m in re.finditer(r"#define JUMPERLOFT1_\w+ \((.*)\)", header.code):
        yield from dropped_terms(header, m.span(1), ["*"], "a term dropped")


def types(header):
    spans = list(header.structs.values()) + list(header.calls.values()) + [s for both in header.inlines.values() for s in both]
    for span in spans:
        for word, at, to in header.within(span):
            if word in TYPES:
                yield header.edit("another type", (at, to, TYPES[word]))


def linkage(header):
    at = header.code.index('"hidden"')
    yield header.edit("the calls not hidden", (at, at + 8, '"default"'))
    for m in re.finditer(r"\nJUMPERLOFT1_CALL ", header.code):
        yield header.edit("a call not hidden", (m.start() + 1, m.end(), ""))
    for m in re.finditer(r"#(ifndef|ifdef)\b", header.code):
        yield header.edit("a test of the preprocessor turned", (m.start(1), m.end(1), {"ifndef": "ifdef", "ifdef": "ifndef"}[m[1]]))


RULES = [constants, swapped_fields, swapped_parameters, swapped_arguments, other_fields, turned, conditions, dropped, types, linkage]


def mutants(text):
    header, seen = Header(text), {text}
    for rule in RULES:
        for name, line, words, wrong in rule(header):
            if wrong not in seen:
                seen.add(wrong)
                yield name, line, words, wrong
