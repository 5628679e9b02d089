"""The rules by which wrong bindings are made of the crate's sources.

A rule takes a file's text, and the same with all but the code blanked; it gives what is done, where, and the changed text.
"""
import itertools
import pathlib
import re

SOURCES = pathlib.Path(__file__).resolve().parent.parent / "src"

# ---- the code alone


def code_of(text):
    """The text with comments, strings and attributes blanked, every other character in its place."""
    pattern = r'//[^\n]*|"(?:\\.|[^"\\])*"|\'(?:\\.|[^\\\'])\'|#!?\[(?:[^\[\]]|\[[^\]]*\])*\]'
    return re.sub(pattern, lambda found: re.sub(r"[^\n]", " ", found[0]), text)


def lists_in(code):
    """For each list in round or square brackets, where its elements begin and end."""
    open_lists, found = [], []
    for at, character in enumerate(code):
        if character in "([{":
            open_lists.append((character, [at + 1]))
        elif character == "," and open_lists:
            open_lists[-1][1].append(at + 1)
        elif character in ")]}":
            kind, starts = open_lists.pop()
            if kind != "{" and len(starts) > 1:
                ends = [start - 1 for start in starts[1:]] + [at]
                spans = [trimmed(code, start, end) for start, end in zip(starts, ends)]
                found.append([span for span in spans if span[0] < span[1]])
    return found


def trimmed(code, start, end):
    while start < end and code[start].isspace():
        start += 1
    while end > start and code[end - 1].isspace():
        end -= 1
    return start, end


def line_at(text, at):
    return text[text.rfind("\n", 0, at) + 1 : text.find("\n", at)].strip()


def put(text, *changes):
    """The text with other words at the places."""
    for (start, end), words in sorted(changes, reverse=True):
        text = text[:start] + words + text[end:]
    return text


def exchanged(text, one, other):
    return put(text, (one, text[slice(*other)]), (other, text[slice(*one)]))


# ---- the rules


def constants(text, code):
    """Every number, one more and one less."""
    for found in re.finditer(r"(?<![\w])(?<![\w)\]]\.)(0x[0-9A-Fa-f_]+|\d[\d_]*)(?=\b)", code):
        number = int(found[0].replace("_", ""), 0)
        for other in (number + 1, number - 1):
            if other >= 0:
                yield f"{found[0]} becomes {other}", found.span(), put(text, (found.span(), str(other)))


def fields(text, code):
    """Every two fields of a record that C shares, in each other's place."""
    for record in re.finditer(r"(?:pub |pub\(crate\) )?struct (\w+)[^{;(]*\{([^}]*)\}", code):
        if "#[repr(C)]" not in text[max(0, record.start() - 120) : record.start()]:
            continue
        names = [
            (record.start(2) + name.start(1), record.start(2) + name.end(1))
            for name in re.finditer(r"(\w+: [^,]+),", record[2])
        ]
        for one, other in itertools.combinations(names, 2):
            swapped = exchanged(text, one, other)
            yield f"{text[slice(*one)]} and {text[slice(*other)]} exchanged", one, swapped


def values(text, code):
    """Every two values of like fields in a literal, whole or by one of their words, in each other's place."""
    slices = ["kinds", "used", "counts", "cells", "order", "versions", "walk_numbers", "walk_nodes", "walk_indices"]
    like = [["kinds", "used"], ["counts", "cells", "order", "walk_numbers", "walk_nodes"]]
    for literal in re.finditer(r"(?<!struct )(?<!impl )(?<!for )(?<!> )\b(State|Memory|LentState|Sizes) \{\n( +)", code):
        # its own lines, which begin as the first one does
        end = code.index(f"\n{literal[2][4:]}}}", literal.end())
        lines = {
            line[1]: line.span(2)
            for line in re.compile(rf"^{literal[2]}(\w+): ([^\n]+),$", re.M).finditer(code, literal.start(2), end)
        }
        groups = [list(lines)] if literal[1] == "Sizes" else [[name for name in group if name in lines] for group in like]
        for group in groups:
            for one, other in itertools.combinations(group, 2):
                yield f"the values of {one} and {other} exchanged", lines[one], exchanged(text, lines[one], lines[other])
        for one, other in itertools.combinations([name for name in slices if name in lines], 2):
            for word in (r"\blent\.\w+", r"\bsizes\.\w+"):
                found = [re.search(word, text[slice(*lines[name])]) for name in (one, other)]
                if all(found):
                    places = [
                        (lines[name][0] + match.start(), lines[name][0] + match.end())
                        for name, match in zip((one, other), found)
                    ]
                    swapped = exchanged(text, *places)
                    yield f"{found[0][0]} and {found[1][0]} exchanged", places[0], swapped


def arguments(text, code):
    """Every two arguments, elements or parameters beside each other, or with one between them, in each other's place."""
    declared = re.search(r"extern +\{.*?\n\}", code, re.S)
    for spans in lists_in(code):
        # what the parameters of declared functions are called makes no difference
        if declared and declared.start() < spans[0][0] < declared.end():
            continue
        for one, other in itertools.chain(zip(spans, spans[1:]), zip(spans, spans[2:])):
            words = [text[slice(*span)] for span in (one, other)]
            types = [re.match(r"\w+: (.*)", word, re.S) for word in words]
            like = types[0][1] == types[1][1] if all(types) else not re.search(r"^&?(mut )?self$|^_$|^\.\.", "\n".join(words), re.M)
            if like and words[0] != words[1]:
                yield f"{words[0]} and {words[1]} exchanged", one, exchanged(text, one, other)


def bounds(text, code):
    """Every comparison turned, every condition dropped or turned."""
    turned = {"<": ["<=", ">="], ">": [">=", "<="], "<=": ["<", ">"], ">=": [">", "<"], "==": ["!="], "!=": ["=="]}
    for found in re.finditer(r"(?<= )(<|>|<=|>=|==|!=)(?= )", code):
        for other in turned[found[0]]:
            yield f"{found[0]} becomes {other}", found.span(), put(text, (found.span(), other))
    for found in re.finditer(r"(?<= )(\|\||&&)(?= )", code):
        other = {"||": "&&", "&&": "||"}[found[0]]
        yield f"{found[0]} becomes {other}", found.span(), put(text, (found.span(), other))
    for found in re.finditer(r"(?<=[ (])!(?=\w)", code):
        yield f"! of {line_at(text, found.start())} dropped", found.span(), put(text, (found.span(), ""))
    for found in re.finditer(r"\bif ([^{}]+?) \{", code):
        for other in ("true", "false"):
            yield f"if {found[1]} becomes if {other}", found.span(1), put(text, (found.span(1), other))
    for found in re.finditer(r"\.(min|max)\(([^()]*)\)", code):
        yield f"{found[0]} dropped", found.span(), put(text, (found.span(), ""))
    for found in re.finditer(r"^( +)((?!let |return )[\w.][^\n;]*)\?;$", code, re.M):
        dropped = put(text, (found.span(), f"{found[1]}let _ = {text[slice(*found.span(2))]};"))
        yield f"? of {found[2]} dropped", found.span(2), dropped


def lengths(text, code):
    """Every length, one more and one less."""
    for found in re.finditer(r"(?<!fn )[\w.$]+\.len\(\)|(?<!\.)\bsizes\.\w+(?=\))|\b(?:Answer|Frame)::SIZE(?= \*)|\bcount\b(?=[\],)])", code):
        for change in (" + 1", " - 1"):
            yield f"{found[0]}{change}", found.span(), put(text, (found.span(), f"({found[0]}{change})"))
    # a slice's length for that of another which is as long, or may be
    handed = [[rf"$memory.{name}.len()" for name in ("kinds", "used", "counts", "order")]]
    handed += [["$memory.walk_nodes.len()", "$memory.walk_indices.len()"], ["requests.len()", "room.len()"]]
    for group in handed:
        for one, other in itertools.permutations(group, 2):
            for found in re.finditer(rf"(?<![\w.]){re.escape(one)}", code):
                yield f"{one} becomes {other}", found.span(), put(text, (found.span(), other))


def names(text, code):
    """Every name of one kind for another like it."""
    makers = [["release", "len", "first", "last"], ["clone_slot", "drop_last", "compare"], ["next", "next_back", "close_walk"]]
    steps = [["on", "to"], ["at", "with"], ["outermost", "innermost"], ["to_be_bytes", "to_le_bytes"]]
    groups = [(r"\bFrame::({})(?=\()", group) for group in makers]
    groups += [(r"\.({})(?=\()", group) for group in steps]
    groups += [(r"\b({})(?=\()", ["from_be_bytes", "from_le_bytes"]), (r"\bself\.({})\b", ["front", "back"])]
    groups += [(r"\bself\.({})\b", ["start", "end"])]
    for kind in ("Operation", "Refusal"):
        listed = (SOURCES / f"{kind.lower()}.rs").read_text()
        listed = re.findall(rf"\n    (\w+) = ", listed)
        groups.append((rf"\b{kind}::({{}})\b", listed))
    for pattern, group in groups:
        for found in re.finditer(pattern.format("|".join(group)), code):
            at = group.index(found[1])
            # of a long list, the neighbours
            others = group if len(group) < 5 else [group[at - 1], group[(at + 1) % len(group)]]
            for other in others:
                if other != found[1]:
                    yield f"{found[0]} becomes {other}", found.span(), put(text, (found.span(1), other))


def steps(text, code):
    """Every statement or step of a chain left out."""
    for found in re.finditer(r"^ +(?!let |return |use )[\w.*]+(?:\([^\n]*\)|::\w+\([^\n]*\)| [-+]?= [^\n]*);$", code, re.M):
        yield f"{found[0].strip()} left out", found.span(), put(text, (found.span(), ""))
    for found in re.finditer(r"\.(?:on|to|at|with|of_walk)\([^()]*\)", code):
        yield f"{found[0]} left out", found.span(), put(text, (found.span(), ""))
    for found in re.finditer(r'^ +"\.hidden \w+",\n', text, re.M):
        yield f"{found[0].strip()} left out", found.span(), put(text, (found.span(), ""))
    for found in re.finditer(r"(?<= )(-|\+)(?==? \w)", code):
        other = {"-": "+", "+": "-"}[found[0]]
        yield f"{found[0]} becomes {other}", found.span(), put(text, (found.span(), other))


RULES = [constants, fields, values, arguments, bounds, lengths, names, steps]
