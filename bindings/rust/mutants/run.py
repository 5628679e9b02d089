#!/usr/bin/env python3
"""Wrong bindings, made by rule, each of which the crate's tests have to notice.

run.py ARCHIVE DIRECTORY [--only TEXT] [--jobs N] [--list]

Each is the crate with one change in src/. It is compiled and tested in a copy below DIRECTORY; those that pass are printed, unless
EQUIVALENT says why no test could notice them. --only takes those whose description has the text; --list shows them all.
"""
import argparse
import collections
import concurrent.futures
import os
import pathlib
import re
import resource
import shutil
import subprocess
import sys
import threading

sys.dont_write_bytecode = True
from rules import RULES, SOURCES, code_of, line_at

REPOSITORY = SOURCES.parent.parent.parent
TIMEOUT = 120
MEMORY = 8 << 30

# What no test could notice: a pattern of the description, and the reason.
EQUIVALENT = [
    (r"\| options\(", "options have no order"),
    (
        r"hide_names\(\); left out",
        "one of the three is enough where they stand in one object file, as in the tests; an optimized build may part them",
    ),
    (
        r"ffi.*\.(kinds|used|walk_nodes)\.len\(\) and .*\.(used|counts|walk_indices)\.len\(\) exchanged",
        "two that have to be equal are refused, or equal, either way",
    ),
    (
        r"sizes\.(nodes|used|counts) and sizes\.(used|counts|order) exchanged|sizes\.walk_nodes and sizes\.walk_indices exchanged"
        r"|the values of ((nodes|used|counts) and (used|counts|order)|walk_nodes and walk_indices) exchanged.*len\(\)",
        "the sizes of a state, in which these are one number",
    ),
    (r"sizes: Sizes and borrowed: .* exchanged", "the marker has no bytes"),
    (r"owned.*(kinds and used|counts and order) exchanged", "two lists of one type and size, which nobody else sees"),
    (r"\? of StateRef::form\(.*dropped", "the library doesn't refuse sizes that it gave"),
    (r"let mut all = \[|0 becomes 1 \| (let mut room = |values: \[0; AHEAD\])", "each is written before it is read"),
    (r"let mut number = 0;", "the first of all is 0 from the start"),
    (r"const AHEAD", "how many elements are taken at a time changes none of them"),
    (r"> becomes >= \| .*untaken > 0", "where none is left, none is taken"),
]

Mutant = collections.namedtuple("Mutant", "about rule file text")


def all_mutants():
    made = {}
    for file in sorted(SOURCES.glob("*.rs")):
        text = file.read_text()
        for rule in RULES:
            for about, span, changed in rule(text, code_of(text)):
                line = text.count("\n", 0, span[0]) + 1
                about = re.sub(r"\s+", " ", about)
                about = f"{file.name}:{line}: {rule.__name__}: {about} | {line_at(text, span[0])}"
                made.setdefault((file.name, changed), Mutant(about, rule.__name__, file.name, changed))
    return list(made.values())


# ---- trying them


class Copy:
    """A copy of the crate and of what its tests read, to be changed and tested again and again."""

    def __init__(self, folder, archive):
        self.crate = folder / "bindings/rust"
        for part in ("bindings/rust/src", "bindings/rust/tests", "bindings/rust/examples", "include"):
            shutil.rmtree(folder / part, ignore_errors=True)
            shutil.copytree(REPOSITORY / part, folder / part)
        files = ["bindings/rust/" + name for name in ("Cargo.toml", "Cargo.lock", "build.rs", "README.md")]
        for name in files + ["README.md", "crates/number_table/stdout"]:
            (folder / name).parent.mkdir(parents=True, exist_ok=True)
            shutil.copy(REPOSITORY / name, folder / name)
        self.environment = dict(os.environ, JUMPERLOFT_LIBRARY=str(archive), CARGO_PROFILE_DEV_DEBUG="0", RUST_BACKTRACE="0")

    def cargo(self, *words):
        """Whether it succeeds in time."""
        def limited():
            os.setsid()
            resource.setrlimit(resource.RLIMIT_AS, (MEMORY, MEMORY))
            resource.setrlimit(resource.RLIMIT_CORE, (0, 0))
        with subprocess.Popen(
            ["cargo", *words, "--offline", "--quiet"], cwd=self.crate, env=self.environment, preexec_fn=limited,
            stdout=subprocess.DEVNULL, stderr=subprocess.DEVNULL,
        ) as process:
            try:
                return process.wait(TIMEOUT) == 0
            except subprocess.TimeoutExpired:
                os.killpg(process.pid, 9)
                return False

    def outcome(self):
        if not self.cargo("test", "--no-run", "--test", "binding"):
            return "refused by the compiler"
        if not self.cargo("test", "--test", "binding") or not self.cargo("test", "--doc"):
            return "noticed by a test"
        return "passed"

    def try_one(self, mutant):
        file = self.crate / "src" / mutant.file
        right = file.read_text()
        file.write_text(mutant.text)
        try:
            return self.outcome()
        finally:
            file.write_text(right)


def tried(mutants, archive, folder, jobs):
    """Each with its outcome, in any order."""
    copies = [Copy(folder / str(number), archive) for number in range(jobs)]
    for copy in copies:
        if copy.outcome() != "passed":
            sys.exit("rust-mutants: FAILED, the tests don't pass as things are")
    free, lock = list(copies), threading.Lock()

    def try_somewhere(mutant):
        with lock:
            copy = free.pop()
        try:
            return mutant, copy.try_one(mutant)
        finally:
            with lock:
                free.append(copy)

    with concurrent.futures.ThreadPoolExecutor(jobs) as pool:
        for future in concurrent.futures.as_completed([pool.submit(try_somewhere, mutant) for mutant in mutants]):
            yield future.result()


def main():
    parser = argparse.ArgumentParser(description=__doc__.split("\n")[0])
    parser.add_argument("archive", type=pathlib.Path)
    parser.add_argument("directory", type=pathlib.Path)
    parser.add_argument("--only", default="")
    parser.add_argument("--jobs", type=int, default=2)
    parser.add_argument("--list", action="store_true")
    words = parser.parse_args()
    mutants = [mutant for mutant in all_mutants() if words.only in mutant.about]
    if words.list:
        print("\n".join(mutant.about for mutant in mutants))
        return
    counts, wrong, unused = collections.Counter(), [], {pattern for pattern, _ in EQUIVALENT}
    for mutant, outcome in tried(mutants, words.archive.resolve(), words.directory.resolve(), words.jobs):
        excused = {pattern for pattern, _ in EQUIVALENT if re.search(pattern, mutant.about)}
        unused -= excused
        if outcome == "passed" and excused:
            outcome = "equivalent"
        elif outcome == "passed":
            wrong.append(f"NOT NOTICED: {mutant.about}")
        elif excused:
            wrong.append(f"NOT EQUIVALENT, {outcome}: {mutant.about}")
        counts[outcome] += 1
        counts[mutant.rule] += 1
    if not words.only:
        wrong += [f"NO LONGER MADE: {pattern}" for pattern in unused]
    print("\n".join(wrong + [f"rust-mutants: {len(mutants)} tried: " + ", ".join(f"{counts[kind]} {kind}" for kind in sorted(counts))]))
    sys.exit(1 if wrong else 0)


main()
