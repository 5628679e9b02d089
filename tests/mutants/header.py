"""Wrong headers by the rules of header_rules.py: each has to be refused by the compiler or noticed by `make header-tests c-examples`.

header.py MAKE LIBRARY FOLDER [JOBS [WORDS]]; WORDS, a regular expression, chooses those whose rule or changed lines match it."""
import os
import re
import resource
import signal
import subprocess
import sys
from collections import Counter
from concurrent.futures import ThreadPoolExecutor
from pathlib import Path
from queue import Queue

from header_rules import mutants

HEADER = Path("include/jumperloft.h")
SECONDS = 120

FITS = "a byte shifted by 16 or less fits an int"
# what can't be noticed, by the changed lines as they then read, and why
EQUIVALENT = {
    "if (n.used == 0 || memory == NULL || (uintptr_t)memory % sizeof(uint32_t) != 0) {":
        "the library's sizes are all 0 or none is",
    "+ sizeof(jumperloft1_version) * n.versions + sizeof(uint32_t) * n.walk_indices;":
        "the two types have one size",
    "for (uint32_t at = 0; at < requests_count; at += JUMPERLOFT1_FRAME_SIZE) {":
        "differs from 4 GiB of requests on",
    "answer.value = (uint32_t)bytes[2] << 24 | bytes[3] << 16 | (uint32_t)bytes[4] << 8 | bytes[5];": FITS,
    "answer.value = (uint32_t)bytes[2] << 24 | (uint32_t)bytes[3] << 16 | bytes[4] << 8 | bytes[5];": FITS,
    "answer.value = (uint32_t)bytes[2] << 24 | (uint16_t)bytes[3] << 16 | (uint32_t)bytes[4] << 8 | bytes[5];": FITS,
    "answer.value = (uint32_t)bytes[2] << 24 | (uint32_t)bytes[3] << 16 | (uint16_t)bytes[4] << 8 | bytes[5];": FITS,
}


def changed_lines(text, wrong):
    old, new = text.split("\n"), wrong.split("\n")
    return " / ".join(line.strip() for i, line in enumerate(new) if i >= len(old) or line != old[i])


def limits():
    resource.setrlimit(resource.RLIMIT_FSIZE, (1 << 26, 1 << 26))
    resource.setrlimit(resource.RLIMIT_CORE, (0, 0))


class Bench:
    """A folder with the library installed beside a header, and the tests run over it."""

    def __init__(self, make, library, folder):
        self.prefix = folder / "prefix"
        subprocess.run(["sh", "make/install.sh", library, str(self.prefix), ""], check=True, stdout=subprocess.DEVNULL)
        self.command = [make, "--no-print-directory", "header-tests", "c-examples", f"C_OUT={folder}", f"C_PREFIX={self.prefix.resolve()}"]

    def notices(self, header):
        """What notices it: the compiler, a test, the clock; or nothing."""
        (self.prefix / HEADER).write_text(header)
        running = subprocess.Popen(self.command, stdout=subprocess.PIPE, stderr=subprocess.STDOUT, text=True, errors="replace",
                                   start_new_session=True, preexec_fn=limits)
        try:
            said = running.communicate(timeout=SECONDS)[0]
        except subprocess.TimeoutExpired:
            os.killpg(running.pid, signal.SIGKILL)
            running.communicate()
            return "clock"
        if running.returncode == 0:
            return None
        return "compiler" if re.search(r"(?<!runtime )error: |undefined reference", said) else "test"


def main(make, library, folder, jobs="1", words=""):
    text = HEADER.read_text()
    benches = Queue()
    for job in range(int(jobs)):
        benches.put(Bench(make, library, Path(folder) / str(job)))

    def judge(mutant):
        bench = benches.get()
        try:
            return mutant, bench.notices(mutant[3])
        finally:
            benches.put(bench)

    noticed = judge(("", 0, "", text))[1]
    if noticed is not None:
        sys.exit(f"header-mutants: FAILED, the header itself is noticed by the {noticed}")
    chosen = [m for m in mutants(text) if re.search(words, m[0] + " " + changed_lines(text, m[3]))]
    by, passed, named = Counter(), [], Counter()
    with ThreadPoolExecutor(int(jobs)) as pool:
        for (rule, line, _, wrong), what in pool.map(judge, chosen):
            by[what] += 1
            lines = changed_lines(text, wrong)
            if what is None and lines in EQUIVALENT:
                named[lines] += 1
            elif what is None:
                passed.append(lines)
                print(f"header-mutants: NOT NOTICED, {rule}, line {line}: {lines}", flush=True)
    stale = [] if words else [lines for lines in EQUIVALENT if lines not in named]
    for lines in stale:
        print(f"header-mutants: FAILED, named as one that can't be noticed, but it is, or is not made: {lines}")
    print(f"header-mutants: {len(chosen)} wrong headers: {by['compiler']} refused by the compiler, {by['test']} noticed by a test,"
          f" {by['clock']} by the clock, {sum(named.values())} can't be noticed, {len(passed)} pass")
    sys.exit(1 if passed or stale else 0)


main(*sys.argv[1:])
