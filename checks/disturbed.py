"""What the checks `growths`, `ends` and `disk` share: the program under the shim `disturb.c`, and what a cut report may be."""
import os
import re
import shutil
import subprocess
import sys
import tempfile
from concurrent.futures import ThreadPoolExecutor
from itertools import count

HERE = os.path.dirname(os.path.realpath(__file__))
OF_COLLECTION = re.compile(rb"(?:open|line|part|code|close) ([0-9]+) ")

# three collections: long names and texts, long codes, a pattern that doesn't settle, and faults
GUN = b"24bo11b$22bobo11b$12b2o6b2o12b2o$11bo3bo4b2o12b2o$2o8bo5bo3b2o14b$2o8bo3bob2o4bobo11b$10bo5bo7bo11b$11bo3bo20b$12b2o!"
BUNDLE = b"".join([
    b"@folder one\n@file block\nx = 2, y = 2\n2o$2o!\n@file glider\nx = 3, y = 3\nbo$2bo$3o!\n",
    b"@file " + b"n" * 200 + b"\nx = 9, y = 3\n2bo4bo$2ob4ob2o$2bo4bo!\n@file broken\nx = 3, y = 1\n3o\n",
    b"@folder " + b"f" * 100 + b"\n@file gun\nx = 36, y = 9\n" + GUN + b"\n@file row\nx = 90, y = 1\n90o!\n",
    b"@file none\nx = 3, y = 3\nb2o$2o$bo!\n@file text\n#C " + b"c" * 300 + b"\nx = 2, y = 2\n2o$2o!\n",
    b"@folder empty\n",
])


def compiler():
    """The C compiler, if there is one."""
    return os.environ.get("CC") or shutil.which("cc") or shutil.which("gcc")


class Disturbed:
    """The program, run under the shim."""

    def __init__(self, program):
        self.program = os.path.realpath(program)
        self.room = tempfile.mkdtemp(prefix="disturbed-")
        self.shim = f"{self.room}/disturb.so"
        self.files = count()
        if not compiler():
            sys.exit("checks: a C compiler (cc) is needed for this check")
        words = [compiler(), "-O2", "-Wall", "-shared", "-fPIC", "-o", self.shim, f"{HERE}/disturb.c", "-ldl"]
        subprocess.run(words, check=True)

    def run(self, words, given, **how):
        """Status, standard output and standard error; `how` is the shim's environment."""
        named = {name: str(value) for name, value in how.items()}
        ran = subprocess.run([self.program, *words], input=given, capture_output=True, timeout=120,
                             cwd=f"{HERE}/..", env={**os.environ, **named, "LD_PRELOAD": self.shim})
        return ran.returncode, ran.stdout, ran.stderr

    def counted(self, words, given, **how):
        """What `run` gives, and how many growths were counted."""
        file = f"{self.room}/growths-{next(self.files)}"
        ran = self.run(words, given, GROWTHS=file, **how)
        with open(file, encoding="ascii") as it:
            return *ran, int(it.read())

    def growths(self, words, given, **how):
        """How many growths such a run makes."""
        return self.counted(words, given, **how)[-1]

    def close(self):
        shutil.rmtree(self.room, ignore_errors=True)


def sections(report):
    """The lines of each collection, and the others, in order."""
    found = {}
    for line in report.splitlines(keepends=True):
        of = OF_COLLECTION.match(line)
        found.setdefault(of[1] if of else b"", []).append(line)
    return found


def same_report(one, other):
    """Whether two reports differ at most in how the lines of their collections interleave."""
    return sections(one) == sections(other)


def begins(cut, whole, whole_lines=True):
    """Whether what was written begins a report that differs from the whole at most in how the collections interleave."""
    if whole_lines and cut and not cut.endswith(b"\n"):
        return False
    wanted = sections(whole)
    lines = cut.splitlines(keepends=True)
    rest = lines.pop() if lines and not cut.endswith(b"\n") else b""
    if any(wanted.get(name, [])[: len(its)] != its for name, its in sections(b"".join(lines)).items()):
        return False
    return not rest or any(line.startswith(rest) for its in wanted.values() for line in its)


def judged(cases, judge):
    """Judges each case, several at a time; prints what fails and the count."""
    with ThreadPoolExecutor(len(os.sched_getaffinity(0))) as pool:
        faults = [it for it in pool.map(judge, cases) if it]
    for it in faults[:20]:
        print(it)
    print(f"{len(cases) - len(faults)} passed, {len(faults)} failed")
    return 1 if faults else 0
