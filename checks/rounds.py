"""Must-fail edits, tried in rounds: edits of different functions share a run of the prover, and each must have its own error.

An edit (crates/CRATE/must-fail/NAME.edit) makes one plausible mistake. `rt must-fail` tries each in a run of its own, and
most of such a run reads libraries and proves again what the edit doesn't touch. Since the prover judges a function by the
contracts of those that it calls, and never by their bodies, edits of different functions can share a run. An edit counts
as refused here only where an error stands in a function that it changes, in its source or in its proof files, and says
neither that a text can't be read nor that a proof names what is not there. An edit without such an error, and each
edit of a run that could not be read, is tried again alone: first by the functions that it changes, where any error but
these counts, and then by its whole crate, as `rt must-fail` does. An edit that changes anything but bodies of functions is
also tried alone.

A refusal is kept where the kit keeps proofs, by a sum of all that it depends on: the edit, this file, the crate, and the libraries below
as they were built.
"""
import hashlib
import os
import re
import shutil
import signal
import subprocess
import tempfile
from dataclasses import dataclass

from kit import rt

HEAD = re.compile(r"^( *)(?:pub(?:\([a-z]+\))? )?(?:const )?(?:unsafe )?fn (\w+)")
IMPL = re.compile(r"^impl(?:<.*?>)? (?:([\w:]+(?:<.*>)?) for )?(?:[&'\w]+ )?(\w+)")
PLACE = re.compile(r"^(?:note: )?(?:\./)?(src|proofs)/(\S+?):(\d+):\d+: (.*)")
TOLD = re.compile(r"is not proved that|found no proof|error")
# what says nothing of a contract: a proof file names what the edit took away, or rests on what was refused
UNTOLD = re.compile(r"has no field|is not in scope|has no `|was not admitted|is no name|operand is missing|expected the end|cannot continue")
NAME = re.compile(r"[A-Za-z0-9_-][A-Za-z0-9_.-]*\.edit")
# The memory that a round is planned to take, as parts of what is planned for the proof of its crate: so much, and so much for each edit. Nine
# edits of census_crew took 9 GB (planned: 9.4), and its proof 3.8 (planned: 5.8).
BASE, EACH = 0.9, 0.08
# what a round of several edits is planned to stay below, in bytes
MOST = 8_000_000_000
# the kit's function that lists the files of a crate's edits, those with a good name and the others
EDITS_OF = rt.edits_of
# what judges the edits: where it changes, they are tried again
with open(__file__, "rb") as own:
    JUDGE = hashlib.sha256(own.read()).hexdigest()


class Killed(Exception):
    """The system ended a command, most likely for memory."""


@dataclass(frozen=True)
class Function:
    """A function of a source file: its lines, counted from 1, the type that it is a method of, if any, with its trait, if any, and the names that it calls."""

    file: str
    name: str
    first: int
    last: int
    type: str
    trait: str
    calls: frozenset

    @property
    def path(self):
        """The end of its path that names it, or its module where only the prover knows the name of its impl."""
        module = module_of(self.file)
        if self.trait:
            return module
        return f"{self.type}::{self.name}" if self.type else "::".join([*[module] * bool(module), self.name])


@dataclass(eq=False)
class Edit:
    crate: object
    path: str
    pairs: list  # (file, old, new), in order
    functions: frozenset  # of Function; empty where the edit changes something else

    @property
    def name(self):
        return os.path.relpath(self.path, f"{self.crate.folder}/must-fail")

    @property
    def label(self):
        return f"{self.crate.name}/{self.name}"


def functions_of(folder, file):
    """The functions of a source file that stand below no other function."""
    with open(f"{folder}/{file}", encoding="utf-8") as it:
        lines = it.read().split("\n")
    found, at, block = [], 0, ("", "")
    while at < len(lines):
        head = HEAD.match(lines[at])
        if re.match(r"(impl|trait|pub trait|\}|(pub )?fn|mod)\b|\}", lines[at]):
            named = IMPL.match(lines[at])
            trait = re.match(r"(?:pub )?trait (\w+)", lines[at])
            block = (named[2], named[1] or "") if named else ("", trait[1] if trait else "")
        if head and file.startswith("src/"):
            closes = re.compile(rf"^{head[1]}(\}}|\{{.*\}}$)")
            last = next((i for i in range(at, len(lines)) if closes.match(lines[i])), at)
            # (an error stands at the first attribute)
            first = next(i for i in range(at, -1, -1) if i == 0 or not re.match(r" *(#\[|//)", lines[i - 1]))
            calls = frozenset(re.findall(r"\b(\w+)(?:::<.*?>)?\(", "\n".join(lines[at + 1:last])))
            found.append(Function(file, head[2], first + 1, last + 1, *(block if head[1] else ("", "")), calls))
            at = last
        at += 1
    return found


def pairs_of(path):
    """The edit's replacements."""
    pairs, file, old = [], "", ""
    with open(path, encoding="utf-8") as it:
        for line in it.read().rstrip("\n").split("\n"):
            word, _, text = line.partition(": ")
            if word == "file":
                file = text
            elif word == "old":
                old = text
            elif word in ("new", "new:"):
                pairs.append((file, old, text))
    return pairs


def read_edit(crate, path):
    """An edit and the functions that it changes, none where it changes anything else too, or can't be read or applied."""
    edit = Edit(crate, path, [], frozenset())
    try:
        edit.pairs = pairs_of(path)
        if NAME.fullmatch(edit.name) and applied(edit, {}):
            edit.functions = functions_changed(crate, edit.pairs)
    except (OSError, ValueError):
        # (whoever tries it alone says why)
        pass
    return edit


def functions_changed(crate, pairs):
    """The functions that these replacements change, none where they change anything else too."""
    touched = set()
    for file, old, _ in pairs:
        with open(f"{crate.folder}/{file}", encoding="utf-8") as it:
            before, found, _ = it.read().partition(old)
        line = before.count("\n") + 1
        holds = [it for it in functions_of(crate.folder, file) if it.first <= line <= it.last]
        if not found or not holds:
            # (a later pair may change what an earlier one wrote)
            return frozenset()
        touched.update(holds)
    return frozenset(touched)


def applied(edit, texts):
    """The texts with this edit, or None where it can't be applied to them."""
    texts = dict(texts)
    for file, old, new in edit.pairs:
        if file not in texts:
            with open(f"{edit.crate.folder}/{file}", encoding="utf-8") as it:
                texts[file] = it.read()
        if texts[file].count(old) != 1:
            return None
        texts[file] = texts[file].replace(old, new)
    return texts


def rounds_of(edits):
    """
    The edits of a crate in rounds: no two of a round change one function, all of a round can be applied together, and a round is planned to
    stay below MOST. Where another round is free, a function isn't tried together with one that it calls: some of its goals would wait for
    that proof.
    """
    rounds = []
    for edit in edits:
        has_room = lambda members: memory_of(edit.crate, len(members) + 1) < MOST
        free = [it for it in rounds if has_room(it[1]) and not any(edit.functions & other.functions for other in it[1]) and applied(edit, it[0])]
        if free:
            texts, members = min(free, key=lambda it: sum(are_near(edit, other) for other in it[1]))
            members.append(edit)
            texts.update(applied(edit, texts))
        else:
            rounds.append((applied(edit, {}), [edit]))
    return rounds


def memory_of(crate, count):
    """The memory in bytes that a round of so many edits of a crate is planned to take."""
    return rt.need(crate) * (BASE + EACH * count)


def are_near(edit, other):
    """Whether a function that one of the edits changes calls one that the other changes."""
    pairs = [pair for it in edit.functions for to in other.functions for pair in ((it, to), (to, it))]
    return any(to.name in it.calls for it, to in pairs)


def module_of(file):
    """The module of a source file, as its path below the crate; empty for the root."""
    path = file.removeprefix("src/").removesuffix(".rt").removesuffix("/mod")
    return "" if path in ("lib", "main") else path.replace("/", "::")


def run_round(texts, members, kept):
    """What the prover says of the functions that a round changes, and of those that they call, with all edits of the round."""
    crate = members[0].crate
    paths = {it.path for edit in members for it in edit.functions}
    # (no path names the root alone)
    only = [] if "" in paths else [word for it in sorted(paths) for word in ("--only", it)]
    ran = check(crate, texts, [*only, "--incremental", kept])
    # (2: a path names nothing, or several functions)
    return check(crate, texts, ["--incremental", kept]) if only and ran.returncode == 2 else ran


def check(crate, texts, flags):
    """What the prover says of a copy of the crate with these texts in place of its own."""
    with tempfile.TemporaryDirectory(prefix=f"rt-edit-{os.getpid()}-") as room:
        for part in rt.rtlib.PARTS:
            if os.path.isdir(f"{crate.folder}/{part}"):
                shutil.copytree(f"{crate.folder}/{part}", f"{room}/{part}")
        for path, text in texts.items():
            with open(f"{room}/{path}", "w", encoding="utf-8") as it:
                it.write(text)
        words = [rt.rtlib.RATTLE, "check", *crate.words(["--jobs", "1"], keeps=False), *flags]
        how = {"cwd": room, "stdin": subprocess.DEVNULL, "stdout": subprocess.PIPE, "stderr": subprocess.STDOUT, "errors": "replace"}
        ran = subprocess.run([*rt.rtlib.guarded(), *words], **how)
    if ran.returncode in (-signal.SIGKILL, 128 + signal.SIGKILL) or "was killed by signal" in ran.stdout:
        raise Killed(f"{crate.name}: a round of edits was killed, most likely for memory")
    return ran


def place_of(line):
    """The place at which a line reports an error of a contract, if it does."""
    at = PLACE.match(line)
    return at if at and TOLD.search(at[4]) and not UNTOLD.search(at[4]) else None


def place_in(line, function, is_twin):
    """Whether the line reports an error of this function: in its text, or in its own proof file, which a twin has no name for."""
    at = place_of(line)
    if not at:
        return False
    if at[1] == "src":
        return f"src/{at[2]}" == function.file and function.first <= int(at[3]) <= function.last
    # (a method's proof lies by the module of its type, in a folder of the names of type and trait)
    of_trait = re.sub(r"\W", "", function.trait.rpartition("::")[2])
    folder = rf"(?:\w+/)*{function.type}{of_trait}" if function.type else module_of(function.file).replace("::", "/")
    own = rf"{folder}/?\+?{function.name}/(?:Answers|Invariants|Proof)\.antt"
    return not is_twin and bool(re.fullmatch(own, at[2]))


def judged(texts, members, kept):
    """What the prover says where it refuses a round, line by line; nothing where it refuses nothing or could not read it."""
    ran = run_round(texts, members, kept)
    lines = ran.stdout.rstrip("\n").split("\n")
    is_judged = ran.returncode == 1 and re.match(r"logic=not-proved|only=", lines[-1])
    if not is_judged or any(rt.unread(it, texts) for it in lines) or rt.rtlib.STALE.search(ran.stdout):
        return []
    return lines


def try_round(texts, members, kept):
    """Tries the edits of a round together, and returns each with the error of its own for which it was refused, or with none."""
    lines = judged(texts, members, kept)
    named = [(it.type, it.trait, it.name) for edit in members for it in edit.functions if it.type]
    is_twin = lambda it: named.count((it.type, it.trait, it.name)) > 1
    return [
        (edit, next((line for line in lines for it in edit.functions if place_in(line, it, is_twin(it))), ""))
        for edit in members
    ]


def try_alone(edit, kept, is_joined):
    """Whether an edit that is tried alone is refused, and what to say: by the functions that it changes, or else by the whole crate."""
    if not NAME.fullmatch(edit.name):
        return False, "BAD EDIT: it stands right in must-fail/, and its name is of letters, digits, _, - and ., and ends in .edit"
    said = next((it for it in judged(applied(edit, {}), [edit], kept) if place_of(it)), "") if edit.functions and is_joined else ""
    if said:
        return True, refused_for(said)
    refused, text = by_whole_crate(edit, kept)
    return (refused, text) if refused else by_whole_crate(edit)


def by_whole_crate(edit, *kept):
    """Whether `rt must-fail` refuses an edit, and what it says."""
    kind, text = rt.must_fail(edit.crate, edit.path, ["--jobs", "1"], *kept)
    if kind == rt.UNSURE and "was killed" in text:
        raise Killed(text)
    return kind == rt.REFUSED, text.partition(": ")[2]


def refused_for(said):
    return f"refused, as it must be: {said[:160]}"


class Tries:
    """The edits of a crate in rounds, which are to be tried one after another, and what they came to."""

    def __init__(self, crate, kept=None, is_joined=True):
        """kept: the kit's `Kept`, to take refusals from and to keep them; without it all are tried. is_joined: whether edits share rounds."""
        self.crate, self.kept, self.is_joined = crate, kept, is_joined
        self.edits = [read_edit(crate, it) for it in sorted(sum(EDITS_OF(crate), []))]
        joined = [members for _, members in rounds_of([it for it in self.edits if it.functions and is_joined])]
        self.rounds = joined + [[it] for it in self.edits if not it.functions or not is_joined]
        # (what the prover keeps of one round serves the next; what one that was killed still writes there doesn't matter)
        self.room = tempfile.TemporaryDirectory(prefix=f"rt-edits-{os.getpid()}-", ignore_cleanup_errors=True)
        self.key, self.left = None, len(self.rounds)

    def run(self, number):
        """Tries a round, and returns for each of its edits whether it was refused and what to say. It raises `Killed` where a command was killed."""
        members, found = self.rounds[number], []
        for edit in members:
            said = self.kept and self.kept.tried(self.name_of(edit))
            if said and said[0] == rt.REFUSED:
                found.append((edit, True, f"{said[1]} (kept)"))
        known = [edit for edit, _, _ in found]
        found += self.tried([it for it in members if it not in known])
        self.left -= 1
        if not self.left:
            self.room.cleanup()
        return found

    def tried(self, members):
        """Tries these edits: together where they share a round, and alone where that shows nothing."""
        found = []
        if self.is_joined and all(it.functions for it in members):
            for texts, together in rounds_of(members):
                found += [(edit, True, refused_for(said)) for edit, said in try_round(texts, together, self.room.name) if said]
        refused = [edit for edit, _, _ in found]
        found += [(it, *try_alone(it, self.room.name, self.is_joined)) for it in members if it not in refused]
        if self.kept and all(self.kept.is_untouched(it) for it in (self.crate, *self.crate.below())):
            for edit, is_refused, text in found:
                if is_refused:
                    self.kept.keep_tried(self.name_of(edit), rt.REFUSED, text)
        return found

    def name_of(self, edit):
        """The name under which it is kept what an edit came to. The libraries below have to be built."""
        self.key = self.key or self.kept.key(self.crate)
        return self.kept.of_edit(edit.path, (JUDGE, self.key))
