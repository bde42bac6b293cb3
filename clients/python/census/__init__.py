"""Asks the program `census` what patterns of Conway's Life and its kin become on the unbounded plane.

    >>> from census import Census
    >>> glider = Census("./census").identify("x = 3, y = 3\\nbo$2bo$3o!")
    >>> glider.apgcode, glider.period, glider.displacement
    ('xq4_153', 4, (1, 1))

The program does the work; this module starts it, hands it texts or folders, and reads its output. It needs Python 3.8 or later and only
the standard library. It uses no shell.
"""
from __future__ import annotations

import errno
import json
import operator
import os
import re
import shutil
import signal
import subprocess
import tempfile
from dataclasses import dataclass, field, replace
from typing import Any, Callable, Dict, Iterable, Iterator, List, Literal, Mapping, NoReturn, Optional, Tuple, TypeVar, Union, overload

__all__ = [
    "Census", "Code", "Disagreement", "Emission", "Engine", "Pattern", "Row", "Same", "read_names", "read_report",
    "CensusError", "PatternFault", "CodeFault", "RuleFault", "FolderFault", "TooLong", "ReadFailed", "ReportFault", "ClaimFault", "NamesFault",
    "TooManyCells", "OutOfMemory", "TimedOut", "ProgramFailed",
]

# an RLE text, a report, claims or names
Text = Union[str, bytes, bytearray, memoryview]
# names of codes: a text of them, as `read_names` reads it, or names by their codes
Names = Union[Text, Mapping[str, str]]
# the order of the codes of a page
Order = Literal["report", "count", "rare", "code", "period", "name"]
# RLE texts by their names, or a list of them
Texts = Union[Mapping[str, Text], Iterable[Text]]
# a program or a folder
Path = Union[str, bytes, "os.PathLike[str]", "os.PathLike[bytes]"]


# Errors


class CensusError(Exception):
    """What is wrong: the base of this module's errors. What the system refuses (a program that can't be started, a file of the temporary
    folder that can't be written) is an `OSError` as everywhere, and what is no text or list a `TypeError`.

    It is raised itself where a text or a path has a lone surrogate, a path a NUL, and where this process ignores SIGCHLD, so that the
    system reports no status of a program that has ended.

    `sentence` says it in words. `number` is the fault's number and `place` says where it is, each None where there is none.
    """

    def __init__(self, sentence: str, number: Optional[int] = None, place: Optional[str] = None) -> None:
        super().__init__(sentence, number, place)
        self.sentence = sentence
        self.number = number
        self.place = place

    def __str__(self) -> str:
        head = "" if self.place is None else f"{self.place}: "
        tail = "" if self.number is None else f" (fault {self.number})"
        return f"{head}{self.sentence}{tail}"


class PatternFault(CensusError):
    """An RLE text that means no pattern. docs/FORMAT.md has the sentences.

    `number` is 1 to 10. `line` and `column` count from 1, a column counts bytes. `at` is the byte of the text, from 0, or None (faults 1
    to 4, and 10). `index` is the place of the text in the list of `identify_many`, from 0, or None.
    """

    def __init__(self, sentence: str, number: int, line: int, column: int, at: Optional[int] = None, index: Optional[int] = None) -> None:
        super().__init__(sentence, number, _place_of_text(index, f"line {line}, column {column}"))
        self.args = (sentence, number, line, column, at, index)
        self.line = line
        self.column = column
        self.at = at
        self.index = index


class CodeFault(CensusError):
    """A code that means no pattern: `number` is 1 to 4, and `place` says at which byte of the code."""


class RuleFault(CensusError):
    """A rule that `draw` was given is none: `number` 1, it is not Life-like; 2, it has births on 0."""


class TooLong(CensusError):
    """A text or a file has more than 67,108,864 bytes. `index` is that of the text in the list of `identify_many`, or None."""

    def __init__(self, place: Optional[str] = None, index: Optional[int] = None) -> None:
        super().__init__("the text is too long: it must have at most 67108864 bytes", None, _place_of_text(index, place))
        self.args = (place, index)
        self.index = index


class ReadFailed(CensusError):
    """A folder, or a file in it, could not be read. `index` is that of the text in the list of `identify_many`, or None.

    The program can't read a file whose name ends in `.rle` and is not UTF-8.
    """

    def __init__(self, place: Optional[str] = None, index: Optional[int] = None) -> None:
        super().__init__("reading failed", None, _place_of_text(index, place))
        self.args = (place, index)
        self.index = index


class FolderFault(CensusError):
    """The folders make no list of collections: `number` 1, an unlawful name; 3, too many of them, or of the files in one.

    `place` is the folder, or None where it is not known.
    """

    SENTENCES = {
        1: "the name of a folder or of a file is not lawful: it must have 1 to 255 bytes, none below 32 or 127, and no blank at either end",
        3: "there are too many folders, or too many patterns in one: there must be at most 65535",
    }

    def __init__(self, number: int, place: Optional[str] = None) -> None:
        super().__init__(self.SENTENCES.get(number, "the folders are refused"), number, place)
        self.args = (number, place)


class ReportFault(CensusError):
    """A text is no report that the program reads, or not a whole one. `line` counts from 1. `index` is the place of the text in the list of
    `merge`, from 0, or None."""

    def __init__(self, sentence: str, line: int, index: Optional[int] = None) -> None:
        super().__init__(sentence, None, _place_of_text(index, f"line {line}", "reports"))
        self.args = (sentence, line, index)
        self.line = line
        self.index = index


class ClaimFault(CensusError):
    """A table is none of claims: the row that begins at `line`, which counts from 1, is wrong."""

    def __init__(self, sentence: str, line: int) -> None:
        super().__init__(sentence, None, f"line {line}")
        self.args = (sentence, line)
        self.line = line


class NamesFault(CensusError):
    """A text is none of names: the line `line`, which counts from 1, is wrong."""

    def __init__(self, sentence: str, line: int) -> None:
        super().__init__(sentence, None, f"line {line}")
        self.args = (sentence, line)
        self.line = line


class TooManyCells(CensusError):
    """A pattern has more cells than `advance` was to allow: `generation` is the first that has more than `cells`."""

    def __init__(self, cells: int, generation: int) -> None:
        super().__init__(f"there are more than {cells} cells", None, f"generation {generation}")
        self.args = (cells, generation)
        self.cells = cells
        self.generation = generation


class OutOfMemory(CensusError):
    """The program ran out of memory."""

    def __init__(self) -> None:
        super().__init__("the program ran out of memory")
        self.args = ()


class TimedOut(CensusError):
    """The program took longer than `seconds` and was ended."""

    def __init__(self, seconds: float) -> None:
        super().__init__(f"the program took longer than {seconds} seconds")
        self.args = (seconds,)
        self.seconds = seconds


class ProgramFailed(CensusError):
    """The program refused its command line (`status` 2), ended in a way that this module does not know, or answered what was not asked.

    `status` is its exit status, less than 0 where a signal ended it; `stderr` is what it wrote to standard error.
    """

    def __init__(self, status: int, stderr: str) -> None:
        # (`same` and `verify` report what they compare before they fail)
        lines = [it for it in stderr.strip().split("\n") if not re.match(r"census: (compared: |[0-9]+ of [0-9]+ patterns compared)", it)]
        super().__init__(f"the program ended with status {status} and said: {''.join(lines[:1]) or 'nothing'}")
        self.args = (status, stderr)
        self.status = status
        self.stderr = stderr


def _place_of_text(index: Optional[int], place: Optional[str], texts: str = "rles") -> Optional[str]:
    """Where it is, with the place of the text in its list before it."""
    if index is None:
        return place
    return f"{texts}[{index}]" if place is None else f"{texts}[{index}], {place}"


# Answers


@dataclass(frozen=True)
class Pattern:
    """What a pattern is and becomes. Names that lifelib's patterns also have mean what they mean there.

    Where the pattern becomes one part within the bound, there are `onset`, `period`, `displacement`, `apgcode` and `objects`; else, where it
    becomes none or several, `onset` and `objects`, and of `identify` also `period` and `displacement` of the whole, where all parts have one
    velocity and this period is at most the bound; else, where it is found to grow for ever, `engines`; else, where a generation has too many
    cells, `large`; else `unresolved`. All others are None.
    """

    # as `B3/S23`
    rule: str
    # of generation 0, 0 or more
    population: int
    # width and height of the bounding box of generation 0, in cells
    box: Tuple[int, int]
    # the first generation that comes again; of what becomes none or several parts, the first that is ash; 0 or more
    onset: Optional[int] = None
    # the number of generations after which it comes again, 1 or more
    period: Optional[int] = None
    # how many cells it has then moved to the right and down
    displacement: Optional[Tuple[int, int]] = None
    # of its one part: `xs`, `xp` or `xq`, a number, `_` and the shortest text of all phases
    apgcode: Optional[str] = None
    # how many independent parts have each code, also where there is one part; with `near`, how many objects
    objects: Optional[Dict[str, int]] = field(default=None, hash=False)
    # the bound, within which nothing was found
    unresolved: Optional[int] = None
    # by which engines it grows for ever, in the order of period, displacement and what they emit
    engines: Optional[List[Engine]] = field(default=None, hash=False)
    # the first generation with too many cells
    large: Optional[int] = None
    # the name of its apgcode, where names were given and there is one
    common_name: Optional[str] = None


@dataclass(frozen=True)
class Row:
    """What a report says of one pattern.

    `status` is `ok` (recurs within the bound; of `objects`, becomes one part), `ash` (becomes none or several parts), `grows` (grows for
    ever), `none` (none of these), `large` (has more cells than it may) or `bad` (its text has a fault). What a status has nothing to say of
    is None. The README has the meaning of each part.
    """

    # the number of the collection, from 1
    collection: int
    # the folder as it was named; bytes that are not UTF-8 stand as `os.fsdecode` has them
    collection_name: str
    # the number of the pattern in its collection, from 1
    pattern: int
    # the name of its file, decoded as the folder's
    name: str
    status: str
    rule: Optional[str] = None
    # of generation 0
    population: Optional[int] = None
    # the first generation that comes again; of `ash`, the first that is ash
    onset: Optional[int] = None
    period: Optional[int] = None
    # how far it moves to the right and down
    displacement: Optional[Tuple[int, int]] = None
    apgcode: Optional[str] = None
    # the first one with too many cells
    generation: Optional[int] = None
    # the number of the RLE fault, 1 to 10; `identify` gives place and sentence. 0 where the file could not be read (`census run -k`)
    fault: Optional[int] = None
    # each code of its parts with how many have it, in the order of the report; with `near`, of its objects
    parts: Optional[Tuple[Tuple[str, int], ...]] = None
    # by which engines it grows for ever, in the order of the report
    engines: Optional[List[Engine]] = field(default=None, hash=False)
    # the name of its apgcode, where names were given and there is one
    common_name: Optional[str] = None

    @property
    def dx(self) -> Optional[int]:
        """Deprecated: `displacement[0]`."""
        return None if self.displacement is None else self.displacement[0]

    @property
    def dy(self) -> Optional[int]:
        """Deprecated: `displacement[1]`."""
        return None if self.displacement is None else self.displacement[1]

    @property
    def code(self) -> Optional[str]:
        """Deprecated: `apgcode`."""
        return self.apgcode


@dataclass(frozen=True)
class Engine:
    """Engines of a pattern that grows for ever with the same period, displacement and emissions, such as guns or puffers of one kind."""

    # the number of generations after which each comes again, 1 to 10,000
    period: int
    # how many cells it has then moved to the right and down, at most one in each generation; (0, 0) for a gun
    displacement: Tuple[int, int]
    # how many engines they are, 1 or more
    count: int
    # how many independent parts with each code each of them emits in a period; with `near`, how many objects; in the order of codes
    emits: Dict[str, int] = field(hash=False)


@dataclass(frozen=True)
class Emission:
    """Objects of one code that engines of a pattern emit, as `census table --engines` has them."""

    # the pattern, as a row has it
    collection: int
    collection_name: str
    pattern: int
    name: str
    rule: str
    # the number of the engines among those of the pattern, from 1
    engine: int
    # `gun` (stays in its place), `rake` (moves, and emits only spaceships) or `puffer` (moves, and leaves other objects)
    kind: str
    # the number of generations after which each of the engines comes again, and how far to the right and down it has then moved
    period: int
    displacement: Tuple[int, int]
    # how many engines they are
    count: int
    # the code of what they emit, and how many of these objects each emits in a period
    apgcode: str
    emits_count: int
    # the name of the apgcode, where names were given and there is one
    common_name: Optional[str] = None


@dataclass(frozen=True)
class Code:
    """What reports say of one code under one rule. Names are decoded as UTF-8, with U+FFFD for what is none."""

    rule: str
    apgcode: str
    # how many objects have it: a pattern that recurs is one, and so is each part of one that has fallen apart; at most 2^64 - 1
    count: int
    # in how many patterns
    patterns: int
    # the collection and the name of the first of these
    first_collection_name: str
    first_name: str
    # what part of all objects they are, rounded to six digits
    share: float
    # the name of the apgcode, where names were given and there is one
    common_name: Optional[str] = None

    @property
    def code(self) -> str:
        """Deprecated: `apgcode`."""
        return self.apgcode


@dataclass(frozen=True)
class Same:
    """Patterns of reports that are one object, or of folders that are the same at the start. Names are decoded as UTF-8, with U+FFFD for
    what is none."""

    rule: str
    apgcode: str
    # the collection and the name of each, at least two, in the order of the reports or folders
    patterns: Tuple[Tuple[str, str], ...]

    @property
    def code(self) -> str:
        """Deprecated: `apgcode`."""
        return self.apgcode


@dataclass(frozen=True)
class Disagreement:
    """What does not agree between claims and reports, as `census verify` writes it: control bytes stand in it as `\\x1b` does."""

    # `wrong`, `missing`, `several` or `unclaimed`
    kind: str
    # the rest of the line: NAME COLUMN CLAIMED FOUND of what is wrong, COLLECTION_NAME/NAME of what is unclaimed, else NAME
    text: str


# The program


class Census:
    """The program `census`, by its path, or by a name that the system finds on the PATH; without a name, `census` there.

    `timeout` is how many seconds each call of it may take, or None for any. Some patterns grow without end, and take long where the bound
    is great. Each call of a method starts the program anew, so that a `Census` may be used by several threads at once.

    Raises `FileNotFoundError` or `PermissionError` where there is no such program, or none that may be run. In each method a number that is
    out of its range raises `ValueError` before anything runs.
    """

    def __init__(self, program: Path = "census", *, timeout: Optional[float] = None) -> None:
        # (the program may be called from another folder)
        self.program: str = os.path.abspath(_found_program(_path_of(program)))
        self.timeout: Optional[float] = timeout

    def __repr__(self) -> str:
        return f"Census({self.program!r}, timeout={self.timeout!r})"

    def identify(self, rle: Text, *, bound: Optional[int] = None, near: bool = False, cells: Optional[int] = None,
                 horizon: Optional[int] = None, names: Optional[Names] = None) -> Pattern:
        """What the pattern of one RLE text is and becomes within `bound` generations, 1 to 100,000 (None: 10,000).

        The independent parts of what has fallen apart are counted; with `near` what comes within two cells is one object. `cells` is how
        many live cells a generation may have, 1 to 4,294,967,295 (None: 200,000). Growth is sought within `horizon` generations, 1 to
        10,000 (None: 1,000). `names` are names of codes, for `common_name`.

        Raises `PatternFault`, `TooLong`, `NamesFault`, `OutOfMemory`, `TimedOut`, `ProgramFailed`, or `CensusError` itself; `OSError` where
        the program can't be started.
        """
        common_names = _names_of(names)
        ran = self._run(["identify", *_Question.of_objects(bound, near, cells, horizon).options()], _bytes_of(rle))
        answer = _answers(ran, ["-"], 10000 if bound is None else bound, horizon)["-"]
        if isinstance(answer, CensusError):
            raise answer
        return _with_name(answer, common_names)

    @overload
    def identify_many(self, rles: Iterable[Text], *, bound: Optional[int] = None, near: bool = False, cells: Optional[int] = None,
                      horizon: Optional[int] = None, workers: Optional[int] = None, return_exceptions: Literal[False] = False,
                      names: Optional[Names] = None) -> List[Pattern]: ...

    @overload
    def identify_many(self, rles: Iterable[Text], *, bound: Optional[int] = None, near: bool = False, cells: Optional[int] = None,
                      horizon: Optional[int] = None, workers: Optional[int] = None, return_exceptions: Literal[True],
                      names: Optional[Names] = None) -> List[Union[Pattern, CensusError]]: ...

    def identify_many(self, rles: Iterable[Text], *, bound: Optional[int] = None, near: bool = False, cells: Optional[int] = None,
                      horizon: Optional[int] = None, workers: Optional[int] = None, return_exceptions: bool = False,
                      names: Optional[Names] = None) -> Union[List[Pattern], List[Union[Pattern, CensusError]]]:
        """What `objects` reports of each RLE text, in order, as `identify` has it, but that what becomes several parts has no `period` and
        `displacement` of the whole; by two calls of the program, of which the second uses `workers` threads, 1 to 16 (None: one for each
        processor).

        The texts go to files in a temporary folder. `census identify` with a bound of 1 reads them all, for the faults and generation 0.
        Then `census objects` reports what becomes of them. The calls hold as many texts as the system and a collection allow, some 65,000
        on Linux; more texts take more calls in turn. Without a text there is no call.

        Where texts have faults, the error of the first is raised; with `return_exceptions` the error of each stands in its place in the
        list instead: `PatternFault`, `TooLong`, `ReadFailed` where the text's file was taken away, or `CensusError` itself where a text has
        a lone surrogate. `OutOfMemory`, `TimedOut`, `ProgramFailed` and `OSError` concern the call as a whole, and are always raised.
        """
        if isinstance(rles, (str, bytes, bytearray, memoryview)):
            raise TypeError("rles must be a list of texts; identify takes one text")
        question = _Question.of_objects(bound, near, cells, horizon, min(os.cpu_count() or 1, 16) if workers is None else workers)
        common_names = _names_of(names)
        texts = [_text_or_error(rle, index) for index, rle in enumerate(rles)]
        files = {f"{index}.rle": text for index, text in enumerate(texts) if not isinstance(text, CensusError)}
        found: Dict[str, Union[Pattern, CensusError]] = {
            f"{index}.rle": text for index, text in enumerate(texts) if isinstance(text, CensusError)
        }
        for batch in _batches(list(files)):
            with tempfile.TemporaryDirectory(prefix="census-") as folder:
                for name in batch:
                    with open(os.path.join(folder, name), "wb") as it:
                        it.write(files[name])
                found.update(self._beginnings(folder, batch, question))
                if not return_exceptions:
                    _raise_first([found[f"{index}.rle"] for index in range(_index_in_folder(batch[-1]) + 1)])
                found.update(self._outcomes(folder, {name: found[name] for name in batch}, question))
        answers = [found[f"{index}.rle"] for index in range(len(texts))]
        if not return_exceptions:
            _raise_first(answers)
        named: List[Union[Pattern, CensusError]] = []
        for answer in answers:
            named.append(_with_name(answer, common_names) if isinstance(answer, Pattern) else answer)
        return named

    def _beginnings(self, folder: str, names: List[str], question: _Question) -> Dict[str, Union[Pattern, CensusError]]:
        """What the files of these names in a folder are in generation 0, or what is wrong with them. Files with faults are removed."""
        ran = self._run(["identify", "--bound=1", *_option("cells", question.cells, _MOST_CELLS), "--", *names], folder=folder)
        found = _answers(ran, names, 1, None)
        for name, answer in found.items():
            if isinstance(answer, CensusError):
                _remove(folder, name)
            else:
                found[name] = Pattern(answer.rule, answer.population, answer.box)
        return found

    def _outcomes(self, folder: str, begun: Dict[str, Union[Pattern, CensusError]], question: _Question) -> Dict[str, Pattern]:
        """What becomes of the patterns of a folder, of which this is known of generation 0."""
        patterns = {name: pattern for name, pattern in begun.items() if isinstance(pattern, Pattern)}
        rows = self._rows_in(folder, patterns, question)
        return {name: _with_outcome(pattern, rows[name], question.bound) for name, pattern in patterns.items()}

    def _rows_in(self, folder: str, patterns: Dict[str, Pattern], question: _Question) -> Dict[str, Row]:
        """What is reported of the files of a folder, by their names. The folder must have these patterns."""
        if not patterns:
            return {}
        listed = sorted(map(os.fsencode, patterns))
        ran = self._run([*question.words(), "--", "."], folder=folder)
        if ran.returncode != 0:
            raise _failure(ran)
        rows = {row.name: row for row in _rows_of(ran, _Asked(["."], [listed], question))}
        if sorted(map(os.fsencode, rows)) != listed or any(
            (row.rule, row.population) != (patterns[name].rule, patterns[name].population) for name, row in rows.items()
        ):
            raise ProgramFailed(ran.returncode, "a report of other patterns than were asked of")
        return rows

    @overload
    def table(self, folders: Union[Text, Iterable[Path]], *, objects: bool = False, near: bool = False, bound: Optional[int] = None,
              workers: Optional[int] = None, cells: Optional[int] = None, horizon: Optional[int] = None, names: Optional[Names] = None,
              engines: Literal[False] = False) -> List[Row]: ...

    @overload
    def table(self, folders: Union[Text, Iterable[Path]], *, objects: bool = False, near: bool = False, bound: Optional[int] = None,
              workers: Optional[int] = None, cells: Optional[int] = None, horizon: Optional[int] = None, names: Optional[Names] = None,
              engines: Literal[True]) -> List[Emission]: ...

    def table(self, folders: Union[Text, Iterable[Path]], *, objects: bool = False, near: bool = False, bound: Optional[int] = None,
              workers: Optional[int] = None, cells: Optional[int] = None, horizon: Optional[int] = None, names: Optional[Names] = None,
              engines: bool = False) -> Union[List[Row], List[Emission]]:
        """What each pattern of these folders becomes, in order: the report of `census run` or of `census objects`. In place of a list of
        folders, a text is a report, or several one after another, whose rows these are, as `read_report` gives them. With `engines`, which
        needs a report or `objects`, there is one row for each code that engines emit in place of each pattern, in their order.

        Each folder is a collection of its `*.rle` files, sorted bytewise. `bound` is 1 to 1,000,000 generations (None: 1,000), with
        `objects` to 100,000 (None: 10,000); `workers` 1 to 16 threads (None: 4); `cells` is how many live cells a generation may have, 1 to
        4,294,967,295 (None: any number, with `objects` 200,000). With `objects` the independent parts of what is left are counted, and
        growth is reported; with `near`, what comes within two cells is one object; growth is sought within `horizon` generations, 1 to
        10,000 (None: 1,000). `near` and `horizon` need `objects`. `names` are names of codes, for `common_name`. A report takes `names`
        alone. A text with a fault is a row; `identify` says more of it. Where the folders are more than one call can hold, several calls
        are made in turn. Without a folder, and for a report, there is no call.

        Raises `FolderFault`, `TooLong`, `ReadFailed`, `ReportFault`, `NamesFault`, `OutOfMemory`, `TimedOut`, `ProgramFailed`, or
        `CensusError` itself; `OSError` where the program can't be started. Where there are several folders, further calls find which one
        is at fault.
        """
        if engines:
            if not objects and not isinstance(folders, (str, bytes, bytearray, memoryview)):
                raise TypeError("engines goes with a report or with objects alone")
            rows_of_patterns = self.table(folders, objects=objects, near=near, bound=bound, workers=workers, cells=cells, horizon=horizon)
            return _emissions(rows_of_patterns, _names_of(names))
        if isinstance(folders, (str, bytes, bytearray, memoryview)):
            if objects or near or any(it is not None for it in (bound, workers, cells, horizon)):
                raise TypeError("what a report says is settled: only names go with it; folders must be a list")
            if b"\n" not in _bytes_of(folders):
                raise TypeError("folders must be a list of folders: a text with no line feed is no report")
            return read_report(folders, names=names)
        if isinstance(folders, os.PathLike):
            raise TypeError("folders must be a list of folders")
        if near and not objects:
            raise TypeError("near goes with objects alone")
        if horizon is not None and not objects:
            raise TypeError("horizon goes with objects alone")
        question = _Question.of_objects(bound, near, cells, horizon, workers) if objects else _Question.of_run(bound, cells, workers)
        common_names = _names_of(names)
        rows: List[Row] = []
        before = 0
        for batch in _batches([_path_of(folder) for folder in folders]):
            listed = [_names_in(folder) for folder in batch]
            ran = self._run([*question.words(), "--", *batch])
            if ran.returncode != 0:
                self._raise_of_folders(ran, batch)
            rows += [replace(row, collection=before + row.collection) for row in _rows_of(ran, _Asked(batch, listed, question))]
            before += len(batch)
        return [_with_name(row, common_names) for row in rows]

    def run(self, folders: Iterable[Path] = (), *, texts: Optional[Texts] = None, bound: Optional[int] = None,
            workers: Optional[int] = None, cells: Optional[int] = None, names: Optional[Names] = None) -> List[Row]:
        """`table` of what comes again: the report of `census run`. Or that of `texts`, as in `objects`."""
        if texts is not None:
            return self._rows_of_texts(folders, texts, _Question.of_run(bound, cells, workers), names)
        return self.table(_list_of_folders(folders), bound=bound, workers=workers, cells=cells, names=names)

    def objects(self, folders: Iterable[Path] = (), *, texts: Optional[Texts] = None, near: bool = False, bound: Optional[int] = None,
                workers: Optional[int] = None, cells: Optional[int] = None, horizon: Optional[int] = None, names: Optional[Names] = None
                ) -> List[Row]:
        """`table` of objects that are left, and of growth: the report of `census objects`.

        In place of folders, `texts` are RLE texts by their names, or a list of them, whose names are 1, 2 and so on. They are the patterns
        of one collection, `texts`, and go to the program as a bundle. Raises `ValueError` for a name that is not lawful, for a text with a
        line that begins with `@`, which would end it, and for more than 65,535 texts.
        """
        if texts is not None:
            return self._rows_of_texts(folders, texts, _Question.of_objects(bound, near, cells, horizon, workers), names)
        return self.table(
            _list_of_folders(folders), objects=True, near=near, bound=bound, workers=workers, cells=cells, horizon=horizon, names=names
        )

    def _rows_of_texts(self, folders: Iterable[Path], texts: Texts, question: _Question, names: Optional[Names]) -> List[Row]:
        """What is reported of texts."""
        if list(folders):
            raise TypeError("give folders or texts, not both")
        common_names = _names_of(names)
        named = _named_texts(texts)
        ran = self._run(question.words(), _bundle_of(named))
        if _first_line(ran) == "census: input too long":
            raise TooLong()
        if ran.returncode != 0:
            raise _failure(ran)
        rows = _rows_of(ran, _Asked(["texts"], [[name for name, _ in named]], question, is_bundle=True))
        return [_with_name(row, common_names) for row in rows]

    def merge(self, reports: Union[Text, Iterable[Text]], *, cut: bool = False) -> str:
        """One report of several, whose collections are numbered on: `census merge`. The reports are a list of texts, or one text in which
        they stand one after another. With `cut`, a text may be a report that was cut: its whole collections are kept. Names that are not
        UTF-8 stand in what it gives as `os.fsdecode` has them, so that this can be read again. Without a text there is no call.

        Raises `ReportFault`, `FolderFault` where there are too many collections, and what `codes` raises.
        """
        words = ["merge", "--explain", *_flag("cut", cut), "--"]
        if isinstance(reports, (str, bytes, bytearray, memoryview)):
            return _report_of(self._run([*words, "-"], _bytes_of(reports)))
        texts = [_bytes_of(report, index, "reports") for index, report in enumerate(reports)]
        if not texts:
            return "end 0 0\n"
        with tempfile.TemporaryDirectory(prefix="census-") as folder:
            for index, text in enumerate(texts):
                with open(os.path.join(folder, str(index)), "wb") as it:
                    it.write(text)
            return _report_of(self._run([*words, *map(str, range(len(texts)))], folder=folder))

    def page(self, report: Text, *, title: Optional[str] = None, note: Optional[str] = None, sort: Optional[Order] = None,
             top: Optional[int] = None, base: Optional[str] = None, links: bool = False, patterns: bool = True,
             names: Optional[Names] = None) -> str:
        """An HTML page of a report, or of several one after another, with a picture of each code: `census page`. It is to be kept in UTF-8.

        `sort` is the order of the codes, that of the report where it is None, and `top` how many of each collection are shown, 1 to
        4,294,967,295 (None: all). With `base`, which begins with `http://` or `https://`, names are links to `base`, the collection, `/` and
        the name joined; with `links`, codes are links to Catagolue. Without `patterns`, of the patterns that have a code only the first is
        shown, and of the others those that are unresolved. `names` are names of codes.

        Raises what `codes` raises.
        """
        if sort is not None and sort not in _ORDERS:
            raise ValueError(f"sort must be {', '.join(_ORDERS[:-1])} or {_ORDERS[-1]}, not {sort}")
        if base is not None and not base.startswith(("http://", "https://")):
            raise ValueError(f"base must begin with http:// or https://, not {base}")
        common_names = _names_of(names)
        texts = (("title", title), ("note", note), ("sort", sort), ("base", base), ("names", "names" if common_names else None))
        words = [
            "page", "--explain", *(f"--{name}={_path_of(text)}" for name, text in texts if text is not None),
            *_option("top", top, _MOST_CELLS), *_flag("links", links), *_flag("no-patterns", not patterns), "-",
        ]
        with tempfile.TemporaryDirectory(prefix="census-") as folder:
            with open(os.path.join(folder, "names"), "wb") as it:
                it.write(_text_of_names(common_names))
            ran = self._run(words, _bytes_of(report), folder)
        if ran.returncode == 1:
            raise _fault_of_report(ran)
        return _page_of(ran)

    def codes(self, report: Text, *, names: Optional[Names] = None, rare: bool = False, unnamed: bool = False) -> List[Code]:
        """The codes of a report, or of several one after another, by falling count, and then the shorter first: `census table --codes`.
        `names` are names of codes, for `common_name`. With `rare` the rarest come first; with `unnamed` those that have a name are left
        out.

        Raises `ReportFault`, `NamesFault`, `TooLong`, `OutOfMemory`, `TimedOut`, `ProgramFailed`, or `CensusError` itself.
        """
        common_names = _names_of(names)
        order = ["--sort=rare"] if rare else []
        ran = self._run(["table", "--codes", *order, "--json", "--explain", "-"], _bytes_of(report))
        if ran.returncode == 1:
            raise _fault_of_report(ran)
        codes = [_with_name(code, common_names) for code in _codes_of(ran)]
        return [code for code in codes if not unnamed or code.common_name is None]

    def same(self, report: Text) -> List[Same]:
        """The patterns of a report, or of several one after another, that are one object, in the order of codes: `census same`.

        Raises what `codes` raises.
        """
        ran = self._run(["same", "--json", "--explain", "-"], _bytes_of(report))
        if ran.returncode == 1:
            raise _fault_of_report(ran)
        return _same_of(ran)

    def starts(self, folders: Iterable[Path], *, recursive: bool = False) -> List[Same]:
        """The patterns of folders that are the same at the start under one rule, moved, turned or mirrored: `census same --starts`. In place
        of a code, `apgcode` has `_` and what `draw` takes.

        With `recursive` the folders below each are read too. Texts with faults are left out. One call is made for all folders, and none
        without a folder. Raises `FolderFault`, `TooLong`, `ReadFailed`, `OutOfMemory`, `TimedOut` or `ProgramFailed`.
        """
        words = [_path_of(folder) for folder in _list_of_folders(folders)]
        if not words:
            return []
        ran = self._run(["same", "--starts", "--json", *_flag("recursive", recursive), "--", *words])
        if ran.returncode not in (0, 5):
            self._raise_of_folders(ran, words)
        return _same_of(ran)

    def verify(self, claims: Text, report: Text) -> List[Disagreement]:
        """What does not agree between claims, which are comma-separated values under a row of names, and a report, or several one after
        another: `census verify`. Nothing where all agrees.

        Raises `ClaimFault` and what `codes` raises.
        """
        with tempfile.TemporaryDirectory(prefix="census-") as folder:
            with open(os.path.join(folder, "claims"), "wb") as it:
                it.write(_bytes_of(claims))
            ran = self._run(["verify", "--explain", "claims", "-"], _bytes_of(report), folder)
        if ran.returncode == 1:
            raise _fault_of_report(ran)
        return _disagreements_of(ran)

    def advance(self, rle: Text, generations: int, *, cells: Optional[int] = None) -> str:
        """The RLE text of a later generation of an RLE text's pattern, `generations` 0 to 4,194,304.

        `cells` is how many live cells each generation up to that one may have, 1 to 4,294,967,295 (None: any number).

        Raises `TooManyCells`, and what `identify` raises.
        """
        number = _number("generations", generations, 0, _MOST_GENERATIONS)
        ran = self._run(["advance", "--explain", *_option("cells", cells, _MOST_CELLS), "--", str(number), "-"], _bytes_of(rle))
        if ran.returncode == 1:
            raise _fault_of_text(ran)
        return _text_of(ran)

    def draw(self, code: str, rule: str = "B3/S23") -> str:
        """The RLE text of the pattern that a code names, or the part of a code after its first `_`, under a rule.

        Raises `CodeFault`, `RuleFault`, `OutOfMemory`, `TimedOut`, `ProgramFailed`, or `CensusError` itself.
        """
        ran = self._run(["draw", "--explain", f"--rule={_path_of(rule)}", "--", _path_of(code)])
        if ran.returncode == 1:
            raise _fault_of_words(ran)
        return _text_of(ran)

    def _run(self, words: List[str], given: bytes = b"", folder: Optional[str] = None) -> subprocess.CompletedProcess[bytes]:
        """Calls the program with these words, in this folder."""
        if signal.getsignal(signal.SIGCHLD) == signal.SIG_IGN:
            raise CensusError("this process ignores SIGCHLD, and so is told no status of the program: it must be signal.SIG_DFL")
        command = [self.program, *words]
        try:
            return subprocess.run(command, input=given, stdout=subprocess.PIPE, stderr=subprocess.PIPE, cwd=folder, timeout=self.timeout)
        except subprocess.TimeoutExpired as expired:
            raise TimedOut(expired.timeout) from None

    def _raise_of_folders(self, ran: subprocess.CompletedProcess[bytes], folders: List[str]) -> NoReturn:
        """Raises what a call for these folders has reported."""
        line = _first_line(ran)
        place = None
        fault = re.fullmatch("census: folder fault ([0-9]+).*", line)
        if fault or line in ("census: read failed", "census: input too long"):
            place = self._refused(line, folders)
        if fault:
            raise FolderFault(int(fault.group(1)), place)
        if line == "census: read failed":
            raise ReadFailed(place)
        if line == "census: input too long":
            raise TooLong(place)
        raise _failure(ran)

    def _refused(self, line: str, folders: List[str]) -> Optional[str]:
        """The first folder that is refused with this line where it is asked of alone."""
        for folder in folders:
            if len(folders) == 1 or _first_line(self._run(["run", "--bound=1", "--", folder])) == line:
                return folder
        return None


def _found_program(path: str) -> str:
    """The path of the program that is meant by a path, or by a name on the PATH."""
    if not os.path.dirname(path):
        found = shutil.which(path)
        if found is None:
            raise FileNotFoundError(errno.ENOENT, "there is no such program on the PATH: give Census the path of the program census", path)
        return found
    if not os.path.exists(path):
        raise FileNotFoundError(errno.ENOENT, "there is no such program", path)
    if os.path.isdir(path) or not os.access(path, os.X_OK):
        raise PermissionError(errno.EACCES, "this is no program that may be run", path)
    return path


def _number(name: str, value: int, least: int, most: int) -> int:
    """A number of this range."""
    number = operator.index(value)
    if not least <= number <= most:
        raise ValueError(f"{name} must be {least} to {most}, not {number}")
    return number


# the greatest values of options; the bound of `identify` and `objects`, and that of `run`
_MOST_CELLS = (1 << 32) - 1
_MOST_HORIZON = 10000
_MOST_WORKERS = 16
_MOST_BOUND = 100000
_MOST_BOUND_OF_RUN = 1000000
_MOST_GENERATIONS = 4194304


def _option(name: str, value: Optional[int], most: int) -> List[str]:
    """The words for an option whose value is 1 to a greatest one."""
    return [] if value is None else [f"--{name}={_number(name, value, 1, most)}"]


def _flag(name: str, is_used: bool) -> List[str]:
    """The word for a flag, where it is used."""
    return [f"--{name}"] if is_used else []


@dataclass(frozen=True)
class _Question:
    """What is asked of each pattern, with every number in its range."""

    objects: bool
    bound: int
    near: bool
    # None: any number
    cells: Optional[int]
    horizon: int
    # None: the program's own number
    workers: Optional[int]

    @staticmethod
    def of_objects(bound: Optional[int], near: bool, cells: Optional[int], horizon: Optional[int], workers: Optional[int] = None) -> _Question:
        """The question of `objects` and `identify`, with the program's defaults."""
        return _Question(
            True, _number("bound", 10000 if bound is None else bound, 1, _MOST_BOUND), near,
            _number("cells", 200000 if cells is None else cells, 1, _MOST_CELLS),
            _number("horizon", 1000 if horizon is None else horizon, 1, _MOST_HORIZON), _workers(workers),
        )

    @staticmethod
    def of_run(bound: Optional[int], cells: Optional[int], workers: Optional[int]) -> _Question:
        """The question of `run`, with the program's defaults."""
        return _Question(
            False, _number("bound", 1000 if bound is None else bound, 1, _MOST_BOUND_OF_RUN), False,
            None if cells is None else _number("cells", cells, 1, _MOST_CELLS), 1000, _workers(workers),
        )

    def options(self) -> List[str]:
        """The words of the options for it, without the workers."""
        grown = [*_flag("near", self.near), f"--horizon={self.horizon}"] if self.objects else []
        return [f"--bound={self.bound}", *grown, *_option("cells", self.cells, _MOST_CELLS)]

    def words(self) -> List[str]:
        """The words of the command that asks it, without its folders."""
        return ["objects" if self.objects else "run", *self.options(), *_option("workers", self.workers, _MOST_WORKERS)]

    def period_limit(self) -> int:
        """The most generations after which an engine comes again."""
        return min(self.bound, self.horizon)


def _workers(workers: Optional[int]) -> Optional[int]:
    return None if workers is None else _number("workers", workers, 1, _MOST_WORKERS)


def _list_of_folders(folders: Iterable[Path]) -> Iterable[Path]:
    """Folders, which are no text."""
    if isinstance(folders, (str, bytes, bytearray, memoryview)):
        raise TypeError("folders must be a list of folders")
    return folders


def _remove(folder: str, name: str) -> None:
    """Removes a file of a folder, where it is still there."""
    try:
        os.remove(os.path.join(folder, name))
    except FileNotFoundError:
        pass


def _bytes_of(text: Text, index: Optional[int] = None, texts: str = "rles") -> bytes:
    """A text, of a list where it has an index, as the bytes that the program reads."""
    if isinstance(text, str):
        try:
            return text.encode("utf-8", "surrogateescape")
        except UnicodeEncodeError as error:
            place = _place_of_text(index, f"character {error.start}", texts)
            raise CensusError("the text has a lone surrogate, which is no character", None, place) from None
    if isinstance(text, (bytes, bytearray, memoryview)):
        return bytes(text)
    raise TypeError(f"a text must be str or bytes, not {type(text).__name__}")


def _names_of(names: Optional[Names]) -> Mapping[str, str]:
    """Names by their codes."""
    if names is None:
        return {}
    return names if isinstance(names, Mapping) else read_names(names)


def _text_of_names(names: Mapping[str, str]) -> bytes:
    """The text of names by their codes, as `read_names` reads it."""
    text = b"".join(b"%s\t%s\n" % (_bytes_of(code), _bytes_of(name)) for code, name in names.items())
    if read_names(text) != names:
        raise ValueError("a code or a name is empty, begins or ends as a line can't, or has a tab or a line feed")
    return text


_Coded = TypeVar("_Coded", Pattern, Row, Code)


def _with_name(coded: _Coded, names: Mapping[str, str]) -> _Coded:
    """What has an apgcode, with the name of it."""
    name = None if coded.apgcode is None else names.get(coded.apgcode)
    return coded if name is None else replace(coded, common_name=name)


def _named_texts(texts: Texts) -> List[Tuple[bytes, bytes]]:
    """The names of texts and their bytes."""
    if isinstance(texts, (str, bytes, bytearray, memoryview)):
        raise TypeError("texts must be a dict or a list of texts")
    pairs = texts.items() if isinstance(texts, Mapping) else ((str(number), text) for number, text in enumerate(texts, 1))
    named = [(_bytes_of(name), _bytes_of(text)) for name, text in pairs]
    if len(named) > _MOST:
        raise ValueError(f"there must be at most {_MOST} texts")
    return named


def _bundle_of(named: List[Tuple[bytes, bytes]]) -> bytes:
    """A bundle with one folder of these names and texts."""
    lines = [b"@folder texts\n"]
    for name, text in named:
        shown = ascii(os.fsdecode(name))
        try:
            _name(name)
        except ValueError:
            raise ValueError(f"the name {shown} is not lawful: it must have 1 to 255 bytes, none below 32 or 127, and no blank at either end") from None
        at_line = re.search(rb"^@", text, re.MULTILINE)
        if at_line:
            line = text.count(b"\n", 0, at_line.start()) + 1
            raise ValueError(f"line {line} of the text {shown} begins with @, which would end the text in a bundle: identify_many takes it")
        lines.append(b"@file " + name + b"\n" + text + (b"" if text.endswith(b"\n") or not text else b"\n"))
    return b"".join(lines)


def _text_or_error(rle: Text, index: int) -> Union[bytes, CensusError]:
    """The bytes of a text of a list, or what is wrong with it."""
    try:
        return _bytes_of(rle, index)
    except CensusError as error:
        return error


def _raise_first(answers: List[Union[Pattern, CensusError]]) -> None:
    """Raises the first error among the answers, if there is any."""
    for answer in answers:
        if isinstance(answer, CensusError):
            raise answer


def _path_of(path: Path) -> str:
    """A path that the system can be asked for."""
    text = os.fsdecode(path)
    try:
        if b"\0" not in os.fsencode(text):
            return text
    except UnicodeEncodeError:
        pass
    raise CensusError("the path has a NUL or a lone surrogate: no file has such a name", None, ascii(text))


def _names_in(folder: str) -> Optional[List[bytes]]:
    """The names in a folder that end in `.rle`, sorted bytewise, or None where it can't be listed."""
    try:
        return sorted(name for name in os.listdir(os.fsencode(folder)) if name.endswith(b".rle"))
    except OSError:
        return None


def _room() -> int:
    """How many bytes the words of one call may take: what the system allows, at most 2 MiB, without the environment and some to spare."""
    allowed = os.sysconf("SC_ARG_MAX")
    if allowed <= 0:
        allowed = 1 << 17
    environment = sum(len(name) + len(value) + 10 for name, value in os.environb.items())
    return min(allowed, 1 << 21) - environment - (1 << 14)


def _batches(words: List[str]) -> Iterator[List[str]]:
    """The words, in one list for each call that is needed, each of one word or more."""
    room = _room()
    batch: List[str] = []
    left = room
    for word in words:
        # its bytes, the one that ends them, and its address
        size = len(os.fsencode(word)) + 9
        if batch and (size > left or len(batch) == _MOST):
            yield batch
            batch, left = [], room
        batch.append(word)
        left -= size
    if batch:
        yield batch


# What the program says


def _first_line(ran: subprocess.CompletedProcess[bytes]) -> str:
    """The first line on standard error."""
    return ran.stderr.split(b"\n")[0].decode("utf-8", "replace")


def _failure(ran: subprocess.CompletedProcess[bytes]) -> CensusError:
    """What has ended a call as a whole."""
    if ran.returncode == 3:
        return OutOfMemory()
    return ProgramFailed(ran.returncode, ran.stderr.decode("utf-8", "replace"))


def _text_of(ran: subprocess.CompletedProcess[bytes]) -> str:
    """The RLE text that a call has written."""
    if ran.returncode != 0:
        raise _failure(ran)
    text = ran.stdout.decode("ascii", "replace")
    if not re.fullmatch(r"x = [0-9]+, y = [0-9]+, rule = B[1-8]*/S[0-8]*\n[0-9bo$\n]*!\n", text):
        raise ProgramFailed(ran.returncode, "what it wrote is no RLE text")
    return text


def _told_lines(ran: subprocess.CompletedProcess[bytes]) -> List[str]:
    """The last two lines on standard error, of a fault that is explained; `ProgramFailed` where there are others."""
    lines = ran.stderr.decode("utf-8", "replace").split("\n")
    if ran.stdout or len(lines) < 3 or lines[-1] or not lines[-2].startswith("  "):
        raise _failure(ran)
    return lines[-3:-1]


def _fault_of_text(ran: subprocess.CompletedProcess[bytes]) -> CensusError:
    """Why an RLE text was refused."""
    if _first_line(ran) == "census: input too long":
        return TooLong()
    large = re.fullmatch("census: more than ([0-9]+) cells at generation ([0-9]+)", _first_line(ran))
    if large:
        return TooManyCells(int(large.group(1)), int(large.group(2)))
    line, told = _told_lines(ran)
    fault = re.fullmatch(r"census: rle fault ([0-9]+)(?: at ([0-9]+))?", line)
    where = re.fullmatch(r"  ([0-9]+):([0-9]+): (.*)", told)
    if not fault or not where:
        return _failure(ran)
    at = fault.group(2)
    return PatternFault(where.group(3), int(fault.group(1)), int(where.group(1)), int(where.group(2)), None if at is None else int(at))


def _fault_of_words(ran: subprocess.CompletedProcess[bytes]) -> CensusError:
    """Why a code or a rule was refused."""
    line, told = _told_lines(ran)
    code = re.fullmatch(r"census: code fault ([0-9]+)(?: at [0-9]+)?", line)
    rule = re.fullmatch(r"census: rule fault ([0-9]+)", line)
    where = re.fullmatch(r"  1:([0-9]+): (.*)", told)
    if code and where:
        return CodeFault(where.group(2), int(code.group(1)), f"byte {int(where.group(1)) - 1}")
    if rule:
        return RuleFault(told.strip(), int(rule.group(1)))
    return _failure(ran)


def _fault_of_report(ran: subprocess.CompletedProcess[bytes]) -> CensusError:
    """Why a report was refused."""
    # (a file may be named before)
    if re.fullmatch("census: (?:[0-9]+: |claims: )?input too long", _first_line(ran)):
        return TooLong()
    line, told = _told_lines(ran)
    many = re.fullmatch(r"census: too many collections at report ([0-9]+)", line)
    if many:
        return FolderFault(3, f"reports[{int(many.group(1)) - 1}]")
    fault = re.fullmatch(r"census: (?:[0-9]+: |claims: )?(report|claim) fault at line ([0-9]+)", line)
    where = re.fullmatch(r"  (?:([0-9]+):|claims:)?[0-9]+: (.*)", told)
    if not fault or not where:
        return _failure(ran)
    if fault.group(1) == "claim":
        return ClaimFault(where.group(2), int(fault.group(2)))
    return ReportFault(where.group(2), int(fault.group(2)), None if where.group(1) is None else int(where.group(1)))


def _report_of(ran: subprocess.CompletedProcess[bytes]) -> str:
    """The report that a call has written."""
    if ran.returncode == 1:
        raise _fault_of_report(ran)
    if ran.returncode != 0:
        raise _failure(ran)
    if not re.search(rb"(?:\A|\n)end [0-9]+ [0-9]+\n\Z", ran.stdout):
        raise ProgramFailed(ran.returncode, "what it wrote is no report")
    return ran.stdout.decode("utf-8", "surrogateescape")


def _page_of(ran: subprocess.CompletedProcess[bytes]) -> str:
    """The page that a call has written."""
    if ran.returncode != 0:
        raise _failure(ran)
    page = ran.stdout.decode("utf-8", "replace")
    if not page.startswith("<!DOCTYPE html>") or not page.rstrip().endswith("</html>"):
        raise ProgramFailed(ran.returncode, "what it wrote is no page")
    return page


def _codes_of(ran: subprocess.CompletedProcess[bytes]) -> List[Code]:
    """The codes that a call has written, an object a line."""
    if ran.returncode != 0:
        raise _failure(ran)
    try:
        rows = [json.loads(line) for line in ran.stdout.decode("utf-8").split("\n")[:-1]]
        codes = [Code(apgcode=row.pop("code"), **row) for row in rows]
    except (AttributeError, KeyError, TypeError, ValueError):
        raise ProgramFailed(ran.returncode, "what it wrote is no table of codes") from None
    for code in codes:
        texts = (code.rule, code.apgcode, code.first_collection_name, code.first_name)
        numbers = (type(code.count), type(code.patterns), type(code.share))
        if not all(isinstance(text, str) for text in texts) or numbers != (int, int, float):
            raise ProgramFailed(ran.returncode, "what it wrote is no table of codes")
    return codes


def _disagreements_of(ran: subprocess.CompletedProcess[bytes]) -> List[Disagreement]:
    """What a call has written that does not agree, a line each."""
    if ran.returncode not in (0, 5):
        raise _failure(ran)
    lines = [line.split(" ", 1) for line in ran.stdout.decode("utf-8", "replace").split("\n")[:-1]]
    if (ran.returncode == 5) != bool(lines) or any(len(line) < 2 or line[0] not in _KINDS for line in lines):
        raise ProgramFailed(ran.returncode, "what it wrote is no comparison")
    return [Disagreement(kind, text) for kind, text in lines]


_ORDERS = ("report", "count", "rare", "code", "period", "name")
_KINDS = ("wrong", "missing", "several", "unclaimed")
_SAME = ("code", "collection_name", "collection_name_hex", "name", "name_hex", "rule")


def _same_of(ran: subprocess.CompletedProcess[bytes]) -> List[Same]:
    """The patterns that a call has written, an object a line: those of one rule and code stand together."""
    if ran.returncode not in (0, 5):
        raise _failure(ran)
    found: Dict[Tuple[str, str], List[Tuple[str, str]]] = {}
    try:
        for line in ran.stdout.decode("utf-8").split("\n")[:-1]:
            row = json.loads(line)
            if tuple(row) != _SAME or not all(isinstance(row[name], str) for name in _SAME if not name.endswith("_hex")):
                raise ValueError(line)
            found.setdefault((row["rule"], row["code"]), []).append((row["collection_name"], row["name"]))
    except (TypeError, ValueError):
        raise ProgramFailed(ran.returncode, "what it wrote is no list of patterns") from None
    if (ran.returncode == 5) != bool(found) or any(len(patterns) < 2 for patterns in found.values()):
        raise ProgramFailed(ran.returncode, "what it wrote is no list of patterns")
    return [Same(rule, code, tuple(patterns)) for (rule, code), patterns in found.items()]


_FAULT = re.compile(r"census: ([0-9]+\.rle|-):([0-9]+):([0-9]+): (.*) \(rle fault ([0-9]+)(?: at ([0-9]+))?\)")
_REFUSED = re.compile(r"census: ([0-9]+\.rle|-): (read failed|input too long|.* \(os error [0-9]+\))")


def _error_of(line: str) -> Optional[Tuple[str, CensusError]]:
    """The file that a line on standard error is of, and what it says; None of any other line."""
    fault = _FAULT.fullmatch(line)
    if fault:
        name, row, column, sentence, number, at = fault.groups()
        return name, PatternFault(sentence, int(number), int(row), int(column), None if at is None else int(at), _index_of(name))
    refused = _REFUSED.fullmatch(line)
    if refused:
        name, words = refused.groups()
        return name, (TooLong if words == "input too long" else ReadFailed)(None, _index_of(name))
    return None


def _index_of(name: str) -> Optional[int]:
    """The place in its list of the text that a file of the temporary folder has, None of standard input."""
    return None if name == "-" else _index_in_folder(name)


def _index_in_folder(name: str) -> int:
    return int(name[:-len(".rle")])


def _answers(ran: subprocess.CompletedProcess[bytes], names: List[str], bound: int, horizon: Optional[int]
             ) -> Dict[str, Union[Pattern, CensusError]]:
    """What `census identify` has reported of each of these files within bound and horizon, where `-` is standard input."""
    told: List[Tuple[str, Union[Pattern, CensusError]]] = []
    for line in ran.stderr.decode("utf-8", "replace").split("\n"):
        error = _error_of(line)
        if error:
            told.append(error)
    try:
        text = ran.stdout.decode("ascii")
        _demand(not text or text.endswith("\n"))
        told += [_pattern_of(block, bound, min(bound, 1000 if horizon is None else horizon)) for block in text[:-1].split("\n\n") if text]
    except ValueError:
        raise _failure(ran) from None
    answers = dict(told)
    # (a report of no file, or two of one file, is no answer; a whole answer ends with the greatest status of its lines)
    is_whole = len(told) == len(names) and all(name in answers for name in names)
    if not is_whole or ran.returncode != max(_status_of(answer) for answer in answers.values()):
        raise _failure(ran)
    return answers


def _status_of(answer: Union[Pattern, CensusError]) -> int:
    """The exit status that the program has where it reports this last."""
    if isinstance(answer, Pattern):
        return 0
    return 4 if isinstance(answer, ReadFailed) else 1


# the words of which blocks and reports are made
_RULE = r"B1?2?3?4?5?6?7?8?/S0?1?2?3?4?5?6?7?8?"
_CODE = r"x[spq][0-9]+_[0-9a-z]+"
_COUNT = r"(?:0|[1-9][0-9]{0,19})"
_OFFSET = r"(?:0|-?[1-9][0-9]{0,18})"

_BLOCK = re.compile(rf"""(?:file (?P<file>[0-9]+\.rle)\n)?rule (?P<rule>{_RULE})
population (?P<population>{_COUNT})
box (?P<width>{_COUNT}) (?P<height>{_COUNT})
(?:onset (?P<onset>{_COUNT})
(?:period (?P<period>{_COUNT})
displacement (?P<dx>{_OFFSET}) (?P<dy>{_OFFSET})
)?(?:apgcode (?P<code>{_CODE})|objects (?P<objects>{_COUNT})(?P<parts>(?:\npart {_CODE} {_COUNT})*))|engines (?P<engines>{_COUNT})(?P<tales>(?:
(?:engine|emits) .*)*)|large (?P<large>{_COUNT})|unresolved (?P<bound>{_COUNT}))""")
_PART = re.compile(rf"part ({_CODE}) ({_COUNT})")


def _are_within(engines: List[Engine], longest: int) -> bool:
    """Whether engines come again within a number of generations, and emit what has whole codes."""
    return all(engine.period <= longest and all(re.fullmatch(_CODE, code) for code in engine.emits) for engine in engines)


def _engines_of(count: int, lines: List[str]) -> List[Engine]:
    """The engines that these lines give, with their number in all; raises ValueError where they don't fit."""
    told = _Engines(count)
    for line in lines:
        kind, rest = line.encode().split(b" ", 1)
        (told.take_engine if kind == b"engine" else told.take_emits)(rest)
    _demand(count > 0 and told.are_told())
    return told.found


def _pattern_of(block: str, bound: int, longest: int) -> Tuple[str, Pattern]:
    """The file that a block of lines is of, and what it says; raises ValueError where it is no block for this bound, and where an engine
    takes longer to come again."""
    found = _BLOCK.fullmatch(block)
    if found is None:
        raise ValueError(block)
    name, pattern = found["file"] or "-", Pattern(found["rule"], int(found["population"]), (int(found["width"]), int(found["height"])))
    if found["bound"] is not None:
        _demand(int(found["bound"]) == bound)
        return name, replace(pattern, unresolved=bound)
    if found["large"] is not None:
        # (generations are examined up to there)
        _demand(int(found["large"]) <= 3 * bound)
        return name, replace(pattern, large=int(found["large"]))
    if found["engines"] is not None:
        engines = _engines_of(int(found["engines"]), found["tales"].split("\n")[1:])
        _demand(_are_within(engines, longest))
        return name, replace(pattern, engines=engines)
    pattern = replace(pattern, onset=int(found["onset"]))
    _demand(int(found["onset"]) <= bound)
    if found["period"] is not None:
        _demand(1 <= int(found["period"]) <= bound)
        pattern = replace(pattern, period=int(found["period"]), displacement=(int(found["dx"]), int(found["dy"])))
    if found["code"] is not None:
        _demand(found["period"] is not None)
        return name, replace(pattern, apgcode=found["code"], objects={found["code"]: 1})
    parts = [(code, int(count)) for code, count in _PART.findall(found["parts"])]
    objects = dict(parts)
    _demand(len(objects) == len(parts) and sum(objects.values()) == int(found["objects"]) != 1)
    _demand(found["period"] is None or bool(objects))
    return name, replace(pattern, objects=objects)


@dataclass(frozen=True)
class _Asked:
    """What a report was asked for."""

    folders: List[str]
    # the names of the patterns of each folder before the call, or None where it could not be listed
    listed: List[Optional[List[bytes]]]
    question: _Question
    # whether the names are those of a bundle, of one folder
    is_bundle: bool = False

    def fits(self, reading: _Reading) -> bool:
        """Whether what was read has the folders, their patterns and for each what was asked."""
        found = list(reading.ended)
        return len(reading.sizes) == 1 and [collection.name for collection in found] == list(map(os.fsencode, self.folders)) and all(
            self._fits_folder(folder, listed, collection) for folder, listed, collection in zip(self.folders, self.listed, found)
        )

    def _fits_folder(self, folder: str, listed: Optional[List[bytes]], collection: _Collection) -> bool:
        names = [os.fsencode(row.name) for row in collection.lines]
        rows = zip(collection.lines, collection.parts, collection.engines)
        if self.is_bundle:
            return names == listed and all(self._fits_row(*row) for row in rows)
        is_lawful = all(name.endswith(b".rle") for name in names) and names == sorted(set(names))
        # (names may have come and gone since they were listed; a folder that is as it was has the names that it had)
        has_changed = listed is None or listed != _names_in(folder)
        return is_lawful and (listed == names or has_changed) and all(self._fits_row(*row) for row in rows)

    def _fits_row(self, row: Row, parts: List[Tuple[str, int]], engines: List[Engine]) -> bool:
        objects, bound = self.question.objects, self.question.bound
        onset, period = row.onset or 0, row.period or 0
        if row.status == "bad":
            return row.fault in range(1, 11)
        if not re.fullmatch(_RULE, row.rule or ""):
            return False
        if row.status == "ok":
            is_found = max(onset, period) <= bound if objects else onset + period <= bound
            return period > 0 and is_found and bool(re.fullmatch(_CODE, row.apgcode or ""))
        if row.status == "ash":
            is_one = sum(count for _, count in parts) == 1
            return objects and onset <= bound and not is_one and all(re.fullmatch(_CODE, code) for code, _ in parts)
        if row.status == "grows":
            return objects and _are_within(engines, self.question.period_limit())
        if row.status == "large":
            return self.question.cells is not None and (row.generation or 0) <= bound * (3 if objects else 1)
        return True


def _with_outcome(pattern: Pattern, row: Row, bound: int) -> Pattern:
    """What is known of generation 0 of a pattern, with what a report of objects says becomes of it within the bound."""
    parts = row.parts if row.apgcode is None else ((row.apgcode, 1),)
    return replace(
        pattern, onset=row.onset, period=row.period, displacement=row.displacement, apgcode=row.apgcode,
        objects=None if parts is None else dict(parts), unresolved=bound if row.status == "none" else None,
        engines=row.engines, large=row.generation,
    )


def _emissions(rows: List[Row], common_names: Mapping[str, str]) -> List[Emission]:
    """What the engines of these patterns emit."""
    found: List[Emission] = []
    for row in rows:
        for number, engine in enumerate(row.engines or (), 1):
            moving = "rake" if all(code.startswith("xq") for code in engine.emits) else "puffer"
            kind = "gun" if engine.displacement == (0, 0) else moving
            found += [
                Emission(row.collection, row.collection_name, row.pattern, row.name, row.rule or "", number, kind, engine.period,
                         engine.displacement, engine.count, code, count, common_names.get(code))
                for code, count in engine.emits.items()
            ]
    return found


def _rows_of(ran: subprocess.CompletedProcess[bytes], asked: _Asked) -> List[Row]:
    """The rows of the report that a call has written."""
    try:
        reading = _read(ran.stdout)
    except ReportFault as fault:
        raise ProgramFailed(ran.returncode, f"no whole report: {fault}") from fault
    if not asked.fits(reading):
        raise ProgramFailed(ran.returncode, "a report that tells of other folders, patterns or questions than were asked of")
    return reading.rows()


# Reports


def read_report(report: Text, *, names: Optional[Names] = None) -> List[Row]:
    """The rows of a report of `census run` or `census objects`, by collection and then by pattern. Several reports one after another give the
    rows of the report that `census merge` makes of them: their collections are numbered on. `names` are names of codes, for `common_name`.

    The lines of several collections may interleave. A text is a report where `census merge` reads it. Numbers have no leading zeros and fit
    64 bits. Rules are as they are printed. Codes begin as codes, that of an `ok` line as its period and displacement say. A name is the
    rest of a line and is lawful. Lines of every kind may stand in any collection. Right after an `ash` line its `part` lines give all its
    objects in the order of codes. The `code` lines of a collection are what its lines count, in the order of first appearance.
    Right after a `grows` line its `engine` lines give all its engines, at least one, numbered from 1, in the order of period, displacement
    and what they emit, no two the same. Periods are 1 to 10,000, and an engine moves by at most one cell in a generation. Right after each
    `engine` line its `emits` lines give what it emits, at least one object, in the order of codes. Nor may lines say what no run finds: more
    cells than a pattern may have, an onset, with the period, or a generation above 1,000,000, objects without cells, or engines that stay
    in their place and emit what does too. Raises `ReportFault` at the line at which `census merge` finds the fault.
    """
    common_names = _names_of(names)
    return [_with_name(row, common_names) for row in _read(_bytes_of(report)).rows()]


def read_names(names: Text) -> Dict[str, str]:
    """The names of codes that a text has, by their codes, as `census --names` reads them: a line is a code, a tab and a name. Empty lines
    and lines that begin with `#` are passed over. `examples/names.tsv` is such a text.

    Raises `NamesFault` at the first line without a code or without a name, or whose code has a name before.
    """
    found: Dict[str, str] = {}
    for at, line in enumerate(_bytes_of(names).split(b"\n"), 1):
        line = line[:-1] if line.endswith(b"\r") else line
        if line and not line.startswith(b"#"):
            code, _, name = line.partition(b"\t")
            if not code or not name or os.fsdecode(code) in found:
                raise NamesFault("a line is not one of a name: it must be a code, a tab and a name, and no code may stand twice", at)
            found[os.fsdecode(code)] = os.fsdecode(name)
    return found


def _read(report: bytes) -> _Reading:
    """What is read of one report or more."""
    reading = _Reading()
    lines = report.split(b"\n")
    for at, line in enumerate(lines[:-1], 1):
        try:
            reading.take(line)
        except (ValueError, KeyError):
            raise ReportFault("the line is not one that a report has in this place", at) from None
    if lines[-1] or not reading.has_ended:
        raise ReportFault("the report ends too early", len(lines))
    return reading


def _demand(is_so: bool) -> None:
    if not is_so:
        raise ValueError


_IS_COUNT = re.compile(_COUNT.encode())
_IS_OFFSET = re.compile(_OFFSET.encode())
_IS_RULE = re.compile(_RULE.encode())
_IS_CODE = re.compile(_CODE.encode())


def _count(word: bytes) -> int:
    """A number of 64 bits."""
    _demand(_IS_COUNT.fullmatch(word) is not None and int(word) < 1 << 64)
    return int(word)


def _fault(word: bytes) -> int:
    """The number of a fault of a text; 0 is a text that could not be read."""
    number = _count(word)
    _demand(number <= 10)
    return number


def _population(word: bytes) -> int:
    """The number of cells of a pattern."""
    number = _count(word)
    _demand(number <= _MOST_CELLS)
    return number


def _generation(word: bytes) -> int:
    """A generation in which something was found."""
    number = _count(word)
    _demand(number <= _LAST_GENERATION)
    return number


def _offset(word: bytes) -> int:
    """A signed number of 64 bits."""
    _demand(_IS_OFFSET.fullmatch(word) is not None and -1 << 63 <= int(word) < 1 << 63)
    return int(word)


def _name(name: bytes) -> bytes:
    """A lawful name."""
    _demand(0 < len(name) <= 255 and all(byte >= 32 and byte != 127 for byte in name) and b" " not in (name[:1], name[-1:]))
    return name


def _rule(word: bytes) -> str:
    """A rule as it is printed."""
    _demand(_IS_RULE.fullmatch(word) is not None)
    return word.decode()


def _code(word: bytes) -> str:
    """A code."""
    _demand(_IS_CODE.fullmatch(word) is not None)
    return word.decode()


def _object(word: bytes) -> str:
    """A code of at least one cell."""
    _demand(word.partition(b"_")[2] != b"0")
    return _code(word)


def _fits_code(period: int, displacement: Tuple[int, int], code: str) -> bool:
    """Whether a code begins as period and displacement say, and it moves by at most a cell in each generation."""
    if any(abs(way) > period for way in displacement):
        return False
    if displacement != (0, 0):
        return period > 0 and code.startswith(f"xq{period}_")
    return period > 0 and code.startswith("xs" if period == 1 else f"xp{period}_")


# what stands between the status and the name of a line
_FIELDS: Dict[bytes, Dict[str, Callable[[bytes], Any]]] = {
    b"ok": {
        "rule": _rule, "population": _population, "onset": _generation, "period": _count, "dx": _offset, "dy": _offset, "code": _code,
    },
    b"ash": {"rule": _rule, "population": _population, "onset": _generation, "objects": _count},
    b"grows": {"rule": _rule, "population": _population, "engines": _count},
    b"none": {"rule": _rule, "population": _population},
    b"large": {"rule": _rule, "population": _population, "generation": _generation},
    b"bad": {"fault": _fault},
}

# the most collections of a report, and the most patterns of a collection
_MOST = 65535
# the most generations after which an engine comes again
_LONGEST_PERIOD = 10000
# the most live cells of a pattern
_MOST_CELLS = 1048576
# the last generation in which something is found of a pattern
_LAST_GENERATION = 1000000


class _Collection:
    """What is read of one collection."""

    def __init__(self, number: int, size: int, name: bytes) -> None:
        self.number = number
        self.size = size
        self.name = name
        self.lines: List[Row] = []
        # of each line: which objects and which engines were read
        self.parts: List[List[Tuple[str, int]]] = []
        self.engines: List[List[Engine]] = []
        # how many objects there are of each rule and code, in the order of first appearance, and those that no `code` line has given, once
        # one was read
        self.counted: Dict[Tuple[Optional[str], str], int] = {}
        self.untold: Optional[Iterator[Tuple[Tuple[Optional[str], str], int]]] = None
        # the status of the last line, until a `code` line was read: `part`, `engine` and `emits` lines may follow it
        self.status = b""
        self.is_closed = False

    def counts(self) -> List[int]:
        """How many lines there are, and of them those resolved, unresolved and refused."""
        found = [row.status for row in self.lines]
        resolved, unresolved, refused = ("ok", "ash", "grows"), ("none", "large"), ("bad",)
        return [len(found), *(sum(status in statuses for status in found) for statuses in (resolved, unresolved, refused))]

    def count(self, code: str, count: int) -> None:
        """Counts objects of the last line."""
        key = self.lines[-1].rule, code
        self.counted[key] = self.counted.get(key, 0) + count

    def next_count(self) -> Optional[Tuple[Tuple[Optional[str], str], int]]:
        """The next rule and code that a `code` line has to give, with the number of objects; None once all are given."""
        if self.untold is None:
            self.untold = iter(self.counted.items())
        return next(self.untold, None)

    def rows(self, before: int) -> List[Row]:
        """The rows, after a number of collections that come before those of its report."""
        number = before + self.number
        return [
            replace(row, collection=number, parts=tuple(parts) if row.status == "ash" else None, engines=engines or None)
            for row, parts, engines in zip(self.lines, self.parts, self.engines)
        ]


class _Engines:
    """What `engine` and `emits` lines say of a number of engines. A line that does not fit raises ValueError."""

    def __init__(self, left: int) -> None:
        self.found: List[Engine] = []
        # how many no `engine` line has given
        self.left = left
        # of the last: its period, how far it moves, and what it emits, each code after its length
        self.way = (0, 0, 0)
        self.emits: List[Tuple[int, bytes, int]] = []
        # what the one before it emits, where that goes the same way
        self.before: List[Tuple[int, bytes, int]] = []
        # whether it emits something and comes after the one before it
        self.rises = True

    def are_told(self) -> bool:
        """Whether all are given."""
        return self.left == 0 and self.rises

    def take_engine(self, rest: bytes) -> None:
        """Takes an `engine` line from the number of the engine on."""
        number, period, dx, dy, count = rest.split(b" ")
        way = _count(period), _offset(dx), _offset(dy)
        _demand(0 < way[0] <= _LONGEST_PERIOD and abs(way[1]) <= way[0] and abs(way[2]) <= way[0])
        _demand(self.rises and _count(number) == len(self.found) + 1 and 0 < _count(count) <= self.left and self.way <= way)
        self.before = self.emits if self.way == way else []
        self.way, self.emits, self.rises = way, [], False
        self.left -= _count(count)
        self.found.append(Engine(way[0], way[1:], _count(count), {}))

    def take_emits(self, rest: bytes) -> None:
        """Takes an `emits` line from the number of the engine on."""
        number, code, count = rest.split(b" ")
        next_one = len(code), code, _count(count)
        _demand(0 < _count(number) == len(self.found) and 0 < _count(count))
        _demand(not self.emits or self.emits[-1][:2] < next_one[:2])
        # (none, or one)
        other = self.before[len(self.emits) : len(self.emits) + 1]
        _demand(self.rises or other <= [next_one])
        self.rises = self.rises or other < [next_one]
        self.emits.append(next_one)
        # (what an engine that stays in its place emits moves away)
        _demand(self.way[1:] != (0, 0) or code.startswith(b"xq"))
        self.found[-1].emits[_object(code)] = _count(count)


class _Told:
    """What the lines of a report say together. A line that does not fit raises ValueError."""

    def __init__(self) -> None:
        # the collection of the last line, how many of its objects no `part` line has given, and the last code of one
        self.collection = 0
        self.left = 0
        self.last = b""
        # its engines
        self.engines = _Engines(0)

    def end_line(self) -> None:
        """Ends what follows the last line."""
        _demand(self.left == 0 and self.engines.are_told())
        self.engines = _Engines(0)

    def take_line(self, collection: int, status: bytes, objects: int, engines: int) -> None:
        _demand(status != b"grows" or engines > 0)
        self.collection, self.left, self.last, self.engines = collection, objects, b"", _Engines(engines)

    def take_part(self, collection: int, code: bytes, count: int) -> None:
        _demand(collection == self.collection and 0 < count <= self.left and (len(self.last), self.last) < (len(code), code))
        self.left, self.last = self.left - count, code

    def engines_of(self, collection: int) -> _Engines:
        """The engines of the last line, which is of this collection."""
        _demand(collection == self.collection)
        return self.engines


class _Reading:
    """What is read of one report or more. A line that can't stand where it does raises ValueError or KeyError."""

    def __init__(self) -> None:
        # those of the report that was begun, by their numbers
        self.collections: Dict[int, _Collection] = {}
        # those of the reports that have ended, and how many each report has
        self.ended: List[_Collection] = []
        self.sizes: List[int] = []
        self.has_ended = False
        self.told = _Told()
        self.takes = {
            b"open": self._open, b"line": self._line, b"code": self._code, b"close": self._close, b"end": self._end,
        }
        # what follows a line
        self.takes_behind = {b"part": self._part, b"engine": self._engine, b"emits": self._emits}

    def rows(self) -> List[Row]:
        found: List[Row] = []
        before, at = 0, 0
        for size in self.sizes:
            for collection in self.ended[at : at + size]:
                found += collection.rows(before)
            before, at = before + size, at + size
        return found

    def take(self, line: bytes) -> None:
        """Takes the next line, without its line feed."""
        kind, _, rest = line.partition(b" ")
        self.has_ended = False
        if kind in self.takes_behind:
            self.takes_behind[kind](rest)
        else:
            self.told.end_line()
            self.takes[kind](rest)

    def _open(self, rest: bytes) -> None:
        number, size, name = rest.split(b" ", 2)
        collection = _Collection(_count(number), _count(size), _name(name))
        _demand(1 <= collection.number <= _MOST and collection.size <= _MOST and collection.number not in self.collections)
        self.collections[collection.number] = collection

    def _still_open(self, number: bytes) -> _Collection:
        """The collection of this number, which must be open."""
        collection = self.collections[_count(number)]
        _demand(not collection.is_closed)
        return collection

    def _line(self, rest: bytes) -> None:
        number, pattern, status, rest = rest.split(b" ", 3)
        collection = self._still_open(number)
        _demand(_count(pattern) == len(collection.lines) + 1 <= collection.size)
        fields = _FIELDS[status]
        *words, name = rest.split(b" ", len(fields))
        _demand(len(words) == len(fields))
        found = {key: read(word) for (key, read), word in zip(fields.items(), words)}
        if status == b"ok":
            found["displacement"] = found.pop("dx"), found.pop("dy")
            found["apgcode"] = found.pop("code")
            _demand(_fits_code(found["period"], found["displacement"], found["apgcode"]))
            _demand(found["onset"] + found["period"] <= _LAST_GENERATION)
        self.told.take_line(collection.number, status, found.pop("objects", 0), found.pop("engines", 0))
        collection.parts.append([])
        collection.engines.append(self.told.engines.found)
        collection.status = status
        folder = os.fsdecode(collection.name)
        collection.lines.append(Row(collection.number, folder, _count(pattern), os.fsdecode(_name(name)), status.decode(), **found))
        if status == b"ok":
            collection.count(found["apgcode"], 1)

    def _behind(self, status: bytes, rest: bytes) -> Tuple[_Collection, bytes]:
        """The collection of a line after one with this status, and what follows the numbers of both."""
        number, pattern, rest = rest.split(b" ", 2)
        collection = self._still_open(number)
        _demand(collection.status == status and _count(pattern) == len(collection.lines))
        return collection, rest

    def _part(self, rest: bytes) -> None:
        collection, rest = self._behind(b"ash", rest)
        code, count = rest.split(b" ")
        self.told.take_part(collection.number, code, _count(count))
        collection.parts[-1].append((_object(code), _count(count)))
        collection.count(*collection.parts[-1][-1])

    def _engine(self, rest: bytes) -> None:
        collection, rest = self._behind(b"grows", rest)
        self.told.engines_of(collection.number).take_engine(rest)

    def _emits(self, rest: bytes) -> None:
        collection, rest = self._behind(b"grows", rest)
        self.told.engines_of(collection.number).take_emits(rest)

    def _code(self, rest: bytes) -> None:
        number, rule, code, count = rest.split(b" ")
        collection = self._still_open(number)
        _demand(len(collection.lines) == collection.size and collection.next_count() == ((_rule(rule), _code(code)), _count(count)))
        collection.status = b""

    def _close(self, rest: bytes) -> None:
        number, *counts = rest.split(b" ")
        collection = self._still_open(number)
        _demand(collection.size == len(collection.lines) and [_count(count) for count in counts] == collection.counts())
        _demand(collection.next_count() is None)
        collection.is_closed = True

    def _end(self, rest: bytes) -> None:
        collections, patterns = map(_count, rest.split(b" "))
        found = [self.collections[number] for number in sorted(self.collections)]
        # (numbers from 1 on, each once)
        _demand(collections == len(found) == max(self.collections, default=0) and all(collection.is_closed for collection in found))
        _demand(patterns == sum(collection.size for collection in found))
        self.ended += found
        self.sizes.append(len(found))
        self.collections = {}
        self.told = _Told()
        self.has_ended = True
