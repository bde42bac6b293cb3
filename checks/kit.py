"""The kit's own `rt`, as a module `rt`, told how much memory these crates take, and `rt ci` without the must-fail edits.

`rt ci` runs proofs at the same time, and gives one more processors, only where its own estimate of memory leaves room. For
these crates a proof takes at most 0.72 of that, as measured on the largest, and mostly half. It names what it builds by a sum of all sources
below, and works that out again for each way down to a crate: over ten minutes for all crates, and seconds where sums are kept.
Nothing writes to the sources meanwhile. What is proved, and how, is left to the kit.

With MINUTES in the environment, a file, each command of the prover appends a line to it (checks/measured).
"""
import importlib.machinery
import importlib.util
import os
import shutil
import sys

from notes import note

HERE = os.path.dirname(os.path.realpath(__file__))
# the part of the estimate that a proof takes
PART = 0.72


def load():
    found = shutil.which("rt")
    if not found:
        print("checks: the kit's command rt is not on the PATH", file=sys.stderr)
        sys.exit(3)
    loader = importlib.machinery.SourceFileLoader("rt_of_kit", os.path.realpath(found))
    made = importlib.util.module_from_spec(importlib.util.spec_from_loader("rt_of_kit", loader))
    sys.modules["rt_of_kit"] = made
    loader.exec_module(made)
    estimate = made.need
    made.need = kept_by_folder(lambda crate: PART * estimate(crate))
    made.rtlib.Crate.stamp = kept_by_folder(made.rtlib.Crate.stamp)
    if "MINUTES" in os.environ:
        guarded = made.rtlib.guarded
        made.rtlib.guarded = lambda: [*guarded(), *measuring()]
    return made


def kept_by_folder(call):
    """The same call on a crate, made once for each crate's folder."""
    found = {}

    def kept(crate):
        if crate.folder not in found:
            found[crate.folder] = call(crate)
        return found[crate.folder]

    return kept


def measuring():
    """The words before a command that have it measured."""
    return [sys.executable, "-IS", f"{HERE}/measured", os.environ["MINUTES"]]


def ci(words):
    """Runs `rt ci` without the must-fail edits, and notes whether each crate, its tests and its program were proved, and ran well."""
    rt.edits_of = lambda crate: ([], [])
    in_lanes, run, found = rt.in_lanes, rt.run, {}

    def proved(tasks):
        given = in_lanes(tasks)
        found.update({key: bool(it) for key, it in given.items() if key[1] in ("proof", "tests")})
        return given

    def ran(crate, tests, ending=""):
        well = run(crate, tests, ending)
        found[crate.name, "tests ran" if tests else f"ran{ending}"] = well
        return well

    rt.in_lanes, rt.run = proved, ran
    status = rt.main(["ci", *words])
    for (name, part), well in found.items():
        note(part, name, int(well), int(not well))
    note("rt ci", "all", int(status == 0), int(status != 0))
    return status


sys.dont_write_bytecode = True
rt = load()
