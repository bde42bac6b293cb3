"""What the gate does side by side: `rt ci`, with the edits of each crate and the checks among its tasks."""
import os
import sys
import time
import traceback

import kit
import rounds
import schedule
from kit import rt
from notes import note
from schedule import KILLED, Plan, Task

# What a round of edits and a check take, in lines of a crate that take as long to prove: only the order depends on it.
ROUND, EDIT, CHECK = 200, 60, 1


class Beside:
    """The tasks, and what they need to know of the kit's run."""

    def __init__(self, run_check):
        self.run_check, self.start = run_check, time.monotonic()
        self.kept, self.crates, self.killed = None, [], set()
        make, prove = rt.Kept, rt.Crate.ci

        def made(crates, *given):
            self.crates, self.kept = crates, make(crates, *given)
            return self.kept

        def proved(crate, flags, tests):
            status = prove(crate, flags, tests)
            crate.out.seek(0)
            if status == -9 or status and "was killed" in crate.out.read():
                self.killed.add((crate.name, "tests" if tests else "proof"))
                # (the kit would try again at once, beside others)
                return 137
            return status

        rt.Kept, rt.Crate.ci = made, proved

    def proof(self, key, call):
        """A task of the kit, which says how long it took, and whether it was killed."""

        def run(given, jobs):
            start = time.monotonic()
            self.killed.discard(key)
            came = call(given, jobs)
            self.say(start, f"{' '.join(key)}, on {jobs}")
            return self.killed_of(" ".join(key)) if not came and key in self.killed else came

        return run

    def edits(self, tries, number):
        """A task that tries a round of edits of a crate."""
        name = tries.crate.name

        def run(given, jobs):
            start = time.monotonic()
            if given[name, "proof"] and given[name, "tests"]:
                try:
                    came = tries.run(number)
                except rounds.Killed:
                    return self.killed_of(f"{name} edits")
            else:
                came = [(it, False, "NOT TRIED: its crate is not proved") for it in tries.rounds[number]]
            print("".join(f"{edit.label}: {text}\n" for edit, _, text in came), end="", flush=True)
            for edit, is_refused, _ in came:
                note("edit", edit.label, int(is_refused), int(not is_refused))
            self.say(start, f"{name} edits, {len(came)} of {len(tries.edits)}")
            return True

        return guarded(run)

    def check(self, name):
        """A task that runs a check, which gives way to proofs beside it."""

        def run(given, jobs):
            status = self.run_check(name, [*rt.rtlib.guarded(), "nice", "-n", "5"])
            return self.killed_of(f"checks/{name}") if status in (-9, 137) else True

        return guarded(run)

    def killed_of(self, what):
        print(f"-- {what}: killed, most likely for memory: once more, with nothing beside it\n", end="", flush=True)
        return KILLED

    def say(self, start, what):
        now = time.monotonic()
        if now - start >= 3:
            print(f"-- {what}: {(now - start) / 60:.1f} min, {(now - self.start) / 60:.1f} min since the start\n", end="", flush=True)


def guarded(call):
    """The same task, whose failure is not that of all: the gate then does the same again, after the others."""

    def run(given, jobs):
        try:
            return call(given, jobs)
        except Exception:
            traceback.print_exc()
            return False

    return run


def work_of(crate):
    """How long a proof takes, in lines of its crate that take as long: a check also reads the crates below."""
    return crate.count(rb"\n") + sum(it.count(rb"\n") for it in crate.below()) / 16


def tasks_of(beside, of_kit, checks, built, need):
    """All tasks: those of the kit, a round of edits after another once its crate is proved, and checks, once what they run is built."""
    tasks, work = {}, {it.name: work_of(it) for it in beside.crates}
    for key, (waits, lines, memory, call) in of_kit.items():
        tasks[key] = Task("proof", waits, work[key[0]] if lines else 0, memory, beside.proof(key, call))
    for crate in beside.crates:
        tries, waits = rounds.Tries(crate, beside.kept), [(crate.name, "proof"), (crate.name, "tests")]
        for number, members in enumerate(tries.rounds):
            key, memory = (crate.name, "edits", number), rounds.memory_of(crate, len(members))
            tasks[key] = Task("edits", waits, ROUND + EDIT * len(members), memory, beside.edits(tries, number))
            waits = [key]
    for at, name in enumerate(checks):
        waits = [it for it in [(built.get(name), "proof")] if it in tasks]
        tasks["checks", name] = Task("check", waits, CHECK * (len(checks) - at), need, beside.check(name))
    return tasks


def run(checks, alone, built, need, run_check, words):
    """Proves all, tries all edits and runs all checks but those that run alone, and returns the status of `rt ci`."""
    beside = Beside(run_check)

    def in_lanes(of_kit):
        tasks = tasks_of(beside, of_kit, [it for it in checks if it not in alone], built, need)
        number = os.environ.get("RT_JOBS", "")
        at_start = rt.free()
        plan = Plan(tasks, int(number) if number.isdigit() and int(number) else rt.processors(), schedule.PART * at_start)
        given, least = schedule.run_or_end(plan, rt.free)
        print(f"at most {(at_start - least) / 1e9:.1f} of {at_start / 1e9:.1f} GB that were free were taken at one time", flush=True)
        return {key: it for key, it in given.items() if key in of_kit}

    rt.in_lanes = in_lanes
    try:
        return kit.ci(words)
    finally:
        sys.stdout.flush()
