"""The order in which tasks of the gate run side by side, on so many processors and in so much memory.

Proofs come first, and of these the one with the longest chain of others behind it; rounds of edits and checks fill the rest. What runs, by
what it is planned to take, stays below the memory that there is. Where a proof waits for memory, others begin only so far that it can
begin once any one of the proofs that run has ended. At most two rounds run beside a proof. A task that the system killed, most likely for
memory, begins once more when nothing else runs, and nothing runs beside it.
"""
import os
import sys
import traceback
from concurrent.futures import FIRST_COMPLETED, ThreadPoolExecutor, wait
from dataclasses import dataclass, field
from typing import Callable

KINDS = ("proof", "edits", "check")
# what a task gives that was killed
KILLED = "killed"
# the most rounds of edits that run beside a proof
ROUNDS = 2
# the part of the free memory that is planned for
PART = 0.85
# the most processors of a proof, where nothing fills the others and where something does, and the part of its memory that each but the first takes
JOBS, JOBS_BESIDE, MORE = 4, 2, 0.6


@dataclass
class Task:
    """A task: a proof (also of tests), a round of edits or a check."""

    kind: str
    waits: list  # what ends first
    work: float  # only the order depends on it
    need: float  # the memory that it is planned to take, in bytes
    call: Callable = None  # gets what the tasks before it gave, and a number of processors


@dataclass
class Plan:
    """The tasks by their keys, each after those that it waits for, and how far they are."""

    tasks: dict
    lanes: int
    memory: float
    given: dict = field(default_factory=dict)
    running: dict = field(default_factory=dict)  # the processors of each
    alone: set = field(default_factory=set)  # what was killed once

    def __post_init__(self):
        behind = {it: 0 for it in self.tasks}
        for key in reversed([*self.tasks]):
            behind[key] += self.tasks[key].work
            for it in self.tasks[key].waits:
                behind[it] = max(behind[it], behind[key])
        self.left = sorted(self.tasks, key=lambda it: (KINDS.index(self.tasks[it].kind), -behind[it]))

    def next(self, free):
        """The task to begin now and its processors, or None where something has to end first. free: the memory in bytes that nothing holds now."""
        idle = self.lanes - sum(self.running.values())
        if idle < 1 or self.alone & self.running.keys():
            return None
        room = min(self.memory - sum(self.taken(*it) for it in self.running.items()), free)
        ready, waits = [it for it in self.left if all(below in self.given for below in self.tasks[it].waits)], False
        for key in ready:
            if key in self.alone:
                return (key, 1) if not self.running else None
            if not self.running or self.tasks[key].need <= room and not self.is_one_too_many(key):
                return key, self.jobs_of(key, ready, idle, room)
            if self.is_proof(key) and not waits:
                # others may take what memory is left when it has begun, once any one of the proofs that run has ended
                freed = min((self.taken(*it) for it in self.running.items() if self.is_proof(it[0])), default=0)
                waits, room = True, min(room, room + freed - self.tasks[key].need)
        return None

    def taken(self, key, jobs):
        """The memory that a task with so many processors is planned to take."""
        return self.tasks[key].need * (1 + MORE * (jobs - 1))

    def is_proof(self, key):
        return self.tasks[key].kind == "proof"

    def is_one_too_many(self, key):
        """Whether this is a round of edits, and as many run as may run beside a proof."""
        rounds = [it for it in self.running if self.tasks[it].kind == "edits"]
        return self.tasks[key].kind == "edits" and len(rounds) >= ROUNDS and any(map(self.is_proof, self.running))

    def jobs_of(self, key, ready, idle, room):
        """The processors of a task: a proof gets those that no other proof waits for, but for some that others can fill, where memory holds it."""
        if not self.is_proof(key):
            return 1
        proofs = [it for it in ready if self.is_proof(it)]
        most = JOBS if len(proofs) == len(ready) else JOBS_BESIDE
        return max(1, min(most, idle // len(proofs), 1 + int((room / self.tasks[key].need - 1) / MORE)))

    def begin(self, key, jobs):
        self.left.remove(key)
        self.running[key] = jobs

    def end(self, key, came):
        """Notes what a task gave. One that was killed for the first time is left to do, before all others."""
        del self.running[key]
        if came == KILLED and key not in self.alone:
            self.alone.add(key)
            self.left.insert(0, key)
        else:
            self.given[key] = came if came != KILLED else False


def run(plan, free):
    """Runs the tasks, and returns what each gave and the least memory that was free meanwhile."""
    least, runs = free(), {}
    with ThreadPoolExecutor(plan.lanes) as pool:
        while plan.left or runs:
            least = min(least, free())
            chosen = plan.next(free())
            if chosen:
                key, jobs = chosen
                plan.begin(key, jobs)
                runs[pool.submit(plan.tasks[key].call, plan.given, jobs)] = key
                continue
            if not runs:
                raise RuntimeError(f"none of these tasks can begin: {plan.left}")
            for it in wait(runs, timeout=2, return_when=FIRST_COMPLETED).done:
                plan.end(runs.pop(it), it.result())
    return plan.given, least


def run_or_end(plan, free):
    """As `run`. Where that fails, this process ends at once, and with it all that it started."""
    try:
        return run(plan, free)
    except BaseException:
        traceback.print_exc()
        sys.stdout.flush()
        os._exit(70)
