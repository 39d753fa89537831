"""`rt ci` at the top of a repository, with the processors given to crates in another way: `lanes.py RT`, where RT is the path of `rt`.

`rt` proves crates side by side, and each check keeps the number of jobs that it begins with. It thinks of twice the memory that checks take, so it
begins few, or, if it is told how many, gives each one job. Then processors idle while the longest chain of crates is proved, one after the other.
Here the crate with the longest chain behind it has a job for each processor, and the others have one job, since a check by several jobs costs a
quarter to a third more. The system gives processors to the longest chain first (`nice`). All else is done by `rt`. If it isn't as this file knows
it, it does that too.
"""

from __future__ import annotations

import importlib.machinery
import importlib.util
import os
import re
import sys
import threading
from concurrent.futures import FIRST_COMPLETED, Future, wait
from types import ModuleType
from typing import Any, Callable, Dict, List, Tuple

Key = Tuple[str, str]  # the name of a crate, and what of it is done
Given = Dict[Key, Any]  # what the tasks that have ended gave
# what a task waits for, its lines, the bytes of memory that rt thinks it takes, and the call that does it by so many jobs
Task = Tuple[List[Key], int, float, Callable[[Given, int], Any]]

TAKEN = 0.45  # the part of the memory that rt thinks of which a check by one job takes
TAKEN_MORE = 0.2  # what each further job takes, as a part of what the first one does
USED = 0.85  # the part of the free memory that is used
MOST_JOBS = 8  # more seldom help
NICEST = 19
BYTES_OF_A_CHECK = 5_000_000_000  # which no check by one job takes

# the seconds of a processor that the proof of each crate takes by docs/PERFORMANCE.md. A line of one takes five times as long as of another
SECONDS = {
    "mp_streams": 115, "mp_wave": 171, "mp_modules": 165, "mp_records": 315, "mp_netlist": 569, "mp_model": 250, "mp_kernel": 292, "mp_partition": 323,
    "mp_simulation": 482, "mp_version": 440, "mp_phase": 262, "mp_text": 711, "mp_engine": 732, "mp_depend": 219, "mp_active": 335, "mp_redo": 1173,
    "mp_near": 471, "mp_session": 240, "mp_desk": 350, "mp_meeting": 419, "mp_report": 154, "mp_questions": 466, "mp_holding": 85, "mp_check": 525,
    "mp_steady": 357, "mp_picture": 685, "mp_exports": 579, "mp_seats": 1006, "mp_commands": 831, "mp_request": 584, "mpwb": 813,
}  # fmt: skip
SECONDS_OF_A_LINE = 0.17  # of other crates


def seconds_of(key: Key, lines: int) -> float:
    """How long a task takes one processor, as far as is known beforehand."""
    others = SECONDS_OF_A_LINE * lines
    return SECONDS.get(key[0], others) if key[1] == "proof" else others


def seconds_behind(tasks: Dict[Key, Task]) -> Dict[Key, float]:
    """The seconds of the longest chain of tasks that begins with each, itself included. (A task comes after those that it waits for.)"""
    behind = {key: 0.0 for key in tasks}
    for key in reversed([*tasks]):
        waits, lines = tasks[key][:2]
        behind[key] += seconds_of(key, lines)
        for before in waits:
            behind[before] = max(behind[before], behind[key])
    return behind


def memory_of(task: Task, jobs: int) -> float:
    return task[2] * TAKEN * (1 + TAKEN_MORE * (jobs - 1))


def started(task: Task, given: Given, jobs: int, nice: int) -> Future[Any]:
    """Begins a task in a thread of its own, whose processes are as nice as it is. (Niceness can only grow, so no thread is used again.)"""
    future: Future[Any] = Future()

    def work() -> None:
        try:
            os.setpriority(os.PRIO_PROCESS, threading.get_native_id(), nice)
            future.set_result(task[3](given, jobs))
        except BaseException as error:  # (rt ends by one)
            future.set_exception(error)

    threading.Thread(target=work, daemon=True).start()
    return future


class Lanes:
    """The tasks of a run, on so many processors and in so much memory."""

    def __init__(self, tasks: Dict[Key, Task], processors: int, memory: float) -> None:
        self.tasks, self.processors, self.memory = tasks, processors, memory
        self.behind = seconds_behind(tasks)
        self.left = sorted(tasks, key=lambda it: -self.behind[it])
        self.rank = {key: at for at, key in enumerate(self.left)}
        self.running: Dict[Future[Any], Tuple[Key, float]] = {}
        self.given: Given = {}

    def jobs_for(self, key: Key) -> int:
        """The jobs of a task that begins now, 0 where it has to wait for memory or a processor."""
        is_longest = key[1] != "edits" and all(self.behind[key] >= self.behind[it] for it, _ in self.running.values())
        wanted = min(self.processors, MOST_JOBS) if is_longest else 1
        free = self.memory - sum(taken for _, taken in self.running.values())
        fitting = [it for it in range(1, wanted + 1) if memory_of(self.tasks[key], it) <= free]
        if len(self.running) >= self.processors:
            return 0
        return max(fitting, default=0 if self.running else 1)

    def begin(self) -> None:
        """Begins what can begin, those with the longest chain behind them first."""
        for key in [it for it in self.left if all(before in self.given for before in self.tasks[it][0])]:
            jobs = self.jobs_for(key)
            if jobs:
                self.left.remove(key)
                nice = os.getpriority(os.PRIO_PROCESS, 0) + self.rank[key] * NICEST // len(self.rank)
                future = started(self.tasks[key], self.given, jobs, min(nice, NICEST))
                self.running[future] = key, memory_of(self.tasks[key], jobs)

    def run(self) -> Given:
        """Does all tasks, each once those that it waits for have ended, and returns what they gave."""
        while self.left or self.running:
            self.begin()
            for future in wait(self.running, return_when=FIRST_COMPLETED).done:
                self.given[self.running.pop(future)[0]] = future.result()
        return self.given


def are_known(tasks: Any) -> bool:
    """Whether tasks are as this file knows them."""
    try:
        return all(len(key) == 2 and len(task) == 4 and task[1] + task[2] >= 0 and callable(task[3]) for key, task in tasks.items())
    except (AttributeError, TypeError):
        return False


def load(path: str) -> ModuleType:
    """`rt` as a module, with tasks done as here. Whatever is raised says that it isn't as this file knows it."""
    loader = importlib.machinery.SourceFileLoader("rt", path)
    spec = importlib.util.spec_from_loader("rt", loader)
    assert spec
    rt = importlib.util.module_from_spec(spec)
    sys.modules["rt"] = rt
    loader.exec_module(rt)
    theirs, processors, free, _ = rt.in_lanes, rt.processors, rt.free, rt.main
    rt.in_lanes = lambda tasks: Lanes(tasks, processors(), USED * free()).run() if are_known(tasks) else theirs(tasks)
    return rt


def number_in(path: str, pattern: str) -> int:
    try:
        with open(path, encoding="ascii") as file:
            found = re.search(pattern, file.read())
    except OSError:
        found = None
    return int(found[1]) if found else sys.maxsize


def checks_at_once() -> int:
    """How many checks by one job there are processors and memory for."""
    free = min(1024 * number_in("/proc/meminfo", r"MemAvailable: *(\d+)"), number_in("/sys/fs/cgroup/memory.max", r"(\d+)"))
    return max(min(len(os.sched_getaffinity(0)), free // BYTES_OF_A_CHECK), 1)


def main(path: str) -> int:
    try:
        rt = load(os.path.realpath(path))
    except Exception:  # pylint: disable=broad-except
        os.environ.setdefault("RT_JOBS", str(checks_at_once()))
        os.execv(path, [path, "ci"])
    return int(rt.main(["ci"]))


if __name__ == "__main__":
    sys.exit(main(sys.argv[1]))
