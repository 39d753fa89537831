"""What has to hold of `./mpwb build` beside the program: its lanes, over tasks as `rt ci` has them and an `rt` whose tasks can be taken over."""
import os
import re
import sys
import threading
import time

from script_copy import wait_for
from seat_checks import SECONDS, Wrong, expect

TOP = os.path.dirname(os.path.dirname(os.path.abspath(__file__)))
sys.path.insert(0, f"{TOP}/launcher")
sys.dont_write_bytecode = True  # (what is installed is a copy of that folder)
import lanes  # noqa: E402

# a chain of three crates, three beside it, of which one takes nearly as long as the chain, and the edits of one
TASKS = {
    ("low", "proof"): ([], 10, 2e9),
    ("beside", "proof"): ([], 28, 2e9),
    ("aside", "proof"): ([], 5, 2e9),
    ("middle", "proof"): ([("low", "proof")], 10, 2e9),
    ("top", "proof"): ([("middle", "proof")], 10, 2e9),
    ("last", "proof"): ([], 1, 2e9),
    ("top", "edits"): ([("top", "proof")], 1, 2e9),
}


class Done:
    """Runs of tasks on four processors, and what each had: its jobs, its niceness, what had ended, and how many ran beside it."""

    def __init__(self, memory):
        self.had, self.now, self.most, self.lock = {}, 0, 0, threading.Lock()
        tasks = {key: (*task, lambda given, jobs, key=key: self.do(key, given, jobs)) for key, task in TASKS.items()}
        self.given = lanes.Lanes(tasks, 4, memory).run()

    def do(self, key, given, jobs):
        nice = os.getpriority(os.PRIO_PROCESS, threading.get_native_id())
        with self.lock:
            self.now += 1
            self.most = max(self.most, self.now)
            self.had[key] = jobs, nice, {*given}
        time.sleep(0.02 if key[0] == "beside" else 0.2)  # (it ends before the chain's last one begins)
        with self.lock:
            self.now -= 1
        return f"{key} is done"


def expect_lanes():
    """The longest chain has all processors and is served first, others have one job, and memory that isn't there is waited for."""
    ample = Done(100e9)
    expect("what they gave", {key: f"{key} is done" for key in TASKS}, ample.given)
    for key, (waits, *_) in TASKS.items():
        expect(f"what has ended before {key}", set(), {*waits} - ample.had[key][2])
    jobs = {key: had[0] for key, had in ample.had.items()}
    expect("their jobs", {key: 4 if key[1] == "proof" and key[0] in ("low", "middle", "top") else 1 for key in TASKS}, jobs)
    mine = os.getpriority(os.PRIO_PROCESS, 0)
    nice = {key[0]: had[1] for key, had in ample.had.items() if key[1] == "proof"}
    served = [nice[name] for name in ("low", "beside", "middle", "top", "aside", "last")]
    expect("who is served first", (mine, sorted(served), True), (served[0], served, served[-1] > mine or mine == 19))
    expect("how many ran at once", True, 2 <= ample.most <= 4)
    with open(f"{TOP}/crates.txt", encoding="utf-8") as file:
        crates = {line.partition(":")[0] for line in file}
    expect("crates whose seconds are known", set(), {*lanes.SECONDS} - crates)
    # mp_request has the most lines of all crates, and mp_near more seconds behind it
    tasks = {("mp_near", "proof"): ([], 1863, 1e9), ("mpwb", "proof"): ([("mp_near", "proof")], 1174, 1e9), ("mp_request", "proof"): ([], 4695, 1e9)}
    behind = lanes.seconds_behind(tasks)
    expect("seconds and not lines say who is first", ("mp_near", "proof"), max(behind, key=behind.get))
    for memory in (1e9, 0.5e9):
        short = Done(memory)
        expect(f"with {memory} bytes", (1, {1}), (short.most, {had[0] for had in short.had.values()}))
    expect_raised()


def expect_raised():
    """What a task raises ends the run."""

    def fails(given, jobs):
        raise SystemExit(3)

    try:
        lanes.Lanes({("low", "proof"): ([], 1, 1.0, fails)}, 4, 1e9).run()
    except SystemExit:
        return
    raise Wrong("a task that ends rt doesn't end the run")


# an rt of Python whose tasks can be taken over, unless it lacks what FORM says
RT = """#!/usr/bin/env python3
import os, sys
KIT = "FOLDER/kit"
def processors():
    return 3
def free():
    return 100e9
def in_lanes(tasks):
    return {key: task[-1]({}, "its own") for key, task in tasks.items()}
def note(given, jobs):
    with open(f"{KIT}/jobs", "a") as file:
        file.write(f"{jobs} of {os.environ.get('RT_JOBS', 'none')}\\n")
    return True
def main(words):
    in_lanes({("low", "proof"): TASK})
    os.makedirs("crates/mpwb/out")
    with open(f"{KIT}/program") as file, open("crates/mpwb/out/mpwb", "w") as made:
        made.write(file.read().replace("KIND", "proved", 1))
    print("rt: mpwb proved")
    return 0
FORM
if __name__ == "__main__":
    sys.exit(main(sys.argv[1:]))
"""


def expect_builds(copy):
    """A build takes over the tasks of an rt that is as it is known, and leaves all else to rt."""
    known = "([], 1, 1.0, note)"
    for what, form, task, given, wanted in [
        ("a known rt", "", known, {}, "3 of none"),
        ("a number of jobs", "", known, {"RT_JOBS": "2"}, "its own of 2"),
        ("other tasks", "", "([], note)", {}, "its own of none"),
        ("no function of that name", "del free", known, {}, "its own of N"),
        ("another language", "fi", known, {}, ""),
    ]:
        copy.write("kit/bin/rt", RT.replace("FOLDER", copy.folder).replace("FORM", form).replace("TASK", task))
        copy.touch("low")
        copy.env.pop("RT_JOBS", None)
        copy.env.update(given)
        status = copy.run("build")[0]
        noted = [line if given else re.sub(r"\d+$", "N", line) for line in copy.noted("jobs")]
        expect(f"a build with {what}", (0, [wanted]) if wanted else (70, []), (status, noted))


def lanes_of_a_build(copy):
    """A build gives processors to the longest chain of crates where rt lets it."""
    expect_lanes()
    expect_builds(copy)


def while_a_build_proves(copy):
    """While a build proves, the first program answers, also one of newer sources, of which the build knows nothing."""
    copy.run("waves")
    copy.set_mode("slow")
    build = copy.start("build")
    wait_for(f"{copy.kit}/begun")
    copy.set_mode("")
    copy.calls()
    expect("an answer", ("checked waves\n", 0), (copy.run("waves")[1], copy.calls()))
    copy.touch("low")
    for calls in (1, 0):
        expect("an answer of newer sources", ("checked waves\n", calls), (copy.run("waves")[1], copy.calls()))
    expect("what is kept", ["build.log", "mpwb-checked"], copy.kept())
    copy.write("kit/goes_on", "")
    build.communicate(timeout=SECONDS)
    expect("the build, and an answer of newer sources", (0, "checked waves\n"), (build.returncode, copy.run("waves")[1]))
    os.utime(f"{copy.out}/mpwb")
    expect("an answer of the build", "proved waves\n", copy.run("waves")[1])
