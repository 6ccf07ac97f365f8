"""Runs programs, once or again and again, tells what they took, and whether that and what they print is as it must be."""
import ctypes
import os
import subprocess
import sys
import time
from dataclasses import dataclass

# A size is run again until all its runs took so many times what the start of a process takes, and
# so many seconds, within these numbers of runs. Those that are run in turn have more seconds, since their differences count.
STARTS = 50
SECONDS = 1.0
SECONDS_IN_TURN = 3.0
FEWEST_RUNS = 3
MOST_RUNS = 200


@dataclass
class Run:
    """What one run of a program took: processor time and time on the clock in seconds, peak memory in bytes."""

    status: int
    cpu: float
    clock: float
    memory: int


def adopt_orphans():
    """Lets this process wait for the children of its children.

    A process takes over the peak memory of the one that started it. So each program is started by a
    small shell, which ends at once, and not by this one.
    """
    set_child_subreaper = 36
    if ctypes.CDLL(None, use_errno=True).prctl(set_child_subreaper, 1, 0, 0, 0):
        sys.exit("bench/run: this needs Linux (prctl)")


def run_once(words, out=os.devnull):
    began = time.perf_counter()
    shell = subprocess.Popen(
        ["/bin/sh", "-c", 'out=$1; shift; "$@" >"$out" </dev/null &', "", out, *words],
        env={"PATH": os.environ.get("PATH", os.defpath), "LC_ALL": "C"},
    )
    while True:
        pid, status, used = os.wait4(-1, 0)
        if pid == shell.pid:
            shell.returncode = os.waitstatus_to_exitcode(status)
            continue
        clock = time.perf_counter() - began
        if shell.returncode is None:
            shell.wait()
        cpu = used.ru_utime + used.ru_stime
        return Run(os.waitstatus_to_exitcode(status), cpu, clock, used.ru_maxrss * 1024)


def least(runs):
    """The least of each figure: what else the machine does only adds to it."""
    return Run(
        runs[0].status,
        min(run.cpu for run in runs),
        min(run.clock for run in runs),
        min(run.memory for run in runs),
    )


def are_enough(runs, start, seconds):
    """Whether they took so many seconds, and their time is well above the start of a process."""
    if len(runs) >= MOST_RUNS:
        return True
    return len(runs) >= FEWEST_RUNS and sum(run.cpu for run in runs) >= max(seconds, STARTS * start)


def run_in_turn(calls, start, seconds=SECONDS_IN_TURN):
    """Runs each of these until its runs are enough, and gives the least figures of each, and how many runs.

    They run in turn, so that what else the machine does for some seconds falls on all of them.
    """
    runs = [[] for _ in calls]
    while again := [i for i in range(len(calls)) if not are_enough(runs[i], start, seconds)]:
        for i in again:
            runs[i].append(run_once(calls[i]))
    return [(least(each), len(each)) for each in runs]


def run_often(words, start):
    """Runs until the time is well above the start of a process, and gives the least figures and how many runs."""
    return run_in_turn([words], start, SECONDS)[0]


def answers(words, status, text, out):
    """Whether a command ends with this status and prints this text."""
    run = run_once(words, out)
    with open(out, "rb") as file:
        printed = file.read()
    os.remove(out)
    if run.status == status and printed == text:
        return True
    print(f"WRONG: {' '.join(words[1:])}: status {run.status}, and it printed {printed[:160]!r} ..")
    return False


def keeps(what, each, large, small, limit):
    """Whether the first of two costs is at most so many times the second."""
    ratio = each[large] / each[small] if each[small] > 0 else float("inf")
    verdict = "within" if ratio <= limit else "OVER"
    print(f"{what}: {ratio:.2f} times, {verdict} the limit of {limit}")
    return ratio <= limit
