"""Counts the instructions that a program executes, by valgrind's callgrind: they are the same on every run, whatever else goes on."""
import os
import re
import shutil
import subprocess
from dataclasses import dataclass

import inputs
from timing import keeps

# The scripts: moves to and fro, endpoints made and deleted, messages, those that lend a context and those that don't, signals and polls.
MOVES = 200_000
REMOVALS = 100_000
MESSAGES = 150_000
LENDINGS = 140_000
SIGNALS = 1_000_000

# Instructions of the whole program for each event of a script, or for each line of a full table: what the proved program took, and 3%
# more. A build without proofs tests what is proved, and takes twice as many.
LIMITS = {
    "moves": 2_540,
    "removals": 3_720,
    "messages": 1_790,
    "their replay": 1_880,
    "messages that lend": 1_900,
    "messages that don't": 1_740,
    "signals and polls": 1_240,
    "lines checked": 4_070,
}

# An event of a server that gets a context for each receive, and serves on those of its callers, may cost so many times what the same
# event costs of a server that keeps its context.
LENDING_LIMIT = 1.3

COLLECTED = re.compile(rb"Collected : (\d+)")


@dataclass
class Counted:
    """A call of the program, by its words, what it must print, and how many events or lines share its instructions."""

    words: list
    printed: bytes
    count: int


def counts_instructions():
    return shutil.which("valgrind") is not None


def instructions(words, out):
    """How many instructions a call executes; what it prints goes into a file."""
    called = ["valgrind", "--tool=callgrind", "--callgrind-out-file=/dev/null", *words]
    with open(out, "wb") as file:
        ran = subprocess.run(called, stdin=subprocess.DEVNULL, stdout=file, stderr=subprocess.PIPE)
    found = COLLECTED.search(ran.stderr)
    if found is None:
        raise ValueError(f"valgrind counted nothing: {ran.stderr[-400:]!r}")
    return int(found[1])


def write_file(folder, name, text):
    os.makedirs(folder, exist_ok=True)
    path = os.path.join(folder, name)
    with open(path, "w", encoding="ascii", newline="\n") as file:
        file.write(text)
    return path


def write_counted(top):
    """Writes all inputs below a folder, and gives the calls to be counted by what they do."""
    moves = inputs.copies_and_moves(1, MOVES - 1)
    removals = inputs.made_and_deleted(REMOVALS)
    message_script, message_log = inputs.told(inputs.calls_awaited(MESSAGES))
    lends, keeps_own = inputs.told(inputs.calls_that_lend(LENDINGS)), inputs.told(inputs.calls_that_keep(LENDINGS))
    runs = (
        ("moves", inputs.MOVES_TABLE, inputs.table_policy(), inputs.script_of(moves), inputs.all_done(moves), MOVES),
        ("removals", inputs.removal_table(), inputs.table_policy(), inputs.script_of(removals), inputs.all_done(removals), REMOVALS),
        ("messages", inputs.MESSAGES_TABLE, inputs.table_policy(), message_script, message_log, MESSAGES),
        ("messages that lend", inputs.LENDING_TABLE, inputs.table_policy(), *lends, LENDINGS),
        ("messages that don't", inputs.KEEPING_TABLE, inputs.table_policy(), *keeps_own, LENDINGS),
        ("signals and polls", inputs.TWO_CORES_TABLE, inputs.TWO_CORES_POLICY, inputs.script(SIGNALS), inputs.script_log(SIGNALS), SIGNALS),
    )
    calls = {}
    for number, (what, table, policy, script, log, count) in enumerate(runs):
        folder = os.path.join(top, f"counted-{number}")
        files = [write_file(folder, name, text) for name, text in (("table", table), ("policy", policy), ("script", script))]
        calls[what] = Counted(["run", *files], log.encode("ascii"), count)
        if what == "messages":
            legal = inputs.report({"entries": count, "state": "within", "verdict": "legal"})
            calls["their replay"] = Counted(["replay", *files[:2], write_file(folder, "log", log)], legal.encode("ascii"), count)
    table = inputs.check_table()
    folder = os.path.join(top, "counted-check")
    files = [write_file(folder, "table", table), write_file(folder, "policy", inputs.policy_of(inputs.every_edge()))]
    words = ["check", *files, "--workers", "1"]
    calls["lines checked"] = Counted(words, inputs.every_edge_report(table).encode("ascii"), table.count("\n"))
    return calls


def measure_counts(program, folder):
    """Counts the instructions of each call, prints a row each, and gives whether all answers are right and no count passes its limit."""
    if not counts_instructions():
        print("There is no valgrind: no instructions are counted.\n")
        return True
    columns = "{:>20} {:>10} {:>17} {:>10} {:>10}"
    print(columns.format("what", "count", "instructions", "each", "limit"))
    out = os.path.join(folder, "counted-out")
    good = True
    cost = {}
    for what, call in write_counted(folder).items():
        counted = instructions([program, *call.words], out)
        with open(out, "rb") as file:
            right = file.read() == call.printed
        os.remove(out)
        cost[what] = counted / call.count
        within = cost[what] <= LIMITS[what]
        said = "" if within else "  OVER"
        print(columns.format(what, f"{call.count:,}", f"{counted:,}", f"{cost[what]:,.0f}", f"{LIMITS[what]:,}") + said, flush=True)
        if not right:
            print(f"WRONG: {what}: it printed something else")
        good = good and right and within
    print()
    what = "an event of messages that lend a context, against one where the server keeps its own"
    good = keeps(what, cost, "messages that lend", "messages that don't", LENDING_LIMIT) and good
    print()
    return good
