"""Measures what judges a policy: checks of a full table, closings, and all this over as many labels as there may be."""
import os
from dataclasses import dataclass

import inputs
from timing import SECONDS, answers, run_in_turn, run_often, run_once

# A closing costs so many times the check of what it gives: of the full table without a policy, and of a policy over 64 labels in
# which each derives for the next.
FULL_CLOSE_LIMIT = 5.0
CHAIN_CLOSE_LIMIT = 20.0

# Checks of a full table: processor time by so many times that of `wc` on the same files, that of the reading alone by so many times,
# and that of all but the reading by so many times that of the reading. More workers cost more of it, and are not held to this.
WORKERS = (1, 2, 4)
LIMITED = ("check --workers 1", "verify")
CHECK_LIMIT = 2.6
READ_LIMIT = 2.0
JUDGE_LIMIT = 1.0
RANDOM_POLICIES = ((1, 2), (2, 20))

# A script with a fault in its first line: a run reads its table and its policy, and checks nothing.
FAULTY_SCRIPT = "\n"

# Over 256 labels: a check of a policy with all edges takes so many times `wc` on the same files. Beside the reading of its files a closing
# of a policy in which each label derives for the next takes so many milliseconds, and a question why so many.
MANY_CHECK_LIMIT = 3.0
MANY_CLOSE_MS = 430
MANY_WHY_MS = 100


@dataclass
class Asked:
    """A policy for the full table of 64 labels, and what the program has to answer to `check`."""

    policy: str
    status: int
    report: bytes


def write_text(path, text):
    with open(path, "w", encoding="ascii", newline="\n") as file:
        file.write(text)
    return path


def write_checks(top):
    """Writes the inputs of the checks below a folder. Gives the table, a script with a fault, and the policies by name."""
    os.makedirs(top)
    asked = {}

    def add(name, edges, status, report):
        path = write_text(os.path.join(top, f"policy-{name}"), inputs.policy_of(edges))
        asked[name] = Asked(path, status, report.encode("ascii"))

    full = inputs.check_table()
    add("every", inputs.every_edge(), 0, inputs.every_edge_report(full))
    add("none", [], 1, inputs.no_edge_report())
    for seed, one_in in RANDOM_POLICIES:
        edges = inputs.random_edges(seed, one_in)
        add(f"1/{one_in}".replace("/", "-in-"), edges, 1, inputs.first_disagreement(edges))
    table = write_text(os.path.join(top, "table"), full)
    return table, write_text(os.path.join(top, "script"), FAULTY_SCRIPT), asked


CHECK_COLUMNS = "{:>10} {:>24} {:>9} {:>9} {:>9} {:>9} {:>9} {:>9}"


def measure_checks(program, folder, base):
    """Measures `check` and `verify` of the full table, prints a row each, and gives whether all are right and in time."""
    table, script, asked = write_checks(os.path.join(folder, "checks"))
    out = os.path.join(folder, "checks", "out")
    good = True
    print(CHECK_COLUMNS.format("policy", "command", "run ms", "clock ms", "read ms", "wc ms", "run/wc", "MiB"))
    for name, one in asked.items():
        reading = [program, "run", table, one.policy, script]
        commands = {
            f"check --workers {n}": (["check", table, one.policy], ["--workers", str(n)], one.report)
            for n in WORKERS
        }
        if one.status == 0:
            certificate = os.path.join(folder, "checks", "certificate")
            run_once([program, "check", table, one.policy, "--cert"], certificate)
            commands["verify"] = (["verify", table, one.policy, certificate], [], b'{"verdict":"accept"}\n')
        for command, (words, options, text) in commands.items():
            called = [program, *words, *options]
            good &= answers(called, one.status, text, out)
            (read, _), (run, _), (wc, _) = run_in_turn([reading, called, ["wc", *words[1:]]], base.cpu, SECONDS)
            by_wc = run.cpu / max(wc.cpu, 1e-9)
            print(
                CHECK_COLUMNS.format(
                    name, command, *(f"{x * 1e3:.2f}" for x in (run.cpu, run.clock, read.cpu, wc.cpu)),
                    f"{by_wc:.1f}", f"{run.memory / 2**20:.1f}",
                ),
                flush=True,
            )
            if command not in LIMITED:
                continue
            if by_wc > CHECK_LIMIT:
                good = False
                print(f"OVER: {CHECK_LIMIT} times wc")
            if command != "verify" and read.cpu > READ_LIMIT * wc.cpu:
                good = False
                print(f"OVER: the reading took more than {READ_LIMIT} times wc")
            if command != "verify" and run.cpu > (1 + JUDGE_LIMIT) * read.cpu:
                good = False
                print(f"OVER: the check took more than {JUDGE_LIMIT} times the reading")
    print()
    return good


def measure_closings(program, folder, base):
    """Measures `close` beside the `check` of what it gives, prints a row each, and gives whether all are right and in time."""
    top = os.path.join(folder, "closings")
    os.makedirs(top)
    table = write_text(os.path.join(top, "table"), inputs.check_table())
    labels = write_text(os.path.join(top, "labels"), inputs.table_of_labels())
    chain = write_text(os.path.join(top, "chain"), inputs.policy_of(inputs.chain()))
    chained = write_text(os.path.join(top, "chained"), inputs.policy_of(inputs.chained()))
    closed, out = os.path.join(top, "closed"), os.path.join(top, "out")
    run_once([program, "close", table], closed)
    columns = "{:>24} {:>9} {:>9} {:>9} {:>9}"
    print(columns.format("closing", "run ms", "check ms", "times", "MiB"))
    good = True
    for what, words, whole, limit in (
        ("full table, no policy", [table], closed, FULL_CLOSE_LIMIT),
        ("chain of 64 labels", [labels, chain], chained, CHAIN_CLOSE_LIMIT),
    ):
        with open(whole, "rb") as file:
            text = file.read()
        called = [program, "close", *words]
        # What is closed stays as it is.
        good &= answers(called, 0, text, out) and answers([program, "close", words[0], whole], 0, text, out)
        check = [program, "check", words[0], whole]
        if run_once(check).status != 0:
            good = False
            print(f"WRONG: {' '.join(check[1:])}: it is denied")
        run, _ = run_often(called, base.cpu)
        beside, _ = run_often(check, base.cpu)
        times = run.cpu / max(beside.cpu, 1e-9)
        figures = (f"{x * 1e3:.2f}" for x in (run.cpu, beside.cpu))
        print(columns.format(what, *figures, f"{times:.1f}", f"{run.memory / 2**20:.1f}"), flush=True)
        if times > limit:
            good = False
            print(f"OVER: {limit} times the check")
    print()
    return good


# Nobody makes calls in a table without objects, so that nothing of a label could change: the policy is asked.
ALLOWED = "--policy"


@dataclass
class Question:
    """A command over 256 labels, by its words, with its status, what it prints, and how many milliseconds it may take beside reading.

    It is compared with `wc` where no such number is told.
    """

    words: list
    status: int
    text: str
    most: float = None


def write_many_labels(top):
    """Writes the inputs over 256 labels below a folder. Gives the table, a script with a fault, and the questions by what they are."""
    os.makedirs(top)
    labels = inputs.MANY_LABELS
    *_, taken, between, last = labels
    policies = {
        "every": inputs.every_edge(labels),
        "chain": inputs.chain(labels),
        "none": inputs.all_but_of_last(labels),
        "take": inputs.taken_by_last(labels),
    }
    path = {name: write_text(os.path.join(top, name), inputs.policy_of(edges)) for name, edges in policies.items()}
    text = inputs.table_of_labels(labels)
    table = write_text(os.path.join(top, "table"), text)
    chained = inputs.policy_of(inputs.chained(labels))
    full = f"full\nedge {last} control {between}\n"
    take = f"take\nedge {last} control {between}\nedge {between} reset {taken}\n"
    asked = {
        "check, all edges": Question(["check", table, path["every"]], 0, inputs.every_edge_report(text, labels)),
        "close, a chain": Question(["close", table, path["chain"]], 0, chained, MANY_CLOSE_MS),
        "why, all edges": Question(["why", table, last, between, ALLOWED, path["every"]], 0, full, MANY_WHY_MS),
        "why, no authority": Question(["why", table, last, labels[0], ALLOWED, path["none"]], 0, "none\n", MANY_WHY_MS),
        "why, all ways to take": Question(["why", table, last, taken, ALLOWED, path["take"]], 0, take, MANY_WHY_MS),
    }
    return table, write_text(os.path.join(top, "script"), FAULTY_SCRIPT), asked


def measure_many_labels(program, folder, base):
    """Measures what is asked over 256 labels, prints a row each, and gives whether all are right and in time."""
    top = os.path.join(folder, "many-labels")
    _, script, asked = write_many_labels(top)
    out = os.path.join(top, "out")
    columns = "{:>24} {:>9} {:>9} {:>9} {:>9} {:>9} {:>9}"
    print(columns.format("over 256 labels", "run ms", "read ms", "beside ms", "wc ms", "run/wc", "MiB"))
    good = True
    for what, one in asked.items():
        good &= answers([program, *one.words], one.status, one.text.encode("ascii"), out)
        files = [word for word in one.words if os.path.isfile(word)]
        calls = [[program, *one.words], [program, "run", *files, script], ["wc", *files]]
        (run, _), (read, _), (wc, _) = run_in_turn(calls, base.cpu, SECONDS)
        beside, by_wc = (run.cpu - read.cpu) * 1e3, run.cpu / max(wc.cpu, 1e-9)
        figures = (f"{x:.2f}" for x in (run.cpu * 1e3, read.cpu * 1e3, beside, wc.cpu * 1e3))
        print(columns.format(what, *figures, f"{by_wc:.1f}", f"{run.memory / 2**20:.1f}"), flush=True)
        if one.most is None and by_wc > MANY_CHECK_LIMIT:
            good = False
            print(f"OVER: {MANY_CHECK_LIMIT} times wc")
        if one.most is not None and beside > one.most:
            good = False
            print(f"OVER: {one.most} ms beside the reading")
    print()
    return good
