"""Policies that have each edge of a pattern but one, over 4, 64 and 256 labels, of which tests/differential asks `check`.

Over four labels each edge of each of three patterns is left out in turn, and the second reading scans the whole policy. Over more it would
take minutes. Over 64 a policy has all edges but one, or all, and is scanned as a whole too, but by rows: what a label has of a kind is one
number. On policies over fewer labels this scan has to find what the reading finds. Over 256 a policy has all edges, or all but those of
some kinds, and what is wanted is what the second reading answers to a few of the labels: 0, 1 and 2, those of the edge that is missing, and
those of the table's objects. The others are like the first three, and come behind them, so no place that is told first has one of them.
"""
import json
import random
import re

import commands
import kernel
import policies
import texts
from policies import CALL, CONTEXT, CONTROL, DERIVE, GRANT, HOLDS, PLAIN, RECEIVE, REPLY, RUNS, SCHEDCONTROL, SPACE

# Over four labels and over 64.

SMALL = "confine-table 1", """\
cnode na l0 0x1000 2
cnode nb l1 0x1080 2
tcb ta l0 0x2000 ready
tcb tb l1 0x2400 ready
endpoint e l2 0x3000
notification n l3 0x3020
reply p l1 0x3040
frame f l3 0x5000
context xa l0 0x4000 0 10 10
context xd l3 0x4100 1 10 10
control k l2 0
cap na.0 e rwy 0
cap na.1 n rw 0
cap na.2 xa
cap na.3 k
cap nb.0 e w 0
cap nb.1 n r 0
cap nb.2 p
cap nb.3 f rw
cap ta.root na 62 0x0
cap tb.root nb 62 0x0
child na.0 nb.0
child na.1 nb.1
bind ta xd
bind tb xa"""


def granting(a, kind, b):
    """No label controls one, and each finds its capabilities in its own CNodes alone. Each may grant to each."""
    return a == b if kind == "space" else kind != "control"


def apart(a, kind, b):
    """Nor does any label grant; each uses replies and contexts of its own alone, and derives only for itself and for labels of higher
    numbers."""
    if kind in ("space", "reply", "context"):
        return a == b
    return a <= b if kind == "derive" else kind not in ("control", "grant")


# With each pattern the policy is closed, and the table accepted: what it is, and how many edges it has between four labels.
PATTERNS = [("every edge", lambda *_: True, 272), ("granting subjects", granting, 244), ("subjects apart", apart, 198)]
# The rules of which each is the first that one of these policies breaks. A4 is so over 256 labels alone: with calls P8 asks for `runs` too.
RULES = {*(f"P{number}" for number in range(1, 9)), "A1", "A2", "A3"}
# Over 64 labels one edge of each kind is left out, between labels that differ from those of every other kind.
SPREAD = [(number * 5 % 64, kind, number * 13 % 64) for number, kind in enumerate(texts.KINDS)]

# Over 256 labels.

WIDE = "confine-table 2", """\
cnode ca l63 0x0 1
cnode cb l255 0x40 1
tcb ta l127 0x400 ready
endpoint e l0 0x800
notification n l64 0x820
context xa l128 0x900 0 10 10
cap ca.0 n rw 1
cap cb.1 e rw 1
bind ta xa"""
# The kinds that a policy has no edge of, and the edges that it lacks, one at a time. Most go from one part of a set of labels to another.
CROSSING = [(63, 64), (127, 128), (255, 0), (192, 191), (64, 63), (128, 127), (0, 255), (191, 192), (255, 255)]
NONE_SHARES, NONE_GRANTS = ["control", "space"], ["control", "space", "grant", "context"]
LACKING = [
    ([], [(a, kind, b) for kind, (a, b) in zip(texts.KINDS, CROSSING * 2)]),
    (NONE_SHARES, [(63, "send", 64), (255, "grant", 0), (127, "derive", 128)]),
    (NONE_GRANTS, [(128, "runs", 127), (63, "await", 64), (64, "await", 63), (255, "send", 0)]),
    ([*NONE_GRANTS, "call"], [(127, "runs", 128), (128, "runs", 127)]),
]


def table_of(system, labels):
    header, objects = system
    return texts.text_of(header, [*(f"label l{label}" for label in labels), *objects.split("\n")]).encode()


def line_of(a, kind, b):
    return f"edge l{a} {kind} l{b}"


def policy_of(edges):
    return texts.text_of("confine-policy 1", [line_of(*edge) for edge in edges]).encode()


def whole_of(labels, kinds):
    """A policy with all edges of these kinds between labels."""
    names = [f"l{label}" for label in labels]
    rows = [f"edge {a} {kind} " for a in names for kind in texts.KINDS if kind in kinds]
    return texts.text_of("confine-policy 1", [row + f"\n{row}".join(names) for row in rows]).encode()


# The scan by rows: in `row[kind][a]` the bit b is set if the policy has the edge `a kind b`.

def rows_of(edges, count):
    """The rows of a policy, as policies.py has it."""
    row = [[0] * count for _ in texts.KINDS]
    for a, kind, b in edges:
        row[kind][a] |= 1 << b
    return row


def in_row(bits):
    """The labels of a row, from the least."""
    while bits:
        yield (bits & -bits).bit_length() - 1
        bits &= bits - 1


def union(rows):
    bits = 0
    for more in rows:
        bits |= more
    return bits


def turned(rows):
    """For each label the row of those that have it in theirs."""
    return [sum(1 << a for a, bits in enumerate(rows) if bits >> b & 1) for b in range(len(rows))]


def lacks(row):
    """What P1 to P8 look at, by rule and place, as (rule, place without its last label, row of the labels that are lacking there)."""
    labels = range(len(row[CONTROL]))
    domain = [row[SPACE][a] | row[CONTROL][a] for a in labels]
    of_domain, repliers, receivers = turned(domain), turned(row[REPLY]), turned(row[RECEIVE])
    granted = [union(receivers[e] for e in in_row(row[GRANT][a])) for a in labels]
    callers = [sum(1 << c for c in labels if row[CALL][c] & row[RECEIVE][b]) for b in labels]
    for a in labels:
        for b in in_row(domain[a]):
            for k in PLAIN:
                yield "P1", (a, b, k), row[k][a] ^ row[k][b]
    for a in labels:
        for k in [*PLAIN, SPACE]:
            if k != SCHEDCONTROL:
                yield "P2", (a, k), row[CONTROL][a] & ~row[k][a]
    for a in labels:
        for b in in_row(granted[a]):
            for k in PLAIN:
                yield "P3", (a, b, k), row[k][a] & ~row[k][b]
    for x in labels:
        yield "P4", (x, DERIVE), union(domain[a] for a in in_row(of_domain[x])) & ~row[DERIVE][x]
    given = [union(domain[b] for b in in_row(granted[a])) for a in labels]
    for x in labels:
        joined = union(row[DERIVE][y] for y in in_row(row[DERIVE][x]))
        yield "P5", (x, DERIVE), (union(given[a] for a in in_row(of_domain[x])) | joined) & ~row[DERIVE][x]
    for a in labels:
        yield "P6", (a, RUNS), row[CONTEXT][a] & ~row[RUNS][a]
    for r in labels:
        yield "P7", (r, HOLDS), union(1 << b | callers[b] for b in in_row(repliers[r])) & ~row[HOLDS][r]
    for b in labels:
        yield "P8", (b, RUNS), union(row[RUNS][c] for c in in_row(callers[b])) & ~row[RUNS][b]


def first_lacking(row):
    """What policies.first_broken answers."""
    return next(((rule, (*place, next(in_row(bits)))) for rule, place, bits in lacks(row) if bits), None)


def denial(table, row):
    """What commands.denial answers. A1 to A4 ask for no edges but those that the table gives."""
    if broken := first_lacking(row):
        return broken[0], policies.rule_names(*broken, table)
    state = kernel.boot(table)
    edges = {(a, k, b) for *_, (a, k, b) in commands.authority(table, state) if row[k][a] >> b & 1}
    outside = commands.outside(table, edges, state)
    return outside and (outside[0], outside[2])


# The comparisons.

def compare_each(comparison):
    """Compares the verdicts on the policies over four labels. What they are to be by their patterns is counted too."""
    table, first = table_of(SMALL, range(4)), set()
    for name, has, count in PATTERNS:
        edges = [(a, kind, b) for a in range(4) for kind in texts.KINDS for b in range(4) if has(a, kind, b)]
        comparison.hold(f"{name}: there are {len(edges)} edges, and not {count}", len(edges) == count)
        accepted = commands.answer("check", [table, policy_of(edges)])[0] == 0
        comparison.hold(f"{name}: the second reading denies the policy that has them all", accepted)
        comparison.compare(f"{name} between four labels", ["check"], {"table": table, "policy": policy_of(edges)})
        for edge in edges:
            files = {"table": table, "policy": policy_of([other for other in edges if other != edge])}
            comparison.compare(f"{name} between four labels, but not `{line_of(*edge)}`", ["check"], files)
            first.add(json.loads(commands.answer("check", [*files.values()])[1]).get("rule"))
    unbroken = sorted(RULES - first)
    comparison.hold(f"no policy over four labels that lacks one edge breaks {unbroken} first", not unbroken)


def hold_scan(comparison):
    """Holds the scan by rows against the second reading: on the policies over four labels, and on some made at random, closed ones too."""
    table, otherwise, r = texts.read_table(table_of(SMALL, range(4))), [], random.Random(1)
    for _, has, _ in PATTERNS:
        edges = {(a, k, b) for a in range(4) for k, kind in enumerate(texts.KINDS) for b in range(4) if has(a, kind, b)}
        for policy in [edges, *(edges - {edge} for edge in edges)]:
            otherwise += [policy] * (denial(table, rows_of(policy, 4)) != commands.denial(table, policy))
    for _ in range(400):
        count, kinds = r.randint(3, 6), r.choice([range(17), [GRANT, RECEIVE, SPACE], [CALL, RECEIVE, REPLY, RUNS, CONTEXT]])
        some = {(r.randrange(count), r.choice(kinds), r.randrange(count)) for _ in range(r.randint(1, 9))}
        closed = policies.close(some, count)
        for policy in [some, closed, closed - {r.choice(sorted(closed))}]:
            otherwise += [policy] * (first_lacking(rows_of(policy, count)) != policies.first_broken(policy, count))
    comparison.hold(f"the scan by rows finds otherwise than the second reading in {otherwise[:1]}", not otherwise)


def compare_scanned(comparison, count):
    """Compares the reports on policies over so many labels that have all edges, or all but one. With all each label reaches each."""
    labels = [f"l{label}" for label in range(count)]
    given, whole = table_of(SMALL, range(count)), whole_of(range(count), texts.KINDS)
    table, each = texts.read_table(given), {label: labels for label in labels}
    for edge in [None, *SPREAD]:
        row, line = [[(1 << count) - 1] * count for _ in texts.KINDS], f"{line_of(*edge)}\n" if edge else ""
        if edge:
            row[texts.KINDS.index(edge[1])][edge[0]] ^= 1 << edge[2]
        broken = denial(table, row)
        deny = broken and commands.report(rule=broken[0], place=broken[1], verdict="deny")
        wanted = (1, deny) if broken else (0, commands.report(caps=len(table.caps), full=each, cut=each, verdict="accept"))
        status, out, _ = comparison.of_program(["check"], {"table": given, "policy": whole.replace(line.encode(), b"")})
        said = f"the program, with status {status}:\n{out.decode()}the scan, with status {wanted[0]}:\n{wanted[1]}"
        comparison.hold(f"check with {count} labels, and all edges but `{line.strip()}`\n{said}", (status, out.decode()) == wanted)


def told(out, few):
    """A report, but of an acceptance what it says of these labels alone."""
    report, labels = json.loads(out or "{}"), [f"l{label}" for label in few]
    for name in {"cut", "full"} & set(report):
        report[name] = {a: [b for b in to if b in labels] for a, to in report[name].items() if a in labels}
    return report


def compare_many(comparison, system, count, without, lacking):
    """Compares the verdicts on policies over so many labels, each without edges of some kinds, and without one of these, or none.

    It gives the rules of which each is the first that one of them breaks.
    """
    first, kinds, table = set(), [kind for kind in texts.KINDS if kind not in without], table_of(system, range(count))
    whole, placed = whole_of(range(count), kinds), {int(label) for label in re.findall(r"\bl(\d+)\b", system[1])}
    for edge in lacking:
        few, line = sorted({0, 1, 2, *placed, *(edge or [])[::2]}), f"{line_of(*edge)}\n".encode() if edge else b""
        wanted, shown, _ = commands.answer("check", [table_of(system, few), whole_of(few, kinds).replace(line, b"")])
        first.add(json.loads(shown).get("rule"))
        status, out, _ = comparison.of_program(["check"], {"table": table, "policy": whole.replace(line, b"")})
        if (status, told(out, few)) == (wanted, told(shown, few)):
            comparison.passed += 1
            continue
        comparison.failed += 1
        print(f"check with {count} labels, and a policy with all edges, but none of {without} and not `{line.decode().strip()}`")
        for who, status, out in [("the program", status, out.decode()), ("of a few labels the second reading", wanted, shown)]:
            print(f"{who}, with status {status}:\n{out}", end="", flush=True)
    return first


def compare_lacking(comparison):
    compare_each(comparison)
    hold_scan(comparison)
    compare_scanned(comparison, 64)
    first = [compare_many(comparison, WIDE, 256, without, lacking) for without, lacking in LACKING]
    comparison.hold("no policy over 256 labels that lacks one edge breaks A4 first", "A4" in set().union(*first))
