"""The summary of a table: a matrix of who may change whom, and the labels without a thread, with those who use them; and the
same as a drawing, of boxes and arrows."""
import policies
from policies import AWAIT, READ, RECEIVE, WRITE

HEAD = "who may change whom, in any run: C calls, A answers, S signals, F for another reason, t only takes away, . never; "
HEAD += "m: memory that one writes and the other has\n"
# The letter of each way of policies.CHANGE, in their order.
LETTERS = [*zip("FCASFFAFFFACASCFA", policies.CHANGE, strict=True)]
WIDTH, CELL = 140, 6


def row_of(table, policy, acts, memory, a):
    """What threads of a label may do to each other label."""
    labels = range(len(table.labels))
    by = {letter: set() for letter in "CASF"}
    for letter, way in LETTERS if a in acts else []:
        by[letter] |= {l for l, _ in policies.ways_from(policy, acts, a, [way])}
    shrinks = {l for l, _ in policies.shrink_ways(policy, acts, a)}
    written = {region for region in memory if (a, WRITE, region) in policy}
    has = {l: {region for region in memory - {l} if {(l, READ, region), (l, WRITE, region)} & policy} for l in labels}
    shares = {l for l in labels if written & has[l]}
    reads = {l for l in labels if {(a, READ, l), (a, RECEIVE, l), (a, AWAIT, l)} & policy}
    changes, writes = set.union({a} & acts, *by.values()), {l for l in labels if (a, WRITE, l) in policy}
    row = {"label": a, "by": by, "changes": changes, "shrinks": shrinks, "shares": shares, "reads": reads}
    return row | {"does": {"writes": changes & writes, "changes": changes - writes, "takes from": shrinks - changes}}


def cell(row, l):
    mark = "m" if l in row["shares"] else ""
    if l in row["changes"]:
        return "".join(letter for letter in "CASF" if l in row["by"][letter]) + mark
    return ("t" if l in row["shrinks"] else "" if mark else ".") + mark


def matrix(table, labels, cell):
    """Blocks of columns, each with all rows: what `cell` says of each two of these labels, and `=` of one and itself."""
    numbers = len(str(len(labels)))
    names = max(len(table.labels[label]) for label in labels)
    columns = max((WIDTH - 1 - numbers - names) // CELL, 1)
    for first in range(0, len(labels), columns):
        shown = [*enumerate(labels, 1)][first : first + columns]
        yield "\n" + " " * (numbers + 1 + names) + "".join(f"{number:>{CELL}}" for number, _ in shown) + "\n"
        for number, label in enumerate(labels, 1):
            cells = "".join(f"{'=' if label == other else cell(label, other):>{CELL}}" for _, other in shown)
            yield f"{number:>{numbers}} {table.labels[label]:{names}}{cells}\n"


def users(table, rows, l):
    """Who changes a label, who may only take from it, and who reads it."""
    uses = [{"changed by": row["changes"], "taken away by": row["shrinks"] - row["changes"], "read by": row["reads"]} for row in rows]
    names = {how: [table.labels[row["label"]] for row, by in zip(rows, uses) if l in by[how]] for how in ("changed by", "taken away by", "read by")}
    return "; ".join(f"{how} {', '.join(by)}" for how, by in names.items() if by) or "changed and read by nobody"


def rows_and_others(table, policy, acts):
    """The rows of labels with a thread, and the other labels."""
    threads, memory = ({item.label for item in table.objects if item.kind in kinds} for kinds in [("tcb",), ("frame", "untyped")])
    rows = [row_of(table, policy, acts, memory, a) for a in sorted(threads)]
    return rows, [l for l in range(len(table.labels)) if l not in threads]


def summary(table, policy, acts):
    rows, without = rows_and_others(table, policy, acts)
    if not rows:
        return "no label has a thread\n"
    groups = {}
    for l in without:
        groups.setdefault(users(table, rows, l), []).append(table.labels[l])
    others = [f"{', '.join(names)}\n    {by}\n" for by, names in groups.items()]
    of = {row["label"]: row for row in rows}
    cells = matrix(table, [*of], lambda a, l: cell(of[a], l))
    return "".join([HEAD, *cells, *(["\n", *others] if others else [])])


# The drawing. What a program alone uses stands in its box; what it does to that which another uses too, in the words of the arrow there.

def uses(row, l):
    return l in row["changes"] or l in row["shrinks"] or l in row["reads"]


def words_between(table, without, row, other):
    """What a program may do to objects of another, and to labels without a thread that the other uses."""
    l = other["label"]
    verbs = {"C": "calls", "A": "answers", "S": "signals", "F": "changes"}
    yield from (verb for letter, verb in verbs.items() if l in row["by"][letter])
    if l in row["does"]["takes from"]:
        yield "takes"
    for verb, done in row["does"].items():
        if names := [table.labels[region] for region in without if region in done and uses(other, region)]:
            yield f"{verb} {names[0]}" + (f" and {len(names) - 1} more" if names[1:] else "")


def drawing(table, policy, acts):
    rows, without = rows_and_others(table, policy, acts)
    lines = ["node [shape=box]", "edge [fontsize=10]", "nodesep=0.1", "ranksep=0.4"]
    for row in rows:
        name = table.labels[row["label"]]
        inside = [table.labels[l] for l in without if [one for one in rows if uses(one, l)] == [row]]
        lines.append(f'"{name}"' + (f' [label="{name}\\nwith {", ".join(inside)}"]' if inside else ""))
    for row in rows:
        for other in rows:
            l = other["label"]
            words = "".join(f"{words}\\n" for words in words_between(table, without, row, other)) if other is not row else ""
            style = "" if l in row["changes"] else "style=dashed, " if l in row["shrinks"] else "style=dotted, "
            if words:
                lines.append(f'"{table.labels[row["label"]]}" -> "{table.labels[l]}" [{style}label="{words}"]')
    return "".join(["digraph authority {\n", *(f"  {line}\n" for line in lines), "}\n"])
