"""The sharp rules S1 to S8, keepers, idlers and the least sharply closed policy, as docs/RULES.md and docs/POLICY.md have them. Policies
are as in policies.py. `holders` are the labels whose CNodes hold a capability for a CNode at boot."""
from policies import CALL, CONTEXT, CONTROL, DERIVE, GRANT, HOLDS, PLAIN, RECEIVE, REPLY, RUNS, SCHEDCONTROL, SPACE


# Sets of labels.

def holders(table):
    """Returns the labels of the CNodes of which a slot holds a capability for a CNode at boot."""
    objects = table.objects
    held = [(objects[holder], objects[cap.object].kind) for (holder, _), cap in table.caps.items()]
    return {node.label for node, kind in held if (node.kind, kind) == ("cnode", "cnode")}


def kept_from(edges, holders):
    """Returns the least set of labels with these holders, with each label that has `space` to one of the set, and with each that one of the
    set controls."""
    kept = set(holders)
    while True:
        more = {a for a, kind, b in edges if kind == SPACE and b in kept} | {b for a, kind, b in edges if kind == CONTROL and a in kept}
        if more <= kept:
            return kept
        kept |= more


def keepers(table, edges):
    """Returns the labels of which a CNode may hold a capability for a CNode in some run."""
    return kept_from(edges, holders(table))


def idlers(edges):
    """Returns the labels that have `runs` to a label to which some label has `context`."""
    taken = {s for _, kind, s in edges if kind == CONTEXT}
    return {b for b, kind, s in edges if kind == RUNS and s in taken}


# What the rules look at. In `rows` each label and kind has the labels to which the label has an edge of this kind.

def rows_of(edges):
    """Returns the rows of a policy."""
    rows = {}
    for a, kind, b in edges:
        rows.setdefault((a, kind), set()).add(b)
    return rows


def pairs(rows, *kinds):
    """Returns each pair of labels of which the first has an edge of one of these kinds to the second."""
    return {(a, b) for (a, kind), row in rows.items() if kind in kinds for b in row}


def row(rows, a, *kinds):
    """Returns the labels to which a label has an edge of one of these kinds."""
    return {b for kind in kinds for b in rows.get((a, kind), ())}


def uses(rows, a):
    """Returns the edges of use of a label, each as its kind and the label to which it leads."""
    return [(kind, to) for kind in PLAIN for to in row(rows, a, kind)]


def puts(rows, keepers):
    """Returns each keeper with each label that it controls, and so may put capabilities into CNodes of."""
    return {(a, b) for a, b in pairs(rows, CONTROL) if a in keepers}


def grants(rows, keepers):
    """Returns each giver with each keeper that may be granted its capabilities."""
    return {(a, b) for a, e in pairs(rows, GRANT) for b, at in pairs(rows, RECEIVE) if at == e and b in keepers}


def serves(rows):
    """Returns each label that has a reply and may receive, with the label of the reply and that of the endpoint."""
    return {(b, r, e) for b, r in pairs(rows, REPLY) for e in row(rows, b, RECEIVE)}


# The rules. Each function returns places, which are tuples of numbers, each with the edge that has to be there since others are.

def uses_rise(rows, keepers):
    """S1 requires that a label has each edge of use of each label in its domain."""
    for a, b in pairs(rows, SPACE, CONTROL):
        for kind, to in uses(rows, b):
            yield (a, b, kind, to), (a, kind, to)


def uses_fall(rows, keepers):
    """S1 also requires that a label that a keeper controls has each edge of use of the keeper."""
    for a, b in puts(rows, keepers):
        for kind, to in uses(rows, a):
            yield (b, a, kind, to), (b, kind, to)


def keepers_have_all(rows, keepers):
    """S2 requires that a keeper has `space`, and each of the kinds 0 to 11, to each label that it controls."""
    for a, b in puts(rows, keepers):
        for kind in [*PLAIN, SPACE]:
            if kind != SCHEDCONTROL:
                yield (a, kind, b), (a, kind, b)


def keepers_are_granted(rows, keepers):
    """S3 requires that a keeper that may be granted capabilities has each edge of use of the giver."""
    for a, b in grants(rows, keepers):
        for kind, to in uses(rows, a):
            yield (a, b, kind, to), (b, kind, to)


def keepers_derive(rows, keepers):
    """S4 requires that each label of a keeper's domain may derive for each label that the keeper controls."""
    for a, y in puts(rows, keepers):
        for x in row(rows, a, SPACE, CONTROL):
            yield (x, DERIVE, y), (x, DERIVE, y)


def grants_derive(rows, keepers):
    """S5 requires that the giver's domain may derive for each label that a keeper controls that may be granted capabilities."""
    for a, b in grants(rows, keepers):
        for x in row(rows, a, SPACE, CONTROL):
            for y in row(rows, b, CONTROL):
                yield (x, DERIVE, y), (x, DERIVE, y)


def derives_on(rows, keepers):
    """S5 also requires a third derive edge for each two in a row."""
    for x, y in pairs(rows, DERIVE):
        for z in row(rows, y, DERIVE):
            yield (x, DERIVE, z), (x, DERIVE, z)


def bound_run(rows, keepers):
    """S6 requires that each label that one controls may run on each context that this one may bind."""
    for a, s in pairs(rows, CONTEXT):
        for b in row(rows, a, CONTROL):
            yield (b, RUNS, s), (b, RUNS, s)


def holds_servers(rows, keepers):
    """S7 requires that a reply may hold the threads that may receive with it."""
    for b, r, _ in serves(rows):
        yield (r, HOLDS, b), (r, HOLDS, b)


def holds_callers(rows, keepers):
    """S7 also requires that a reply may hold the threads that may call those that may receive with it."""
    for _, r, e in serves(rows):
        for c, at in pairs(rows, CALL):
            if at == e:
                yield (r, HOLDS, c), (r, HOLDS, c)


def lends_to_servers(rows, keepers):
    """S8 requires that an idler that has a reply and may receive may run on the contexts on which its callers may run."""
    idle = idlers([(a, kind, b) for (a, kind), to in rows.items() for b in to])
    served = {(b, e) for b, _, e in serves(rows) if b in idle}
    for b, e in served:
        for c, at in pairs(rows, CALL):
            if at == e:
                for s in row(rows, c, RUNS):
                    yield (b, RUNS, s), (b, RUNS, s)


RULES = [
    ("S1", uses_rise), ("S1", uses_fall), ("S2", keepers_have_all), ("S3", keepers_are_granted), ("S4", keepers_derive),
    ("S5", grants_derive), ("S5", derives_on), ("S6", bound_run), ("S7", holds_servers), ("S7", holds_callers), ("S8", lends_to_servers),
]


def asked_sharply(edges, keepers):
    """Returns what the rules ask for, as (rule, place, edge)."""
    rows = rows_of(edges)
    return [(rule, place, edge) for rule, asks in RULES for place, edge in asks(rows, keepers)]


def sharply_broken(edges, keepers):
    """Returns the first sharp rule that is broken, with the least place where it is, or None."""
    return min(((rule, place) for rule, place, edge in asked_sharply(edges, keepers) if edge not in edges), default=None)


def sharp_closure(edges, holders):
    """Returns the least sharply closed policy with these edges. The keepers grow with it."""
    closed = set(edges)
    while True:
        missing = {edge for _, _, edge in asked_sharply(closed, kept_from(closed, holders))} - closed
        if not missing:
            return closed
        closed |= missing
