"""Policies: the rules P1 to P8, the least closed policy, full and cut authority, what a label may change or make smaller, what it sees, and reasons, as
docs/RULES.md and docs/WRITING_POLICIES.md have them. A policy is a set of edges (label, kind, label), all by number; `count` is how many
labels there are, and `acts` are those whose threads make calls."""
from texts import KINDS

CONTROL, RESET, SEND, RECEIVE, GRANT, CALL, NOTIFY, AWAIT, READ, WRITE, REPLY, CONTEXT, SCHEDCONTROL, SPACE, DERIVE, RUNS, HOLDS = range(17)
assert len(KINDS) == 17
PLAIN = range(13)  # the kinds that aren't structural
LINKS = (SEND, RECEIVE, AWAIT, REPLY, HOLDS, RUNS, SPACE)


def asked(policy, count):
    """What the rules ask for, as (rule, place, edge): the edge has to be there since others are. A place is a tuple of numbers."""
    labels = range(count)
    domain = {a: [x for x in labels if (a, SPACE, x) in policy or (a, CONTROL, x) in policy] for a in labels}
    receivers = {e: [b for b, k, at in policy if (k, at) == (RECEIVE, e)] for e in labels}
    granted = {(a, b) for a, k, e in policy if k == GRANT for b in receivers[e]}
    yield from asked_of_plain_edges(policy, domain, granted)
    yield from asked_of_derivations(policy, domain, granted)
    yield from asked_of_threads(policy, labels)


def asked_of_plain_edges(policy, domain, granted):
    """P1 to P3, about edges of the kinds that aren't structural, and of `space`."""
    plain = {a: [(k, x) for _, k, x in edges_from(policy, a) if k in PLAIN] for a in domain}
    for a in domain:
        for b in domain[a]:
            for k, x in plain[a]:
                yield "P1", (a, b, k, x), (b, k, x)
            for k, x in plain[b]:
                yield "P1", (a, b, k, x), (a, k, x)
    for a, k, b in policy:
        if k == CONTROL:
            for kind in [*PLAIN, SPACE]:
                if kind != SCHEDCONTROL:
                    yield "P2", (a, kind, b), (a, kind, b)
    for a, b in granted:
        for k, x in plain[a]:
            yield "P3", (a, b, k, x), (b, k, x)


def asked_of_derivations(policy, domain, granted):
    """P4 and P5, about edges of `derive`."""
    for a in domain:
        for x in domain[a]:
            for y in domain[a]:
                yield "P4", (x, DERIVE, y), (x, DERIVE, y)
    for a, b in granted:
        for x in domain[a]:
            for y in domain[b]:
                yield "P5", (x, DERIVE, y), (x, DERIVE, y)
    for x, k, y in policy:
        if k == DERIVE:
            for z in domain:
                if (y, DERIVE, z) in policy:
                    yield "P5", (x, DERIVE, z), (x, DERIVE, z)


def asked_of_threads(policy, labels):
    """P6 to P8, about edges of `runs` and `holds`."""
    for a, k, s in policy:
        if k == CONTEXT:
            yield "P6", (a, RUNS, s), (a, RUNS, s)
    callers = {b: {c for c, k, e in policy if k == CALL and (b, RECEIVE, e) in policy} for b in labels}
    for b, k, r in policy:
        if k == REPLY:
            for c in {b} | callers[b]:
                yield "P7", (r, HOLDS, c), (r, HOLDS, c)
    for b in labels:
        for c, k, s in policy:
            if k == RUNS and c in callers[b]:
                yield "P8", (b, RUNS, s), (b, RUNS, s)


def edges_from(policy, a):
    return sorted(edge for edge in policy if edge[0] == a)


def first_broken(policy, count):
    """The first rule that is broken, with the least place where it is, or None."""
    broken = {(rule, place) for rule, place, edge in asked(policy, count) if edge not in policy}
    return min(broken, default=None)


def close(policy, count):
    """The least closed policy with these edges: what is asked for is added, again and again, until nothing is."""
    policy = set(policy)
    while True:
        missing = {edge for _, _, edge in asked(policy, count)} - policy
        if not missing:
            return policy
        policy |= missing


def rule_names(rule, place, table):
    """A place of P1 to P8, or of S1 to S8, in names: the entry of the kind is the third of four, and the second of three."""
    kind = 2 if len(place) == 4 else 1
    return [KINDS[entry] if at == kind else table.labels[entry] for at, entry in enumerate(place)]


def cut(policy, a):
    """The labels on which a has cut authority: by steps of these kinds, in this order, of which each may be left out."""
    there = {a}
    for kinds, both in [((CONTROL,), False), ((DERIVE,), False), ((*PLAIN, SPACE), False), (LINKS, True), (LINKS, True)]:
        there |= {y for x, k, y in policy if k in kinds and x in there} | {x for x, k, y in policy if both and k in kinds and y in there}
    return there


def rank(edges):
    return len(edges), edges


# Ways from one label, a, to another, l. Each line has the edges by which a way is told, and after a semicolon what has to be there too, and
# which labels have to be of those whose threads make calls.

def needs_of(words):
    """What a way needs: edges as (name, kind, name), and labels that act as (name,)."""
    parts = [part.split(" ") for part in words.split(", ") if part]
    return [(part[0],) if part[1] == "acts" else (part[0], KINDS.index(part[1]), part[2]) for part in parts]


def ways_in(lines):
    return [[*map(needs_of, line.partition("; ")[::2])] for line in lines.splitlines()]


# Full authority, which asks of no label that it acts.
FULL = ways_in("""\
a control l
a send l
a receive l
a notify l
a await l
a write l
a reply l
a context l
a runs l
a send e, l receive e
a receive e, l send e
a notify n, l await n
a send e, b receive e, b reply l
a grant e, b receive e, b control l
a reply r, r holds l
""")

# How a may change objects of l. A context of l goes to another thread by a call only if an idler may receive the call with a reply, and back by
# an answer only if a is an idler.
CHANGE = ways_in("""\
a control l
a send l
a receive l
a notify l
a await l
a write l
a reply l
a context l; a schedcontrol k
a context l; a control t
a runs l; a call e, b receive e, b reply r, b runs s, d context s, b acts
a runs l; a reply r, a runs s, d context s
a send e, l receive e; l acts
a receive e, l send e; l acts
a notify n, l await n; l acts
a call e, b receive e, b reply l; a send e, b acts
a grant e, b receive e, b control l; b acts
a reply r, r holds l; b reply r, b acts, b receive e, l call e, l acts
""")

# How objects of l may shrink by what a does.
SHRINK = ways_in("""\
a context l
a context x, l runs x
a reply r, r holds l; l reply r, l acts
a reply r, b reply r, b receive l; b acts
a send e, b receive e, b reply l; b acts
a control c, c derive l
a control c, c space l
a control c, c runs l
a control c, c reset l
a control c, c schedcontrol l
a control c, l holds c; c acts
a control c, c reset e, l send e; l acts
a control c, c reset e, l receive e; l acts
a control c, c reset e, l await e; l acts
a control c, c reset e, b receive e, b reply l; b acts
""")

# How calls of threads of a depend on objects of l.
SEE = ways_in("""\
a await l
a read l
a runs l
a send l
a receive l
a reply l
a space l
a receive e, l send e; l acts
a call e, l receive e; l acts
a reply r, r holds l; b reply r, b acts, b receive e, l call e, l acts
a context l, a control t
a control l, a context x
""")


def matches(edges_at, acts, needs, labels):
    """Each choice of labels for the names in what is needed, with those that have their label already."""
    if not needs:
        yield labels
        return
    (x, *more), *rest = needs
    if not more:
        if labels[x] in acts:
            yield from matches(edges_at, acts, rest, labels)
        return
    kind, y = more
    for edge in edges_at.get((labels.get(x), kind, None if x in labels else labels[y]), []):
        if labels.get(y, edge[2]) == edge[2]:
            yield from matches(edges_at, acts, rest, labels | {x: edge[0], y: edge[2]})


def ways_from(policy, acts, a, ways):
    """Each way from a label, where threads of these labels act: to which label, and the edges by which it is told."""
    edges_at = {}
    for edge in policy:
        edges_at.setdefault((edge[0], edge[1], None), []).append(edge)
        edges_at.setdefault((None, edge[1], edge[2]), []).append(edge)
    for told, besides in ways:
        for labels in matches(edges_at, acts, told, {"a": a}):
            if any(True for _ in matches(edges_at, acts, besides, labels)):
                yield labels["l"], [(labels[x], kind, labels[y]) for x, kind, y in told]


def full(policy, a):
    return {a} | {l for l, _ in ways_from(policy, (), a, FULL)}


def change_ways(policy, acts, a):
    """Each way in which a may change objects of a label; none where no thread of a makes calls."""
    if a in acts:
        yield a, []
        yield from ways_from(policy, acts, a, CHANGE)


def shrink_ways(policy, acts, a):
    """Each way in which objects of a label may shrink by what a does; none where no thread of a makes calls."""
    if a in acts:
        yield from ways_from(policy, acts, a, SHRINK)


def seen(policy, acts, a):
    """The labels on whose objects the calls of threads of a depend: its own too, and a notification that it signals where two may wait."""
    if a not in acts:
        return set()
    contested = {l for _, k, l in policy if k == AWAIT and len([b for b in acts if (b, AWAIT, l) in policy]) > 1}
    return {a} | {l for l, _ in ways_from(policy, acts, a, SEE)} | {l for l in contested if (a, NOTIFY, l) in policy}


def extents(policy, acts, count):
    """How far each label goes with each other: `full` where it may change its objects, `take` where they may shrink, or `none`."""
    for a in range(count):
        changes, shrinks = ({l for l, _ in ways(policy, acts, a)} for ways in (change_ways, shrink_ways))
        for l in range(count):
            if l != a:
                yield a, l, "full" if l in changes else "take" if l in shrinks else "none"


def why(policy, acts, a, l):
    """How far a goes with l, and the first reason for it."""
    for how, ways in [("full", change_ways), ("take", shrink_ways)]:
        if reasons := [edges for on, edges in ways(policy, acts, a) if on == l]:
            return how, min(reasons, key=rank)
    return "none", []
