"""Claims: their text, as docs/formats has it, which of them don't hold, and the strongest that do."""
import policies
import texts
from flows import Flows
from texts import Fault, ask, kind, name

HEADER = "confine-claims 2"


def end(word, table):
    return None if word == "*" else table.label(word)


def named(word):
    return word if word == "*" else name(word)


def claim_of(line, table):
    """What a line claims; nothing, if it is empty or a comment."""
    if line == "" or line.startswith("#"):
        return None
    word, *words = line.split(" ")
    if word in ("none", "take"):
        ask(50, len(words) == 2)
        a, b = [named(each) for each in words]
        a, b = end(a, table), end(b, table)
        ask(50, a != b)
        return word, a, b
    if word in ("only", "within", "readers"):
        ask(50, len(words) >= (1 if word == "readers" else 2))
        labels = [name(each) for each in words]
        labels = [table.label(each) for each in labels]
        ask(50, labels[0] not in labels[1:])
        ask(52, len(set(labels)) == len(labels))
        return word, labels[0], tuple(labels[1:])
    if word in ("apart", "through"):
        ask(50, len(words) == 2 if word == "apart" else len(words) >= 2)
        labels = [name(each) for each in words]
        a, b, *filters = [table.label(each) for each in labels]
        ask(50, a != b and a not in filters and b not in filters)
        ask(52, len(set(filters)) == len(filters))
        return "through", a, b, tuple(filters)
    ask(50, word == "without" and len(words) == 3)
    a, k, b = named(words[0]), kind(words[1]), named(words[2])
    a, b = end(a, table), end(b, table)
    ask(50, a is not None or b is not None)
    return word, a, k, b


def read(text, table):
    """The claims with their lines."""
    claims = []

    def take(line):
        claim = claim_of(line, table)
        ask(52, claim is None or claim not in [other for _, other, _ in claims])
        claims.append((len(claims) + 2, claim, line))

    texts.read_lines(text, HEADER, lambda words: take(" ".join(words)))
    return [entry for entry in claims if entry[1] is not None]


def breach(claim, extents, count):
    """The first pair of labels that has more than a claim on pairs leaves, with its extent."""
    for a in range(count):
        for b in range(count):
            if a == b:
                continue
            if claim[0] == "only":
                bounded, left = b == claim[1] and a not in claim[2], ("none",)
            elif claim[0] == "within":
                bounded, left = a == claim[1] and b not in claim[2], ("none",)
            else:
                bounded = claim[1] in (None, a) and claim[2] in (None, b)
                left = ("none", claim[0])
            if bounded and extents[a, b] not in left:
                return a, b, extents[a, b]


def excluded(claim, count):
    """The edges that a claim `readers` or `without` excludes, by label, kind and label."""
    if claim[0] == "readers":
        others = [a for a in range(count) if a not in (claim[1], *claim[2])]
        return [(a, k, claim[1]) for a in others for k in sorted(map(kind, ("read", "receive", "await")))]
    _, a, k, b = claim
    ends = [(x, y) for x in range(count) for y in range(count) if a in (None, x) and b in (None, y)]
    return [(x, k, y) for x, y in ends if x != y or a == b]


def broken(claims, table, policy, acts):
    """What is told of each claim that doesn't hold."""
    count = len(table.labels)
    extents = {(a, b): how for a, b, how in policies.extents(policy, acts, count)}
    flows = Flows(table, policy, acts) if any(claim[0] == "through" for _, claim, _ in claims) else None
    for line, claim, text in claims:
        told = {"claim": text, "line": line}
        if claim[0] == "through":
            if not claim[3]:
                told["claim"] = text.replace("through", "apart", 1)
            if flows.chain(claim[1], claim[2], {*claim[3]}) is not None:
                yield told
        elif claim[0] in ("readers", "without"):
            if edges := [edge for edge in excluded(claim, count) if edge in policy]:
                a, k, b = edges[0]
                names_it = claim[0] == "without" and None not in claim
                yield told | ({} if names_it else {"edge": [table.labels[a], texts.KINDS[k], table.labels[b]]})
        elif found := breach(claim, extents, count):
            a, b, how = found
            names_both = claim[0] not in ("only", "within") and None not in claim
            pair = {} if names_both else {"pair": [table.labels[a], table.labels[b]]}
            yield told | {"authority": how} | pair


def strongest(table, policy, acts):
    """The lines of the strongest claims: on pairs of labels with a thread, and for each other label who may change or shrink its objects."""
    names = table.labels
    extents = {(a, b): how for a, b, how in policies.extents(policy, acts, len(names))}
    programs = {item.label for item in table.objects if item.kind == "tcb"}
    lines = [f"{how} {names[a]} {names[b]}" for (a, b), how in extents.items() if {a, b} <= programs and how != "full"]
    for b in range(len(names)):
        if b not in programs:
            users = [names[a] for a in range(len(names)) if a != b and extents[a, b] != "none"]
            lines.append(" ".join(["only", names[b], *users]) if users else f"none * {names[b]}")
    return lines
