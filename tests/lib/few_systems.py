"""Tables at random of tests/differential that have few edges, many threads, or programs in layers; and a policy that fits them more or less.
Nothing of this is proved.
"""
import policies
import texts
from systems import LETTERS

# The kind of object for which a capability gives an edge of a kind, and the rights by which it does; an endpoint's give `reset` too, and
# some of them `send`.
BY = {
    policies.RESET: ("endpoint", "- 0"), policies.SEND: ("endpoint", "w 0"), policies.RECEIVE: ("endpoint", "r 0"),
    policies.GRANT: ("endpoint", "wg 0"), policies.CALL: ("endpoint", "wy 0"), policies.NOTIFY: ("notification", "w 0"),
    policies.AWAIT: ("notification", "r 0"), policies.READ: ("frame", "r"), policies.WRITE: ("frame", "w"), policies.REPLY: ("reply", ""),
    policies.CONTEXT: ("context", ""), policies.SCHEDCONTROL: ("control", ""), policies.DERIVE: ("endpoint", "- 0"),
}
# What follows the address in an object's line.
AFTER = {"cnode": "4", "tcb": "inactive", "context": "-", "untyped": "4"}


class Capabilities:
    """Objects and capabilities, of which each label's are in a CNode of its own."""

    def __init__(self, labels, first):
        self.labels, self.address = labels, first
        self.objects, self.nodes, self.caps, self.children, self.roots = [], {}, {}, [], {}

    def object_of(self, kind, label):
        """An object of a label: the one that is there, or a new one. Untyped memory has one capability."""
        name = f"{LETTERS[kind]}_{label}" + f"_{len(self.objects)}" * (kind == "untyped")
        where = label if kind == "control" else f"{self.address:#x}"
        line = " ".join([kind, name, self.labels[label], str(where), *AFTER.get(kind, "").split()])
        if name not in [one.split(" ")[1] for one in self.objects]:
            self.objects.append(line)
            self.address += 0x1000
        return name

    def put(self, label, name, words):
        """Puts a capability into the next slot of a label's CNode, if one is free."""
        if label not in self.nodes:
            self.nodes[label], self.caps[label] = self.object_of("cnode", label), []
        slot = f"{self.nodes[label]}.{len(self.caps[label])}"
        if len(self.caps[label]) == 16:
            return None
        self.caps[label].append(f"cap {slot} {name} {words}".rstrip())
        return slot

    def give(self, r, edge, threads):
        """Gives an edge, as far as a capability does. `threads` has a thread of each label that has one."""
        a, kind, b = edge
        if kind == policies.CONTROL:
            of = r.choice(["tcb", "untyped", "cnode"])
            self.put(a, self.object_of(of, b), "60 0x0" if of == "cnode" else "")
        elif kind == policies.SPACE and a in threads:
            self.roots[threads[a]] = f"cap {threads[a]}.root {self.object_of('cnode', b)} 60 0x0"
        elif kind in BY:
            of, words = BY[kind]
            name = self.object_of(of, b)
            slot = self.put(a, name, words)
            child = self.put(b, name, words) if kind == policies.DERIVE and slot else None
            self.children += [(b, len(self.caps[b]), f"child {slot} {child}")] if child else []

    def lines(self, threads):
        """The lines of objects, and those of capabilities and of pairs, where these threads come first."""
        nodes = [label for line in self.objects for label, name in self.nodes.items() if line.split(" ")[1] == name]
        at = {label: at for at, label in enumerate(nodes)}
        caps = [*(self.roots[thread] for thread in threads if thread in self.roots), *(cap for label in nodes for cap in self.caps[label])]
        return self.objects, caps + [line for *_, line in sorted(self.children, key=lambda child: (at[child[0]], child[1]))]


# Of these kinds are the edges of most ways that have more than one.
FEW = [policies.SEND, policies.RECEIVE, policies.REPLY]


def make_few(r):
    """A table whose threads all have few capabilities, and a policy with few edges, so that most labels don't go far with each other."""
    count = r.randint(3, 6)
    labels = [f"l{i}" for i in range(count)]
    made, contexts, bound, threads = [], [], [], {}
    for i, label in enumerate(labels):
        how = r.choice(["ready"] * 6 + ["inactive", "untyped", "none"])
        if how in ("ready", "inactive"):
            made.append(f"tcb t{i} {label} {i << 10:#x} {how}")
            threads[i] = f"t{i}"
            share, of = r.choice(["-", "0 10 10", "0 10 10"]), r.choice([label, labels[-1], labels[-1]])
            contexts.append(f"context x{i} {of} {0x4000 + (i << 8):#x} {share}")
            bound += [f"bind t{i} x{i}"] if r.random() < 0.85 else []
        elif how == "untyped":
            made.append(f"untyped t{i} {label} {i << 10:#x} {r.choice([4, 10])}")
    every = [*range(1, 17), *r.choice([[], [], [policies.CONTROL]])]
    messages, removals = [*FEW, policies.CALL], [*FEW, policies.CONTROL, policies.RESET, policies.AWAIT]
    kinds = r.choice([every, every, messages, messages, removals])
    edges = {(r.randrange(count), r.choice(kinds), r.randrange(count)) for _ in range(r.randint(3, 14))}
    given = Capabilities(labels, 0x100000)
    for edge in sorted(edges):
        given.give(r, edge, threads)
    objects, caps = given.lines(threads.values())
    table_text = texts.text_of("confine-table 1", [*(f"label {label}" for label in labels), *made, *contexts, *objects, *caps, *bound])
    edges |= {(r.randrange(count), r.choice(kinds), r.randrange(count)) for _ in range(r.choice([0, 0, 1, 4]))}
    lines = [texts.edge_line(edge, texts.read_table(table_text.encode())) for edge in sorted(edges)]
    return {"table": table_text, "policy": texts.text_of("confine-policy 1", lines)}


def make_wide(r):
    """A table with many threads, each of a label of its own, and a few labels without one, and a policy with few edges."""
    count, more = r.choice([10, 20, 22, 23, 24, 45, 62]), r.randint(1, 6)
    labels = [f"l{i}{'_long' * r.choice([0, 0, 0, 1, 3])}" for i in range(count + more)]
    r.shuffle(labels)
    made = [f"tcb t{i} {labels[i]} {i << 10:#x} {r.choice(['ready', 'ready', 'inactive'])}" for i in range(count)]
    made += [f"context x{i} {labels[-1]} {0x20000 + (i << 8):#x} 0 10 10" for i in range(count)]
    made += [f"frame f{i} {label} {0x40000 + (i << 12):#x}" for i, label in enumerate(labels[count:-1])]
    bound = [f"bind t{i} x{i}" for i in range(count) if r.random() < 0.9]
    kinds = [policies.NOTIFY, policies.SEND, policies.RECEIVE, policies.AWAIT, policies.READ, policies.WRITE, policies.REPLY]
    edges = {(r.randrange(count), r.choice(kinds), r.randrange(len(labels))) for _ in range(count)}
    given = Capabilities(labels, 0x100000)
    for edge in sorted(edges):
        given.give(r, edge, {})
    objects, caps = given.lines([])
    header = f"confine-table {1 if len(labels) <= 64 else 2}"
    table_text = texts.text_of(header, [*(f"label {label}" for label in labels), *made, *objects, *caps, *bound])
    lines = [texts.edge_line(edge, texts.read_table(table_text.encode())) for edge in sorted(edges)]
    return {"table": table_text, "policy": texts.text_of("confine-policy 1", lines)}


def make_relays(r):
    """A table of programs in layers: each signals programs of the next layer, or writes memory that they read. The first label is the program of
    the first layer, and the last label that of the last."""
    count, width = r.choice([4, 6, 9, 12, 16]), r.choice([1, 2, 3, 4, 6, 7])
    layer = [0, *(1 + i // width for i in range(count - 2))]
    layer.append(layer[-1] + 1)
    programs, memory = [f"p{i}" for i in range(count)], [f"m{i}" for i in range(count)]
    between = [*programs[1:-1], *memory]
    r.shuffle(between)
    caps, frames = {i: [f"b{i} r 0"] for i in range(count)}, []
    for i in range(count):
        next_ones = [j for j in range(count) if layer[j] == layer[i] + 1 and r.random() < 0.95 or j != i and r.random() < 0.03]
        if next_ones and r.random() < 0.4:
            of = r.choice([memory[i], memory[i], programs[i], programs[next_ones[0]]])
            frames.append(f"frame f{i} {of} {0x80000 + (i << 12):#x}")
            caps[i].append(f"f{i} w")
            for j in next_ones:
                caps[j].append(f"f{i} r")
        else:
            caps[i] += [f"b{j} w {1 << i}" for j in next_ones]
    made = [f"cnode c{i} p{i} {0x40000 + (i << 10):#x} 5" for i in range(count)]
    made += [f"tcb t{i} p{i} {i << 10:#x} {r.choice(['ready'] * 15 + ['inactive'])}" for i in range(count)]
    made += [f"notification b{i} p{i} {0x20000 + (i << 5):#x}" for i in range(count)]
    made += [f"context x{i} p{i} {0x10000 + (i << 8):#x} 0 10 10" for i in range(count)]
    lines = [f"cap c{i}.{at} {cap}" for i in range(count) for at, cap in enumerate(caps[i])]
    bound = [f"bind t{i} x{i}" for i in range(count)]
    labels = [f"label {label}" for label in [programs[0], *between, programs[-1]]]
    return {"table": texts.text_of("confine-table 1", [*labels, *made, *frames, *lines, *bound])}
