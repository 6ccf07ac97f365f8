"""The systems at random of tests/differential: a table, a policy that fits it more or less, and a script whose events are mostly such as
the state allows, with the state and the log that the second reading, tests/model, has of them. Nothing of this is proved.
"""
import commands
import kernel
import policies
import texts

EDGE_NUMBERS = [0, 1, 2, 3, 4, 7, 8, 15, 16, 31, 47, 48, 60, 61, 62, 63, 64, 65, 511, 512, 3600000000, 3600000001]
EDGE_NUMBERS += [2**32, 2**48, 2**63, 2**64 - 1]
HOUR = texts.HOUR
# Budgets and periods that a context may have, and that none may have.
GIVEN = [(10, 10), (10, 20), (10, 20), (1, 1), (1, HOUR), (HOUR, HOUR)]
REFUSED = [(0, 1), (0, HOUR), (2, 1), (11, 10), (HOUR + 1, HOUR), (1, HOUR + 1), (HOUR + 1, HOUR + 1)]


# Tables.

KINDS = [*texts.MADE, "control"]
LETTERS = dict(zip(KINDS, "uctenpxfk"))


def counts_of(r):
    """How many objects of each kind a table has, how many CNodes are homes of threads, and whether it is rich: its threads share one large
    CNode, with a capability of nearly all there is."""
    few = r.random() < 0.2
    counts = {
        "cnode": r.randint(1, 2 if few else 4), "tcb": r.randint(1, 2 if few else 5), "endpoint": r.randint(0, 2),
        "notification": r.randint(0, 2), "reply": r.randint(0, 3), "frame": r.randint(0, 1), "untyped": r.randint(0, 3),
        "control": r.randint(0, 2),
    }
    counts["context"] = counts["tcb"] + r.choice([0, 0, 1, 2])
    homes = r.choice([1, 1, 2, 2, 3]) if r.random() < 0.85 else 0
    rich = r.random() < 0.5
    if rich:
        counts |= {"tcb": r.randint(3, 5), "endpoint": r.randint(1, 2), "reply": r.randint(1, 3), "untyped": r.randint(1, 2)}
        counts |= {"notification": 1, "control": 1, "context": counts["tcb"] + 1}
        homes = 1
    return counts, homes, rich


class Layout:
    """A table while it is made: the lines of its objects, their kinds and radixes by their names, and the capabilities by their places."""

    def __init__(self, r):
        self.r, self.labels = r, [f"l{i}" for i in range(r.choice([1, 2, 2, 3, 3, 4, 5]))]
        counts, self.homes, self.rich = counts_of(r)
        objects = [(kind, i) for kind, count in counts.items() for i in range(count)]
        r.shuffle(objects)
        self.kinds, self.radix, self.caps = {}, {}, {}
        self.cores, self.free = r.sample(range(16), 3), r.choice([0, 0x10000])
        self.cores[1:] = r.choice([self.cores[:1] * 2, self.cores[1:]])
        self.lines = [self.object_line(kind, i) for kind, i in objects]
        self.number = {name: at for at, name in enumerate(self.kinds)}

    def of_kind(self, kind):
        """The names of the objects of a kind."""
        return [name for name in self.kinds if self.kinds[name] == kind]

    def object_line(self, kind, i):
        """The line of a new object, after the memory of those before it."""
        r, name = self.r, f"{LETTERS[kind]}{i}"
        self.kinds[name] = kind
        words = [kind, name, r.choice(self.labels)]
        if kind == "control":
            return " ".join([*words, str((self.cores[0] + i) % 16)])
        if kind == "cnode":
            self.radix[name] = (6 if self.rich else r.choice([3, 4, 4, 5])) if i < self.homes else r.choice([1, 1, 2, 2, 3, 4])
        bits = r.choice([4, 5, 8, 10, 11, 12, 13, 14]) if kind == "untyped" else 0
        at_end = kind == "untyped" and i == 0 and r.random() < 0.15  # it is the last memory that there is
        bits = r.choice([4, 12, 46, 47]) if at_end else bits
        size = {"cnode": 32 << self.radix.get(name, 0), "untyped": 1 << bits}.get(kind) or texts.SIZES[kind]
        address = (1 << 48) - size if at_end else -(-self.free // size) * size + size * r.choice([0, 0, 0, 1])
        self.free = self.free if at_end else address + size
        words += [hex(address)] + {
            "cnode": [str(self.radix.get(name))], "untyped": [str(bits)], "tcb": [r.choice(["ready"] * 5 + ["inactive"])],
            "context": ["-"] if r.random() < 0.1 else [str(r.choice(self.cores)), *map(str, r.choice(GIVEN))],
        }.get(kind, [])
        return " ".join(words)

    def scatter(self):
        """Puts capabilities into slots of all CNodes."""
        r, kinds, used = self.r, self.kinds, set()
        share = r.choice([0.3, 0.5, 0.7])
        for c, i in [(c, i) for c in self.radix for i in range(1 << self.radix[c])]:
            if r.random() < (0.1 if self.rich else share):
                met = [name for name in kinds if kinds[name] in ("endpoint", "reply", "tcb", "notification")]
                target = r.choice([r.choice(list(kinds)), r.choice(met)])
                if kinds[target] == "untyped" and target in used:
                    continue
                used.add(target)
                self.caps[self.number[c], i] = [f"{c}.{i}", target, *cap_words(r, kinds[target], self.radix.get(target))]

    def furnish(self, home):
        """Puts into a home what is useful there, a CNode, and the home itself."""
        r, kinds, radix, at = self.r, self.kinds, self.radix, self.number[home]
        useful = ("endpoint", "notification", "reply", "tcb", "context", "untyped", "frame", "control")
        wanted = [name for name in kinds if kinds[name] in useful and r.random() < (0.9 if self.rich else 0.5)]
        for target in [*wanted, r.choice(list(radix)), home]:
            i = r.choice([i for i in range(1 << radix[home]) if (at, i) not in self.caps] or [0])
            self.caps.pop((at, i), None)
            if kinds[target] == "untyped" and any(cap[1] == target for cap in self.caps.values()):
                continue
            words = [str(64 - radix[target]), "0x0"] if target in radix else cap_words(r, kinds[target], 0)
            if kinds[target] in texts.ALL_RIGHTS and r.random() < 0.7:
                words[0] = texts.ALL_RIGHTS[kinds[target]]
            self.caps[at, i] = [f"{home}.{i}", target, *words]

    def give_roots(self, homes):
        """Gives most threads a root, most often a home."""
        r = self.r
        for t in self.of_kind("tcb"):
            if r.random() < 0.95:
                c = f"c{r.randrange(homes)}" if homes and r.random() < 0.9 else r.choice(list(self.radix))
                self.caps[self.number[t], 0] = [f"{t}.root", c, *guard_words(r, self.radix[c], True)]

    def parents(self):
        """A parent for some of the capabilities: another one of the same object."""
        children, caps = {}, self.caps
        for place in sorted(caps):
            same = [p for p in sorted(caps) if p != place and caps[p][1] == caps[place][1] and self.kinds[caps[p][1]] != "untyped"]
            if same and self.r.random() < 0.5:
                children[place] = self.r.choice(same)
        return children


def make_table(r):
    """A table's text, at random, that has no fault."""
    made = Layout(r)
    made.scatter()
    homes = min(made.homes, len(made.radix))
    for i in range(homes):
        made.furnish(f"c{i}")
    made.give_roots(homes)
    children = made.parents()
    lines = [f"label {label}" for label in made.labels] + made.lines
    lines += ["cap " + " ".join(cap) for _, cap in sorted(made.caps.items())]
    header = f"confine-table {r.choice([1, 1, 2])}"
    tree = kept_children(texts.read_table(texts.text_of(header, lines).encode()), children)
    lines += [f"child {made.caps[parent][0]} {made.caps[place][0]}" for place, parent in tree]
    threads, contexts = sorted(made.of_kind("tcb"), key=made.number.get), made.of_kind("context")
    r.shuffle(contexts)
    lines += [f"bind {t} {x}" for t, x in zip(threads, contexts) if r.random() < 0.93]
    return texts.text_of(header, lines)


def kept_children(table, children):
    """The pairs of child and parent, without each of which the tree has a fault as long as it is there."""
    tree = sorted(children.items())
    while True:
        table.parents = dict(tree)
        try:
            texts.judge_tree(table, [(at, place) for at, (place, _) in enumerate(tree)])
            return tree
        except texts.Fault as fault:
            tree.pop(fault.line)


def guard_words(r, radix, root=False):
    """A guard that uses up all bits, most often, so that a CNode's capability can be named."""
    if root and r.random() < 0.85:
        return [str(64 - radix), "0x0"]
    size = r.choice([0, 0, 1, 2, 3, 60 - radix, 62 - radix, 64 - radix])
    return [str(size), hex(r.choice([0, 0, 1, 2]) % (1 << size))]


def cap_words(r, kind, radix):
    """The words of a capability after its object: rights and badge, or a CNode's guard."""
    if kind == "cnode":
        return [str(64 - radix), "0x0"] if r.random() < 0.4 else guard_words(r, radix)
    words = []
    if kind in texts.ALL_RIGHTS:
        every = texts.ALL_RIGHTS[kind]
        words.append("".join(right for right in every if r.random() < 0.7) or "-")
        words[0] = every if r.random() < 0.3 else words[0]
    if kind in ("endpoint", "notification"):
        words.append(str(r.choice([0, 0, 0, 0, 1, 2, 4, 2**64 - 1])))
    return words


# Policies.

def make_policy(r, table, last):
    """A policy's text: the least that the table keeps to, with edges more, closed or not, or less; what the last state gives but for one
    edge; or any edges."""
    count = len(table.labels)
    some = {(r.randrange(count), r.randrange(17), r.randrange(count)) for _ in range(r.choice([0, 1, 2, 6]))}
    how = r.random()
    edges = {edge for _, _, _, edge in commands.authority(table, kernel.boot(table))}
    if how < 0.25:
        given = [(rule == "A4" and last.objects[at[0]].context != at[1], rule, edge) for rule, at, _, edge in commands.authority(table, last)]
        seen = {edge for lent, rule, edge in given if rule < "A5" and not lent}
        edges = {edge for _, _, edge in given}
        edges -= {r.choice(sorted(edges - seen) or [(0, 0, 0)])}
    elif how < 0.6:
        edges = policies.close(edges | (some if how < 0.4 else set()), count)
    elif how < 0.8:
        edges = policies.close(edges, count) | some
        edges -= set(r.sample(sorted(edges), min(len(edges), r.choice([0, 1, 1, 2]))))
    elif how < 0.9:
        edges |= some
    else:
        edges = {(r.randrange(count), r.randrange(17), r.randrange(count)) for _ in range(r.randint(0, 30))}
    return texts.text_of("confine-policy 1", [texts.edge_line(edge, table) for edge in sorted(edges)])


# Scripts.

# By what calls it shows which rights came along with a capability.
USES = {"notification": [("signal",), ("poll",)], "frame": [("write", 0, 1), ("read", 0)], "endpoint": [("send", 0, 0, 0, 0, "-")]}
# Sizes at both ends of what a retype makes, and past them.
SIZES = {"untyped": [3, 4, 47, 48], "cnode": [0, 1, 12, 13]}


def ways(s, t):
    """What a thread can name: each slot that a lookup reaches, with an address. It is kept as long as no call changes the state."""
    kept = vars(s).setdefault("ways", {})
    if t not in kept:
        kept[t] = ways_now(s, t)
    return kept[t]


def ways_now(s, t):
    """The slots that a lookup of a thread reaches now, each with an address."""
    found, seen, todo = {}, set(), [(s.caps.get((t, 0)), "")]
    while todo:
        cap, bits = todo.pop()
        if cap is None:
            continue
        size, value = cap.guard
        radix = s.objects[cap.object].radix
        if len(bits) + size + radix > 64:
            continue
        for i in range(1 << radix):
            way = bits + kernel.binary(value, size) + kernel.binary(i, radix)
            slot = cap.object, i
            node = kernel.kind_at(s, slot) == "cnode"
            if len(way) == 64 or not node:
                found.setdefault(slot, int(way.ljust(64, "0"), 2))
            elif (slot, len(way)) not in seen:
                seen.add((slot, len(way)))
                todo.append((s.caps[slot], way))
    return found


def make_events(r, table, count):
    """Events, mostly such as the state allows, with the last state and the log that the second reading has of them."""
    s, log = kernel.boot(table), []
    plan = lending(r, s) if r.random() < 0.5 else at_edges(r, s)
    for _ in range(count):
        if not any(ways(s, t) for t in able(s)) and r.random() < 0.4:
            break
        if not plan and r.random() < 0.3:
            plan = make_plan(r, s)
        words = None
        if plan and r.random() < 0.97:
            words = planned(s, *plan.pop(0))
            if words is None:
                continue
        words = " ".join(str(word) for word in words or make_event(r, s))
        event = texts.read_event(words.split(" "))
        outcome = kernel.step(s, event)
        if not outcome.startswith("refused"):
            s.ways = {}
        log.append(f"{words} = {outcome}")
    return s, log


# Plans: calls in a row that show what a state keeps. Each is a thread, a call and its operands, where `Of(number)` is the address at which
# the thread finds a capability of that object.

class Of(int):
    """The number of an object, in the place of an address."""


def planned(s, t, call, *operands):
    """The words of a call of a plan, or None where the thread can't name what it is about."""
    words, near = [], ways(s, t) if t in s.objects else {}
    for operand in operands:
        if isinstance(operand, Of):
            fit = [(len(s.caps[slot].rights), a) for slot, a in near.items() if slot in s.caps and s.caps[slot].object == operand]
            if not fit:
                return None
            operand = max(fit)[1]
        words.append(operand)
    context = s.objects[t].context if t in s.objects else None
    share = s.objects[context].share if context is not None else None
    return [share[0] if share else 0, t, call, *words]


def look(t, places):
    """Whether slots are filled: a copy of one to itself is refused for the one or the other reason."""
    return [(t, "copy", *place, *place, "-") for place in places]


def vanishing(r, s, a):
    """A bound thread vanishes with its last capability, and its context is bound to another one; or nothing, where `a` can't do that."""
    slots, holders = nodes_of(s, a), {}
    for slot, cap in s.caps.items():
        holders.setdefault(cap.object, []).append(slot)
    near = {s.caps[slot].object for slot in ways(s, a) if slot in s.caps}
    others = [n for n in near if s.objects[n].kind == "tcb" and n != a and s.objects[n].context in {None, *near}]
    bound = [n for n in others if s.objects[n].context is not None and all(slot in slots for slot in holders[n])]
    if not bound or len(others) < 2:
        return []
    one = r.choice(bound)
    other = r.choice([n for n in others if n != one])
    context, its = s.objects[one].context, s.objects[other].context
    first = [(a, "unbind", Of(its))] if its is not None else []
    last = [(a, "delete", *slots[slot]) for slot in holders[one]]
    return [*first, *last, (a, "bind", Of(context), Of(other)), (a, "unbind", Of(context))]


def at_edges(r, s):
    """A thread makes calls with the last values that a condition allows, and the first that it refuses; nothing, where none can."""
    themes = [theme for a in able(s) for theme in edges_for(r, s, a)]
    return r.choice(themes) if themes else []


def edges_for(r, s, a):
    """Of each of five conditions calls at its edges, where the thread can make them."""
    near, places = ways(s, a), nodes_of(s, a)
    named = {kind: [Of(s.caps[slot].object) for slot in near if kernel.kind_at(s, slot) == kind] for kind in KINDS}
    empty = [slot for slot in places if slot not in s.caps]
    if named["control"] and named["context"]:
        shares = [*r.sample(GIVEN, 2), *r.sample(REFUSED, 2)]
        yield [(a, "configure", r.choice(named["control"]), r.choice(named["context"]), *share) for share in r.sample(shares, 4)]
    if named["frame"]:
        f = r.choice(named["frame"])
        yield [(a, "write", f, 511, 7), (a, "read", f, 511), (a, "read", f, r.choice([0, 512])), (a, "write", f, 512, 7)]
    if places:
        yield at_depths(r, s, a, places)
    nodes = [slot for slot in places if kernel.kind_at(s, slot) == "cnode"]
    badged = [slot for slot in places if kernel.kind_at(s, slot) in ("endpoint", "notification")]
    if len(empty) > 2 and (nodes or badged):
        to = [places[slot] for slot in r.sample(empty, 3)]
        at = r.choice(r.choice([them for them in (nodes, badged) if them]))
        if at in nodes:
            room = 64 - s.objects[s.caps[at].object].radix
            guards = [(to[0], room, 2**64 - 1), (to[1], room + 1, 0), (to[1], 0, 1), (to[2], room, 1 << (room - 1))]
            minted = [(a, "mint", *slot, *places[at], "-", "guard", size, value) for slot, size, value in guards]
            through = [(near[slot], 2**64 - (1 << 64 - room), 64) for slot in empty if places[slot] == to[0] and slot in near]
            yield [*minted, *look(a, through)]
        else:
            minted = [(a, "mint", *to[0], *places[at], "rwgy", "badge", 0), (a, "mint", *to[1], *to[0], "rw", "badge", 2**64 - 1)]
            after = [(a, "revoke", *to[0]), *look(a, to), (a, "mint", *to[2], *to[1], "r", "badge", 0)]
            yield [*minted, (a, "copy", *to[2], *to[0], "rw"), *after]
    if named["untyped"] and empty:
        yield retyped_about(r, s, a, r.choice(named["untyped"]), places, r.choice(empty))


def at_depths(r, s, a, places):
    """Lookups of the last slot of a CNode, at its depth, at smaller and larger ones, and with a bit too many."""
    last = [slot for slot in places if slot[1] + 1 == 1 << s.objects[slot[0]].radix]
    node, index, depth = places[slot := r.choice(last)]
    guard = depth - s.objects[slot[0]].radix
    depths = [(there, index << there >> depth) for there in r.sample([0, 1, guard, depth - 1, depth + 1, 64, 65], 4)]
    depths += [(depth, index), (depth, index | 1 << depth)]
    return look(a, [(node, named % 2**64, there) for there, named in depths])


def retyped_about(r, s, a, untyped, places, slot):
    """Retypes of an untyped into a slot, and into slots at the end of its CNode: of sizes and counts that fit, and that don't."""
    bits, (node, index) = s.objects[untyped].bits, slot
    slots, to = 1 << s.objects[node].radix, places[slot][0]
    made = [(kind, size, index, 1) for kind, sizes in SIZES.items() for size in sizes]
    made += [("endpoint", 0, index, count) for count in (0, 16, 17)]
    windows = [(slots - 1, 1), (slots, 1), (slots - 2, 2), (slots - 2, 3), (2**64 - 1, 1)]
    made += [("endpoint", 0, offset, count) for offset, count in windows]
    exact = [("untyped", size, index, count) for size, count in [(bits, 1), (bits + 1, 1), (bits - 1, 2), (bits - 1, 3)]]
    return [(a, "retype", untyped, kind, size, to, *window) for kind, size, *window in [*r.sample(made, 4), *r.sample(exact, 2), exact[0]]]


def ending(r, s, a, b):
    """One thread makes an endpoint or a notification, which goes while the other waits there; nothing, where both can't name its slot."""
    slots, near = nodes_of(s, a), ways(s, b)
    empty = [slot for slot in slots if slot not in s.caps and slot in near]
    memory = [slot for slot in slots if kernel.kind_at(s, slot) == "untyped"]
    if a == b or not empty or not memory:
        return []
    slot, of = r.choice(empty), r.choice(memory)
    place, at = slots[slot], near[slot]
    kind, *call = r.choice([("endpoint", "recv", at, "-", "-"), ("endpoint", "send", at, 1, 2, 3, 4, "-"), ("notification", "wait", at)])
    made = (a, "retype", Of(s.caps[of].object), kind, 0, place[0], slot[1], 1)
    gone = r.choice([(a, "delete", *place), (a, "revoke", *slots[of])])
    return [*r.choice([[], [(a, "revoke", *slots[of])]]), made, (b, *call), gone, (b, "fetch"), *look(a, [place])]


def objects_of(s):
    """The objects of each kind."""
    return {kind: [Of(n) for n, item in s.objects.items() if item.kind == kind] for kind in KINDS}


def lending(r, s):
    """A thread waits, loses its context, and is lent that of who calls it; it lends it on, or something comes between; and it answers, or
    another does. Nothing, where no three threads can do that."""
    threads, of_kind = able(s), objects_of(s)
    near = {t: [s.caps[slot] for slot in ways(s, t) if slot in s.caps] for t in threads}
    named = {t: {cap.object for cap in near[t]} for t in threads}
    idle = [e for e in of_kind["endpoint"] if not s.objects[e].queue]
    takes = [(t, e) for t in threads for e in idle if any(cap.object == e and "r" in cap.rights for cap in near[t])]
    calls = [(t, e) for t in threads for e in idle if any(cap.object == e and cap.rights[-1:] in "gy" and "w" in cap.rights for cap in near[t])]
    fit = [(a, b, c, e) for a, e in takes for b, f in calls for c in threads if e == f and len({a, b, c}) == 3 and s.objects[a].context in named[c]]
    replies = [p for p in of_kind["reply"] if fit and any(p in named[a] for a, _, _, _ in fit)]
    if not replies:
        return []
    p = r.choice(replies)
    a, b, c, e = r.choice([way for way in fit if p in named[way[0]]])
    d = r.choice([t for t in threads if t not in (a, b, c)] or [c])
    own, lent, third = [Of(s.objects[t].context) for t in (a, b, d)]
    away = [place for slot, place in nodes_of(s, c).items() if slot in s.caps and s.caps[slot].object == lent]
    between = [
        [(a, "fetch")], [(c, "bind", own, Of(b))], [(c, "bind", own, Of(b)), (b, "fetch"), (c, "unbind", own)], [(c, "unbind", lent)],
        [(c, "unbind", lent), (c, "bind", lent, Of(a))], [(c, "unbind", lent), (c, "bind", lent, Of(b))],
        [(c, "unbind", lent), (c, "bind", own, Of(a))], [(c, "suspend", Of(b))], [(c, "resume", Of(b))], [(a, "recv", e, p, "-")],
        [(c, "suspend", Of(a)), (c, "resume", Of(a))], [(c, "configure", r.choice(of_kind["control"] or [0]), lent, 5, 10)],
        [(c, "delete", *place) for place in away],
    ]
    opening = [(a, "recv", e, p, "-"), (c, "unbind", own), (b, "call", e, 1, 2, 3, 4, "-")]
    answer = [(r.choice([a, a, a, c]), "reply", p, 5, 6, 7, 8)]
    last = [(b, "fetch"), (c, "bind", own, Of(a)), (a, "fetch"), (c, "bind", lent, Of(b)), (b, "fetch")]
    if d != c and r.random() < 0.4:
        on, through = r.choice(of_kind["endpoint"]), r.choice(of_kind["reply"])
        opening = [(d, "recv", on, through, "-"), (c, "unbind", third), *opening, (a, "call", on, 1, 1, 1, 1, "-")]
        answer = r.choice([[(d, "reply", through, 2, 2, 2, 2), *answer], [(d, "reply", p, 3, 3, 3, 3), (d, "reply", through, 2, 2, 2, 2)]])
    return [*opening, *r.choice([[], *between]), *answer, *last]


def meeting(r, s, a, b, c):
    """Two threads meet at an endpoint, and a third one comes between. There must be an endpoint and a reply object."""
    of_kind = objects_of(s)
    e, p, n = r.choice(of_kind["endpoint"]), r.choice(of_kind["reply"]), r.choice(of_kind["notification"] or [0])
    weak, before, near = e, [], ways(s, b)
    mine = [slot for slot, place in nodes_of(s, b).items() if slot in near and slot not in s.caps]
    its = [place for slot, place in nodes_of(s, b).items() if slot in s.caps and s.caps[slot].object == e]
    if mine and its and r.random() < 0.5:
        slot = r.choice(mine)
        before, weak = [(b, "copy", *nodes_of(s, b)[slot], *r.choice(its), r.choice(["w", "wg", "wy", "rw"]))], near[slot]
    free = [place for slot, place in nodes_of(s, a).items() if slot not in s.caps and near.get(slot) != weak]
    place = r.choice(free) if free and r.random() < 0.7 else ["-"]
    carried, kind = r.choice([(at, kernel.kind_at(s, slot)) for slot, at in near.items() if slot in s.caps] or [("-", None)])
    opening = [(a, "recv", e, p, *place), (b, r.choice(["call", "call", "send"]), weak, 1, 2, 3, 4, carried)]
    after = [
        [(a, "recv", e, p, "-")], [(c, "recv", e, p, "-"), (a, "fetch")], [(a, "fetch"), (a, "reply", p, 5, 6, 7, 8)],
        [(c, "suspend", Of(b))], [(c, "suspend", Of(a))], [(a, "wait", n), (c, "signal", n)], [(c, "poll", n), (a, "poll", n)],
    ]
    if r.random() < 0.2:
        there = [place for slot, place in nodes_of(s, c).items() if slot in s.caps and s.caps[slot].object in (e, p)]
        after += [[(c, "delete", *place) for place in there]] * 4
    closing = [[(b, "fetch")], [(c, "resume", Of(b)), (b, "fetch")], [(c, "reply", p, 1, 1, 1, 1), (b, "fetch")]]
    last = [(c, "resume", Of(b)), (b, "fetch"), (c, "resume", Of(a)), (a, "fetch"), (a, "fetch")]
    last += look(c, [place] if place != ["-"] else [])
    there = [at for slot, at in ways(s, a).items() if nodes_of(s, a).get(slot) == place]
    if there and kind in USES:
        last += [(a, call, *there, *more) for call, *more in USES[kind]]
    return [*before, *r.choice([opening, opening[::-1]]), *r.choice([*after, []]), *r.choice(closing), *last]


def reusing(r, s, a):
    """A thread fills memory, removes what it made, and fills the memory again; or it grows a family of capabilities and removes some of it.
    Nothing, where it has too few empty slots, or neither memory nor a capability to begin with."""
    slots = nodes_of(s, a)
    empty = [slot for slot in slots if slot not in s.caps]
    if len(empty) < 4:
        return []
    to = [slots[slot] for slot in r.sample(empty, 4)]
    memory = [slot for slot in slots if kernel.kind_at(s, slot) == "untyped"]
    if memory and r.random() < 0.4:
        u = r.choice(memory)
        kind, bits = r.choice([("untyped", 4), ("untyped", 5), ("cnode", 1), ("endpoint", 0), ("reply", 0), ("tcb", 0), ("context", 0)])
        fill = [(a, "retype", Of(s.caps[u].object), kind, bits, node, i, 1) for node, i, _ in to]
        return [*fill[:2], (a, r.choice(["revoke", "revoke", "delete"]), *r.choice([slots[u], to[0]])), *fill, *look(a, to)]
    family = [slot for slot in slots if kernel.kind_at(s, slot) not in (None, "untyped", "tcb")]
    if not family:
        return []
    at = r.choice([slot for slot in family if kernel.kind_at(s, slot) in ("endpoint", "notification", "reply")] or family)
    first = (a, "mint", *to[0], *slots[at], "rwgy", "badge", r.choice([1, 2]))
    if r.random() < 0.2 or kernel.kind_at(s, at) not in ("endpoint", "notification"):
        first = (a, "copy", *to[0], *slots[at], "rwgy")
    third = [(a, "copy", *to[2], *to[r.choice([0, 1])], "rw"), (a, "move", *to[2], *to[0])]
    grown = [first, (a, "copy", *to[1], *to[0], "rw"), r.choice(third)]
    cut = [(a, r.choice(["revoke", "revoke", "delete", "delete"]), *r.choice([slots[at], *to[:3]])) for _ in range(2)]
    return [*grown, cut[0], *look(a, to), cut[1], *look(a, [*to, slots[at]])]


def make_plan(r, s):
    """One of seven: calls at the edges of conditions, threads that meet, or lend a context, a thread that vanishes, or one that waits
    where its object does, a family of capabilities, or memory that is used again."""
    threads = able(s)
    if not threads:
        return []
    if r.random() < 0.15 and (plan := at_edges(r, s)):
        return plan
    if r.random() < 0.15 and (plan := vanishing(r, s, r.choice(threads))):
        return plan
    if r.random() < 0.2 and (plan := lending(r, s)):
        return plan
    of_kind = objects_of(s)
    a, b, c = r.sample(threads, 3) if len(threads) > 2 else r.choices(threads, k=3)
    if r.random() < 0.15 and (plan := ending(r, s, a, b)):
        return plan
    if r.random() < 0.5 and of_kind["endpoint"] and of_kind["reply"]:
        return meeting(r, s, a, b, c)
    return reusing(r, s, a)


def named_slots(s, near):
    """The slots of CNodes that three words name, each with the words, where capabilities can be named at these addresses."""
    for slot, a in near.items():
        if kernel.kind_at(s, slot) == "cnode":
            cap = s.caps[slot]
            (size, value), radix = cap.guard, s.objects[cap.object].radix
            for i in range(1 << radix if size + radix <= 64 else 0):
                yield (cap.object, i), (a, value << radix | i, size + radix)


def nodes_of(s, t):
    """The slots of CNodes that a thread can name by three words, each with the first such words."""
    places = {}
    for slot, words in named_slots(s, ways(s, t)):
        places.setdefault(slot, words)
    return places


# How often each call is made, and the kind of capability that it takes most, with the right.
CALLS = {
    "signal": (4, "notification", "w"), "poll": (3, "notification", "r"), "wait": (5, "notification", "r"),
    "send": (10, "endpoint", "w"), "call": (14, "endpoint", "w"), "recv": (22, "endpoint", "r"),
    "reply": (2, "reply", ""), "fetch": (3, None, ""), "copy": (10, "cnode", ""), "mint": (6, "cnode", ""),
    "move": (4, "cnode", ""), "delete": (3, "cnode", ""), "revoke": (5, "cnode", ""), "retype": (7, "untyped", ""),
    "read": (1, "frame", "r"), "write": (2, "frame", "w"), "setspace": (2, "tcb", ""), "clearspace": (0.4, "tcb", ""),
    "suspend": (1.5, "tcb", ""), "resume": (6, "tcb", ""), "configure": (2, "control", ""),
    "bind": (3, "context", ""), "unbind": (0.7, "context", ""),
}


def able(s):
    """The threads that can call."""
    tcbs = [(n, item) for n, item in s.objects.items() if item.kind == "tcb"]
    return [n for n, item in tcbs if item.state == "ready" and item.context is not None and s.objects[item.context].share]


class Words:
    """Words for the operands of a thread's call, chosen at random of what it can name, most often such as the call needs."""

    def __init__(self, r, s, t):
        self.r, self.s = r, s
        self.near = ways(s, t) if t in s.objects and s.objects[t].kind == "tcb" else {}
        self.places = dict(named_slots(s, self.near))

    def number(self):
        """A number, often one at an edge."""
        return self.r.choice(EDGE_NUMBERS) if self.r.random() < 0.5 else self.r.randrange(70)

    def objects(self, kind):
        """The objects of a kind that can be named, each with an address."""
        return [(a, self.s.objects[self.s.caps[slot].object]) for slot, a in self.near.items() if self.kind_at(slot) == kind]

    def kind_at(self, slot):
        """The kind of the object that a slot's capability is for."""
        return kernel.kind_at(self.s, slot)

    def to(self, *kinds, right=""):
        """An address at which a capability of one of these kinds lies, most often."""
        r, s, near = self.r, self.s, self.near
        fit = [a for slot, a in near.items() if self.kind_at(slot) in kinds and right in s.caps[slot].rights]
        met = [a for slot, a in near.items() if a in fit and getattr(s.objects[s.caps[slot].object], "queue", None)]
        if met and r.random() < 0.6:
            return r.choice(met)
        return r.choice(fit) if fit and r.random() < 0.94 else r.choice([*near.values(), self.number()])

    def one_of(self, fit, kind):
        """The address of one of these objects, or of any of the kind."""
        return self.r.choice(fit) if fit else self.to(kind)

    def place(self, fit):
        """Three words that name one of these slots, most often."""
        if fit and self.r.random() < 0.95:
            return self.places[self.r.choice(fit)]
        return self.to("cnode"), self.number(), self.r.choice([0, 1, 2, 3, 60, 63, 64, 64, 64, 65])

    def empty(self):
        """Three words that name an empty slot, most often."""
        return self.place([slot for slot in self.places if slot not in self.s.caps])

    def filled(self, *kinds):
        """Three words that name a slot with a capability of one of these kinds, or of any kind, of which each is as likely; seldom any slot,
        so that it tells what a removal took."""
        if self.r.random() < 0.15:
            return self.place(list(self.places))
        there = sorted({self.kind_at(slot) for slot in self.places if slot in self.s.caps} & set(kinds or KINDS))
        kind = self.r.choice(there) if there else None
        return self.place([slot for slot in self.places if self.kind_at(slot) == kind and slot in self.s.caps])

    def rights(self):
        """The rights of a copy."""
        return self.r.choice(["rwgy", "rwgy", "rw", "r", "w", "wg", "wy", "-", "gy", "rwy"])

    def message(self):
        """The four words of a message."""
        return [self.r.choice([0, 1, 2, 3, self.number()]) for _ in range(4)]

    def carried(self):
        """The capability that a message carries."""
        return "-" if self.r.random() < 0.3 else self.r.choice([*self.near.values(), self.number()])

    def minted(self):
        """The operands of `mint`, with a badge or with a guard."""
        r = self.r
        if r.random() < 0.6:
            badged = ("endpoint", "notification")
            fresh = [slot for slot in self.places if self.kind_at(slot) in badged and not self.s.caps[slot].badge]
            at = self.place(fresh) if fresh else self.filled()
            return [*self.empty(), *at, self.rights(), "badge", r.choice([0, 1, 2, 5, self.number()])]
        at = self.filled("cnode") if r.random() < 0.8 else self.filled()
        return [*self.empty(), *at, self.rights(), "guard", r.choice([0, 1, 2, 59, 60, 61, 62, 63, 64]), self.number()]

    def retyped(self):
        """The operands of `retype`."""
        r, kind = self.r, self.r.choice(texts.MADE)
        bits = {"untyped": [3, 4, 4, 5, 6, 8, 10, 11, 47, 48], "cnode": [0, 1, 1, 2, 3, 12, 13]}.get(kind, [self.number()])
        windows = [(words[0], slot[1]) for slot, words in self.places.items() if slot not in self.s.caps]
        a, i = r.choice(windows) if windows and r.random() < 0.93 else (self.to("cnode"), self.number())
        return [self.to("untyped"), kind, r.choice(bits), a, i, r.choice([1, 1, 1, 1, 2, 2, 3, 4, 0, 16, 17])]

    def of_message(self, call):
        """The operands of a call that sends or receives, or None."""
        if call in ("signal", "poll", "wait"):
            return [self.to("notification", right="w" if call == "signal" else "r")]
        if call in ("send", "call"):
            return [self.to("endpoint", right="w"), *self.message(), self.carried()]
        if call == "recv":
            reply = "-" if self.r.random() < 0.25 else self.to("reply")
            return [self.to("endpoint", right="r"), reply, *(["-"] if self.r.random() < 0.3 else self.empty())]
        if call == "reply":
            return [self.one_of([a for a, item in self.objects("reply") if item.use == "called"], "reply"), *self.message()]
        return [] if call == "fetch" else None

    def of_capabilities(self, call):
        """The operands of a call that makes, moves or removes capabilities, or None."""
        if call == "copy":
            return [*self.empty(), *self.filled(), self.rights()]
        if call == "mint":
            return self.minted()
        if call == "move":
            return [*self.empty(), *self.filled()]
        if call in ("delete", "revoke"):
            parents = [slot for slot in self.places if slot in self.s.parents.values()]
            return self.place(parents) if call == "revoke" and parents and self.r.random() < 0.7 else self.filled()
        return self.retyped() if call == "retype" else None

    def of_threads(self, call):
        """The operands of a call on memory, threads or contexts."""
        r = self.r
        if call in ("read", "write"):
            words = [self.to("frame", right=call[0]), r.choice([0, 1, 511, 512])]
            return words if call == "read" else [*words, self.number()]
        if call == "setspace":
            return [self.to("tcb"), self.to("cnode")]
        if call in ("clearspace", "suspend", "resume"):
            stuck = [a for a, item in self.objects("tcb") if item.state != "ready"]
            return [self.one_of(stuck if call == "resume" else [], "tcb")]
        if call == "configure":
            return [self.to("control"), self.to("context"), *r.choice([r.choice(GIVEN), r.choice(REFUSED), (self.number(), self.number())])]
        if call == "unbind":
            return [self.to("context")]
        loose = [a for a, item in self.objects("tcb") if item.context is None]
        idle = [a for a, item in self.objects("context") if item.thread is None]
        return [self.one_of(idle, "context"), self.one_of(loose, "tcb")]

    def call(self, inbox, alone):
        """A call, mostly one that the thread has a capability for. A message that is there is likely fetched, and a lone thread resumes."""
        r, caps = self.r, self.s.caps
        there = [(self.kind_at(slot), caps[slot].rights) for slot in self.near if slot in caps]
        offered = {(None, "")} | {(kind, right) for kind, rights in there for right in ["", *rights]}
        fit = [call for call in CALLS if CALLS[call][1:] in offered and (call != "retype" or self.places)]
        weights = [CALLS[call][0] * (6 if inbox else 0.2) ** (call == "fetch") for call in fit]
        call = r.choices(fit, weights)[0] if r.random() < 0.95 else r.choice(list(CALLS))
        blocks = call in ("wait", "recv", "send", "call")
        return "resume" if blocks and alone and "resume" in fit and r.random() < 0.9 else call


def make_event(r, s):
    """The words of an event at random: a core, a thread, a call and its operands."""
    threads = [n for n, item in s.objects.items() if item.kind == "tcb"]
    rooted = [t for t in able(s) if any(slot in s.caps for slot in ways(s, t))] or able(s)
    t = r.choice(rooted) if rooted and r.random() < 0.96 else r.choice([*threads, *range(min(s.next, 40) + 1)])
    context = s.objects[t].context if t in threads else None
    share = s.objects[context].share if context is not None else None
    core = share[0] if share and r.random() < 0.97 else r.randrange(16)
    words = Words(r, s, t)
    call = words.call(t in threads and s.objects[t].inbox is not None, len(rooted) < 2)
    for operands in [words.of_message, words.of_capabilities, words.of_threads]:
        if (told := operands(call)) is not None:
            return [core, t, call, *told]


# Systems.

def make_system(r):
    """The texts of a system, by their names."""
    table_text = make_table(r)
    table = texts.read_table(table_text.encode())
    last, log = make_events(r, table, r.choice([0, 5, 15, 30, 40, 60, 90]))
    return {
        "table": table_text,
        "policy": make_policy(r, table, last),
        "script": texts.text_of("confine-script 1", [line.partition(" = ")[0] for line in log]),
        "log": texts.text_of("confine-log 1", log),
        "certificate": texts.text_of("confine-cert 1", commands.certificate(table)),
        "claims": texts.text_of("confine-claims 2", [f"take {a} {b}" for a in table.labels for b in table.labels if a != b]),
    }
