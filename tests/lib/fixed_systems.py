"""Fixed systems at random for tests/lib/alike.py, and calls of their threads. In a fixed system no slot of a CNode has a capability for a
CNode or for a thread. Nothing of this is proved.
"""
import kernel
import systems
import texts
from few_systems import Capabilities

# How one program acts on another: the kind of an object, and the rights that the one and the other have to it. A badge may follow them.
LINKS = [("notification", "w", "r")] * 5 + [("notification", "rw", "r"), ("notification", "r", "rw")]
LINKS += [("frame", "w", "r")] * 3 + [("frame", "rw", "rw")] + [("reply", "", "")]
LINKS += [("endpoint", rights, "r") for rights in ("w", "w", "wg", "wy", "wy", "rw")]
# .. and of a third one: two that compete for what the third one does.
CONTESTS = [("notification", "r", "r", "w")] * 4 + [("endpoint", "w", "w", "r"), ("endpoint", "wy", "wy", "r"), ("endpoint", "r", "r", "w")]
# How many words of a frame are used.
WORDS = 2


def rights_of(kind, rights, program):
    """The words of a capability behind its object. A sender has a badge of its own."""
    if kind in ("endpoint", "notification"):
        return f"{rights} {1 << program if 'w' in rights else 0}"
    return rights


class Programs:
    """A table while it is made: programs with a thread or two each, some of which share objects."""

    def __init__(self, r):
        self.r, self.count = r, r.randint(3, 6)
        self.labels = [f"p{i}" for i in range(self.count)] + [f"m{i}" for i in range(self.count)]
        self.given = Capabilities(self.labels, 0x100000)
        # The thread of each program, and behind these a second one of some.
        self.programs = [*range(self.count), *(i for i in range(self.count) if r.random() < 0.3)]
        self.cores = [r.randrange(3) for _ in self.programs]
        for program in range(self.count):
            self.given.put(program, self.given.object_of("reply", program), "")

    def link(self, kind, *rights):
        """Lets programs share an object, each with these rights. Most often the object has a label of its own."""
        programs = self.r.sample(range(self.count), len(rights))
        label = self.r.choice([*programs[:2], *[self.r.randrange(self.count, 2 * self.count)] * 3])
        name = self.given.object_of(kind, label)
        for program, has in zip(programs, rights):
            self.given.put(program, name, rights_of(kind, has, program))

    def link_by_context(self):
        """Lets a program configure or unbind the context of a thread of another."""
        one, other = self.r.sample(range(self.count), 2)
        self.given.put(one, f"x{other}", "")
        if self.r.random() < 0.7:
            self.given.put(one, self.given.object_of("control", self.r.randrange(3)), "")

    def text(self):
        """The table's text."""
        r, threads = self.r, [f"t{i}" for i in range(len(self.programs))]
        made = [f"tcb {t} {self.labels[p]} {i << 10:#x} ready" for i, (t, p) in enumerate(zip(threads, self.programs))]
        for i, (program, core) in enumerate(zip(self.programs, self.cores)):
            label = r.choice([*[program] * 4, *[r.randrange(2 * self.count)] * 2])
            made.append(f"context x{i} {self.labels[label]} {0x4000 + (i << 8):#x} {core} 10 10")
        for thread, program in zip(threads, self.programs):
            root = program if r.random() < 0.97 else r.randrange(self.count)
            self.given.roots[thread] = f"cap {thread}.root {self.given.nodes[root]} 60 0x0"
        objects, caps = self.given.lines(threads)
        bound = [f"bind {t} x{i}" for i, t in enumerate(threads) if r.random() < 0.97]
        return texts.text_of("confine-table 1", [*(f"label {label}" for label in self.labels), *made, *objects, *caps, *bound])


def make_fixed(r):
    """A table's text. Some of its programs share something."""
    made = Programs(r)
    for _ in range(r.randint(made.count - 2, 2 * made.count)):
        how = r.random()
        if how < 0.1:
            made.link_by_context()
        else:
            made.link(*r.choice(CONTESTS if how < 0.3 else LINKS))
    return made.text()


# Calls.

def capabilities_of(table):
    """What each thread finds, in every state: the address, the kind of the object and the capability."""
    s = kernel.boot(table)
    found = {}
    for t in [number for number, item in s.objects.items() if item.kind == "tcb"]:
        near = systems.ways(s, t)
        found[t] = [(address, kernel.kind_at(s, slot), s.caps[slot]) for slot, address in near.items() if slot in s.caps]
    return found


def calls_at(r, s, near, address, kind, cap):
    """The calls that a capability is for, each with its weight. Those that block are seldom made, if nobody waits for them."""
    item, rights = s.objects[cap.object], cap.rights
    if kind == "notification":
        if "w" in rights:
            yield 3, ("signal", address)
        if "r" in rights:
            yield from [(2, ("poll", address)), (0.7 if item.word is None else 1, ("wait", address))]
    elif kind == "frame":
        at = r.randrange(WORDS)
        if "w" in rights:
            yield 3, ("write", address, at, r.randrange(1, 99))
        if "r" in rights:
            yield 2, ("read", address, at)
    elif kind == "endpoint":
        if "w" in rights:
            message, carried = [r.randrange(9) for _ in range(4)], r.choice(["-", "-", address])
            weight = 3 if kernel.first(s, cap.object, "receives") is not None else 0.5
            yield from [(weight, ("send", address, *message, carried)), (weight, ("call", address, *message, carried))]
        if "r" in rights:
            replies = [other for other, of, _ in near if of == "reply"]
            weight = 3 if kernel.first(s, cap.object, "sends") is not None else 1
            yield weight, ("recv", address, r.choice([*replies, "-"]), "-")
    elif kind == "reply":
        yield 3 if item.use == "called" else 0.1, ("reply", address, *(r.randrange(9) for _ in range(4)))
    elif kind == "context":
        yield 0.3, ("unbind", address)
        for control in [other for other, of, _ in near if of == "control"]:
            yield 1, ("configure", control, address, *r.choice(systems.GIVEN))


def make_call(r, s, t, near):
    """The words of an event of a thread that can call, or of one that is refused."""
    context = s.objects[t].context
    share = s.objects[context].share if context is not None else None
    calls = [(2 if s.objects[t].inbox is not None else 0.1, ("fetch",)), (0.1, ("suspend", 0)), (0.1, ("signal", 99))]
    for address, kind, cap in near:
        calls += calls_at(r, s, near, address, kind, cap)
    weights, calls = zip(*calls)
    return [share[0] if share else 0, t, *r.choices(calls, weights)[0]]


def make_event(r, s, found, threads):
    """An event of one of these threads: most often of one that can call."""
    ready = [t for t in threads if t in systems.able(s)]
    t = r.choice(ready if ready and r.random() < 0.95 else threads)
    return texts.read_event([str(word) for word in make_call(r, s, t, found[t])])
