"""The texts: tables, policies, scripts, logs and certificates, as docs/formats has them, and their faults, as docs/FAULTS.md has them.

Each reader goes line by line, and tests in a line what the fault of the lowest rank asks first: 50, 51, 52, 55, 54, 53.
"""
import re
from types import SimpleNamespace

KINDS = "control reset send receive grant call notify await read write reply context schedcontrol space derive runs holds".split()
MADE = "untyped cnode tcb endpoint notification reply context frame".split()
SIZES = {"tcb": 1 << 10, "endpoint": 1 << 4, "notification": 1 << 5, "reply": 1 << 5, "context": 1 << 8, "frame": 1 << 12}
ALL_RIGHTS = {"endpoint": "rwgy", "notification": "rw", "frame": "rw"}
SECTIONS = {"label": 0, "cap": 2, "child": 3, "bind": 4} | {kind: 1 for kind in [*MADE, "control"]}
HOUR = 3_600_000_000
EVENTS = 1_000_000


class Fault(Exception):
    """A fault of a text: its number, and the line, from 1."""

    def __init__(self, number, line=None):
        self.number, self.line = number, line


def ask(number, condition):
    if not condition:
        raise Fault(number)


# Words. Each reader answers the value, or 50.

def name(word):
    ask(50, re.fullmatch("[a-z][a-z0-9_]{0,30}", word))
    return word


def dec(word):
    ask(50, re.fullmatch("0|[1-9][0-9]*", word) and len(word) <= 20 and int(word) < 1 << 64)
    return int(word)


def hexa(word):
    ask(50, re.fullmatch("0x(0|[1-9a-f][0-9a-f]*)", word) and len(word) <= 18)
    return int(word, 16)


def rights(word):
    ask(50, word == "-" or word and re.fullmatch("r?w?g?y?", word))
    return word.replace("-", "")


def slot(word):
    """A holder's name, and the index, which is `root` of a root slot."""
    holder, point, index = word.partition(".")
    ask(50, point)
    return name(holder), "root" if index == "root" else dec(index)


def kind(word):
    ask(50, word in KINDS)
    return KINDS.index(word)


def kinds(word):
    numbers = [kind(part) for part in word.split(",")]
    ask(50, numbers == sorted(set(numbers)))
    return numbers


def one_of(*words):
    def read(word):
        ask(50, word in words)
        return word

    return read


def dash_or(reader):
    return lambda word: None if word == "-" else reader(word)


def form(words, *readers):
    """The values of words, of which there are as many as readers, else 50."""
    ask(50, len(words) == len(readers))
    return [read(word) for read, word in zip(readers, words)]


# Lines.

def read_lines(text, header, read, at_end=lambda: None):
    """Hands each line between the header and `end` to `read`, as a list of words."""
    *lines, rest = text.split(b"\n")
    for number, line in enumerate(lines, 1):
        try:
            if number == 1:
                ask(50, line == header.encode())
            elif line == b"end":
                at_end()
                if number < len(lines) or rest:
                    raise Fault(50, number + 1)
                return
            else:
                read(line.decode("latin-1").split(" "))
        except Fault as fault:
            raise Fault(fault.number, fault.line or number) from None
    raise Fault(50, len(lines) + 1)


# Tables.

class Cap(SimpleNamespace):
    """A capability: object, rights, badge, guard (size and value), and whether it is original."""


def cap_of(number, rights="", badge=0, guard=(0, 0), original=True):
    return Cap(object=number, rights=rights, badge=badge, guard=guard, original=original)


# The headers of the two versions, and how many labels a table of each has at most.
MOST_LABELS = {"confine-table 1": 64, "confine-table 2": 256}


class Table:
    def __init__(self, most_labels):
        self.most_labels = most_labels
        self.labels, self.objects, self.numbers = [], [], {}
        self.caps, self.parents, self.bindings = {}, {}, {}
        self.threads = self.slots = 0

    def label(self, word):
        ask(51, word in self.labels)
        return self.labels.index(word)

    def number(self, word):
        ask(51, word in self.numbers)
        return self.numbers[word]

    def place(self, number, index):
        """A slot as (holder, index), where a root slot has the index 0."""
        return number, 0 if index == "root" else index

    def fits(self, number, index):
        """55: a thread has a root slot alone, a CNode slots with an index, and what is neither none."""
        ask(55, self.objects[number].kind == ("tcb" if index == "root" else "cnode"))

    def within(self, number, index):
        """54: the CNode has a slot of this index."""
        ask(54, index == "root" or index < 1 << self.objects[number].radix)


def read_table(text):
    first = text.split(b"\n")[0].decode("latin-1")
    header = first if first in MOST_LABELS else "confine-table 1"
    table = Table(MOST_LABELS[header])
    now = SimpleNamespace(section=0, line=1, cap=None, child=None, bind=None, child_lines=[])

    def read(words):
        now.line += 1
        ask(50, words[0] in SECTIONS and SECTIONS[words[0]] >= now.section)
        {"label": read_label, "cap": read_cap, "child": read_child, "bind": read_bind}.get(words[0], read_object)(table, now, words)
        now.section = SECTIONS[words[0]]

    read_lines(text, header, read, lambda: judge_tree(table, now.child_lines))
    return table


def read_label(table, now, words):
    _, new = form(words, str, name)
    ask(52, new not in table.labels)
    ask(54, len(table.labels) < table.most_labels)
    table.labels.append(new)


def read_object(table, now, words):
    of = words[0]
    more = {
        "untyped": [hexa, dec],
        "cnode": [hexa, dec],
        "tcb": [hexa, one_of("ready", "inactive")],
        "context": [hexa, one_of("-")] if words[4:] == ["-"] else [hexa, dec, dec, dec],
        "control": [dec],
    }.get(of, [hexa])
    _, new, label, *values = form(words, str, name, name, *more)
    item = SimpleNamespace(kind=of, name=new, label=table.label(label), address=None, size=SIZES.get(of, 0))
    ask(52, new not in table.numbers)
    if of == "control":
        item.core = values[0]
        ask(52, item.core not in [other.core for other in table.objects if other.kind == "control"])
        ask(54, item.core <= 15)
    else:
        item.address, *details = values
        read_details(item, details)
    ask(54, len(table.objects) < 4096)
    ask(54, table.threads + (of == "tcb") <= 1024)
    ask(54, table.slots + slots_of(item) <= 65536)
    if of != "control":
        ask(54, item.address + item.size <= 1 << 48)
        ask(53, item.address % item.size == 0)
        for other in table.objects:
            ask(53, other.address is None or other.address + other.size <= item.address or item.address + item.size <= other.address)
    table.numbers[new] = len(table.objects)
    table.objects.append(item)
    table.threads += of == "tcb"
    table.slots += slots_of(item)


def read_details(item, details):
    """Gives an object what stands behind its address."""
    if item.kind == "untyped":
        (item.bits,) = details
        ask(54, 4 <= item.bits <= 47)
        item.size = 1 << item.bits
    elif item.kind == "cnode":
        (item.radix,) = details
        ask(54, 1 <= item.radix <= 12)
        item.size = 1 << item.radix + 5
    elif item.kind == "tcb":
        item.ready = details == ["ready"]
    elif item.kind == "context":
        item.share = None if details == ["-"] else tuple(details)
        if item.share:
            core, budget, period = item.share
            ask(54, core <= 15 and 1 <= budget <= period <= HOUR)


def slots_of(item):
    """How many slots an object has."""
    return 1 << item.radix if item.kind == "cnode" else item.kind == "tcb"


def read_cap(table, now, words):
    ask(50, 3 <= len(words) <= 5)
    _, (holder, index), target = form(words[:3], str, slot, name)
    shape, values = [], []
    for word in words[3:]:
        for tag, reader in [("r", rights), ("d", dec), ("h", hexa), ("", lambda _: ask(50, False))]:
            try:
                values.append(reader(word))
            except Fault:
                if tag:
                    continue
                raise
            shape.append(tag)
            break
    if holder in table.numbers:
        place = table.place(table.numbers[holder], index)
        ask(50, now.cap is None or now.cap < place)
    number = table.number(holder)
    to = table.number(target)
    item = table.objects[to]
    ask(52, item.kind != "untyped" or all(cap.object != to for cap in table.caps.values()))
    table.fits(number, index)
    ask(55, index != "root" or item.kind == "cnode")
    ask(55, shape == list({"endpoint": "rd", "notification": "rd", "frame": "r", "cnode": "dh"}.get(item.kind, "")))
    cap = cap_of(to)
    if item.kind in ALL_RIGHTS:
        ask(55, set(values[0]) <= set(ALL_RIGHTS[item.kind]))
        cap.rights, cap.badge = values[0], 0 if item.kind == "frame" else values[1]
    table.within(number, index)
    if item.kind == "cnode":
        size, value = values
        ask(54, size + item.radix <= 64)
        ask(54, value < 1 << size)
        cap.guard = size, value
    now.cap = place
    table.caps[place] = cap


def read_child(table, now, words):
    _, parent, child = form(words, str, slot, slot)
    if child[0] in table.numbers:
        place = table.place(table.numbers[child[0]], child[1])
        ask(50, now.child is None or now.child < place)
    numbers = [table.number(parent[0]), table.number(child[0])]
    table.fits(numbers[0], parent[1])
    table.fits(numbers[1], child[1])
    table.within(numbers[0], parent[1])
    table.within(numbers[1], child[1])
    now.child = place
    table.parents[place] = table.place(numbers[0], parent[1])
    now.child_lines.append((now.line, place))


def read_bind(table, now, words):
    _, thread, context = form(words, str, name, name)
    if thread in table.numbers:
        ask(50, now.bind is None or now.bind < table.numbers[thread])
    thread, context = table.number(thread), table.number(context)
    ask(52, context not in table.bindings.values())
    ask(55, table.objects[thread].kind == "tcb" and table.objects[context].kind == "context")
    now.bind = thread
    table.bindings[thread] = context


def judge_tree(table, child_lines):
    """56: the rules of the derivation tree, line by line; who is original is read off all lines at once."""
    for place, cap in table.caps.items():
        parent = table.caps.get(table.parents.get(place))
        cap.original = parent is None or cap.badge != parent.badge
    for line, place in child_lines:
        child, parent = table.caps.get(place), table.caps.get(table.parents[place])
        kept = (
            child is not None
            and parent is not None
            and child.object == parent.object
            and parent.original
            and parent.badge in (0, child.badge)
            and set(child.rights) <= set(parent.rights)
        )
        if not kept:
            raise Fault(56, line)


# Policies: sets of edges (label, kind, label), all by number.

def read_policy(text, table):
    edges = []

    def read(words):
        _, a, k, b = form(words, one_of("edge"), name, kind, name)
        last = edges[-1] if edges else (-1, -1, -1)
        a = table.label(a)
        ask(50, (a, k) >= last[:2])
        b = table.label(b)
        ask(50, (a, k, b) > last)
        edges.append((a, k, b))

    read_lines(text, "confine-policy 1", read)
    return set(edges)


def read_draft(text, table):
    """A policy as `close` reads it: in any order, and without the lines that name a label which the table lacks."""
    edges = set()

    def read(words):
        _, a, k, b = form(words, one_of("edge"), name, kind, name)
        if a in table.labels and b in table.labels:
            edges.add((table.label(a), k, table.label(b)))

    read_lines(text, "confine-policy 1", read)
    return edges


def edge_line(edge, table):
    return f"edge {table.labels[edge[0]]} {KINDS[edge[1]]} {table.labels[edge[2]]}"


def text_of(header, lines):
    return "".join(f"{line}\n" for line in [header, *lines, "end"])


# Scripts and logs. An event has its core, thread, call and operands; its outcome is kept as it is spelled, since a value has one spelling.

TRIPLE = [dec, dec, dec]
CALLS = {
    "signal": [dec], "poll": [dec], "wait": [dec],
    "send": [dec] * 5 + [dash_or(dec)], "call": [dec] * 5 + [dash_or(dec)],
    "recv": [dec, dash_or(dec), *TRIPLE], "reply": [dec] * 5, "fetch": [],
    "copy": [*TRIPLE, *TRIPLE, rights], "mint": [*TRIPLE, *TRIPLE, rights], "move": [*TRIPLE, *TRIPLE],
    "delete": TRIPLE, "revoke": TRIPLE,
    "retype": [dec, one_of(*MADE), dec, dec, dec, dec],
    "read": [dec, dec], "write": TRIPLE,
    "setspace": [dec, dec], "clearspace": [dec], "suspend": [dec], "resume": [dec],
    "configure": [dec] * 4, "bind": [dec, dec], "unbind": [dec],
}
OUTCOMES = {
    "done": [], "done word": [dec], "done msg": [dec] * 5 + [one_of("0", "1")], "done aborted": [], "done count": [dec],
    "blocked": [], "refused": [dec, dec],
}


def read_event(words):
    ask(50, len(words) >= 3 and words[2] in CALLS)
    readers, call = CALLS[words[2]], words[2]
    if call == "recv" and len(words) == 6:
        readers = [dec, dash_or(dec), one_of("-")]
    if call == "mint":
        more = {"badge": [dec], "guard": [dec, dec]}.get(words[10] if len(words) > 10 else "")
        ask(50, more)
        readers = [*readers, str, *more]
    core, thread, _, *operands = form(words, dec, dec, str, *readers)
    return SimpleNamespace(core=core, thread=thread, call=call, operands=operands, text=" ".join(words))


def limits(event, entries):
    ask(54, event.core <= 15)
    ask(54, len(entries) < EVENTS)


def read_script(text):
    events = []

    def read(words):
        event = read_event(words)
        limits(event, events)
        events.append(event)

    read_lines(text, "confine-script 1", read)
    return events


def read_log(text):
    entries = []

    def read(words):
        ask(50, "=" in words)
        at = words.index("=")
        event, outcome = read_event(words[:at]), words[at + 1 :]
        first = " ".join(outcome[:2]) if " ".join(outcome[:2]) in OUTCOMES else " ".join(outcome[:1])
        ask(50, first in OUTCOMES)
        form(outcome[len(first.split(" ")) :], *OUTCOMES[first])
        limits(event, entries)
        entries.append((event, " ".join(outcome)))

    read_lines(text, "confine-log 1", read)
    return entries


# Certificates: lists of lines, which are compared as they are spelled.

def read_certificate(text, table):
    lines = []

    def read(words):
        ask(50, words[0] in ("cap", "space", "derive", "runs"))
        if words[0] == "runs":
            _, thread, context, *labels = form(words, str, name, name, name, name)
            numbers = [table.number(thread), table.number(context)]
            [table.label(label) for label in labels]
            ask(55, [table.objects[number].kind for number in numbers] == ["tcb", "context"])
        else:
            if words[0] == "cap":
                _, place, a, _, b = form(words, str, slot, name, kinds, name)
                places = [place]
            elif words[0] == "space":
                _, place, a, b = form(words, str, slot, name, name)
                places = [place]
            else:
                _, *places, a, b = form(words, str, slot, slot, name, name)
            numbers = [table.number(holder) for holder, _ in places]
            table.label(a), table.label(b)
            for number, (_, index) in zip(numbers, places):
                table.fits(number, index)
                ask(55, words[0] == "derive" or (index == "root") == (words[0] == "space"))
            for number, (_, index) in zip(numbers, places):
                table.within(number, index)
        lines.append(" ".join(words))

    read_lines(text, "confine-cert 1", read)
    return lines
