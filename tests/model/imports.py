"""The table that a system description of Microkit becomes, and the claims that it makes, as docs/IMPORT.md has them. What has a label is a
pair, as `("domain", 0)`: a domain, a machine, the time of a domain, or a region, by number. An object is such a pair too: its kind in a
domain, a virtual machine, a virtual processor or a region."""
import re

import texts
from descriptions import read_description, unless
from texts import HOUR

LETTERS, TRIES = 24, 512
BELLS, CALLS, CHILDREN, PROCESSORS, MAPS = 10, 74, 202, 266, 458
RIGHTS = {"bell": "rw", "entry": "rwgy"}
KINDS = {
    "space": "cnode", "guest_space": "cnode", "main": "tcb", "vcpu": "tcb", "bell": "notification", "answer": "reply", "entry": "endpoint",
    "time": "context", "vcpu_time": "context", "frame": "frame",
}


# Labels.

def ends(d):
    """Each end of a channel, with the other one."""
    return [pair for first, second in d.channels for pair in [(first, second), (second, first)]]


def subjects(d):
    """What has a label, in their order."""
    callers = {own.domain for own, _ in ends(d) if own.calls}
    mapped = {region for _, region, _ in d.maps}
    found = [("domain", n) for n in range(len(d.domains))] + [("machine", n) for n in range(len(d.machines))]
    return found + [("time", n) for n in sorted(callers)] + [("region", n) for n in sorted(mapped)]


def leaders(d):
    """Whose label each subject has: its own, or, where there would be more than 256 labels, that of the first region with the same users
    and rights."""
    found = subjects(d)
    if len(found) <= 256:
        return {one: one for one in found}
    rights, first = {}, {}
    for user, region, writable in d.maps:
        rights.setdefault(region, {}).setdefault(user, False)
        rights[region][user] |= writable
    for kind, n in found:
        if kind == "region":
            first.setdefault(frozenset(rights[n].items()), n)
    return {one: ("region", first[frozenset(rights[one[1]].items())]) if one[0] == "region" else one for one in found}


def item_of(d, subject):
    kind, n = subject
    return {"domain": d.domains, "machine": d.machines, "time": d.domains, "region": d.regions}[kind][n]


def shortened(name, most):
    last = 13 if most >= 16 else most - 3
    return name if len(name) <= most else f"{name[: most - last - 2]}__{name[-last:]}"


def tried(name, ending, k):
    ending += f"_{k}" if k > 1 else ""
    return shortened(name, LETTERS - len(ending)) + ending


def labels(d):
    """The names of labels; 54 where none is free."""
    found, taken = [], set()
    for kind, n in subjects(d):
        item = item_of(d, (kind, n))
        name = re.sub("[^a-z0-9]", "_", item.name.lower())
        name = name if re.match("[a-z]", name) else f"x{name}"
        ending = "_time" if kind == "time" else "_mr" if kind == "region" and tried(name, "", 1) in found[: len(d.domains)] else ""
        free = next((one for one in (tried(name, ending, k) for k in range(1, TRIES + 1)) if one not in taken), None)
        unless(54, item.line, free)
        found.append(free)
        taken.add(free)
    return found


# Objects.

def is_called(d, n):
    """Whether somebody calls a domain: another one, or a child or a virtual machine by a fault."""
    below = [one.parent[0] for one in d.domains if one.parent] + [one.domain for one in d.machines]
    return n in below or any(own.calls and other.domain == n for own, other in ends(d))


def objects(d):
    domains, machines, processors = (range(len(items)) for items in (d.domains, d.machines, d.processors))
    counted = {"space": domains, "guest_space": machines, "main": domains, "vcpu": processors, "bell": domains}
    counted |= {"answer": domains, "entry": [n for n in domains if is_called(d, n)]}
    counted |= {"time": domains, "vcpu_time": processors, "frame": sorted({region for _, region, _ in d.maps})}
    return [(form, n) for form, numbers in counted.items() for n in numbers]


def owner(d, form, n):
    """What an object has its label from, the ending of its name, and its line."""
    if form in ("vcpu", "vcpu_time"):
        one = d.processors[n]
        return ("machine", one.machine), f"{'vcpu' if form == 'vcpu' else 'time'}{one.id}", one.line
    subject = {"guest_space": ("machine", n), "frame": ("region", n)}.get(form, ("domain", n))
    if form == "time" and any(own.calls and own.domain == n for own, _ in ends(d)):
        subject = "time", n
    return subject, {"guest_space": "space", "time": "time0"}.get(form, form), item_of(d, subject).line


# Capabilities: an object, and the words that follow its name.

def cap(every, form, n, rights, badge):
    return (form, n), f" {RIGHTS[form] if every else rights} {badge}"


def fault_cap(every, parent):
    return cap(every, "entry", parent[0], "wy", (1 << 62) + parent[1])


def low_caps(d, every, n):
    """What a domain has below slot 458, by slot."""
    called, own_bell, held = is_called(d, n), cap(every, "bell", n, "r", 0), {}
    held[1] = cap(every, "entry", n, "r", 0) if called else own_bell
    if d.domains[n].parent:
        held[2] = fault_cap(every, d.domains[n].parent)
    if called:
        held[3] = own_bell
    held[4] = ("answer", n), ""
    for own, other in ends(d):
        if own.domain == n and own.notifies:
            held[BELLS + own.id] = cap(every, "bell", other.domain, "w", 1 << other.id)
        if own.domain == n and own.calls:
            held[CALLS + own.id] = cap(every, "entry", other.domain, "wy", (1 << 63) + other.id)
    held |= {CHILDREN + one.parent[1]: (("main", m), "") for m, one in enumerate(d.domains) if one.parent and one.parent[0] == n}
    held |= {PROCESSORS + one.id: (("vcpu", m), "") for m, one in enumerate(d.processors) if one.domain == n}
    return sorted(held.items())


def map_caps(d, user):
    regions = [*dict.fromkeys(region for who, region, _ in d.maps if who == user)]
    written = {region for who, region, writable in d.maps if who == user and writable}
    return [(("frame", one), " rw" if one in written else " r") for one in regions]


def guest_caps(d, every, machine):
    faults = [fault_cap(every, (one.domain, one.id)) for one in d.processors if one.machine == machine]
    return map_caps(d, ("machine", machine)) + faults


def filled(d, every):
    """What each CNode has: a list of slots and capabilities."""
    spaces = {}
    for n in range(len(d.domains)):
        spaces["space", n] = low_caps(d, every, n) + [*enumerate(map_caps(d, ("domain", n)), MAPS)]
    for n in range(len(d.machines)):
        spaces["guest_space", n] = [*enumerate(guest_caps(d, every, n), 1)]
    return spaces


# Tables.

def share_words(item, core, line):
    unless(54, line, 1 <= item.budget <= item.period <= HOUR and core <= 15)
    return f" {core} {item.budget} {item.period}"


def table_text(d, every):
    """The text of the table; 54 where a limit is passed."""
    leads = leaders(d)
    own = [one for one in leads if leads[one] == one]
    for there, most in [([*leads], 4096), (own, 256)]:
        if len(there) > most:
            unless(54, item_of(d, there[most]).line, False)
    names, spaces = dict(zip(leads, labels(d))), filled(d, every)
    called, radix, free, lines, slots, threads = {}, {}, 0x1000, [], 0, 0
    for form, n in objects(d):
        subject, ending, line = owner(d, form, n)
        kind, more, size = KINDS[form], "", texts.SIZES.get(KINDS[form])
        if kind == "cnode":
            last = max((slot for slot, _ in spaces[form, n]), default=0)
            unless(54, line, last < 1 << 12)
            radix[form, n] = max(9, last.bit_length())
            more, size, slots = f" {radix[form, n]}", 32 << radix[form, n], slots + (1 << radix[form, n])
        elif kind == "tcb":
            more, slots, threads = " inactive" if form == "vcpu" else " ready", slots + 1, threads + 1
        elif form == "time":
            more = share_words(d.domains[n], d.domains[n].core, line)
        elif form == "vcpu_time":
            more = share_words(d.machines[d.processors[n].machine], d.processors[n].core, line)
        free = -(-free // size) * size
        unless(54, line, len(called) < 4096 and slots <= 65536 and threads <= 1024)
        called[form, n] = f"{names[subject]}_{ending}"
        lines.append(f"{kind} {called[form, n]} {names[leads[subject]]} {free:#x}{more}")
        free += size
    for space, held in spaces.items():
        lines += [f"cap {called[space]}.{slot} {called[target]}{words}" for slot, (target, words) in held]
    roots = [(("main", n), ("space", n)) for n in range(len(d.domains))]
    roots += [(("vcpu", n), ("guest_space", one.machine)) for n, one in enumerate(d.processors)]
    lines += [f"cap {called[thread]}.root {called[space]} {64 - radix[space]} 0x0" for thread, space in roots]
    lines += [f"bind {called['main', n]} {called['time', n]}" for n in range(len(d.domains))]
    header = f"confine-table {1 if len(own) <= 64 else 2}"
    return texts.text_of(header, [*(f"label {names[one]}" for one in own), *lines])


# Claims.

def parent_of(d, user):
    kind, n = user
    outer = d.machines[n].domain if kind == "machine" else d.domains[n].parent[0] if d.domains[n].parent else None
    return None if outer is None else ("domain", outer)


def lineage(d, user):
    """A user, and all in which it stands, the outermost last."""
    return [user, *(lineage(d, parent_of(d, user)) if parent_of(d, user) else [])]


def joins(d):
    """A function that tells whether a description joins a user to what has a label."""
    def stands_in(one, outer):
        return outer in lineage(d, one)

    def may_answer(one, called):
        """Whether a user has a reply, and somebody may receive with it what calls the other one: whoever both stand in."""
        return one[0] == "domain" and lineage(d, one)[-1] == lineage(d, called)[-1]

    def may_wait(one, n):
        """Whether a user calls a domain, by its faults too, or what stands in it does; or may answer such a call."""
        calls = any(own.calls and other.domain == n and stands_in(("domain", own.domain), one) for own, other in ends(d))
        return calls or parent_of(d, one) == ("domain", n) or may_answer(one, ("domain", n))

    def meet(one, other, own, far):
        near, there = ("domain", own.domain), ("domain", far.domain)
        return (
            (own.notifies and stands_in(near, one) and stands_in(there, other))
            or (own.calls and stands_in(near, one) and may_answer(other, there))
            or (far.calls and may_answer(one, near) and stands_in(there, other))
            or ((own.notifies or own.calls) and near != one and stands_in(near, one) and may_wait(other, far.domain))
        )

    def runners(n):
        """The domains that may run on the time of a domain: itself, and whoever is called by one of these."""
        found = {n}
        while more := {other.domain for own, other in ends(d) if own.calls and own.domain in found} - found:
            found |= more
        return found

    def joined(one, other):
        kind, n = other
        if kind == "time":
            return any(stands_in(("domain", m), one) for m in running[n])
        if kind == "region":
            return any(stands_in(user, one) and (writable or user != one) for user, region, writable in d.maps if region == n)
        return may_answer(one, other) or may_answer(other, one) or any(meet(one, other, own, far) for own, far in ends(d))

    running = [runners(n) for n in range(len(d.domains))]
    return joined


def claims_text(d):
    joined, leads = joins(d), leaders(d)
    there = {one: name for one, name in zip(leads, labels(d)) if leads[one] == one}
    apart = [(a, b) for a in there for b in there if a[0] in ("domain", "machine") and a != b and not joined(a, b)]
    return texts.text_of("confine-claims 2", [f"none {there[a]} {there[b]}" for a, b in apart])


def imported(text, every, claimed):
    """The text of the table, or that of the claims."""
    d = read_description(text)
    table = table_text(d, every)
    return claims_text(d) if claimed else table
