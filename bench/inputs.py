"""Makes the texts that bench/run measures. The same numbers give the same bytes, always."""

import json
import random

# Two labels on two cores: the thread 2 of core 1 signals a notification with badge 4, and the thread 3
# of core 0 polls it.
TWO_CORES_TABLE = """\
confine-table 1
label a
label b
cnode ca a 0x1000 1
cnode cb b 0x1040 1
tcb ta a 0x2000 ready
tcb tb b 0x2400 ready
notification n b 0x3000
context xa a 0x4000 1 10 10
context xb b 0x4100 0 10 10
cap ca.0 n w 4
cap cb.0 n r 0
cap ta.root ca 63 0x0
cap tb.root cb 63 0x0
bind ta xa
bind tb xb
end
"""

TWO_CORES_POLICY = """\
confine-policy 1
edge a reset b
edge a notify b
edge a space a
edge a derive a
edge a runs a
edge b reset b
edge b await b
edge b space b
edge b derive b
edge b runs b
end
"""

EMPTY_TABLE = "confine-table 1\nend\n"
EMPTY_POLICY = "confine-policy 1\nend\n"

SIGNAL = "1 2 signal 0"
POLL = "0 3 poll 0"

# All kinds of authority in the order of their numbers.
KINDS = (
    "control reset send receive grant call notify await read write reply context "
    "schedcontrol space derive runs holds"
).split()

# A CNode of the tables of many objects has 2^5 slots. With 1,024 CNodes and 1,024 threads a table has
# 33,792 slots, of the 65,536 that it may have.
RADIX = 5
GUARD = 64 - RADIX
NOTIFICATIONS_HELD = 8
GROUP = 4
MOST_GROUPS = 1024
CORES = 16


def text(header, lines):
    return "\n".join([header, *lines, "end", ""])


def script(events):
    """A script of that many events on two cores: signal and poll in turn."""
    return text("confine-script 1", [POLL if i % 2 else SIGNAL for i in range(events)])


def script_log(events):
    """The log of that script: each poll takes the word that the signal before it left."""
    entries = [f"{POLL} = done word 4" if i % 2 else f"{SIGNAL} = done" for i in range(events)]
    return text("confine-log 1", entries)


def core_table(cores):
    """A table of a thread on each of so many cores, each with a CNode, a notification and a context of its own, all of one label."""
    objects, caps, bindings = [], [], []
    for core in range(cores):
        objects += [
            f"cnode c{core} a 0x{0x1000 + 0x40 * core:x} 1",
            f"tcb t{core} a 0x{0x2000 + 0x400 * core:x} ready",
            f"notification n{core} a 0x{0x8000 + 0x40 * core:x}",
            f"context x{core} a 0x{0x9000 + 0x100 * core:x} {core} 10 10",
        ]
        caps.append((4 * core, f"cap c{core}.0 n{core} rw 4"))
        caps.append((4 * core + 1, f"cap t{core}.root c{core} 63 0x0"))
        bindings.append(f"bind t{core} x{core}")
    return text("confine-table 1", ["label a", *objects, *(line for _, line in sorted(caps)), *bindings])


CORE_POLICY = """\
confine-policy 1
edge a reset a
edge a notify a
edge a await a
edge a space a
edge a derive a
edge a runs a
end
"""


def core_script(cores, events):
    """A script of that many events, of each core in turn: each thread signals its notification and polls it, again and again."""
    calls = ("signal 0", "poll 0")
    return text(
        "confine-script 1",
        [f"{i % cores} {4 * (i % cores) + 1} {calls[i // cores % 2]}" for i in range(events)],
    )


def core_log(cores, events):
    """The log of that script, in its order: each poll takes the word that the signal before it left."""
    outcomes = ("done", "done word 4")
    lines = core_script(cores, events).split("\n")[1:-2]
    return text("confine-log 1", [f"{line} = {outcomes[i // cores % 2]}" for i, line in enumerate(lines)])


def groups(objects):
    if objects % GROUP or not 0 < objects <= GROUP * MOST_GROUPS:
        raise ValueError(f"{objects} objects: a multiple of 4 from 4 to 4,096 is wanted")
    return objects // GROUP


def table(objects):
    """A table of that many objects of one label, in groups of four.

    Each group has a CNode, a thread, a notification and a context. The CNode holds capabilities for
    eight notifications (its own group's first), for itself, its thread and its context.
    """
    count = groups(objects)
    lines = ["label a"]
    for i in range(count):
        lines.append(f"cnode c{i} a {0x100000 + i * 0x400:#x} {RADIX}")
        lines.append(f"tcb t{i} a {0x200000 + i * 0x400:#x} ready")
        lines.append(f"notification n{i} a {0x300000 + i * 0x20:#x}")
        lines.append(f"context x{i} a {0x400000 + i * 0x100:#x} {i % CORES} 10 10")
    for i in range(count):
        for k in range(NOTIFICATIONS_HELD):
            lines.append(f"cap c{i}.{k} n{(i + k) % count} rw {k + 1}")
        lines.append(f"cap c{i}.{NOTIFICATIONS_HELD} c{i} {GUARD} 0x0")
        lines.append(f"cap c{i}.{NOTIFICATIONS_HELD + 1} t{i}")
        lines.append(f"cap c{i}.{NOTIFICATIONS_HELD + 2} x{i}")
        lines.append(f"cap t{i}.root c{i} {GUARD} 0x0")
    lines.extend(f"bind t{i} x{i}" for i in range(count))
    return text("confine-table 1", lines)


def table_policy():
    """The policy that accepts tables of one label: it may do everything to itself."""
    return text("confine-policy 1", [f"edge a {kind} a" for kind in KINDS])


def table_events(objects):
    """Two events of a table's last thread: it signals its group's notification, and polls it."""
    last = groups(objects) - 1
    caller = f"{last % CORES} {GROUP * last + 1}"
    return [f"{caller} signal 0", f"{caller} poll 0"]


def script_of(events):
    return text("confine-script 1", events)


def log_of(events):
    """The log of a signal with badge 1 and a poll after it."""
    signal, poll = events
    return text("confine-log 1", [f"{signal} = done", f"{poll} = done word 1"])


def table_script(objects):
    return script_of(table_events(objects))


def table_log(objects):
    return log_of(table_events(objects))


# One CNode of 2^12 slots: slot 0 holds a notification's capability, of which copies are made from slot 2 on, and the first
# of these moves to the last slot and back.
MOVES_TABLE = """\
confine-table 1
label a
cnode c a 0x20000 12
tcb t a 0x4000 ready
notification n a 0x3000
context x a 0x5000 0 10 10
cap c.0 n rw 0
cap c.1 c 52 0x0
cap t.root c 52 0x0
bind t x
end
"""
COPY_SLOT, LAST_SLOT = 2, 2**12 - 1


def copies_and_moves(copies, moves):
    """The events of so many copies of one capability, and then so many moves of the first copy, to and fro."""
    made = [f"0 1 copy 1 {COPY_SLOT + i} 64 1 0 64 r" for i in range(copies)]
    there = f"0 1 move 1 {LAST_SLOT} 64 1 {COPY_SLOT} 64"
    back = f"0 1 move 1 {COPY_SLOT} 64 1 {LAST_SLOT} 64"
    return made + [back if i % 2 else there for i in range(moves)]


def all_done(events):
    """The log in which each event is done."""
    return text("confine-log 1", [f"{event} = {done(event)}" for event in events])


def done(event):
    """The outcome of an event that is done: a retype tells how many objects it made."""
    words = event.split(" ")
    return f"done count {words[-1]}" if words[2] == "retype" else "done"


# Objects made of untyped memory: endpoints, whose capabilities fill fifteen CNodes of 2^12 slots each. The thread's CNode has
# 2^9: the capabilities of the memory that is made first, those of these CNodes, its own and that of all the memory.
NODES, NODE_RADIX = 15, 12
NODE_SLOTS = 2**NODE_RADIX
ROOT_RADIX = 9
FIRST_NODE, ROOT, MEMORY = 495, 510, 511
ROOT_GUARD = 64 - ROOT_RADIX
MEMORY_BITS = 24
# A call makes at most so many objects.
MOST_MADE = 16
THREAD = NODES + 1


def memory_table(others=0):
    """A thread with untyped memory, and with CNodes that are empty; and before that memory so many pieces that nobody has."""
    lines = ["label a", f"cnode c a 0x10000 {ROOT_RADIX}"]
    lines.extend(f"cnode n{i} a {0x1000000 + i * 0x20000:#x} {NODE_RADIX}" for i in range(NODES))
    lines.extend(["tcb t a 0x4000 ready", "context x a 0x5000 0 10 10"])
    lines.extend(f"untyped v{i} a {0x20000000 + i * 0x10:#x} 4" for i in range(others))
    lines.append(f"untyped u a {1 << (MEMORY_BITS + 4):#x} {MEMORY_BITS}")
    lines.extend(f"cap c.{FIRST_NODE + i} n{i} 0 0x0" for i in range(NODES))
    lines.extend([f"cap c.{ROOT} c {ROOT_GUARD} 0x0", f"cap c.{MEMORY} u", f"cap t.root c {ROOT_GUARD} 0x0", "bind t x"])
    return text("confine-table 1", lines)


def made_endpoints(objects, at_once, leaves):
    """The events by which so many endpoints are made, so many at once, of pieces of memory in turn.

    The pieces are named by their slots in the thread's CNode.
    """
    events = []
    for k in range(0, objects, at_once):
        count = min(at_once, objects - k)
        leaf = leaves[k // at_once % len(leaves)]
        node, offset = divmod(k, NODE_SLOTS)
        events.append(f"0 {THREAD} retype {leaf} endpoint 0 {FIRST_NODE + node} {offset} {count}")
    return events


def made_memory():
    """The events that make sixteen pieces of all the memory, and sixteen of each of these; the slots of these last."""
    events = [f"0 {THREAD} retype {MEMORY} untyped {MEMORY_BITS - 4} {ROOT} 0 {MOST_MADE}"]
    for i in range(MOST_MADE):
        first = MOST_MADE * (i + 1)
        events.append(f"0 {THREAD} retype {i} untyped {MEMORY_BITS - 8} {ROOT} {first} {MOST_MADE}")
    return events, range(MOST_MADE, MOST_MADE * (MOST_MADE + 1))


def revoke_of_copies():
    """The event that takes away all copies that `copies_and_moves` makes: a revoke of the slot that they were copied from."""
    return "0 1 revoke 1 0 64"


# What is made and removed again: untyped memory, and three CNodes of 2^12 slots that are empty. The thread's CNode has 2^6: slots for
# what a script makes there, those of the three CNodes, its own and that of the memory. From the root's guard on an address has six
# bits for a slot of the thread's CNode, and then twelve, for a slot of a CNode there. The thread's CNode has its own capability with a
# guard of six bits, which with its six takes up these twelve: so it leads to each slot of its own with no bits left.
REMOVAL_RADIX = 6
REMOVAL_NODES = 3
FIRST_LARGE, ITSELF, ALL_MEMORY = 59, 62, 63
REMOVER = f"0 {REMOVAL_NODES + 1}"
# A piece of all the memory has room for 4,096 endpoints.
PIECE_BITS = 16


def removal_table():
    """A thread with untyped memory, and with CNodes that are empty."""
    guard, root_guard = NODE_RADIX - REMOVAL_RADIX, 64 - REMOVAL_RADIX - NODE_RADIX
    lines = ["label a", f"cnode c a 0x10000 {REMOVAL_RADIX}"]
    lines.extend(f"cnode n{i} a {0x1000000 + i * 0x20000:#x} {NODE_RADIX}" for i in range(REMOVAL_NODES))
    lines.extend(["tcb t a 0x4000 ready", "context x a 0x5000 0 10 10"])
    lines.append(f"untyped u a {1 << (MEMORY_BITS + 4):#x} {MEMORY_BITS}")
    lines.extend(f"cap c.{FIRST_LARGE + i} n{i} 0 0x0" for i in range(REMOVAL_NODES))
    lines.extend([f"cap c.{ITSELF} c {guard} 0x0", f"cap c.{ALL_MEMORY} u", f"cap t.root c {root_guard} 0x0", "bind t x"])
    return text("confine-table 1", lines)


def own(slot):
    """The address of a slot of the thread's CNode."""
    return ITSELF << NODE_RADIX | slot


def slot_of(node, radix, index):
    """The address of a slot of a CNode that is named by its slot in the thread's; it has no guard."""
    return node << NODE_RADIX | index << NODE_RADIX - radix


def retype(memory, kind, bits, node, first, count):
    return f"{REMOVER} retype {memory} {kind} {bits} {own(node)} {first} {count}"


def delete(node, radix, index):
    return f"{REMOVER} delete {own(node)} {index} {radix}"


def delete_own(slot):
    return f"{REMOVER} delete {own(ITSELF)} {slot} {NODE_RADIX}"


def revoke_own(slot):
    return f"{REMOVER} revoke {own(ITSELF)} {slot} {NODE_RADIX}"


def made_and_removed(events):
    """So many events, in rounds of ten: objects of five kinds are made of memory, some go, and then all of them, so that the memory is
    used from its base on again."""
    round_of_ten = [
        retype(own(ALL_MEMORY), "endpoint", 0, FIRST_LARGE, 0, MOST_MADE),
        delete(FIRST_LARGE, NODE_RADIX, 3),
        delete(FIRST_LARGE, NODE_RADIX, MOST_MADE - 1),
        # Four pieces of memory, whose slots are 0 to 3; what is made of three of them.
        retype(own(ALL_MEMORY), "untyped", PIECE_BITS, ITSELF, 0, 4),
        retype(own(0), "notification", 0, FIRST_LARGE, MOST_MADE, MOST_MADE),
        retype(own(1), "cnode", 4, ITSELF, 4, 2),
        retype(own(2), "tcb", 0, 4, 0, 8),
        # Both CNodes vanish, and the threads whose only capabilities one of them holds.
        revoke_own(1),
        # The piece vanishes, and what was made of it stays: its capabilities come under that of all the memory.
        delete_own(0),
        revoke_own(ALL_MEMORY),
    ]
    if events % len(round_of_ten):
        raise ValueError(f"{events} events: a multiple of {len(round_of_ten)} is wanted")
    return round_of_ten * (events // len(round_of_ten))


def made_and_deleted(events):
    """So many events: an endpoint is made of all the memory, and deleted, again and again, so that the memory is used from its base on."""
    pair = (retype(own(ALL_MEMORY), "endpoint", 0, FIRST_LARGE, 0, 1), delete(FIRST_LARGE, NODE_RADIX, 0))
    return [pair[i % 2] for i in range(events)]


def chain_of_memory(memory, bits, places):
    """The events by which untyped memory is made of all of the memory at that address, and of all of this the next, and so on.

    The places are those of their capabilities: the slot of a CNode, its radix and the index of a slot of it.
    """
    events = []
    for node, radix, index in places:
        events.append(retype(memory, "untyped", bits, node, index, 1))
        memory = slot_of(node, radix, index)
    return events


def long_chain(length):
    """The events that make a chain of untyped memory of so many pieces; the one that deletes the memory of which the first was made; and
    those that delete the pieces, from the first on."""
    places = [(FIRST_LARGE + i // NODE_SLOTS, NODE_RADIX, i % NODE_SLOTS) for i in range(length)]
    made = chain_of_memory(own(ALL_MEMORY), MEMORY_BITS, places)
    return made, delete_own(ALL_MEMORY), [delete(*place) for place in places]


def vanishing_chains(count, length):
    """The events that make so many chains of untyped memory, and those that remove each of them at once.

    All slots of a chain lie in one CNode, the deepest first, and this CNode has one capability. Of the deepest as many endpoints are made,
    whose capabilities lie elsewhere and stay.
    """
    radix = (length - 1).bit_length()
    nodes = range(MOST_MADE, MOST_MADE + count)
    events = [
        retype(own(ALL_MEMORY), "untyped", PIECE_BITS, ITSELF, 0, MOST_MADE),
        retype(own(ALL_MEMORY), "cnode", radix, ITSELF, nodes[0], count),
    ]
    for i, node in enumerate(nodes):
        events += chain_of_memory(own(i), PIECE_BITS, [(node, radix, index) for index in reversed(range(length))])
        for k in range(0, length, MOST_MADE):
            first = i * length + k
            events.append(retype(slot_of(node, radix, 0), "endpoint", 0, FIRST_LARGE, first, min(MOST_MADE, length - k)))
    return events, [delete_own(node) for node in nodes]


# Messages: the thread 1 of core 0 is a server, and the thread 2 of core 1 its client. The server receives by slot 0 and replies by slot 1;
# the client calls by slot 2, with badge 5.
MESSAGES_TABLE = """\
confine-table 1
label a
cnode c a 0x2000 2
tcb s a 0x4000 ready
tcb t a 0x4400 ready
endpoint e a 0x3000
reply p a 0x3020
context x a 0x5000 0 10 10
context y a 0x5100 1 10 10
cap c.0 e r 0
cap c.1 p
cap c.2 e wy 5
cap s.root c 62 0x0
cap t.root c 62 0x0
bind s x
bind t y
end
"""


def told(entries):
    """The script and the log of these events, each of which comes with its outcome."""
    return script_of([event for event, _ in entries]), text("confine-log 1", [f"{event} = {out}" for event, out in entries])


def in_rounds(events, length, made):
    """So many events and their outcomes, in rounds of so many; what is made of a round's number, from 0."""
    if events % length:
        raise ValueError(f"{events} events: a multiple of {length} is wanted")
    return [entry for k in range(events // length) for entry in made(k)]


def question(number):
    """The words of a message, which tell its number; there are as many digits of each below 900,000."""
    return f"{100_000 + number} 1 2 3"


def answer(number):
    """The words of a reply, alike."""
    return f"4 5 6 {100_000 + number}"


def calls_awaited(events):
    """So many events and their outcomes: the server waits when the client calls, fetches the message and replies, and the client fetches
    the reply."""
    return in_rounds(
        events,
        5,
        lambda k: (
            ("0 1 recv 0 1 -", "blocked"),
            (f"1 2 call 2 {question(k)} -", "blocked"),
            ("0 1 fetch", f"done msg 5 {question(k)} 0"),
            (f"0 1 reply 1 {answer(k)}", "done"),
            ("1 2 fetch", f"done msg 0 {answer(k)} 0"),
        ),
    )


def calls_waiting(events):
    """So many events and their outcomes: the client has called when the server receives, the server replies, and the client fetches the
    reply."""
    return in_rounds(
        events,
        4,
        lambda k: (
            (f"1 2 call 2 {question(k)} -", "blocked"),
            ("0 1 recv 0 1 -", f"done msg 5 {question(k)} 0"),
            (f"0 1 reply 1 {answer(k)}", "done"),
            ("1 2 fetch", f"done msg 0 {answer(k)} 0"),
        ),
    )


# Lending: the threads are a server, its client, a keeper and another thread that makes no call. The server and the client have the slots
# as before; the keeper binds the spare context, of slot 3, to the server, of slot 4, or to the other thread, of slot 5. Both tables have
# the same objects and capabilities: in the first the server has no context, in the second it keeps one of core 0.
LENDING_TABLE = """\
confine-table 1
label a
cnode c a 0x2000 3
tcb s a 0x4000 ready
tcb t a 0x4400 ready
tcb k a 0x4800 ready
tcb o a 0x4c00 ready
endpoint e a 0x3000
reply p a 0x3020
context w a 0x5000 0 10 10
context x a 0x5100 1 10 10
context y a 0x5200 2 10 10
context z a 0x5300 0 10 10
cap c.0 e r 0
cap c.1 p
cap c.2 e wy 5
cap c.3 z
cap c.4 s
cap c.5 o
cap s.root c 61 0x0
cap t.root c 61 0x0
cap k.root c 61 0x0
cap o.root c 61 0x0
bind t x
bind k y
end
"""
KEEPING_TABLE = LENDING_TABLE.replace("bind t x", "bind s w\nbind t x")


def calls_beside_bind(events, server, bound):
    """So many events and their outcomes: the keeper binds the spare context to the thread of that slot, the server waits, the keeper
    unbinds the context; the client calls, the server, on that core now, fetches the message and replies, and the client fetches the
    reply."""
    return in_rounds(
        events,
        7,
        lambda k: (
            (f"2 3 bind 3 {bound}", "done"),
            ("0 1 recv 0 1 -", "blocked"),
            ("2 3 unbind 3", "done"),
            (f"1 2 call 2 {question(k)} -", "blocked"),
            (f"{server} 1 fetch", f"done msg 5 {question(k)} 0"),
            (f"{server} 1 reply 1 {answer(k)}", "done"),
            ("1 2 fetch", f"done msg 0 {answer(k)} 0"),
        ),
    )


def calls_that_lend(events):
    """So many events of a server that gets a context for each receive, and serves on that of its client."""
    return calls_beside_bind(events, 1, 4)


def calls_that_keep(events):
    """The same events, of a server that serves on its own context; another thread gets the spare one, and loses it."""
    return calls_beside_bind(events, 0, 5)


# Queues: a server as before, and 1,000 threads of core 1. Each has a capability for the endpoint of its own, whose slot and whose badge
# are the same number. All these numbers, and those of the threads, have four digits, so that a line is as long for each thread.
SENDERS = 1000
FIRST_SENDER = SENDERS + 5
FIRST_BADGE = 1000
SENDERS_RADIX = 11
SENDERS_GUARD = 64 - SENDERS_RADIX


def queue_table():
    """A server, and the threads that may send to it."""
    lines = ["label a", f"cnode c a 0x10000 {SENDERS_RADIX}", "tcb s a 0x4000 ready", "endpoint e a 0x3000", "reply p a 0x3020"]
    lines.append("context x a 0x5000 0 10 10")
    lines.extend(f"context x{i} a {0x1000000 + i * 0x100:#x} 1 10 10" for i in range(SENDERS))
    lines.extend(f"tcb t{i} a {0x2000000 + i * 0x400:#x} ready" for i in range(SENDERS))
    lines.extend(["cap c.0 e r 0", "cap c.1 p"])
    lines.extend(f"cap c.{FIRST_BADGE + i} e wy {FIRST_BADGE + i}" for i in range(SENDERS))
    lines.append(f"cap s.root c {SENDERS_GUARD} 0x0")
    lines.extend(f"cap t{i}.root c {SENDERS_GUARD} 0x0" for i in range(SENDERS))
    lines.append("bind s x")
    lines.extend(f"bind t{i} x{i}" for i in range(SENDERS))
    return text("confine-table 1", lines)


def blocks(call, senders, number):
    """The sender whose turn it is with the message of that number, from 0, sends it by that call, and is blocked; with the outcome."""
    i = number % senders
    return f"1 {FIRST_SENDER + i} {call} {FIRST_BADGE + i} {question(number)} -", "blocked"


def begun_queue(call, senders):
    """The events by which so many threads are blocked, each by that call, and their outcomes."""
    return [blocks(call, senders, i) for i in range(senders)]


def sends_in_turn(senders, events):
    """So many events after these threads are blocked in Send, and their outcomes: the server receives from the first, which sends again
    and is the last."""
    return in_rounds(
        events,
        2,
        lambda k: (
            ("0 1 recv 0 - -", f"done msg {FIRST_BADGE + k % senders} {question(k)} 0"),
            blocks("send", senders, senders + k),
        ),
    )


def calls_in_turn(senders, events):
    """The same where they are blocked in Call: the server replies too, and the first fetches the reply before it calls again."""
    return in_rounds(
        events,
        4,
        lambda k: (
            ("0 1 recv 0 1 -", f"done msg {FIRST_BADGE + k % senders} {question(k)} 0"),
            (f"0 1 reply 1 {answer(k)}", "done"),
            (f"1 {FIRST_SENDER + k % senders} fetch", f"done msg 0 {answer(k)} 0"),
            blocks("call", senders, senders + k),
        ),
    )


# The full tables: all nine kinds of object, nearly all slots filled, and a derivation tree. With 448 groups there are
# 4,096 objects, 58,000 filled slots of 58,240, and 20,000 pairs. A CNode of them has 2^7 slots.
FULL_RADIX = 7
FULL_GUARD = 64 - FULL_RADIX
FULL_SLOTS = 2**FULL_RADIX
FULL_OBJECTS = 9
# Slots of a group's CNode: those before ENDPOINT_SLOT hold its other objects and a spare, those behind it more for endpoints.
NOTIFICATION_SLOT, ENDPOINT_SLOT = 7, 9


def full_label(i, labels):
    """The label of a group's objects."""
    return labels[i % len(labels)]


def full_spares(groups, labels):
    """What only some groups have, by its name: untyped memory and the controls of cores."""
    untypeds = [
        (f"u{i}", f"untyped u{i} {full_label(i, labels)} {0x8000000 + i * 0x1000:#x} 12")
        for i in range(groups * 3 // 28)
    ]
    controls = [(f"k{i}", f"control k{i} {full_label(i, labels)} {i}") for i in range(groups // 28)]
    return untypeds + controls


def full_objects(i, labels):
    """The nine objects of a group."""
    label = full_label(i, labels)
    yield f"cnode c{i} {label} {0x1000000 + i * 0x1000:#x} {FULL_RADIX}"
    for t in (2 * i, 2 * i + 1):
        yield f"tcb t{t} {label} {0x2000000 + t * 0x400:#x} ready"
    yield f"endpoint e{i} {label} {0x3000000 + i * 0x10:#x}"
    yield f"notification n{i} {label} {0x4000000 + i * 0x20:#x}"
    yield f"reply p{i} {label} {0x5000000 + i * 0x20:#x}"
    for x in (2 * i, 2 * i + 1):
        yield f"context x{x} {label} {0x6000000 + x * 0x100:#x} {x % CORES} 10 10"
    yield f"frame f{i} {label} {0x7000000 + i * 0x1000:#x}"


def full_caps(i, groups, spare):
    """The capabilities of a group: in its CNode 127 or 128, and two roots.

    Every second one behind the endpoint's is for the endpoint of the next group, so that pairs lead from CNode to CNode.
    """
    t, u = 2 * i, 2 * i + 1
    own = [f"c{i} {FULL_GUARD} 0x0", f"t{t}", f"t{u}", f"p{i}", f"x{t}", f"x{u}", f"f{i} rw", f"n{i} rw 1", spare]
    yield from (f"cap c{i}.{slot} {what}" for slot, what in enumerate(own))
    yield f"cap c{i}.{ENDPOINT_SLOT} e{i} rwgy 0"
    for slot in range(ENDPOINT_SLOT + 1, FULL_SLOTS if i % 28 < 13 else FULL_SLOTS - 1):
        yield f"cap c{i}.{slot} e{(i + slot % 2) % groups} rw {slot // 4}"
    yield from (f"cap t{thread}.root c{i} {FULL_GUARD} 0x0" for thread in (t, u))


def full_pairs(i, groups):
    """The pairs of a group: 42 or 43 capabilities for its endpoint and the next one's, and its two roots."""
    for k in range(43 if i % 28 < 18 else 42):
        slot = ENDPOINT_SLOT + 1 + k
        yield f"child c{(i + slot % 2) % groups}.{ENDPOINT_SLOT} c{i}.{slot}"
    yield from (f"child c{i}.0 t{thread}.root" for thread in (2 * i, 2 * i + 1))


def full_table(groups, labels=("a",)):
    """A table of all kinds of line, in groups of nine objects; the groups have the labels in turn."""
    spares = full_spares(groups, labels)
    lines = [f"label {label}" for label in labels]
    for i in range(groups):
        lines.extend(full_objects(i, labels))
    lines.extend(line for _, line in spares)
    for i in range(groups):
        lines.extend(full_caps(i, groups, spares[i][0] if i < len(spares) else f"t{2 * i}"))
    for i in range(groups):
        lines.extend(full_pairs(i, groups))
    lines.extend(f"bind t{t} x{t}" for t in range(2 * groups))
    return text("confine-table 1", lines)


def full_events(groups):
    """Two events of a full table's last thread: it signals its group's notification, and polls it."""
    last = groups - 1
    caller = f"{(2 * last + 1) % CORES} {FULL_OBJECTS * last + 2}"
    return [f"{caller} signal {NOTIFICATION_SLOT}", f"{caller} poll {NOTIFICATION_SLOT}"]


def full_script(groups):
    return script_of(full_events(groups))


def full_log(groups):
    return log_of(full_events(groups))


# Checks: a full table of 64 labels, and policies for it; and 256 labels, which tables of version 2 may have.
CHECK_GROUPS = 448
CHECK_LABELS = tuple(f"l{i}" for i in range(64))
MANY_LABELS = tuple(f"l{i}" for i in range(256))
STRUCTURAL = ("space", "derive", "runs", "holds")


def check_table():
    return full_table(CHECK_GROUPS, CHECK_LABELS)


def policy_of(edges):
    """The text of a policy that has these edges, which rise by label, kind and label."""
    return text("confine-policy 1", [f"edge {a} {kind} {b}" for a, kind, b in edges])


def every_edge(labels=CHECK_LABELS):
    return [(a, kind, b) for a in labels for kind in KINDS for b in labels]


def random_edges(seed, one_in):
    """Of all edges one in so many, chosen by a generator of this seed."""
    chosen = random.Random(seed)
    return [edge for edge in every_edge() if chosen.randrange(one_in) == 0]


def table_of_labels(labels=CHECK_LABELS):
    """The table of these labels without an object."""
    version = 1 if len(labels) <= len(CHECK_LABELS) else 2
    return text(f"confine-table {version}", [f"label {label}" for label in labels])


def chain(labels=CHECK_LABELS):
    """The edges by which each label derives for the next."""
    return [(a, "derive", b) for a, b in zip(labels, labels[1:])]


def chained(labels=CHECK_LABELS):
    """The least closed policy that has them: each label derives for all after it."""
    return [(a, "derive", b) for i, a in enumerate(labels) for b in labels[i + 1 :]]


def all_but_of_last(labels):
    """All edges but those from the last label, which so has no authority on another."""
    return [edge for edge in every_edge(labels) if edge[0] != labels[-1]]


def taken_by_last(labels):
    """The edges by which the last label may take from the third last, in every order of the steps that lead to it by way of the second
    last, and has no full authority on it."""
    *_, taken, between, last = labels
    return [
        *((taken, kind, taken) for kind in KINDS),
        *((between, kind, to) for kind in KINDS for to in (taken, between)),
        (last, "control", between),
    ]


def denial(rule, place):
    return report({"place": place, "rule": rule, "verdict": "deny"})


def report(value):
    return json.dumps(value, separators=(",", ":"), sort_keys=True) + "\n"


def every_edge_report(table, labels=CHECK_LABELS):
    """Each label has full and cut authority on each, and the table fills so many slots."""
    caps = sum(line.startswith("cap ") for line in table.split("\n"))
    each = {label: list(labels) for label in labels}
    return report({"caps": caps, "cut": each, "full": each, "verdict": "accept"})


def no_edge_report():
    """A policy without edges is closed, and the first capability of the table goes beyond it."""
    return denial("A1", ["c0.0", "control", CHECK_LABELS[0]])


def first_disagreement(edges):
    """The report of the first place where labels of one domain have different edges, which all random policies break."""
    had = set(edges)
    for a in CHECK_LABELS:
        for b in CHECK_LABELS:
            if not {(a, "space", b), (a, "control", b)} & had:
                continue
            for kind in KINDS:
                for c in CHECK_LABELS:
                    if kind not in STRUCTURAL and ((a, kind, c) in had) != ((b, kind, c) in had):
                        return denial("P1", [a, b, kind, c])
    raise ValueError("labels of one domain agree")
