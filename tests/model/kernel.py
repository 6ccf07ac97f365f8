"""The kernel: boot, admission, lookup and the step table, row by row, as docs/calls has them: README.md, CAPABILITIES.md, MESSAGES.md,
THREADS.md and REMOVAL.md. A state has objects by number, capabilities by slot, parents by slot, and the next number."""
from types import SimpleNamespace

from texts import ALL_RIGHTS, HOUR, SIZES, Cap, cap_of, slots_of

WAITING = ("waits", "receives", "sends")  # those run states of which a thread is in a queue


class Refused(Exception):
    def __init__(self, code, detail=0):
        self.code, self.detail = code, detail


def unless(code, condition, detail=0):
    if not condition:
        raise Refused(code, detail)


def boot(table):
    objects = {}
    for number, item in enumerate(table.objects):
        made = fresh(item.kind, item.address, item.bits if item.kind == "untyped" else getattr(item, "radix", 0))
        objects[number] = made
        if item.kind == "tcb" and item.ready:
            made.state = "ready"
        elif item.kind == "context" and item.share:
            made.share = item.share
        elif item.kind == "control":
            made.core = item.core
    for thread, context in table.bindings.items():
        objects[thread].context, objects[context].thread = context, thread
    caps = {slot: Cap(**vars(cap)) for slot, cap in table.caps.items()}
    return SimpleNamespace(objects=objects, caps=caps, parents=dict(table.parents), next=len(objects))


def fresh(kind, address, bits):
    """An object as a retype makes it."""
    item = SimpleNamespace(kind=kind, address=address)
    if kind == "untyped":
        item.bits, item.watermark = bits, address
    elif kind == "cnode":
        item.radix = bits
    elif kind == "tcb":
        item.state, item.inbox, item.context, item.lent = "inactive", None, None, None
    elif kind == "endpoint":
        item.queue = []
    elif kind == "notification":
        item.queue, item.word = [], None
    elif kind == "reply":
        item.use, item.thread = "free", None
    elif kind == "context":
        item.share, item.thread = None, None
    elif kind == "frame":
        item.words = {}
    return item


def step(s, event):
    """Does a call, and answers its outcome as it is spelled. A refused one changes nothing."""
    try:
        t = s.objects.get(event.thread)
        unless(34, t is not None and t.kind == "tcb")
        unless(32, t.state == "ready" and t.context is not None and s.objects[t.context].share is not None)
        unless(33, s.objects[t.context].share[0] == event.core)
        return ROWS[event.call](s, event.thread, *event.operands)
    except Refused as refused:
        return f"refused {refused.code} {refused.detail}"


# Lookup, find, slot and source.

def kind_at(s, slot):
    return s.objects[s.caps[slot].object].kind if slot in s.caps else None


def walk(s, cap, bits):
    """From a CNode's capability along bits, a string of 0 and 1: the slot, and the bits that are left."""
    while True:
        size, value = cap.guard
        radix = s.objects[cap.object].radix
        unless(6, bits.startswith(binary(value, size)), 4)
        unless(6, size + radix <= len(bits), 3)
        slot = cap.object, int(bits[size : size + radix], 2)
        bits = bits[size + radix :]
        if not bits or kind_at(s, slot) != "cnode":
            return slot, bits
        cap = s.caps[slot]


def binary(value, size):
    return f"{value % (1 << size):0{size}b}" if size else ""


def lookup(s, t, address):
    root = s.caps.get((t, 0))
    unless(6, root is not None, 1)
    return walk(s, root, binary(address, 64))[0]


def find(s, t, address, kind):
    """The slot with the capability of an object of that kind."""
    slot = lookup(s, t, address)
    unless(2, kind_at(s, slot) == kind)
    return slot


def find_object(s, t, address, kind, right=""):
    """The capability of an object of that kind, its object's number, and the object."""
    cap = s.caps[find(s, t, address, kind)]
    unless(2, right in cap.rights)
    return cap, cap.object, s.objects[cap.object]


def slot_from(s, cap, index, depth):
    unless(4, 1 <= depth <= 64)
    slot, left = walk(s, cap, binary(index, depth))
    unless(6, not left, 3)
    return slot


def named_slot(s, t, d, i, n):
    return slot_from(s, s.caps[find(s, t, d, "cnode")], i, n)


def target(s, t, d, i, n):
    slot = named_slot(s, t, d, i, n)
    unless(8, slot not in s.caps)
    return slot


def source(s, t, d, i, n):
    at = lookup(s, t, d)
    unless(6, kind_at(s, at) == "cnode", 1)
    slot = slot_from(s, s.caps[at], i, n)
    unless(6, slot in s.caps, 2)
    return slot


# Waiting.

def block(s, t, at, state, **more):
    item = s.objects[t]
    item.state, item.at = state, at
    vars(item).update(more)
    s.objects[at].queue.append(t)


def use(s, reply, how, t):
    s.objects[reply].use, s.objects[reply].thread = how, t


def leave(s, t):
    """A thread leaves its queue, and its reply, where there are any, is free; with the reply ends the record of what it lent."""
    item = s.objects[t]
    if item.state in WAITING and item.at in s.objects:
        s.objects[item.at].queue.remove(t)
    if item.state in ("receives", "called") and item.reply in s.objects:
        use(s, item.reply, "free", None)
    item.state, item.lent = "inactive", None


def wake(s, t, inbox):
    leave(s, t)
    s.objects[t].state, s.objects[t].inbox = "ready", inbox


def first(s, number, *states):
    """Who stands first in a queue, where all wait in one of these ways."""
    queue = s.objects[number].queue
    return queue[0] if queue and s.objects[queue[0]].state in states else None


# Notifications.

def signal(s, t, a):
    cap, number, item = find_object(s, t, a, "notification", "w")
    if item.queue:
        wake(s, item.queue[0], ("word", cap.badge))
    else:
        item.word = (item.word or 0) | cap.badge
    return "done"


def poll(s, t, a):
    _, _, item = find_object(s, t, a, "notification", "r")
    word, item.word = item.word, None
    return f"done word {word or 0}"


def wait(s, t, a):
    _, number, item = find_object(s, t, a, "notification", "r")
    if item.word is not None:
        return poll(s, t, a)
    block(s, t, number, "waits")
    return "blocked"


# Messages.

def message_of(cap, words, carried, calls):
    return SimpleNamespace(
        badge=cap.badge, words=words, grant="g" in cap.rights, answered="g" in cap.rights or "y" in cap.rights, carried=carried, calls=calls
    )


def arrives(s, sender, message, receiver, place):
    """Whether a capability comes along, as 0 or 1; where it does, the slot gets its copy."""
    if not message.grant or message.carried is None or place is None:
        return 0
    try:
        at = lookup(s, sender, message.carried)
        if kind_at(s, at) in (None, "untyped"):
            return 0
        to = target(s, receiver, *place)
    except Refused:
        return 0
    put_copy(s, to, at)
    return 1


def deliver(s, sender, message, receiver, place):
    came = arrives(s, sender, message, receiver, place)
    return "msg", message.badge, *message.words, came


def deliver_to_waiting(s, sender, message, receiver):
    """To who waits; answers the reply that it named."""
    item = s.objects[receiver]
    reply = item.reply
    wake(s, receiver, deliver(s, sender, message, receiver, item.place))
    return reply


def taken_call(s, caller, message, reply):
    """What becomes of who called, once the message is taken."""
    leave(s, caller)
    if message.answered and reply is not None:
        use(s, reply, "called", caller)
        s.objects[caller].state, s.objects[caller].reply = "called", reply


def send(s, t, a, w1, w2, w3, w4, carried, calls=False):
    cap, number, _ = find_object(s, t, a, "endpoint", "w")
    message = message_of(cap, (w1, w2, w3, w4), carried, calls)
    receiver = first(s, number, "receives")
    if receiver is None:
        block(s, t, number, "sends", message=message)
        return "blocked"
    reply = deliver_to_waiting(s, t, message, receiver)
    if not calls:
        return "done"
    taken_call(s, t, message, reply)
    if s.objects[t].state == "called" and s.objects[receiver].context is None:
        s.objects[t].lent = s.objects[t].context, receiver
        hand_over(s, t, receiver)
    return "blocked"


def hand_over(s, one, other):
    """A thread's context goes over to another one, which has none."""
    number = s.objects[one].context
    s.objects[one].context, s.objects[other].context, s.objects[number].thread = None, number, other


def call(s, t, *operands):
    return send(s, t, *operands, calls=True)


def recv(s, t, a, reply_address, *place):
    _, number, _ = find_object(s, t, a, "endpoint", "r")
    place = None if place == (None,) or place == ("-",) else place
    reply = None
    if reply_address is not None:
        reply = find_object(s, t, reply_address, "reply")[1]
        if s.objects[reply].use != "free":
            leave(s, s.objects[reply].thread)
    sender = first(s, number, "sends")
    if sender is None:
        block(s, t, number, "receives", reply=reply, place=place)
        if reply is not None:
            use(s, reply, "named", t)
        return "blocked"
    message = s.objects[sender].message
    taken = deliver(s, sender, message, t, place)
    if message.calls:
        taken_call(s, sender, message, reply)
    else:
        wake(s, sender, s.objects[sender].inbox)
    return spelled(taken)


def reply(s, t, a, *words):
    _, number, item = find_object(s, t, a, "reply")
    if item.use == "called":
        caller = s.objects[item.thread]
        if caller.lent == (s.objects[t].context, t) and caller.context is None:
            hand_over(s, t, item.thread)
        wake(s, item.thread, ("msg", 0, *words, 0))
    return "done"


def fetch(s, t):
    inbox = s.objects[t].inbox
    unless(3, inbox is not None)
    s.objects[t].inbox = None
    return spelled(inbox)


def spelled(inbox):
    return "done " + " ".join(str(part) for part in inbox)


# Capabilities.

def put_copy(s, to, at, mask="rwgy", **other):
    """Puts a copy of what is in a slot into another."""
    old = s.caps[at]
    new = Cap(**(vars(old) | {"rights": "".join(right for right in old.rights if right in mask)} | other))
    new.original = new.badge != old.badge
    s.caps[to] = new
    if old.original:
        s.parents[to] = at
    elif at in s.parents:
        s.parents[to] = s.parents[at]


def copy(s, t, d, i, n, e, j, m, mask):
    to = target(s, t, d, i, n)
    at = source(s, t, e, j, m)
    unless(3, kind_at(s, at) != "untyped")
    put_copy(s, to, at, mask)
    return "done"


def mint(s, t, d, i, n, e, j, m, mask, what, *value):
    to = target(s, t, d, i, n)
    at = source(s, t, e, j, m)
    kind, cap = kind_at(s, at), s.caps[at]
    if what == "badge":
        unless(3, kind in ("endpoint", "notification") and cap.badge == 0)
        put_copy(s, to, at, mask, badge=value[0])
    else:
        unless(3, kind == "cnode" and value[0] + s.objects[cap.object].radix <= 64)
        put_copy(s, to, at, mask, guard=(value[0], value[1] % (1 << value[0])))
    return "done"


def move(s, t, d, i, n, e, j, m):
    to = target(s, t, d, i, n)
    at = source(s, t, e, j, m)
    s.caps[to] = s.caps.pop(at)
    if at in s.parents:
        s.parents[to] = s.parents.pop(at)
    for child, parent in s.parents.items():
        if parent == at:
            s.parents[child] = to
    return "done"


def delete(s, t, d, i, n):
    remove(s, {named_slot(s, t, d, i, n)} & set(s.caps))
    return "done"


def revoke(s, t, d, i, n):
    slot = named_slot(s, t, d, i, n)
    below, more = set(), {slot}
    while more:
        more = {child for child, parent in s.parents.items() if parent in more} - below
        below |= more
    remove(s, below)
    return "done"


def remove(s, chosen):
    """Removes the chosen slots, and all that can't stay without them."""
    if not chosen:
        return
    of, own = {}, {}  # the slots with capabilities for an object, and its own filled slots
    for slot, cap in s.caps.items():
        of.setdefault(cap.object, set()).add(slot)
        own.setdefault(slot[0], set()).add(slot)
    gone, more, vanished = set(), set(chosen), set()
    while more:
        gone |= more
        lost = {number for number in {s.caps[slot].object for slot in more} if of[number] <= gone}
        vanished |= lost
        more = {slot for number in lost if s.objects[number].kind in ("cnode", "tcb") for slot in own.get(number, ())} - gone
    nearest = {}
    for slot in set(s.caps) - gone:
        above = s.parents.get(slot)
        while above in gone:
            above = s.parents.get(above)
        nearest[slot] = above
    s.parents = {slot: above for slot, above in nearest.items() if above is not None}
    s.caps = {slot: cap for slot, cap in s.caps.items() if slot not in gone}
    items = [s.objects[number] for number in vanished]
    halted = [item.thread for item in items if item.kind == "reply" and item.use != "free"]
    aborted = [t for item in items if item.kind in ("endpoint", "notification") for t in item.queue]
    for t in halted:
        leave(s, t)
    for t in set(aborted) - set(halted):
        wake(s, t, ("aborted",))
    for number in vanished:
        item = s.objects[number]
        if item.kind == "tcb":
            leave(s, number)
            if item.context is not None:
                s.objects[item.context].thread = None
        elif item.kind == "context" and item.thread is not None:
            s.objects[item.thread].context = None
    for number in vanished:
        del s.objects[number]


def retype(s, t, u, kind, bits, d, offset, count):
    at = find(s, t, u, "untyped")
    memory = s.objects[s.caps[at].object]
    least, most = {"untyped": (4, 47), "cnode": (1, 12)}.get(kind, (0, bits))
    unless(1, bits >= least)
    unless(4, bits <= most)
    unless(4, 1 <= count <= 16)
    to = lookup(s, t, d)
    unless(6, kind_at(s, to) == "cnode", 2)
    node = s.caps[to].object
    unless(4, offset + count <= 1 << s.objects[node].radix)
    window = [(node, offset + i) for i in range(count)]
    unless(8, not any(slot in s.caps for slot in window))
    size = {"untyped": 1 << bits if kind == "untyped" else 0, "cnode": 1 << bits + 5 if kind == "cnode" else 0}.get(kind) or SIZES[kind]
    end = memory.watermark if at in s.parents.values() else memory.address
    places = []
    for _ in range(count):
        places.append(-(-end // size) * size)
        end = places[-1] + size
    unless(10, end <= memory.address + (1 << memory.bits))
    made = [fresh(kind, place, bits) for place in places]
    there = [*s.objects.values(), *made]
    unless(44, len(there) <= 65536)
    unless(44, sum(slots_of(item) for item in there) <= 65536)
    unless(44, sum(item.kind == "tcb" for item in there) <= 1024)
    unless(44, s.next + count <= 1 << 48)
    memory.watermark = end
    for slot, item in zip(window, made):
        s.objects[s.next] = item
        s.caps[slot] = cap_of(s.next, ALL_RIGHTS.get(kind, ""))
        s.parents[slot] = at
        s.next += 1
    return f"done count {count}"


# Frames, threads and contexts.

def read(s, t, a, i):
    _, _, item = find_object(s, t, a, "frame", "r")
    unless(4, i <= 511)
    return f"done word {item.words.get(i, 0)}"


def write(s, t, a, i, word):
    _, _, item = find_object(s, t, a, "frame", "w")
    unless(4, i <= 511)
    item.words[i] = word
    return "done"


def setspace(s, t, a, c):
    at = find(s, t, a, "tcb")
    new = find(s, t, c, "cnode")
    root = s.caps[at].object, 0
    remove(s, {root} & set(s.caps))
    if at in s.caps and new in s.caps:
        put_copy(s, root, new)
    return "done"


def clearspace(s, t, a):
    remove(s, {(find_object(s, t, a, "tcb")[1], 0)} & set(s.caps))
    return "done"


def suspend(s, t, a):
    _, number, item = find_object(s, t, a, "tcb")
    leave(s, number)
    item.inbox = None
    return "done"


def resume(s, t, a):
    _, number, item = find_object(s, t, a, "tcb")
    if item.state == "inactive":
        item.state = "ready"
    elif item.state != "ready":
        wake(s, number, ("aborted",))
    return "done"


def configure(s, t, k, c, budget, period):
    _, _, control = find_object(s, t, k, "control")
    _, _, context = find_object(s, t, c, "context")
    unless(4, 1 <= budget <= period <= HOUR)
    context.share = control.core, budget, period
    return "done"


def bind(s, t, c, a):
    _, number, context = find_object(s, t, c, "context")
    _, thread, item = find_object(s, t, a, "tcb")
    unless(3, context.thread is None)
    unless(3, item.context is None)
    context.thread, item.context = thread, number
    return "done"


def unbind(s, t, c):
    _, _, context = find_object(s, t, c, "context")
    if context.thread is not None:
        s.objects[context.thread].context = None
        context.thread = None
    return "done"


ROWS = {
    row.__name__: row
    for row in [
        signal, poll, wait, send, call, recv, reply, fetch, copy, mint, move, delete, revoke, retype, read, write, setspace, clearspace,
        suspend, resume, configure, bind, unbind,
    ]
}
