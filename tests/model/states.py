"""What is told of a state, in the spelling of tests/worked/README.md: the next number, each object and each slot, a line for each; and how
an object differs in two states."""
from types import SimpleNamespace

import kernel
import texts


def lines_after(table, script, count=None):
    """The lines on the state after so many events of a script, or after all, run from the boot state of a table."""
    table = texts.read_table(table)
    state = kernel.boot(table)
    for event in texts.read_script(script)[:count]:
        kernel.step(state, event)
    return [*lines_of(state, table)]


def lines_of(state, table):
    def named(number):
        return table.objects[number].name if number < len(table.objects) else f"#{number}"

    def slot_name(slot):
        return f"{named(slot[0])}.{'root' if state.objects[slot[0]].kind == 'tcb' else slot[1]}"

    yield f"next number: {state.next}"
    for number in range(state.next):
        item = state.objects.get(number)
        yield f"object {named(number)}: {'none' if item is None else told_object(item, named)}"
        for index in range(texts.slots_of(item) if item else 0):
            slot = number, index
            yield f"slot {slot_name(slot)}: {told_slot(state, slot, named, slot_name)}"


def told_slot(state, slot, named, slot_name):
    cap = state.caps.get(slot)
    if cap is None:
        return "empty"
    kind, words = state.objects[cap.object].kind, ""
    if kind == "cnode":
        words = f" guard {cap.guard[0]} {cap.guard[1]:#x}"
    elif kind == "frame":
        words = f" {cap.rights or '-'}"
    elif kind in ("endpoint", "notification"):
        words = f" {cap.rights or '-'} badge {cap.badge}"
    parent = state.parents.get(slot)
    place = "no parent" if parent is None else f"child of {slot_name(parent)}"
    return f"{named(cap.object)}{words}, {'original' if cap.original else 'derived'}, {place}"


def told_run_state(thread, named):
    if thread.state == "waits":
        return f"waits at {named(thread.at)}"
    if thread.state == "called":
        return f"called through {named(thread.reply)}" + (", lent {} to {}".format(*map(named, thread.lent)) if thread.lent else "")
    if thread.state == "sends":
        message = thread.message
        marks = ", grant" * message.grant + ", call" * message.calls + ", can reply" * message.answered
        marks += f", capability {message.carried}" * (message.carried is not None)
        return f"sends {' '.join(map(str, message.words))} to {named(thread.at)}, badge {message.badge}{marks}"
    if thread.state == "receives":
        marks = f", reply {named(thread.reply)}" if thread.reply is not None else ""
        return f"receives from {named(thread.at)}{marks}" + (", slot " + " ".join(map(str, thread.place)) if thread.place else "")
    return thread.state


def told_object(item, named):
    queue = "queue " + (" ".join(map(named, getattr(item, "queue", []))) or "empty")
    if item.kind == "tcb":
        inbox = " ".join(map(str, item.inbox or ["empty"])).replace("msg", "message")
        context = "nothing" if item.context is None else named(item.context)
        return f"tcb {item.address:#x}, {told_run_state(item, named)}, inbox {inbox}, runs on {context}"
    if item.kind == "context":
        share = "core {}, budget {}, period {}".format(*item.share) if item.share else "not configured"
        return f"context {item.address:#x}, {share}, runs {'nobody' if item.thread is None else named(item.thread)}"
    if item.kind == "control":
        return f"control, core {item.core}"
    rest = {
        "untyped": lambda: f", {item.bits} bits, watermark {item.watermark:#x}",
        "cnode": lambda: f", radix {item.radix}",
        "endpoint": lambda: f", {queue}",
        "notification": lambda: f", {'no word' if item.word is None else f'word {item.word}'}, {queue}",
        "reply": lambda: f", {item.use}" + ("" if item.use == "free" else f" by {named(item.thread)}"),
        "frame": lambda: "",
    }[item.kind]()
    return f"{item.kind} {item.address:#x}{rest}"


# How an object of a state differs from the same object before a call. What is told of an object has its queue, but not its words and slots.

def parts_of(state, number):
    """An object's content, queue, words and capabilities; None where there is no such object."""
    item = state.objects.get(number)
    if item is None:
        return None
    alone = SimpleNamespace(**vars(item) | {"queue": []})
    caps = {slot: vars(cap) for slot, cap in state.caps.items() if slot[0] == number}
    words = {at: word for at, word in getattr(item, "words", {}).items() if word}
    return told_object(alone, str), getattr(item, "queue", []), words, caps


def differs(before, after, number):
    return parts_of(before, number) != parts_of(after, number)


def shrinks(before, after, number):
    """Whether an object vanished, or has lost capabilities, waiting threads and links, if anything."""
    was, now = parts_of(before, number), parts_of(after, number)
    if was is None or now is None:
        return now is None
    rest = iter(was[1])
    kept = all(thread in rest for thread in now[1]) and now[2] == was[2] and now[3].items() <= was[3].items()
    return kept and (now[0] == was[0] or lessens(before.objects[number], after.objects[number]))


def lessens(was, now):
    """Whether a thread lost its wait or its context, a reply its thread, or a context its thread."""
    if was.kind == "tcb":
        goes_on = (told_run_state(now, str), now.inbox) == (told_run_state(was, str), was.inbox)
        blocked = was.state in (*kernel.WAITING, "called")
        stopped = (now.state, now.inbox) in [("ready", ("aborted",)), ("inactive", was.inbox)]
        return now.context in (was.context, None) and (goes_on or blocked and stopped)
    if was.kind == "context":
        return now.share == was.share and now.thread is None
    return was.kind == "reply" and now.use == "free"
