"""Pairs of runs of fixed systems, for tests/differential: what others do makes no difference to those to whom nothing of it flows.

Of each system the program is asked whether claims `apart A B` and `through A B F ..` hold that hold by the second reading. *Ours* are the
labels from which chains of flows lead to B past no F, and the threads of these labels. The F are *filters*. The scripts of a pair of runs
have the same calls of our threads at the same positions. At the other positions other threads make other calls in the second run, or calls
that are refused. Each call of ours must end alike in both logs of the program. These must be the logs of the second reading, and in its two
last states all on which ours depend must be the same.

With filters a pair is judged up to the first position after which something of a filter on which ours depend differs, or, if a filter's
thread made a call there, anything on which ours depend. Filters' threads make no calls for half of the claims, and the same calls in both
runs for the others. Laws of the crate noninterference say the same of all fixed systems. Nothing of this is proved.
"""
import commands
import kernel
import states
import texts
from fixed_systems import capabilities_of, make_event, make_fixed
from flows import Flows
from policies import SEND

QUESTIONS, PAIRS = 3, 5  # of a system, and of a question
EVENTS = 40  # of a run
# What others do instead, in a second run.
WAYS = ["nothing", "the same", "another"]
NOBODY = texts.read_event("0 9999 fetch".split(" "))


class System:
    """A fixed system with what flows in it. `threads` has the threads of each label that acts and has some."""

    def __init__(self, text):
        self.text, self.table = text, texts.read_table(text.encode())
        reach = commands.reach(self.table)
        self.edges, self.flows, self.found = reach.edges, Flows(self.table, reach.edges, reach.acts), capabilities_of(self.table)
        self.policy = texts.text_of("confine-policy 1", [texts.edge_line(edge, self.table) for edge in sorted(reach.edges)])
        self.threads = {label: [t for t in self.found if self.table.objects[t].label == label] for label in sorted(reach.acts)}
        self.threads = {label: threads for label, threads in self.threads.items() if threads}

    def ours(self, b, filters):
        """The labels from which chains of flows lead to b past no filter."""
        labels = range(len(self.table.labels))
        return {a for a in labels if a not in filters and self.flows.chain(a, b, filters) is not None}


class Question:
    """A claim on a system, and what its pairs of runs are judged by."""

    def __init__(self, system, a, b, filters, ours):
        self.system, self.filters, self.ours = system, filters, ours
        names = [system.table.labels[label] for label in [a, b, *sorted(filters)]]
        self.claim = " ".join(["through" if filters else "apart", *names])
        needed = set().union(*(system.flows.needed[label] for label in ours))
        self.seen = self.of_labels(needed)
        self.shown = self.of_labels(needed & filters)
        self.ends = self.of_labels({to for label, kind, to in system.edges if label in ours and kind == SEND})

    def of_labels(self, labels):
        """The objects of these labels."""
        return [number for number, item in enumerate(self.system.table.objects) if item.label in labels]

    def threads(self, labels):
        return [t for label, threads in self.system.threads.items() if label in labels for t in threads]

    def label(self, number):
        return self.system.table.objects[number].label if number < len(self.system.table.objects) else None

    def shows_alike(self, one, other):
        """Whether what filters show to ours is alike in two states."""
        for t, item in one.objects.items() if self.filters else ():
            if item.kind == "tcb" and item.state in ("sends", "receives") and item.at in self.ends:
                its = other.objects[t]
                meets = its.state in ("sends", "receives") and its.at == item.at
                if meets and its.state != item.state and {self.label(t), self.label(item.at)} & self.filters:
                    return False
        return are_alike(one, other, self.shown)

    def goes_on(self, one, other, events):
        """Whether a pair is judged past a position: the states after it, and its events."""
        is_filtered = any(self.label(event.thread) in self.filters for event in events)
        return self.shows_alike(one, other) and (not is_filtered or are_alike(one, other, self.seen))


def are_alike(one, other, numbers):
    """Whether these objects are the same in two states."""
    return all(one.objects[n] == other.objects[n] or not states.differs(one, other, n) for n in numbers)


def choose_question(r, system):
    """A claim that holds by the second reading, where threads of ours and others may make calls; None where none is found."""
    labels = range(len(system.table.labels))
    for _ in range(20):
        a, b = r.sample(labels, 2)
        sets = system.flows.smallest(a, b) if r.random() < 0.5 else []
        filters = {*r.choice(sets)} if isinstance(sets, list) and sets else set()
        if filters and r.random() < 0.3:
            filters |= {r.choice(labels)} - {a, b}
        ours = system.ours(b, filters)
        if a not in ours and ours & {*system.threads} and {*system.threads} - ours - filters:
            return Question(system, a, b, filters, ours)
    return None


def make_questions(r):
    """A system, and claims on it."""
    while True:
        system = System(make_fixed(r))
        chosen = [choose_question(r, system) for _ in range(2 * QUESTIONS)]
        found = {question.claim: question for question in chosen if question}
        if len(found) >= QUESTIONS:
            return system, [*found.values()][:QUESTIONS]


# Runs.

class Run:
    """A run by the second reading: the state, and an entry of a log for each event.

    Of the second run of a pair, `how` has the weights of WAYS, and `judged` is the number of entries that are compared.
    """

    def __init__(self, system, how=()):
        self.state, self.entries, self.events, self.how, self.judged = kernel.boot(system.table), [], [], how, EVENTS

    def step(self, event):
        self.events.append(event)
        self.entries.append(f"{event.text} = {kernel.step(self.state, event)}")


def make_runs(r, question):
    """A run, and others that differ from it in what others than ours do."""
    system, labels, is_mute = question.system, {*question.system.threads}, r.random() < 0.5
    ours, free = question.threads(question.ours), question.threads(labels - question.ours - question.filters)
    filters = [] if is_mute else question.threads(question.filters)
    run, found = Run(system), system.found
    pairs = [Run(system, r.choice([(1, 0, 0), (0, 0, 1), (0, 0, 1), (2, 1, 5), (1, 4, 1)])) for _ in range(PAIRS)]
    for at in range(EVENTS):
        event = make_event(r, run.state, found, r.choice([ours, [*free, *filters]]))
        run.step(event)
        for other in pairs:
            what = r.choices(WAYS, other.how)[0] if event.thread in free else "the same"
            mine = {"the same": event, "nothing": NOBODY}.get(what) or make_event(r, other.state, found, free)
            other.step(mine)
            if other.judged == EVENTS and not question.goes_on(run.state, other.state, [event, mine]):
                other.judged = at
    return run, pairs


# Comparing.

def asked(comparison, system, run):
    """The log that the program writes of a run, in lines, or what it says instead."""
    script = texts.text_of("confine-script 1", [event.text for event in run.events])
    files = {"table": system.text, "policy": system.policy, "script": script}
    status, out, err = comparison.of_program(["run", "--rules", "sharp"], files)
    return out.decode("latin-1").splitlines()[1:-1] if status == 0 else [f"status {status}: {(out + err).decode('latin-1')}"]


def wrong_with(question, run, other, log, other_log):
    """What is wrong with the logs of a pair of runs, or nothing."""
    for one, entries in [(run, log), (other, other_log)]:
        if entries != one.entries:
            at = next((at for at, pair in enumerate(zip(entries, one.entries)) if len({*pair}) > 1), len(entries))
            return f"the log isn't that of the second reading, which has at entry {at + 1}: {one.entries[at : at + 1]}"
    for at, (event, entry, its) in enumerate(zip(run.events[: other.judged], log, other_log), 1):
        if question.label(event.thread) in question.ours and entry != its:
            return f"entry {at} is `{entry}` in the first log, and `{its}` in the second"
    if other.judged == EVENTS and not are_alike(run.state, other.state, question.seen):
        return "what ours depend on isn't alike in the end"
    return None


def compare_alike(comparison, where, r):
    """Compares pairs of runs of a system; gives how many calls of ours were done in both runs of a pair, and others' in one of them."""
    system, questions = make_questions(r)
    claims = texts.text_of("confine-claims 2", [question.claim for question in questions])
    status, out, _ = comparison.of_program(["claims"], {"table": system.text, "claims": claims})
    comparison.hold(f"{where}: claims\n{system.text}{claims}{out.decode('latin-1')}", status == 0)
    done = [0, 0]
    for question in questions:
        run, others = make_runs(r, question)
        log = asked(comparison, system, run)
        for number, other in enumerate(others):
            other_log = asked(comparison, system, other)
            wrong = wrong_with(question, run, other, log, other_log)
            shown = "\n".join([system.text, *log, "", *other_log])
            comparison.hold(f"{where}, pair {number} of `{question.claim}`: {wrong}\n{shown}", wrong is None)
            for event, entry in zip(other.events[: other.judged], other_log):
                done[question.label(event.thread) not in question.ours] += " = refused " not in entry
    return done
