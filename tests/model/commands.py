"""The commands: what each writes, and its status, as docs/formats has them; authority, certificates, verdicts and last states."""
import copy
import json
import pathlib
from types import SimpleNamespace

import claim_lists
import differences
import flows
import imports
import kernel
import policies
import sharp
import states
import summaries
import texts
from policies import AWAIT, CALL, CONTEXT, CONTROL, DERIVE, GRANT, HOLDS, NOTIFY, READ, RECEIVE, REPLY, RESET, RUNS, SCHEDCONTROL, SEND
from policies import SPACE, WRITE
from texts import KINDS, Fault

COMMANDS = pathlib.Path(__file__).resolve().parent.parent.parent / "examples" / "commands"
FILES = {name: files for name, *files in map(str.split, COMMANDS.read_text().splitlines())}


# What is said on standard error where `--policy` asks of a policy.
ALLOWED = "confine: this is what the policy allows: each label counts as one whose threads make calls, "
ALLOWED += "so the answer says nothing about runs\n"


def files_of(command, options=()):
    """The files of a command, in their order."""
    if command == "claims" and "--all" in options:
        return ["table"]
    return [*FILES[command], *(["policy"] if "--policy" in options else [])]


def line_of(command, paths, options=()):
    """The words by which a command is called of files at these paths, in the order of `files_of`. A policy stands behind its option."""
    if "--policy" not in options:
        return [command, *paths, *options]
    *paths, policy = paths
    at = options.index("--policy") + 1
    return [command, *paths, *options[:at], policy, *options[at:]]


def rules_of(options):
    """By which rules a policy is judged."""
    return options[options.index("--rules") + 1] if "--rules" in options else "closed"


# Authority.

def cap_kinds(kind, rights):
    """What a capability in a slot of a CNode gives."""
    w, r = "w" in rights, "r" in rights
    given = {
        "untyped": [(CONTROL, True)], "cnode": [(CONTROL, True)], "tcb": [(CONTROL, True)],
        "endpoint": [(RESET, True), (SEND, w), (RECEIVE, r), (GRANT, w and "g" in rights), (CALL, w and ("g" in rights or "y" in rights))],
        "notification": [(RESET, True), (NOTIFY, w), (AWAIT, r)],
        "frame": [(RESET, True), (READ, r), (WRITE, w)],
        "reply": [(REPLY, True)], "context": [(CONTEXT, True)], "control": [(SCHEDCONTROL, True)],
    }[kind]
    return [k for k, given_so in given if given_so]


def label_of(table, state, number):
    if number < len(table.objects):
        return table.objects[number].label
    address = state.objects[number].address
    for item in table.objects:
        if item.kind == "untyped" and item.address <= address < item.address + item.size:
            return item.label


def authority(table, state):
    """Each edge that a state gives, as (rule, order of the place, place in names, edge)."""
    label = {number: label_of(table, state, number) for number in state.objects}
    named = {number: table.objects[number].name if number < len(table.objects) else f"#{number}" for number in state.objects}
    objects = state.objects

    def slot_name(slot):
        return f"{named[slot[0]]}.{'root' if objects[slot[0]].kind == 'tcb' else slot[1]}"

    for slot, cap in state.caps.items():
        a, b = label[slot[0]], label[cap.object]
        if objects[slot[0]].kind == "tcb":
            yield "A2", slot, [slot_name(slot), "space", table.labels[b]], (a, SPACE, b)
        else:
            for k in cap_kinds(objects[cap.object].kind, cap.rights):
                yield "A1", (slot, k), [slot_name(slot), KINDS[k], table.labels[b]], (a, k, b)
    for child, parent in state.parents.items():
        yield "A3", child, [slot_name(parent), slot_name(child)], (label[parent[0]], DERIVE, label[child[0]])
    for number, item in objects.items():
        if item.kind == "tcb":
            for context in {item.context, (item.lent or [None])[0]} & set(objects):
                yield "A4", (number, context), [named[number], named[context]], (label[number], RUNS, label[context])
        if item.kind == "reply" and item.use != "free":
            yield "A5", number, [named[number], named[item.thread]], (label[number], HOLDS, label[item.thread])
        if item.kind == "tcb" and item.state in kernel.WAITING:
            kept = [(AWAIT, item.at)]
            if item.state == "sends":
                message = item.message
                kept = [(SEND, item.at)] + [(GRANT, item.at)] * message.grant + [(CALL, item.at)] * (message.calls and message.answered)
            elif item.state == "receives":
                kept = [(RECEIVE, item.at)] + [(REPLY, item.reply)] * (item.reply is not None)
            for k, at in kept:
                yield "A6", (number, k), [named[number], KINDS[k], table.labels[label[at]]], (label[number], k, label[at])


def outside(table, policy, state):
    """Rule and place of the first of A1 to A6 that a state breaks, or None."""
    broken = [(rule, order, place) for rule, order, place, edge in authority(table, state) if edge not in policy]
    return min(broken, default=None)


def actors(table, policy):
    """The labels whose threads make calls: those that can at boot, and whom these control, as far as there is what threads are made of."""
    acting = {table.objects[thread].label for thread in table.bindings if table.objects[thread].ready}
    while more := {y for x, k, y in policy if k == CONTROL and x in acting} - acting:
        acting |= more
    return frozenset(acting & {item.label for item in table.objects if item.kind in ("tcb", "untyped")})


def reach(table):
    """Returns the least sharply closed policy with the edges of a table, as `edges`, with its `keepers`, its `idlers`, and the labels that
    act in it, as `acts`. No run of the table leaves it."""
    edges = sharp.sharp_closure({edge for _, _, _, edge in authority(table, kernel.boot(table))}, sharp.holders(table))
    return SimpleNamespace(edges=edges, keepers=sharp.keepers(table, edges), idlers=sharp.idlers(edges), acts=actors(table, edges))


def limits(table, policy=None):
    """The edges by which it is told how far labels go with each other, and the labels that act: those of the reach of a table; or those of
    a policy, where each label acts."""
    if policy is not None:
        return policy, frozenset(range(len(table.labels)))
    reached = reach(table)
    return reached.edges, reached.acts


def first_broken(table, policy, rules):
    """Rule and place of the first of P1 to P8, or of S1 to S8, that a policy breaks, or None."""
    if rules == "sharp":
        return sharp.sharply_broken(policy, sharp.keepers(table, policy))
    return policies.first_broken(policy, len(table.labels))


def denial(table, policy, rules="closed"):
    """Rule and place, or None where the table is accepted."""
    broken = first_broken(table, policy, rules)
    if broken:
        rule, place = broken
        return rule, policies.rule_names(rule, place, table)
    broken = outside(table, policy, kernel.boot(table))
    return (broken[0], broken[2]) if broken else None


def certificate(table):
    """The lines of the right certificate."""
    state = kernel.boot(table)
    label = [table.labels[item.label] for item in table.objects]
    sections = {"cap": {}, "space": {}, "derive": {}, "runs": {}}
    for rule, order, place, _ in authority(table, state):
        if rule == "A1":
            slot, kind = order
            labels = label[slot[0]], label[state.caps[slot].object]
            sections["cap"].setdefault(slot, [place[0], labels[0], [], labels[1]])[2].append(kind)
        elif rule == "A2":
            sections["space"][order] = [place[0], label[order[0]], label[state.caps[order].object]]
        elif rule == "A3":
            sections["derive"][order] = [*place, label[state.parents[order][0]], label[order[0]]]
        elif rule == "A4":
            sections["runs"][order] = [*place, *(label[number] for number in order)]
    for line in sections["cap"].values():
        line[2] = ",".join(KINDS[kind] for kind in sorted(line[2]))
    return [" ".join([word, *line]) for word, lines in sections.items() for _, line in sorted(lines.items())]


# Commands. Each answers the status and what is written on standard output.

def report(**keys):
    return json.dumps(keys, separators=(",", ":"), sort_keys=True) + "\n"


def judged(table, policy, rules, then):
    broken = denial(table, policy, rules)
    if broken:
        return 1, report(rule=broken[0], place=broken[1], verdict="deny")
    return then()


def check(table, policy, rules, certified=False):
    def accepted():
        if certified:
            return 0, texts.text_of("confine-cert 1", certificate(table))
        count, names = len(table.labels), table.labels
        full = {names[a]: [names[l] for l in sorted(policies.full(policy, a))] for a in range(count)}
        cut = {names[a]: [names[l] for l in sorted(policies.cut(policy, a))] for a in range(count)}
        return 0, report(caps=len(table.caps), full=full, cut=cut, verdict="accept")

    return judged(table, policy, rules, accepted)


def verify(table, policy, lines, rules):
    def accepted():
        right = certificate(table)
        for number in range(max(len(right), len(lines))):
            if right[number : number + 1] != lines[number : number + 1]:
                return 1, report(rule="C1", place=[str(number + 1)], verdict="deny")
        return 0, report(verdict="accept")

    return judged(table, policy, rules, accepted)


def run(table, policy, events, rules):
    def accepted():
        state = kernel.boot(table)
        return 0, texts.text_of("confine-log 1", [f"{event.text} = {kernel.step(state, event)}" for event in events])

    return judged(table, policy, rules, accepted)


def replay(table, policy, entries):
    state = kernel.boot(table)
    for number, (event, outcome) in enumerate(entries, 1):
        if event.call == "retype" and outcome == "refused 40 0":
            legal = could_be_done(table, entries[:number])
        else:
            legal = kernel.step(state, event) == outcome
        if not legal:
            return 1, report(entry=number, verdict="illegal")
    broken = outside(table, policy, state)
    if broken:
        return 1, report(entries=len(entries), state="outside", rule=broken[0], place=broken[2], verdict="legal")
    return 0, report(entries=len(entries), state="within", verdict="legal")


def could_be_done(table, entries):
    """Whether the retype at the end of these entries could be done: it is, in another state to which the entries before it lead."""
    state = kernel.boot(table)
    for event, outcome in entries[:-1]:
        if outcome != "refused 40 0":
            kernel.step(state, event)
    return kernel.step(state, entries[-1][0]).startswith("done")


def close(table, policy, rules, missing=False, surplus=False):
    named = policy or set()
    asked = {edge for _, _, _, edge in authority(table, kernel.boot(table))}
    kept = asked if surplus else named | asked
    edges = sharp.sharp_closure(kept, sharp.holders(table)) if rules == "sharp" else policies.close(kept, len(table.labels))
    if missing or surplus:
        lines = [texts.edge_line(edge, table) + "\n" for edge in sorted(named - edges if surplus else edges - named)]
        return int(bool(lines)), "".join(lines)
    return 0, texts.text_of("confine-policy 1", [texts.edge_line(edge, table) for edge in sorted(edges)])


def why(table, policy, a, b):
    edges, acts = limits(table, policy)
    how, reason = policies.why(edges, acts, table.labels.index(a), table.labels.index(b))
    return 0, "".join(f"{line}\n" for line in [how, *(texts.edge_line(edge, table) for edge in reason)])


def users(table, b, reads=False):
    """The other labels that may change a label, or only take from it, as `why` says; or those that have an edge to read there."""
    edges, acts = limits(table)
    l = table.labels.index(b)
    others = [a for a in range(len(table.labels)) if a != l]
    if reads:
        told = [(a, "reads") for a in others if {(a, kind, l) for kind in (policies.READ, policies.RECEIVE, policies.AWAIT)} & edges]
    else:
        told = [(a, policies.why(edges, acts, a, l)[0]) for a in others]
    return 0, "".join(f"{table.labels[a]} {how}\n" for a, how in told if how != "none") or "none\n"


def is_fixed(table):
    """Whether no CNode holds a capability for a CNode or a thread."""
    kinds = [(table.objects[holder].kind, table.objects[cap.object].kind) for (holder, _), cap in table.caps.items()]
    return not {("cnode", "cnode"), ("cnode", "tcb")} & set(kinds)


def claims(table, claimed=None):
    """Whether these claims hold; where there are none, the strongest that do."""
    edges, acts = limits(table)
    if claimed is None:
        return 0, texts.text_of(claim_lists.HEADER, claim_lists.strongest(table, edges, acts))
    kept = "calls" if is_fixed(table) else "changes"
    if broken := list(claim_lists.broken(claimed, table, edges, acts)):
        return 1, report(broken=broken, kept=kept, verdict="broken")
    return 0, report(claims=len(claimed), kept=kept, verdict="hold")


def summary(table):
    return 0, summaries.summary(table, *limits(table))


def flowing(table, a=None, b=None):
    """What is told of the flows from one label to another; or, where none are named, between all programs."""
    all_flows = flows.Flows(table, *limits(table))
    if a is None:
        return 0, flows.matrix(table, all_flows)
    return 0, all_flows.told(table.labels.index(a), table.labels.index(b))


def is_told(table, a, b, text):
    """Whether `flows` may write a text: it says which the smallest sets are, and ends with a shortest chain."""
    return flows.Flows(table, *limits(table)).is_told(table.labels.index(a), table.labels.index(b), text)


def shown(table, a, b, takes=False):
    """What `show` answers where it makes no calls; None where it has to try some."""
    how = policies.why(*limits(table), table.labels.index(a), table.labels.index(b))[0]
    if how == "none":
        return 1, report(bound="none", run="impossible")
    return (1, report(bound="take", run="none found", steps=0)) if how == "take" and not takes else None


def is_shown(table, events, a, b, takes=False):
    """Whether no call of a script is refused, and the last one is made by a thread of one label and changes an object of the other:
    other than by making it smaller, or just so."""
    state = kernel.boot(table)
    if not events or any(kernel.step(state, event).startswith("refused") for event in events[:-1]):
        return False
    before, last = copy.deepcopy(state), events[-1]
    if kernel.step(state, last).startswith("refused") or label_of(table, before, last.thread) != table.labels.index(a):
        return False
    there = {number: label_of(table, one, number) for one in (before, state) for number in one.objects}
    changed = [number for number, label in there.items() if label == table.labels.index(b) and states.differs(before, state, number)]
    return any(states.shrinks(before, state, number) == takes for number in changed)


def compared(old, new, as_json=False):
    """What changes from one system to another."""
    told = list(differences.changes(*(differences.Side(table, reach(table)) for table in (old, new))))
    adds = any(differences.adds(*words) for words, _ in told)
    if as_json:
        return int(adds), report(adds=adds, changes=[change | {"sign": words[0]} for words, change in told])
    return int(adds), "".join(" ".join(words) + "\n" for words, _ in told)


def drawn(table, policy=None, every=False):
    edges, acts = limits(table, policy)
    if not every:
        return 0, summaries.drawing(table, edges, acts)
    lines = [f'"{name}"' for name in table.labels]
    for a, l, how in policies.extents(edges, acts, len(table.labels)):
        if how != "none":
            first = texts.edge_line(policies.why(edges, acts, a, l)[1][0], table).removeprefix("edge ")
            style = "style=dashed, " if how == "take" else ""
            lines.append(f'"{table.labels[a]}" -> "{table.labels[l]}" [{style}label="{first}"]')
    return 0, "".join(["digraph authority {\n", *(f"  {line}\n" for line in lines), "}\n"])


def listed(table):
    return 0, "".join(f"{at} {item.kind} {item.name} {table.labels[item.label]}\n" for at, item in enumerate(table.objects))


def read(file, text, table, options=()):
    def import_text():
        return imports.imported(text, "all" in options, "--claims" in options)

    def system():
        described = "--rights" in options and text.lstrip(b" \t\r\n").startswith(b"<")
        return texts.read_table(import_text().encode() if described else text)

    return {
        "description": import_text, "table": lambda: texts.read_table(text), "policy": lambda: texts.read_policy(text, table),
        "system": system,
        "draft": lambda: texts.read_draft(text, table),
        "certificate": lambda: texts.read_certificate(text, table),
        "script": lambda: texts.read_script(text), "log": lambda: texts.read_log(text),
        "claims": lambda: claim_lists.read(text, table),
    }[file]()


def answer(command, given, options=()):
    """Status, standard output and standard error of a command. `given` has the bytes of its files, or None where one can't be read;
    `options` are those of the command, each value behind its option, but that of `--policy`, which is a file; the last two of `why` are its
    labels, of which the first may be `*`, and the first two of `show`; `flows` has two or none. Only `diff` reads descriptions here, with
    `--rights`, and `import`. It answers None where `show` has to try calls."""
    values = []
    for file, text in zip(files_of(command, options), given):
        told = "new system" if file == "new" else file
        if text is None:
            return 2, "", f"confine: cannot read {told}\n"
        try:
            kind = "draft" if (command, file) == ("close", "policy") else "system" if command == "diff" else file
            values.append(read(kind, text, values[0] if values else None, options))
        except Fault as fault:
            return 2, report(fault=fault.number, file=told, line=fault.line), ""
    labels = {"why": options[-2:], "show": options[:2], "flows": options[:2]}.get(command, [])
    everybody = command == "why" and labels[0] == "*"
    for operand, label in [*zip("AB", labels)][everybody:]:
        if label not in values[0].labels:
            return 2, "", f"confine: {operand} is no label of the table\n"
    alone = ALLOWED * (command in ("why", "draw") and not everybody and "--policy" in options)
    answered = users(values[0], labels[1], "--reads" in options) if everybody else answer_of(command, values, labels, options)
    return answered and (*answered, alone)


def answer_of(command, values, labels, options):
    """Status and standard output of a command, of what its files tell and the labels that it names; None where `show` has to try calls."""
    table, second = values[0], values[1] if len(values) > 1 else None
    rules = rules_of(options)
    return {
        "why": lambda: why(table, second, *labels),
        "flows": lambda: flowing(table, *labels),
        "show": lambda: shown(table, *labels, "--take" in options),
        "draw": lambda: drawn(table, second, "--all" in options),
        "import": lambda: (0, table),
        "diff": lambda: compared(table, second, "json" in options),
        "close": lambda: close(table, second, rules, "--missing" in options, "--surplus" in options),
        "check": lambda: check(*values, rules, "--cert" in options),
        "verify": lambda: verify(*values, rules), "run": lambda: run(*values, rules),
        "replay": lambda: replay(*values), "claims": lambda: claims(*values),
        "list": lambda: listed(*values), "summary": lambda: summary(*values),
    }[command]()
