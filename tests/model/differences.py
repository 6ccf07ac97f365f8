"""What changes from one system to another of who may change, read and reach whom, label by label and by their names, as docs/formats
has it."""
import summaries
from policies import AWAIT, READ, RECEIVE
from texts import KINDS

READING = (READ, RECEIVE, AWAIT)


class Side:
    """A system as one side of a comparison: `reach` is its reach."""

    def __init__(self, table, reach):
        self.table, self.reach = table, reach
        self.rows = {row["label"]: row for row in summaries.rows_and_others(table, reach.edges, reach.acts)[0]}

    def number(self, name):
        return self.table.labels.index(name) if name in self.table.labels else None

    def standing(self, name):
        number = self.number(name)
        return "" if number is None else "program" if number in self.rows else "label"

    def cell(self, a, l):
        row, other = self.rows.get(self.number(a)), self.rows.get(self.number(l))
        return summaries.cell(row, other["label"]) if row and other and a != l else "."

    def uses(self, a, l):
        """What a program does to a label without a thread."""
        row = self.rows.get(self.number(a))
        if not row or self.standing(l) != "label":
            return set()
        number = self.number(l)
        does = {"changes": row["changes"], "takes": row["shrinks"] - row["changes"], "reads": row["reads"]}
        return {verb for verb, those in does.items() if number in those}

    def has_role(self, role, name):
        return self.number(name) in (self.reach.keepers if role == "keeper" else self.reach.acts)

    def has(self, edge):
        a, kind, l = edge
        return (self.number(a), kind, self.number(l)) in self.reach.edges

    def edges(self):
        names = self.table.labels
        return [(names[a], kind, names[l]) for a, kind, l in sorted(self.reach.edges)]


def differs(old, new, none):
    """The sign of a change from one value to another, or nothing."""
    return "" if old == new else "+" if old == none else "-" if new == none else "~"


def adds_standing(one, other):
    """Whether a label is new, or has a thread now."""
    return (one, other) in [("", "label"), ("", "program"), ("label", "program")]


def adds_marks(one, other):
    """Whether a cell has a mark that it lacked. To take is less than to change."""
    gained = set(other) - set(one) - {"."}
    return bool(gained - {"t"} or gained and not set(one) & set("CASF"))


def adds(sign, *words):
    """Whether a change adds authority."""
    if sign != "~":
        return sign == "+"
    was, now = words[-2:]
    return now == "program" or now != "label" and adds_marks(was, now)


def labels_changed(old, new, names):
    for name in names:
        one, other = old.standing(name), new.standing(name)
        if sign := differs(one, other, ""):
            words = (sign, name, one, other) if sign == "~" else (sign, one or other, name)
            yield words, {"label": name, "old": one or "nothing", "new": other or "nothing"}


def cells_changed(old, new, names):
    for a in names:
        for l in names:
            one, other = old.cell(a, l), new.cell(a, l)
            if sign := differs(one, other, "."):
                words = (sign, a, l, one, other) if sign == "~" else (sign, a, l, other if sign == "+" else one)
                yield words, {"cell": [a, l], "old": one, "new": other}


def uses_changed(old, new, names):
    for a in names:
        for l in names:
            for verb in ("changes", "takes", "reads"):
                if sign := differs(verb in old.uses(a, l), verb in new.uses(a, l), False):
                    yield (sign, a, verb, l), {"use": [a, verb, l]}


def roles_changed(old, new, names):
    for role in ("keeper", "actor"):
        for name in names:
            sign = differs(old.has_role(role, name), new.has_role(role, name), False)
            one, other = (old, new) if sign == "+" else (new, old)
            if sign and not (role == "actor" and adds_standing(one.standing(name), other.standing(name))):
                yield (sign, role, name), {"role": [role, name]}


def is_shown(without, having, edge):
    """Whether another line shows an edge that one system has and the other lacks."""
    a, kind, l = edge
    used = having.uses(a, l) - without.uses(a, l)
    if kind in READING and a != l:
        return "reads" in used
    grown = any(adds_standing(without.standing(name), having.standing(name)) for name in (a, l))
    return grown or adds_marks(without.cell(a, l), having.cell(a, l)) or bool(used - {"reads"})


def edges_changed(old, new):
    for sign, without, having in (("+", old, new), ("-", new, old)):
        for edge in having.edges():
            if not without.has(edge) and not is_shown(without, having, edge):
                a, kind, l = edge
                yield (sign, "edge", a, KINDS[kind], l), {"edge": [a, KINDS[kind], l]}


def changes(old, new):
    """Each line, as its sign and its words, with what a report has of it but the sign, in their order."""
    names = [*new.table.labels, *(name for name in old.table.labels if name not in new.table.labels)]
    for part in (labels_changed, cells_changed, uses_changed, roles_changed):
        yield from part(old, new, names)
    yield from edges_changed(old, new)
