"""What flows from one label to another: the smallest sets of programs through which all of it goes, a shortest chain of
flows, and the matrix of `flows`, as docs/formats has them. A program is a label whose threads make calls."""
import policies
import summaries

HEAD = "through how many other programs all flows from one to another go, in any run:\n"
HEAD += "  . nothing flows, d: directly, +: more than 5\n"
# How many programs a set has at most, and how many sets are named.
MOST_PROGRAMS, MOST_SETS = 5, 10


class Flows:
    """The flows between the labels of a table. `affected` has for each label those whose objects its threads may change or make smaller,
    and `needed` those on whose objects it depends: itself, and those that it sees. What a label does flows to another by `objects`: those
    of a label that it affects and that the other needs."""

    def __init__(self, table, policy, acts):
        labels = range(len(table.labels))
        self.names, self.acts = table.labels, acts
        self.affected = {a: {l for ways in (policies.change_ways, policies.shrink_ways) for l, _ in ways(policy, acts, a)} for a in labels}
        self.needed = {b: {b} | policies.seen(policy, acts, b) for b in labels}
        self.objects = {a: {b: sorted(by) for b in labels if (by := self.affected[a] & self.needed[b])} for a in labels}

    def chain(self, a, b, filters):
        """A shortest chain of flows from one label to another, each as (from, object, to), or None where there is no chain. Between the ends
        no label is a filter, and no flow is by an object of a filter."""
        chains, turn = {a: []}, [a]
        while turn and b not in chains:
            found = {}
            for x in turn:
                for y, objects in self.objects[x].items():
                    beside = [l for l in objects if l not in filters]
                    if beside and y not in chains and (y == b or y not in filters):
                        found.setdefault(y, [*chains[x], (x, beside[0], y)])
            chains, turn = chains | found, [*found]
        return chains.get(b)

    def sets(self, a, b, room, chosen=frozenset()):
        """The sets through which all goes from a to b that have the chosen programs and at most so many more. If a chain is left, such a set
        has a program of this chain: one that it passes, or by whose objects a flow of it is."""
        chain = self.chain(a, b, chosen)
        if chain is None:
            return {chosen}
        if not room:
            return set()
        more = {label for link in chain for label in link} & self.acts - {a, b}
        return {one for label in more for one in self.sets(a, b, room - 1, chosen | {label})}

    def smallest(self, a, b):
        """The sets with the fewest programs, in order; `direct` if no set of programs is one, and `more` if each has more than five."""
        if self.chain(a, b, self.acts - {a, b}) is not None:
            return "direct"
        for size in range(MOST_PROGRAMS + 1):
            if sets := self.sets(a, b, size):
                return sorted(map(sorted, sets))
        return "more"

    def lines_on_sets(self, a, b):
        """The lines on the smallest sets, where something comes from a to b."""
        sets = self.smallest(a, b)
        if isinstance(sets, str):
            return "direct\n" if sets == "direct" else f"more than {MOST_PROGRAMS}\n"
        lines = [" ".join(["through", *(self.names[label] for label in one)]) + "\n" for one in sets[:MOST_SETS]]
        return "".join([*lines, *(["and more\n"] if sets[MOST_SETS:] else [])])

    def avoided(self, a, b):
        """The programs that the chain told of two labels doesn't pass, and by whose objects it doesn't go: with `direct` all others."""
        others = self.acts - {a, b}
        return frozenset() if self.chain(a, b, others) is None else others

    def told(self, a, b):
        """What is printed of two labels."""
        chain = self.chain(a, b, self.avoided(a, b))
        if chain is None:
            return "none\n"
        links = [" ".join(["link", *(self.names[label] for label in link)]) + "\n" for link in chain]
        return "".join([self.lines_on_sets(a, b), *links])

    def is_told(self, a, b, text):
        """Whether a text may be printed of two labels. It may have another one of the shortest chains than `told` has."""
        told = self.told(a, b)
        if told == "none\n":
            return text == told
        sets, avoided = self.lines_on_sets(a, b), self.avoided(a, b)
        links = [tuple(line.split(" ")) for line in text.removeprefix(sets).splitlines()]
        at = self.names[a]
        for word, *link in links:
            if word != "link" or len(link) != 3 or not {*link} <= {*self.names} or link[0] != at:
                return False
            x, l, y = map(self.names.index, link)
            if l not in self.objects[x].get(y, []) or avoided & {l, y}:
                return False
            at = link[2]
        is_whole = text == sets + "".join(" ".join(link) + "\n" for link in links)
        return is_whole and at == self.names[b] and len(links) == told.removeprefix(sets).count("\n")

    def cell(self, a, b):
        """Through how many programs all goes from the one to the other."""
        sets = self.smallest(a, b)
        return {"direct": "d", "more": "+"}[sets] if isinstance(sets, str) else str(len(sets[0]) or ".")


def matrix(table, flows):
    """What is printed of all programs that have a thread."""
    labels = sorted({item.label for item in table.objects if item.kind == "tcb"})
    if not labels:
        return "no label has a thread\n"
    return "".join([HEAD, *summaries.matrix(table, labels, flows.cell)])
