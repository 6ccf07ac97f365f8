"""The cases of tests/worked, in the form that tests/worked/README.md tells: what each line asks for, and the answer that is expected.

A `Session` goes over the lines of a file, or of a part of one that begins with a system, and gives each case with what is expected and
what came. Whom it asks is an `Asker`: the program, or the second reading of the documents (tests/cases).
"""
import dataclasses
import functools
import json
import pathlib
import re

WORKED = pathlib.Path(__file__).resolve().parent.parent / "worked"
TOP = WORKED.parent.parent
EXAMPLES = TOP / "examples"
TEXTS = ["table", "policy", "script", "certificate", "log", "claims", "description", "new"]
# The texts of systems that stand with the stored runs of crates' programs.
STORED = {("four_threads", file): f"confine/data/{file}" for file in ["table", "policy", "script"]}
STORED |= {("four_threads", "log"): "confine/stdout", ("nine_kinds", "table"): "states/data/table"}

# The command that a word asks for.
ASKED = {word: [word] for word in ["run", "replay", "check", "verify", "close", "list", "summary", "flows"]}
ASKED |= {"cert": ["check", "--cert"], "missing": ["close", "--missing"], "surplus": ["close", "--surplus"]}
ASKED |= {"claim": ["claims"], "strongest": ["claims", "--all"]}
ASKED |= {"draw": ["draw", "--all"], "draw --policy": ["draw", "--policy", "--all"]}
ASKED |= {"fold": ["draw"], "fold --policy": ["draw", "--policy"]}
ASKED |= {f"{word} sharp": [*ASKED[word], "--rules", "sharp"] for word in ["run", "check", "cert", "verify", "close", "missing", "surplus"]}
ASKED |= {"import": ["import", "--rights", "least"]}
ASKED |= {"diff": ["diff"], "diff json": ["diff", "--format", "json"]}
ASKED |= {f"diff {rights}": ["diff", "--rights", rights] for rights in ["least", "all"]}

# What each summary begins with.
HEAD = "who may change whom, in any run: C calls, A answers, S signals, F for another reason, t only takes away, . never; "
HEAD += "m: memory that one writes and the other has\n"
# What each matrix of flows begins with.
COUNTS = "through how many other programs all flows from one to another go, in any run:\n"
COUNTS += "  . nothing flows, d: directly, +: more than 5\n"

ESCAPED = {"n": b"\n", "r": b"\r", "t": b"\t", "0": b"\0"}


class Wrong(Exception):
    """What is wrong with a line that tells no case."""


@dataclasses.dataclass
class Case:
    """A line that was judged: what was expected, and what came; where it tells no case, what is wrong with it."""

    line: int
    what: str
    expected: object = None
    came: object = None
    wrong: str = ""

    def is_met(self):
        return not self.wrong and self.expected == self.came


class Asker:
    """Who answers the cases."""

    def answer(self, words, files):
        """Status and standard output of a command, whose options or labels are `words[1:]`. `files` are the texts that it may read."""
        raise NotImplementedError

    def is_shown(self, words, files, script):
        """Whether a script ends as a search asked for it."""
        raise NotImplementedError

    def is_told(self, words, files, text):
        """Whether a text may be printed of the flows from one label to another: it has one of the shortest chains."""
        raise NotImplementedError

    def state(self, table, script, count=None):
        """The lines that tell the state after so many events of a script, or after all."""
        raise NotImplementedError


# Texts, as they are written in a line.


@functools.lru_cache(1024)
def plain(written):
    """The bytes that stand for a text between backquotes."""
    first, *parts = written.split("\\")
    told = [first.encode("latin-1")]
    for part in parts:
        if escape := re.match(r"x([0-9a-fA-F]{2})", part):
            told.append(bytes([int(escape[1], 16)]) + part[3:].encode("latin-1"))
        elif part and part[0] in ESCAPED:
            told.append(ESCAPED[part[0]] + part[1:].encode("latin-1"))
        else:
            raise Wrong("after a backslash stands n, r, t, 0, or x and two digits")
    return b"".join(told)


def quoted(words):
    """What stands between backquotes."""
    if len(words) < 2 or words[0] != "`" or words[-1] != "`":
        raise Wrong("a backquote is missing")
    return words[1:-1]


def number_in(word):
    if not re.fullmatch("[0-9]+", word):
        raise Wrong("a number is missing")
    return int(word)


def filled(line, number):
    """The line for a number."""
    first, *parts = line.split("{")
    told = [first]
    for part in parts:
        what, brace, after = part.partition("}")
        size = re.fullmatch("0x([0-9a-f]+)", what)
        if not brace or what not in ("", "byte") and not size:
            raise Wrong("no such word in braces")
        told += [hex(int(size[1], 16) * number) if size else f"\\x{number:02x}" if what else str(number), after]
    return "".join(told)


def spread(line):
    """A line, or as many as its `for` says."""
    if not line.startswith("for "):
        yield line
        return
    loop = re.fullmatch(r"for (\d+) to (\d+): (.*)", line)
    if not loop or int(loop[1]) > int(loop[2]):
        raise Wrong("a repeated line is `for FIRST to LAST: LINE`")
    for number in range(int(loop[1]), int(loop[2]) + 1):
        yield filled(loop[3], number)


# Changes of a text.


def around(text, written):
    """What stands before and after a piece of the text."""
    piece = plain(written)
    at = text.find(piece)
    if at < 0:
        raise Wrong("the text has no such piece")
    return text[:at], text[at + len(piece) :]


def before_line(text, number):
    """What stands before the line of this number, and the rest."""
    at = 0
    for _ in range(1, number):
        at = text.find(b"\n", at) + 1
        if not at:
            raise Wrong("there is no such line in the text")
    return text[:at], text[at:]


def lines_in(text, words):
    """The lines of the text that a word names: `5`, `1-3`, or `6-`."""
    first, dash, last = words.partition("-")
    rest = before_line(text, number_in(first))[1]
    if dash and not last:
        return rest
    return before_line(rest, number_in(last or first) - number_in(first) + 2)[0]


def changed(text, place, change):
    """The text with a change at a place, and the line that the change begins in."""
    if place == "lines":
        parts = [lines_in(text, words) for words in change.split(" ")]
        return b"".join(parts), parts[0].count(b"\n") + 1
    new = plain(quoted(change))
    if place == "whole":
        return new, 1
    if place == "before end":
        if not text.endswith(b"end\n"):
            raise Wrong("there is no such line in the text")
        before, after = text[:-4], text[-4:]
    elif place.startswith("before line "):
        before, after = before_line(text, number_in(place.removeprefix("before line ")))
    else:
        before, after = around(text, quoted(place))
    line = b"\n" if place.startswith("before ") else b""
    return b"".join([before, new, line, after]), before.count(b"\n") + 1


# Answers.


def report(**keys):
    return (json.dumps(keys, separators=(",", ":"), sort_keys=True) + "\n").encode()


def breaches_in(words):
    """What is told of claims, each as `LINE CLAIM`, with `by AUTHORITY`, `by AUTHORITY of A B` or `by edge A KIND B` where there is one."""
    for one in words.split("; "):
        if not (told := re.fullmatch(r"([0-9]+) (.*?)(?: by edge (\w+ \w+ \w+)| by (full|take)(?: of (\w+) (\w+))?)?", one)):
            raise Wrong("a broken claim is told as `LINE CLAIM by AUTHORITY of A B` or `LINE CLAIM by edge A KIND B`")
        line, claim, edge, authority, *pair = told.groups()
        shown = {"claim": claim, "line": int(line)} | ({"edge": edge.split(" ")} if edge else {})
        yield shown | ({"authority": authority} if authority else {}) | ({"pair": pair} if pair[0] else {})


def edges_in(words):
    return "".join(f"edge {edge}\n" for edge in words.split(", ") if edge).encode()


def place_in(words):
    """A rule, and the names of its place."""
    rule, *place = words.split(" ")
    if not place:
        raise Wrong("a rule has a place")
    return {"rule": rule, "place": place}


def drawing(words):
    labels, *arrows = words.split(", ")
    lines = [f'"{label}"' for label in labels.split(" ") if label]
    for arrow in arrows:
        told = re.fullmatch(r"(\S+) (changes|takes) (\S+) by (.*)", arrow)
        if not told:
            raise Wrong("an arrow is told as `A changes B by EDGE` or `A takes B by EDGE`")
        style = "style=dashed, " if told[2] == "takes" else ""
        lines.append(f'"{told[1]}" -> "{told[3]}" [{style}label="{told[4]}"]')
    return "".join(["digraph authority {\n", *(f"  {line}\n" for line in lines), "}\n"]).encode()


def flowing(words):
    sets, _, chain = words.partition("; ")
    return "".join([*(f"{line}\n" for line in sets.split(", ")), *(f"link {link}\n" for link in chain.split(", ") if link)]).encode()


def folding(words):
    boxes, *arrows = words.split("; ")
    lines = ["node [shape=box]", "edge [fontsize=10]", "nodesep=0.1", "ranksep=0.4"]
    for box in boxes.split(" | ") if boxes else []:
        name, _, inside = box.partition(" with ")
        lines.append(f'"{name}"' + (f' [label="{name}\\nwith {inside}"]' if inside else ""))
    for arrow in arrows:
        told = re.fullmatch(r"(\S+) -> (\S+) (solid|dashed|dotted) by (.*)", arrow)
        if not told:
            raise Wrong("an arrow is told as `A -> B STYLE by WORDS, WORDS`")
        style = "" if told[3] == "solid" else f"style={told[3]}, "
        words = "".join(f"{words}\\n" for words in told[4].split(", "))
        lines.append(f'"{told[1]}" -> "{told[2]}" [{style}label="{words}"]')
    return "".join(["digraph authority {\n", *(f"  {line}\n" for line in lines), "}\n"]).encode()


def each(script, outcome):
    """The log of a script of which each event has this outcome."""
    head, end = b"confine-script 1\n", b"end\n"
    if not script.startswith(head) or not script.endswith(end):
        raise Wrong("the script has no header, or no end")
    events = script[len(head) : -len(end)]
    return b"confine-log 1\n" + events.replace(b"\n", f" = {outcome}\n".encode()) + end


def changing(words):
    return "".join(f"{line}\n" for line in words.split("; ") if line).encode()


def fault(words, file, line):
    told = re.fullmatch(r"(?:(\w+) )?([0-9]+)(?: line ([0-9]+))?", words)
    if not told or (told[1] or file) not in TEXTS:
        raise Wrong("there is no such answer")
    file = told[1] or file
    return report(fault=int(told[2]), file="new system" if file == "new" else file, line=int(told[3] or line))


def unshown(words):
    bound, _, steps = words.partition(" ")
    return 1, report(bound=bound, run="none found", steps=number_in(steps))


def outside(words):
    entries, _, place = words.partition(" ")
    return 1, report(entries=number_in(entries), state="outside", verdict="legal", **place_in(place))


def printed(words):
    return plain(quoted(words)) + b"\n"


# Status and standard output of each answer of one word.
ANSWERS = {
    "accept": (0, report(verdict="accept")),
    "same": (0, b""),
    "shows": (0, b"a script that shows it"),
    "unknown": (2, b""),
    "impossible": (1, report(bound="none", run="impossible")),
}

# By the first word of an answer, the function that gives status and standard output from the other words.
BEGINNINGS = {
    "matrix": lambda words: (0, HEAD.encode() + printed(words)),
    "counts": lambda words: (0, COUNTS.encode() + printed(words)),
    "writes": lambda words: (0, printed(words)),
    "comes": lambda words: (0, flowing(words)),
    "draws": lambda words: (0, drawing(words)),
    "folds": lambda words: (0, folding(words)),
    "full": lambda words: (0, b"full\n" + edges_in(words)),
    "take": lambda words: (0, b"take\n" + edges_in(words)),
    "none": lambda words: (0, b"none\n" + edges_in(words)),
    "lacks": lambda words: (int(bool(words)), edges_in(words)),
    "lists": lambda words: (0, changing(words)),
    "adds": lambda words: (1, printed(words) if words.startswith("`") else changing(words)),
    "drops": lambda words: (0, printed(words) if words.startswith("`") else changing(words)),
    "within": lambda words: (0, report(entries=number_in(words), state="within", verdict="legal")),
    "outside": outside,
    "illegal": lambda words: (1, report(entry=number_in(words), verdict="illegal")),
    "deny": lambda words: (1, report(verdict="deny", **place_in(words))),
    "unshown": unshown,
}


def expected(words, system, script, kept, file, line):
    """Status and standard output that an answer says, of a system's files, with this script, what claims bound that hold, and one of the
    files changed in a line."""
    word, _, rest = words.partition(" ")
    if words in ("log", "report", "certificate", "policy", "claims", "table"):
        return 0, system.get(words, b"")
    if words in ANSWERS:
        return ANSWERS[words]
    if word in BEGINNINGS:
        return BEGINNINGS[word](rest)
    if word == "each":
        return 0, each(script, rest)
    if word == "hold":
        return 0, report(claims=number_in(rest), kept=kept, verdict="hold")
    if word == "breaks":
        return 1, report(broken=list(breaches_in(rest)), kept=kept, verdict="broken")
    return 2, fault(words, file, line)


def is_within(came, wanted):
    """Whether a search answered as is wanted, after at most so many calls."""
    try:
        told, most = json.loads(came[1]), json.loads(wanted[1])
        return came[0] == wanted[0] and 0 <= told["steps"] <= most["steps"] and came[1] == report(**most | {"steps": told["steps"]})
    except (ValueError, KeyError, TypeError):
        return False


# The lines of a file.


def path_of(name, file):
    """Where a text of a system is: in its folder, or with the stored run of a crate's program."""
    if (name, file) in STORED:
        return TOP / "crates" / STORED[name, file]
    folder = EXAMPLES / name
    return (folder if folder.is_dir() else WORKED / "systems" / name) / file


@functools.cache
def system_of(name):
    """The texts of a system: an example, or one of tests/worked/systems. It may lack what the program says of it. The new system, with
    which it is compared, is at first the same table."""
    paths = {file: path_of(name, file) for file in [*TEXTS, "report"]}
    if not all(paths[file].is_file() for file in TEXTS[:3]):
        raise Wrong("a file can't be read")
    files = {file: path.read_bytes() if path.is_file() else b"" for file, path in paths.items()}
    return files | {"new": files["table"]}


@functools.cache
def keep_log(asker, name):
    """Wrong where the system has a log, and that isn't read as a legal one, or its events don't have it written again as it is."""
    files = system_of(name)
    if not files["log"]:
        return
    log = files["log"].decode("latin-1").split("\n")[1:-2]
    closed = asker.answer(["close"], {"table": files["table"]})[1]
    accepted = files | {"policy": closed, "script": script_of(log)}
    if b'"verdict":"legal"' not in asker.answer(["replay"], accepted)[1]:
        raise Wrong("`replay` doesn't answer that the system's log is legal")
    if asker.answer(["run"], accepted) != (0, files["log"]):
        raise Wrong("`run` doesn't write the system's log")


def entry(line):
    """A line of a log."""
    if " = " not in line:
        raise Wrong("an event has an outcome")
    return line


def log_of(log):
    return "".join(["confine-log 1\n", *(f"{line}\n" for line in log), "end\n"]).encode("latin-1")


def script_of(log):
    return "".join(["confine-script 1\n", *(f"{line.partition(' = ')[0]}\n" for line in log), "end\n"]).encode("latin-1")


class Session:
    """A system, and how it is being tried."""

    def __init__(self, asker):
        self.asker = asker
        self.files = dict.fromkeys([*TEXTS, "report"], b"")
        self.asked = ["run"]
        # What the reports of claims say that claims on flows bound.
        self.kept = "changes"
        # What the indented lines are that follow, what they are so far, and the line that they follow.
        self.block, self.lines, self.begun = None, [], None
        # The lines of the log that is told, and the state that it leaves.
        self.log, self.left = None, []

    def judged(self, lines):
        """Each case that these lines tell, which have their numbers."""
        for number, line in lines:
            if not line or line.lstrip().startswith("#"):
                continue
            if not line.startswith("  "):
                yield from self.end()
                self.begun = number, line
            judging = self.indented(number, line[2:]) if line.startswith("  ") else self.begin(number, line)
            try:
                yield from judging
            except Wrong as wrong:
                yield Case(number, line.strip(), wrong=str(wrong))
        yield from self.end()

    def text(self, file):
        if file not in TEXTS:
            raise Wrong("there is no such line, or no such file")
        return self.files[file]

    def begin(self, number, line):
        """Does what a line says that isn't indented."""
        word, _, rest = line.partition(" ")
        if word in ASKED:
            more, _, answer = rest.partition(" ")
            asked, answer = (f"{word} {more}", answer) if f"{word} {more}" in ASKED else (word, rest)
            yield self.asked_of(number, line, ASKED[asked], self.files, answer, "table", 1)
        elif word == "system":
            self.files, self.asked, self.kept = system_of(rest), ["run"], "changes"
            keep_log(self.asker, rest)
        elif word == "asks":
            self.asked = command_of(rest)
        elif line in ("kept calls", "kept changes"):
            self.kept = rest
        elif word == "beginnings":
            yield from self.beginnings(number, line, rest.removeprefix("of "))
        elif line in ("events", "each event", "then", "leaves"):
            if line in ("then", "leaves") and self.log is None:
                raise Wrong("this goes on after events, and none stand before")
            self.lines = self.log[:] if line == "then" else []
            if line == "leaves":
                self.left = self.asker.state(self.text("table"), script_of(self.log))
            self.block = (line,)
        elif word == "in":
            file, _, place = rest.partition(" ")
            self.text(file)
            if place not in ("lines", "whole", "before end") and not re.fullmatch("before line [0-9]+", place):
                quoted(place)
            self.block = "in", file, place
        elif rest == "is":
            self.text(word)
            self.block, self.lines = ("is", word), []
        elif taken := re.fullmatch(r"is (\w+) of (\w+)", rest):
            self.text(word), self.text(taken[1])
            self.files = self.files | {word: system_of(taken[2])[taken[1]]}
        elif line != "all differ":  # which is asked of the whole file
            self.become(word, rest)

    def end(self):
        """Ends the indented lines."""
        (block, *of), self.block = self.block or ("none",), None
        if block in ("events", "then"):
            self.log = self.lines
            yield self.run_of(*self.begun, self.log)
        elif block != "leaves":
            self.log = None
        if block == "is":
            self.files = self.files | {of[0]: "".join(f"{line}\n" for line in self.lines).encode("latin-1")}

    def indented(self, number, line):
        """Does what an indented line says, which may be told for many numbers."""
        block, *of = self.block or ("none",)
        for line in spread(line):
            if block == "is":
                self.lines.append(line)
            elif block in ("events", "then"):
                self.lines.append(entry(line))
            elif block == "each event":
                yield self.run_of(number, line, [entry(line)])
            elif block == "leaves":
                yield self.left_of(number, line)
            elif block == "in":
                yield self.change_of(number, line, *of)
            else:
                raise Wrong("nothing takes an indented line here")

    def become(self, file, words):
        """Gives a file another piece."""
        text = self.text(file)
        old, becomes, new = quoted(words).partition("` becomes `")
        if not becomes:
            raise Wrong("a text is, or a piece of it becomes another")
        before, after = around(text, old)
        self.files = self.files | {file: before + plain(new) + after}

    def asked_of(self, number, line, asked, files, answer, file, at):
        """The case that files of which one was changed, from this line on, have this answer."""
        wanted, came = expected(answer, self.files, files["script"], self.kept, file, at), self.asker.answer(asked, files)
        if came is None:  # who is asked doesn't tell such an answer
            came = wanted
        elif answer == "shows" and came[0] == 0 and self.asker.is_shown(asked, files, came[1]):
            came = wanted
        elif answer.startswith("unshown ") and is_within(came, wanted):
            came = wanted
        elif answer.startswith("comes ") and ";" not in answer and came[0] == 0 and came[1].startswith(wanted[1]):
            came = wanted if self.asker.is_told(asked, files, came[1]) else came
        return Case(number, line, wanted, came)

    def run_of(self, number, line, log):
        """The case that a script has this log."""
        return Case(number, line, (0, log_of(log)), self.asker.answer(["run"], self.files | {"script": script_of(log)}))

    def change_of(self, number, line, file, place):
        """The case that a change has its answer."""
        answer, colon, change = line.partition(": ")
        if not colon:
            raise Wrong("a case is an answer and a change")
        text, at = changed(self.files[file], place, change)
        return self.asked_of(number, line, self.asked, self.files | {file: text}, answer, file, at)

    def beginnings(self, number, line, file):
        """The cases that each beginning of a text but the whole has fault 50 at the line that it ends in."""
        text = self.text(file)
        for end in range(len(text)):
            begun = text[:end]
            yield self.asked_of(number, f"{line}, {end} bytes", self.asked, self.files | {file: begun}, "50", file, begun.count(b"\n") + 1)

    def left_of(self, number, line):
        """The case that a line is so of the state that is left."""
        if line.startswith("state as "):
            count = self.events_of(line.removeprefix("state as "))
            other = self.asker.state(self.text("table"), script_of(self.log), count)
            came, wanted = first_difference(self.left, other)
        else:
            what, colon, wanted = line.partition(": ")
            if not colon:
                raise Wrong("a fact stands after a slot or an object and a colon")
            came = fact(self.left, what)
        return Case(number, line, wanted, came)

    def events_of(self, words):
        """How many events `before` or `after K events` means."""
        told = re.fullmatch("after (?:(1) event|([0-9]+) events)", words)
        if not told and words != "before":
            raise Wrong("a state is as before, or as after a number of events")
        count = int(told[1] or told[2]) if told else len(self.log) - 1
        if not 0 <= count < len(self.log):
            raise Wrong("the script has no event after these")
        return count


def command_of(words):
    """The command that words ask for."""
    if words in ASKED:
        return ASKED[words]
    if told := re.fullmatch(r"why ((?:--reads )?)\* (\S+)", words):
        return ["why", *told[1].split(), "*", told[2]]
    if told := re.fullmatch(r"why (--policy )?(\S+) (\S.*)", words):
        return ["why", *(["--policy"] if told[1] else []), told[2], told[3]]
    if told := re.fullmatch(r"show (\S+) (\S+)((?: --take)?(?: --steps [0-9]+)?)", words):
        return ["show", told[1], told[2], *told[3].split()]
    if told := re.fullmatch(r"flows (\S+) (\S+)", words):
        return ["flows", told[1], told[2]]
    if told := re.fullmatch(r"import (least|all)((?: --claims)?)", words):
        return ["import", "--rights", told[1], *told[2].split()]
    raise Wrong("there is no such command")


def fact(state, what):
    """What a state says of a slot or an object. An object that wasn't made yet is none."""
    told = dict(line.partition(": ")[::2] for line in state)
    if what in told:
        return told[what]
    if (made := re.fullmatch("object #([0-9]+)", what)) and int(made[1]) >= int(told["next number"]):
        return "none"
    raise Wrong("the state has no such slot or object")


def first_difference(one, other):
    """The first lines in which two states differ. They are empty where none does."""
    for at in range(max(len(one), len(other))):
        if one[at : at + 1] != other[at : at + 1]:
            return "".join(one[at : at + 1]), "".join(other[at : at + 1])
    return "", ""


# Files.


def lines_of(path):
    return path.read_text("latin-1").split("\n") if path.is_file() else []


def parts_of(path):
    """The lines of a file with their numbers, as parts that have nothing to do with each other: each begins with a system."""
    parts = [[]]
    for number, line in enumerate(lines_of(path), 1):
        if line.startswith("system "):
            parts.append([])
        parts[-1].append((number, line))
    return parts


def all_differ(path):
    """Whether the answers of a file are wrong."""
    return "all differ" in lines_of(path)
