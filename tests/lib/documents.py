"""The examples of the documents, and what they show. What counts as an example:

- a code block that begins with `confine-table 1`, `confine-policy 1`, `confine-script 1` or `confine-claims 2` is that file
  from here on; `<!-- system: NAME -->` takes the files of examples/NAME, or of tests/worked/systems/NAME, and
  `<!-- labels: NAME .. -->` a table of these labels alone, without an edge and without an event;
- one that begins with `confine-log 1` is the log of its events on these files, and legal; after `<!-- log: not run -->`, it is the log
  alone that `replay` is asked about;
- one that begins with `confine-cert 1` is what `check --cert` prints of them, and the certificate from here on;
- one that begins with `{"` is the report on them, with the change that `<!-- change: .. -->` tells, or several of these;
- one that begins with `full`, `take` or `none` is what `why` prints of the labels that `<!-- why: A B -->` tells, one that begins with
  `{"actor"` what it prints with `--format json`, and one that begins with `edge` what `close --missing` does, with that change;
- one that begins with `<?xml` is the file description from here on; one that begins with a header after `<!-- import: RIGHTS .. -->` is
  what `import` prints of it, with `--rights RIGHTS` and the options that follow, and that file from here on;
- one that begins with `who may change whom` is what `summary` prints of the files, one that begins with `{"cells"` what it prints with
  `--format json`, and one that begins with `{"bound"` what `show` does, of the labels that `<!-- show: A B -->` tells;
- the one after `<!-- flows: A B -->` is what `flows` prints of these labels, with that change, and one that begins with
  `through how many other programs` what it prints of all programs;
- one that begins with `confine-policy 1` after `<!-- close: of the table -->` is what `close` prints of the table alone, with the options
  that follow these words, and one that begins with `confine-claims 2` after `<!-- claims: all -->` what `claims --all` prints of the files;
- a row of a table whose last cell is a report, or 'accepted', is the answer to these files with the
  changes that the cells before it tell, as `X` becomes `Y`; if the cell before the last is such an answer too, it is the one with
  `--rules sharp`. A fault may be written as `50 table:2`. A row with `X`, or `Y`, or `Z` is three examples: in the others Y or Z stands
  in place of X;
- one whose last cell is a line of a file and `note`, as `table:8: note`, is a line that `check --explain` says of them on standard error,
  or the beginning of one, if it ends with ` ..`;
- a block after `<!-- short: STATUS WORDS -->` is what the command of these words prints with `--format short` of the files, with the
  change that `<!-- change: .. -->` tells; one after `<!-- asked: STATUS WORDS -->` what it prints without that option, on standard error
  with `--explain`; after `<!-- new: .. -->` there is a file `new`, the table with this change; after `<!-- with: .. -->` the files have
  this change from here on;
- one with numbered lines is the beginning of a file of the system;
- one that begins with a line of a file and `denied by`, as `table:8: denied by`, is what `check --explain` says of them on standard
  error, with the change that `<!-- change: .. -->` tells.

A report or a sentence that is too long for a line of the document goes on in the next, which begins with two spaces more; the sentence is
broken where it has a space. In a block that shows an output, a line `..` stands for any lines.

A report with `full` is that of `check`; one that says no more than `accept`, the rule C1 and a fault of the
certificate are those of `verify`; one with entries or an entry, and a fault of the log, are those of `replay`; one with claims,
or that begins with `{"broken"`, and a fault of the claims, are those of `claims`; all others are those of `run`, and of `check` too.

A row of a table whose last cell is empty goes on in the next row.

A page of SESSIONS is one session in a folder. A block that begins with `<?xml` or `confine-claims 2` is a file that the reader writes
there. In one that begins with `$ `, each line `$ COMMAND` is called in bash, and prints the lines that follow: on standard output and
standard error.
"""
import pathlib
import re

TOP = pathlib.Path(__file__).resolve().parent.parent.parent
FILES = ["table", "policy", "script", "certificate", "log"]
KINDS = [*FILES, "claims"]  # of which an example may lack the last
TEXTS = [*KINDS, "description"]
SYSTEMS = [TOP / "examples", TOP / "tests/worked/systems"]
DENIED = re.compile(r"\w+:\d+: denied by ")
NOTED = re.compile(r"\w+:\d+: note: ")
REPORT = re.compile(r"accepted$|`\{\".*\}`$")
FAULT = re.compile(r"(\d\d) (\w+):(\d+)$")
SHARPLY = ["--rules", "sharp"]
NOT_WELL = '"verdict":"(deny|illegal|broken)"|"state":"outside"|"bound"'
SESSIONS = ["docs/TUTORIAL.md"]
WRITTEN = {"<?xml": "description", "confine-claims 2": "claims"}  # what a file of a session begins with, and its name
MARKS = str.maketrans({"␣": " ", "␍": "\r"})


def text_of(file, lines):
    kind = "cert" if file == "certificate" else file
    return "\n".join([f"confine-{kind} 1", *lines, "end"]) + "\n"


def file_of(text):
    """Returns the name of the file that a text is: `description` if it has no header."""
    kind = re.match(r"confine-(\w+)|", text)[1] or "description"
    return "certificate" if kind == "cert" else kind


def of_label_a(objects):
    return text_of("table", ["label a", *objects])


def lines_of(text):
    """The lines of a document, each with its number, and one more, which is empty; a row that goes on is one with the next."""
    begun = ""
    for number, line in enumerate([*text.split("\n"), ""], 1):
        if begun and line.startswith("| "):
            line = begun + line.removeprefix("|")
        begun = line.removesuffix(" |") if line.startswith("| ") and line.endswith("| |") else ""
        if not begun:
            yield number, line


# Texts that are too long to be shown, by the words that stand for them.
LONG = {
    "65 labels": ("table", text_of("table", [f"label l{i}" for i in range(65)])),
    "4,097 objects": ("table", of_label_a(f"notification n{i} a {i << 5:#x}" for i in range(4097))),
    "1,025 threads": ("table", of_label_a(f"tcb t{i} a {i << 10:#x} ready" for i in range(1025))),
    "16 CNodes of radix 12 and a thread": (
        "table",
        of_label_a([*(f"cnode c{i} a {i << 17:#x} 12" for i in range(16)), "tcb t a 0x200000 ready"]),
    ),
    "1,000,001 events": ("script", text_of("script", ["0 1 poll 0"] * 1000001)),
    "1,000,001 entries": ("log", text_of("log", ["0 1 poll 0 = done word 0"] * 1000001)),
}


def alternatives(told):
    """What a row tells, once for each text in backquotes that ', or' joins: each of them in place of the first."""
    begun, *others = re.split(r", or (?=`)", told)
    before = begun[: begun.rstrip("`").rfind("`")]
    return [begun, *(before + other for other in others)]


def with_lines_changed(text, told):
    """A text with lines that are named by their numbers changed."""
    lines = text.split("\n")
    for new, number, line in re.findall(r"\b(new )?line (\d+)(?:: `([^`]*)`|, empty)", told):
        at = int(number) - 1
        lines[at : at if new else at + 1] = [line.translate(MARKS)]
    for number in re.findall(r"no line (\d+)", told):
        lines.pop(int(number) - 1)
    if "no line feed" in told:
        lines.pop()
    return "" if "nothing at all" in told else "\n".join(lines)


def with_line_replaced(files, old, lines):
    """The files with other lines in place of one, which is in one of them."""
    for kind, text in files.items():
        if f"\n{old}\n" in text:
            new = "".join(f"{line}\n" for line in lines)
            return files | {kind: text.replace(f"\n{old}\n", f"\n{new}")}
    raise SystemExit(f"an example changes the line {old}, which no file has")


def changed(files, told, answer):
    """The files with the changes that a row or a comment tells."""
    for words, (kind, text) in LONG.items():
        if words in told:
            return files | {kind: text}
    if '"C1"' in answer:
        files = files | {"certificate": with_lines_changed(files["certificate"], told)}
    if faulty := re.search(r'"file":"(\w+)"', answer):
        return files | {faulty[1]: with_lines_changed(files[faulty[1]], told)}
    for old, new in re.findall(r"`([^`]*)` becomes `([^`]*)`", told):
        files = with_line_replaced(files, old, [new])
    for new, old in re.findall(r"`([^`]*)` before `([^`]*)`", told):
        files = with_line_replaced(files, old, [new, old])
    for new, old in re.findall(r"`([^`]*)` after `([^`]*)`", told):
        files = with_line_replaced(files, old, [old, new])
    for old in re.findall(r"without `([^`]*)`", told):
        files = with_line_replaced(files, old, [])
    return files


def parts_of(text):
    """The code blocks, rows of tables and comments of a document, each with its line."""
    block, fenced = [], False
    for number, line in lines_of(text):
        if line.startswith("```"):
            fenced = not fenced
        elif fenced or line.startswith("    "):
            block.append(line if fenced else line[4:])
            continue
        if block:
            yield number - len(block), "block", "\n".join(block) + "\n"
            block = []
        if comment := re.match(r"<!-- (system|labels|change|with|new|why|show|flows|import|log|close|claims|short|asked): (.*) -->", line):
            yield number, comment[1], comment[2]
        elif line.startswith("| "):
            yield number, "row", line


def session_of(path):
    """Where each step of a page of SESSIONS stands, the files that the reader writes before it, its command, and what it shows."""
    files = {}
    for number, form, text in parts_of(path.read_text()):
        names = [name for begins, name in WRITTEN.items() if form == "block" and text.startswith(begins)]
        files |= {name: text for name in names}
        if form == "block" and text.startswith("$ "):
            for step in re.split(r"(?m)^\$ ", text)[1:]:
                command, _, shown = step.partition("\n")
                yield f"{path.relative_to(TOP)}:{number}", files, command, shown
                files = {}


def is_shown(shown, out):
    """Whether a session shows what a command printed. A line that was broken goes on in the next, and `..` stands for any lines."""
    parts = re.split(r"(?m)^\.\.\n", shown.replace("\n  ", " "))
    return re.fullmatch("(?:.*\n)*?".join(map(re.escape, parts)), out.replace("\n  ", " ")) is not None


def with_one_head(text):
    """A summary whose first line was broken."""
    head, _, rest = text.partition("\n\n")
    return in_one_line(head + "\n", " ") + "\n" + rest


def in_one_line(text, between=""):
    """A report or a sentence that was broken into lines."""
    return between.join(line.strip() for line in text.split("\n")[:-1]) + "\n"


class Page:
    """What a page has said so far. A method for a comment changes it. One for a row or a block yields the files and the answer of each
    example there."""

    def __init__(self):
        self.files = {}
        # The change for the next answer, and the labels that `why` and `show` are asked of from here on.
        self.change, self.asked = "", []
        # The texts of other comments, by their form. Each is kept until the block that it is about.
        self.told = {}

    # Comments.

    def take_system(self, name):
        folder = next(path / name for path in SYSTEMS if (path / name).is_dir())
        self.files = {kind: (folder / kind).read_text() for kind in TEXTS if (folder / kind).exists()}

    def take_labels(self, labels):
        table = text_of("table", [f"label {label}" for label in labels.split()])
        self.files = {kind: text_of(kind, []) for kind in KINDS} | {"table": table}

    def make_new(self, change):
        self.files = self.files | {"new": changed({"table": self.files["table"]}, change, "")["table"]}

    def change_files(self, change):
        self.files = changed(self.files, change, "")

    def await_change(self, change):
        self.change = f"{self.change} {change}"

    def ask_of_labels(self, labels):
        self.asked = labels.split()

    def ask_in_short(self, words):
        self.told["asked"] = f"{words} --format short"

    # Rows.

    def row(self, line):
        *told, answer = [cell.strip() for cell in line.strip("|").split("|") if cell.strip()] or [""]
        answer = FAULT.sub(r'`{"fault":\1,"file":"\2","line":\3}`', answer)
        if NOTED.match(answer):
            yield changed(self.files, " ".join(told), answer), answer + "\n"
        elif REPORT.match(answer):
            if told and REPORT.match(told[-1]):
                sharp = told.pop()
                yield changed(self.files, " ".join(told), sharp) | {"asked": SHARPLY}, sharp.strip("`") + "\n"
            for one in alternatives(" ".join(told)):
                yield changed(self.files, one, answer), answer.strip("`") + "\n"

    # Blocks. Each method takes the block, and the text of its comment, which is empty if there is none.

    def block(self, text):
        for form, begins, examples_in in BLOCKS:
            if form in ["", *self.told] and re.match(begins, text):
                return examples_in(self, text, self.told.pop(form, ""))
        return []

    def keep(self, text, _=""):
        self.files = self.files | {file_of(text): text}
        return []

    def changed(self, answer):
        """Returns the files with the change for this answer. The next answer has none."""
        change, self.change = self.change, ""
        return changed(self.files, change, answer)

    def command(self, text, told):
        status, *words = told.split()
        text = in_one_line(text) if text.startswith("{") else text.replace("\n  ", " ")
        yield self.changed(text) | {"asked": words}, f"status {status}\n{text}"

    def imported(self, text, rights):
        yield self.files | {"asked": ["import", "description", "--rights", *rights.split()]}, text
        self.keep(text)

    def flows(self, text, labels):
        yield self.changed(text) | {"asked": ["flows", "table", *labels.split()]}, text

    def summary(self, text, _):
        yield self.files, with_one_head(text)

    def beginning(self, text, _):
        """Yields an example that always fails, if the file doesn't begin with these lines."""
        lines = re.sub(r"(?m)^ *\d+(?:  (.*?)(   .*)?)?$", r"\1", text)
        if not self.files[file_of(lines)].startswith(lines):
            yield self.files, f"the text of the system's {file_of(lines)}"

    def certificate(self, text, _):
        self.keep(text)
        yield self.files, text

    def log(self, text, _):
        self.keep(text)
        entries = text.split("\n")[1:-2]
        yield self.files | {"script": text_of("script", [line.split(" = ")[0] for line in entries])}, text
        yield self.files, f'{{"entries":{len(entries)},"state":"within","verdict":"legal"}}\n'

    def closed(self, text, told):
        self.keep(text)
        yield self.files | {"asked": told.removeprefix("of the table").split()}, text

    def strongest(self, text, _):
        self.keep(text)
        yield self.files | {"asked": []}, text

    def report(self, text, _):
        text = in_one_line(text) if text.startswith("{") else text
        yield self.changed(text) | {"asked": self.asked}, text

    def denial(self, text, _):
        yield self.changed(text), in_one_line(text, " ")


# The method for each form of a part. The comments of other forms are those of BLOCKS.
PARTS = {
    "system": Page.take_system,
    "labels": Page.take_labels,
    "new": Page.make_new,
    "with": Page.change_files,
    "change": Page.await_change,
    "why": Page.ask_of_labels,
    "show": Page.ask_of_labels,
    "short": Page.ask_in_short,
    "row": Page.row,
    "block": Page.block,
}

# The form of the comment before a block, or none; what the block begins with; and its method. The first row that fits counts.
BLOCKS = [
    ("asked", "", Page.command),
    ("import", "", Page.imported),
    ("", r"<\?xml", Page.keep),
    ("flows", "", Page.flows),
    ("", "through how many other programs", Page.flows),
    ("", "who may change whom", Page.summary),
    ("", " *1  ", Page.beginning),
    ("", "confine-cert 1\n", Page.certificate),
    ("log", "confine-log 1\n", Page.keep),
    ("", "confine-log 1\n", Page.log),
    ("close", "confine-policy 1\n", Page.closed),
    ("claims", "confine-claims 2\n", Page.strongest),
    ("", r"confine-(table|policy|script|claims) [12]\n", Page.keep),
    ("", '{"|full\n|take\n|none\n|edge ', Page.report),
    ("", DENIED, Page.denial),
]


def examples_of(path):
    """Yields where each example stands, its files, and the answer that it shows."""
    page = Page()
    for number, form, text in parts_of(path.read_text()):
        if form not in PARTS:
            page.told[form] = text
            continue
        for files, answer in PARTS[form](page, text) or []:
            yield f"{path.relative_to(TOP)}:{number}", files, answer


def is_answered(answer, status, out):
    if answer.startswith("status ") or "\n..\n" in answer:
        parts = re.split(r"(?m)^\.\.\n", answer if answer.startswith("status ") else "status 0\n" + answer)
        return re.fullmatch("(?:.*\n)*?".join(map(re.escape, parts)), f"status {status}\n{out}") is not None
    if DENIED.match(answer):
        return (status, out) == (1, answer)
    if NOTED.match(answer):
        begins = answer.endswith(" ..\n")
        noted = answer.removesuffix("..\n" if begins else "\n")
        return status == 0 and any(line.startswith(noted) if begins else line == noted for line in out.split("\n"))
    if answer == "accepted\n":
        return status == 0 and out.startswith("confine-log 1\n")
    if answer.startswith("edge "):
        return (status, out) == (1, answer)
    return out == answer and status == (2 if '"fault"' in answer else 1 if re.search(NOT_WELL, answer) else 0)


# What an answer shows, and the command that prints it, where ASKED stands for the labels or options. The first row that fits counts.
PRINTED_BY = [
    ('"file":"description"', "import description --rights least"),
    ("^who may change whom", "summary table"),
    ('^{"cells"', "summary table --format json"),
    ('^{"actor"', "why table ASKED --format json"),
    ('^{"bound"', "show table ASKED"),
    ("^(full|take|none)\n", "why table ASKED"),
    (f"^({DENIED.pattern}|{NOTED.pattern})", "check table policy --explain"),
    ("^edge ", "close table policy --missing"),
    ("^confine-claims 2", "claims table --all"),
    ('^{"(claims|broken)"|"file":"claims"', "claims table claims"),
    ("^confine-policy 1", "close table ASKED"),
    ("^confine-cert 1", "check table policy --cert"),
    ('^{"entr|"file":"log"', "replay table policy log"),
    ('"full"', "check table policy"),
    (r'^{"verdict":"accept"}\n\Z|"C1"|"file":"certificate"', "verify table policy certificate"),
]


def commands_of(answer, asked):
    """Returns the commands that give such an answer."""
    if asked[:1] in (["import"], ["flows"]) or "--format" in asked or answer.startswith("status "):
        return [asked]
    for shows, words in PRINTED_BY:
        if re.search(shows, answer):
            return [words.replace("ASKED", " ".join(asked)).split()]
    options = asked if asked == SHARPLY else []
    run, check = ["run", "table", "policy", "script", *options], ["check", "table", "policy", *options]
    return [run] if re.search('confine-log|accepted|"file":"script"', answer) else [run, check]


def write(files, folder):
    """Puts the files of an example into a folder; one that it doesn't have is an empty text."""
    for kind in [*TEXTS, "new"]:
        (folder / kind).write_bytes(files.get(kind, text_of(kind, [])).encode())
