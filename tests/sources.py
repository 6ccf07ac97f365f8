#!/usr/bin/env python3
"""What the scripts read of the sources: crates.txt, the first sentences of files, and public functions with their contracts.

tests/sources.py                   tries this file on small texts; the last line is 'N passed, M failed'
tests/sources.py crates            prints the crates, in the order of crates.txt
tests/sources.py uses NAME         prints the libraries of a crate's line
tests/sources.py below NAME        prints the crates below a crate
"""
import pathlib
import re
import sys
from typing import NamedTuple

TOP = pathlib.Path(__file__).resolve().parent.parent
LIST = TOP / "crates.txt"
# A line of crates.txt: a name, which `staticlib` and the like may follow, and libraries.
ROW = re.compile(r" *([a-z0-9_]+)(?: +[A-Za-z0-9_=+]+)* *:([a-z0-9_, ]*)")
# A function begins so, and a clause of its contract, or of its types.
FUNCTION = re.compile(r"(?m)^( *)pub (?:const )?fn (\w+)")
CLAUSE = re.compile(r" *(?:requires|ensures|where)\b")


def rows_of(text):
    """Each line of crates.txt that isn't empty or a comment, with its number: a crate and its libraries, or nothing if it has another form."""
    for number, line in enumerate(text.split("\n"), 1):
        row = line.partition("#")[0]
        if row.strip():
            found = ROW.fullmatch(row)
            yield number, line, found and (found[1], found[2].replace(",", " ").split())


def libraries():
    """Each crate with its libraries, also those of the kit, in the order of crates.txt."""
    return dict(row for _, _, row in rows_of(LIST.read_text()) if row)


def crates():
    """Each crate with the crates that it uses, in the order of crates.txt."""
    of = libraries()
    return {name: [one for one in names if one in of] for name, names in of.items()}


def below(name, used):
    """The crates below a crate, which may be named more than once."""
    return [lower for one in used[name] for lower in [one, *below(one, used)]]


def above(names, used):
    """These crates and all above them, in the order of crates.txt."""
    return [name for name in used if name in names or not names.isdisjoint(below(name, used))]


def root_of(crate):
    """The file that a crate begins with."""
    return next(path for path in [TOP / f"crates/{crate}/src/{file}.rt" for file in ["lib", "main"]] if path.is_file())


def files_of(crate):
    """The files of a crate's code."""
    return sorted((TOP / "crates" / crate / "src").rglob("*.rt"))


def first_sentence(text, mark):
    """The first sentence of the comment that a file begins with; `mark` begins each of its lines."""
    words = []
    for line in text.split("\n"):
        if not line.startswith(mark):
            break
        words += line.removeprefix(mark).split() or ["."]
    joined = " ".join(words)
    return re.split(r"(?<=[.])\s+(?=[A-Z.]|$)", joined)[0].removesuffix(" .") if joined else ""


class Function(NamedTuple):
    """A public function: `head` is all before its body, types and contract. A law has an empty body."""

    name: str
    head: str
    in_a_block: bool = False
    is_law: bool = False


def functions_of(text):
    """Each public function."""
    for found in FUNCTION.finditer(text):
        lines, has_clauses = [], False
        for line in text[found.end() :].split("\n"):
            has_clauses |= CLAUSE.match(line) is not None
            if line in (found[1] + "{", found[1] + "{}"):
                break
            lines.append(line)
            if not has_clauses and line.endswith((" {", ";")):
                break
        yield Function(found[2], "\n".join(lines), found[1] != "", line == "{}")


def exported(text):
    """The names that a file makes public by `pub use`."""
    return set(re.findall(r"\w+", " ".join(re.findall(r"(?s)pub use ([^;]*);", text))))


def cited(text):
    """The paths of what a file's contracts may cite, each from a crate on, that a `ghost use` brings under its own name."""
    return [leaf for tree in re.findall(r"ghost use Rattle\.([^;]*);", text) for leaf in leaves("", tree)]


def leaves(path, tree):
    """The paths of a `use` below a path; its lists may stand in one another."""
    head, brace, inner = tree.partition("{")
    if not brace:
        return [] if " as " in head else [path + head.strip()]
    items, depth, item = [], 0, ""
    for letter in inner[: inner.rindex("}")] + ",":
        depth += {"{": 1, "}": -1}.get(letter, 0)
        if letter == "," and depth == 0:
            items += leaves(path + head.strip(), item.strip())
            item = ""
        else:
            item += letter
    return items


CODE = """\
ghost use Rattle.base.specs.{Sets.{In, Out as Gone}, Words.Word};
pub use crate::{one::make, two};

pub const fn short(n: u64) -> u64 {
    n
}

pub fn words_are_short()
    ensures { Word 1 }
{}

impl Few {
    pub fn add(
        &mut self,
        n: u64,
    ) -> bool
        requires few { In n }
        ensures {
            Word result
        }
    {
        true
    }
}
"""
ADD = '(\n        &mut self,\n        n: u64,\n    ) -> bool\n        requires few { In n }\n        ensures {\n            Word result\n        }'
USED = {"low": [], "mid": ["low"], "top": ["mid"], "other": []}
TRIED = [
    (list(rows_of("# a: b\nlow: std # c\n\n top staticlib :low, x\nLow: y\n")),
     [(2, "low: std # c", ("low", ["std"])), (4, " top staticlib :low, x", ("top", ["low", "x"])), (5, "Low: y", None)]),
    (below("top", USED), ["mid", "low"]),
    (above({"mid", "other"}, USED), ["mid", "top", "other"]),
    (first_sentence("//! What is\n//! told. And more.\nmod a;\n", "//!"), "What is told."),
    (first_sentence("-- A title\n--\n-- More.\n", "--"), "A title"),
    (first_sentence("mod a;\n", "//!"), ""),
    (list(functions_of(CODE)), [Function("short", "(n: u64) -> u64 {"), Function("words_are_short", "()\n    ensures { Word 1 }", is_law=True), Function("add", ADD, in_a_block=True)]),
    (exported(CODE), {"crate", "one", "make", "two"}),
    (cited(CODE), ["base.specs.Sets.In", "base.specs.Words.Word"]),
]


def main():
    match sys.argv[1:]:
        case ["crates"]:
            print(*crates(), sep="\n")
        case ["uses", name]:
            print(*libraries()[name], sep="\n")
        case ["below", name]:
            print(*dict.fromkeys(below(name, crates())), sep="\n")
        case []:
            wrong = [f"tests/sources.py: {came!r}\n  where this was expected: {wanted!r}" for came, wanted in TRIED if came != wanted]
            print(*wrong, f"{len(TRIED) - len(wrong)} passed, {len(wrong)} failed", sep="\n")
            return 1 if wrong else 0
        case _:
            print("usage: tests/sources.py [crates | uses NAME | below NAME]", file=sys.stderr)
            return 2
    return 0


if __name__ == "__main__":
    sys.exit(main())
