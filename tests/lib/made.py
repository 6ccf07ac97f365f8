"""Parts of a document that a script makes of the sources, each between two marks, `<!-- made: NAME -->` and `<!-- end: NAME -->`."""
import pathlib
import sys
import textwrap

from sources import TOP

SCRIPT = f"tests/{pathlib.Path(sys.argv[0]).name}"
WIDE = 140


def item(text):
    """An item of a list, in lines of a document."""
    return textwrap.fill(f"- {text}", WIDE, subsequent_indent="  ", break_long_words=False, break_on_hyphens=False) + "\n"


def is_writing():
    """Whether the script is called to write; it ends here if it is called otherwise."""
    if sys.argv[1:] not in ([], ["--write"]):
        print(f"usage: {SCRIPT} [--write]", file=sys.stderr)
        sys.exit(2)
    return len(sys.argv) > 1


def differences(name, parts):
    """For each part of a document whether it differs, in words, or nothing; by --write it is written, and doesn't."""
    document = TOP / "docs" / name
    text = made = document.read_text()
    for part, new in parts.items():
        before, begin, rest = made.partition(f"<!-- made: {part} -->\n")
        old, end, after = rest.partition(f"<!-- end: {part} -->\n")
        if not begin or not end:
            raise SystemExit(f"{SCRIPT}: docs/{name} has no part between <!-- made: {part} --> and <!-- end: {part} -->")
        made = before + begin + new + end + after
        is_so = old == new or is_writing()
        yield "" if is_so else f"docs/{name}: its part '{part}' isn't what it is made of: call {SCRIPT} --write"
    if made != text and is_writing():
        document.write_text(made)
