"""What tests/refuse-memory and tests/fail-devices share: command lines, their files, and the program with a library that is loaded into it.

A library is compiled from a C file of this folder, by `cc`, and loaded by LD_PRELOAD. It takes the place of calls of the C library, and
counts them. tests/refused.lines says in which form the command lines are written.
"""
import collections
import dataclasses
import multiprocessing
import os
import pathlib
import re
import shlex
import struct
import subprocess
import sys
import tempfile

TOP = pathlib.Path(__file__).resolve().parent.parent.parent
SYSTEMS = [TOP / "examples", TOP / "tests/worked/systems"]
# The most numbers that a library counts, each as a `long`.
COUNTS = struct.Struct("32l")


@dataclasses.dataclass(frozen=True)
class Line:
    """A command line: where it stands, the folder of its files, its words, and the file that is standard input."""

    place: str
    folder: pathlib.Path
    words: tuple
    given: str

    def shown(self):
        return f"{self.place}: confine {shlex.join(self.words)}"


@dataclasses.dataclass(frozen=True)
class Process:
    """What a process runs the program with: a library, and the files for standard output, standard error, an empty input and counts."""

    program: pathlib.Path
    library: pathlib.Path
    out: int
    said: int
    nothing: int
    counts: pathlib.Path


Ended = collections.namedtuple("Ended", "status printed said")


def files_of(name):
    """The texts of a system."""
    folder = next(folder / name for folder in SYSTEMS if (folder / name).is_dir())
    return {path.name: path.read_text() for path in folder.iterdir() if path.name != "README.md"}


def changed(files, told):
    """The text of a file with a change, as `FILE: `OLD` becomes `NEW`` tells it."""
    name, old, new = re.fullmatch(r"(\w+): `(.+)` becomes `(.*)`", told).groups()
    old, new = (text.replace(r"\n", "\n") for text in (old, new))
    if old not in files[name]:
        raise SystemExit(f"{name} has no {old!r}")
    return files[name].replace(old, new, 1)


def lines_in(room, listed):
    """The command lines of a list of tests/. The files of each system are written to a folder of their own."""
    folder, files, name, found = None, {}, None, []
    for number, row in enumerate((TOP / "tests" / listed).read_text().split("\n"), 1):
        head, is_file, told = row.partition(" is")
        if row.startswith("  "):
            files[name] += row[2:] + "\n"
        elif row.startswith("system ") and not is_file:
            folder, files = room / f"{listed}{number}", files_of(row.removeprefix("system "))
        elif row.startswith("$"):
            words, _, given = row[1:].partition(" <")
            found.append((f"tests/{listed}:{number}", folder, files, tuple(shlex.split(words)), given))
        elif is_file and not row.startswith("#"):
            name = head
            files[name] = changed(files, told[1:]) if told else ""
    for _, folder, files, _, _ in found:
        folder.mkdir(exist_ok=True)
        for name, text in files.items():
            (folder / name).write_text(text)
    return [Line(place, folder, words, given) for place, folder, _, words, given in found]


def begin(program, library):
    """Begins a process that runs the program."""
    global process
    room = pathlib.Path(tempfile.mkdtemp(dir=library.parent))
    out, said, nothing = (os.open(room / name, os.O_RDWR | os.O_CREAT) for name in ["out", "said", "nothing"])
    process = Process(program, library, out, said, nothing, room / "counts")


def text_in(file):
    """What a run wrote to a file, which is empty for the next."""
    text = os.pread(file, os.lseek(file, 0, os.SEEK_END), 0)
    os.truncate(file, 0)
    os.lseek(file, 0, os.SEEK_SET)
    return text.decode(errors="surrogateescape")


def run(line, **how):
    """How a command line ends. `how` has variables that the library reads; without one the program is called as it is."""
    os.chdir(line.folder)
    given = os.open(line.given, os.O_RDONLY) if line.given else process.nothing
    actions = [(os.POSIX_SPAWN_DUP2, file, number) for number, file in enumerate([given, process.out, process.said])]
    loaded = {"LD_PRELOAD": str(process.library), **{name: str(value) for name, value in how.items()}} if how else {}
    started = os.posix_spawn(process.program, [process.program, *line.words], os.environ | loaded, file_actions=actions)
    status = os.waitstatus_to_exitcode(os.waitpid(started, 0)[1])
    if line.given:
        os.close(given)
    return Ended(status, text_in(process.out), text_in(process.said))


def counted(line, **how):
    """How a command line ends, and what the library counted."""
    process.counts.write_bytes(bytes(COUNTS.size))
    came = run(line, COUNTED=process.counts, **how)
    return came, COUNTS.unpack(process.counts.read_bytes())


def differing(ended, came):
    """The first line of each text of a run that differs from how the run should end."""
    for name, text, wanted in [("printed", came.printed, ended.printed), ("said", came.said, ended.said)]:
        rows, wanted = ([*text.split("\n"), None] for text in [text, wanted])
        number = next((number for number, pair in enumerate(zip(rows, wanted)) if pair[0] != pair[1]), None)
        if number is not None:
            yield f"  {name}, line {number + 1}: {rows[number]!r} in place of {wanted[number]!r}\n"


def main(test, source, judge_all):
    """Judges the runs of the program that the command line names, with a library made from a C file of this folder, and prints the sum.
    `judge_all`, which is given a folder and processes, gives how many passed and how many failed. The result is the test's status."""
    program = pathlib.Path(sys.argv[1] if len(sys.argv) > 1 else TOP / "crates/confine/out/confine").resolve()
    if not program.is_file():
        print(f"{test}: there is no program {program}", file=sys.stderr)
        return 2
    memory = "/dev/shm" if os.access("/dev/shm", os.W_OK) else None
    with tempfile.TemporaryDirectory(dir=memory) as name:
        room = pathlib.Path(name)
        library = room / "loaded.so"
        subprocess.run(["cc", "-shared", "-fPIC", "-O1", "-o", library, TOP / "tests/lib" / source], check=True)
        with multiprocessing.Pool(len(os.sched_getaffinity(0)), begin, (program, library)) as pool:
            passed, failed = judge_all(room, pool)
    print(f"{passed} passed, {failed} failed")
    return 1 if failed else 0
