"""Measures searches for a run that isn't there, so that all calls are tried: of a parent in memory of its child."""
import os

from checks import write_text
from timing import answers, run_often

TOP = os.path.dirname(os.path.dirname(os.path.realpath(__file__)))
FILE_SERVER = os.path.join(TOP, "examples", "file_server", "description")

# So many domains in a ring, the first of which has a child: as many as there may be.
DOMAINS = 62
STEPS = 20_000

# So many calls are tried in a second of a processor at least, on 16 domains and on 63, with at most so much memory.
LEAST_CALLS = {16: 20_000, 63: 5_000}
MOST_MEMORY = 200 * 2**20

CHILD = (
    '<protection_domain name="child" priority="1" id="5"><program_image path="child.elf"/>'
    '<map mr="own" vaddr="0x3000000" perms="rw"/></protection_domain>'
)


def ring(domains):
    """A description in which each domain shares memory and a channel with the next. The first has a child with memory of its own."""
    regions = "".join(f'<memory_region name="r{i}" size="0x1000"/>\n' for i in range(domains))
    programs = "".join(
        f'<protection_domain name="d{i}" priority="{100 - i}"><program_image path="d{i}.elf"/><map mr="r{i}" vaddr="0x1000000" perms="rw"/>'
        f'<map mr="r{(i + 1) % domains}" vaddr="0x2000000" perms="r"/>{CHILD if i == 0 else ""}</protection_domain>\n'
        for i in range(domains)
    )
    channels = "".join(f'<channel><end pd="d{i}" id="1"/><end pd="d{(i + 1) % domains}" id="2"/></channel>\n' for i in range(domains))
    return f'<system>\n<memory_region name="own" size="0x1000"/>\n{regions}{programs}{channels}</system>\n'


def measure_searches(program, folder, base):
    """Measures how many calls are tried in a second, prints a row each, and gives whether these are enough."""
    top = os.path.join(folder, "searches")
    os.makedirs(top)
    asked = {16: (FILE_SERVER, "watchdog", "page_queue"), 63: (write_text(os.path.join(top, "ring"), ring(DOMAINS)), "d0", "own")}
    unfound = f'{{"bound":"full","run":"none found","steps":{STEPS}}}\n'
    columns = "{:>24} {:>9} {:>12} {:>9}"
    print(columns.format("domains in a search", "run ms", "calls/s", "MiB"))
    good = True
    for domains, (system, actor, label) in asked.items():
        words = [program, "show", system, actor, label, "--rights", "least", "--steps", str(STEPS)]
        good &= answers(words, 1, unfound.encode("ascii"), os.path.join(top, "out"))
        run, _ = run_often(words, base.cpu)
        calls = STEPS / run.cpu
        print(columns.format(domains, f"{run.cpu * 1e3:.1f}", f"{calls:,.0f}", f"{run.memory / 2**20:.1f}"), flush=True)
        if calls < LEAST_CALLS[domains] or run.memory > MOST_MEMORY:
            good = False
            print(f"OVER: at least {LEAST_CALLS[domains]:,} calls in a second, with at most {MOST_MEMORY // 2**20} MiB")
    print()
    return good
