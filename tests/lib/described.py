"""System descriptions at random, and damaged ones, for tests/differential. Nothing of this is proved."""
import re

PARTS = ["driver", "virt_rx", "Client", "client-0", "9p", "a_very_long_name_of_a_protection_domain", "virt-rx", "virt.rx", "x", "Client_mr"]
ELEMENTS = [
    "<map mr='r0' vaddr='0x2_000_000'/>", "<irq irq='7' id='0'/>", "<setvar symbol='s' region_paddr='r0'/>", "<ioport id='1' addr='0x3f8' size='8'/>",
    "<program_image path='a.elf'/>", "<channel><end pd='d0' id='1'/><end pd='d1' id='1'/></channel>", "<end pd='d0' id='2'/>", "<channel/>",
    "<memory_region name='r0' size='0x1000'/>", "<memory_region name='fresh' size='0x200000' page_size='0x200000' phys_addr='0x200000'/>",
    "<protection_domain name='more' id='5'/>", "<virtual_machine name='guest' id='3'/>", "<vcpu id='4'/>", "<system/>", "<!-- c -->", "<!DOCTYPE a>",
]
VALUES = ["0", "1", "61", "62", "254", "255", "0x1000", "0x200000", "0x1_000", "1000", "999", "0x", "", "true", "false", "True", "rw", "r", "w", "x", "rx"]
VALUES += ["&lt;", "&#65;", "&#x41;", "&amp", "&#9;", "d0", "r0", "nobody", "18446744073709551615", "18446744073709551616", "level", "15", "16", "3600000001"]
NAMES = ["name", "id", "pp", "notify", "priority", "budget", "period", "cpu", "perms", "phys_addr", "size", "mr", "xmlns", "cached", "passive", "color"]
BYTES = ["<", ">", "/", "'", '"', "&", "=", "\n", "\r", "\r\n", "\t", " ", "-", "\0", "\x7f", "\x80", "é", "<!--", "-->", "]]>", "<?pi?>", "\ufeff"]


def attributes(r, pairs):
    quote = r.choice("'\"")
    return "".join(f" {name}={quote}{value}{quote}" for name, value in pairs if value is not None)


def maybe(r, share, *values):
    return r.choice(values) if r.random() < share else None


def make_domain(r, n, known, regions, indent):
    """An element of a domain, its children in it; `known` gets the number, priority and free ids of each."""
    priority, number = r.randint(0, 254), len(known)
    own = {"number": number, "priority": priority, "ids": r.sample(range(62), 12), "below": r.sample(range(62), 6)}
    known.append(own)
    budget = maybe(r, 0.3, 1, 100, 1000)
    pairs = [("name", f"{r.choice(PARTS)}_{number}" if r.random() < 0.5 else f"d{number}"), ("priority", priority), ("id", n)]
    own["name"] = pairs[0][1]
    pairs += [("budget", budget), ("period", maybe(r, 0.3, 1000, 4000)), ("passive", maybe(r, 0.2, "true")), ("cpu", maybe(r, 0.1, 0, 3))]
    lines = [f"<protection_domain{attributes(r, pairs)}>", "<program_image path='a.elf'/>"]
    for region in r.choices(regions, k=r.randint(0, 4)) if regions else []:
        lines.append(f"<map{attributes(r, [('mr', region), ('vaddr', '0x2_000_000'), ('perms', maybe(r, 0.8, 'r', 'rw', 'rx', 'rwx'))])}/>")
    if r.random() < 0.3:
        lines.append(f"<irq{attributes(r, [('irq', 40 + number), ('id', own['ids'].pop()), ('trigger', maybe(r, 0.5, 'edge', 'level'))])}/>")
    if r.random() < 0.15:
        lines += [f"<virtual_machine{attributes(r, [('name', f'g{number}'), ('id', maybe(r, 0.2, own['below'].pop()))])}>"]
        lines += [f"<vcpu id='{own['below'].pop()}'/>" for _ in range(r.randint(0, 2))]
        lines += [f"<map mr='{region}' vaddr='0x4000000'/>" for region in regions[:1]] + ["</virtual_machine>"]
    while own["below"] and len(known) < 9 and r.random() < 0.2:
        lines += make_domain(r, own["below"].pop(), known, regions, indent + 1)
    return [*("  " * indent + line for line in lines), "  " * indent + "</protection_domain>"]


def make_channel(r, known):
    one, other = sorted(r.sample(known, 2), key=lambda domain: domain["priority"])
    calls = one["priority"] < other["priority"] and r.random() < 0.5
    ends = [[("pd", d["name"]), ("id", d["ids"].pop()), ("notify", maybe(r, 0.3, "true", "false"))] for d in (one, other)]
    ends[0] += [("pp", "true" if calls else maybe(r, 0.1, "false"))]
    r.shuffle(ends)
    return ["  <channel>", *(f"    <end{attributes(r, end)}/>" for end in ends), "  </channel>"]


def make_description(r):
    """A description at random, which has a fault seldom."""
    known, regions, lines = [], [f"r{i}" if r.random() < 0.7 else f"{r.choice(PARTS)}{i}" for i in range(r.randint(0, 6))], []
    for i, region in enumerate(regions):
        large = r.random() < 0.2
        pairs = [("name", region), ("size", r.choice(["0x200_000", "0x400000"]) if large else r.choice(["0x1_000", 4096, "0x3000"]))]
        pairs += [("page_size", "0x200000" if large else maybe(r, 0.2, "0x1000")), ("phys_addr", maybe(r, 0.3, hex(i << 24)))]
        lines.append(f"  <memory_region{attributes(r, pairs)} />")
    for _ in range(r.randint(1, 5)):
        lines += make_domain(r, None, known, regions, 1)
    for _ in range(r.randint(0, 6) if len(known) > 1 else 0):
        if all(len(domain["ids"]) > 4 for domain in known):
            lines += make_channel(r, known)
    if r.random() < 0.2:  # what is named may stand behind
        lines = [line for line in lines if "memory_region" not in line] + [line for line in lines if "memory_region" in line]
    head = r.choice([[], ["<?xml version=\"1.0\" encoding=\"UTF-8\"?>"], ["<?xml version='1.0'?>", "<!-- a description -->"]])
    return r.choice(["\n", "\n", "\n", "\r\n"]).join([*head, "<system>", *lines, "</system>", ""])


def make_shared(r, count, ways):
    """A description of many regions, which domains and a virtual machine map in so many ways, some by two maps."""
    names = [f"{r.choice(PARTS)}{i}" for i in range(count)]
    users, lines = {n: [] for n in range(8)}, [f"<memory_region name='{name}' size='0x1000'/>" for name in names]
    taken = [*range(1, ways + 1), *(r.randint(1, ways) for _ in range(count - ways))]
    r.shuffle(taken)
    for name, way in zip(names, taken):  # in base 3: a digit for each user, 0 for none, 1 for r, 2 for rw
        for user in users:
            perms = {0: [], 1: ["r"], 2: r.choice([["rw"], ["r", "rw"], ["rwx", "r"]])}[way // 3**user % 3]
            users[user] += [f"<map mr='{name}' vaddr='0x2000000' perms='{one}'/>" for one in perms]
    for user, maps in users.items():
        inner = ["<virtual_machine name='guest'>", "<vcpu id='1'/>", *maps, "</virtual_machine>"] if user == 0 else maps
        lines += [f"<protection_domain name='d{user}' priority='{user}'><program_image path='a.elf'/>", *inner, "</protection_domain>"]
    lines += ["<channel><end pd='d1' id='1' pp='true'/><end pd='d2' id='2'/></channel>"]
    return "\n".join(["<system>", *lines, "</system>", ""])


def damaged_description(r, text):
    """A description that was damaged once or twice."""
    for _ in range(r.choice([1, 1, 2])):
        how, lines = r.randrange(13), text.split("\n")
        line, at = r.randrange(len(lines)), r.randrange(len(text) + 1)
        values = [*re.finditer("(?<=['\"])[^'\"<>=]*(?=['\"])", text)]
        if how == 0:
            text = text[:at] + r.choice(BYTES) + text[at + r.randrange(3) :]
        elif how == 1:
            text = "\n".join([*lines[: line + 1], *lines[line:]])
        elif how == 2:
            text = "\n".join([*lines[:line], *lines[line + 1 :]])
        elif how == 3:
            text = "\n".join([*lines[:line], r.choice(ELEMENTS), *lines[line:]])
        elif how >= 8 and values:
            value = r.choice(values)
            text = text[: value.start()] + r.choice([*VALUES, *(other[0] for other in values)]) + text[value.end() :]
        elif how == 4:
            new = f" {r.choice(NAMES)}='{r.choice(VALUES)}'"
            at = r.choice([at for at, byte in enumerate(text) if byte in " /"] or [0])
            text = text[:at] + new + text[at:]
        elif how == 5:
            other = r.randrange(len(lines))
            lines[line], lines[other] = lines[other], lines[line]
            text = "\n".join(lines)
        elif how == 6:
            text = text[:at]
        else:
            words = text.split(" ")
            which = r.randrange(len(words))
            words[which] = r.choice([r.choice(words), "", r.choice(words) + "\n"])
            text = " ".join(words)
    return text
