"""System descriptions of Microkit: their text, its faults, and what they say, as docs/IMPORT.md has it. The tree of elements is that of
Python's ElementTree; the lines of elements, and what is refused of XML, are found here."""
import re
import xml.etree.ElementTree as ElementTree
from types import SimpleNamespace

from texts import Fault

LEVELS, ELEMENTS, ATTRIBUTES, VALUE, TEXT = 66, 20_000, 32, 4096, 1 << 20
NAME, SPACE = re.compile(rb"[A-Za-z_][A-Za-z0-9_.-]*"), re.compile(rb"[ \t\n\r]*")
COMMENT = re.compile(rb"(?:(?!--)[ -~\t\n\r\x80-\xff])*")
VALUES = {b'"': re.compile(rb"[ !#-;=-~]*"), b"'": re.compile(rb"[ -&(-;=-~]*")}
ENTITIES = {"lt": "<", "gt": ">", "amp": "&", "quot": '"', "apos": "'"}

# Which attributes an element has within another, and of which form; `!` stands where one is required.
TIMES = "priority=number budget=number period=number"
DOMAIN = f"name!name {TIMES} passive=flag stack_size=number smc=flag cpu=number fpu=flag pp=flag"
MAP = "mr!text vaddr!number perms=rights cached=flag setvar_vaddr=text setvar_size=text setvar_prefill_size=text"
ATTRIBUTES_OF = {
    "/system": "",
    "system/memory_region": "name!name size!number page_size=page phys_addr=number prefill_path=text",
    "system/protection_domain": DOMAIN, "protection_domain/protection_domain": f"id!number setvar_id=text {DOMAIN}",
    "protection_domain/program_image": "path!text path_for_symbols=text", "protection_domain/map": MAP, "virtual_machine/map": MAP,
    "protection_domain/irq": "irq!number id!number trigger=trigger setvar_id=text",
    "protection_domain/ioport": "id!number addr!number size!number setvar_id=text setvar_addr=text",
    "protection_domain/setvar": "symbol!text region_paddr!text",
    "protection_domain/virtual_machine": f"name!name {TIMES} id=number",
    "virtual_machine/vcpu": "id!number setvar_id=text cpu=number",
    "system/channel": "", "channel/end": "pd!text id!number pp=flag notify=flag setvar_id=text",
}


def unless(number, line, condition):
    if not condition:
        raise Fault(number, line)


def reference(found):
    name, end = found.groups()
    code = re.fullmatch("#(x)?([0-9a-fA-F]+)", name)
    if not end or not code and name not in ENTITIES:
        raise ValueError
    number = int(code[2], 16 if code[1] else 10) if code else ord(ENTITIES[name])
    if not 32 <= number <= 126:
        raise ValueError
    return chr(number)


class Scanner:
    """Goes over a text: finds the line of each element, and the first fault, which is always at the place that was reached."""

    def __init__(self, text):
        self.text, self.at = text, 0

    def fail(self, number=50):
        raise Fault(number, 1 + self.text.count(b"\n", 0, self.at))

    def take(self, pattern):
        found = pattern.match(self.text, self.at)
        self.at = found.end() if found else self.at
        return found[0] if found else b""

    def expect(self, word):
        if not self.text.startswith(word, self.at):
            self.fail()
        self.at += len(word)

    def name(self):
        name = self.take(NAME)
        if name in (b"", b"xmlns"):
            self.fail()
        return name

    def value(self):
        self.take(SPACE), self.expect(b"="), self.take(SPACE)
        quote = self.text[self.at : self.at + 1]
        self.expect(quote if quote in VALUES else b'"')
        value = self.take(VALUES[quote]).decode()
        self.expect(quote)
        return value

    def declared(self, word, *values):
        if not self.take(SPACE):
            self.fail()
        self.expect(word)
        if self.value() not in values:
            self.fail()

    def tag(self):
        """Goes over the attributes and the end of a tag; whether the tag is empty."""
        names = []
        while True:
            spaces = self.take(SPACE)
            if self.text.startswith((b">", b"/"), self.at):
                break
            if not spaces:
                self.fail()
            name = self.name()
            if name in names or len(names) >= ATTRIBUTES:
                self.fail(52 if name in names else 54)
            names.append(name)
            try:
                if len(re.sub("&([^;]*)(;?)", reference, self.value())) > VALUE:
                    self.fail(54)
            except ValueError:
                self.fail()
        empty = self.text.startswith(b"/>", self.at)
        self.expect(b"/>" if empty else b">")
        return empty

    def lines(self):
        """The line of each element."""
        lines, names = [], []
        if len(self.text) > TEXT:
            raise Fault(54, 1)
        if self.text.startswith(b"<?xml"):
            self.at = 5
            self.declared(b"version", "1.0")
            if re.compile(rb"[ \t\n\r]*encoding").match(self.text, self.at):
                self.declared(b"encoding", "UTF-8", "utf-8", "US-ASCII", "us-ascii")
            self.take(SPACE), self.expect(b"?>")
        while self.take(SPACE) is not None and self.at < len(self.text):
            if self.text.startswith(b"<!--", self.at):
                self.at += 4
                self.take(COMMENT), self.expect(b"-->")
            elif lines and not names:
                self.fail()
            elif self.text.startswith(b"</", self.at):
                self.at += 2
                if self.name() != (names.pop() if names else None):
                    self.fail()
                self.take(SPACE), self.expect(b">")
            else:
                line = 1 + self.text.count(b"\n", 0, self.at)
                self.expect(b"<")
                name = self.name()
                if len(names) >= LEVELS or len(lines) >= ELEMENTS:
                    self.fail(54)
                lines.append(line)
                names += [] if self.tag() else [name]
        if names or not lines:
            self.fail()
        return lines


def elements(text):
    """All elements in the order of their tags, with their lines and those that they stand in."""
    lines = iter(Scanner(text).lines())
    root = ElementTree.fromstring(re.sub(rb"[\x80-\xff]", b"?", text))

    def below(element, outer):
        node = SimpleNamespace(place=f"{outer.tag if outer else ''}/{element.tag}", tag=element.tag, outer=outer, line=next(lines))
        node.says = element.attrib
        yield node
        for inner in element:
            yield from below(inner, node)

    return [*below(root, None)]


NUMBER = "_*[0-9][0-9_]*|0x_*[0-9a-fA-F][0-9a-fA-F_]*"
FORMS = {"text": ".*", "name": ".+", "number": NUMBER, "page": NUMBER, "flag": "true|false", "trigger": "level|edge", "rights": "(?=.*r)[rwx]+|x+"}


def value_of(form, value):
    """What a value says; ValueError where it hasn't this form."""
    if not re.fullmatch(FORMS[form], value):
        raise ValueError
    if form in ("number", "page"):
        told = int(value.replace("_", "").removeprefix("0x"), 16 if value.startswith("0x") else 10)
        if told >= 1 << 64 or form == "page" and told not in (0x1000, 0x200000):
            raise ValueError
        return told
    return value == "true" if form == "flag" else value


def judge_form(node):
    """Reads the values of an element's attributes: 50 and 54."""
    unless(50, node.line, node.place in ATTRIBUTES_OF)
    forms = {name: form for name, _, form in re.findall("(\\w+)([=!])(\\w+)", ATTRIBUTES_OF[node.place])}
    required = set(re.findall("(\\w+)!", ATTRIBUTES_OF[node.place]))
    try:
        node.says = {name: value_of(forms[name], value) for name, value in node.says.items()}
    except (KeyError, ValueError):
        raise Fault(50, node.line) from None
    unless(50, node.line, required <= set(node.says))
    unless(54, node.line, node.says.get("id", 0) <= 61 and node.says.get("priority", 0) <= 254)


def read_description(text):
    nodes = elements(text)
    for node in nodes:
        judge_form(node)
    with_images = [node.outer for node in nodes if node.tag == "program_image"]
    for node in nodes:
        unless(50, node.line, node.tag != "protection_domain" or any(one is node for one in with_images))
    d = SimpleNamespace(regions=[], domains=[], machines=[], processors=[], maps=[], channels=[])
    d.irqs, d.ids, d.children, d.begun = set(), set(), set(), None
    for readers in READERS:
        for node in nodes:
            if node.tag in readers:
                readers[node.tag](d, node, node.line, SimpleNamespace(**node.says))
    unless(55, d.begun and d.begun.line, not d.begun)
    return d


def place_of(items, name, line):
    unless(51, line, name in [item.name for item in items])
    return [item.name for item in items].index(name)


def take_id(ids, of, line):
    unless(52, line, of not in ids)
    ids.add(of)


def read_region(d, node, line, says):
    page, address = getattr(says, "page_size", 0x1000), getattr(says, "phys_addr", None)
    unless(52, line, says.name not in [one.name for one in d.regions])
    unless(55, line, says.size % page == 0)
    unless(55, line, address is None or address % page == 0 and address + says.size < 1 << 64)
    for other in d.regions:
        placed = None not in (address, other.address)
        unless(55, line, not placed or address >= other.address + other.size or other.address >= address + says.size)
    d.regions.append(SimpleNamespace(name=says.name, size=says.size, address=address, line=line))


def schedule(says):
    budget = getattr(says, "budget", 1000)
    return {"priority": getattr(says, "priority", 0), "budget": budget, "period": getattr(says, "period", budget)}


def read_domain(d, node, line, says):
    parent = (node.outer.number, says.id) if node.outer.tag == "protection_domain" else None
    new = SimpleNamespace(name=says.name, parent=parent, core=getattr(says, "cpu", 0), line=line, **schedule(says))
    new.serves, node.number = getattr(says, "pp", None), len(d.domains)
    unless(52, line, new.name not in [one.name for one in d.domains])
    if parent:
        take_id(d.children, parent, line)
    unless(55, line, new.budget <= new.period)
    unless(54, line, len(d.domains) < 63)
    d.domains.append(new)


def read_machine(d, node, line, says):
    new = SimpleNamespace(name=says.name, domain=node.outer.number, line=line, **schedule(says))
    node.number, node.machine = node.outer.number, len(d.machines)
    unless(52, line, all(new.name != one.name and new.domain != one.domain for one in d.machines))
    unless(55, line, new.budget <= new.period)
    d.machines.append(new)
    if hasattr(says, "id"):
        read_processor(d, SimpleNamespace(outer=node), line, says)


def read_processor(d, node, line, says):
    new = SimpleNamespace(machine=node.outer.machine, domain=node.outer.number, id=says.id, core=getattr(says, "cpu", 0), line=line)
    take_id(d.children, (new.domain, new.id), line)
    d.processors.append(new)


def read_map(d, node, line, says):
    user = ("machine", node.outer.machine) if node.outer.tag == "virtual_machine" else ("domain", node.outer.number)
    d.maps.append((user, place_of(d.regions, says.mr, line), "w" in getattr(says, "perms", "rw")))


def read_irq(d, node, line, says):
    take_id(d.ids, (node.outer.number, says.id), line)
    take_id(d.irqs, says.irq, line)


def read_channel(d, node, line, says):
    unless(55, d.begun and d.begun.line, not d.begun)
    d.begun = SimpleNamespace(line=line, ends=[])


def read_end(d, node, line, says):
    domain = place_of(d.domains, says.pd, line)
    unless(52, line, (domain, says.id) not in d.ids)
    unless(55, line, not hasattr(says, "pp") or all(one.serves is None for one in d.domains))
    unless(55, line, d.begun)
    d.begun.ends.append(SimpleNamespace(domain=domain, id=says.id, calls=getattr(says, "pp", False), notifies=getattr(says, "notify", True)))
    if len(d.begun.ends) == 2:
        first, second = d.begun.ends
        for own, other in [(first, second), (second, first)]:
            below = d.domains[own.domain].priority < d.domains[other.domain].priority
            unless(55, d.begun.line, below or not own.calls)
            own.calls = own.calls or below and bool(d.domains[other.domain].serves)
        unless(55, d.begun.line, not (first.calls and second.calls))
        d.channels.append((first, second))
        d.begun = None
    d.ids.add((domain, says.id))


# What is read first, next and last, each in the order of the text.
READERS = [
    {"memory_region": read_region},
    {"protection_domain": read_domain, "virtual_machine": read_machine, "vcpu": read_processor, "map": read_map, "irq": read_irq,
     "setvar": lambda d, node, line, says: place_of(d.regions, says.region_paddr, line)},
    {"channel": read_channel, "end": read_end},
]
