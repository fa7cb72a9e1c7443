"""Reads a system description: the faults of its text, each with its place, and the system that it describes."""

import re
from collections.abc import Container, Iterator
from dataclasses import dataclass, replace

from xm_tools import hints
from xm_tools.failure import Unusable
from xm_tools.files import content_of
from xm_tools.markup import Attribute, Element, markup_of
from xm_tools.reference import AttributeForm, reference
from xm_tools.system import Answer, Area, Channel, End, Link, Need, Partition, Plan, Port, Region, Slot, System, Uart
from xm_tools.texts import Text
from xm_tools.values import Value, value_of

ROOT = "SystemDescription"
SIMPLE = re.compile("[A-Za-z][A-Za-z0-9]*")
# The order of faults at one place.
ORDER = [
    "bad-item", "reference", "unknown-element", "unknown-attribute", "missing-attribute", "repeated-attribute", "bad-value",
    "unclosed", "wrong-child", "missing-child",
]  # fmt: skip


@dataclass(frozen=True)
class Fault:
    """A fault of the text: its kind in the words of the program, its place, and the name of what is missing.

    Its element or attribute begins at `shown_at`; `remedy` is how to mend this one, where more is known than of its kind.
    """

    kind: str
    at: int
    which: str = ""
    shown_at: int | None = None
    remedy: str = ""

    @property
    def order(self) -> tuple[int, int]:
        return self.at, ORDER.index(self.kind)

    def line(self) -> str:
        return f"{self.kind} at={self.at}" + (f" which={self.which}" if self.which else "")


def value_faults(attribute: Attribute, form: AttributeForm) -> Iterator[Fault]:
    value = attribute.value
    odd = next((place for place, mark in enumerate(value) if mark in "&<" or ord(mark) > 127), None)
    if odd is not None:
        place = attribute.value_at + len(value[:odd].encode())
        yield Fault("reference" if value[odd] == "&" else "bad-item", place, "", attribute.at)
    elif value_of(form.form, value) is None:
        remedy = hints.of_value(attribute.name, form.form, value)
        yield Fault("bad-value", attribute.value_at, "", attribute.at, remedy)


def attribute_faults(element: Element) -> Iterator[Fault]:
    forms = {form.name: form for form in reference().elements[element.name].attributes}
    for attribute in element.attributes:
        if attribute.name in forms:
            yield from value_faults(attribute, forms[attribute.name])
        else:
            remedy = hints.of_attribute(element.name, attribute.name)
            yield broken_name(attribute.name, attribute.at, forms, "unknown-attribute", remedy)
    for form in forms.values():
        if form.is_required and element.get(form.name) is None:
            yield Fault("missing-attribute", element.tag_end, form.name, element.at)


def broken_name(name: str, at: int, known: Container[str], unknown: str, remedy: str) -> Fault:
    """The fault of a name that is not known: where its letters and digits are, the spelling breaks after them."""
    simple = SIMPLE.match(name)
    if simple is None:
        return Fault("bad-item", at)
    if simple[0] in known:
        return Fault("bad-item", at + simple.end(), "", at)
    return Fault(unknown, at, "", at, remedy)


def child_faults(element: Element) -> Iterator[Fault]:
    allowed = {child.name: child for child in reference().elements[element.name].children}
    seen: set[str] = set()
    for child in element.children:
        if child.name not in reference().elements:
            continue
        if child.name not in allowed or (allowed[child.name].is_single and child.name in seen):
            yield Fault("wrong-child", child.at, "", child.at, hints.of_child(element.name, child.name))
        seen.add(child.name)
    for needed in allowed.values():
        if element.is_closed and needed.least and needed.name not in seen:
            yield Fault("missing-child", element.end, needed.name, element.at)


def element_faults(element: Element, parent: str | None) -> Iterator[Fault]:
    """The faults of an element, by the name of its parent, and of all in it."""
    if element.name in reference().elements:
        yield from attribute_faults(element)
        yield from child_faults(element)
    else:
        remedy = hints.of_child(parent, element.name) if parent else f"the first element is {ROOT}"
        fault = broken_name(element.name, element.at, reference().elements, "unknown-element", remedy)
        yield replace(fault, at=fault.at + 1, shown_at=element.at) if fault.kind == "bad-item" else fault
    for child in element.children:
        yield from element_faults(child, element.name)


def faults_of(root: Element) -> list[Fault]:
    """All faults of a text that is XML of the subset, in the order in which the program finds them."""
    faults = list(element_faults(root, None))
    if root.name != ROOT and root.name in reference().elements:
        faults.append(Fault("wrong-child", root.at, "", root.at, f"the first element is {ROOT}"))
    return sorted(faults, key=lambda fault: fault.order)


class Reader:
    """Makes the system of elements without faults."""

    def value(self, element: Element, name: str) -> Value:
        text = element.get(name)
        if text is None:
            return None
        form = next(form for form in reference().elements[element.name].attributes if form.name == name)
        return value_of(form.form, text)

    def number(self, element: Element, name: str) -> int:
        value = self.value(element, name)
        return value if isinstance(value, int) else 0

    def text(self, element: Element, name: str) -> str:
        return element.get(name) or ""

    def all(self, element: Element, *path: str) -> list[Element]:
        """The elements of a path from an element downward, in the order of the text."""
        found = [element]
        for name in path:
            found = [child for one in found for child in one.children if child.name == name]
        return found

    def system(self, root: Element) -> System:
        processors = self.all(root, "HwDescription", "ProcessorTable", "Processor")
        return System(
            name=self.text(root, "name"),
            processor=self.number(processors[0], "id"),
            regions=tuple(self.region(one) for one in self.all(root, "HwDescription", "MemoryLayout", "Region")),
            hypervisor_size=self.number(self.all(root, "XMHypervisor", "PhysicalMemoryArea")[0], "size"),
            uarts=tuple(self.uart(one) for one in self.all(root, "HwDescription", "Devices", "Uart")),
            plans=tuple(self.plan(one) for one in self.all(processors[0], "CyclicPlanTable", "Plan")),
            partitions=tuple(self.partition(one) for one in self.all(root, "PartitionTable", "Partition")),
            channels=tuple(
                self.channel(one) for table in self.all(root, "Channels") for one in table.children if one.name != "Ipvi"
            ),
            links=tuple(self.link(one) for one in self.all(root, "Channels", "Ipvi")),
            at=root.at,
        )

    def region(self, element: Element) -> Region:
        return Region(self.number(element, "start"), self.number(element, "size"), element.at)

    def uart(self, element: Element) -> Uart:
        return Uart(self.number(element, "id"), self.text(element, "name"), element.at)

    def plan(self, element: Element) -> Plan:
        slots = tuple(self.slot(one) for one in self.all(element, "Slot"))
        return Plan(self.number(element, "id"), self.number(element, "majorFrame"), slots, element.at)

    def slot(self, element: Element) -> Slot:
        start, duration = self.number(element, "start"), self.number(element, "duration")
        return Slot(self.number(element, "id"), start, duration, self.number(element, "partitionId"), element.at)

    def partition(self, element: Element) -> Partition:
        needs = self.all(element, "TemporalRequirements")
        answers = [self.answer(one) for one in self.all(element, "HealthMonitor", "Event")]
        return Partition(
            number=self.number(element, "id"),
            name=self.text(element, "name"),
            is_system="system" in self.text(element, "flags").split(" "),
            console=element.get("console"),
            areas=tuple(self.area(one) for one in self.all(element, "PhysicalMemoryAreas", "Area")),
            need=Need(self.number(needs[0], "duration"), self.number(needs[0], "period")) if needs else None,
            answers=tuple(sorted(answers, key=lambda answer: answer.event)),
            ports=tuple(self.port(one) for one in self.all(element, "PortTable", "Port")),
            at=element.at,
        )

    def area(self, element: Element) -> Area:
        is_read_only = element.get("flags") == "read-only"
        return Area(self.number(element, "start"), self.number(element, "size"), element.at, is_read_only)

    def answer(self, element: Element) -> Answer:
        return Answer(self.number(element, "name"), self.number(element, "action"), element.get("log") != "no", element.at)

    def port(self, element: Element) -> Port:
        return Port(
            self.text(element, "name"), element.get("type") == "queuing", element.get("direction") == "source", element.at
        )

    def channel(self, element: Element) -> Channel:
        is_queuing = element.name == "QueuingChannel"
        return Channel(
            is_queuing=is_queuing,
            length=self.number(element, "maxMessageLength"),
            limit=self.number(element, "maxNoMessages" if is_queuing else "refreshPeriod"),
            source=self.end(self.all(element, "Source")[0]),
            destinations=tuple(self.end(one) for one in self.all(element, "Destination")),
            at=element.at,
        )

    def end(self, element: Element) -> End:
        return End(self.number(element, "partitionId"), self.text(element, "portName"), element.at)

    def link(self, element: Element) -> Link:
        source, destination = self.number(element, "sourceId"), self.number(element, "destinationId")
        return Link(self.number(element, "id"), source, destination, element.at)


def system_of(root: Element) -> System:
    """The system of a text without faults."""
    return Reader().system(root)


def read_description(path: str, content: bytes | None = None) -> System:
    """The system of a description. The first fault of the text is Unusable; rules are not looked at."""
    text = Text(path, content_of(path) if content is None else content)
    try:
        text.content.decode("utf-8")
    except UnicodeDecodeError as error:
        raise Unusable(f"{text.place(error.start)}: no UTF-8") from None
    markup = markup_of(text.content)
    faults = faults_of(markup.root) if markup.root else []
    if faults:
        raise Unusable(f"{text.place(faults[0].at)}: {faults[0].line()}")
    if markup.broken or not markup.root:
        raise Unusable(f"{text.place(markup.broken.at if markup.broken else 0)}: no description: {markup.broken}")
    return system_of(markup.root)
