"""The tables of docs/CONFIGURATION.md and docs/ERRORS.md: elements, forms of values, rules, events, and lines on standard error.

They stand in reference.json, which `tools/xm_reference` makes of these pages and compares with them.
"""

import functools
import json
from dataclasses import dataclass
from importlib import resources
from typing import Any


@dataclass(frozen=True)
class Child:
    """A child that an element may have. `least` and `most` count it in its parent; None stands for no limit.

    `is_single` says that a second one is a fault of the text. Where it is not, a count past `most` breaks rule 1.
    """

    name: str
    least: int
    most: int | None
    is_single: bool


@dataclass(frozen=True)
class AttributeForm:
    """An attribute: its name, the form of its value in the words of the page, and whether it is required."""

    name: str
    form: str
    is_required: bool


@dataclass(frozen=True)
class Element:
    children: tuple[Child, ...]
    attributes: tuple[AttributeForm, ...]


@dataclass(frozen=True)
class Rule:
    number: int
    name: str
    holds: str
    reported_at: str
    remedy: str


@dataclass(frozen=True)
class Event:
    name: str
    default: str
    refused: tuple[str, ...]


@dataclass(frozen=True)
class ErrorRow:
    """A line on standard error: the section of the page, what is printed, what it means, and what to do."""

    section: str
    text: str
    means: str
    remedy: str


@dataclass(frozen=True)
class Reference:
    elements: dict[str, Element]
    forms: dict[str, str]
    rules: dict[int, Rule]
    events: tuple[Event, ...]
    actions: tuple[str, ...]
    lines: tuple[ErrorRow, ...]


def element_of(table: dict[str, Any]) -> Element:
    children = tuple(Child(**child) for child in table["children"])
    return Element(children, tuple(AttributeForm(**attribute) for attribute in table["attributes"]))


@functools.cache
def reference() -> Reference:
    tables = json.loads((resources.files("xm_tools") / "reference.json").read_text(encoding="utf-8"))
    return Reference(
        elements={name: element_of(element) for name, element in tables["elements"].items()},
        forms=tables["forms"],
        rules={rule["number"]: Rule(**rule) for rule in tables["rules"]},
        events=tuple(Event(event["name"], event["default"], tuple(event["refused"])) for event in tables["events"]),
        actions=tuple(tables["actions"]),
        lines=tuple(ErrorRow(**line) for line in tables["lines"]),
    )
