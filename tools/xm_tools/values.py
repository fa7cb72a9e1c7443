"""The forms of values in a description, each by its words in docs/CONFIGURATION.md. A text that has not the form is None."""

import re
from collections.abc import Callable
from fractions import Fraction

from xm_tools.reference import reference

WORD = 1 << 32
NUMBER = re.compile("[0-9]{1,10}")
ADDRESS = re.compile("0x([0-9A-Fa-f]{1,8})")
MEASURED = re.compile(r"([0-9]{1,10}(?:\.[0-9]{1,6})?)([A-Za-z]+)")
NAME = re.compile("[ !#-%(-;=-~]{1,31}")
PRINTED = re.compile("[ -~]*")
CHOICE = re.compile(r"([\w-]+) or ([\w-]+)")
SIZES = {"B": 1, "KB": 1024, "MB": 1048576}
TIMES = {"us": 1, "ms": 1000, "s": 1000000}
FLAGS = ("none", "system", "boot", "fp")
EVENT, ACTION = "XM_HM_EV_", "XM_HM_AC_"

Value = int | str | bool | None


def word(number: int | Fraction) -> int | None:
    """A whole number below 2^32."""
    return int(number) if number < WORD and Fraction(number).denominator == 1 else None


def number(text: str) -> int | None:
    return word(int(text)) if NUMBER.fullmatch(text) else None


def address(text: str) -> int | None:
    found = ADDRESS.fullmatch(text)
    return int(found[1], 16) if found else None


def measured(units: dict[str, int], text: str) -> int | None:
    found = MEASURED.fullmatch(text)
    return word(Fraction(found[1]) * units[found[2]]) if found and found[2] in units else None


def frequency(text: str) -> str | None:
    found = MEASURED.fullmatch(text)
    return text if found and found[2] == "Mhz" else None


def matching(form: re.Pattern[str], text: str) -> str | None:
    return text if form.fullmatch(text) else None


def flags(text: str) -> str | None:
    words = text.split(" ")
    return text if set(words) <= set(FLAGS) and len(set(words)) == len(words) else None


def listed(prefix: str, names: list[str], text: str) -> int | None:
    """The number of a name in a table, with its prefix."""
    name = text.removeprefix(prefix)
    return names.index(name) if text.startswith(prefix) and name in names else None


FORMS: dict[str, Callable[[str], Value]] = {
    "number": number,
    "address": address,
    "size": lambda text: measured(SIZES, text),
    "time": lambda text: measured(TIMES, text),
    "frequency": frequency,
    "name": lambda text: matching(NAME, text),
    "text": lambda text: matching(PRINTED, text),
}


def value_of(form: str, text: str) -> Value:
    """What a text of a form means, None where it has not the form."""
    if form in FORMS:
        return FORMS[form](text)
    if form.startswith(EVENT):
        return listed(EVENT, [event.name for event in reference().events], text)
    if form.startswith(ACTION):
        return listed(ACTION, list(reference().actions), text)
    choice = CHOICE.fullmatch(form)
    if choice:
        return text if text in choice.groups() else None
    return flags(text)
