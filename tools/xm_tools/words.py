"""Command lines: options with values, and the words that are left. What is none of a command's is Unusable."""

import re
from dataclasses import dataclass, field

from xm_tools.failure import Unusable

DIGITS = re.compile("[0-9]{1,10}")


@dataclass
class Words:
    """The words of a command line that are no options, and the values of each option in their order."""

    usage: str
    plain: list[str] = field(default_factory=list)
    options: dict[str, list[str]] = field(default_factory=dict)

    def fail(self) -> Unusable:
        return Unusable(f"usage: {self.usage}")

    def has(self, option: str) -> bool:
        return option in self.options

    def value(self, option: str) -> str | None:
        """The value of an option that may stand once."""
        values = self.options.get(option, [])
        if len(values) > 1:
            raise self.fail()
        return values[0] if values else None

    def number(self, option: str) -> int | None:
        value = self.value(option)
        if value is not None and not DIGITS.fullmatch(value):
            raise self.fail()
        return None if value is None else int(value)


def words_of(
    usage: str, given: list[str], least: int, most: int, valued: tuple[str, ...] = (), plain: tuple[str, ...] = ()
) -> Words:
    """Reads a command line of `least` to `most` words, options with a value each, and options without."""
    words, left = Words(usage), list(given)
    while left:
        word = left.pop(0)
        if word in valued and left:
            words.options.setdefault(word, []).append(left.pop(0))
        elif word in plain:
            words.options.setdefault(word, []).append("")
        elif word.startswith("--"):
            raise words.fail()
        else:
            words.plain.append(word)
    if not least <= len(words.plain) <= most:
        raise words.fail()
    return words
