"""Places in a text: lines and columns of bytes, and what stands there."""

from dataclasses import dataclass

MOST_SHOWN = 100
NEWLINE = b"\n"


@dataclass
class Text:
    """The bytes of a file, and its name."""

    path: str
    content: bytes

    def place(self, at: int) -> str:
        """A byte as editors name it: file, line and column, both from 1."""
        start = self.content.rfind(NEWLINE, 0, at) + 1
        column = len(self.content[start:at].decode("utf-8", "replace")) + 1
        return f"{self.path}:{self.content.count(NEWLINE, 0, at) + 1}:{column}"

    def shown(self, at: int) -> str:
        """What stands at a byte: a tag up to its end, else the rest of the line."""
        end = self.content.find(b"\n", at)
        if self.content[at : at + 1] == b"<":
            end = self.content.find(b">", at) + 1
        text = self.content[at : end if end > 0 else len(self.content)].decode("utf-8", "replace")
        one = " ".join(text.split())
        shown = "".join(mark if mark.isprintable() else "?" for mark in one)
        return shown if len(shown) <= MOST_SHOWN else shown[:MOST_SHOWN] + " .."
