"""Reads numbers and bytes from the beginning of a file to its end."""

from xm_tools.failure import Unusable


class Cursor:
    """A place in a file's bytes. What passes their end is Unusable, with the place at which the field begins."""

    def __init__(self, name: str, content: bytes, place: int = 0) -> None:
        self.name, self.content, self.place = name, content, place

    def fail(self, fault: str) -> Unusable:
        return Unusable(f"{self.name}: {fault}")

    def take(self, size: int) -> bytes:
        end = self.place + size
        if end > len(self.content):
            raise self.fail(f"short at={self.place}")
        taken = self.content[self.place : end]
        self.place = end
        return taken

    def number(self, size: int) -> int:
        return int.from_bytes(self.take(size), "big")

    def below(self, size: int, limit: int) -> int:
        """A number that is less than a limit."""
        place = self.place
        number = self.number(size)
        if number >= limit:
            raise self.fail(f"field at={place}")
        return number

    def flag(self) -> bool:
        return self.below(1, 2) == 1

    def head(self, magic: bytes, versions: tuple[int, ...]) -> int:
        """The name and the version that a file begins with."""
        if self.take(len(magic)) != magic:
            raise self.fail(f"magic: it does not begin with {magic.decode()}")
        version = self.number(2)
        if version not in versions:
            raise self.fail(f"version found={version}")
        return version

    def end(self) -> None:
        if self.place != len(self.content):
            raise self.fail(f"trailing at={self.place}")
