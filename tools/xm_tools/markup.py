"""The elements of an XML text with the bytes at which they, their attributes and their ends stand."""

import re
from dataclasses import dataclass, field
from xml.parsers import expat

DECLARATION = re.compile(rb"\A<\?xml[ \t\r\n][^?&\x80-\xff]*\?>")
COMMENT = re.compile(rb"<!--(?:(?!--).)*-->", re.S)
ATTRIBUTE = re.compile(rb"""[ \t\r\n]+([^ \t\r\n=]+)[ \t\r\n]*=[ \t\r\n]*(?:"([^"]*)"|'([^']*)')""")
TAG_NAME = re.compile(rb"<([^ \t\r\n/>]+)")
# Elements within each other, more than a description has.
MOST_DEPTH = 100


class NoMarkup(Exception):
    """Why a text is no XML of the subset, the byte at which it is not, and that of the element that is open there."""

    def __init__(self, reason: str, at: int, opened: int | None = None) -> None:
        super().__init__(reason)
        self.reason, self.at, self.opened = reason, at, opened


@dataclass(frozen=True)
class Attribute:
    """An attribute, with the bytes at which its name and its value begin."""

    name: str
    value: str
    at: int
    value_at: int


@dataclass
class Element:
    """An element: where its `<` stands, where its start tag ends, and where the element ends, by the byte of the `<` or `/`."""

    name: str
    attributes: list[Attribute]
    at: int
    tag_end: int
    end: int
    children: list["Element"] = field(default_factory=list)
    is_closed: bool = False

    def get(self, name: str) -> str | None:
        return next((attribute.value for attribute in self.attributes if attribute.name == name), None)


def blanked(content: bytes) -> bytes:
    """The text with blanks instead of its declaration and its comments, whose contents are not looked at."""

    def blank(found: re.Match[bytes]) -> bytes:
        return re.sub(rb"[^\n]", b" ", found[0])

    return COMMENT.sub(blank, DECLARATION.sub(blank, content))


def tag_at(content: bytes, at: int) -> Element:
    """The start tag at a byte of a text that is known to be XML."""
    named = TAG_NAME.match(content, at)
    if named is None:
        raise NoMarkup("no tag", at)
    place, attributes = named.end(), []
    while found := ATTRIBUTE.match(content, place):
        group = 2 if found[2] is not None else 3
        attributes.append(Attribute(found[1].decode(), found[group].decode(), found.start(1), found.start(group)))
        place = found.end()
    while content[place : place + 1] in (b" ", b"\t", b"\r", b"\n"):
        place += 1
    return Element(named[1].decode(), attributes, at, place, place)


class Builder:
    """Takes what expat finds. What the subset does not have ends it."""

    def __init__(self, content: bytes) -> None:
        self.content = content
        self.parser = expat.ParserCreate("utf-8")
        self.open: list[Element] = []
        self.root: Element | None = None
        self.parser.StartElementHandler = self.start
        self.parser.EndElementHandler = self.end
        self.parser.CharacterDataHandler = self.text
        self.parser.StartDoctypeDeclHandler = self.refused
        self.parser.ProcessingInstructionHandler = self.refused
        self.parser.StartCdataSectionHandler = self.refused

    @property
    def place(self) -> int:
        return self.parser.CurrentByteIndex

    def start(self, name: str, given: dict[str, str]) -> None:
        element = tag_at(self.content, self.place)
        if len(self.open) >= MOST_DEPTH:
            raise NoMarkup("too many elements within each other", element.at)
        if self.open:
            self.open[-1].children.append(element)
        else:
            self.root = element
        self.open.append(element)

    def end(self, name: str) -> None:
        element = self.open.pop()
        element.is_closed = True
        if self.content[element.tag_end : element.tag_end + 1] == b">":
            element.end = self.place

    def text(self, text: str) -> None:
        if text.strip(" \t\r\n"):
            raise NoMarkup("text between tags", self.place)

    def refused(self, *given: object) -> None:
        raise NoMarkup("CDATA, a document type or a processing instruction", self.place)


@dataclass(frozen=True)
class Markup:
    """The root of a text, and why the text is no XML of the subset from some byte on, where it is not."""

    root: Element | None
    broken: NoMarkup | None


def markup_of(content: bytes) -> Markup:
    plain = blanked(content)
    builder = Builder(plain)
    broken = None
    try:
        builder.parser.Parse(plain, True)
    except expat.ExpatError as error:
        opened = builder.open[-1].at if builder.open else None
        broken = NoMarkup(expat.ErrorString(error.code), builder.parser.ErrorByteIndex, opened)
    except NoMarkup as fault:
        broken = fault
    return Markup(builder.root, broken)
