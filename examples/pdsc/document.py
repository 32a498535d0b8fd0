"""A .pdsc: its elements, and where each of their texts is in the file.

An offset counts bytes of the file in UTF-8. A place is a line and a column, both from 1, and a column counts characters.
"""

from __future__ import annotations

import bisect
import codecs
import re
from dataclasses import dataclass, field
from pathlib import Path
from typing import NamedTuple, Optional
from xml.parsers import expat

MARKS = ((codecs.BOM_UTF8, "utf-8"), (codecs.BOM_UTF16_LE, "utf-16-le"), (codecs.BOM_UTF16_BE, "utf-16-be"))
DECLARED = re.compile(rb"""<\?xml[^>]*?\sencoding\s*=\s*["']([\w.-]+)["']""")
ATTRIBUTE = re.compile(rb"""\s+([^\s=>]+)\s*=\s*(?:"([^"]*)"|'([^']*)')""")
REFERENCE = re.compile(rb"&#x([0-9a-fA-F]+);|&#([0-9]+);|&(amp|lt|gt|quot|apos);|&[^;]*;|\r\n|\r|\n")
ENTITIES = {b"amp": "&", b"lt": "<", b"gt": ">", b"quot": '"', b"apos": "'"}


class Place(NamedTuple):
    """A line and a column of a file."""

    line: int
    column: int


class Refused(Exception):
    """A file that is no .pdsc, or a request that it cannot answer. The text says why, and where."""


@dataclass
class Text:
    """A text of a file, and the parts that it has: where each begins in the text, and where in the file. Both count bytes of UTF-8."""

    value: str
    parts: list[tuple[int, int]]


@dataclass(eq=False)
class Element:
    """An element: its name, its attributes, the offset of its `<`, and what is directly in it."""

    tag: str
    attributes: dict[str, str]
    at: int
    children: list[Element] = field(default_factory=list)
    by_tag: dict[str, list[Element]] = field(default_factory=dict)
    pieces: list[bytes] = field(default_factory=list)
    parts: list[tuple[int, int]] = field(default_factory=list)
    length: int = 0

    def add(self, piece: bytes, at: int) -> None:
        """Adds a piece of text that is so in the file at an offset."""
        if not self.parts or self.parts[-1][1] - self.parts[-1][0] != at - self.length:
            self.parts.append((self.length, at))
        self.pieces.append(piece)
        self.length += len(piece)

    def text(self) -> Text:
        """The text directly in the element, without that of the elements in it."""
        return Text(b"".join(self.pieces).decode(), self.parts)

    def is_blank(self) -> bool:
        return not b"".join(self.pieces).strip()

    def named(self, tag: str) -> list[Element]:
        """The elements of a name that are directly in it."""
        return self.by_tag.get(tag, [])

    def pname(self) -> Optional[str]:
        """The processor that the element is for; none where it is for each."""
        return self.attributes.get("Pname", "").strip() or None


class Document:
    """A .pdsc that was read: its file's name, its content in UTF-8, and its outermost element."""

    def __init__(self, name: str, content: bytes):
        """Reads XML from the bytes of a file. Raises Refused where they are no XML, or XML that this reader does not follow."""
        self.name = name
        self.raw = b""
        self.starts = [0]
        self.raw = self.decoded(content).encode()
        self.starts += (match.end() for match in re.finditer(rb"\r\n|\r|\n", self.raw))
        self.root = Reader(self).read()

    @classmethod
    def read(cls, path: str) -> Document:
        """Reads the file at a path. Raises OSError where it cannot be read, and Refused as the constructor does."""
        return cls(Path(path).name, Path(path).read_bytes())

    def decoded(self, content: bytes) -> str:
        """The text of a file, by its byte order mark or the encoding that it declares."""
        if content.startswith(b"PK\x03\x04"):
            raise Refused(f"{self.name}: this is an archive (a .pack is one): give the .pdsc that is in it")
        declared = DECLARED.match(content)
        mark, encoding = b"", declared[1].decode() if declared else "utf-8"
        for mark_of, encoding_of in MARKS:
            if content.startswith(mark_of):
                mark, encoding = mark_of, encoding_of
        try:
            return content[len(mark):].decode(encoding)
        except UnicodeDecodeError as error:
            line = 1 + content.count(b"\n", 0, len(mark) + error.start)
            raise Refused(f"{self.name}:{line}: this byte is none of the encoding {encoding}") from None
        except LookupError:
            raise Refused(f"{self.name}:1: no encoding is known as {encoding}") from None

    def place(self, offset: int) -> Place:
        """The place of an offset."""
        line = bisect.bisect_right(self.starts, offset)
        start = self.starts[line - 1]
        return Place(line, 1 + len(self.raw[start:offset].decode(errors="replace")))

    def line(self, number: int) -> str:
        """A line of the file, without its end."""
        end = self.starts[number] if number < len(self.starts) else len(self.raw)
        return self.raw[self.starts[number - 1]:end].decode().rstrip("\r\n")

    def attribute(self, element: Element, name: str) -> Text:
        """The value of an attribute that the element has, with its parts."""
        value = element.attributes[name]
        raw, at = self.attribute_raw(element, name)
        parts, shorter = [(0, at)], 0
        for match in REFERENCE.finditer(raw):
            character = replacement(match)
            if character is None:  # an entity of the file: all of the value is at its beginning
                return Text(value, [(0, at)])
            shorter += len(match[0]) - len(character.encode())
            parts.append((match.end() - shorter, at + match.end()))
        return Text(value, parts)

    def attribute_raw(self, element: Element, name: str) -> tuple[bytes, int]:
        """The value of an attribute as it is in the file, and its offset."""
        tag = b"<" + element.tag.encode()
        at = element.at + len(tag)
        if not self.raw.startswith(tag, element.at):  # the element comes from an entity
            return b"", element.at
        while True:
            match = ATTRIBUTE.match(self.raw, at)
            if not match:
                return b"", element.at
            if match[1].decode() == name:
                number = 2 if match[2] is not None else 3
                return match[number], match.start(number)
            at = match.end()


def replacement(match: re.Match[bytes]) -> Optional[str]:
    """The character that a reference or a line end of an attribute becomes; none for an entity that a file declares."""
    hexadecimal, decimal, name = match.groups()
    if hexadecimal or decimal:
        return chr(int(hexadecimal, 16) if hexadecimal else int(decimal))
    return " " if match[0].isspace() else ENTITIES.get(name)


class Reader:
    """Builds the elements of a document while expat reads it."""

    def __init__(self, document: Document):
        self.document = document
        self.open: list[Element] = []
        self.root: Optional[Element] = None
        self.parser = expat.ParserCreate()
        self.parser.StartElementHandler = self.start
        self.parser.EndElementHandler = self.end
        self.parser.CharacterDataHandler = self.characters
        self.parser.SkippedEntityHandler = self.skipped
        self.parser.ExternalEntityRefHandler = self.external

    def read(self) -> Element:
        try:
            self.parser.Parse(self.document.raw.decode(), True)
        except expat.ExpatError as error:
            where = self.document.place(max(self.parser.ErrorByteIndex, 0))
            raise Refused(f"{self.where(where)}: no XML: {expat.ErrorString(error.code)}") from None
        assert self.root is not None
        return self.root

    def where(self, place: Place) -> str:
        return f"{self.document.name}:{place.line}:{place.column}"

    def start(self, tag: str, attributes: dict[str, str]) -> None:
        element = Element(tag, attributes, self.parser.CurrentByteIndex)
        if attributes.get("xmlns"):
            where = self.where(self.document.place(element.at))
            raise Refused(f"{where}: <{tag}> has the namespace {attributes['xmlns']}: the elements of a .pdsc have none")
        if self.open:
            self.open[-1].children.append(element)
            self.open[-1].by_tag.setdefault(tag, []).append(element)
        else:
            self.root = element
        self.open.append(element)

    def end(self, _tag: str) -> None:
        self.open.pop()

    def characters(self, data: str) -> None:
        """Adds a stretch of text. What comes from an entity is, character by character, at the reference."""
        at, piece = self.parser.CurrentByteIndex, data.encode()
        if self.document.raw.startswith(piece, at):
            self.open[-1].add(piece, at)
            return
        for character in data:
            self.open[-1].add(character.encode(), at)

    def skipped(self, name: str, is_parameter: bool) -> None:
        if is_parameter:
            return
        where = self.where(self.document.place(self.parser.CurrentByteIndex))
        raise Refused(f"{where}: the entity {name} is not declared in the file")

    def external(self, _context: str, _base: str, system: str, _public: str) -> int:
        where = self.where(self.document.place(self.parser.CurrentByteIndex))
        raise Refused(f"{where}: an entity is in another file, {system}")
