"""What is said of a .pdsc while it becomes a job: warnings and refusals by line, and where each text of the job is in the .pdsc."""

from __future__ import annotations

import bisect
import re
from dataclasses import dataclass, field
from functools import cached_property
from typing import NamedTuple, Optional

from .document import Document, Element, Place, Text

PAST_ASCII = re.compile(rb"[\x80-\xff]+")


class Note(NamedTuple):
    """A warning, or a refusal: with one no job is made."""

    file: str
    place: Place
    is_refusal: bool
    text: str

    def __str__(self) -> str:
        kind = "refused" if self.is_refusal else "warning"
        return f"{self.file}:{self.place.line}:{self.place.column}: {kind}: {self.text}"


@dataclass
class Notes:
    """The warnings and refusals of a conversion, in order, each once."""

    notes: dict[Note, None] = field(default_factory=dict)

    def warn(self, document: Document, element: Element, text: str) -> None:
        self.notes[Note(document.name, document.place(element.at), False, text)] = None

    def refuse(self, document: Document, element: Element, text: str) -> None:
        self.notes[Note(document.name, document.place(element.at), True, text)] = None

    def has_refusal(self) -> bool:
        return any(note.is_refusal for note in self.notes)


class Piece(NamedTuple):
    """From this line and column of a text on, the text is that of the file from this place on, until the next piece."""

    line: int
    column: int
    place: Place

    def at(self, line: int, column: int) -> Place:
        """The place in the file of a line and a column of the text, which are in this piece."""
        if line == self.line:
            return Place(self.place.line, self.place.column + column - self.column)
        return Place(self.place.line + line - self.line, column)


@dataclass
class Stretch:
    """Where a text is: its element, and, where it is no whole element, the text."""

    document: Document
    element: Element
    text: Optional[Text] = None

    @cached_property
    def pieces(self) -> list[Piece]:
        """The pieces of the text in order, at least one. The one of an element is its beginning."""
        found = pieces_of(self.document, self.text) if self.text else []
        return found or [Piece(1, 1, self.document.place(self.element.at))]

    def at(self, line: int, column: int) -> Place:
        """The place in the file of a line and a column of the text. At 0 and 0 it is where the text begins."""
        found = bisect.bisect_right([(piece.line, piece.column) for piece in self.pieces], (line, column))
        return self.pieces[found - 1].at(line, column) if found else self.pieces[0].place


class Places:
    """Where each text, step and sequence of a job is, by its path in the job."""

    def __init__(self) -> None:
        self.stretches: dict[str, Stretch] = {}

    def add(self, path: str, document: Document, element: Element, text: Optional[Text] = None) -> None:
        """Adds the place of an element, or of a text that is in it or one of its attributes."""
        self.stretches[path] = Stretch(document, element, text)

    def find(self, path: str) -> Optional[Stretch]:
        """The stretch of a path, or else of the longest path before it."""
        while path and path not in self.stretches:
            path = path.rpartition("/")[0]
        return self.stretches.get(path)

    def value(self) -> dict:
        """The places as a JSON value."""
        return {"places": [{
            "path": path,
            "file": stretch.document.name,
            "line": stretch.pieces[0].place.line,
            "column": stretch.pieces[0].place.column,
            "pieces": [[piece.line, piece.column, *piece.place] for piece in stretch.pieces],
        } for path, stretch in self.stretches.items()]}


def pieces_of(document: Document, text: Text) -> list[Piece]:
    """The pieces of a text. In the text columns count bytes, so one begins after each character past ASCII too."""
    raw = text.value.encode()
    starts = [0, *(match.end() for match in re.finditer(b"\n", raw))]
    pieces: list[Piece] = []
    for text_at, file_at in parts_of(raw, text.parts):
        line = bisect.bisect_right(starts, text_at)
        column = 1 + text_at - starts[line - 1]
        place = document.place(file_at)
        if not pieces or pieces[-1].at(line, column) != place:
            pieces.append(Piece(line, column, place))
    return pieces


def parts_of(raw: bytes, parts: list[tuple[int, int]]) -> list[tuple[int, int]]:
    """The parts of a text, each cut after the characters past ASCII that it has."""
    cut = []
    for number, (text_at, file_at) in enumerate(parts):
        end = parts[number + 1][0] if number + 1 < len(parts) else len(raw)
        cut.append((text_at, file_at))
        if not raw[text_at:end].isascii():
            ends = (match.end() for match in PAST_ASCII.finditer(raw, text_at, end))
            cut += ((at, file_at + at - text_at) for at in ends if at < end)
    return cut
