"""The devices of a .pdsc, and the levels and processors of each."""

from __future__ import annotations

from dataclasses import dataclass
from typing import Iterable, Iterator, Optional

from .document import Document, Element, Refused

# The elements of a level that may be for one processor. Those of sequences may be, too.
FOR_ONE = ("processor", "debug", "debugvars", "memory")


@dataclass
class Choice:
    """What of a pack is converted: the levels of one device, or, without them, all; and for which processor."""

    levels: Optional[list[Element]] = None
    pname: Optional[str] = None

    def keeps(self, element: Element) -> bool:
        """Whether a level in a kept one is kept: each variant of a kept device is."""
        return self.levels is None or element.tag == "variant" or element in self.levels


class Pack:
    """The families of a .pdsc, the levels of each device from the family down, and the processors that it names."""

    def __init__(self, document: Document):
        """Raises Refused where the document is no pack, or has no families."""
        self.document = document
        place = document.place(document.root.at)
        if document.root.tag != "package":
            raise Refused(f"{document.name}:{place.line}:{place.column}: <{document.root.tag}> is no <package>")
        self.families = [family for group in document.root.named("devices") for family in group.named("family")]
        if not self.families:
            raise Refused(f"{document.name}: no <family> is in its <devices>")
        self.devices = [levels for family in self.families for levels in devices_of(family)]
        self.processors = processors(self.levels())

    def levels(self) -> list[Element]:
        """Every level, each once."""
        found = dict.fromkeys(self.families)
        for levels in self.devices:
            found.update(dict.fromkeys([*levels, *levels[-1].named("variant")]))
        return list(found)

    def choose(self, device: Optional[str], variant: Optional[str], pname: Optional[str]) -> Choice:
        """The choice of these names. Raises Refused where the pack has no such device, variant or processor."""
        levels = None
        if device:
            levels = self.levels_of(device)
            levels += [self.variant_of(levels[-1], variant)] if variant else []
        if pname:
            self.check_pname(levels or self.levels(), pname)
        return Choice(levels, pname)

    def levels_of(self, device: str) -> list[Element]:
        """The levels of the one device of a name."""
        found = [levels for levels in self.devices if name_of(levels[-1]) == device]
        if len(found) > 1:
            lines = " and ".join(str(self.document.place(levels[-1].at).line) for levels in found)
            raise Refused(f"{self.document.name}: several devices have the name {device}, in the lines {lines}")
        if found:
            return list(found[0])
        of = [name_of(levels[-1]) for levels in self.devices if device in map(name_of, levels[-1].named("variant"))]
        hint = f": it is a variant, so use --device {of[0]} --variant {device}" if of else ""
        raise Refused(f"{self.document.name}: no device has the name {device}{hint}")

    def variant_of(self, device: Element, variant: str) -> Element:
        for it in device.named("variant"):
            if name_of(it) == variant:
                return it
        raise Refused(f"{self.document.name}: the device {name_of(device)} has no variant {variant}")

    def check_pname(self, levels: Iterable[Element], pname: str) -> None:
        """Raises Refused where nothing in the levels is for a processor of this name."""
        known = [it.pname() for level in levels for it in [*parts_for_one(level), *sequences_of(level)]]
        if pname not in known:
            names = ", ".join(dict.fromkeys(name for name in known if name)) or "none"
            raise Refused(f"{self.document.name}: no processor has the name {pname}; there are: {names}")


def devices_of(family: Element) -> Iterator[list[Element]]:
    """The levels of each device of a family, in order."""
    for element in family.children:
        if element.tag == "device":
            yield [family, element]
        elif element.tag == "subFamily":
            yield from ([family, element, device] for device in element.named("device"))


def parts_for_one(level: Element) -> list[Element]:
    return [it for tag in FOR_ONE for it in level.named(tag)]


def sequences_of(level: Element) -> list[Element]:
    return [it for group in level.named("sequences") for it in group.named("sequence")]


def name_of(level: Element) -> str:
    """The name of a device or a variant."""
    return level.attributes.get("Dname" if level.tag == "device" else "Dvariant", "").strip()


def processors(levels: Iterable[Element]) -> list[str]:
    """The names of the processors of some levels, in order."""
    return list(dict.fromkeys(it.pname() for level in levels for it in level.named("processor") if it.pname()))
