"""The bench and the starting values of a device, as far as a .pdsc has them."""

from __future__ import annotations

import re
from dataclasses import dataclass
from typing import Optional

from .document import Document, Element
from .levels import flag
from .places import Notes

PROTOCOLS = {"jtag": 1, "swd": 2, "cjtag": 3}
HAS_SWITCH, HAS_DORMANT = 1 << 16, 1 << 17
NUMBER = re.compile(r"0[xX][0-9a-fA-F]+|[0-9]+")
# What a job can have: access ports, regions, and bytes of all regions together.
MAX_PORTS, MAX_REGIONS, MAX_BYTES = 16, 64, 4 << 20
MAX_END = 1 << 63
TURN_US = 1000


@dataclass
class Region:
    """A region of memory, and the element that it comes from: none for the window of the private peripheral bus."""

    name: str
    address: int
    length: int
    is_read_only: bool
    element: Optional[Element] = None

    def overlaps(self, other: Region) -> bool:
        return self.address < other.address + other.length and other.address < self.address + self.length

    def value(self) -> dict:
        region: dict = {"address": f"0x{self.address:08X}", "length": self.length}
        return {**region, "kind": "ro"} if self.is_read_only else region


class Bench:
    """Makes the bench of a device from its levels, from the family down."""

    def __init__(self, document: Document, notes: Notes, levels: list[Element], pname: Optional[str]):
        self.document = document
        self.notes = notes
        self.levels = levels
        self.pname = pname

    def run(self) -> dict:
        """The key `run`: a turn as long as that of a real probe, and the starting values of predefined variables."""
        debug = self.merged("debug")
        port = self.port(debug) if debug else 0
        variables = {"__protocol": hex(self.protocol()), "__dp": self.number(debug, "__dp") if debug else 0, "__ap": port or 0}
        return {"turn_us": TURN_US, "variables": variables}

    def bench(self) -> dict:
        """The key `bench`: the smallest probe, and a powered target with the ports and the memory of the device."""
        aps = [{"ap": port} for port in self.ports()]
        memory = [region.value() for region in self.memory()]
        return {"packet_size": 64, "packet_count": 1, "target": {"powered": True, "aps": aps, "memory": memory}}

    # ---- what the elements say

    def elements(self, tag: str) -> list[Element]:
        """The elements of a name that are for each processor or the chosen one: of a level those for each come first."""
        found = []
        for level in self.levels:
            own = level.named(tag)
            found += [it for it in own if it.pname() is None]
            found += [it for it in own if self.pname and it.pname() == self.pname]
        return found

    def merged(self, tag: str) -> Optional[Element]:
        """An element with the attributes of all elements of a name: those of a deeper level go first."""
        elements = self.elements(tag)
        if not elements:
            return None
        attributes = {name: value for it in elements for name, value in it.attributes.items()}
        return Element(tag, attributes, elements[-1].at)

    def number(self, element: Element, name: str) -> int:
        """The number of an attribute, 0 where it is absent."""
        value = element.attributes.get(name, "0").strip()
        if NUMBER.fullmatch(value):
            return number_of(value)
        self.notes.warn(self.document, element, f'<{element.tag} {name}="{value}">: no number, taken as 0')
        return 0

    def protocol(self) -> int:
        """`__protocol`: the default protocol, and whether the port has a switch and a dormant state."""
        config = self.merged("debugconfig") or Element("debugconfig", {}, 0)
        protocol = config.attributes.get("default", "swd")
        value = PROTOCOLS.get(protocol.strip().lower())
        if value is None:
            self.notes.warn(self.document, config, f'<debugconfig default="{protocol}">: no protocol, taken as swd')
            value = PROTOCOLS["swd"]
        value |= HAS_SWITCH if flag(self.document, self.notes, config, "swj", absent=True) else 0
        return value | (HAS_DORMANT if flag(self.document, self.notes, config, "dormant") else 0)

    # ---- access ports

    def ports(self) -> list[int]:
        """The access ports that the elements name, of debug port 0; port 0 where they name none."""
        for it in self.every("accessportV2"):
            self.notes.warn(self.document, it, "<accessportV2>: a job has no access ports of ADIv6: it is left out")
        debugs = [it for it in self.every("debug") if self.number(it, "__dp") == 0]
        found = [self.number(it, "index") for it in self.every("accessportV1") if self.number(it, "__dp") == 0]
        found += [port for port in map(self.port, debugs) if port is not None]
        ports = sorted({port for port in found if port <= 255} or {0})
        if len(ports) > MAX_PORTS:
            self.notes.warn(self.document, self.levels[-1], f"{len(ports)} access ports, of which a job has the first {MAX_PORTS}")
        return ports[:MAX_PORTS]

    def port(self, debug: Element) -> Optional[int]:
        """The access port of a <debug>: its `__ap`, or the index of the port that its `__apid` names; none where that names none."""
        if "__apid" not in debug.attributes:
            return self.number(debug, "__ap")
        apid = self.number(debug, "__apid")
        for it in self.every("accessportV1"):
            if self.number(it, "__apid") == apid:
                return self.number(it, "index")
        self.notes.warn(self.document, debug, f'<debug __apid="{apid}">: no <accessportV1> has this number')
        return None

    def every(self, tag: str) -> list[Element]:
        """The elements of a name, for all processors."""
        return [it for level in self.levels for it in level.named(tag)]

    # ---- memory

    def memory(self) -> list[Region]:
        """The window of the private peripheral bus, and the regions of the device, as far as a job can have them."""
        kept = self.window()
        for region in self.regions():
            other = next((it for it in kept if it.overlaps(region)), None)
            if other:
                self.say(region, f"it overlaps {other.name}: it is left out")
            else:
                kept.append(region)
        self.shorten(kept)
        for region in kept[MAX_REGIONS:]:
            self.say(region, f"a job has {MAX_REGIONS} regions: it is left out")
        return [region for region in kept[:MAX_REGIONS] if region.length]

    def window(self) -> list[Region]:
        """The private peripheral bus of a Cortex-M, with its system control space and ROM table. Other cores have none."""
        core = (self.merged("processor") or Element("processor", {}, 0)).attributes.get("Dcore", "")
        if core.startswith(("Cortex-A", "Cortex-R")):
            return []
        return [Region("the private peripheral bus", 0xE0000000, 1 << 20, False)]

    def regions(self) -> list[Region]:
        """The regions of the device, the deepest level first. Of those of one name the deepest counts."""
        named: dict[str, Element] = {}
        for it in self.elements("memory"):
            name = it.attributes.get("name") or it.attributes.get("id") or f"at {it.attributes.get('start')}"
            named[name] = it
        depth = {it: number for number, level in enumerate(self.levels) for it in level.named("memory")}
        ordered = sorted(named.items(), key=lambda item: -depth[item[1]])
        return [region for region in (self.region(name, it) for name, it in ordered) if region]

    def region(self, name: str, element: Element) -> Optional[Region]:
        """The region of a <memory>; none, with a warning, where a job cannot have it."""
        start, size = (element.attributes.get(key, "").strip() for key in ("start", "size"))
        region = Region(name, 0, 0, is_read_only(element), element)
        if not NUMBER.fullmatch(start) or not NUMBER.fullmatch(size):
            self.say(region, f'start="{start}" size="{size}" are no numbers: it is left out')
            return None
        region.address, region.length = number_of(start), number_of(size)
        if region.address % 4 or region.length % 4 or not region.length or region.address + region.length > MAX_END:
            self.say(region, "a job has regions of whole words that end at 2^63 at most: it is left out")
            return None
        return region

    def shorten(self, regions: list[Region]) -> None:
        """Makes regions fit into the bytes that a job may have, the longest last."""
        left = MAX_BYTES
        for region in sorted(regions[:MAX_REGIONS], key=lambda region: (region.element is not None, region.length)):
            if region.length > left:
                self.say(region, f"{region.length} bytes, of which the job has the first {left}: all regions have {MAX_BYTES} together")
                region.length = left
            left -= region.length

    def say(self, region: Region, text: str) -> None:
        assert region.element
        self.notes.warn(self.document, region.element, f"<memory> {region.name}: {text}")


def number_of(text: str) -> int:
    return int(text, 16) if text[:2] in ("0x", "0X") else int(text)


def is_read_only(memory: Element) -> bool:
    """Whether a <memory> is read alone: by its access, or, in older packs, by its identifier."""
    access = memory.attributes.get("access")
    if access is None:
        return memory.attributes.get("id", "").startswith("IROM")
    return "w" not in access and bool(set(access) & set("rx"))
