"""The levels of a .pdsc as those of a job: families, subfamilies, devices, variants, with their sequences and debug variables."""

from __future__ import annotations

import re
from typing import Optional

from .devices import Choice, Pack, processors
from .document import Document, Element, Text
from .places import Notes, Places

# For each level the attribute that names it, and the key and the tag of the levels inside.
LEVELS = {
    "family": ("Dfamily", [("subFamilies", "subFamily"), ("devices", "device")]),
    "subFamily": ("DsubFamily", [("devices", "device")]),
    "device": ("Dname", [("variants", "variant")]),
    "variant": ("Dvariant", []),
}
# The elements that every level may have, and those that the elements of sequences may have, with their attributes.
PROPERTIES = set("""accessportV1 accessportV2 algorithm book compile debug debugconfig debugport debugvars description environment
    feature flashinfo memory processor sequences trace""".split())
CHILDREN = {"sequences": {"sequence"}, "sequence": {"block", "control"}, "control": {"block", "control"}, "block": set(), "debugvars": set()}
ATTRIBUTES = {
    "sequences": set(),
    "sequence": {"name", "Pname", "disable", "info"},
    "block": {"atomic", "info"},
    "control": {"if", "while", "timeout", "info"},
    "debugvars": {"configfile", "version", "Pname"},
}
WITH_TEXT = ("block", "debugvars")
FLAGS = {"true": True, "1": True, "false": False, "0": False}
NUMBER = re.compile(r"0|[1-9][0-9]{0,19}|0[xX]0*[0-9a-fA-F]{1,16}")
# A job has at most 127 arrays and objects within one another. Controls have two each, and there are some around them.
MAX_CONTROLS = 50


def flag(document: Document, notes: Notes, element: Element, name: str, absent: bool = False) -> bool:
    """The value of an attribute that is true or false. Another spelling than those of XML is taken where it can be meant in one way only."""
    value = element.attributes.get(name)
    if value is None:
        return absent
    known = FLAGS.get(value.strip())
    if known is None and value.strip().lower() in FLAGS:
        known = FLAGS[value.strip().lower()]
        notes.warn(document, element, f'<{element.tag} {name}="{value}">: taken as {str(known).lower()}')
    if known is None:
        notes.refuse(document, element, f'<{element.tag} {name}="{value}">: neither true, 1, false nor 0')
    return bool(known)


def steps_of(element: Element) -> list[Element]:
    return [it for it in element.children if it.tag in ("block", "control")]


class Converter:
    """Turns levels into those of a job. It keeps where each text is, and what is to be said of the elements."""

    def __init__(self, pack: Pack, notes: Notes, places: Places, choice: Choice):
        self.document = pack.document
        self.notes = notes
        self.places = places
        self.choice = choice
        self.known = set(pack.processors)
        self.needs_pname = not choice.pname and bool(processors(choice.levels) if choice.levels else pack.processors)

    def level(self, element: Element, path: str) -> dict:
        """A level with the levels inside that are chosen."""
        name, inner = LEVELS[element.tag]
        self.check_children(element, PROPERTIES.union(tag for _, tag in inner))
        self.places.add(path, self.document, element)
        job = {name: self.name(element, name), **self.properties(element, path)}
        for key, tag in inner:
            items = [it for it in element.named(tag) if self.choice.keeps(it)]
            if tag == "variant":
                self.check_names(items, "Dvariant")
            if items:
                job[key] = [self.level(it, f"{path}/{key}/{number}") for number, it in enumerate(items)]
        return job

    def properties(self, element: Element, path: str) -> dict:
        """The debug variables and the sequences of a level."""
        job: dict = {}
        debugvars = self.debugvars(element)
        if debugvars:
            job["debugvars"] = self.text(debugvars, path + "/debugvars", debugvars.text())
        sequences = []
        for group in element.named("sequences"):
            self.check(group)
            sequences += group.named("sequence")
        if sequences:
            self.check_names(sequences, "name", "Pname")
            job["sequences"] = [self.sequence(it, f"{path}/sequences/{number}") for number, it in enumerate(sequences)]
        return job

    def debugvars(self, level: Element) -> Optional[Element]:
        """The debug variables of a level that apply: those of the processor before those of each. Without code they are left out."""
        found: dict[Optional[str], Element] = {}
        for element in level.named("debugvars"):
            self.check(element)
            pname = element.pname()
            if pname and self.needs_pname:
                self.notes.refuse(self.document, element, f'<debugvars Pname="{pname}"> are for one processor: name one by --pname')
            if element.is_blank():
                continue
            if pname in found:
                self.notes.refuse(self.document, element, "these are the second <debugvars> of this level for the same processor")
            found[pname] = element
        return found.get(self.choice.pname, found.get(None))

    def sequence(self, element: Element, path: str) -> dict:
        self.check(element)
        self.places.add(path, self.document, element)
        job = {"name": self.name(element, "name")}
        if element.pname():
            job["Pname"] = self.name(element, "Pname")
        return {**job, **self.flags(element, "disable"), **self.info(element), "steps": self.steps(element, path + "/steps", 0)}

    def steps(self, element: Element, path: str, depth: int) -> list[dict]:
        """The steps of a sequence or a control that is within so many controls."""
        if depth > MAX_CONTROLS:
            self.notes.refuse(self.document, element, f"<control> within {MAX_CONTROLS} others")
            return []
        return [self.step(it, f"{path}/{number}", depth) for number, it in enumerate(steps_of(element))]

    def step(self, element: Element, path: str, depth: int) -> dict:
        self.check(element)
        self.places.add(path, self.document, element)
        if element.tag == "block":
            return {"block": self.text(element, path + "/block", element.text()), **self.flags(element, "atomic"), **self.info(element)}
        job: dict = {"control": self.steps(element, path + "/control", depth + 1)}
        for name in ("if", "while"):
            if name in element.attributes:
                job[name] = self.text(element, f"{path}/{name}", self.document.attribute(element, name))
        if "timeout" in element.attributes:
            self.places.add(path + "/timeout", self.document, element, self.document.attribute(element, "timeout"))
            job["timeout"] = self.timeout(element)
        return {**job, **self.info(element)}

    # ---- attributes and texts

    def text(self, element: Element, path: str, text: Text) -> str:
        self.places.add(path, self.document, element, text)
        return text.value

    def flags(self, element: Element, name: str) -> dict[str, bool]:
        return {name: flag(self.document, self.notes, element, name)} if name in element.attributes else {}

    def info(self, element: Element) -> dict[str, str]:
        return {"info": element.attributes["info"]} if "info" in element.attributes else {}

    def name(self, element: Element, name: str) -> str:
        """The value of an attribute that names something, without blanks at its ends."""
        value = element.attributes.get(name, "")
        taken = value.strip()
        if not taken:
            self.notes.refuse(self.document, element, f"<{element.tag}> has no {name}")
        elif taken != value:
            self.notes.warn(self.document, element, f'<{element.tag} {name}="{value}">: taken as "{taken}"')
        return taken

    def timeout(self, element: Element) -> str:
        value = element.attributes["timeout"]
        taken = value.strip()
        if not NUMBER.fullmatch(taken) or int(taken, 0) >= 1 << 64:
            self.notes.refuse(self.document, element, f'<control timeout="{value}">: no number, as 1000000 or 0xF4240')
        return taken

    # ---- checks of the form

    def check(self, element: Element) -> None:
        """Warns of what a job has no place for in an element of sequences."""
        self.check_children(element, CHILDREN[element.tag])
        for name, value in element.attributes.items():
            if name not in ATTRIBUTES[element.tag] and ":" not in name:
                self.notes.warn(self.document, element, f'<{element.tag}> has no attribute {name}: {name}="{value}" is left out')
        if "Pname" in element.attributes:
            self.check_pname(element)
        if element.tag not in WITH_TEXT and not element.is_blank():
            self.notes.warn(self.document, element, f"text of <{element.tag}> outside a <block> is left out")

    def check_pname(self, element: Element) -> None:
        pname = element.pname()
        if pname is None:
            self.notes.warn(self.document, element, f'<{element.tag} Pname="">: taken as for each processor')
        elif pname not in self.known:
            self.notes.warn(self.document, element, f'<{element.tag} Pname="{pname}">: no <processor> has this name')

    def check_devices(self) -> None:
        """Warns of what is in <devices> and is no family."""
        for group in self.document.root.named("devices"):
            self.check_children(group, {"family"})

    def check_children(self, element: Element, tags: set[str]) -> None:
        for it in element.children:
            if it.tag in tags:
                continue
            place = "outside <sequences>" if it.tag == "sequence" else f"is no element of <{element.tag}>"
            self.notes.warn(self.document, it, f"<{it.tag}> {place}: it is left out")

    def check_names(self, elements: list[Element], *names: str) -> None:
        """Refuses a second element of one name, which a job may not have."""
        seen = set()
        for element in elements:
            name = tuple(element.attributes.get(name, "").strip() for name in names)
            if name in seen:
                shown = " ".join(f'{key}="{value}"' for key, value in zip(names, name) if value)
                self.notes.refuse(self.document, element, f"this is the second <{element.tag} {shown}> of its level")
            seen.add(name)
