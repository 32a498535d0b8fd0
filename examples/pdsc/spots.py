"""Where a fault of a set is in the .pdsc: from the names and numbers of a report to the path in the job, and from there to the file."""

from __future__ import annotations

from typing import Iterator, Optional

from .faults import Fault, Set, shown
from .places import Stretch, Places


def levels_of(pack: dict, chosen: Set) -> Iterator[tuple[str, dict]]:
    """The levels of a pack of one device that a set has, from `defaults` down, with their paths."""
    if "defaults" in pack:
        yield "#/pack/defaults", pack["defaults"]
    path, level = "#/pack/families/0", pack["families"][0]
    yield path, level
    for key in ("subFamilies", "devices"):
        if key in level:
            path, level = f"{path}/{key}/0", level[key][0]
            yield path, level
    for number, variant in enumerate(level.get("variants", [])):
        if variant["Dvariant"] == chosen.variant():
            yield f"{path}/variants/{number}", variant


def sequence_paths(pack: dict, chosen: Set) -> dict[str, str]:
    """The path of the sequence that applies, by its name: of the candidates at the deepest level the one for the processor goes first."""
    paths: dict[str, str] = {}
    for path, level in levels_of(pack, chosen):
        for pname in (None, chosen.pname) if chosen.pname else (None,):
            for number, sequence in enumerate(level.get("sequences", [])):
                if sequence.get("Pname") == pname:
                    paths[sequence["name"]] = f"{path}/sequences/{number}"
    return paths


def path_of(pack: dict, chosen: Set, fault: Fault) -> str:
    """The path in the job of the text, the step or the key that a fault is in."""
    if not fault.part:
        return fault.path
    if fault.part == "debugvars":
        return [path for path, level in levels_of(pack, chosen) if "debugvars" in level][-1] + "/debugvars"
    shown_paths = {shown(name): path for name, path in sequence_paths(pack, chosen).items()}
    steps = "/control/".join(fault.path.split("."))
    path = f"{shown_paths[fault.sequence]}/steps/{steps}"
    return path if fault.part == "control" else f"{path}/{fault.part}"


def stretch_of(pack: dict, places: Places, chosen: Set, fault: Fault) -> Optional[Stretch]:
    """Where the text of a fault is in the .pdsc; none where the fault names nothing of the job."""
    return places.find(path_of(pack, chosen, fault))
