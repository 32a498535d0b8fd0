"""From a .pdsc to a job."""

from __future__ import annotations

from dataclasses import dataclass
from pathlib import Path
from typing import Optional

from .bench import Bench
from .devices import Choice, Pack, processors
from .document import Document
from .levels import Converter
from .places import Notes, Places

SMALLEST_BENCH = {"packet_size": 64, "packet_count": 1, "target": {"aps": [], "memory": []}}
DEFAULTS = Path(__file__).resolve().parent.parent / "packs" / "Defaults.pdsc"


@dataclass
class Conversion:
    """The levels of a pack in the form of a job, where its texts are in the .pdsc, and what is said of it. With a refusal it is of no use."""

    pack: dict
    places: Places
    notes: Notes


def default_sequences() -> Pack:
    """The pack whose one device has the default sequences of a debugger. Raises OSError where it is not beside the scripts."""
    return Pack(Document.read(str(DEFAULTS)))


def convert(pack: Pack, defaults: Optional[Pack], choice: Choice) -> Conversion:
    """The levels of a pack that are chosen. The level `defaults` has the sequences of the pack of defaults, where one is given."""
    result = Conversion({}, Places(), Notes())
    if defaults:
        of_defaults = Converter(defaults, result.notes, result.places, Choice())
        result.pack["defaults"] = of_defaults.properties(defaults.devices[0][-1], "#/pack/defaults")
    converter = Converter(pack, result.notes, result.places, choice)
    converter.check_devices()
    families = [it for it in pack.families if choice.keeps(it)]
    result.pack["families"] = [converter.level(it, f"#/pack/families/{number}") for number, it in enumerate(families)]
    return result


def run_and_bench(pack: Pack, choice: Choice, notes: Notes) -> dict:
    """The keys `run` and `bench`: those of the device that is chosen, or the only one; else the smallest bench."""
    levels = choice.levels
    if levels is None:
        if len(pack.devices) != 1:
            text = f"{len(pack.devices)} devices: name one by --device" if pack.devices else "there is no <device>"
            notes.warn(pack.document, pack.families[0], f"the bench has no ports and no memory; {text}")
            return {"bench": SMALLEST_BENCH}
        levels = pack.devices[0]
    names = processors(levels)
    if names and not choice.pname:
        text = f"the processors are {', '.join(names)}: name one by --pname for its access port and its memory"
        notes.warn(pack.document, levels[-1], text)
    bench = Bench(pack.document, notes, levels, choice.pname)
    return {"run": bench.run(), "bench": bench.bench()}


def read(path: str) -> Pack:
    """The pack at a path. Raises OSError where it cannot be read, and Refused where it is none."""
    return Pack(Document.read(path))
