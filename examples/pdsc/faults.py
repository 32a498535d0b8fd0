"""The sets of a pack that a check is made of, and the faults that the program finds in them."""

from __future__ import annotations

import copy
import json
import re
import subprocess
import tempfile
from dataclasses import dataclass, field
from pathlib import Path
from typing import Iterator, Optional, Protocol

from .devices import Choice, Pack, name_of, processors, sequences_of
from .document import Element

REFUSED = re.compile(r"refused (\w+)(?: (.*))?")
CASE = re.compile(r"^== (\d+)\.json\n(.*?)(?=^== \d+\.json$|\Z)", re.M | re.S)


class NoAnswer(Exception):
    """The program could not be run, or wrote something else than the faults of a pack."""


@dataclass(frozen=True)
class Set:
    """Whose sequences are checked together: a device, one of its variants where it has some, and a processor where it names some."""

    levels: tuple[Element, ...]
    pname: Optional[str]

    def choice(self) -> Choice:
        return Choice(list(self.levels), self.pname)

    def device(self) -> str:
        return next(name_of(level) for level in self.levels if level.tag == "device")

    def variant(self) -> Optional[str]:
        return name_of(self.levels[-1]) if self.levels[-1].tag == "variant" else None

    def words(self, has_pname: bool) -> list[str]:
        """The words of the program that select this set. A processor is named where a sequence of the job is for it alone."""
        options = (("--device", self.device()), ("--variant", self.variant()), ("--pname", self.pname if has_pname else None))
        return [word for name, value in options if value for word in (name, value)]

    def key(self) -> tuple:
        """Equal for sets that have the same sequences and debug variables."""
        levels = tuple(level for level in self.levels if level.named("sequences") or level.named("debugvars"))
        pnames = {it.pname() for level in levels for it in [*sequences_of(level), *level.named("debugvars")]}
        return levels, self.pname if self.pname in pnames else None

    def __str__(self) -> str:
        return " ".join(filter(None, (self.variant() or self.device(), self.pname)))


def sets_of(pack: Pack) -> Iterator[Set]:
    """Each device, variant and processor of a pack, in order."""
    for device in pack.devices:
        variants = device[-1].named("variant")
        for levels in [[*device, variant] for variant in variants] or [device]:
            yield from (Set(tuple(levels), pname) for pname in processors(levels) or [None])


@dataclass
class Fault:
    """A fault of a set.

    It has the sequence, the numbers of the steps, the part, the line and column in its text, and the name that it is about, where
    there is one. A fault of the job has a kind and a path alone.
    """

    kind: str
    name: str = ""
    sequence: str = ""
    path: str = ""
    part: str = ""
    line: int = 0
    column: int = 0
    sets: list[Set] = field(default_factory=list)

    def __str__(self) -> str:
        where = [self.sequence, self.path, self.part, f"{self.line}:{self.column}" if self.part else ""]
        return " ".join(filter(None, [self.kind, *where, self.name]))


@dataclass
class Check:
    """A job, and the set of it that is checked."""

    job: dict
    chosen: Set


class Source(Protocol):
    """What finds faults: for each check the faults of its set, in their order."""

    def faults(self, checks: list[Check]) -> list[list[Fault]]:
        """Raises NoAnswer."""


class AllFaults:
    """All faults of each set that the first phase of its check with a fault has, by `dapseq_faults`."""

    def __init__(self, program: Program):
        self.program = program

    def faults(self, checks: list[Check]) -> list[list[Fault]]:
        return [faults_of(text) for text in self.program.answers([run_of(check) for check in checks])]


def run_of(check: Check) -> tuple[list[str], dict]:
    """The words and the job of a run. Sequences for another processor are left out, so that the job has just one set."""
    job, pname = copy.deepcopy(check.job), check.chosen.pname
    kept = [only_for(pname, level) for level in levels_in(job["pack"])]
    return ["--format", "json", *check.chosen.words(any(kept))], job


def levels_in(level: dict) -> Iterator[dict]:
    """A level, or a pack, with all levels below it."""
    yield level
    below = [level["defaults"]] if "defaults" in level else []
    for key in ("families", "subFamilies", "devices", "variants"):
        below += level.get(key, [])
    for it in below:
        yield from levels_in(it)


def only_for(pname: Optional[str], level: dict) -> bool:
    """Leaves a level the sequences for each processor and for this one, and returns whether it has one for this one alone."""
    if "sequences" in level:
        level["sequences"] = [it for it in level["sequences"] if it.get("Pname") in (None, pname)]
    return any("Pname" in it for it in level.get("sequences", []))


def shown(name: str) -> str:
    """A name as the program writes it in a line: each byte outside 0x20 to 0x7E by its number, and a backslash twice."""
    return "".join("\\\\" if byte == 0x5C else chr(byte) if 0x20 <= byte <= 0x7E else f"\\x{byte:02x}" for byte in name.encode())


def faults_of(text: str) -> list[Fault]:
    """The faults that an answer has, in order."""
    line = text.partition("\n")[0]
    refused = REFUSED.fullmatch(line)
    if refused:
        return [Fault(refused[1], path=refused[2] or "")]
    try:
        return [fault_of(it) for it in json.loads(line)["faults"]]
    except (ValueError, LookupError, TypeError, AttributeError):
        raise NoAnswer(f"the program wrote: {line or 'nothing'}") from None


def fault_of(item: dict) -> Fault:
    """A fault in the form of JSON."""
    path = ".".join(str(number) for number in item["path"])
    return Fault(item["kind"], shown(item["name"] or ""), shown(item["sequence"] or ""), path, item["part"], item["line"], item["column"])


class Program(Protocol):
    """The program dapseq_faults."""

    def answers(self, runs: list[tuple[list[str], dict]]) -> list[str]:
        """What it writes for each run of words and a job. Raises NoAnswer."""


@dataclass
class Command:
    """The program as a file, which is run once for each answer."""

    path: str

    def answers(self, runs: list[tuple[list[str], dict]]) -> list[str]:
        return [self.answer(words, job) for words, job in runs]

    def answer(self, words: list[str], job: dict) -> str:
        try:
            ended = subprocess.run([self.path, *words], input=bytes_of(job), stdout=subprocess.PIPE, check=False)
        except OSError as error:
            raise NoAnswer(f"{self.path}: {error.strerror}") from None
        return ended.stdout.decode(errors="backslashreplace")


@dataclass
class Kit:
    """The program as the kit builds it from its folder, without a proof: once for all answers."""

    folder: Path

    def answers(self, runs: list[tuple[list[str], dict]]) -> list[str]:
        with tempfile.TemporaryDirectory() as cases:
            for number, (words, job) in enumerate(runs):
                Path(cases, f"{number}.json").write_bytes(bytes_of(job))
                Path(cases, f"{number}.json.args").write_text("".join(word + "\n" for word in words), encoding="utf-8")
            ended = subprocess.run(["rt", "try", "--cases", cases], cwd=self.folder, capture_output=True, check=False)
        text, said = (written.decode(errors="backslashreplace") for written in (ended.stdout, ended.stderr))
        texts = {int(match[1]): match[2] for match in CASE.finditer(text)}
        missing = [words for number, (words, _) in enumerate(runs) if number not in texts]
        if missing:
            last = "\n".join((text + said).splitlines()[-10:])
            raise NoAnswer(f"rt try gave no answer to {' '.join(missing[0])}; it ended with:\n{last}")
        return [texts[number] for number in range(len(runs))]


def bytes_of(job: dict) -> bytes:
    return json.dumps(job, ensure_ascii=False).encode()
