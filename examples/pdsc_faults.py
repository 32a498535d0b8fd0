"""pdsc_faults: the faults of the sequences of a .pdsc, at their lines.

    python3 pdsc_faults.py [--program PATH | --crate FOLDER] [--no-defaults] FILE.pdsc

It converts the pack as from_pdsc.py does, and runs `dapseq_faults` for each device, variant and processor. Those that have the
same sequences and debug variables are checked once. All faults of a set are shown that the first phase of its check with a fault
has: see docs/FAULTS.md. Each is shown at its line and column of the .pdsc, once, with those that it concerns.

The program is PATH. Else it is out/dapseq_faults in the crate's folder, which `rt run` leaves, or `rt try` builds it without
a proof.
The exit status is 0 where nothing is wrong and 1 where something is. It is 2 where the command line is wrong or the program
gives no answer. This is a helper beside the program: nothing of it is proved.
"""

import argparse
import os
import shutil
import sys
from pathlib import Path

from pdsc import conversion
from pdsc.document import Refused
from pdsc.faults import AllFaults, Check, Command, Kit, NoAnswer, sets_of
from pdsc.spots import stretch_of

CRATE = Path(__file__).resolve().parent.parent / "crates" / "dapseq_faults"
SHOWN = 3  # how many of those that a fault concerns are named


def parser_of_options():
    parser = argparse.ArgumentParser(prog="pdsc_faults.py", allow_abbrev=False, description="Shows the faults of the sequences of a .pdsc.")
    parser.add_argument("file", metavar="FILE.pdsc")
    parser.add_argument("--program", metavar="PATH", help="the program dapseq_faults; else that of the repository, built where it has to be")
    parser.add_argument("--crate", metavar="FOLDER", type=Path, default=CRATE, help="the folder from which the program is built")
    parser.add_argument("--no-defaults", action="store_true", help="check without the twelve default sequences of a debugger")
    return parser


def program_of(path, crate):
    """The program that a path names, or that of a crate. Raises NoAnswer where there is none."""
    built = crate / "out" / "dapseq_faults"
    if path:
        return Command(path)
    if os.access(built, os.X_OK):
        return Command(str(built))
    if not shutil.which("rt"):
        raise NoAnswer("there is no program: name it by --program, or put the kit's rt on the path")
    print("building the program without a proof: this takes some minutes", file=sys.stderr)
    return Kit(crate)


class Report:
    """What is found in a pack, each at its place and once."""

    def __init__(self, pack):
        self.pack = pack
        self.order = {it: number for number, it in enumerate(sets_of(pack))}
        self.notes = {}
        self.faults = {}  # by their place and text: the document, the place, the fault

    def convert(self, defaults, sets):
        """The conversion of the first of some sets that have the same sequences; its notes are kept."""
        result = conversion.convert(self.pack, defaults, sets[0].choice())
        self.notes.update(result.notes.notes)
        return result

    def add(self, result, sets, fault):
        """Adds a fault of a set, with all that have the same sequences."""
        stretch = stretch_of(result.pack, result.places, sets[0], fault)
        document = stretch.document if stretch else self.pack.document
        place = stretch.at(fault.line, fault.column) if stretch else document.place(sets[0].levels[-1].at)
        _, _, kept = self.faults.setdefault((document.name, place, str(fault)), (document, place, fault))
        kept.sets += sets

    def lines(self):
        for note in self.notes:
            yield str(note)
        for document, place, fault in self.faults.values():
            yield f"{document.name}:{place.line}:{place.column}: {fault}"
            yield from source_lines(document, place)
            yield "    for " + named(sorted(fault.sets, key=self.order.get))

    def has_fault(self):
        return bool(self.faults) or any(note.is_refusal for note in self.notes)


def source_lines(document, place):
    """The line of a place without the blanks at its beginning, and a caret under the column."""
    line = document.line(place.line)
    before = line[:place.column - 1].lstrip()
    yield "    " + line.lstrip()
    yield "    " + "".join(it if it == "\t" else " " for it in before) + "^"


def named(sets):
    names = [str(it) for it in sets]
    more = f" and {len(names) - SHOWN} more" if len(names) > SHOWN else ""
    return ", ".join(names[:SHOWN]) + more


def counted(number, what):
    return f"{number} {what}{'' if number == 1 else 's'}"


def check(pack, defaults, source):
    """The report of a pack, and how many sets were checked. Raises NoAnswer."""
    report, same = Report(pack), {}
    for it in report.order:
        same.setdefault(it.key(), []).append(it)
    found = [(report.convert(defaults, sets), sets) for sets in same.values()]
    found = [(result, sets) for result, sets in found if not result.notes.has_refusal()]
    checks = [Check({"pack": result.pack, "bench": conversion.SMALLEST_BENCH}, sets[0]) for result, sets in found]
    for (result, sets), faults in zip(found, source.faults(checks) if checks else []):
        for fault in faults:
            report.add(result, sets, fault)
    return report, sum(len(sets) for _, sets in found)


def answer(pack, defaults, source):
    """The lines that are written of a pack, and the exit status. Raises NoAnswer."""
    report, checked = check(pack, defaults, source)
    missing = len(report.order) - checked
    counts = f"{counted(len(report.faults), 'fault')}; {counted(len(pack.devices), 'device')}, {counted(checked, 'set')} checked"
    lines = [*report.lines(), counts + (f", {missing} not" if missing else "")]
    return lines, 1 if report.has_fault() else 0


def main(arguments=None):
    parser = parser_of_options()
    options = parser.parse_args(arguments)
    try:
        pack = conversion.read(options.file)
    except OSError as error:
        parser.error(f"{options.file}: {error.strerror}")
    except Refused as error:
        return say(error, 1)
    try:
        defaults = None if options.no_defaults else conversion.default_sequences()
        lines, status = answer(pack, defaults, AllFaults(program_of(options.program, options.crate)))
        sys.stdout.buffer.write("".join(line + "\n" for line in lines).encode())
        return status
    except NoAnswer as error:
        return say(error, 2)
    except OSError as error:
        return say(f"{error.filename or 'standard output'}: {error.strerror}", 2)


def say(text, status):
    print(text, file=sys.stderr)
    return status


if __name__ == "__main__":
    sys.exit(main())
