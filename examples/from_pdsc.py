"""from_pdsc: the job of a .pdsc.

    python3 from_pdsc.py [--device NAME [--variant NAME]] [--pname NAME] [--no-defaults] [--dbgconf FILE] [--places FILE] FILE.pdsc > JOB

It writes the levels of the pack with their sequences and debug variables. With --device, or where the pack has one device,
it writes the ports, the memory and the starting values of that device too. docs/JOB.md, "From a .pdsc", has the rules.

Warnings and refusals go to standard error, by line and column of the .pdsc. The exit status is 0 where a job is written,
1 where the .pdsc is refused, and 2 where the command line is wrong. This is a helper beside the program: nothing is proved.
"""

import argparse
import json
import sys

from pdsc import conversion
from pdsc.document import Refused


def parser_of_options():
    parser = argparse.ArgumentParser(prog="from_pdsc.py", allow_abbrev=False, description="Writes the job of a .pdsc to standard output.")
    parser.add_argument("file", metavar="FILE.pdsc")
    parser.add_argument("--device", metavar="NAME", help="the device (Dname) whose levels, ports and memory the job has")
    parser.add_argument("--variant", metavar="NAME", help="the variant (Dvariant) of that device, for its ports and memory")
    parser.add_argument("--pname", metavar="NAME", help="the processor (Pname) whose debug variables, port and memory the job has")
    parser.add_argument("--no-defaults", action="store_true", help="leave out the twelve default sequences of a debugger")
    parser.add_argument("--dbgconf", metavar="FILE", help="a .dbgconf file: its text becomes the key dbgconf, starting values of debug variables")
    parser.add_argument("--places", metavar="FILE", help="write where each text of the job is in the .pdsc, as JSON")
    return parser


def write_json(value, file):
    """Writes a JSON text in UTF-8, to a path or an open file descriptor."""
    with open(file, "wb", closefd=file != sys.stdout.fileno()) as to:
        to.write((json.dumps(value, indent=2, ensure_ascii=False) + "\n").encode())


def text_of(path):
    """The text of a file in UTF-8, without a byte order mark, or else in ISO-8859-1."""
    with open(path, "rb") as file:
        content = file.read()
    try:
        return content.decode("utf-8-sig")
    except UnicodeDecodeError:
        return content.decode("latin-1")


def run(options, pack):
    """Converts a pack. Raises Refused, and OSError where a file cannot be read or written."""
    choice = pack.choose(options.device, options.variant, options.pname)
    defaults = None if options.no_defaults else conversion.default_sequences()
    result = conversion.convert(pack, defaults, choice)
    keys = conversion.run_and_bench(pack, choice, result.notes)
    if options.dbgconf:
        keys["dbgconf"] = text_of(options.dbgconf)
    for note in result.notes.notes:
        print(note, file=sys.stderr)
    if result.notes.has_refusal():
        return 1
    if options.places:
        write_json(result.places.value(), options.places)
    write_json({"pack": result.pack, **keys}, sys.stdout.fileno())
    return 0


def main(arguments=None):
    parser = parser_of_options()
    options = parser.parse_args(arguments)
    if options.variant and not options.device:
        parser.error("--variant needs --device")
    try:
        pack = conversion.read(options.file)
    except OSError as error:
        parser.error(f"{options.file}: {error.strerror}")
    except Refused as error:
        return say(error)
    try:
        return run(options, pack)
    except Refused as error:
        return say(error)
    except OSError as error:
        return say(f"{error.filename or 'standard output'}: {error.strerror}")


def say(text):
    print(text, file=sys.stderr)
    return 1


if __name__ == "__main__":
    sys.exit(main())
