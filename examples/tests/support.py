"""What the tests share: packs that are written in a few lines, and what is said of them."""

import subprocess
import sys
from pathlib import Path

EXAMPLES = Path(__file__).resolve().parent.parent
sys.path.insert(0, str(EXAMPLES))

from pdsc import conversion  # noqa: E402
from pdsc.devices import Pack  # noqa: E402
from pdsc.document import Document  # noqa: E402

DATA = EXAMPLES.parent / "crates" / "test_jobs" / "data" / "examples"
PACKS = EXAMPLES / "packs"


def pack_of(content, name="P.pdsc"):
    return Pack(Document(name, content if isinstance(content, bytes) else content.encode()))


def family(inside, device="<device Dname='D'/>"):
    """A pack of one family, whose elements begin in line 2."""
    return f"<package><devices><family Dfamily='F'>\n{inside}\n{device}</family></devices></package>"


def sequence(inside):
    """A pack of one sequence, whose steps begin in line 2."""
    return f"<package><devices><family Dfamily='F'><sequences><sequence name='S'>\n{inside}\n</sequence></sequences></family></devices></package>"


def converted(content, defaults=None, **names):
    """The conversion of a pack. The names are device, variant and pname."""
    pack = pack_of(content)
    return conversion.convert(pack, defaults, pack.choose(*(names.get(key) for key in ("device", "variant", "pname"))))


def level(content, **names):
    """The first family of a conversion."""
    return converted(content, **names).pack["families"][0]


def steps(content):
    return level(content)["sequences"][0]["steps"]


def notes(content, **names):
    """What is said of a pack, without the name of its file."""
    return [str(note).partition(":")[2] for note in converted(content, **names).notes.notes]


def script(name, *words, **options):
    """A run of a script, with its output as bytes."""
    return subprocess.run([sys.executable, "-B", str(EXAMPLES / name), *map(str, words)], capture_output=True, check=False, **options)
