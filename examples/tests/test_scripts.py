"""The scripts as they are called: words, exit statuses, and what they write. A stub stands in for the program."""

import contextlib
import io
import json
import os
import stat
import tempfile
import unittest
from pathlib import Path
from unittest import mock

from support import EXAMPLES, PACKS, family, pack_of, script

from pdsc import conversion
from pdsc.faults import AllFaults, Check, Command, Fault, Kit, NoAnswer, Set, faults_of, run_of, sets_of, shown
from pdsc.spots import sequence_paths
import from_pdsc
import pdsc_faults
import stub_dapseq

STUB = EXAMPLES / "tests" / "stub_dapseq.py"


def called(module, *words):
    """A call of a script that writes text alone: its exit status, and the text."""
    written = io.StringIO()
    with contextlib.redirect_stderr(written), contextlib.redirect_stdout(written):
        try:
            return module.main([str(word) for word in words]), written.getvalue()
        except SystemExit as ended:
            return ended.code, written.getvalue()


class Folder(unittest.TestCase):
    """A test with a folder of its own."""

    def setUp(self):
        folder = tempfile.TemporaryDirectory()
        self.addCleanup(folder.cleanup)
        self.folder = Path(folder.name)

    def file(self, name, content):
        path = self.folder / name
        path.write_bytes(content if isinstance(content, bytes) else content.encode())
        return path

    def program(self, name, content):
        path = self.file(name, content)
        path.chmod(path.stat().st_mode | stat.S_IXUSR)
        return path


class FromPdsc(Folder):
    def test_usage(self):
        for words, text in [
            ((), "the following arguments are required: FILE.pdsc"),
            (("no_such.pdsc",), "no_such.pdsc: No such file or directory"),
            (("--devcie=D", "P.pdsc"), "unrecognized arguments: --devcie=D"),
            (("--dev=D", "P.pdsc"), "unrecognized arguments: --dev=D"),
            (("--variant", "V", "P.pdsc"), "--variant needs --device"),
        ]:
            with self.subTest(words):
                status, written = called(from_pdsc, *words)
                self.assertEqual((status, written[:19]), (2, "usage: from_pdsc.py"))
                self.assertIn("\nfrom_pdsc.py: error: " + text, written)

    def test_help(self):
        status, written = called(from_pdsc, "--help")
        self.assertEqual((status, written[:19]), (0, "usage: from_pdsc.py"))

    def test_refused(self):
        for content, text in [
            ("no XML", "P.pdsc:1:1: no XML: syntax error\n"),
            (family("<sequences><sequence name='S' disable='yes'/></sequences>"),
             'P.pdsc:2:12: refused: <sequence disable="yes">: neither true, 1, false nor 0\n'),
        ]:
            with self.subTest(content):
                self.assertEqual(called(from_pdsc, "--no-defaults", self.file("P.pdsc", content)), (1, text))

    def test_dbgconf(self):
        self.assertEqual(from_pdsc.text_of(self.file("P.dbgconf", b"A = 1; // \xb5s")), "A = 1; // \u00b5s")
        path, missing = self.file("P.pdsc", family("")), self.folder / "missing"
        self.assertEqual(called(from_pdsc, "--no-defaults", "--dbgconf", missing, path), (1, f"{missing}: No such file or directory\n"))

    def test_unknown_device(self):
        path = self.file("P.pdsc", family(""))
        self.assertEqual(called(from_pdsc, "--device", "d", path), (1, "P.pdsc: no device has the name d\n"))

    def test_output_is_utf8(self):
        """So it is where the encoding of the terminal is another one."""
        path = self.file("P.pdsc", family("<debugvars>// \u03a9</debugvars>"))
        ended = script("from_pdsc.py", path, env={**os.environ, "PYTHONIOENCODING": "cp1252"})
        self.assertEqual((ended.returncode, ended.stderr), (0, b""))
        self.assertIn("\u03a9", ended.stdout.decode("utf-8"))
        self.assertEqual(list(json.loads(ended.stdout)["pack"]), ["defaults", "families"])

    def test_job(self):
        path, places = self.file("P.pdsc", family("<sequences><sequence name='S'/></sequences>")), self.folder / "places.json"
        dbgconf = self.file("P.dbgconf", b"\xef\xbb\xbfA = 1; // \xce\xa9\r\n")
        ended = script("from_pdsc.py", "--device", "D", "--no-defaults", "--dbgconf", dbgconf, "--places", places, path)
        self.assertEqual((ended.returncode, ended.stderr), (0, b""))
        self.assertEqual(json.loads(ended.stdout), {
            "pack": {"families": [{"Dfamily": "F", "sequences": [{"name": "S", "steps": []}], "devices": [{"Dname": "D"}]}]},
            "run": {"turn_us": 1000, "variables": {"__protocol": "0x10002", "__dp": 0, "__ap": 0}},
            "bench": {"packet_size": 64, "packet_count": 1, "target": {
                "powered": True, "aps": [{"ap": 0}], "memory": [{"address": "0xE0000000", "length": 1048576}]}},
            "dbgconf": "A = 1; // \u03a9\r\n",
        })
        self.assertIn({"path": "#/pack/families/0/sequences/0", "file": "P.pdsc", "line": 2, "column": 12, "pieces": [[1, 1, 2, 12]]},
                      json.loads(places.read_bytes())["places"])


class Stub:
    """The stub as the program."""

    def answers(self, runs):
        return [stub_dapseq.answer(job, words) for words, job in runs]


class Faults(unittest.TestCase):
    """What is written of a pack, and the exit status."""

    def faults(self, content):
        lines, status = pdsc_faults.answer(pack_of(content), None, AllFaults(Stub()))
        return status, "".join(line + "\n" for line in lines)

    def test_no_fault(self):
        for name, line in [("Defaults", "0 faults; 1 device, 1 set checked"), ("LPC55S69", "0 faults; 1 device, 4 sets checked"),
                           ("MIMXRT1052", "0 faults; 1 device, 1 set checked"), ("STM32F4", "0 faults; 1 device, 2 sets checked")]:
            with self.subTest(name):
                pack = conversion.read(str(PACKS / f"{name}.pdsc"))
                self.assertEqual(pdsc_faults.answer(pack, conversion.default_sequences(), AllFaults(Stub())), ([line], 0))

    def test_fault_of_a_processor(self):
        inside = """<processor Pname='P'/><processor Pname='Q'/><sequences>
            <sequence name='S'><block>a</block></sequence>
            <sequence name='S' Pname='Q'>\n\t<control if='a &amp;&amp; \t??'/></sequence></sequences>"""
        self.assertEqual(self.faults(family(inside)), (1, (
            "P.pdsc:5:29: Syntax S 0 if 1:7\n"
            "    <control if='a &amp;&amp; \t??'/></sequence></sequences>\n"
            "                              \t^\n"
            "    for D Q\n"
            "1 fault; 1 device, 2 sets checked\n")))

    def test_fault_of_a_control(self):
        content = family("<sequences><sequence name='S'><control>\n <control while='for ever'/></control></sequence></sequences>")
        self.assertEqual(self.faults(content)[1].splitlines()[:3], [
            "P.pdsc:3:2: UnboundedLoop S 0.0 control 0:0", "    <control while='for ever'/></control></sequence></sequences>", "    ^"])

    def test_fault_of_debugvars(self):
        device = "<device Dname='D'><debugvars>a</debugvars></device><device Dname='E'/>"
        self.assertEqual(self.faults(family("<debugvars>\n ??</debugvars>", device)), (1, (
            "P.pdsc:3:2: Syntax debugvars 2:2\n"
            "    ??</debugvars>\n"
            "    ^\n"
            "    for E\n"
            "1 fault; 2 devices, 2 sets checked\n")))

    def test_notes(self):
        content = family("<blok/>", "<device Dname='D'/><device Dname='E'><sequences><sequence name='S' disable='yes'/></sequences></device>")
        self.assertEqual(self.faults(content), (1, (
            "P.pdsc:2:1: warning: <blok> is no element of <family>: it is left out\n"
            'P.pdsc:3:49: refused: <sequence disable="yes">: neither true, 1, false nor 0\n'
            "0 faults; 2 devices, 1 set checked, 1 not\n")))


class PdscFaults(Folder):
    def test_planted_fault(self):
        content = (PACKS / "LPC55S69.pdsc").read_text(encoding="utf-8").replace("status = ReadAP(0x8);", "status = ?? ReadAP(0x8);")
        ended = script("pdsc_faults.py", "--program", STUB, self.file("P.pdsc", content))
        self.assertEqual((ended.returncode, ended.stderr.decode(), ended.stdout.decode()), (1, "", (
            "P.pdsc:59:22: Syntax EnableDebugMailbox 0 block 12:22\n"
            "    status = ?? ReadAP(0x8);\n"
            "             ^\n"
            "    for LPC55S69JBD100 cm33_core0, LPC55S69JBD100 cm33_core1, LPC55S69JEV98 cm33_core0 and 1 more\n"
            "1 fault; 1 device, 4 sets checked\n")))

    def test_no_answer(self):
        path = self.file("P.pdsc", family(""))
        program, missing = self.program("program", "#!/bin/sh\necho no faults\n"), self.folder / "missing"
        self.assertEqual(called(pdsc_faults, "--program", program, path), (2, "the program wrote: no faults\n"))
        self.assertEqual(called(pdsc_faults, "--program", missing, path), (2, f"{missing}: No such file or directory\n"))

    def test_the_kit_builds_once(self):
        """Without a program `rt try --cases` is run over a folder of all jobs, and its text is cut by them."""
        self.program("rt", RT)
        path = f"{self.folder}{os.pathsep}{os.environ['PATH']}"
        pack = pack_of(family("", "<device Dname='D'/><device Dname='E'><sequences/></device>"))
        with mock.patch.dict(os.environ, PATH=path), contextlib.redirect_stderr(io.StringIO()) as said:
            program = pdsc_faults.program_of(None, self.folder)
            lines, status = pdsc_faults.answer(pack, None, AllFaults(program))
        self.assertEqual(said.getvalue(), "building the program without a proof: this takes some minutes\n")
        self.assertEqual((status, lines[0], lines[-1]), (1, "P.pdsc:3:20: NoDevice", "1 fault; 2 devices, 2 sets checked"))
        self.assertEqual((self.folder / "words").read_text(encoding="utf-8"), "try --cases\n--format\njson\n--device\nD\n--format\njson\n--device\nE\n")

    def test_the_kit_gives_no_answer(self):
        self.program("rt", "#!/bin/sh\necho no library >&2\nexit 1\n")
        path = f"{self.folder}{os.pathsep}{os.environ['PATH']}"
        with mock.patch.dict(os.environ, PATH=path), self.assertRaises(NoAnswer) as raised:
            Kit(self.folder).answers([(["--device", "D"], {})])
        self.assertEqual(str(raised.exception), "rt try gave no answer to --device D; it ended with:\nno library")

    def test_the_program_that_was_built(self):
        (self.folder / "out").mkdir()
        built = self.program("out/dapseq_faults", "")
        self.assertEqual(pdsc_faults.program_of(None, self.folder), Command(str(built)))

    def test_usage(self):
        status, written = called(pdsc_faults, "no_such.pdsc")
        self.assertEqual((status, written.splitlines()[-1]), (2, "pdsc_faults.py: error: no_such.pdsc: No such file or directory"))


# A stand-in for the kit's command: it keeps its words and those of the cases, and the second case is refused.
RT = """#!/bin/sh
{ echo "$1 $2"; cat "$3"/*.args; } > words
echo "== 0.json"; echo '{"faults":[]}'; echo "case=0.json run=ended status=0 runners=1 proved=no" >&2
echo "== 1.json"; echo "refused NoDevice"; echo "case=1.json run=ended status=1 runners=1 proved=no" >&2
echo "cases=2 ended=2 fault=0 differs=0 no-answer=0 proved=no" >&2
"""


class Answers(unittest.TestCase):
    """What the program writes, and the faults that it becomes."""

    ANSWERS = [
        ({"faults": [], "devices": 1, "sets": 1}, []),
        ({"faults": [{"kind": "UndefinedName", "name": "a\\b", "sequence": "Reset System", "path": [1, 0], "part": "block", "line": 2, "column": 8}]},
         [Fault("UndefinedName", "a\\\\b", "Reset System", "1.0", "block", 2, 8)]),
        ({"faults": [{"kind": "UnboundedLoop", "name": None, "sequence": "\u00e9", "path": [1], "part": "control", "line": 0, "column": 0},
                     {"kind": "BadDebugvars", "name": None, "sequence": None, "path": [], "part": "debugvars", "line": 1, "column": 12}]},
         [Fault("UnboundedLoop", "", "\\xc3\\xa9", "1", "control", 0, 0), Fault("BadDebugvars", "", "", "", "debugvars", 1, 12)]),
    ]
    REFUSALS = [
        ("refused Repeated #/pack/families/0/sequences/1\n", [Fault("Repeated", path="#/pack/families/0/sequences/1")]),
        ("refused NoDevice\n", [Fault("NoDevice")]),
    ]

    def test_answers(self):
        for value, faults in self.ANSWERS:
            with self.subTest(value):
                self.assertEqual(faults_of(json.dumps(value) + "\n"), faults)
        for text, faults in self.REFUSALS:
            with self.subTest(text):
                self.assertEqual(faults_of(text), faults)

    def test_no_answers(self):
        for text in ("", "usage dapseq_faults ..\n", "end readfault\n", "[]\n", '{"faults":[{"kind":"Syntax"}]}\n', "refused\n"):
            with self.subTest(text), self.assertRaises(NoAnswer):
                faults_of(text)

    def test_words(self):
        """A processor is named where a sequence is for it alone; sequences for another are left out of the job."""
        device = "<device Dname='D'><variant Dvariant='V'/></device>"
        pack = pack_of(family("""<processor Pname='P'/><processor Pname='Q'/><sequences>
            <sequence name='A'/><sequence name='A' Pname='Q'/></sequences>""", device))
        found = [run_of(Check({"pack": conversion.convert(pack, None, it.choice()).pack}, it)) for it in sets_of(pack)]
        self.assertEqual([words for words, _ in found], [
            ["--format", "json", "--device", "D", "--variant", "V"],
            ["--format", "json", "--device", "D", "--variant", "V", "--pname", "Q"]])
        self.assertEqual([len(job["pack"]["families"][0]["sequences"]) for _, job in found], [1, 2])

    def test_names(self):
        self.assertEqual((shown("a b~"), shown("a\\b"), shown("\u00e9\t")), ("a b~", "a\\\\b", "\\xc3\\xa9\\x09"))

    def test_another_source(self):
        """A source may find several faults of a set, with the name that each is about."""
        class Both:
            def faults(self, checks):
                return [[Fault("UndefinedName", "x", "S", "0", "block", 1, 1), Fault("Syntax", "", "S", "0", "block", 1, 3)] for _ in checks]

        pack = pack_of(family("<sequences><sequence name='S'><block>x y</block></sequence></sequences>"))
        report, checked = pdsc_faults.check(pack, None, Both())
        self.assertEqual((list(report.lines()), checked), ([
            "P.pdsc:2:38: UndefinedName S 0 block 1:1 x", "    <sequences><sequence name='S'><block>x y</block></sequence></sequences>",
            " " * 41 + "^", "    for D",
            "P.pdsc:2:40: Syntax S 0 block 1:3", "    <sequences><sequence name='S'><block>x y</block></sequence></sequences>",
            " " * 43 + "^", "    for D"], 1))


class Selection(unittest.TestCase):
    """Of each name the sequence that applies, by the examples `levels` and `two_cores`."""

    def test_deepest_level(self):
        content = family("<sequences><sequence name='A'/><sequence name='B'/></sequences>", """<device Dname='D'>
            <sequences><sequence name='B'/></sequences>
            <variant Dvariant='V'><sequences><sequence name='C'/></sequences></variant><variant Dvariant='W'/></device>""")
        self.assertEqual(self.paths(content, "V"), {
            "A": "families/0/sequences/0", "B": "families/0/devices/0/sequences/0", "C": "families/0/devices/0/variants/0/sequences/0"})
        self.assertEqual(self.paths(content, "W"), {"A": "families/0/sequences/0", "B": "families/0/devices/0/sequences/0"})

    def test_processor(self):
        content = family("""<processor Pname='P'/><processor Pname='Q'/><sequences><sequence name='A' Pname='P'/><sequence name='A'/>
            <sequence name='B' Pname='Q'/></sequences>""")
        self.assertEqual(self.paths(content, None, "P"), {"A": "families/0/sequences/0"})
        self.assertEqual(self.paths(content, None, "Q"), {"A": "families/0/sequences/1", "B": "families/0/sequences/2"})

    def paths(self, content, variant, pname=None):
        pack = pack_of(content)
        choice = pack.choose("D", variant, pname)
        found = sequence_paths(conversion.convert(pack, None, choice).pack, Set(tuple(choice.levels), pname))
        return {name: path.replace("#/pack/", "") for name, path in found.items()}


if __name__ == "__main__":
    unittest.main()
