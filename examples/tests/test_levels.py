"""The levels, sequences and debug variables of a .pdsc in a job."""

import json
import time
import unittest

from support import DATA, PACKS, converted, family, level, notes, pack_of, sequence, steps

from pdsc import conversion
from pdsc.devices import Choice
from pdsc.document import Refused

TWO_CORES = """<debugvars>__var A = 0;</debugvars>
<device Dname='D'><processor Pname='CM7'/><processor Pname='CM4'/>
<debugvars Pname='CM7'>__var A = 7;</debugvars>
<debugvars Pname='CM4'>__var A = 4;</debugvars></device>"""

# What a step becomes: the XML of the step, and the step of the job.
STEPS = [
    ("<block>a &amp; b &lt; c &gt; d &quot;&apos;</block>", {"block": "a & b < c > d \"'"}),
    ("<block>&#65;&#x42;</block>", {"block": "AB"}),
    ("<block><![CDATA[a & b]]></block>", {"block": "a & b"}),
    ("<block>a <![CDATA[& b]]> c</block>", {"block": "a & b c"}),
    ("<block>a<!-- no code -->b<?no code?>c</block>", {"block": "abc"}),
    ("<block/>", {"block": ""}),
    ("<block atomic='true' info='i'>a</block>", {"block": "a", "atomic": True, "info": "i"}),
    ("<block atomic=' 1 '>a</block>", {"block": "a", "atomic": True}),
    ("<block atomic='0'>a</block>", {"block": "a", "atomic": False}),
    ("<block atomic='True'>a</block>", {"block": "a", "atomic": True}),
    ("<block atomic='FALSE'>a</block>", {"block": "a", "atomic": False}),
    ("<control if='a &amp;&amp; b'/>", {"control": [], "if": "a && b"}),
    ("<control while='1' timeout='1000000 '/>", {"control": [], "while": "1", "timeout": "1000000"}),
    ("<control while='1' timeout='0xF4240' info='i'/>", {"control": [], "while": "1", "timeout": "0xF4240", "info": "i"}),
    ("<control if='1'><control if='2'><block>a</block></control></control>",
     {"control": [{"control": [{"block": "a"}], "if": "2"}], "if": "1"}),
    ("<block>a<blok/>b</block>", {"block": "ab"}),
]

# What is said of a step: the XML of the step in line 2, and the notes.
STEP_NOTES = [
    ("<blok>a</blok>", ["2:1: warning: <blok> is no element of <sequence>: it is left out"]),
    ("<control>\n  <blok>a</blok></control>", ["3:3: warning: <blok> is no element of <control>: it is left out"]),
    ("<block if='1'>a</block>", ['2:1: warning: <block> has no attribute if: if="1" is left out']),
    ("<block>a<b/></block>", ["2:9: warning: <b> is no element of <block>: it is left out"]),
    ("<control>a = 1;</control>", ["2:1: warning: text of <control> outside a <block> is left out"]),
    ("<block atomic='True'>a</block>", ['2:1: warning: <block atomic="True">: taken as true']),
    ("<block atomic=' 1 '>a</block>", []),
    ("<block atomic='yes'>a</block>", ['2:1: refused: <block atomic="yes">: neither true, 1, false nor 0']),
    ("<block atomic=''>a</block>", ['2:1: refused: <block atomic="">: neither true, 1, false nor 0']),
    ("<control while='1' timeout=' 10 '/>", []),
    ("<control while='1' timeout=''/>", ['2:1: refused: <control timeout="">: no number, as 1000000 or 0xF4240']),
    ("<control while='1' timeout='1s'/>", ['2:1: refused: <control timeout="1s">: no number, as 1000000 or 0xF4240']),
    ("<control while='1' timeout='010'/>", ['2:1: refused: <control timeout="010">: no number, as 1000000 or 0xF4240']),
    ("<control while='1' timeout='18446744073709551616'/>",
     ['2:1: refused: <control timeout="18446744073709551616">: no number, as 1000000 or 0xF4240']),
    ("<control>" * 51 + "</control>" * 51, ["2:451: refused: <control> within 50 others"]),
    ("<control>" * 50 + "</control>" * 50, []),
]

# What is said of the elements of a family: their XML from line 2 on, and the notes.
LEVEL_NOTES = [
    ("<sequence name='S'/>", ["2:1: warning: <sequence> outside <sequences>: it is left out"]),
    ("<sequnces/>", ["2:1: warning: <sequnces> is no element of <family>: it is left out"]),
    ("<sequences><block>a</block></sequences>", ["2:12: warning: <block> is no element of <sequences>: it is left out"]),
    ("<sequences><sequence name='S' disabled='1'/></sequences>",
     ['2:12: warning: <sequence> has no attribute disabled: disabled="1" is left out']),
    ("<sequences><sequence name='S' disable='yes'/></sequences>",
     ['2:12: refused: <sequence disable="yes">: neither true, 1, false nor 0']),
    ("<sequences><sequence name=' S'/></sequences>", ['2:12: warning: <sequence name=" S">: taken as "S"']),
    ("<sequences><sequence/></sequences>", ["2:12: refused: <sequence> has no name"]),
    ("<sequences><sequence name='S'>a;</sequence></sequences>",
     ["2:12: warning: text of <sequence> outside a <block> is left out"]),
    ("<sequences><sequence name='S'/>\n<sequence name='S'/></sequences>",
     ['3:1: refused: this is the second <sequence name="S"> of its level']),
    ("<sequences><sequence name='S' Pname=''/></sequences>", ['2:12: warning: <sequence Pname="">: taken as for each processor']),
    ("<sequences><sequence name='S' Pname='cm7'/></sequences>", ['2:12: warning: <sequence Pname="cm7">: no <processor> has this name']),
    ("<debugvars>a</debugvars>\n<debugvars>b</debugvars>",
     ["3:1: refused: these are the second <debugvars> of this level for the same processor"]),
    ("<memory/><algorithm/><book/><feature/><environment/><compile/><description/><debugport/><trace/><flashinfo/>", []),
]


class Steps(unittest.TestCase):
    def test_steps(self):
        for xml, step in STEPS:
            with self.subTest(xml):
                self.assertEqual(steps(sequence(xml)), [step])

    def test_notes(self):
        for xml, said in STEP_NOTES:
            with self.subTest(xml):
                self.assertEqual(notes(sequence(xml)), said)

    def test_encodings(self):
        text = sequence("<block>// \u00e9</block>")
        declared = "<?xml version='1.0' encoding='ISO-8859-1'?>" + text
        for content in (text.encode(), b"\xef\xbb\xbf" + text.encode(), declared.encode("latin-1"), text.encode("utf-16")):
            with self.subTest(content[:4]):
                self.assertEqual(steps(content), [{"block": "// \u00e9"}])

    def test_line_ends(self):
        self.assertEqual(steps(sequence("<block>a\r\nb\rc</block>")), [{"block": "a\nb\nc"}])

    def test_declared_entity(self):
        content = "<!DOCTYPE package [<!ENTITY on '0x1 &#38;amp; 2'>]>" + sequence("<block>&on;;</block><control if='&on;'/>")
        self.assertEqual(steps(content), [{"block": "0x1 & 2;"}, {"control": [], "if": "0x1 & 2"}])


class Levels(unittest.TestCase):
    def test_notes(self):
        for xml, said in LEVEL_NOTES:
            with self.subTest(xml):
                self.assertEqual(notes(family(xml)), said)

    def test_levels_in_any_order(self):
        inside = """<device Dname='A'/><subFamily DsubFamily='S'><device Dname='B'><variant Dvariant='V'/></device></subFamily>
            <sequences><sequence name='one'/></sequences><device Dname='C'/><sequences><sequence name='two' disable='1'/></sequences>"""
        self.assertEqual(level(family(inside, "")), {
            "Dfamily": "F",
            "sequences": [{"name": "one", "steps": []}, {"name": "two", "disable": True, "steps": []}],
            "subFamilies": [{"DsubFamily": "S", "devices": [{"Dname": "B", "variants": [{"Dvariant": "V"}]}]}],
            "devices": [{"Dname": "A"}, {"Dname": "C"}],
        })

    def test_other_levels(self):
        self.assertEqual(notes("<package><devices><family Dfamily='F'/>\n<device Dname='D'/></devices></package>"),
                         ["2:1: warning: <device> is no element of <devices>: it is left out"])
        self.assertEqual(notes(family("", "<device>\n</device>")), ["3:1: refused: <device> has no Dname"])
        self.assertEqual(notes(family("", "<device Dname='D'><variant Dvariant='V'/>\n<variant Dvariant='V'/></device>")),
                         ['4:1: refused: this is the second <variant Dvariant="V"> of its level'])

    def test_one_device(self):
        inside = "<subFamily DsubFamily='S'><device Dname='A'/></subFamily><device Dname='B'><variant Dvariant='V'/></device>"
        self.assertEqual(level(family(inside, ""), device="B"), {"Dfamily": "F", "devices": [{"Dname": "B", "variants": [{"Dvariant": "V"}]}]})
        self.assertEqual(level(family(inside, ""), device="A"), {"Dfamily": "F", "subFamilies": [{"DsubFamily": "S", "devices": [{"Dname": "A"}]}]})

    def test_many_devices(self):
        inside = "\n".join(f"<device Dname='D{number}'><variant Dvariant='V'/></device>" for number in range(1500))
        start = time.process_time()
        self.assertEqual(len(level(family(inside, ""))["devices"]), 1500)
        self.assertLess(time.process_time() - start, 2)


class Processors(unittest.TestCase):
    def debugvars(self, **names):
        found = level(family(TWO_CORES, ""), **names)
        return found["devices"][0].get("debugvars"), found["debugvars"]

    def test_debugvars_of_the_processor(self):
        self.assertEqual(self.debugvars(pname="CM4"), ("__var A = 4;", "__var A = 0;"))
        self.assertEqual(self.debugvars(device="D", pname="CM7"), ("__var A = 7;", "__var A = 0;"))

    def test_a_processor_has_to_be_named(self):
        self.assertEqual(notes(family(TWO_CORES, "")), [
            '4:1: refused: <debugvars Pname="CM7"> are for one processor: name one by --pname',
            '5:1: refused: <debugvars Pname="CM4"> are for one processor: name one by --pname',
        ])

    def test_a_device_without_processors(self):
        content = family(TWO_CORES, "<device Dname='E'/>")
        self.assertEqual(notes(content, device="E"), [])
        self.assertEqual(level(content, device="E")["debugvars"], "__var A = 0;")

    def test_debugvars_of_each_processor(self):
        inside = "<processor Pname='P'/><processor Pname='Q'/><debugvars Pname='P'>p</debugvars><debugvars>each</debugvars>"
        self.assertEqual(level(family(inside), pname="P")["debugvars"], "p")
        self.assertEqual(level(family(inside), pname="Q")["debugvars"], "each")

    def test_debugvars_without_code(self):
        for empty in ("<debugvars configfile='a.dbgconf'/>", "<debugvars configfile='a.dbgconf'> \n </debugvars>", "<debugvars/>"):
            with self.subTest(empty):
                found = level(family("<debugvars>__var A = 1;</debugvars>", f"<device Dname='D'>{empty}</device>"))
                self.assertEqual(found, {"Dfamily": "F", "debugvars": "__var A = 1;", "devices": [{"Dname": "D"}]})

    def test_sequences_of_processors(self):
        inside = "<processor Pname='P'/><sequences><sequence name='S' Pname='P'/><sequence name='S'/></sequences>"
        self.assertEqual(level(family(inside))["sequences"], [{"name": "S", "Pname": "P", "steps": []}, {"name": "S", "steps": []}])


class Refusals(unittest.TestCase):
    CONTENTS = [
        (b"", "P.pdsc:1:1: no XML: no element found"),
        (b"<package>\n<a></b></package>", "P.pdsc:2:6: no XML: mismatched tag"),
        (b"{}", "P.pdsc:1:1: no XML: not well-formed (invalid token)"),
        (b"<package>\n \xff</package>", "P.pdsc:2: this byte is none of the encoding utf-8"),
        (b"<?xml version='1.0' encoding='none-such'?><package/>", "P.pdsc:1: no encoding is known as none-such"),
        (b"PK\x03\x04..", "P.pdsc: this is an archive (a .pack is one): give the .pdsc that is in it"),
        (b"<cprj/>", "P.pdsc:1:1: <cprj> is no <package>"),
        (b"<package/>", "P.pdsc: no <family> is in its <devices>"),
        (b"<package xmlns='urn:x'>\n</package>",
         "P.pdsc:1:1: <package> has the namespace urn:x: the elements of a .pdsc have none"),
        (b"<!DOCTYPE package SYSTEM 'x.dtd'>\n<package>&none;</package>", "P.pdsc:2:10: the entity none is not declared in the file"),
        (b"<!DOCTYPE package [<!ENTITY x SYSTEM 'x.xml'>]>\n<package>&x;</package>", "P.pdsc:2:10: an entity is in another file, x.xml"),
    ]
    NAMES = [
        ({"device": "E"}, "P.pdsc: no device has the name E"),
        ({"device": "V"}, "P.pdsc: no device has the name V: it is a variant, so use --device D --variant V"),
        ({"device": "T"}, "P.pdsc: several devices have the name T, in the lines 3 and 4"),
        ({"device": "D", "variant": "W"}, "P.pdsc: the device D has no variant W"),
        ({"pname": "cm7"}, "P.pdsc: no processor has the name cm7; there are: CM7"),
        ({"device": "T1", "pname": "CM7"}, "P.pdsc: no processor has the name CM7; there are: none"),
    ]

    def test_contents(self):
        for content, text in self.CONTENTS:
            with self.subTest(content), self.assertRaises(Refused) as refused:
                pack_of(content)
            self.assertEqual(str(refused.exception), text)

    def test_names(self):
        content = family("<device Dname='D'><processor Pname='CM7'/><variant Dvariant='V'/></device>\n<device Dname='T'/>\n<device Dname='T'/>",
                         "<device Dname='T1'/>")
        for names, text in self.NAMES:
            with self.subTest(names), self.assertRaises(Refused) as refused:
                converted(content, **names)
            self.assertEqual(str(refused.exception), text)

    def test_prefixed_attributes(self):
        content = "<package xmlns:xs='urn:x' xs:noNamespaceSchemaLocation='PACK.xsd'><devices><family Dfamily='F'/></devices></package>"
        self.assertEqual(level(content), {"Dfamily": "F"})


class Stored(unittest.TestCase):
    """The stored jobs of the packs: their key `pack` is what is made of the .pdsc, byte for byte."""

    JOBS = {
        "Defaults": "defaults_debug_port_setup defaults_debug_port_start",
        "LPC55S69": "lpc55s69_debug_port_start lpc55s69_reset_catch_set lpc55s69_reset_catch_set_blank lpc55s69_reset_hardware "
                    "lpc55s69_reset_system lpc55s69_trace_start",
        "MIMXRT1052": "imxrt1052_debug_code_mem_remap imxrt1052_flash_of_64_mib imxrt1052_reset_catch_set "
                      "imxrt1052_reset_catch_set_no_flash imxrt1052_reset_system",
        "STM32F4": "stm32f4_connect stm32f4_debug_core_start stm32f4_debug_device_unlock stm32f4_debug_device_unlock_clone "
                   "stm32f4_trace_start",
    }

    def test_families(self):
        for name, jobs in self.JOBS.items():
            pack = conversion.read(str(PACKS / f"{name}.pdsc"))
            result = conversion.convert(pack, None, Choice())
            self.assertEqual(list(result.notes.notes), [])
            for job in jobs.split():
                with self.subTest(job):
                    text = (DATA / f"{job}.json").read_text(encoding="utf-8")
                    stored = json.loads(text)
                    made = {**stored, "pack": {**stored["pack"], **result.pack}}
                    self.assertEqual(text.rstrip("\n"), json.dumps(made, indent=1, ensure_ascii=False))

    def test_defaults(self):
        pack = conversion.read(str(PACKS / "STM32F4.pdsc"))
        made = conversion.convert(pack, conversion.default_sequences(), Choice()).pack["defaults"]["sequences"]
        stored = json.loads((DATA / "stm32f4_connect.json").read_bytes())["pack"]["defaults"]["sequences"]
        self.assertEqual(len(made), 12)
        self.assertEqual(made, stored[:12])


if __name__ == "__main__":
    unittest.main()
