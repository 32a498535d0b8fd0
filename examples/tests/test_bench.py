"""The bench and the starting values that a device has in its .pdsc."""

import unittest

from support import PACKS, family, pack_of

from pdsc import conversion
from pdsc.places import Notes

WINDOW = {"address": "0xE0000000", "length": 1048576}


def made(content, **names):
    """The keys `run` and `bench`, and what is said of them."""
    pack, found = pack_of(content), Notes()
    keys = conversion.run_and_bench(pack, pack.choose(*(names.get(key) for key in ("device", "variant", "pname"))), found)
    return keys, [str(note).partition(":")[2] for note in found.notes]


def target(inside, **names):
    return made(family(inside), **names)[0]["bench"]["target"]


# What stands in a family, and the starting values of the only device, for the processor P.
VARIABLES = [
    ("", {"__protocol": "0x10002", "__dp": 0, "__ap": 0}),
    ("<debugconfig default='jtag'/>", {"__protocol": "0x10001", "__dp": 0, "__ap": 0}),
    ("<debugconfig default='swd' swj='false'/>", {"__protocol": "0x2", "__dp": 0, "__ap": 0}),
    ("<debugconfig default='swd' swj='1' dormant='true'/>", {"__protocol": "0x30002", "__dp": 0, "__ap": 0}),
    ("<debugconfig dormant='1'/>", {"__protocol": "0x30002", "__dp": 0, "__ap": 0}),
    ("<debug __ap='3'/>", {"__protocol": "0x10002", "__dp": 0, "__ap": 3}),
    ("<debug __ap='3'/><debug Pname='P' __ap='0x1'/><debug Pname='Q' __ap='2'/>", {"__protocol": "0x10002", "__dp": 0, "__ap": 1}),
    ("<debug Pname='P' __ap='1'/><debug svd='a.svd'/>", {"__protocol": "0x10002", "__dp": 0, "__ap": 1}),
    ("<debug __dp='1' __ap='2'/>", {"__protocol": "0x10002", "__dp": 1, "__ap": 2}),
    ("<accessportV1 __apid='7' index='5'/><debug __apid='7'/>", {"__protocol": "0x10002", "__dp": 0, "__ap": 5}),
]

# What stands in a family, and the access ports.
PORTS = [
    ("", [0]),
    ("<debug svd='a.svd'/>", [0]),
    ("<debug Pname='P' __ap='1'/><debug Pname='Q' __ap='3'/>", [1, 3]),
    ("<debug Pname='P' __ap='1'/><debug Pname='Q' __dp='1' __ap='3'/>", [1]),
    ("<accessportV1 __apid='0' index='0'/><accessportV1 __apid='1' index='4'/><debug __apid='1'/>", [0, 4]),
]

# What stands in a family, and the regions of memory after the window of the private peripheral bus.
MEMORY = [
    ("<memory name='R' start='0x20000000' size='0x1000' access='rw'/>", [{"address": "0x20000000", "length": 4096}]),
    ("<memory name='R' start='536870912' size='4096' access='rwx'/>", [{"address": "0x20000000", "length": 4096}]),
    ("<memory name='F' start='0x0' size='4096' access='rx'/>", [{"address": "0x00000000", "length": 4096, "kind": "ro"}]),
    ("<memory id='IROM1' start='0x0' size='4096'/>", [{"address": "0x00000000", "length": 4096, "kind": "ro"}]),
    ("<memory id='IRAM1' start='0x0' size='4096'/>", [{"address": "0x00000000", "length": 4096}]),
    ("<memory name='G' start='0x40000000' size='4096' access='p'/>", [{"address": "0x40000000", "length": 4096}]),
    ("<memory name='A' Pname='Q' start='0' size='4' access='rw'/><memory name='B' Pname='P' start='8' size='4' access='rw'/>",
     [{"address": "0x00000008", "length": 4}]),
]

# What stands in a family, what is said of its memory, and the regions after the window.
FITTED = [
    ("<memory name='A' start='0' size='8' access='rw'/>\n<memory name='B' start='4' size='8' access='rw'/>",
     ["3:1: warning: <memory> B: it overlaps A: it is left out"], [(0, 8)]),
    ("<memory name='A' start='0xE0040000' size='4096' access='rw'/>",
     ["2:1: warning: <memory> A: it overlaps the private peripheral bus: it is left out"], []),
    ("<memory name='A' start='zero' size='8' access='rw'/>",
     ['2:1: warning: <memory> A: start="zero" size="8" are no numbers: it is left out'], []),
    ("<memory name='A' start='2' size='8' access='rw'/>",
     ["2:1: warning: <memory> A: a job has regions of whole words that end at 2^63 at most: it is left out"], []),
    ("<memory name='A' start='0' size='0' access='rw'/>",
     ["2:1: warning: <memory> A: a job has regions of whole words that end at 2^63 at most: it is left out"], []),
    ("<memory name='A' start='0' size='0x300000' access='rw'/>", [], [(0, 0x300000)]),
    ("<memory name='A' start='0' size='0x4000000' access='rx'/>\n<memory name='B' start='0x20000000' size='0x100000' access='rw'/>",
     ["2:1: warning: <memory> A: 67108864 bytes, of which the job has the first 2097152: all regions have 4194304 together"],
     [(0, 0x200000), (0x20000000, 0x100000)]),
]


class Run(unittest.TestCase):
    def test_variables(self):
        processors = "<processor Pname='P'/><processor Pname='Q'/>"
        for inside, variables in VARIABLES:
            with self.subTest(inside):
                self.assertEqual(made(family(processors + inside), pname="P"), (
                    {"run": {"turn_us": 1000, "variables": variables}, "bench": made(family(processors + inside), pname="P")[0]["bench"]}, []))

    def test_levels(self):
        inside = "<debugconfig default='jtag' swj='0'/><debug __ap='1' __dp='1'/>"
        keys, said = made(family(inside, "<device Dname='D'><debugconfig default='swd'/><debug __ap='2'/></device>"))
        self.assertEqual((keys["run"]["variables"], said), ({"__protocol": "0x2", "__dp": 1, "__ap": 2}, []))

    def test_notes(self):
        for inside, said in [
            ("<debugconfig default='SWDP'/>", ['2:1: warning: <debugconfig default="SWDP">: no protocol, taken as swd']),
            ("<debugconfig swj='True'/>", ['2:1: warning: <debugconfig swj="True">: taken as true']),
            ("<debug __ap='x'/>", ['2:1: warning: <debug __ap="x">: no number, taken as 0']),
            ("<debug __apid='1'/>", ['2:1: warning: <debug __apid="1">: no <accessportV1> has this number']),
            ("<accessportV2 __apid='1'/>", ["2:1: warning: <accessportV2>: a job has no access ports of ADIv6: it is left out"]),
            ("<processor Pname='P'/><processor Pname='Q'/>",
             ["3:1: warning: the processors are P, Q: name one by --pname for its access port and its memory"]),
        ]:
            with self.subTest(inside):
                self.assertEqual(made(family(inside))[1], said)


class Target(unittest.TestCase):
    def test_ports(self):
        for inside, ports in PORTS:
            with self.subTest(inside):
                self.assertEqual(target(inside)["aps"], [{"ap": port} for port in ports])

    def test_many_ports(self):
        keys, said = made(family("".join(f"<debug Pname='P{number}' __ap='{number}'/>" for number in range(20))))
        self.assertEqual([it["ap"] for it in keys["bench"]["target"]["aps"]], list(range(16)))
        self.assertEqual(said, ["3:1: warning: 20 access ports, of which a job has the first 16"])

    def test_memory(self):
        for inside, memory in MEMORY:
            with self.subTest(inside):
                self.assertEqual(target("<processor Pname='P'/><processor Pname='Q'/>" + inside, pname="P")["memory"], [WINDOW, *memory])

    def test_fitted(self):
        for inside, notes, regions in FITTED:
            with self.subTest(inside):
                keys, said = made(family(inside))
                found = [(int(it["address"], 16), it["length"]) for it in keys["bench"]["target"]["memory"]]
                self.assertEqual((said, found), (notes, [(0xE0000000, 1 << 20), *regions]))

    def test_many_regions(self):
        keys, said = made(family("\n".join(f"<memory name='M{number}' start='{number * 8}' size='4' access='rw'/>" for number in range(70))))
        self.assertEqual(len(keys["bench"]["target"]["memory"]), 64)
        self.assertEqual(said, [f"{number + 2}:1: warning: <memory> M{number}: a job has 64 regions: it is left out" for number in range(63, 70)])

    def test_deeper_levels(self):
        inside = "<memory name='F' start='0' size='4096' access='rx'/><memory name='R' start='0x20000000' size='4096' access='rw'/>"
        own = "<memory name='F' start='0' size='8192' access='rx'/><memory name='S' start='0x20000800' size='4' access='rw'/>"
        keys, said = made(family(inside, f"<device Dname='D'>{own}</device>"))
        self.assertEqual(keys["bench"]["target"]["memory"], [
            WINDOW, {"address": "0x00000000", "length": 8192, "kind": "ro"}, {"address": "0x20000800", "length": 4}])
        self.assertEqual(said, ["2:53: warning: <memory> R: it overlaps S: it is left out"])

    def test_variant(self):
        device = "<device Dname='D'><variant Dvariant='V'><memory name='R' start='0' size='4' access='rw'/></variant></device>"
        for names, count in ({}, 1), ({"device": "D"}, 1), ({"device": "D", "variant": "V"}, 2):
            with self.subTest(names):
                self.assertEqual(len(made(family("", device), **names)[0]["bench"]["target"]["memory"]), count)

    def test_no_window(self):
        self.assertEqual(target("<processor Dcore='Cortex-A7'/>")["memory"], [])

    def test_several_devices(self):
        content = family("<device Dname='E'/>")
        self.assertEqual(made(content), (
            {"bench": conversion.SMALLEST_BENCH},
            ["1:19: warning: the bench has no ports and no memory; 2 devices: name one by --device"]))
        self.assertEqual(made(content, device="E")[1], [])
        self.assertEqual(made(family("", ""))[1], ["1:19: warning: the bench has no ports and no memory; there is no <device>"])


class Families(unittest.TestCase):
    """The ports, the memory and the starting values of packs in the form of real families."""

    def made(self, name, **names):
        pack, found = conversion.read(str(PACKS / f"{name}.pdsc")), Notes()
        keys = conversion.run_and_bench(pack, pack.choose(names.get("device"), None, names.get("pname")), found)
        return keys, [str(note) for note in found.notes]

    def test_lpc55s69(self):
        keys, said = self.made("LPC55S69", device="LPC55S69", pname="cm33_core1")
        self.assertEqual(said, [])
        self.assertEqual(keys["run"]["variables"], {"__protocol": "0x10002", "__dp": 0, "__ap": 1})
        self.assertEqual(keys["bench"]["target"], {"powered": True, "aps": [{"ap": 0}, {"ap": 1}], "memory": [
            WINDOW,
            {"address": "0x00000000", "length": 0xA0000, "kind": "ro"},
            {"address": "0x04000000", "length": 0x8000},
            {"address": "0x20000000", "length": 0x10000},
        ]})

    def test_stm32f4(self):
        keys, said = self.made("STM32F4")
        self.assertEqual(said, [])
        self.assertEqual(keys["bench"]["target"]["memory"], [
            WINDOW,
            {"address": "0x08000000", "length": 0x100000, "kind": "ro"},
            {"address": "0x20000000", "length": 0x20000},
            {"address": "0x10000000", "length": 0x10000},
        ])

    def test_imxrt1052(self):
        keys, said = self.made("MIMXRT1052")
        self.assertEqual(said, ["MIMXRT1052.pdsc:74:9: warning: <memory> BOARD_FLASH: 67108864 bytes, of which the job has "
                                "the first 2752512: all regions have 4194304 together"])
        self.assertEqual(sum(it["length"] for it in keys["bench"]["target"]["memory"]), 4194304)


if __name__ == "__main__":
    unittest.main()
