"""Where the texts of a job are in the .pdsc."""

import unittest

from support import PACKS, converted, sequence

from pdsc import conversion
from pdsc.devices import Choice
from pdsc.places import Piece, Place

STEP = "#/pack/families/0/sequences/0/steps/0"

# The XML of a step from line 2 on, the key of a text in it, and places: in the text, and in the file.
PLACES = [
    ("<block>a\n bc</block>", "block", {(1, 1): (2, 8), (2, 1): (3, 1), (2, 3): (3, 3)}),
    ("<block>a &amp; b; c</block>", "block", {(1, 3): (2, 10), (1, 4): (2, 15), (1, 5): (2, 16), (1, 8): (2, 19)}),
    ("<block>&#65;&#x42;C</block>", "block", {(1, 1): (2, 8), (1, 2): (2, 13), (1, 3): (2, 19)}),
    ("<block><![CDATA[a\n& b]]> c</block>", "block", {(1, 1): (2, 17), (2, 3): (3, 3), (2, 4): (3, 7), (2, 5): (3, 8)}),
    ("<block>a<!-- \n -->b\nc</block>", "block", {(1, 1): (2, 8), (1, 2): (3, 5), (2, 1): (4, 1)}),
    ("<block>a\r\nb\rc</block>", "block", {(1, 1): (2, 8), (2, 1): (3, 1), (3, 1): (4, 1)}),
    # A column of the text counts bytes, one of the file characters.
    ("<block>/* \u03a9 */ x\ny</block>", "block", {(1, 6): (2, 12), (1, 10): (2, 16), (2, 1): (3, 1)}),
    ("<block>\u03a9\u03a9&lt;\u03a9x</block>", "block", {(1, 5): (2, 10), (1, 8): (2, 15)}),
    ("<block>a<b/>c</block>", "block", {(1, 1): (2, 8), (1, 2): (2, 13)}),
    ("<block>&one;</block>", "block", {(1, 1): (2, 8), (1, 3): (2, 8), (2, 1): (2, 8)}),
    ("<control  if = 'a &lt; b'/>", "if", {(1, 1): (2, 17), (1, 3): (2, 19), (1, 4): (2, 23), (1, 5): (2, 24)}),
    ("<control if=\"&one;\"/>", "if", {(1, 1): (2, 14)}),
    ("<control\n  timeout='5'\n while='a\r\nb'/>", "while", {(1, 1): (4, 9), (1, 2): (4, 10), (1, 3): (5, 1)}),
    ("<control while='a\n\tb\rc'/>", "while", {(1, 1): (2, 17), (1, 2): (2, 18), (1, 4): (3, 2), (1, 6): (4, 1)}),
    ("<control\n  timeout='5'\n while='\u03a9 b'/>", "timeout", {(1, 1): (3, 12)}),
]


class Texts(unittest.TestCase):
    def test_places(self):
        for xml, key, places in PLACES:
            content = "<!DOCTYPE package [<!ENTITY one 'xyz&#10;w'>]>" + sequence(xml)
            stretch = converted(content).places.find(f"{STEP}/{key}")
            with self.subTest(xml):
                self.assertEqual({place: tuple(stretch.at(*place)) for place in places}, places)

    def test_encodings(self):
        text = "<?xml version='1.0' encoding='ISO-8859-1'?>" + sequence("<block>/* \u00e9 */ x</block>")
        for content in (text.encode("latin-1"), b"\xef\xbb\xbf" + text.encode()):
            with self.subTest(content[:3]):
                self.assertEqual(converted(content).places.find(f"{STEP}/block").at(1, 10), (2, 16))

    def test_elements(self):
        places = converted(sequence("<control>\n <block>a</block></control>")).places
        self.assertEqual(places.find(STEP).at(0, 0), (2, 1))
        self.assertEqual(places.find(f"{STEP}/control/0").at(0, 0), (3, 2))
        self.assertEqual(places.find("#/pack/families/0/sequences/0").at(0, 0), (1, 50))
        self.assertEqual(places.find(f"{STEP}/no/such/path").at(0, 0), (2, 1))
        self.assertIsNone(places.find("#/bench"))

    def test_value(self):
        value = converted(sequence("<control if='a &lt; b'/>")).places.value()["places"]
        self.assertEqual(value[-1], {"path": f"{STEP}/if", "file": "P.pdsc", "line": 2, "column": 14,
                                     "pieces": [[1, 1, 2, 14], [1, 4, 2, 20]]})

    def test_each_character(self):
        """In the packs each character of a text is that at its place in the file, or a reference is there."""
        for name in ("Defaults", "LPC55S69", "MIMXRT1052", "STM32F4"):
            pack = conversion.read(str(PACKS / f"{name}.pdsc"))
            for path, stretch in conversion.convert(pack, None, Choice()).places.stretches.items():
                lines = stretch.text.value.split("\n") if stretch.text else []
                for line, text in enumerate(lines, 1):
                    for column, character in enumerate(text, 1):
                        place = stretch.at(line, column)
                        at = stretch.document.line(place.line)[place.column - 1]
                        self.assertIn(at, (character, "&"), (name, path, line, column))

    def test_pieces(self):
        piece = Piece(3, 5, Place(40, 9))
        self.assertEqual((piece.at(3, 7), piece.at(4, 2)), ((40, 11), (41, 2)))


if __name__ == "__main__":
    unittest.main()
