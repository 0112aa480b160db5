"""Drawings: every element once, as many lit as the library counts, and where the paper has them."""

from xml.etree import ElementTree

from case import EXAMPLES, TOP, TestCase, run

from humtrellis import Bus, Part, Register, outcome

SVG = "{http://www.w3.org/2000/svg}"
# README's S lines: column, backplane.
MINUS = {(160, 2), (162, 0), (162, 2), (163, 2), (164, 0)}
# Columns 159 to 161 and 162 to 164 in 1:3, source document 003's figure 13.
SEGMENTS = {"b": (0, 0), "DP": (0, 1), "c": (0, 2), "a": (1, 0), "d": (1, 1), "g": (1, 2), "f": (2, 0), "e": (2, 1)}


class Svg(TestCase):
    def drawn(self, *arguments) -> ElementTree.Element:
        return ElementTree.fromstring(self.shown(*arguments, "--svg", "-"))

    def places(self, drawing: ElementTree.Element, *classes: str) -> list[tuple[int, int]]:
        """The column and backplane of each shape that has these classes."""
        shapes = (shape for shape in drawing.iter() if set(classes) <= set(shape.get("class", "").split()) and "data-column" in shape.attrib)
        return [(int(shape.get("data-column")), int(shape.get("data-backplane"))) for shape in shapes]

    def titles(self, drawing: ElementTree.Element) -> list[str]:
        return [title.text for title in drawing.iter(f"{SVG}title")]

    def test_the_incident(self):
        for name, lit in (("minus", MINUS), ("minus-lost", MINUS - {(160, 2)})):
            drawing = self.drawn(f"examples/{name}.log", "--digits", 159, 2)
            for kind in ("segment", "element"):
                self.assertEqual(sorted(self.places(drawing, kind, "lit")), sorted(lit))
            self.assertEqual(len(self.places(drawing, "element")), 6 * 3)
            self.assertEqual(len(drawing.findall(f".//{SVG}line[@class='edge']")), 1)

    def test_the_segments_of_1_3(self):
        drawing = self.drawn("examples/minus.log", "--digits", 159, 2)
        named = [title.split(":")[0] for title in self.titles(drawing) if title.startswith("segment")]
        places = {(name, *place) for name, place in zip(named, self.places(drawing, "segment"))}
        digits = ((digit, name, *place) for digit in (0, 1) for name, place in SEGMENTS.items())
        expected = {(f"segment {name} of digit {digit}", 159 + 3 * digit + column, row) for digit, name, column, row in digits}
        self.assertEqual((len(named), places), (16, expected))

    def test_a_tooltip_says_where_and_whence(self):
        # The second transfer writes the same again into columns 0 and 1, the third is refused, and nothing writes to column 4.
        log = self.log((1, 0), "70 80 C8 40 A5 FF", "70 80 40 40 A5", "70 80 FC 40 00")
        titles = self.titles(ElementTree.fromstring(run(log, "--svg", "-").stdout))
        self.assertEqual(titles[0], "column 0, chip 0, backplane 0: lit; the column was last written by transfer 1")
        self.assertIn("column 3, chip 0, backplane 3: lit; the column was last written by transfer 0", titles)
        self.assertIn("column 4, chip 0, backplane 0: dark; the column was written by no transfer", titles)
        self.assertIn("column 0, chip 0, backplane 1: dark; the column was last written by transfer 0", self.titles(self.drawn(log, "--at", 0)))
        group1 = self.log((1, 2), "70 80 C8 40 A5", "72 80 C8 80 E1 40 A5")
        said = "column 160, chip 1, backplane 0: lit; the column was last written by transfer 1"
        self.assertIn(said, self.titles(self.drawn(group1, "--group", 1)))

    def test_every_element_of_a_group_once_and_as_many_lit_as_the_library_counts(self):
        for mode, backplanes in ((0, 4), (1, 1), (2, 2), (3, 3)):
            bus = Bus(Part.PCF8532, 2)
            wanted = bytes((7 * column + column // 9) % 16 for column in range(320))
            transfers = "70 00 C8", bus.write_rows(0, mode, 0, wanted).hex()
            for transfer in transfers:
                bus.transfer(bytes.fromhex(transfer))
            log = self.log((2, 0), *transfers)
            self.assertEqual((outcome(log.read_bytes()), bus.register(0, Register.M)), (bus, mode))
            drawing = self.drawn(log)
            self.assertEqual(sorted(self.places(drawing, "element")), [(c, r) for c in range(320) for r in range(backplanes)])
            lit = self.places(drawing, "element", "lit")
            self.assertEqual(len(lit), bus.picture().lit)
            self.assertEqual({c: v for c, v in enumerate(bus.picture().columns) if v}, self.values(lit))
            self.assertEqual(len(drawing.findall(f".//{SVG}line[@class='edge']")), 1)

    def values(self, lit) -> dict[int, int]:
        values = {}
        for column, backplane in lit:
            values[column] = values.get(column, 0) + (1 << backplane)
        return values

    def test_columns_have_their_numbers(self):
        texts = [text.text for text in self.drawn("examples/minus.log", "--digits", 159, 2).iter(f"{SVG}text")]
        for text in ("minus.log", 'reads "-4"', *map(str, range(159, 165)), "chip 0", "chip 1", "BP0", "BP1", "BP2"):
            self.assertEqual(texts.count(text), 1, text)

    def test_two_logs(self):
        drawing = self.drawn("examples/minus.log", "examples/minus-lost.log", "--digits", 159, 2)
        self.assertEqual(self.places(drawing, "segment", "differs"), [(160, 2), (160, 2)])
        self.assertEqual(self.places(drawing, "segment", "differs", "lit"), [(160, 2)])
        whole = self.drawn("examples/minus.log", "examples/minus-lost.log")
        self.assertEqual(len(self.places(whole, "element", "lit")), 5 + 4)

    def test_the_pictures_of_the_readme(self):
        readme = (TOP / "README.md").read_text()
        for name in ("minus", "minus-lost"):
            picture = self.shown(f"examples/{name}.log", "--digits", 159, 2, "--svg", "-")
            self.assertEqual((TOP / "docs" / "pictures" / f"{name}.svg").read_text(), picture)
            self.assertTrue(f"(docs/pictures/{name}.svg)" in readme, name)

    def test_a_file_is_written_and_never_over_the_log(self):
        self.assertEqual(self.shown("examples/minus.log", "--svg", self.folder / "out.svg"), "")
        self.assertEqual((self.folder / "out.svg").read_text(), self.shown("examples/minus.log", "--svg", "-"))
        log = self.file("minus.log", (EXAMPLES / "minus.log").read_bytes())
        self.fails(2, "would be written over the log", log, "--svg", log)
        self.assertEqual(log.read_bytes(), (EXAMPLES / "minus.log").read_bytes())
