"""Digits: the paper's shapes and orders of segments, request 1, in every mode."""

from case import TestCase

# Segments by mode, most significant bit first, and the digits' segments.
ORDERS = {"static": "c b a f g e d DP", "1:2": "a b f g e c d DP", "1:3": "b DP c a d g f e", "1:4": "a c b DP f e g d"}
SETTINGS = {"static": "C9", "1:2": "CA", "1:3": "CB", "1:4": "C8"}
SHAPES = "abcdef bc abdeg abcdg bcfg acdfg acdefg abc abcdefg abcdfg".split()


def data(mode: str, segments: str, point: bool = False) -> str:
    """The data byte of segments in a mode, in hexadecimal."""
    wanted = [*segments] + ["DP"] * point
    return "".join("1" if name in wanted else "0" for name in ORDERS[mode].split())


def sent(mode: str, *symbols: str) -> str:
    return f"70 80 {SETTINGS[mode]} 40 " + "".join(f"{int(symbol, 2):02X}" for symbol in symbols)


class Digits(TestCase):
    def test_the_incident(self):
        header = "group 0  phase 0  mode 1:3     on   chips 2  lit "
        self.assertEqual(self.shown("examples/minus.log", "--digits", 159, 2), header + '5\n\n _  |_|   reads "-4"\n      |\n')
        self.assertEqual(self.shown("examples/minus-lost.log", "--digits", 159, 2), header + '4\n\n    |_|   reads " 4"\n      |\n')

    def test_every_digit_in_every_mode(self):
        drawn = [
            " _       _   _       _   _   _   _   _",
            '| |   |  _|  _| |_| |_  |_    | |_| |_|  _  |_|   reads "0123456789-4."',
            "|_|   | |_   _|   |  _| |_|   | |_|  _|       |.",
        ]
        for mode in ORDERS:
            symbols = [data(mode, shape) for shape in SHAPES] + [data(mode, "g"), data(mode, "bcfg", True)]
            log = self.log((1, 0), sent(mode, *symbols))
            lines = self.shown(log, "--digits", 0, 12).splitlines()
            self.assertEqual(lines[1:], drawn, mode)
            self.assertTrue(lines[0].startswith(f"group 0  phase 0  mode {mode:6}  on   chips 1  lit "), mode)

    def test_what_is_no_symbol_is_shown_as_it_is(self):
        # The second digit has a and d alone, as no symbol has; then a point without a digit.
        for mode, columns in (("static", "8 to 15"), ("1:2", "4 to 7"), ("1:3", "3 to 5"), ("1:4", "2 to 3")):
            log = self.log((1, 0), sent(mode, data(mode, "bc"), data(mode, "ad"), data(mode, "", True)))
            lines = self.shown(log, "--digits", 0, 3).splitlines()
            self.assertEqual(lines[1:], ["     _", f"  |           no symbol of a price in columns {columns}", "  |  _     ."], mode)

    def test_an_element_that_no_digit_has(self):
        # In 1:3 the third column's backplane 2: a byte from column 2 on has it as its third bit.
        log = self.log((1, 0), "70 80 CB 80 42 40 20")
        self.assertEqual(
            self.shown(log, "--digits", 0, 1).splitlines(),
            ["group 0  phase 0  mode 1:3     on   chips 1  lit 1", "", '      reads " "', "", "lit, and no digit's: column 2, chip 0, backplane 2"],
        )

    def test_more_than_a_row(self):
        log = self.log((1, 0), sent("1:4", *[data("1:4", "bc")] * 13))
        lines = self.shown(log, "--digits", 0, 13).splitlines()
        self.assertEqual(lines[2], "  | " * 12 + '  reads "111111111111"')
        self.assertEqual(lines[4:], ["", '  |   reads "1"', "  |"])

    def test_columns_that_are_not_there(self):
        self.assertEqual(len(self.shown("examples/minus.log", "--digits", 317, 1).splitlines()), 4)
        said = "in mode 1:3 a digit has 3 columns, so that the last one is 320, and group 0 has 320 columns"
        self.fails(2, said, "examples/minus.log", "--digits", 318, 1)
        for count in (0, 81):
            self.fails(2, "COUNT is 1 to 80", "examples/minus.log", "--digits", 0, count)
        self.fails(2, "-1 is no number from 0 on", "examples/minus.log", "--digits", "-1", 1)
