"""Two logs: both, and what differs."""

from case import PAPER, TestCase
from test_grid import DARK, RULE

HEADER = "group 0  phase 0  mode 1:3     on   chips 2  lit"
DIFFERS = """\
column 160, chip 1, backplane 2: lit in A alone
elements that differ: 1
the pictures first differ after transfer 0
"""


class Compare(TestCase):
    def test_the_incident(self):
        expected = f"""\
A examples/minus.log
B examples/minus-lost.log
A {HEADER} 5
B {HEADER} 4
  chip 0 {RULE}
       0 {DARK}
      80 {DARK}
  chip 1 {RULE}
A    160 4.541{DARK[5:]}
B    160 ..541{DARK[5:]}
         ^
     240 {DARK}
{DIFFERS}"""
        self.assertEqual(self.shown("examples/minus.log", "examples/minus-lost.log"), expected)

    def test_the_incident_in_digits(self):
        drawn = 'A\nA  _  |_|   reads "-4"\nA       |\nB\nB     |_|   reads " 4"\nB       |\n  ^^^\n'
        names = "A examples/minus.log\nB examples/minus-lost.log\n"
        expected = f"{names}A {HEADER} 5\nB {HEADER} 4\n{drawn}{DIFFERS}"
        self.assertEqual(self.shown("examples/minus.log", "examples/minus-lost.log", "--digits", 159, 2), expected)

    def test_nothing_differs(self):
        lines = self.shown("examples/minus.log", "examples/seen.log").splitlines()
        self.assertEqual(lines[2], f"  {HEADER} 5")
        self.assertEqual(lines[-2:], ["elements that differ: 0", "the pictures are alike after each of transfers 0 to 0"])
        self.assertFalse([line for line in lines[2:] if line[0] != " "][:-2])

    def test_which_transfer_was_the_first(self):
        # Both begin alike; the second transfer of B lights one element more, the third of both writes over it.
        one = self.log((1, 0), "70 80 C8 40 A5", "70 80 40 40 A5", "70 80 40 40 FF", name="one.log")
        other = self.log((1, 0), "70 80 C8 40 A5", "70 80 40 40 A7", "70 80 40 40 FF", name="other.log")
        self.assertEqual(self.shown(one, other).splitlines()[-2:], ["elements that differ: 0", "the pictures first differ after transfer 1"])
        said = ["column 1, chip 0, backplane 2: lit in B alone", "elements that differ: 1", "the pictures first differ after transfer 1"]
        self.assertEqual(self.shown(one, other, "--at", 1).splitlines()[-3:], said)
        self.assertEqual(self.shown(one, other, "--at", 0).splitlines()[-1], "the pictures are alike after each of transfers 0 to 0")

    def test_other_chips(self):
        one = self.log((1, 0), "70 80 C8 40 A5", name="one.log")
        other = self.file("other.log", bytes.fromhex(PAPER)[:14])
        lines = self.shown(one, other).splitlines()
        self.assertIn(f"B chip 1 {RULE}", lines)
        self.assertIn(f"B    160 A{DARK[1:]}", lines)
        elements = [(0, 0, 0), (0, 0, 2), (1, 0, 1), (1, 0, 3)], [(159, 0, 0), (159, 0, 2), (160, 1, 1), (160, 1, 3)]
        lit = [(*element, letter) for letter, its in zip("AB", elements) for element in its]
        said = ["column {}, chip {}, backplane {}: lit in {} alone".format(*element) for element in lit]
        self.assertEqual(lines[-10:], said + ["elements that differ: 8", "the pictures first differ after transfer 0"])

    def test_three_logs_are_too_many(self):
        self.fails(2, "one log is shown, or two are compared", *["examples/minus.log"] * 3)
        self.fails(2, "standard input has one log", "-", "-")
