"""The grid: README's incident and the paper's log, written out by hand."""

from case import EXAMPLES, PAPER, TestCase, run

RULE = "+---------+---------+---------+---------+---------+---------+---------+---------"
DARK = "." * 80
MINUS = f"""\
group 0  phase 0  mode 1:3     on   chips 2  lit 5
chip 0 {RULE}
     0 {DARK}
    80 {DARK}
chip 1 {RULE}
   160 4.541{DARK[5:]}
   240 {DARK}
"""


class Grid(TestCase):
    def test_the_incident(self):
        lost = MINUS.replace("lit 5", "lit 4").replace(" 4.541", " ..541")
        for arguments in ((), ("--grid",), ("--at", 0)):
            self.assertEqual(self.shown("examples/minus.log", *arguments), MINUS)
            self.assertEqual(self.shown("examples/minus-lost.log", *arguments), lost)
        self.assertEqual(self.shown("examples/seen.log"), MINUS)

    def test_standard_input(self):
        log = (EXAMPLES / "minus.log").read_bytes()
        self.assertEqual(self.shown(input=log), MINUS)
        self.assertEqual(self.shown("-", input=log), MINUS)

    def test_the_papers_log_after_each_transfer(self):
        log = self.file("paper.log", bytes.fromhex(PAPER))
        lines = self.shown(log, "--at", 0).splitlines()
        self.assertEqual(lines[0], "group 0  phase 0  mode 1:4     on   chips 2  lit 4")
        self.assertEqual((lines[3], lines[5]), (f"    80 {DARK[1:]}5", f"   160 A{DARK[1:]}"))
        for arguments in (("--at", 1), ("--at", 2), ()):
            ended = run(log, *arguments)
            self.assertEqual((ended.returncode, ended.stdout.decode().splitlines()), (0, lines))
            warning = f"bin/glass: {log}: transfer 1 is refused by 7 (undefined command) at byte 2: from there on the glass may show something else\n"
            self.assertEqual(ended.stderr.decode(), warning)

    def test_other_groups_modes_and_phases(self):
        # Group 1, 1:2 and on, normal blinking, input and output bank 0: FF into columns 0 to 3.
        log = self.log((1, 1), "72 80 CA 80 F1 40 FF")
        shown = f"chip 0 {RULE}\n     0 3333{DARK[4:]}\n    80 {DARK}\n"
        self.assertEqual(self.shown(log, "--group", 1), "group 1  phase 0  mode 1:2     on   chips 1  lit 8\n" + shown)
        dark = shown.replace("3", ".")
        self.assertEqual(self.shown(log, "--group", 1, "--phase", 1), "group 1  phase 1  mode 1:2     on   chips 1  lit 0\n" + dark)
        self.assertEqual(self.shown(log), "group 0  phase 0  mode 1:4     off  chips 1  lit 0\n" + dark)

    def test_no_chip_and_no_transfer(self):
        self.assertEqual(self.shown(self.log((0, 0))), "group 0  phase 0  mode 1:4     off  chips 0  lit 0\n")
        self.assertEqual(self.shown("examples/minus.log", "--group", 1), "group 1  phase 0  mode 1:4     off  chips 0  lit 0\n")

    def test_two_warnings_are_one_line(self):
        ended = run(self.log((1, 0), "70 00 0A", "", "70 3F"))
        self.assertIn("case.log: transfer 0 is refused by 7 (undefined command) at byte 2, and 2 more are: from there", ended.stderr.decode())
