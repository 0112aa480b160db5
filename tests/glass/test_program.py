"""The program as a user runs it: help, statuses, bad input, a terminal."""

import os
import pty
import subprocess

from case import EXAMPLES, TOP, TestCase, run


class Program(TestCase):
    def test_help(self):
        said = self.shown("--help")
        options = "--grid", "--digits FIRST COUNT", "--svg FILE", "--html FILE", "--group", "--phase", "--at N"
        for word in ("LOG", *options, "Status: 0 shown, 1 a log is refused"):
            self.assertIn(word, said)

    def test_statuses(self):
        self.fails(1, "examples/torn.log: the log is refused by 13 (record cut short) at offset 17", "examples/torn.log")
        self.fails(1, "examples/torn.log: the log is refused", "examples/minus.log", "examples/torn.log")
        self.fails(1, "standard input: the log is refused by 12 (no log of version 1 or 2)", input=b"")
        self.fails(2, "no.log: No such file or directory", "no.log")
        self.fails(2, "examples: Is a directory", "examples")
        self.fails(2, "examples/minus.log: --at 1: the log has transfers 0 to 0", "examples/minus.log", "--at", 1)
        self.fails(2, "the log has no transfer", self.log((1, 0)), "--at", 0)
        self.fails(2, "no-folder/x.svg: No such file or directory", "examples/minus.log", "--svg", "no-folder/x.svg")
        for wrong in ("--at x", "--group 2", "--phase 2", "--digits 1", "--what", "--grid --svg -", "--grid --html -", "--grid --digits 0 1"):
            self.fails(2, "usage: bin/glass", "examples/minus.log", *wrong.split())

    def test_no_library(self):
        self.fails(2, "the library could not be loaded", "examples/minus.log", env={**os.environ, "HUMTRELLIS_LIB": "/no/library.so"})

    def test_an_output_that_cannot_be_written(self):
        with open("/dev/full", "wb") as full:
            ended = subprocess.run([TOP / "bin" / "glass", EXAMPLES / "minus.log"], stdout=full, stderr=subprocess.PIPE)
        self.assertEqual(ended.returncode, 2)
        self.assertIn(b"No space left on device", ended.stderr)
        closed = subprocess.run(["bash", "-c", "bin/glass examples/minus.log >&-"], cwd=TOP, stderr=subprocess.PIPE)
        self.assertEqual(closed.returncode, 2)

    def test_a_reader_that_goes_away(self):
        piped = "bin/glass examples/minus.log --svg - | head -c 1 >/dev/null; echo ${PIPESTATUS[0]}"
        ended = subprocess.run(["bash", "-c", piped], cwd=TOP, capture_output=True)
        self.assertEqual(ended.stdout, b"141\n")
        self.assertEqual(ended.stderr, b"")

    def test_a_terminal_has_lit_columns_in_reverse_unless_the_grid_is_asked_for(self):
        for arguments, shown in (((), b"   160 \x1b[7m4\x1b[0m.\x1b[7m5\x1b[0m\x1b[7m4\x1b[0m\x1b[7m1\x1b[0m."), (("--grid",), b"   160 4.541.")):
            ours, theirs = pty.openpty()
            with os.fdopen(ours, "rb", closefd=True) as terminal:
                subprocess.run([TOP / "bin" / "glass", EXAMPLES / "minus.log", *arguments], stdout=theirs, check=True)
                text = os.read(terminal.fileno(), 65536)
                os.close(theirs)
            self.assertIn(shown, text)

    def test_from_another_folder_and_through_a_link(self):
        link = self.folder / "glass"
        link.symlink_to(TOP / "bin" / "glass")
        ended = subprocess.run([link, EXAMPLES / "minus.log"], cwd=self.folder, capture_output=True)
        self.assertEqual((ended.returncode, ended.stdout), (0, run("examples/minus.log").stdout))
