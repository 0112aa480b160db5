"""The commands of the documents run, and show what stands there."""

import re
import subprocess

from case import TOP, TestCase


class Documents(TestCase):
    def commands(self, name: str) -> list[str]:
        return re.findall(r"^    (bin/glass .*)$", (TOP / name).read_text(), re.M)

    def test_every_command_runs(self):
        found = self.commands("README.md") + self.commands("docs/BENCH.md")
        self.assertEqual(len(found), 6)
        for command in found:
            ended = subprocess.run(["bash", "-c", command], cwd=TOP, capture_output=True)
            self.assertEqual((ended.returncode, ended.stderr), (0, b""), command)

    def test_the_digits_that_stand_there(self):
        shown = "".join(f"    {line}".rstrip() + "\n" for line in self.shown("examples/minus.log", "--digits", 159, 2).splitlines())
        self.assertTrue(shown in (TOP / "docs" / "BENCH.md").read_text(), shown)
