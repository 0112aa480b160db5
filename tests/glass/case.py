"""What the tests of bin/glass share."""

import subprocess
import sys
import tempfile
import unittest
from pathlib import Path

TOP = Path(__file__).resolve().parents[2]
EXAMPLES = TOP / "examples"
sys.path[:0] = [str(TOP / "tools"), str(TOP / "bindings" / "python")]

# The paper's log: 1:4 over the chip edge, a refused transfer, one that no chip hears.
PAPER = "01 02 00 00 09 70 80 C8 80 09 80 4F 40 A5 00 03 70 00 FC 00 01 50"


def run(*arguments, **given) -> subprocess.CompletedProcess:
    """bin/glass as a user runs it, in the repository's root."""
    return subprocess.run([TOP / "bin" / "glass", *map(str, arguments)], cwd=TOP, capture_output=True, **given)


class TestCase(unittest.TestCase):
    maxDiff = None

    def setUp(self):
        scratch = tempfile.TemporaryDirectory()
        self.addCleanup(scratch.cleanup)
        self.folder = Path(scratch.name)

    def log(self, chips: tuple[int, int], *transfers: str, name: str = "case.log") -> Path:
        """A log of version 1 with transfers in hexadecimal."""
        records = (bytes.fromhex(transfer) for transfer in transfers)
        return self.file(name, bytes([1, *chips]) + b"".join(len(record).to_bytes(2, "big") + record for record in records))

    def file(self, name: str, content: bytes) -> Path:
        path = self.folder / name
        path.write_bytes(content)
        return path

    def shown(self, *arguments, **given) -> str:
        """What is shown without a word on standard error."""
        ended = run(*arguments, **given)
        self.assertEqual((ended.returncode, ended.stderr.decode()), (0, ""))
        return ended.stdout.decode()

    def fails(self, status: int, said: str, *arguments, **given) -> None:
        """Nothing is shown, and standard error says why."""
        ended = run(*arguments, **given)
        self.assertEqual((ended.returncode, ended.stdout), (status, b""))
        self.assertIn(said, ended.stderr.decode())
