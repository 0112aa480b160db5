"""What the tests share: the program as a user runs it, and waves drawn by hand."""

import os
import subprocess
import sys
import tempfile
import unittest
from pathlib import Path

TOP = Path(__file__).resolve().parents[2]
EXAMPLES = TOP / "examples"
sys.path[:0] = [str(TOP / "tools"), str(TOP / "bindings" / "python")]

STEP = 10  # of 1 us
HEAD = "$timescale 1 us $end\n$var wire 1 ! SCL $end\n$var wire 1 \" SDA $end\n$enddefinitions $end\n"


def wave(symbols: str, scl: int = 1, sda: int = 1) -> str:
    """The VCD of what a master does: S a START, also a repeated one, P a STOP, 0 and 1 a clock, < and > SDA down and up, ^ and v SCL up and down."""
    lines, time = [f'#0 {scl}! {sda}"'], 0
    moves = {"S": {0: ">^<v", 1: "<v"}, "P": {0: "<^>"}, "0": {0: "<^v"}, "1": {0: ">^v"}}
    levels = {"<": ("sda", 0), ">": ("sda", 1), "^": ("scl", 1), "v": ("scl", 0)}
    now = {"scl": scl, "sda": sda}
    for symbol in symbols.replace(" ", ""):
        for move in moves[symbol][now["scl"]] if symbol in moves else symbol:
            signal, level = levels[move]
            time += STEP
            if now[signal] != level:
                lines.append(f"#{time} {level}{'!' if signal == 'scl' else chr(34)}")
            now[signal] = level
    return HEAD + "\n".join(lines) + "\n"


class TestCase(unittest.TestCase):
    def setUp(self):
        folder = tempfile.TemporaryDirectory()
        self.addCleanup(folder.cleanup)
        self.folder = Path(folder.name)

    def file(self, name: str, content) -> str:
        path = self.folder / name
        path.parent.mkdir(parents=True, exist_ok=True)
        path.write_bytes(content if isinstance(content, bytes) else content.encode())
        return str(path)

    def run_buslog(self, *arguments, given: bytes = b"", path: str = None) -> tuple:
        """Status, standard output and standard error; `path` stands for PATH."""
        environment = dict(os.environ, **({"PATH": path} if path is not None else {}))
        done = subprocess.run([sys.executable, TOP / "bin" / "buslog", *arguments], input=given, capture_output=True, env=environment, check=False)
        return done.returncode, done.stdout, done.stderr.decode()

    def says(self, status: int, out: str, *arguments, **options):
        """The program ends so and prints that, and nothing on standard error."""
        self.assertEqual(self.run_buslog(*arguments, **options), (status, out.encode(), ""))

    def fails(self, status: int, message: str, *arguments, **options):
        """The program ends so, with that message and nothing on standard output."""
        self.assertEqual(self.run_buslog(*arguments, **options), (status, b"", f"bin/buslog: {message}\n"))
