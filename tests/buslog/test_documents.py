"""The commands of docs/BENCH.md about captures, as they stand there."""

import subprocess
import unittest

from bench import EXAMPLES, TOP

from buslog.text import parsed

BLOCKS = [line[4:] for line in (TOP / "docs" / "BENCH.md").read_text().split("## A capture\n")[1].split("\n## ")[0].splitlines() if line.startswith("    ")]


class Documents(unittest.TestCase):
    def run_all(self, chosen: list) -> list:
        """Each command, its status and its lines."""
        done = [subprocess.run(["bash", "-o", "pipefail", "-c", command], cwd=TOP, capture_output=True, text=True, check=False) for command in chosen]
        self.assertEqual([one.stderr for one in done], [""] * len(done))
        return [(one.returncode, one.stdout.splitlines()) for one in done]

    def test_check_gives_the_answer_that_stands_behind_it(self):
        chosen = [line for line in BLOCKS if line.startswith("bin/buslog check examples/")]
        answers = [line.split("# ")[1] for line in chosen]
        self.assertEqual(answers, ["bus and model agree", "bus and model differ"])
        (agreed, first), (differed, second) = self.run_all(chosen)
        self.assertEqual((agreed, differed, [first[-1], second[-1]]), (0, 1, answers))
        shown = BLOCKS.index(next(line for line in BLOCKS if line.startswith("@0.001414")))
        self.assertEqual(second[1:3], BLOCKS[shown : shown + 2])

    def test_a_capture_is_the_log(self):
        self.assertEqual(self.run_all([line for line in BLOCKS if line.startswith("bin/buslog from-vcd")]), [(0, [])])

    def test_archives(self):
        folder, spread = self.run_all([line for line in BLOCKS if " archive " in line])
        logs, captures = ([path for path in EXAMPLES.rglob("*") if path.suffix in kind] for kind in ((".log",), (".vcd", ".sr")))
        self.assertEqual((folder[0], folder[1][0]), (1, f"files {len(logs) + len(captures)}"))
        self.assertEqual((spread[0], spread[1][0]), (123, f"files {len(logs)}"))

    def test_the_text_has_the_tokens_that_it_says(self):
        start = BLOCKS.index("chips 2 0")
        text = parsed("\n".join(BLOCKS[start : start + 5]), "docs/BENCH.md")
        cuts = [(line.transfer.time, line.transfer.data.hex(), line.transfer.marks, line.transfer.cut, line.transfer.stopped) for line in text.lines]
        self.assertEqual(text.chips, (2, 0))
        self.assertEqual(cuts, [(5e-05, "7080cb80e0", "+++++", "", True), (0.000555, "7040aa", "+++", "101", True), (0.002195, "7080cb", "+++", "", False)])

    def test_the_examples_are_what_their_script_writes(self):
        names = ("minus-lost.vcd", "missing-chip.vcd")
        script = f"import runpy; print(*[runpy.run_path('{EXAMPLES}/captures.py')['captures']()[name] for name in {names}], sep='', end='')"
        written = subprocess.run(["python3", "-c", script], capture_output=True, text=True, check=True).stdout
        self.assertEqual(written, "".join((EXAMPLES / name).read_text() for name in names))
