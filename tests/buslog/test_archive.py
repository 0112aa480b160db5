"""An archive of logs and captures: its summary, the list and the statuses."""

import os
import shutil
import subprocess
import sys

from bench import EXAMPLES, TOP, TestCase, wave


class Archive(TestCase):
    def setUp(self):
        super().setUp()
        self.archive = self.folder / "archive"
        (self.archive / "2019").mkdir(parents=True)
        for name in ("minus.log", "seen.log", "torn.log", "missing-chip.vcd"):
            shutil.copy(EXAMPLES / name, self.archive / "2019")
        self.file("archive/README", "no log")

    def path(self, name: str) -> str:
        return str(self.archive / "2019" / name)

    def test_the_summary(self):
        self.file("archive/2020/undefined.log", bytes.fromhex("01 01 00 0003 70 80 0A 0003 70 80 FC 0002 70 3F 0001 70"))
        self.file("archive/2020/later/bad.vcd", "$timescale 1 us $end\n#0")
        lines = [
            "files 6",
            "transfers 9",
            "refused 4, 2 by 7, 1 by 13, 1 by 17",
            "acknowledge differences 2",
            "files to look at 5",
            f"    {self.path('missing-chip.vcd')}: 1 acknowledged differently of 2 transfers",
            f"    {self.path('seen.log')}: 1 acknowledged differently of 2 transfers",
            f"    {self.path('torn.log')}: the log is refused by 13 (record cut short) at offset 17",
            f"    {self.archive}/2020/undefined.log: 2 refused by 7, 1 refused by 17 of 4 transfers",
            f"    {self.archive}/2020/later/bad.vcd:2: #0 before $enddefinitions: this is no VCD",
        ]
        for processes in ((), ("--processes", "1")):
            self.says(1, "".join(f"{line}\n" for line in lines), "archive", self.archive, "--chips", "2,0", *processes)

    def test_nothing_to_look_at(self):
        lines = ["files 1", "transfers 1", "refused 0", "acknowledge differences 0", "files to look at 0"]
        self.says(0, "".join(f"{line}\n" for line in lines), "archive", self.path("minus.log"))

    def test_a_capture_of_other_devices_is_looked_at(self):
        path = self.file("other.vcd", wave("S 10100000 0 P"))
        lines = ["files 1", "transfers 0", "refused 0", "acknowledge differences 0", "files to look at 1", f"    {path}: no transfer to the chips"]
        self.says(1, "".join(f"{line}\n" for line in lines), "archive", path, "--chips", "1,0")

    def test_a_file_that_cannot_be_read(self):
        os.symlink("nowhere", self.archive / "gone.log")
        status, out, _ = self.run_buslog("archive", self.archive, "--chips", "2,0")
        self.assertEqual(status, 2)
        self.assertIn(f"    [Errno 2] No such file or directory: '{self.archive}/gone.log'\n", out.decode())
        self.assertIn("files 5\n", out.decode())

    def test_usage(self):
        say = "say by --chips N,M how many chips group 0 and group 1 have"
        self.fails(2, f"{self.path('missing-chip.vcd')}: a capture has no chips line: {say}", "archive", self.archive)
        self.fails(1, "refused by 3 (too many chips in a group)", "archive", self.archive, "--chips", "5,0")
        empty = self.folder / "empty"
        empty.mkdir()
        self.fails(2, f"no log (.log) and no capture (.vcd, .sr) under {empty}", "archive", empty)

    def test_spread_by_xargs(self):
        """As docs/BENCH.md has it: a folder at a time, each with its own summary."""
        command = f"find {self.archive} -name '*.log' -print0 | xargs -0 -n 1 -P 2 {sys.executable} {TOP}/bin/buslog archive --processes 1"
        done = subprocess.run(["bash", "-c", command], capture_output=True, check=False)
        self.assertEqual((done.returncode, done.stdout.count(b"files 1\n"), done.stdout.count(b"files to look at 1\n")), (123, 3, 2))
