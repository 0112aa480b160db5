"""The program as a user runs it: help, usage, files, sigrok-cli, a terminal."""

import contextlib
import io
import os
import pty
import subprocess
import sys
import unittest.mock
from pathlib import Path

from bench import EXAMPLES, HEAD, TOP, TestCase, wave

from buslog.__main__ import main

COMMANDS = ("from-vcd", "from-sigrok", "to-log", "to-text", "check", "archive")


class Program(TestCase):
    def test_help(self):
        for command in ((), *((name,) for name in COMMANDS)):
            status, out, said = self.run_buslog(*command, "--help")
            self.assertEqual((status, said), (0, ""))
            self.assertIn("Status: 0 done, 1", out.decode())

    def test_usage(self):
        log = EXAMPLES / "minus.log"
        for wrong in ((), ("nothing",), ("to-log",), ("to-log", log, "--version", "3"), ("check", log, "--chips", "2"), ("check", log, "--part", "x"),
                      ("from-vcd", log, "--spike", "-1"), ("from-vcd", log, "--chips", "1,256"), ("archive",), ("archive", log, "--processes", "0")):
            said = io.StringIO()
            with self.assertRaises(SystemExit) as ended, contextlib.redirect_stderr(said), unittest.mock.patch("sys.argv", ["buslog", *map(str, wrong)]):
                main()
            self.assertEqual((ended.exception.code, said.getvalue().startswith("usage: ")), (2, True), wrong)

    def test_files(self):
        gone = self.folder / "gone"
        for command in ("from-vcd", "to-log", "to-text", "check"):
            self.fails(2, f"[Errno 2] No such file or directory: '{gone}'", command, gone)
        vcd = EXAMPLES / "minus-lost.vcd"
        self.fails(2, f"[Errno 2] No such file or directory: '{gone}/x'", "from-vcd", vcd, "-o", gone / "x")
        text = self.file("x", "chips 1 0\n")
        self.fails(2, f"{text}: -o names the file that is read", "to-log", text, "-o", text)
        self.assertEqual(Path(text).read_text(), "chips 1 0\n")

    def test_a_full_disk_and_a_closed_output(self):
        for closed, status in ((">/dev/full", 2), (">&-", 2)):
            done = subprocess.run(["bash", "-c", f"'{sys.executable}' '{TOP}/bin/buslog' from-vcd '{EXAMPLES}/minus-lost.vcd' {closed}"], capture_output=True, check=False)
            self.assertEqual((done.returncode, done.stderr.count(b"\n")), (status, 1), done.stderr)

    def test_standard_input(self):
        vcd = (EXAMPLES / "minus-lost.vcd").read_bytes()
        self.assertEqual(self.run_buslog("from-vcd", "-", given=vcd), self.run_buslog("from-vcd", EXAMPLES / "minus-lost.vcd"))
        self.fails(1, "standard input:1: x before $enddefinitions: this is no VCD", "from-vcd", "-", given=b"x")

    def test_signals_and_spikes(self):
        vcd = wave("S 01110000 0 P").replace("SCL", "D0").replace("1 us", "10 ns")
        spiked = self.file("x.vcd", vcd.replace("#20 0!\n", "#20 0!\n#24 1!\n#25 0!\n"))
        self.says(0, "# @1e-07 [38+ .0]\n", "from-vcd", spiked, "--scl", "D0")
        self.says(0, "# @1e-07 [38+ .0]\n", "from-vcd", spiked, "--scl", "0", "--spike", "10")
        self.says(0, "@1e-07 [70+]\n", "from-vcd", spiked, "--scl", "0", "--spike", "10.5")

    def test_what_came_before_a_fault_is_there(self):
        vcd = self.file("x.vcd", wave("S 01110000 0 P") + "#9999 ?\n")
        said = f"bin/buslog: {vcd}:30: ? is neither a time nor a change of a signal of this file\n"
        self.assertEqual(self.run_buslog("from-vcd", vcd), (1, b"@1e-05 [70+]\n", said))

    def test_memory_does_not_grow_with_the_file(self):
        """Ten times the transfers, in the same memory but for half a megabyte; the kernel says what a process has had at most since it began."""
        peak = "import bench, sys; from buslog.__main__ import main; main(); print(*[line for line in open('/proc/self/status') if 'VmHWM' in line], file=sys.stderr)"
        peaks = []
        for count in (1500, 15000):
            vcd = self.file("x.vcd", wave("S 01110000 0 P" * count))
            done = subprocess.run([sys.executable, "-c", peak, "from-vcd", vcd], cwd=TOP / "tests" / "buslog", capture_output=True, check=True)
            self.assertEqual(done.stdout.count(b"[70+]\n"), count)
            peaks.append(int(done.stderr.split()[1]))
        self.assertLess(peaks[1] - peaks[0], 512)

    def test_a_log_is_not_for_a_terminal(self):
        parent, child = pty.openpty()
        done = subprocess.run([sys.executable, TOP / "bin" / "buslog", "to-log", "-"], input=b"chips 1 0\n", stdout=child, stderr=subprocess.PIPE, check=False)
        os.close(child)
        os.close(parent)
        self.assertEqual((done.returncode, done.stderr), (2, b"bin/buslog: a log is no text for a terminal: name a file by -o\n"))

    def test_a_terminal_sees_how_far_it_is(self):
        vcd = self.file("x.vcd", HEAD + '#0 1! 1"\n' + "".join(f"#{time} {time & 1}!\n" for time in range(1, 400_000)))
        parent, child = pty.openpty()
        with subprocess.Popen([sys.executable, TOP / "bin" / "buslog", "from-vcd", vcd], stdout=subprocess.DEVNULL, stderr=child) as program:
            os.close(child)
            seen = b""
            try:
                while piece := os.read(parent, 4096):
                    seen += piece
            except OSError:  # the end of a terminal
                pass
        os.close(parent)
        self.assertEqual(program.returncode, 0)
        self.assertRegex(seen, rb"\r\x1b\[Kbin/buslog: \d+ of 4 MB")


class Sigrok(TestCase):
    def test_without_sigrok_cli(self):
        message = (
            "x.sr: sigrok-cli, which reads sigrok files, is not installed (Debian: apt-get install sigrok-cli);"
            " or save the capture as VCD in PulseView and use from-vcd"
        )
        self.fails(2, message, "from-sigrok", "x.sr", path=str(self.folder))

    def program(self, body: str) -> str:
        """A folder with a sigrok-cli of our own in it."""
        path = self.file("bin/sigrok-cli", f"#!/bin/sh\n{body}\n")
        os.chmod(path, 0o755)
        return f"{self.folder}/bin:{os.environ['PATH']}"

    def test_it_is_asked_for_vcd(self):
        capture = self.file("x.sr", b"PK..")
        path = self.program(f'test "$*" = "-i {capture} -O vcd" && cat "{EXAMPLES}/minus-lost.vcd"')
        text = "@5.3e-05 [70+ 80+ CB+ 80+ E0+ 80+ 09+ 80+ 4F+ 40+ 00+ A6+]\n"
        self.says(0, text, "from-sigrok", capture, path=path)
        self.assertEqual(self.run_buslog("check", capture, "--chips", "2,0", path=path)[1].decode().splitlines()[-1], "bus and model agree")

    def test_what_it_says_is_said(self):
        capture = self.file("x.sr", b"PK..")
        self.fails(2, f"{capture}: sigrok-cli could not read it: no zip", "from-sigrok", capture, path=self.program("echo no zip >&2; exit 1"))
        self.fails(2, f"{capture}: sigrok-cli could not read it: status 0", "from-sigrok", capture, path=self.program("exit 0"))
        self.fails(2, f"[Errno 2] No such file or directory: '{self.folder}/gone'", "from-sigrok", self.folder / "gone", path=self.program(""))

    def test_an_earlier_result_stays(self):
        capture, result = self.file("x.sr", b"PK.."), self.file("x.bus", "chips 2 0\n[70+]\n")
        path = self.program("echo no zip >&2; exit 1")
        self.fails(2, f"{capture}: sigrok-cli could not read it: no zip", "from-sigrok", capture, "--chips", "2,0", "-o", result, path=path)
        self.assertEqual(Path(result).read_text(), "chips 2 0\n[70+]\n")

    def test_a_sigrok_file_has_a_name(self):
        message = "standard input: sigrok-cli opens a sigrok file by its name: give that in place of -"
        for command in ("check", "from-sigrok"):
            self.fails(2, message, command, "-", "--chips", "2,0", given=b"PK..", path=self.program(""))

    def test_a_file_of_the_other_kind(self):
        vcd, capture = EXAMPLES / "minus-lost.vcd", self.file("x.sr", b"PK..")
        self.fails(1, f"{vcd}: this is no sigrok file; from-vcd takes a VCD", "from-sigrok", vcd, "--chips", "2,0", path=self.program(""))
        self.fails(1, f"{capture}: this is a sigrok file, which from-sigrok takes", "from-vcd", capture, "--chips", "2,0")

    def test_lines_of_analog_channels_are_passed_over(self):
        """They count as lines of its VCD."""
        capture = self.file("x.sr", b"PK..")
        vcd = self.file("x.vcd", wave("S 01110000 0 P") + "A0: -10.00 V DC\nlow side: 1.00 V\n#9999 ?\n")
        channels = self.file("x.txt", "Channels: 4\n- SCL: logic\n- SDA: logic\n- A0: analog\n- low side: analog\n")
        path = self.program(f'case "$*" in "-i {capture} --show") cat "{channels}";; *) cat "{vcd}";; esac')
        said = f"bin/buslog: {capture}:32: ? is neither a time nor a change of a signal of this file\n"
        self.assertEqual(self.run_buslog("from-sigrok", capture, path=path), (1, b"@1e-05 [70+]\n", said))
