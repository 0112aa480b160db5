"""The text to a log and back, and every fault of a text with its line."""

from bench import EXAMPLES, TestCase

from buslog import Fault
from buslog.log import to_log
from buslog.text import parsed

MINUS = "70 80 CB 80 E0 80 09 80 4F 40 04 A6"
MARKED = MINUS.replace(" ", "+ ")


class RoundTrips(TestCase):
    def there_and_back(self, name: str, text: str, *version):
        self.says(0, text, "to-text", EXAMPLES / name)
        log = self.folder / name
        self.says(0, "", "to-log", self.file("x", text), "-o", log, *version)
        self.assertEqual(log.read_bytes(), (EXAMPLES / name).read_bytes())

    def test_the_examples_byte_for_byte(self):
        self.there_and_back("minus.log", f"chips 2 0\n[{MINUS}]\n")
        self.there_and_back("minus-lost.log", f"chips 2 0\n[{MINUS.replace('04', '00')}]\n")
        self.there_and_back("seen.log", f"chips 2 0\n[{MARKED}+]\n[{MARKED.replace('04+', '04-')}-]\n", "--version", "2")

    def test_captures_are_the_logs(self):
        for name, log, version in (("minus-lost.vcd", "minus-lost.log", "1"), ("missing-chip.vcd", "seen.log", "2")):
            text = self.run_buslog("from-vcd", EXAMPLES / name, "--chips", "2,0")[1]
            self.assertEqual(self.run_buslog("to-log", "-", "--version", version, given=text), (0, (EXAMPLES / log).read_bytes(), ""))

    def test_empty_records(self):
        for log in (b"\x01\x00\x04", b"\x01\x01\x01\x00\x00\x00\x01\x50", b"\x02\x01\x01\x00\x02\x00\x00\x00\x03\x00\x01\x71"):
            text = self.run_buslog("to-text", "-", given=log)[1]
            self.assertEqual(self.run_buslog("to-log", "-", "--version", str(log[0]), given=text), (0, log, ""))

    def log_of(self, text: str, *arguments) -> str:
        status, log, said = self.run_buslog("to-log", "-", *arguments, given=text.encode())
        self.assertEqual((status, said), (0, ""))
        return log.hex(" ")

    def test_by_hand(self):
        text = "# by hand\n\nchips 1 0   # one\r\n@0.5 [70+ 8a- cb]  # ours\n# @1.5 [A0+]\n@2e-3[72-\n"
        self.assertEqual(self.log_of(text), "01 01 00 00 03 70 8a cb 00 01 72")
        self.assertEqual(self.log_of(text, "--version", "2"), "02 01 00 00 05 00 01 70 8a cb 00 03 00 00 72")

    def test_in_a_read_only_the_address_counts(self):
        self.assertEqual(self.log_of("[71+ AA+ BB+ CC-]", "--version", "2", "--chips", "1,0"), "02 01 00 00 06 00 01 71 aa bb cc")
        self.assertEqual(self.log_of("[73- AA+]", "--version", "2", "--chips", "1,0"), "02 01 00 00 04 00 00 73 aa")

    def test_the_option_stands_before_the_line(self):
        self.assertEqual(self.log_of("chips 1 0\n", "--chips", "2,3"), "01 02 03")

    def test_a_cut_byte_is_left_out_with_a_warning(self):
        log = self.folder / "x.log"
        text = self.file("x", "chips 1 0\n[70+ 40+ AA+ .101]\n[70+ .1")
        warned = "is left out, since a log has whole bytes; `check` takes it\n"
        said = f"bin/buslog: {text}:2: a byte that was cut after 3 bits {warned}bin/buslog: {text}:3: a byte that was cut after 1 bit {warned}"
        self.assertEqual(self.run_buslog("to-log", text, "-o", log), (0, b"", said))
        self.assertEqual(log.read_bytes().hex(" "), "01 01 00 00 03 70 40 aa 00 01 70")


class Faults(TestCase):
    def wrong(self, message: str, text: str, version: int = 1):
        with self.assertRaises(Fault) as caught:
            read = parsed(text, "x")
            to_log(read, read.chips or (1, 0), version, "x")
        self.assertEqual(str(caught.exception), f"x{message}")

    def test_tokens(self):
        form = "two hexadecimal digits and + or - or nothing, or . and 1 to 7 bits"
        for token in ("7", "7G", "700", "70*", "70++", ".", ".2", ".10101010", "@1", "chips"):
            self.wrong(f":2: '{token}' is no byte: {form}", f"chips 1 0\n[70 {token}]")
        self.wrong(f":1: '\\xe9' is no byte: {form}", "[70 \u00e9]")
        self.wrong(":1: '80' after a byte that was cut: only ] can follow it", "[70+ .101 80]")
        self.wrong(":1: [ inside a transfer: a line has one", "[70 [80]")
        self.wrong(":1: ] inside a transfer: a line has one", "[70] 80]")
        self.wrong(":1: a transfer begins with [, not with '70'", "70]")
        self.wrong(":1: a transfer begins with [, not with the end of the line", "@5e-05")
        for time in ("@", "@x", "@-1", "@inf", "@1_0"):
            self.wrong(f":3: '{time}' is no time: it is @ and seconds, as @0.000555 or @5e-05", f"\n# x\n{time} [70]")

    def test_chips(self):
        numbers = "chips has two numbers, the chips of group 0 and of group 1"
        for line in ("chips", "chips 1", "chips 1 x", "chips 1 2 3", "chips 1 256", "chips 1 -1"):
            self.wrong(f":1: {numbers}", line)
        self.wrong(":2: a second chips line", "chips 1 0\nchips 1 0")
        self.wrong(":2: the chips line comes before the first transfer", "[70]\nchips 1 0")
        self.wrong(": the log is refused by 3 (too many chips in a group)", "chips 5 0")

    def test_the_program_names_file_and_line(self):
        path = self.file("x", "chips 1 0\n[70 7]")
        self.fails(1, f"{path}:2: '7' is no byte: two hexadecimal digits and + or - or nothing, or . and 1 to 7 bits", "to-log", path)
        path = self.file("x", "[70]")
        self.fails(2, f"{path}: there is no chips line: say by --chips N,M how many chips group 0 and group 1 have", "to-log", path)

    def test_version_2_without_marks(self):
        counts = "a log of version 2 says how many were acknowledged"
        self.wrong(f": no byte is marked + or -: {counts}", f"chips 2 0\n[{MINUS}]", 2)
        self.wrong(f":3: byte 1 is not marked + or -: {counts}", "chips 2 0\n[70+]\n[70+ 80 C8+]", 2)

    def test_too_long(self):
        record = f"[{MINUS}]\n"
        longest = f"chips 2 0\n{record * 4680}[{MINUS[:32]}]"
        self.assertEqual(len(to_log(parsed(longest, "x"), (2, 0), 1, "x")[0]), 65536)
        split = "Split the text before this line; the rest is a log of its own only where it begins at power-on, since each log does"
        fit = "the transfers up to line 4681 fit, 4680 of 4682, in 65,523 bytes"
        self.wrong(f":4682: the log would have more than 65,536 bytes: {fit}. {split}", f"chips 2 0\n{record * 4682}")
        self.wrong(":2: the log would have more than 65,536 bytes by this transfer alone", f"chips 2 0\n[{'70 ' * 65536}]")

    def test_logs(self):
        for log, refusal in ((b"\x01", "12 (no log of version 1 or 2)"), (b"\x01\x01\x00\x00", "13 (record cut short) at offset 3"), (bytes(65537), "14 (log or RAM image too long)")):
            path = self.file("x.log", log)
            self.fails(1, f"{path}: the log is refused by {refusal}", "to-text", path)
        torn = EXAMPLES / "torn.log"
        self.fails(1, f"{torn}: the log is refused by 13 (record cut short) at offset 17", "to-text", torn)

    def test_counts_that_no_text_can_say(self):
        shown = "which no text can say; bin/replay shows it"
        path = self.file("x.log", b"\x02\x01\x00\x00\x03\x00\x01\x70\x00\x03\x00\x02\x70")
        self.fails(1, f"{path}: record 1: 2 acknowledged bytes seen of 1 that came, {shown}", "to-text", path)
        path = self.file("x.log", b"\x02\x01\x00\x00\x04\x00\x02\x71\x00")
        self.fails(1, f"{path}: record 0: 2 acknowledged bytes seen of a read, of which only the address counts, {shown}", "to-text", path)
