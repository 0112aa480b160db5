"""From the wire to the text: waves drawn by hand, every form of a VCD file that is taken, every fault with its line."""

import io

from bench import EXAMPLES, HEAD, TestCase, wave

from buslog import Fault, capture, text
from buslog.progress import Progress
from buslog.vcd import PIECE, Vcd
from buslog.wire import transfers, without_spikes


def read(vcd: str, scl=None, sda=None, spike: int = 0) -> list:
    """The lines of a VCD file; `spike` in its units."""
    opened = Vcd(io.BytesIO(vcd.encode()), "x.vcd", Progress(0, "MB"))
    levels = opened.levels(scl, sda)
    levels = without_spikes(levels, spike) if spike else levels
    return [line.rstrip("\n") for line in text.captured(transfers(levels, opened.unit))]


GROUP_0, GROUP_1, READ, OTHER = "01110000", "01110010", "01110001", "10100000"


class Waves(TestCase):
    def test_bytes_and_acknowledgements(self):
        self.assertEqual(read(wave(f"S {GROUP_0} 0 10000000 1 P")), ["@1e-05 [70+ 80-]"])
        self.assertEqual(read(wave(f"S {GROUP_1} 0 11001011 0 P")), ["@1e-05 [72+ CB+]"])
        self.assertEqual(read(wave(f"S {READ} 0 00000001 0 11111111 1 P")), ["@1e-05 [71+ 01+ FF-]"])

    def test_eight_bits_without_a_ninth_clock(self):
        self.assertEqual(read(wave(f"S {GROUP_0} P")), ["@1e-05 [70]"])
        self.assertEqual(read(wave(f"S {GROUP_0} 0 01000000")), ["@1e-05 [70+ 40"])

    def test_a_byte_that_is_cut(self):
        self.assertEqual(read(wave(f"S {GROUP_0} 0 101 P")), ["@1e-05 [70+ .101]"])
        self.assertEqual(read(wave(f"S {GROUP_0} 0 1010101")), ["@1e-05 [70+ .1010101"])
        cut = read(wave(f"S {GROUP_0} 0 0 S {GROUP_0} 0 P"))
        self.assertEqual([line.split(" ", 1)[1] for line in cut], ["[70+ .0", "[70+]"])

    def test_an_address_that_is_cut_is_nobodys(self):
        self.assertEqual(read(wave("S 0111000 P")), ["# @1e-05 [.0111000]"])
        self.assertEqual(read(wave(f"S 0111 S {GROUP_0} 0 P")), ["# @1e-05 [.0111", "@0.00017 [70+]"])

    def test_start_and_stop_with_nothing_between(self):
        self.assertEqual(read(wave("<>")), ["# @1e-05 []"])
        self.assertEqual(read(wave("S S P")), ["# @1e-05 [", "# @5e-05 []"])

    def test_a_repeated_start_begins_a_transfer(self):
        got = read(wave(f"S {GROUP_0} 0 00000000 0 S {GROUP_1} 0 P"))
        self.assertEqual(got, ["@1e-05 [70+ 00+", "@0.00059 [72+]"])

    def test_a_missing_stop(self):
        self.assertEqual(read(wave(f"S {GROUP_0} 0")), ["@1e-05 [70+"])
        self.assertEqual(read(wave(f"S {GROUP_0} 0 1 >^")), ["@1e-05 [70+ .1"], "the last high has no end, so it is no bit")

    def test_a_capture_that_begins_inside_a_transfer(self):
        for scl, sda in ((0, 0), (0, 1), (1, 0)):
            before = "v 101 0" if scl else "101 0"
            got = read(wave(f"{before} P S {GROUP_0} 0 P", scl, sda))
            self.assertEqual([line.split(" ", 1)[1] for line in got], ["[70+]"])
        self.assertEqual(read(wave("> v 0 1 0", 1, 0)), [])

    def test_other_devices_are_comments(self):
        got = read(wave(f"S {OTHER} 0 00000000 0 P S {GROUP_0} 0 P"))
        self.assertEqual(got, ["# @1e-05 [A0+ 00+]", "@0.0006 [70+]"])

    def test_both_at_one_time(self):
        """Where SCL falls as SDA changes, the bit is the old level; where it rises, the new one."""
        clocks = "".join(f'#{30 + 20 * i} 1! {bit}"\n#{40 + 20 * i} 0! {1 - bit}"\n' for i, bit in enumerate((0, 1, 1, 1, 0, 0, 0, 0, 0)))
        self.assertEqual(read(HEAD + '#0 1! 1"\n#10 0"\n#20 0!\n' + clocks), ["@1e-05 [70+"])

    def test_the_examples(self):
        same = "[70+ 80+ CB+ 80+ E0+ 80+ 09+ 80+ 4F+ 40+"
        self.assertEqual(read((EXAMPLES / "minus-lost.vcd").read_text()), [f"@5.3e-05 {same} 00+ A6+]"])
        self.assertEqual(read((EXAMPLES / "missing-chip.vcd").read_text()), [f"@5.3e-05 {same} 04+ A6+]", f"@0.001414 {same} 04- A6-]"])


class Spikes(TestCase):
    def test_a_spike_of_sda_is_a_start_and_a_stop_unless_it_is_dropped(self):
        calm = wave(f"S {GROUP_0} 0 P")
        spiked = calm.replace("#40 1!\n", '#40 1!\n#42 1"\n#45 0"\n')
        self.assertNotEqual(read(spiked), read(calm))
        self.assertNotEqual(read(spiked, spike=3), read(calm), "a pulse of just the length stays")
        self.assertEqual(read(spiked, spike=4), read(calm))

    def test_a_spike_of_scl(self):
        calm = wave(f"S {GROUP_0} 0 P")
        spiked = calm.replace("#20 0!\n", "#20 0!\n#24 1!\n#25 0!\n")
        self.assertEqual(read(spiked), ["# @1e-05 [38+ .0]"], "one bit more")
        self.assertEqual(read(spiked, spike=2), ["@1e-05 [70+]"])

    def test_the_last_edge_stays(self):
        self.assertEqual(read(wave(f"S {GROUP_0} 0 P"), spike=9), ["@1e-05 [70+]"])


class Files(TestCase):
    """Forms of VCD that other programs write."""

    calm = wave(f"S {GROUP_0} 0 P")

    def test_words_may_stand_on_any_line(self):
        for form in (self.calm.replace("\n", "\r\n"), self.calm.replace("\n", " "), self.calm.replace(" ", "\n"), self.calm.rstrip("\n")):
            self.assertEqual(read(form), ["@1e-05 [70+]"])

    def test_a_line_longer_than_a_piece(self):
        filler = "#0 " + "1! " * PIECE
        self.assertEqual(read(self.calm.replace('#0 1! 1"', f'{filler} 1"').replace("\n#", " #")), ["@1e-05 [70+]"])

    def test_initial_values_comments_vectors_and_a_released_wire(self):
        for form in (
            self.calm.replace('#0 1! 1"', '$dumpvars\n1!\n1"\n$end'),
            self.calm.replace('#0 1! 1"', '$dumpvars x! x" $end #0 z! Z"'),
            self.calm.replace('#20 0!', '$comment 0" #9999 $end\n#20 b0 !'),
        ):
            self.assertEqual(read(form), ["@1e-05 [70+]"])

    def test_other_signals(self):
        more = '$var wire 8 0! bus $end\n$var real 64 # volt $end\n$var wire 1 & D7 $end\n$enddefinitions'
        form = self.calm.replace("$enddefinitions", more).replace("#20 0!", '#20 b00000001 0!\nr1.5 #\n1& 0!')
        self.assertEqual(read(form), ["@1e-05 [70+]"])

    def test_timescales(self):
        for scale, time in (("1us", "1e-05"), ("100 ns", "1e-06"), ("10\nms", "0.1"), ("1 ps", "0.0"), ("1 s", "10.0")):
            self.assertEqual(read(self.calm.replace("1 us", scale)), [f"@{time} [70+]"])

    def test_signals_by_name_and_number(self):
        named = self.calm.replace("SCL", "D1").replace("SDA", "D0")
        self.assertEqual(read(named, "D1", "d0"), ["@1e-05 [70+]"])
        self.assertEqual(read(named, "0", "1"), ["@1e-05 [70+]"])
        self.assertEqual(read(self.calm.replace("SCL", "scl").replace("SDA", "Sda")), ["@1e-05 [70+]"])
        twice = self.calm.replace("$enddef", "$var wire 1 ! scl $end\n$enddef")
        self.assertEqual(read(twice.replace(" SCL ", " scl ")), ["@1e-05 [70+]"], "the same signal in two scopes")


class Faults(TestCase):
    calm = Files.calm

    def wrong(self, message: str, vcd: str, scl=None, sda=None):
        with self.assertRaises(Fault) as caught:
            read(vcd, scl, sda)
        self.assertEqual(str(caught.exception), f"x.vcd{message}")

    def test_the_header(self):
        self.wrong(": no $enddefinitions: this is no VCD, or it was cut short", "")
        self.wrong(":3: no $enddefinitions: this is no VCD, or it was cut short", self.calm.split("$enddef")[0])
        self.wrong(":1: T before $enddefinitions: this is no VCD", "T 0 0 0 12 16 0 1\n")
        self.wrong(":3: $var has no $end", HEAD.replace('" SDA $end\n$enddefinitions $end', '" SDA'))
        self.wrong(":3: no $timescale: nobody knows how long a time is", HEAD.split("\n", 1)[1])
        self.wrong(":1: $timescale is 5us: it is 1, 10 or 100 and s, ms, us, ns, ps or fs", HEAD.replace("1 us", "5 us"))
        self.wrong(":2: $var has a type, a number of bits, a code and a name", HEAD.replace("1 ! SCL", "! SCL"))
        self.wrong(f":1: a word of more than {PIECE:,} bytes: this is no VCD", "$" * 3 * PIECE)

    def test_the_signals(self):
        there = "there are: 0 D1, 1 SDA"
        named = self.calm.replace("SCL", "D1")
        self.wrong(f":4: no signal is called SCL: name one by --scl, by name or number; {there}", named)
        self.wrong(f":4: no signal is called 2: name one by --scl, by name or number; {there}", named, "2")
        self.wrong(f":4: no signal is called D0: name one by --sda, by name or number; {there}", named, "D1", "D0")
        self.wrong(":4: SCL and SDA are the same signal", self.calm, "SDA")
        self.wrong(":4: SCL has 8 bits: SCL has one", self.calm.replace("wire 1 !", "wire 8 !"))
        twice = self.calm.replace("$enddef", "$var wire 1 & SCL $end\n$enddef")
        self.wrong(":5: several signals are called SCL: choose one by --scl and its number; there are: 0 SCL, 1 SDA, 2 SCL", twice)

    def test_the_changes(self):
        self.wrong(":6: #1O is no time", self.calm.replace("#10", "#1O"))
        self.wrong(":7: the time goes back, from #10 to #2", self.calm.replace("#20", "#2"))
        self.wrong(":6: 0? is neither a time nor a change of a signal of this file", self.calm.replace('#10 0"', "#10 0?"))
        self.wrong(":6: \\x00 is neither a time nor a change of a signal of this file", self.calm.replace('#10 0"', "#10 \0"))
        self.wrong(":7: SCL becomes unknown (x)", self.calm.replace("#20 0!", "#20 x!"))
        self.wrong(":5: SDA has no level in the whole file", HEAD + "#0 1!\n")
        self.wrong(":5: the file ends after $comment", HEAD + '#0 1! 1" $comment it\n')
        self.wrong(":5: the file ends after b1", HEAD + '#0 1! 1" b1\n')


class Streams(TestCase):
    def test_a_transfer_comes_as_soon_as_it_has_ended(self):
        vcd = self.file("x.vcd", wave(f"S {GROUP_0} 0 P") + "#9999 !\n")
        with open(vcd, "rb") as file:
            lines = capture.from_vcd(file, "x.vcd", capture.Signals())
            self.assertEqual(text.written(next(lines)), "@1e-05 [70+]")
            self.assertRaises(Fault, next, lines)
