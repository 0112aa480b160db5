"""The module on the paper's cases and README's logs; bad input of every call, which changes nothing; the program as a user runs it."""

import _ctypes
import contextlib
import copy
import doctest
import os
import pickle
import shutil
import subprocess
import sys
import tempfile
import unittest
from pathlib import Path

import humtrellis
from humtrellis import Bus, Chip, Number, Part, Refusal, Register

HERE = Path(__file__).resolve().parent
EXAMPLES = HERE.parents[1] / "examples"
PACKAGE = HERE.parents[1] / "target" / "package"
PARTS = (Part.PCF8532, Part.PCA85133)


def sent(commands: str, data: str) -> bytes:
    """A transfer to group 0: each command after its own control byte, then data."""
    each = b"".join(bytes([0x80, command]) for command in bytes.fromhex(commands))
    return b"\x70" + each + b"\x40" + bytes.fromhex(data)


def example(name: str) -> bytes:
    return (EXAMPLES / name).read_bytes()


def load_tests(loader, tests, pattern):
    """The example in the module's own text too."""
    tests.addTests(doctest.DocTestSuite(humtrellis))
    return tests


class TestCase(unittest.TestCase):
    @contextlib.contextmanager
    def refused(self, number: int, place: int, *unchanged):
        """The call in it is refused so, and leaves what is named as it was."""
        before = copy.deepcopy(unchanged)
        with self.assertRaises(Refusal) as caught:
            yield
        self.assertEqual((caught.exception.number, caught.exception.place), (number, place))
        self.assertEqual(unchanged, before)

    @contextlib.contextmanager
    def wrong(self, kind: type, named: str, *unchanged):
        """The call in it raises such an error, which names the argument, and leaves what is named as it was."""
        before = copy.deepcopy(unchanged)
        with self.assertRaisesRegex(kind, rf"\b{named}\b"):
            yield
        self.assertEqual(unchanged, before)


class TheIncident(TestCase):
    """README: the minus bar is column 160, the first of chip 1."""

    def test_minus(self):
        bus = Bus(Part.PCF8532, 2)
        self.assertEqual(bus.transfer(sent("CB E0 09 4F", "04 A6")), (12, 16, 0, 1))
        self.assertEqual((bus.picture().columns[160], bus.picture().lit), (4, 5))

    def test_minus_lost(self):
        bus = Bus(Part.PCF8532, 2)
        self.assertEqual(bus.transfer(sent("CB E0 09 4F", "00 A6")), (12, 16, 0, 1))
        self.assertEqual((bus.picture().columns[160], bus.picture().lit), (0, 4))

    def test_replays(self):
        for name in ("minus", "minus-lost", "seen"):
            self.assertEqual(humtrellis.replay(example(f"{name}.log")), example(f"{name}.txt").decode())

    def test_transfers_of_a_log(self):
        data = sent("CB E0 09 4F", "04 A6")
        self.assertEqual(list(humtrellis.transfers(example("minus.log"))), [(None, data)])
        self.assertEqual(list(humtrellis.transfers(example("seen.log"))), [(12, data), (10, data)])

    def test_outcome_is_what_the_replay_shows(self):
        for name in ("minus", "minus-lost", "seen"):
            shown = [line for line in example(f"{name}.txt").decode().splitlines(True) if line[:3] in ("S 0", "G 0")]
            self.assertEqual(humtrellis.picture_lines(example(f"{name}.log"), 0, 0), "".join(shown))

    def test_rescue(self):
        rescued = humtrellis.rescue(example("torn.log"))
        self.assertEqual(rescued, (example("minus.log"), 1, 17, 10, 17))
        self.assertEqual(humtrellis.rescue(example("seen.log")), (example("seen.log"), 2, 35, 0, 35))


class ThePaper(TestCase):
    """'Both sides of each edge' and the worked log."""

    def over(self, chips: int, commands: str, data: str, column: int = 0) -> tuple:
        """The answer, the columns that changed, and A and P."""
        bus = Bus(Part.PCF8532, chips)
        bus.ram[:] = bytes([column]) * len(bus.ram)
        answer = bus.transfer(sent(commands, data))
        changed = {index: value for index, value in enumerate(bus.ram) if value != column}
        return answer, changed, (bus.register(0, Register.A), bus.register(0, Register.P))

    def test_over_the_edge_of_two_chips(self):
        self.assertEqual(self.over(2, "09 4F", "A5"), ((7, 8, 0, 1), {159: 5, 160: 10}, (1, 1)))
        self.assertEqual(self.over(2, "C3 09 4F", "FF")[1:], ({159: 7, 160: 7, 161: 3}, (1, 2)))
        self.assertEqual(self.over(2, "C3 09 4F", "00", 15)[1], {159: 8, 160: 8, 161: 12})
        self.assertEqual(self.over(2, "C1 09 4C", "81")[1:], ({156: 1, 163: 1}, (1, 4)))
        self.assertEqual(self.over(2, "C2 FA 09 4E", "FF")[1], {158: 12, 159: 12, 160: 12, 161: 12})

    def test_past_the_last_chip(self):
        self.assertEqual(self.over(1, "C3 09 4F", "FF"), ((8, 3, 5, None), {159: 7}, (1, 2)))
        self.assertEqual(self.over(4, "E3 09 4E", "FF FF"), ((9, 8, 8, None), {638: 15, 639: 15}, (4, 2)))

    def test_commands(self):
        bus = Bus(Part.PCF8532, 1)
        bus.transfer(sent("09 4F 00", ""))
        self.assertEqual(bus.register(0, Register.P), 15)
        for taken, undefined in (("09", "0A"), ("E3", "E4"), ("FB", "FC")):
            bus.transfer(bytes.fromhex("70 80" + taken))
            with self.refused(7, 2, bus):
                bus.transfer(bytes.fromhex("70 80" + undefined))

    def test_addresses(self):
        bus = Bus(Part.PCF8532, 1)
        self.assertEqual(bus.transfer(b"\x70"), (1, 0, 0, None))
        self.assertEqual(bus.transfer(b"\x71"), (0, 0, 0, None))

    def test_blinking(self):
        bus = Bus(Part.PCF8532, 1)
        bus.ram[12] = 12
        bus.transfer(sent("CA F8 F5", ""))
        self.assertEqual(bus.picture(0, 1).columns[12], 3)
        self.assertEqual(bus.picture(0, 0).columns[12], 0)

    def test_worked_log(self):
        log = bytes.fromhex("01 02 00 00 09 70 80 C8 80 09 80 4F 40 A5 00 03 70 00 FC 00 01 50")
        lines = ("T 0 0 0 9 8 0 1", "T 1 7 2 0 0 0 4", "T 2 0 0 0 0 0 4", "S 0 159 5", "S 0 160 10", "G 0 4", "G 1 0")
        self.assertEqual(humtrellis.replay(log).splitlines(), list(lines))
        refused_first = bytes.fromhex("01 02 00 00 03 70 00 FC 00 09 70 80 C8 80 09 80 4F 40 A5")
        for each in (log, refused_first):
            bus = humtrellis.outcome(each)
            self.assertEqual((bus.ram[159], bus.ram[160], bus.picture().lit), (5, 10, 4))

    def test_a_cut_data_byte(self):
        bus = Bus(Part.PCF8532, 1)
        self.assertEqual(bus.transfer(b"\x70\x40\xFF", 3), (2, 0, 0, None))
        marks = (Register.UNKNOWN_HIGH, Register.UNKNOWN_LOW, Register.UNKNOWN_DEVICE)
        self.assertEqual([bus.register(0, mark) for mark in marks], [1, 1, 1])
        with self.refused(18, 2, bus):
            bus.transfer(b"\x70\x40\xFF")
        bus.power_on()
        self.assertEqual(bus.transfer(b"\x70\x40\xFF").stored, 8)

    def test_the_smaller_part(self):
        bus = Bus(Part.PCA85133, 2)
        self.assertEqual(bus.transfer(sent("C8 4F", "A5")), (7, 8, 0, 1))
        self.assertEqual((bus.ram[79], bus.ram[80], len(bus.ram)), (5, 10, 160))
        bus = Bus(Part.PCA85133, 8)
        self.assertEqual(bus.transfer(sent("C8 E7 4F", "A5")), (8, 4, 4, None))

    def test_the_other_group(self):
        bus = Bus(Part.PCF8532, 1, 2)
        self.assertEqual(bus.transfer(b"\x72" + sent("C8 09 4F", "A5")[1:]), (9, 8, 0, 1))
        self.assertEqual((bus.ram[160 + 159], bus.ram[160 + 160]), (5, 10))
        self.assertEqual((bus.picture(0).lit, bus.picture(1).lit, len(bus.picture(1).columns)), (0, 4, 320))
        self.assertEqual((bus.register(1, Register.P), bus.register(0, Register.P)), (1, 0))


class OtherForms(TestCase):
    def test_least(self):
        """README: RAM 5, 10."""
        bus, packed = Bus(Part.PCF8532, 1), Bus(Part.PCF8532, 1, packed=True)
        for each in (bus, packed):
            self.assertEqual(each.transfer(bytes.fromhex("70 80 C8 40 A5")), (5, 8, 0, 0))
        self.assertEqual((bus.ram[0], bus.ram[1]), (5, 10))
        self.assertEqual((packed.ram[0], len(packed.ram)), (0xA5, 80))
        self.assertEqual(bus.picture(), packed.picture())
        self.assertEqual(bus.registers, packed.registers)

    def test_a_copy_is_a_bus_of_its_own(self):
        for packed in (False, True):
            bus = Bus(Part.PCF8532, 1, packed=packed)
            bus.transfer(sent("C8", "A5"))
            registers, ram, other = bytes(bus.registers), bytes(bus.ram), bus.copy()
            self.assertEqual(bus, other)
            other.transfer(sent("", "FF"))
            self.assertEqual((bus.registers, bus.ram), (registers, ram))
            self.assertNotEqual(other.registers, registers)
            self.assertNotEqual(other.ram, ram)

    def test_plain_chips(self):
        for part in PARTS:
            pointer, last = ("09 4F", 159) if part == Part.PCF8532 else ("4F", 79)
            chips = [Chip(part, 0, 0), Chip(part, 0, 1), Chip(part, 1, 0)]
            answer = humtrellis.plain_transfer(part, chips, sent("C8 " + pointer, "A5"))
            self.assertEqual(answer, (5 + 2 * len(bytes.fromhex(pointer)), 1))
            self.assertEqual((chips[0].columns[last], chips[1].columns[0], any(chips[2].columns)), (5, 10, False))
            self.assertEqual([chip.picture().lit for chip in chips], [2, 2, 0])
            self.assertEqual([chip.register(Register.A) for chip in chips], [1, 1, 0])
            chips[0].power_on()
            self.assertEqual((chips[0].register(Register.E), chips[0].columns[last]), (0, 5))
            self.assertEqual(humtrellis.plain_transfer(part, [], b"\x70"), (0, None))

    def test_written_rows_are_there(self):
        for part in PARTS:
            for mode, reached in ((0, 15), (1, 1), (2, 3)):
                bus = Bus(part, 1, 2)
                wanted = bytes(column % 16 for column in range(len(bus.picture(1).columns)))
                bus.transfer(bus.write_rows(1, mode, 0, wanted))
                self.assertEqual(bus.ram[-len(wanted) :], bytes(value & reached for value in wanted))

    def test_every_element_of_three_backplanes(self):
        for part in PARTS:
            bus = Bus(part, 2)
            wanted = bytes(column % 8 for column in range(len(bus.ram)))
            transfer = bus.write_three(0, wanted)
            self.assertEqual(len(transfer), 3 + (640 if part == Part.PCF8532 else 240) * 2)
            answer = bus.transfer(transfer)
            self.assertEqual((answer.acknowledged, answer.discarded), (len(transfer) - 1, 2))
            self.assertEqual(bus.ram, wanted)

    def test_a_group_with_no_chip_gets_no_bytes(self):
        bus = Bus(Part.PCF8532, 1)
        self.assertEqual((bus.write_rows(1, 3, 0, b""), bus.write_three(1, b"")), (b"", b""))
        self.assertEqual(bus.picture(1), (b"", 0))

    def test_prices(self):
        """docs/C.md: in 1:3 a minus and a 4 are 04 A6; the other modes by the paper's orders."""
        for text in ("-4", "\u22124", b"-4"):
            self.assertEqual([humtrellis.price_write(mode, text).hex() for mode in range(4)], ["026a", "08d8", "1074", "04a6"])
        self.assertEqual(humtrellis.price_read(3, b"\x04\xA6"), "-4")
        for mode in range(4):
            self.assertEqual(humtrellis.price_read(mode, humtrellis.price_write(mode, "\u221212.5 0")), "-12.5 0")
        self.assertEqual((humtrellis.price_write(0, ""), humtrellis.price_read(0, b"")), (b"", ""))

    def test_ram_images(self):
        ram = bytes(column % 16 for column in range(160))
        file = humtrellis.hex_write(Part.PCF8532, 1, ram)
        self.assertEqual(file.splitlines()[0], b":10000000000102030405060708090A0B0C0D0E0F78")
        self.assertEqual((file.splitlines()[-1], len(file)), (b":00000001FF", 12 + 44 * 10))
        self.assertEqual(humtrellis.hex_read(Part.PCF8532, 1, file), ram)
        self.assertEqual(humtrellis.hex_read(Part.PCA85133, 2, file), ram)
        self.assertEqual(humtrellis.hex_write(Part.PCA85133, 0, b""), b":00000001FF\n")


class Refusals(TestCase):
    """Each call's bad input: the paper's number and place, and nothing changes."""

    def test_what_a_refusal_says(self):
        bus = Bus(Part.PCF8532, 1)
        with self.assertRaises(Refusal) as caught:
            bus.transfer(bytes.fromhex("70 00 C8 0A"))
        refusal = caught.exception
        self.assertEqual((refusal.number, refusal.name, refusal.place), (Number.COMMAND, "undefined command", 3))
        self.assertEqual(str(refusal), "refused by 7 (undefined command) at byte 3")
        self.assertEqual(str(pickle.loads(pickle.dumps(refusal))), str(refusal))
        self.assertEqual(str(Refusal(16, 0)), "refused by 16 (unknown part)")
        with self.assertRaisesRegex(Refusal, r"refused by 5 \(column over 15\) at offset 0"):
            humtrellis.hex_read(Part.PCF8532, 1, b":0100000010EF\n")
        with self.assertRaisesRegex(Refusal, r"refused by 26 \(address missing\) at column 0"):
            humtrellis.hex_read(Part.PCF8532, 1, b":00000001FF\n")

    def test_every_number_is_named(self):
        self.assertEqual([int(number) for number in humtrellis.NAMES], list(range(1, 28)))

    def test_a_bus(self):
        for number, part, chips0, chips1 in ((16, 2, 9, 0), (16, 255, 1, 1), (3, 0, 5, 0), (3, 0, 0, 255), (3, 1, 9, 0)):
            for packed in (False, True):
                with self.refused(number, 0):
                    Bus(part, chips0, chips1, packed=packed)

    def test_power_on(self):
        bus = Bus(Part.PCF8532, 1)
        bus.transfer(sent("C8", "A5"))
        bus.ram[7] = 16
        with self.refused(5, 7, bus.ram):
            bus.power_on()
        self.assertEqual(bus.registers, bytes(24), "a refused power-on leaves the power-on registers")

    def test_transfer(self):
        faulty = (
            (1, 0, b"", 8),
            (2, 0, b"\x70" * 4097, 8),
            (19, 0, b"\x70", 0),
            (19, 0, b"\x70", 9),
            (19, 0, b"\x71", 255),
            (7, 4, bytes.fromhex("70 80 C8 80 0A"), 8),
            (17, 1, bytes.fromhex("70 81 C8"), 8),
            (17, 1, bytes.fromhex("70 81 0A"), 8),
        )
        for packed in (False, True):
            bus = Bus(Part.PCF8532, 1, 1, packed=packed)
            bus.transfer(sent("C8", "A5"))
            for number, place, data, bits in faulty:
                with self.refused(number, place, bus):
                    bus.transfer(data, bits)

    def test_a_state_that_is_none(self):
        """Registers and RAM may be changed in place, and each call that looks at them refuses what is no state."""
        bus = Bus(Part.PCF8532, 1)
        calls = (lambda: bus.transfer(b"\x70"), bus.picture)
        writers = (lambda: bus.write_rows(0, 0, 0, bytes(160)), lambda: bus.write_three(0, bytes(160)))
        bus.ram[159] = 16
        for call in calls:
            with self.refused(5, 159, bus):
                call()
        bus.ram.pop()
        for call in calls:
            with self.refused(4, 0, bus):
                call()
        bus.registers[12 + Register.P] = 160
        for call in calls + writers:
            with self.refused(6, 0, bus):
                call()
        bus.registers.pop()
        for call in calls + writers:
            with self.wrong(ValueError, "registers", bus):
                call()

    def test_picture(self):
        for packed in (False, True):
            bus = Bus(Part.PCF8532, 1, packed=packed)
            for view in ((2, 0), (0, 2), (255, 255)):
                with self.refused(8, 0, bus):
                    bus.picture(*view)

    def test_writers(self):
        bus = Bus(Part.PCF8532, 1, 2)
        for number, place, asked in (
            (6, 0, (0, 4, 0, bytes(160))),
            (6, 0, (0, 0, 2, bytes(160))),
            (6, 0, (2, 255, 0, bytes(160))),
            (8, 0, (2, 0, 0, bytes(160))),
            (4, 0, (1, 0, 0, bytes(160))),
            (5, 9, (0, 0, 0, bytes(9) + b"\x10" + bytes(150))),
        ):
            with self.refused(number, place, bus):
                bus.write_rows(*asked)
        for number, place, asked in ((8, 0, (2, bytes(160))), (4, 0, (0, b"")), (5, 319, (1, bytes(319) + b"\xFF"))):
            with self.refused(number, place, bus):
                bus.write_three(*asked)

    def test_plain_chips(self):
        for part, limit in ((0, 3), (1, 7)):
            Chip(part, 1, limit)
            with self.refused(11, 0):
                Chip(part, 0, limit + 1)
            with self.refused(11, 0):
                Chip(part, 2, 0)
        with self.refused(16, 0):
            Chip(2, 0, 0)
        with self.refused(16, 0):
            humtrellis.plain_transfer(2, [], b"\x70")
        chips = [Chip(Part.PCF8532, 0, 0), Chip(Part.PCF8532, 0, 1)]
        with self.refused(10, 0, chips):
            humtrellis.plain_transfer(Part.PCF8532, chips[:1] * 9, b"\x70")
        for number, place, data, bits in ((1, 0, b"", 8), (2, 0, bytes(4097), 8), (19, 0, b"\x70", 9), (7, 2, b"\x70\x80\x0A", 8)):
            with self.refused(number, place, chips):
                humtrellis.plain_transfer(Part.PCF8532, chips, data, bits)
        with self.refused(8, 0, chips):
            chips[0].picture(2)
        chips[1].state[3] = 16
        with self.refused(11, 1, chips):
            humtrellis.plain_transfer(Part.PCF8532, chips, b"\x70")
        with self.refused(11, 0, chips):
            chips[1].picture()
        with self.refused(11, 0, chips):
            chips[1].power_on()

    def test_ram_images(self):
        end, ram = b":00000001FF\n", bytes(160)
        file = humtrellis.hex_write(Part.PCF8532, 1, ram)
        for number, place, asked in ((16, 0, (2, 1, ram)), (3, 0, (0, 5, ram)), (4, 0, (0, 2, ram)), (5, 3, (0, 1, b"\0\0\0\x10" + ram[4:]))):
            with self.refused(number, place):
                humtrellis.hex_write(*asked)
        for number, place, asked in (
            (16, 0, (2, 1, file)),
            (3, 0, (0, 5, file)),
            (14, 0, (0, 1, bytes(65537))),
            (21, 44, (0, 1, file[:44] + b";" + file[45:])),
            (22, 0, (0, 1, b":0100000000FE\n" + end)),
            (23, 0, (0, 1, b":020000040000FA\n" + end)),
            (24, 440, (0, 1, file[:-12] + b":0100A000005F\n" + end)),
            (25, 440, (0, 1, file[:-12] + file[:44] + end)),
            (26, 0, (0, 1, end)),
            (26, 144, (0, 1, file[: 44 * 9] + end)),
            (27, 0, (0, 1, file[:-12])),
            (27, 0, (0, 1, file + b"\n")),
        ):
            with self.refused(number, place):
                humtrellis.hex_read(*asked)

    def test_prices(self):
        for number, place, asked in ((2, 0, (0, "1" * 81)), (6, 0, (4, "1")), (15, 1, (0, "1x")), (15, 0, (0, ".")), (15, 2, (3, "1..")), (15, 1, (0, b"1\xE2\x88\x93"))):
            with self.refused(number, place):
                humtrellis.price_write(*asked)
        for number, place, asked in ((2, 0, (0, bytes(81))), (6, 0, (255, b"")), (15, 1, (3, b"\x04\x40"))):
            with self.refused(number, place):
                humtrellis.price_read(*asked)

    def test_logs(self):
        head = b"\x02\x01\x00"
        for number, place, log in ((12, 0, b""), (12, 0, b"\x03\x00\x00"), (3, 0, b"\x01\x05\x00"), (14, 0, bytes(65537))):
            for call in (humtrellis.replay, humtrellis.rescue, humtrellis.outcome):
                with self.refused(number, place):
                    call(log)
        for number, place, log in ((13, 3, head + b"\0"), (13, 7, head + b"\0\2\0\0\0\3\0"), (20, 3, head + b"\0\1\0")):
            for call in (humtrellis.replay, humtrellis.outcome):
                with self.refused(number, place):
                    call(log)


class WrongTypes(TestCase):
    """What ctypes would cut or misread is an error that names the argument, and nothing changes."""

    def setUp(self):
        self.bus = Bus(Part.PCF8532, 1)
        self.bus.transfer(sent("C8", "A5"))

    def test_numbers(self):
        bus, wide = self.bus, (-1, 256, 300, 1 << 64)
        for number in wide:
            for named, call in (
                ("part", lambda: Bus(number, 1)),
                ("chips0", lambda: Bus(0, number)),
                ("chips1", lambda: Bus(0, 1, number)),
                ("bits", lambda: bus.transfer(b"\x70", number)),
                ("group", lambda: bus.picture(number)),
                ("phase", lambda: bus.picture(0, number)),
                ("group", lambda: bus.write_rows(number, 0, 0, bytes(160))),
                ("mode", lambda: bus.write_rows(0, number, 0, bytes(160))),
                ("bank", lambda: bus.write_rows(0, 0, number, bytes(160))),
                ("group", lambda: bus.write_three(number, bytes(160))),
                ("group", lambda: bus.register(number, Register.E)),
                ("part", lambda: Chip(number, 0, 0)),
                ("sa0", lambda: Chip(0, number, 0)),
                ("subaddress", lambda: Chip(0, 0, number)),
                ("phase", lambda: Chip(0, 0, 0).picture(number)),
                ("part", lambda: humtrellis.plain_transfer(number, [], b"\x70")),
                ("bits", lambda: humtrellis.plain_transfer(0, [], b"\x70", number)),
                ("part", lambda: humtrellis.hex_write(number, 1, bytes(160))),
                ("chips", lambda: humtrellis.hex_write(0, number, bytes(160))),
                ("part", lambda: humtrellis.hex_read(number, 1, b"")),
                ("chips", lambda: humtrellis.hex_read(0, number, b"")),
                ("mode", lambda: humtrellis.price_write(number, "1")),
                ("mode", lambda: humtrellis.price_read(number, b"")),
            ):
                with self.wrong(ValueError, named, bus):
                    call()

    def test_no_numbers(self):
        for number in ("0", 0.0, None, b"\0"):
            with self.wrong(TypeError, "chips0"):
                Bus(0, number)
            with self.wrong(TypeError, "bits", self.bus):
                self.bus.transfer(b"\x70", number)
            with self.wrong(TypeError, "group", self.bus):
                self.bus.picture(number)

    def test_no_bytes(self):
        bus = self.bus
        for data in ("p", 5, None, [0x70], (0x70,), memoryview(b"\x70")):
            for named, call in (
                ("bytes", lambda: bus.transfer(data)),
                ("wanted", lambda: bus.write_rows(0, 0, 0, data)),
                ("wanted", lambda: bus.write_three(0, data)),
                ("bytes", lambda: humtrellis.plain_transfer(0, [], data)),
                ("ram", lambda: humtrellis.hex_write(0, 1, data)),
                ("file", lambda: humtrellis.hex_read(0, 1, data)),
                ("segments", lambda: humtrellis.price_read(0, data)),
                ("log", lambda: humtrellis.replay(data)),
                ("log", lambda: humtrellis.rescue(data)),
                ("log", lambda: humtrellis.outcome(data)),
            ):
                with self.wrong(TypeError, named, bus):
                    call()
        with self.wrong(TypeError, "text"):
            humtrellis.price_write(0, 4)

    def test_a_state_that_cannot_be_written(self):
        self.bus.ram = bytes(160)
        with self.wrong(TypeError, "ram", self.bus):
            self.bus.transfer(b"\x70")

    def test_chips_of_another_part(self):
        chips = [Chip(Part.PCF8532, 0, 0), Chip(Part.PCA85133, 0, 1)]
        with self.wrong(ValueError, "chips", chips):
            humtrellis.plain_transfer(Part.PCF8532, chips, b"\x70")
        with self.wrong(ValueError, "chips", chips):
            humtrellis.plain_transfer(Part.PCF8532, [bytearray(174)], b"\x70")


class TheProgram(TestCase):
    def run_it(self, *arguments: str, given: bytes = b"", **environment: str) -> subprocess.CompletedProcess:
        command = [sys.executable, "-m", "humtrellis", *arguments]
        return subprocess.run(command, cwd=HERE, input=given, capture_output=True, env={**os.environ, **environment})

    def test_replay(self):
        ran = self.run_it("replay", str(EXAMPLES / "seen.log"))
        self.assertEqual((ran.returncode, ran.stdout, ran.stderr), (0, example("seen.txt"), b""))
        ran = self.run_it("replay", given=example("minus.log"))
        self.assertEqual((ran.returncode, ran.stdout), (0, example("minus.txt")))

    def test_picture(self):
        ran = self.run_it("picture", str(EXAMPLES / "minus.log"))
        self.assertEqual((ran.returncode, ran.stdout), (0, b"S 0 160 4\nS 0 162 5\nS 0 163 4\nS 0 164 1\nG 0 5\n"))
        ran = self.run_it("picture", "--group", "1", "--phase", "1", given=example("minus.log"))
        self.assertEqual((ran.returncode, ran.stdout), (0, b"G 1 0\n"))

    def test_a_refused_log(self):
        for command in ("replay", "picture"):
            ran = self.run_it(command, str(EXAMPLES / "torn.log"))
            self.assertEqual((ran.returncode, ran.stdout), (1, b"X 13 17\n"))
            self.assertIn(b"refused by 13 (record cut short) at offset 17", ran.stderr)

    def test_failures(self):
        for arguments in (("replay", "/nonexistent"), ("replay", "/"), (), ("draw",), ("picture", "--group", "2"), ("replay", "a", "b")):
            ran = self.run_it(*arguments)
            self.assertEqual((ran.returncode, ran.stdout), (2, b""), arguments)
            self.assertTrue(ran.stderr)
            self.assertNotIn(b"Traceback", ran.stderr)

    def test_a_write_that_fails(self):
        command = [sys.executable, "-m", "humtrellis", "replay", str(EXAMPLES / "minus.log")]
        with open("/dev/full", "wb") as full:
            ran = subprocess.run(command, cwd=HERE, stdout=full, stderr=subprocess.PIPE)
        self.assertEqual(ran.returncode, 2)
        self.assertIn(b"No space left", ran.stderr)

    def test_help(self):
        for arguments in (("--help",), ("replay", "--help"), ("picture", "--help")):
            ran = self.run_it(*arguments)
            self.assertEqual((ran.returncode, ran.stdout[:28]), (0, b"usage: python3 -m humtrellis"))

    def test_no_library(self):
        ran = self.run_it("replay", given=example("minus.log"), HUMTRELLIS_LIB="/nonexistent.so")
        self.assertEqual((ran.returncode, ran.stdout), (2, b""))
        for place in (b"HUMTRELLIS_LIB", b"/nonexistent.so", b"target/package/libhumtrellis.so", b"installed libhumtrellis.so.9"):
            self.assertIn(place, ran.stderr)

    def test_another_library(self):
        """One that has none of the calls."""
        ran = self.run_it("replay", given=example("minus.log"), HUMTRELLIS_LIB=_ctypes.__file__)
        self.assertEqual((ran.returncode, ran.stdout), (2, b""))
        self.assertIn(b"has no humtrellis_power_on: this module is written for version 9", ran.stderr)

    def elsewhere(self, folder: str, **variables: str) -> subprocess.CompletedProcess:
        """A copy of the module that lies in no repository."""
        shutil.copy(HERE / "humtrellis.py", folder)
        command = [sys.executable, "-m", "humtrellis", "replay", str(EXAMPLES / "minus.log")]
        environment = {name: value for name, value in os.environ.items() if name not in ("HUMTRELLIS_LIB", "LD_LIBRARY_PATH")}
        return subprocess.run(command, cwd=folder, capture_output=True, env={**environment, **variables}, check=False)

    def test_the_installed_library(self):
        """Of the loader."""
        with tempfile.TemporaryDirectory() as folder:
            ran = self.elsewhere(folder, LD_LIBRARY_PATH=str(PACKAGE))
        self.assertEqual((ran.returncode, ran.stdout), (0, example("minus.txt")), ran.stderr)

    def test_the_library_beside_the_module(self):
        """Before that of the loader."""
        name = f"libhumtrellis.so.{humtrellis.VERSION}"
        with tempfile.TemporaryDirectory() as folder:
            shutil.copy(PACKAGE / name, folder)
            found = self.elsewhere(folder)
            Path(folder, name).write_bytes(b"no library")
            broken = self.elsewhere(folder, LD_LIBRARY_PATH=str(PACKAGE))
        self.assertEqual((found.returncode, found.stdout), (0, example("minus.txt")), found.stderr)
        self.assertEqual((broken.returncode, broken.stdout), (2, b""), broken.stderr)


if __name__ == "__main__":
    unittest.main()
