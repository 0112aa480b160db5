"""Bus against model: the answers are the paper's and docs/BENCH.md's, worked out by hand."""

import random

from bench import EXAMPLES, TestCase, wave

import humtrellis
from buslog.check import Model
from buslog.log import to_log
from buslog.text import Line, Text, Transfer

MINUS = "70+ 80+ CB+ 80+ E0+ 80+ 09+ 80+ 4F+ 40+"
WHOLE = "12 bytes acknowledged, the last data byte by chip 1, 16 bits stored, 0 discarded"
AGREE = "bus and model agree"
DIFFER = "bus and model differ"


def counts(transfers: int, differing: int = 0, refused: int = 0, others: int = 0) -> str:
    return f"transfers {transfers}, differing {differing}, refused {refused}, of other devices {others}"


class Check(TestCase):
    def answers(self, status: int, lines: list, text: str, *arguments):
        """A text's lines."""
        self.says(status, "".join(f"{line}\n" for line in lines), "check", self.file("x", text), *arguments)

    def test_the_incident(self):
        lines = [f"@5.3e-05 transfer 0: agrees; in the model {WHOLE}", counts(1), AGREE]
        self.says(0, "".join(f"{line}\n" for line in lines), "check", EXAMPLES / "minus-lost.vcd", "--chips", "2,0")

    def test_the_missing_chip(self):
        lines = [
            f"@5.3e-05 transfer 0: agrees; in the model {WHOLE}",
            f"@0.001414 transfer 1: differs; in the model {WHOLE}",
            "    bytes 10 to 11 (04 to A6): not acknowledged on the bus, and by chip 1 of group 0 in the model: is it missing?",
            counts(2, differing=1),
            DIFFER,
        ]
        self.says(1, "".join(f"{line}\n" for line in lines), "check", EXAMPLES / "missing-chip.vcd", "--chips", "2,0")

    def test_a_chip_too_many(self):
        """With one chip the minus bar's byte begins in column 159 and ends past it: 3 bits stored, as the paper's edge has it."""
        lines = [
            "transfer 0: differs; in the model 10 bytes acknowledged, 3 bits stored, 13 discarded",
            "    bytes 10 to 11 (04 to A6): acknowledged on the bus, and by no chip of the model: is there a chip 1 of group 0?",
            counts(1, differing=1),
            DIFFER,
        ]
        self.answers(1, lines, f"chips 1 0\n[{MINUS} 04+ A6+]")

    def test_one_byte_of_many(self):
        """1:4 from column 0: 80 data bytes fill chip 0, and the next ones are chip 1's; byte 90 alone is not acknowledged."""
        start = "70+ 80+ C8+ 80+ E0+ 80+ 00+ 80+ 40+ 40+"
        data = ["AA+"] * 160
        data[80] = "AA-"
        lines = [
            "transfer 0: differs; in the model 170 bytes acknowledged, the last data byte by chip 1, 1280 bits stored, 0 discarded",
            "    byte 90 (AA): not acknowledged on the bus, and by chip 1 of group 0 in the model: is it missing?",
            counts(1, differing=1),
            DIFFER,
        ]
        self.answers(1, lines, f"chips 2 0\n[{start} {' '.join(data)}]")

    def test_equal_counts_of_other_bytes(self):
        """One chip, 1:4 from column 156: two data bytes are stored and acknowledged, the third is not; on the bus the second and the third change places."""
        lines = [
            "transfer 0: differs; in the model 12 bytes acknowledged, 16 bits stored, 8 discarded",
            "    byte 11 (02): not acknowledged on the bus, and by chip 0 of group 0 in the model: is it missing?",
            "    byte 12 (03): acknowledged on the bus, and by no chip of the model: is there a chip 1 of group 0?",
            counts(1, differing=1),
            DIFFER,
        ]
        self.answers(1, lines, "chips 1 0\n[70+ 80+ C8+ 80+ E0+ 80+ 09+ 80+ 4C+ 40+ 01+ 02- 03+]")

    def test_a_group_that_is_not_there(self):
        lines = [
            "transfer 0: differs; in the model 2 bytes acknowledged, 0 bits stored, 0 discarded",
            "    bytes 0 to 1 (72 to 00): not acknowledged on the bus, and by every chip of group 1 in the model: is the group there?",
            "transfer 1: differs; in the model 0 bytes acknowledged, 0 bits stored, 0 discarded",
            "    byte 0 (70): acknowledged on the bus, and heard by no chip of the model",
            counts(2, differing=2),
            DIFFER,
        ]
        self.answers(1, lines, "chips 0 1\n[72- 00-]\n[70+]")

    def test_a_group_without_chips_is_asked_nothing(self):
        """0A is undefined, but where no chip hears it nothing is refused."""
        lines = [
            "transfer 0: differs; in the model 0 bytes acknowledged, 0 bits stored, 0 discarded",
            "    bytes 0 to 2 (70 to 0A): acknowledged on the bus, and heard by no chip of the model",
            counts(1, differing=1),
            DIFFER,
        ]
        self.answers(1, lines, "chips 0 1\n[70+ 80+ 0A+]")

    def test_which_chip_goes_by_the_transfers_before(self):
        """Device-select 2 came in the transfer before."""
        lines = [
            "transfer 0: agrees; in the model 3 bytes acknowledged, 0 bits stored, 0 discarded",
            "transfer 1: differs; in the model 2 bytes acknowledged, 0 bits stored, 8 discarded",
            "    byte 2 (AA): acknowledged on the bus, and by no chip of the model: is there a chip 2 of group 1?",
            counts(2, differing=1),
            DIFFER,
        ]
        self.answers(1, lines, "chips 0 1\n[72+ 80+ E2+]\n[72+ 40+ AA+]")

    def test_past_every_chip(self):
        """The paper: four chips, A 3, P 158, two bytes: the second is discarded, and no chip can be there."""
        lines = [
            "transfer 0: differs; in the model 9 bytes acknowledged, 8 bits stored, 8 discarded",
            "    byte 9 (FF): acknowledged on the bus, and past the last chip that a group can have",
            counts(1, differing=1),
            DIFFER,
        ]
        self.answers(1, lines, "chips 4 0\n[70+ 80+ E3+ 80+ 09+ 80+ 4E+ 40+ FF+ FF+]")

    def test_cut_bytes_are_the_models_too(self):
        """Paper 02, request 8: after a cut data byte, data is refused by 18 until pointer and device-select have come."""
        lines = [
            "@0.5 transfer 0, byte 3 cut (.101): agrees; in the model 3 bytes acknowledged, the last data byte by chip 0, 8 bits stored, 0 discarded",
            "transfer 1: refused by 18 (data while pointer or counter is unknown) at byte 2; the chips may have acted on it, so that from here on the glass may show something else",
            counts(2, refused=1),
            "bus and model agree but for what is refused",
        ]
        self.answers(1, lines, "chips 1 0\n@0.5 [70+ 40+ AA+ .101]\n[70+ 40+ AA+]")

    def test_a_read_has_the_address_alone(self):
        agreed = "agrees; in the model 0 bytes acknowledged, 0 bits stored, 0 discarded"
        self.answers(0, [f"transfer 0: {agreed}", counts(1), AGREE], "chips 1 0\n[71- 00+ 00-]")

    def test_the_other_part(self):
        """80 columns: in 1:4 from column 78 the second data byte is chip 1's. E8 is refused by 7, since only the PCF8532 has it."""
        lines = ["transfer 0: agrees; in the model 10 bytes acknowledged, the last data byte by chip 1, 16 bits stored, 0 discarded"]
        text = "chips 2 0\n[70+ 80+ C8+ 80+ E0+ 80+ 4E+ 40+ FF+ FF+]"
        self.answers(0, [*lines, counts(1), AGREE], text, "--part", "pca85133")
        refused = "transfer 1: refused by 7 (undefined command) at byte 2; the chips may have acted on it, so that from here on the glass may show something else"
        self.answers(1, [*lines, refused, counts(2, refused=1), "bus and model agree but for what is refused"], f"{text}\n[70+ 80+ E8+]", "--part", "pca85133")

    def test_other_devices_are_left_out(self):
        capture = self.file("x.vcd", wave("S 10100000 0 P S 01110000 0 P"))
        lines = ["@0.00033 transfer 0: agrees; in the model 1 bytes acknowledged, 0 bits stored, 0 discarded", counts(1, others=1), AGREE]
        self.says(0, "".join(f"{line}\n" for line in lines), "check", capture, "--chips", "1,0")

    def test_nothing_to_compare_is_no_agreement(self):
        silent = "transfer 0: has no acknowledge mark; in the model 1 bytes acknowledged, 0 bits stored, 0 discarded"
        self.answers(1, [silent, counts(1), "nothing to compare: no acknowledge mark"], "chips 1 0\n[70]")
        self.answers(1, [counts(0), "nothing to compare: no transfer to the chips"], "chips 1 0\n")

    def test_refused_input(self):
        capture = EXAMPLES / "missing-chip.vcd"
        self.fails(1, "refused by 3 (too many chips in a group)", "check", capture, "--chips", "5,0")
        self.fails(2, f"{capture}: there is no chips line: say by --chips N,M how many chips group 0 and group 1 have", "check", capture)
        log = EXAMPLES / "seen.log"
        self.fails(1, f"{log}: this is a bus log, which bin/replay holds against the model", "check", log, "--chips", "2,0")


class AgainstTheLibrary(TestCase):
    """Random transfers with some marks turned over."""

    def transfers(self, chance: random.Random) -> list:
        made = []
        for _ in range(20):
            commands = (bytes([0x80, chance.choice((0xC8, 0xC9, 0xCA, 0xCB, 0xE0, 0xE1, 0xE3, 0x09, 0x4F, 0x0A))]) for _ in range(chance.randrange(4)))
            data = bytes([chance.choice((0x70, 0x70, 0x72, 0x71))]) + b"".join(commands) + b"\x40" + bytes(chance.randrange(60))
            marks = "".join("-" if chance.random() < 0.03 else "+" for _ in data)
            made.append(Transfer(None, data, marks, "", True))
        return made

    def test_halves_find_what_is_found_byte_by_byte(self):
        chance = random.Random(28)
        for _ in range(20):
            model, bus = Model(0, (2, 1)), humtrellis.Bus(0, 2, 1)
            for transfer in self.transfers(chance):
                verdict = model.take(transfer)
                found = [place for row in verdict.differences for place in range(row.first, row.last + 1)]
                counted = [0]
                for length in range(1, len(transfer.data) + 1 if not transfer.read else 2):
                    try:
                        counted.append(bus.copy().transfer(transfer.data[:length]).acknowledged)
                    except humtrellis.Refusal:
                        break
                if not verdict.refusal:
                    self.assertEqual(found, [k for k in range(len(counted) - 1) if (counted[k + 1] > counted[k]) != (transfer.marks[k] == "+")])
                    bus.transfer(transfer.data)

    def test_a_line_of_a_replay_that_differs_differs(self):
        """The A lines of a log of version 2 are transfers that are refused or differ."""
        chance, lines = random.Random(10), 0
        for _ in range(20):
            transfers, model = self.transfers(chance), Model(0, (2, 1))
            verdicts = [model.take(transfer) for transfer in transfers]
            log, _ = to_log(Text(None, [Line(1, transfer) for transfer in transfers]), (2, 1), 2, "x")
            replayed = [line.split() for line in humtrellis.replay(log).splitlines()]
            for _, index, answer, _, acknowledged, stored, discarded, _ in (line for line in replayed if line[0] == "T"):
                verdict = verdicts[int(index)]
                self.assertEqual(int(answer), verdict.refusal.number if verdict.refusal else 0)
                self.assertEqual(verdict.answer[:3], (int(acknowledged), int(stored), int(discarded)))
            for _, index, _, _ in (line for line in replayed if line[0] == "A"):
                self.assertTrue(verdicts[int(index)].refusal or verdicts[int(index)].differences)
                lines += 1
        self.assertGreater(lines, 50)
