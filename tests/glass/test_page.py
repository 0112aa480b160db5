"""The page: what it holds for each transfer, and that it loads nothing. What a browser makes of it: tests/page."""

import json
import re

from case import PAPER, TestCase, run

# Version 2: the minus bar, an undefined command, a zero for the minus bar of which two bytes fewer were seen, 1:4, off.
MIXED = (
    "02 02 00 000E 000C 70 80 CB 80 E0 80 09 80 4F 40 04 A6 0005 0003 70 80 0A"
    " 000B 0007 70 80 E0 80 09 80 4F 40 00 0005 0003 70 80 C8 0005 0003 70 80 C0"
)


class Page(TestCase):
    def made(self, *arguments) -> tuple[str, dict]:
        log = self.file("mixed.log", bytes.fromhex(MIXED))
        ended = run(log, "--html", "-", *arguments)
        self.assertEqual(ended.returncode, 0)
        text = ended.stdout.decode()
        return text, json.loads(re.search(r'<script id="data"[^>]*>(.*?)</script>', text, re.S)[1])

    def test_the_glass_after_each_transfer(self):
        text, data = self.made("--digits", 159, 2)
        shown = [(step["mode"], step["header"].split()[-1], step["reads"]) for step in data["steps"]]
        # In 1:4 column 162, the second digit's last, has f and g lit, and no more of that digit is.
        dark, unread = 'reads "  "', "no symbol of a price in columns 161 to 162"
        self.assertEqual(shown, [(0, "0", dark), *[(3, "5", 'reads "-4"')] * 2, (3, "4", 'reads " 4"'), (0, "4", unread), (0, "0", dark)])
        lit = [{c: v for c, v in enumerate(data["pictures"][step["picture"]]) if v != "0"} for step in data["steps"]]
        four = {162: "5", 163: "4", 164: "1"}
        self.assertEqual(lit, [{}, {160: "4", **four}, {160: "4", **four}, four, four, {}])
        self.assertEqual(re.findall(r'class="drawing" data-mode="(\d)"', text), ["0", "3"])

    def test_the_transfers(self):
        text, _ = self.made()
        rows = re.findall(r"<li.*?</li>", text, re.S)
        self.assertEqual(len(rows), 6)
        self.assertEqual([place for place, row in enumerate(rows) if 'class="refused"' in row], [2])
        self.assertIn("1: 70 80 0A<br>refused by 7 (undefined command) at byte 2", rows[2])
        self.assertEqual([place for place, row in enumerate(rows) if 'class="seen"' in row], [2, 3])
        self.assertIn("the analyser saw 3 acknowledged, the model has 0", rows[2])
        self.assertIn("the analyser saw 7 acknowledged, the model has 9", rows[3])
        self.assertIn("acknowledged 12, the last data byte by chip 1; bits stored 16, discarded 0", rows[1])

    def test_version_1_says_nothing_of_what_was_seen(self):
        text = run(self.file("paper.log", bytes.fromhex(PAPER)), "--html", "-").stdout.decode()
        self.assertNotIn('class="seen"', text)

    def test_nothing_is_loaded(self):
        text, _ = self.made("--digits", 159, 2)
        self.assertIn("default-src 'none'", text)
        self.assertEqual(set(re.findall(r"https?://[^\"' ]*", text)), {"http://www.w3.org/2000/svg"})
        self.assertEqual(re.findall(r"<(?:link|img|iframe|object)\b|\b(?:src|href)=|url\(|@import", text), [])

    def test_where_it_starts(self):
        self.assertIn('max="5" value="5"', self.made()[0])
        self.assertIn('max="5" value="2"', self.made("--at", 1)[0])

    def test_a_name_is_only_text(self):
        log = self.log((1, 0), "70 80 C8 40 A5", name="<b>@DATA@.log")
        text = self.shown(log, "--html", "-")
        self.assertIn("&lt;b&gt;@DATA@.log</h1>", text)

    def test_wrong_usage(self):
        self.fails(2, "--html: a page has one log", "examples/minus.log", "examples/seen.log", "--html", "-")
        self.fails(2, "not allowed with argument", "examples/minus.log", "--svg", "-", "--html", "-")
        self.fails(2, "a digit has 3 columns", "examples/minus.log", "--digits", 318, 1, "--html", "-")
