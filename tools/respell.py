#!/usr/bin/env python3
"""Brings the repository's own definitions and lemmas to today's spelling: words in snake case, types in camel case.

usage: python3 tools/respell.py [FOLDER]      rewrites crates/ of FOLDER (here, if none is named) by the rows of respell.tsv: old, a tab, new

It goes by whole words. A name with a dash turns only where it stands in code, since a dash in a comment may join two words, and not behind a dot, where a made name may be spelled alike.
"""
import pathlib
import re
import sys

WORD = re.compile(r"(?<![\w'·#-])[A-Za-z][\w'-]*(?![\w·])")
COMMENT = {".antt": re.compile(r"(?:^|(?<=\s))--.*"), ".rt": re.compile(r"//.*")}


def turned(text, table, dashed):
    def word(m):
        new = table.get(m[0])
        if new is None or ("-" in m[0] and (not dashed or text[m.start() - 1 : m.start()] == ".")):
            return m[0]
        return new

    return WORD.sub(word, text)


def line(text, table, comment):
    m = comment.search(text)
    if not m:
        return turned(text, table, True)
    return turned(text[: m.start()], table, True) + turned(m[0], table, False) + text[m.end() :]


def main():
    root = pathlib.Path(sys.argv[1] if len(sys.argv) > 1 else ".")
    rows = pathlib.Path(__file__).with_name("respell.tsv").read_text(encoding="utf-8")
    table = dict(row.split("\t") for row in rows.splitlines())
    for path in sorted(root.glob("crates/*/*/**/*")):
        if path.suffix not in COMMENT or "/out/" in str(path):
            continue
        old = path.read_text(encoding="utf-8")
        new = "\n".join(line(l, table, COMMENT[path.suffix]) for l in old.split("\n"))
        if new != old:
            path.write_text(new, encoding="utf-8")


main()
