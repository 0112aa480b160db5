"""The reader under test, as a user runs it and, since that is far quicker, in this process."""

import subprocess
import sys
import tempfile
from pathlib import Path

TOP = Path(__file__).resolve().parents[2]
sys.path[:0] = [str(TOP / "tools"), str(TOP / "bindings" / "python")]


def called(arguments: list[str]) -> tuple[int, str]:
    """The status and the text that `bin/buslog` would give, every line end as written."""
    from buslog.__main__ import main

    with tempfile.NamedTemporaryFile() as written:
        status = main([*arguments, "-o", written.name])
        return status, written.read().decode()


def run(arguments: list[str]) -> tuple[int, str]:
    """The same by the command line."""
    done = subprocess.run([TOP / "bin" / "buslog", *arguments], stdout=subprocess.PIPE, check=False)
    return done.returncode, done.stdout.decode()
