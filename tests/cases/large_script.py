"""Large scripts, past each round number at which a program may give up; texts with one hash; the ends of the range of numbers."""

import tempfile
from pathlib import Path

from case import PROGRAM, ROOT, Case, Check, Contains, Outcome, judge, once, run, run_script

SUBJECT = "a large script"
WRITE_FAULT = "groupsh: write fault\n"
GREAT = ROOT / "tests/great_numbers.gq"
GREAT_REPLIES = ROOT / "tests/great_numbers.out"


@once
def made() -> tuple[Outcome, Path]:
    """The large script and its replies, in a folder of their own."""
    folder = Path(tempfile.mkdtemp())
    return run_script("large_script.py", folder / "script", folder / "replies"), folder


def script() -> Path:
    return made()[1] / "script"


def replies() -> Path:
    return made()[1] / "replies"


def large(name: str, *args: str, **rest) -> Case:
    return Case(name, args, **{"status": 1, "stdout": replies, "files": {"large": script}} | rest)


@once
def clashing() -> bytes:
    return run_script("clashing.py", "5000").stdout


def clash(*args: str) -> None:
    """Counts texts whose hashes are the same under the seed 0. Python's sort gives the minimum and the maximum."""
    texts = sorted(clashing().partition(b"load t\na\n")[2].partition(b"\\.\n")[0].splitlines())
    first, last = texts[0].decode(), texts[-1].decode()
    judge(run([PROGRAM, *args], stdin=clashing()), 0, f"ok 0\nok 5000\nok 1\ncount(*),min(a),max(a)\n5000,{first},{last}\n")


CASES = [
    Check("a large script is made", lambda: judge(made()[0], 0, Contains(""))),
    large("a large script", "large"),
    large("a large script under another seed", "--seed", "7", "large"),
    large("a large script under a random seed", "--seed", "random", "large"),
    large("a large script in pieces", shell='dd if=large bs=977 status=none | "$@"'),
    large(
        "a pipe that is closed",
        "large",
        status=3,
        stdout="ok 0\n",
        stderr=WRITE_FAULT,
        shell='"$@" | head -n 1; exit "${PIPESTATUS[0]}"',
    ),
    Check("texts whose hashes fall together", clash),
    Check("texts whose hashes fell together, under another seed", lambda: clash("--seed", "1")),
    Case("great numbers beside texts", [GREAT], stdout=GREAT_REPLIES),
    Case("great numbers beside texts, two groups at a time", ["--budget", "2", GREAT], stdout=GREAT_REPLIES),
]
