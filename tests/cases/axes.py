"""Each axis of a command at its maximum or past 100,000, in a memory with no room for a million groups more."""

import tempfile
from pathlib import Path

from case import Case, Check, Contains, Outcome, judge, leaves_nothing, once, run_script

SUBJECT = "all axes"


@once
def made() -> tuple[Outcome, Path]:
    """The script of all axes and its replies, in a folder of their own."""
    folder = Path(tempfile.mkdtemp())
    return run_script("large_axes.py", folder / "script", folder / "replies"), folder


def script() -> Path:
    return made()[1] / "script"


def replies() -> Path:
    return made()[1] / "replies"


def of_axes(name: str, kilobytes: int, *args: str, spill: str = "") -> Case:
    """A run with this much memory for its addresses."""
    return Case(
        name,
        [*args, "axes"],
        status=1,
        stdout=replies,
        files={"axes": script},
        shell=f'ulimit -v {kilobytes}; exec "$@"',
        spill=spill,
        seconds=600,
    )


RUNS = [
    of_axes("all axes", 400_000),
    # A store keeps an entry for each of the millions of runs that this makes.
    of_axes("all axes, one group at a time", 500_000, "--budget", "1"),
    of_axes("all axes, 1,048,576 groups at a time", 400_000, "--budget", "1048576"),
    of_axes("all axes, 100 groups at a time, in a folder", 400_000, "--budget", "100", "--spill", "runs", spill="runs"),
]

CASES = [
    Check("a script of all axes is made", lambda: judge(made()[0], 0, Contains(""))),
    *RUNS,
    leaves_nothing("all axes in a folder", RUNS[-1:]),
]
