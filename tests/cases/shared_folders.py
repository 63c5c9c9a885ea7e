"""A spill folder that others use too, programs that are ended while they have runs, and runs that can't be made."""

import os
import signal
import subprocess
import tempfile
import time
import unittest
from collections.abc import Callable, Iterator
from concurrent.futures import ThreadPoolExecutor
from contextlib import contextmanager, suppress
from pathlib import Path

from case import PROGRAM, Case, Check, Outcome, folder_in_memory, judge, leaves_nothing, once, put, run
from cases.spilling import FAILED_REPLIES, ROWS, ROWS_REPLIES

SUBJECT = "folders that others use, and programs that are ended"
SPILL = ["--budget", "1", "--spill", "runs", "script"]

# Many groups, of which the budget has place for few.
KEYS = 30_000
NUMBERED = "".join(f"{key},{key % 7}\n" for key in range(KEYS))
LOADED = f"create b (id int, n int)\nload b\nid,n\n{NUMBERED}\\.\n"
GROUPED = "group b by id show sum(n)\n"
MANY = {"many": LOADED + GROUPED, "lacking": LOADED + GROUPED + "group b show count(*)\n"}
MANY_REPLIES = f"ok 0\nok {KEYS}\nok {KEYS}\nid,sum(n)\n{NUMBERED}"
LACKING_REPLIES = f"ok 0\nok {KEYS}\nerr 16 StoreFault\nok 1\ncount(*)\n{KEYS}\n"
SPILL_MANY = ["--budget", "100", "--spill", "runs"]


@contextmanager
def folder_with(script: str, made: Callable[[], tempfile.TemporaryDirectory[str]] = folder_in_memory) -> Iterator[Path]:
    """A folder with a script and a spill folder."""
    with made() as name:
        folder = Path(name)
        (folder / "runs").mkdir()
        put(folder, "script", script)
        yield folder


@once
def after_link() -> tuple[Outcome, list[str], str]:
    """A run where a link has a run's name: its outcome, the files left, and what the link's target has."""
    with folder_with(ROWS) as folder:
        (folder / "target").write_text("kept\n")
        (folder / "runs/run-0.gq").symlink_to(folder / "target")
        outcome = run([PROGRAM, *SPILL], folder=folder)
        return outcome, os.listdir(folder / "runs"), (folder / "target").read_text()


def link_of_run_name() -> None:
    judge(after_link()[0], 0, ROWS_REPLIES)


def link_is_gone() -> None:
    assert after_link()[1] == []


def target_is_kept() -> None:
    assert after_link()[2] == "kept\n"


@once
def after_folder() -> tuple[Outcome, bool]:
    """A run where a folder has a run's name: its outcome, and whether the folder is still there."""
    with folder_with(ROWS) as folder:
        (folder / "runs/run-0.gq").mkdir()
        outcome = run([PROGRAM, *SPILL], folder=folder)
        return outcome, (folder / "runs/run-0.gq").is_dir()


def folder_of_run_name() -> None:
    judge(after_folder()[0], 1, FAILED_REPLIES)


def folder_is_kept() -> None:
    assert after_folder()[1]


@contextmanager
def held(path: Path) -> Iterator[None]:
    """Keeps a file from being removed."""
    if os.getuid() != 0:
        path.parent.chmod(0o555)
    elif run(["chattr", "+i", path]).status != 0:
        raise unittest.SkipTest("each file can be removed here")
    try:
        yield
    finally:
        path.parent.chmod(0o755) if os.getuid() != 0 else run(["chattr", "-i", path])


@once
def after_held() -> tuple[Outcome, str]:
    """A run where a file that can't be removed has a run's name: its outcome, and what the file has."""
    # In memory no file can be held.
    with folder_with(ROWS, tempfile.TemporaryDirectory) as folder:
        path = folder / "runs/run-0.gq"
        path.write_text("kept\n")
        with held(path):
            outcome = run([PROGRAM, *SPILL], folder=folder)
        return outcome, path.read_text()


def held_file() -> None:
    judge(after_held()[0], 1, FAILED_REPLIES)


def held_file_is_kept() -> None:
    assert after_held()[1] == "kept\n"


@once
def two_at_once() -> tuple[list[Outcome], list[str]]:
    """Two programs at once in one folder, twenty times: their outcomes, and the files left."""
    with folder_with(MANY["many"]) as folder, ThreadPoolExecutor(2) as pool:
        words = [PROGRAM, *SPILL_MANY, "script"]
        outcomes = list(pool.map(lambda _: run(words, folder=folder), range(40)))
        return outcomes, os.listdir(folder / "runs")


def two_programs() -> None:
    for outcome in two_at_once()[0]:
        judge(outcome, 0, MANY_REPLIES)


def two_programs_leave_nothing() -> None:
    assert two_at_once()[1] == []


def has_run_for_itself(process: int, spill: Path) -> bool:
    """Whether a process has an open run without a name, which only its owner may read."""
    # A file may be closed while this looks at it.
    with suppress(OSError):
        for entry in Path(f"/proc/{process}/fd").iterdir():
            target = os.readlink(entry)
            if target.startswith(f"{spill}/run-") and target.endswith(" (deleted)"):
                os.kill(process, signal.SIGSTOP)
                return os.stat(entry).st_mode & 0o777 == 0o600
    return False


@once
def ended_by(name: str) -> tuple[bool, int, list[tuple[int, int]]]:
    """A program that is ended while it has a run: whether it had one, its status, and size and mode of each file left."""
    with folder_with(LOADED + GROUPED * 100) as folder, open(os.devnull, "wb") as null:
        spill = folder / "runs"
        words = ["env", "--default-signal=INT", PROGRAM, *SPILL_MANY, "script"]
        process = subprocess.Popen(words, cwd=folder, stdin=null, stdout=null, stderr=null)
        seen = False
        for _ in range(1000):
            seen = has_run_for_itself(process.pid, spill)
            process.send_signal(signal.SIGCONT)
            if seen or process.poll() is not None:
                break
            time.sleep(0.001)
        process.send_signal(getattr(signal, f"SIG{name}"))
        status = process.wait(60)
        return seen, status, [(stat.st_size, stat.st_mode & 0o777) for stat in map(os.stat, spill.iterdir())]


def of_signal(name: str) -> list[Check]:
    def has_run() -> None:
        assert ended_by(name)[0]

    def is_ended() -> None:
        assert ended_by(name)[1] == -getattr(signal, f"SIG{name}")

    def leaves_at_most_an_empty_file() -> None:
        # A file that was just being made has no bytes yet.
        assert ended_by(name)[2] in ([], [(0, 0o600)])

    return [
        Check(f"a program has a run for itself before it is ended by {name}", has_run),
        Check(f"a program is ended by {name}", is_ended),
        Check(f"a program that is ended by {name}: nothing is left", leaves_at_most_an_empty_file),
    ]


def lacking(name: str, shell: str) -> Case:
    """A run that can't make or write some file, so that one command is refused and the table is as it was."""
    return Case(name, [*SPILL_MANY, "lacking"], status=1, stdout=LACKING_REPLIES, files=MANY, shell=shell, spill="runs")


FULL = """unshare -m sh -c 'mount -t tmpfs -o size=16k none runs && exec "$@"' sh "$@" """
LACKING = [
    lacking("files that may not grow", """trap '' XFSZ; ulimit -f 16; exec "$@" """),
    lacking("sixteen open files", 'ulimit -n 16; exec "$@"'),
]
FULL_DEVICE = lacking("a folder on a full device", FULL)


def full_device() -> None:
    with tempfile.TemporaryDirectory() as folder:
        (Path(folder) / "runs").mkdir()
        if run(["bash", "-c", FULL, "bash", "true"], folder=Path(folder)).status != 0:
            raise unittest.SkipTest("no device can be made here")
    FULL_DEVICE.judge()


MANY_RUNS = Case("many runs in a folder", [*SPILL_MANY, "many"], stdout=MANY_REPLIES, files=MANY, spill="runs")
OPEN_FILES = Case(
    "open files enough",
    [*SPILL_MANY, "many"],
    stdout=MANY_REPLIES,
    files=MANY,
    shell='ulimit -n 96; exec "$@"',
    spill="runs",
)

CASES = [
    Check("a link of a run's name", link_of_run_name),
    Check("a link of a run's name: no file is left", link_is_gone),
    Check("what the link led to is as it was", target_is_kept),
    Check("a folder of a run's name", folder_of_run_name),
    Check("the folder of a run's name is still there", folder_is_kept),
    Check("a file that can't be removed", held_file),
    Check("the file that can't be removed is as it was", held_file_is_kept),
    MANY_RUNS,
    Check("two programs at once in one folder", two_programs),
    Check("two programs at once in one folder: no file is left", two_programs_leave_nothing),
    *[check for name in ("INT", "TERM", "KILL") for check in of_signal(name)],
    *LACKING,
    OPEN_FILES,
    Check(FULL_DEVICE.name, full_device),
    leaves_nothing("runs that could not be made", [*LACKING, OPEN_FILES]),
]
