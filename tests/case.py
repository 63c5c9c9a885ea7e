"""Cases of the suite: a run of the program as data, or a function that looks at something else."""

from __future__ import annotations

import difflib
import os
import shutil
import signal
import subprocess
import sys
import tempfile
import unittest
from collections.abc import Callable, Iterable, Mapping, Sequence
from concurrent.futures import Future
from dataclasses import dataclass, field
from functools import wraps
from pathlib import Path
from threading import Lock

ROOT = Path(__file__).resolve().parents[1]
PROGRAM = ROOT / "crates/gq_shell/out/groupsh"
SECONDS = 120

Word = str | bytes | Path
Text = str | bytes | Path | Callable[[], Path]


@dataclass(frozen=True)
class Contains:
    """Any text that contains this one."""

    text: str


@dataclass(frozen=True)
class Outcome:
    """The result of a run, with the names of the files that it left in its spill folder."""

    status: int
    stdout: bytes
    stderr: bytes
    left: Sequence[str] = ()


def once(function: Callable) -> Callable:
    """Like functools.cache, but threads that ask at once wait for one call."""
    lock: Lock = Lock()
    futures: dict[tuple, Future] = {}

    @wraps(function)
    def ask(*args):
        with lock:
            is_known = args in futures
            future = futures.setdefault(args, Future())
        if not is_known:
            try:
                future.set_result(function(*args))
            except BaseException as error:
                future.set_exception(error)
        return future.result()

    return ask


def content(text: Text) -> bytes:
    """The bytes of a text: itself, or those of a file, which a fixture may make when it is first needed."""
    if callable(text):
        text = text()
    if isinstance(text, Path):
        return text.read_bytes()
    return text.encode() if isinstance(text, str) else text


def put(folder: Path, name: str, text: Text) -> None:
    """Makes a file with this text. A file is linked, not copied."""
    path = folder / name
    path.parent.mkdir(parents=True, exist_ok=True)
    if callable(text):
        text = text()
    if isinstance(text, Path):
        path.symlink_to(text)
    else:
        path.write_bytes(content(text))


def run(
    words: Sequence[Word],
    *,
    folder: Path = ROOT,
    stdin: str | bytes | None = None,
    env: Mapping[str, str] | None = None,
    seconds: float = SECONDS,
) -> Outcome:
    """Runs a command on regular files as its streams. At the time limit its process group is killed."""
    with tempfile.TemporaryFile() as given, tempfile.TemporaryFile() as stdout, tempfile.TemporaryFile() as stderr:
        if stdin is not None:
            given.write(content(stdin))
            given.seek(0)
        process = subprocess.Popen(
            words,
            cwd=folder,
            env=None if env is None else {**os.environ, **env},
            stdin=subprocess.DEVNULL if stdin is None else given,
            stdout=stdout,
            stderr=stderr,
            start_new_session=True,
        )
        try:
            status = process.wait(seconds)
        except subprocess.TimeoutExpired:
            os.killpg(process.pid, signal.SIGKILL)
            process.wait()
            raise AssertionError(f"no end within {seconds} s: {words}") from None
        stdout.seek(0)
        stderr.seek(0)
        return Outcome(status, stdout.read(), stderr.read())


def run_script(name: str, *words: Word, seconds: float = 600) -> Outcome:
    """Runs a script of this folder."""
    return run([sys.executable, "-B", ROOT / "tests" / name, *words], seconds=seconds)


def folder_in_memory() -> tempfile.TemporaryDirectory[str]:
    """A folder for programs that make thousands of files: in memory if there is room, since a disk takes ten times as long."""
    shared = Path("/dev/shm")
    has_room = os.access(shared, os.W_OK) and shutil.disk_usage(shared).free > 2**30
    return tempfile.TemporaryDirectory(dir=shared if has_room else None)


def path_without(tool: str) -> str:
    """The PATH without the folders that have this tool."""
    folders = os.environ["PATH"].split(os.pathsep)
    return os.pathsep.join(folder for folder in folders if not Path(folder, tool).exists())


def need(*tools: str) -> None:
    """Skips the case if one of these tools is missing."""
    for tool in tools:
        if shutil.which(tool) is None:
            raise unittest.SkipTest(f"no {tool}")


def difference(found: bytes, wanted: bytes) -> str:
    """A unified diff of the lines around the first one that differs."""
    lines, other = found.split(b"\n"), wanted.split(b"\n")
    first = next((n for n, pair in enumerate(zip(lines, other)) if pair[0] != pair[1]), min(len(lines), len(other)))
    near = slice(max(0, first - 3), first + 10)
    parts = [[line[:300].decode(errors="backslashreplace") for line in part[near]] for part in (other, lines)]
    return "\n".join([f"from line {first + 1}:", *difflib.unified_diff(*parts, "wanted", "found", lineterm="")])


def compare(stream: str, found: bytes, wanted: Text | Contains) -> None:
    """Fails if a stream isn't as wanted."""
    if isinstance(wanted, Contains):
        if wanted.text.encode() not in found:
            raise AssertionError(f"{stream} lacks {wanted.text!r}:\n{found[:2000].decode(errors='backslashreplace')}")
    elif found != content(wanted):
        raise AssertionError(f"another {stream}:\n{difference(found, content(wanted))}")


def judge(outcome: Outcome, status: int, stdout: Text | Contains = "", stderr: Text | Contains = "") -> None:
    """Fails if a run's status or one of its streams isn't as wanted."""
    if outcome.status != status:
        told = (outcome.stdout[-500:] + outcome.stderr[-500:]).decode(errors="backslashreplace")
        raise AssertionError(f"status {outcome.status}, wanted {status}:\n{told}")
    compare("standard output", outcome.stdout, stdout)
    compare("standard error", outcome.stderr, stderr)


@dataclass(frozen=True, eq=False)
class Check:
    """A case that a function judges, which fails by an AssertionError and is left out by a SkipTest."""

    name: str
    judge: Callable[[], None]


@dataclass(frozen=True, eq=False)
class Case:
    """A run of the program in a folder of its own, and its results.

    Without `stdin` there is the null device. `shell` is a line for bash that runs the program and its arguments by "$@".
    `spill` is a folder that is made before; that it is empty after the run is a case of its own (`leaves_nothing`).
    """

    name: str
    args: Sequence[Word] = ()
    stdin: str | bytes | None = None
    status: int = 0
    stdout: Text | Contains = ""
    stderr: Text | Contains = ""
    files: Mapping[str, Text] = field(default_factory=dict)
    folders: Sequence[str] = ()
    shell: str = ""
    spill: str = ""
    seconds: float = SECONDS

    @once
    def outcome(self) -> Outcome:
        words = [PROGRAM, *self.args]
        if self.shell:
            words = ["bash", "-c", self.shell, "bash", *words]
        with folder_in_memory() if self.spill else tempfile.TemporaryDirectory() as name:
            folder = Path(name)
            for inner in filter(None, [*self.folders, self.spill]):
                (folder / inner).mkdir()
            for path, text in self.files.items():
                put(folder, path, text)
            outcome = run(words, folder=folder, stdin=self.stdin, seconds=self.seconds)
            left = tuple(os.listdir(folder / self.spill)) if self.spill else ()
            return Outcome(outcome.status, outcome.stdout, outcome.stderr, left)

    def judge(self) -> None:
        judge(self.outcome(), self.status, self.stdout, self.stderr)


def leaves_nothing(name: str, cases: Iterable[Case]) -> Check:
    """The case that these runs leave their spill folders empty."""

    def look() -> None:
        left = [file for case in cases for file in case.outcome().left]
        if left:
            raise AssertionError(f"files are left: {left}")

    return Check(f"{name}: no file is left", look)


def with_spill_checks(cases: Iterable[Case | Check]) -> Iterable[Case | Check]:
    """The cases, each with a spill folder followed by the one that this is empty."""
    for case in cases:
        yield case
        if isinstance(case, Case) and case.spill:
            yield leaves_nothing(case.name, [case])
