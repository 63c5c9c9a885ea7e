"""The launcher over the built program, and with a stand-in for the toolchain: when it builds and what it says. ./try, too."""

import os
import re
import shutil
import signal
import subprocess
import sys
import tempfile
import time
from collections.abc import Iterable
from contextlib import suppress
from dataclasses import dataclass
from functools import partial
from pathlib import Path

from case import ROOT, Check, Contains, Outcome, Text, judge, once, path_without, run
from samples import FIRST, FIRST_REPLIES, OTHER, REFUSED, REFUSED_REPLIES

SUBJECT = "the launcher"
CRATES = ("gq_low", "gq_side", "gq_middle")
MANIFEST = """# crates
gq_low: smallvec
gq_side:
gq_middle: gq_low gq_side
gq_shell: gq_middle clap # the program
gq_apart:
"""
# What the log has of a build from nothing.
FROM_NOTHING = [
    *(f"lib jobs in out/N/crates/{name}" for name in CRATES),
    *(f"it proves {name}, with what was kept: " for name in CRATES),
    "run jobs in crates/gq_shell",
]
ALL_PROVED = "groupsh: proved 4 of 4 crates, 0 min"


def through_link(stdin: str, *args: str) -> Outcome:
    """A run of the launcher from another folder, through a link, on a file with FIRST."""
    with tempfile.TemporaryDirectory() as name:
        folder = Path(name)
        (folder / "link").symlink_to(ROOT / "groupsh")
        (folder / "first").write_text(FIRST)
        words = [str(folder / word) if word == "first" else word for word in args]
        return run([folder / "link", *words], folder=Path("/"), stdin=stdin)


def over_program(name: str, stdin: str, *args: str, status: int = 0, stdout: Text = "", stderr: Text | Contains = "") -> Check:
    return Check(name, lambda: judge(through_link(stdin, *args), status, stdout, stderr))


class Kit:
    """A repository of small crates, with a stand-in for `rt`."""

    def __init__(self) -> None:
        self.root = Path(tempfile.mkdtemp())
        for name in ("gq_shell", "gq_apart", *CRATES):
            (self.root / "crates" / name / "src").mkdir(parents=True)
        for name in ("groupsh", "build", "try", "HANDLES"):
            shutil.copy(ROOT / name, self.root)
        (self.root / "crates.txt").write_text(MANIFEST)
        (self.root / "bin").mkdir()
        shutil.copy(ROOT / "tests/stand_in_rt", self.root / "bin/rt")

    @property
    def out(self) -> Path:
        return self.root / "crates/gq_shell/out"

    def env(self) -> dict[str, str]:
        return {"KIT": str(self.root), "PATH": f"{self.root / 'bin'}{os.pathsep}{os.environ['PATH']}"}

    def launch(self, *args: str, **env: str) -> Outcome:
        return run([self.root / "groupsh", *args], env={**self.env(), **env})

    def touch(self, path: str) -> None:
        (self.root / path).touch()

    def log(self) -> list[str]:
        """The lines of the log, sorted, with `jobs` for any number of jobs and `N` for the name of any copy."""
        text = (self.out / "groupsh.log").read_text()
        return sorted(re.sub(r"out/\w+", "out/N", re.sub(r"--jobs \d+", "jobs", text)).splitlines())


def built() -> Kit:
    """A repository whose program is built."""
    kit = Kit()
    judge(kit.launch(), 7, "\n", Contains("first use"))
    return kit


@dataclass(frozen=True)
class FirstUse:
    """A repository after the first use of its launcher, and after the second."""

    kit: Kit
    first: Outcome
    log: list[str]
    second: Outcome


@once
def first_use() -> FirstUse:
    kit = Kit()
    first = kit.launch("a", "b c")
    return FirstUse(kit, first, kit.log(), kit.launch())


def first_use_says(text: str) -> None:
    assert text.encode() in first_use().first.stderr, first_use().first


def first_use_builds() -> None:
    judge(first_use().first, 7, "a b c\n", Contains("first use"))


def says_where_to_look() -> None:
    first_use_says(f"{first_use().kit.out}/groupsh.log")


def proves_each_crate_once() -> None:
    assert first_use().log == sorted(FROM_NOTHING), first_use().log


def has_proof(name: str) -> None:
    out = first_use().kit.root / "crates" / name / "out"
    assert [(out / path).read_text() for path in ("rlib/stamp", "incremental/kept")] == [f"{name}\n"] * 2


def no_copy_is_left() -> None:
    assert not (first_use().kit.root / "out").exists()


def builds_once() -> None:
    judge(first_use().second, 7, "\n")


@once
def after_change(source: str) -> list[Outcome]:
    """Two launches after a source has changed."""
    kit = built()
    kit.touch(source)
    return [kit.launch(), kit.launch()]


def of_change(source: str) -> Iterable[Check]:
    yield Check(
        f"the launcher builds after a change of {source}",
        lambda: judge(after_change(source)[0], 7, "\n", Contains("a source changed")),
    )
    yield Check(f"and once, after a change of {source}", lambda: judge(after_change(source)[1], 7, "\n"))


def change_during_build() -> None:
    kit = Kit()
    touches = kit.root / "lib-touches"
    touches.write_text("crates/gq_middle/src/late.rt")
    judge(kit.launch(), 7, "\n", Contains("first use"))
    assert "it finds late.rt" not in kit.log(), kit.log()
    touches.unlink()
    judge(kit.launch(), 7, "\n", Contains("a source changed"))
    assert "it finds late.rt" in kit.log(), kit.log()


def crate_apart() -> None:
    kit = built()
    kit.touch("crates/gq_apart/src/lib.rt")
    judge(kit.launch(), 7, "\n")


@once
def after_failure(step: str) -> tuple[Kit, Outcome, list[str]]:
    """A launch in which a command of `rt` fails, and its log."""
    kit = built()
    kit.touch("crates.txt")
    kit.touch(f"{step}-fails")
    outcome = kit.launch()
    return kit, outcome, kit.log()


def of_failure(step: str, what: str, crate: str) -> Iterable[Check]:
    def says_why() -> None:
        log = after_failure(step)[2]
        assert "it fails" in log and any(re.fullmatch(rf"make: .*: {crate}\] Error 1", line) for line in log), log

    error = Contains(f"it could not be {what}")
    yield Check(f"what can't be {what}, in {step}", lambda: judge(after_failure(step)[1], 125, "", error))
    yield Check(f"the log says why it can't be {what}, in {step}", says_why)


def after_copies_were_left() -> None:
    kit, _, _ = after_failure("lib")
    (kit.root / "lib-fails").unlink()
    kit.touch("crates/gq_low/src/other.rt")
    judge(kit.launch(), 7, "\n", Contains("a source changed"))


def no_place_for_copies() -> None:
    kit = built()
    kit.touch("crates.txt")
    kit.touch("out")
    judge(kit.launch(), 125, "", Contains("it could not be proved"))


@once
def after_loss() -> tuple[Outcome, list[str]]:
    """A launch after one library was removed, and its log."""
    kit = built()
    shutil.rmtree(kit.root / "crates/gq_low/out/rlib")
    kit.touch("crates.txt")
    return kit.launch(), kit.log()


def library_is_gone() -> None:
    judge(after_loss()[0], 7, "\n", Contains(ALL_PROVED))


def rest_stays_proved() -> None:
    proved_again = "it proves gq_low, with what was kept: gq_low"
    assert after_loss()[1] == sorted([proved_again, *(line for line in FROM_NOTHING if not line.startswith("it proves"))])


def processes_in(folder: Path) -> list[str]:
    """The numbers of the processes that work in a folder. One that has ended works in none."""
    found = []
    for process in Path("/proc").glob("[0-9]*"):
        with suppress(OSError):
            if (process / "cwd").readlink().is_relative_to(folder.resolve()):
                found.append(process.name)
    return found


def processes_after_a_while(folder: Path) -> list[str]:
    """The processes that still work in a folder after five seconds, since what they have started may end later than they do."""
    end = time.monotonic() + 5
    while (found := processes_in(folder)) and time.monotonic() < end:
        time.sleep(0.05)
    return found


def interrupt(kit: Kit, program: str, step: str, number: signal.Signals) -> tuple[Outcome, list[str]]:
    """A run of the launcher or the build that a signal ends while a command of `rt` runs, and the processes that go on.

    SIGTERM is sent to the program alone, and the others to all its processes, as a terminal does.
    """
    slow = kit.root / f"{step}-slow"
    slow.touch()
    with tempfile.TemporaryFile() as stdout, tempfile.TemporaryFile() as stderr:
        process = subprocess.Popen(
            [kit.root / program],
            env={**os.environ, **kit.env()},
            stdin=subprocess.DEVNULL,
            stdout=stdout,
            stderr=stderr,
            start_new_session=True,
        )
        while not slow.read_text():
            assert process.poll() is None, f"{program} has ended"
            time.sleep(0.05)
        (os.kill if number == signal.SIGTERM else os.killpg)(process.pid, number)
        status = process.wait(60)
        slow.unlink()
        stdout.seek(0)
        stderr.seek(0)
        return Outcome(status, stdout.read(), stderr.read()), processes_after_a_while(kit.root)


@once
def interrupted(program: str, step: str, number: signal.Signals) -> tuple[Outcome, list[str]]:
    """A run after a change that a signal ends."""
    kit = built()
    kit.touch("crates.txt")
    return interrupt(kit, program, step, number)


def of_interrupt(program: str, step: str, number: signal.Signals) -> Iterable[Check]:
    def status() -> None:
        judge(interrupted(program, step, number)[0], 130, "", Contains("a source changed"))

    def nothing_goes_on() -> None:
        left = interrupted(program, step, number)[1]
        assert not left, left

    name = f"./{program}, interrupted in {step} by {number.name}"
    yield Check(name, status)
    yield Check(f"{name}: no process goes on", nothing_goes_on)


@once
def resumed() -> tuple[Outcome, list[str]]:
    """A launch after the first one was interrupted, when all libraries were proved, and its log."""
    kit = Kit()
    judge(interrupt(kit, "groupsh", "run", signal.SIGTERM)[0], 130, "", Contains("proved 3 of 4 crates"))
    return kit.launch(), kit.log()


def resumes() -> None:
    judge(resumed()[0], 7, "\n", Contains(ALL_PROVED))


def proves_none_again() -> None:
    assert resumed()[1] == sorted(line for line in FROM_NOTHING if not line.startswith("it proves")), resumed()[1]


def folder_that_cannot_be_written() -> None:
    kit = built()
    shutil.rmtree(kit.out)
    kit.out.touch()
    judge(kit.launch(), 125, "", Contains("can't be written"))


def no_toolchain() -> None:
    kit = Kit()
    judge(run([kit.root / "groupsh"], env={"PATH": path_without("rt")}), 125, "", Contains("there is no 'rt'"))


def no_make() -> None:
    kit = Kit()
    (kit.root / "bin/python3").symlink_to(sys.executable)
    judge(run([kit.root / "build"], env={"PATH": str(kit.root / "bin")}), 125, "", Contains("there is no 'make'"))


def make_above() -> None:
    judge(Kit().launch(MAKEFLAGS="n", MAKELEVEL="1"), 7, "\n", Contains(ALL_PROVED))


@once
def tried() -> tuple[Kit, Outcome]:
    """A run of ./try on a script and a table in its folder."""
    kit = Kit()
    (kit.root / "first").write_text(FIRST)
    words = ["./try", "--seed=7", "-tfirst", "first", "-t", "t=first", "none"]
    return kit, run(words, folder=kit.root, env=kit.env())


def try_runs_program() -> None:
    kit, outcome = tried()
    first = kit.root / "first"
    judge(outcome, 7, f"try -- --seed=7 -t{first} {first} -t t={first} none in crates/gq_shell\n", Contains("unproved"))


def try_has_errors_of_program() -> None:
    last = tried()[1].stderr.decode().splitlines()[1:]
    assert last == ["an error of the program"], last


CASES = [
    over_program("the launcher", OTHER, "first", stdout=FIRST_REPLIES),
    over_program("the launcher, reading its standard input", REFUSED, status=1, stdout=REFUSED_REPLIES),
    over_program("the launcher and a seed", OTHER, "--seed", "7", "first", stdout=FIRST_REPLIES),
    over_program("the launcher and a mistake", "", "a", "b", status=2, stderr=Contains("Usage: groupsh")),
    Check("the launcher's first use builds", first_use_builds),
    Check("the launcher says where to look", says_where_to_look),
    Check("the launcher tells how far it is", partial(first_use_says, "groupsh: proved 3 of 4 crates, 0 min")),
    Check("the launcher tells that all is proved", partial(first_use_says, ALL_PROVED)),
    Check("the launcher proves each crate once, in copies, those below it first", proves_each_crate_once),
    *[Check(f"what a copy proved of {name} stands with the sources", partial(has_proof, name)) for name in CRATES],
    Check("no copy is left", no_copy_is_left),
    Check("the launcher builds once", builds_once),
    *[
        check
        for source in ("crates/gq_shell/src/main.rt", "crates/gq_low/src/lib.rt", "crates.txt")
        for check in of_change(source)
    ],
    Check("a source that changes during a build is left to the next", change_during_build),
    Check("a crate apart makes no build", crate_apart),
    *of_failure("lib", "proved", "gq_low"),
    *of_failure("run", "proved and built", "gq_shell"),
    Check("the launcher, after copies were left", after_copies_were_left),
    Check("no place for copies", no_place_for_copies),
    Check("the launcher, where one library is gone", library_is_gone),
    Check("what is proved stays so, and what is not begins with what was kept", rest_stays_proved),
    *[
        check
        for program in ("groupsh", "build")
        for number in (signal.SIGINT, signal.SIGTERM, signal.SIGHUP)
        for check in of_interrupt(program, "lib", number)
    ],
    *of_interrupt("groupsh", "run", signal.SIGTERM),
    Check("an interrupted build resumes", resumes),
    Check("what was proved before the interrupt stays so", proves_none_again),
    Check("a folder that can't be written", folder_that_cannot_be_written),
    Check("no toolchain", no_toolchain),
    Check("no make", no_make),
    Check("the options of a make above are left out", make_above),
    Check("./try runs the program on files with absolute names", try_runs_program),
    Check("./try has the errors of the program and no other", try_has_errors_of_program),
]
