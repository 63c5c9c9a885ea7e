"""The packages: in an empty folder, without the toolchain in the PATH, their programs run README's examples."""

import re
import tempfile
from pathlib import Path

import pages
from case import ROOT, Check, Contains, Outcome, judge, need, once, path_without, run
from cases.command_lines import version

SUBJECT = "packages"
NUMBER = version().split()[1]
ARCHIVE = f"groupsh-{NUMBER}-x86_64"
ARCHIVE_FILE = f"{ARCHIVE}.tar.gz"
DEBIAN_FILE = f"groupsh_{NUMBER}_amd64.deb"
SHARED_FILES = (
    "bin/groupsh",
    "share/bash-completion/completions/groupsh",
    "share/doc/groupsh/COOKBOOK.md",
    "share/doc/groupsh/LANGUAGE.md",
)
ARCHIVE_FILES = {*SHARED_FILES, "share/man/man1/groupsh.1", "README", "SHA256SUMS"}
DEBIAN_FILES = {*SHARED_FILES, "share/man/man1/groupsh.1.gz", "share/doc/groupsh/SHA256SUMS"}


@once
def made(_time: int) -> tuple[Outcome, Path]:
    """The packages, made for the first or the second time, in a folder of their own."""
    need("dpkg-deb", "objdump")
    folder = Path(tempfile.mkdtemp())
    return run(["./package", folder]), folder


@once
def archive() -> Path:
    """The unpacked archive."""
    folder = Path(tempfile.mkdtemp())
    judge(run(["tar", "-xzf", made(1)[1] / ARCHIVE_FILE, "-C", folder]), 0)
    return folder / ARCHIVE


@once
def debian() -> Path:
    """The unpacked Debian package."""
    folder = Path(tempfile.mkdtemp())
    judge(run(["dpkg-deb", "--extract", made(1)[1] / DEBIAN_FILE, folder]), 0)
    return folder / "usr"


def are_made() -> None:
    outcome, folder = made(1)
    judge(outcome, 0, Contains(DEBIAN_FILE))
    assert {path.name for path in folder.iterdir()} == {ARCHIVE_FILE, DEBIAN_FILE, "SHA256SUMS"}


def have_same_bytes() -> None:
    for name in (ARCHIVE_FILE, DEBIAN_FILE):
        assert (made(1)[1] / name).read_bytes() == (made(2)[1] / name).read_bytes(), name


def files_of(folder: Path) -> set[str]:
    return {str(path.relative_to(folder)) for path in folder.rglob("*") if path.is_file()}


def files_of_archive() -> None:
    assert files_of(archive()) == ARCHIVE_FILES


def files_of_debian() -> None:
    assert files_of(debian()) == DEBIAN_FILES


def checksums_of_archive() -> None:
    judge(run(["sha256sum", "--quiet", "-c", "SHA256SUMS"], folder=archive()), 0)


def checksums_of_debian() -> None:
    sums = debian() / "share/doc/groupsh/SHA256SUMS"
    judge(run(["sha256sum", "--quiet", "-c", sums], folder=debian().parent), 0)


def run_examples(program: Path) -> None:
    blocks = [block for part in pages.parts(ROOT, "README.md") for block in part.values() if block.kind == "sh"]
    assert blocks
    with tempfile.TemporaryDirectory() as name:
        folder = Path(name)
        (folder / "groupsh").symlink_to(program)
        (folder / "examples").symlink_to(ROOT / "examples")
        for block in blocks:
            judge(run(["bash", "-c", block.text], folder=folder, env={"PATH": path_without("rt")}), 0, block.shown or "")


def examples_of_archive() -> None:
    run_examples(archive() / "bin/groupsh")


def examples_of_debian() -> None:
    run_examples(debian() / "bin/groupsh")


def run_without_path(program: Path) -> None:
    """Neither another program nor the environment is needed."""
    with tempfile.TemporaryDirectory() as folder:
        judge(run(["env", "-i", program, "--version"], folder=Path(folder)), 0, version())


def depends_on_c_library_alone() -> None:
    needed = re.findall(r"NEEDED +(\S+)", run(["objdump", "-p", debian() / "bin/groupsh"]).stdout.decode())
    assert set(needed) <= {"libc.so.6", "libm.so.6", "ld-linux-x86-64.so.2"}, needed
    depends = run(["dpkg-deb", "--field", made(1)[1] / DEBIAN_FILE, "Depends"]).stdout.decode()
    assert re.fullmatch(r"libc6 \(>= [0-9.]+\)\n", depends), depends


def asks_for_processor() -> None:
    judge(run(["dpkg-deb", "--field", made(1)[1] / DEBIAN_FILE, "Description"]), 0, Contains("x86-64-v2"))
    assert "x86-64-v2" in (archive() / "README").read_text()


CASES = [
    Check("the packages are made", are_made),
    Check("the packages of one commit have the same bytes", have_same_bytes),
    Check("the files of the archive", files_of_archive),
    Check("the files of the Debian package", files_of_debian),
    Check("the checksums of the archive", checksums_of_archive),
    Check("the checksums of the Debian package", checksums_of_debian),
    Check("README's examples by the archive", examples_of_archive),
    Check("README's examples by the Debian package", examples_of_debian),
    Check("the program of the archive without a PATH", lambda: run_without_path(archive() / "bin/groupsh")),
    Check("the program of the Debian package without a PATH", lambda: run_without_path(debian() / "bin/groupsh")),
    Check("the Debian package depends on the C library alone", depends_on_c_library_alone),
    Check("the packages ask for an x86-64-v2 processor", asks_for_processor),
]
