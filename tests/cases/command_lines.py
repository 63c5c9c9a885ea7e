"""Help, the version, and command lines that are refused, for which no script is run: status 0, 0 and 2."""

import re
from collections.abc import Iterable

from case import PROGRAM, ROOT, Case, Check, Contains, Outcome, judge, once, run
from samples import FILES, FIRST_REPLIES, OTHER

SUBJECT = "command lines"
USAGE = Contains("Usage: groupsh")
MISTAKE = Contains("error: ")
TWICE = Contains("cannot be used multiple times")

# What `--help` shows, by the name of its case.
HELP = {
    "the seed": "--seed <N>",
    "the random seed": "or `random`; no reply depends on it",
    "the budget": "--budget <N>",
    "the folder": "--spill <DIR>",
    "the report": "--stats ",
    "the check": "--check ",
    "the version": "-V, --version ",
    "how to have it in the PATH": 'ln -s "$PWD/groupsh" ~/.local/bin/',
}
WRONG_SEEDS = ("x", "", "1.5", "0x7", "7 ", "18446744073709551616", "Random", "random ", "random1")


def refused(name: str, args: list[str], error: Contains) -> Case:
    """A command line that is refused."""
    return Case(name, args, status=2, stderr=error, files=FILES)


def of_help(word: str) -> Iterable[Case]:
    yield Case(word, [word], OTHER, stdout=USAGE)
    yield Case(f"{word} behind a script", ["other", word], stdout=USAGE, files=FILES)
    for what, text in HELP.items():
        yield Case(f"{word} shows {what}", [word], stdout=Contains(text))


@once
def help_text() -> str:
    return run([PROGRAM, "--help"]).stdout.decode()


def set_in(text: str, title: str) -> str:
    """The lines that are set in by two spaces in the paragraph of this title."""
    paragraph = text.partition(title)[2].partition("\n\n")[0]
    return "".join(f"{line[2:]}\n" for line in paragraph.splitlines() if line.startswith("  "))


def run_example_of_help() -> None:
    outcome = run([PROGRAM], stdin=set_in(help_text(), "\nExample script:"))
    last = b"".join(outcome.stdout.splitlines(keepends=True)[-4:])
    judge(Outcome(outcome.status, last, outcome.stderr), 0, set_in(help_text(), "\nIts last reply"))


@once
def version() -> str:
    """The line of `--version`, with the toolchain that README.md names."""
    toolchain = re.search(r"^Proved with: `(.*)`$", (ROOT / "README.md").read_text(), re.M)[1]
    return f"groupsh 0.1.0 ({toolchain})\n"


def of_version(word: str) -> Iterable[Case]:
    shown = version()
    yield Case(word, [word], OTHER, stdout=shown)
    yield Case(f"{word} behind a script", ["first", word], stdout=shown, files=FILES)
    yield Case(f"{word} before a script", [word, "first"], stdout=shown, files=FILES)
    yield Case(f"{word} behind options", ["--stats", "--seed=x", "--budget", "7", word], stdout=shown)
    yield Case(f"{word} before mistakes", [word, "--nonesuch", "--budget=0"], stdout=shown)
    yield Case(f"{word} before help", [word, "--help"], stdout=shown)
    yield Case(f"{word} behind help", ["--help", word], stdout=USAGE)
    yield Case(f"{word} behind a mistake", ["--nonesuch", word], status=2, stderr=MISTAKE)


def options(text: str) -> set[str]:
    """The options that a text names."""
    return set(re.findall(r"(?:^| )(--?[a-zA-Z]+)", text, re.M))


def options_of_help() -> set[str]:
    return options(help_text().partition("\nOptions:\n")[2].partition("\n\n")[0])


def completed(*words: str, word: int) -> list[str]:
    """What the completion offers at a word of a command line."""
    script = 'source docs/groupsh.bash; COMP_CWORD=$1; COMP_WORDS=("${@:2}"); _groupsh; printf "%s\\n" "${COMPREPLY[@]}"'
    return run(["bash", "-c", script, "bash", str(word), *words]).stdout.decode().splitlines()


def compare_options_of_manual() -> None:
    section = (ROOT / "docs/groupsh.1").read_text().partition("\n.SH OPTIONS")[2].partition("\n.SH EXIT")[0]
    lines = [line.replace(r"\-", "-") for line in section.splitlines() if r"\-" in line]
    assert options("\n".join(lines)) == options_of_help()


def compare_options_of_completion() -> None:
    assert options("\n".join(completed("groupsh", "-", word=1))) == options_of_help()


def complete_folders() -> None:
    assert "docs" in completed("groupsh", "--spill", "do", word=2)


def complete_random_seed() -> None:
    assert "random" in completed("groupsh", "--seed", "r", word=2)


def complete_behind_sign() -> None:
    assert completed("groupsh", "--seed", "=", "r", word=3) == ["random"]
    assert "docs" in completed("./groupsh", "--spill", "=", word=2)


def of_wrong_seed(seed: str) -> Iterable[Case]:
    error = Contains(f"error: invalid value '{seed}' for '--seed <N>'")
    yield refused(f"the seed '{seed}'", ["--seed", seed, "first"], error)
    yield refused(f"the seed '{seed}', joined", ["first", f"--seed={seed}"], error)


def of_wrong_budget(budget: str) -> Iterable[Case]:
    error = Contains("for '--budget <N>'")
    yield refused(f"the budget '{budget}'", ["--budget", budget, "first"], error)
    yield refused(f"the budget '{budget}', joined", ["first", f"--budget={budget}"], error)


def of_budget(budget: str) -> Iterable[Case]:
    args = ["--seed=7", "first", f"--budget={budget}"]
    yield Case(f"the budget {budget}", ["--budget", budget, "first"], OTHER, stdout=FIRST_REPLIES, files=FILES)
    yield Case(f"the budget {budget} and a seed", args, OTHER, stdout=FIRST_REPLIES, files=FILES)


def not_utf8(what: str, *args: bytes) -> Case:
    name = "words that are not UTF-8" + what
    return Case(name, args, status=2, stderr="error: the arguments are not UTF-8\n", files=FILES)


CASES = [
    *of_help("-h"),
    *of_help("--help"),
    Check("the example of the help", run_example_of_help),
    *of_version("-V"),
    *of_version("--version"),
    Case("--version=1", ["--version=1"], status=2, stderr=Contains("error: unexpected value '1' for '--version' found")),
    Check("the options of the manual page", compare_options_of_manual),
    Check("the options of the completion", compare_options_of_completion),
    Check("the folders of the completion", complete_folders),
    Check("the random seed of the completion", complete_random_seed),
    Check("what the completion offers behind a sign", complete_behind_sign),
    *[
        case
        for mistake in ("--nonesuch", "--nonesuch=7", "-x", "another script")
        for case in (
            refused(f"a script and {mistake}", ["first", mistake], USAGE),
            refused(f"a script and {mistake} tells a mistake", ["first", mistake], MISTAKE),
        )
    ],
    *[case for seed in WRONG_SEEDS for case in of_wrong_seed(seed)],
    refused("the seed -1", ["first", "--seed", "-1"], Contains("error: unexpected argument '-1' found")),
    refused("the seed -1, joined", ["--seed=-1", "first"], Contains("error: invalid value '-1'")),
    refused("--seed without a value", ["first", "--seed"], Contains("error: a value is required")),
    *[case for budget in ("0", "1048577", "x", "") for case in of_wrong_budget(budget)],
    *[case for budget in ("1", "7", "1048576") for case in of_budget(budget)],
    refused("--budget without a value", ["first", "--budget"], Contains("error: a value is required")),
    refused("two budgets", ["--budget", "7", "--budget=7", "first"], TWICE),
    *[
        refused(f"{mistake} without a value", mistake.split(), Contains("error: a value is required for '--spill <DIR>'"))
        for mistake in ("--spill", "--spill --stats", "--spill -- d")
    ],
    refused("the folder -x", ["first", "--spill", "-x"], Contains("error: unexpected argument '-x' found")),
    refused("two folders", ["--spill", "d", "--spill=d", "first"], TWICE),
    refused("two reports", ["--stats", "--stats", "first"], TWICE),
    refused("--stats=x", ["--stats=x", "first"], Contains("error: unexpected value 'x' for '--stats' found")),
    refused("two seeds", ["--seed", "7", "--seed", "7", "first"], TWICE),
    refused("two seeds, one random", ["--seed", "random", "--seed", "7", "first"], TWICE),
    not_utf8(", a byte", b"\xff"),
    not_utf8(", in a name", b"a\xff.gq"),
    not_utf8(", a surrogate", b"\xed\xa0\x80"),
    not_utf8(", behind a script", b"first", b"\xff"),
]
