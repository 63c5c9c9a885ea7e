"""Scripts from a file, the standard input and a pipe, and the seed that no reply depends on: status 0 or 1."""

from case import Case
from samples import FILES, FIRST, FIRST_REPLIES, OTHER, REFUSED, REFUSED_REPLIES

SUBJECT = "scripts"


def of_seed(seed: str) -> list[Case]:
    return [
        Case(f"the seed {seed}", ["--seed", seed, "first"], OTHER, stdout=FIRST_REPLIES, files=FILES),
        Case(f"the seed {seed} behind a script", ["first", f"--seed={seed}"], OTHER, stdout=FIRST_REPLIES, files=FILES),
        Case(f"the seed {seed} and the standard input", [f"--seed={seed}"], REFUSED, 1, REFUSED_REPLIES),
    ]


def of_random_seed(words: list[str]) -> list[Case]:
    name = " ".join(words)
    return [
        Case(name, [*words, "first"], OTHER, stdout=FIRST_REPLIES, files=FILES),
        Case(f"{name} behind a script", ["first", *words], OTHER, stdout=FIRST_REPLIES, files=FILES),
        Case(f"{name} and the standard input", words, REFUSED, 1, REFUSED_REPLIES),
    ]


CASES = [
    Case("an empty script", stdin=""),
    Case("an empty file", ["empty"], OTHER, files=FILES),
    Case("a device without bytes"),
    Case("a script from the standard input", stdin=FIRST, stdout=FIRST_REPLIES),
    Case("a script from a file", ["first"], stdout=FIRST_REPLIES, files=FILES),
    Case("a file, and not the standard input", ["first"], OTHER, stdout=FIRST_REPLIES, files=FILES),
    Case("a file, without a standard input", ["first"], stdout=FIRST_REPLIES, files=FILES, shell='"$@" <&-'),
    Case("refusals in the standard input", stdin=REFUSED, status=1, stdout=REFUSED_REPLIES),
    Case("refusals in a file", ["refused"], status=1, stdout=REFUSED_REPLIES, files=FILES),
    *[case for seed in ("0", "7", "+7", "18446744073709551615") for case in of_seed(seed)],
    *of_random_seed(["--seed", "random"]),
    *of_random_seed(["--seed=random"]),
    Case("each run begins without tables", stdin="upsert s (1, 'Oslo')\n", status=1, stdout="err 3 NoTable\n"),
    Case("a script from a pipe", stdout=FIRST_REPLIES, files=FILES, shell='cat first | "$@"'),
    Case("a script byte by byte", stdout=FIRST_REPLIES, files=FILES, shell='dd if=first bs=1 status=none | "$@"'),
    Case("a pipe named as a file", ["/dev/stdin"], stdout=FIRST_REPLIES, files=FILES, shell='cat first | "$@"'),
    Case("a name of two words", ["two words"], OTHER, stdout=FIRST_REPLIES, files={"two words": FIRST}),
    Case("a file named -", ["-"], OTHER, stdout=FIRST_REPLIES, files={"-": FIRST}),
    Case("a file named - behind --", ["--", "-"], OTHER, stdout=FIRST_REPLIES, files={"-": FIRST}),
    Case("a file named --help", ["--", "--help"], OTHER, stdout=FIRST_REPLIES, files={"--help": FIRST}),
    Case("a file named -V", ["--", "-V"], OTHER, stdout=FIRST_REPLIES, files={"-V": FIRST}),
    Case("no file named missing", ["missing"], FIRST, 3, stderr="groupsh: cannot open script\n"),
    Case("no file named -", ["-"], FIRST, 3, stderr="groupsh: cannot open script\n"),
]
