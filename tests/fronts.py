"""Tries each prefix of right lines: with a stray sign after it `--check` reports the column of that sign.

    fronts.py GROUPSH PAGE

The lines are those of the page's fenced blocks that begin with a command's word and that `--check` doesn't report, and some that
are too long for a page. All prefixes are in one script, those that begin with `load` with the end of a payload after them. The
last line counts them; the status is 0 if each prefix is reported right.
"""
import re
import subprocess
import sys

COMMAND = re.compile(r"^(?:create|drop|load|upsert|delete|show|group|distinct) .*$", re.M)
BLOCK = re.compile(r"^```\w*\n(.*?)^```$", re.M | re.S)
PIECE = re.compile(r"""'(?:[^']|'')*'|"(?:[^"]|"")*"|[-+]?\w+|<>|<=|>=|\S""", re.A)

# Lists of an `exists` that are longer than a table has columns, and nearly the longest line.
NAMES = [f"c{i % 140}" for i in range(300)]
LONG = [
    f"group s show count(*) not exists t ({','.join(NAMES)}) = ({', '.join(NAMES)}) having count(*) > 1",
    f"upsert s (1, '{'x' * 65_400}', null)",
    f"group s by a show count(*) where {' and '.join(['a > 0'] * 6_500)}",
]
# How many prefixes of a long line are tried at its beginning, at its end, and between.
FEW = 4


def reports(program, lines):
    """The report of each of these lines, as a script: its column and its message."""
    script = "".join(line + ("\n\\.\n" if line.startswith("load") else "\n") for line in lines)
    run = subprocess.run([program, "--check"], input=script.encode(), stdout=subprocess.PIPE, timeout=300, check=False)
    numbers, number = {}, 1
    for index, line in enumerate(lines):
        numbers[number] = index
        number += 2 if line.startswith("load") else 1
    found = [None] * len(lines)
    for report in run.stdout.decode().splitlines():
        _name, number, column, message = report.split(":", 3)
        found[numbers[int(number)]] = int(column), message
    return found


def short(line):
    return line if len(line) < 200 else f"{line[:100]} .. {line[-100:]}"


def fronts(line):
    """The prefixes of a line, or some prefixes of a long one."""
    ends = [piece.end() for piece in PIECE.finditer(line)]
    step = max(1, len(ends) // FEW)
    return [line[:end] for end in ([*ends[:FEW], *ends[FEW:-FEW:step], *ends[-FEW:]] if step > 1 else ends)]


def main(program, path):
    with open(path, encoding="utf-8") as file:
        blocks = BLOCK.findall(file.read())
    found = list(dict.fromkeys(line for block in blocks for line in COMMAND.findall(block)))
    lines = [line for line, report in zip(found, reports(program, found)) if report is None] + LONG
    wrong = [f"{short(line)!r} is reported as {report}" for line, report in zip(LONG, reports(program, LONG)) if report]
    strays = [f"{front} ?" for line in lines for front in fronts(line)]
    for stray, report in zip(strays, reports(program, strays)):
        if report is None or report[0] != len(stray.encode()):
            wrong.append(f"{short(stray)!r} is reported as {report}")
    print(*wrong, f"{len(strays)} prefixes of {len(lines)} lines, {len(wrong)} wrong", sep="\n")
    return 1 if wrong or not strays else 0


if __name__ == "__main__":
    sys.exit(main(*sys.argv[1:]))
