"""Compares answers of many rows with those of the `csv` module: texts, a few of which need quotes, and numbers of each length.

    quotes.py GROUPSH

Each script loads rows into a table of one to three columns, and shows them, once as a reply and once as CSV records alone.
Sixty-four rows are written at a time, so answers have up to some thousand rows: some blocks of sixty-four have rows that need
quotes, and others don't. Records are written through a buffer of 16,384 bytes, so a few texts are that long. The last line counts
the answers; the status is 0 if each is as the module writes it.
"""
import csv
import io
import itertools
import random
import subprocess
import sys

COLUMNS = (("text",), ("int",), ("text", "int"), ("int", "text", "text"))
ROWS = (1, 2, 63, 64, 65, 128, 1_000, 3_000)
# One of how many texts may have bytes that need quotes; None for no such text.
RARITIES = (None, 1, 50, 1_000)
# One of how many texts is long.
LONG = 300
LENGTHS, LONG_LENGTHS = (1, 2, 8, 15, 22, 23, 200), (16_383, 16_384, 16_385, 40_000)
PLAIN = "abcdefghij ABC 0123456789.-äé"
MARKED = 'a,"\nb '
EDGES = [0, 9, 10, 99, 100, 999, 1_000, 1_001, 1_010, 1_100, 99_999, 100_000, 999_999, 1_000_000, -1, -1_000, 2**63 - 1, -(2**63)]


def text(chance, rarity):
    """A text, mostly short enough to be stored in its value. One with bytes that need quotes may also be empty."""
    is_long = chance.randrange(LONG) == 0
    if rarity and chance.randrange(rarity) == 0:
        return "".join(chance.choices(MARKED, k=chance.choice(LONG_LENGTHS) // 2 if is_long else chance.randrange(10)))
    return "".join(chance.choices(PLAIN, k=chance.choice(LONG_LENGTHS if is_long else LENGTHS)))


def number(chance):
    """A number of any length, or null."""
    if chance.randrange(20) == 0:
        return None
    if chance.randrange(2) == 0:
        return chance.choice(EDGES)
    digits = chance.randrange(1, 19)
    return chance.randrange(10 ** (digits - 1), 10**digits) * chance.choice((1, 1, -1))


def place(row):
    """A row's sort key: null, numbers, texts by their bytes."""
    return [(0,) if value is None else (1, value) if isinstance(value, int) else (2, value.encode()) for value in row]


def written(header, rows):
    """Rows as the module writes them."""
    file = io.StringIO()
    writer = csv.writer(file, lineterminator="\n")
    writer.writerow(header)
    writer.writerows(["\\N" if value is None else value for value in row] for row in rows)
    return file.getvalue()


def main(program):
    chance, tried, wrong = random.Random(21), 0, 0
    for kinds, count, rarity in itertools.product(COLUMNS, ROWS, RARITIES):
        header = [f"c{n}" for n in range(len(kinds))]
        rows = [[text(chance, rarity) if kind == "text" else number(chance) for kind in kinds] for _ in range(count)]
        columns = ", ".join(f"{name} {kind}" for name, kind in zip(header, kinds))
        script = f"create s ({columns})\nload s\n{written(header, rows)}\\.\nshow s\n"
        shown = written(header, sorted(rows, key=place))
        for options, due in ((), f"ok 0\nok {count}\nok {count}\n{shown}"), (("-o", "csv"), shown):
            run = subprocess.run([program, *options], input=script.encode(), stdout=subprocess.PIPE, timeout=60, check=False)
            tried += 1
            if run.stdout.decode() != due:
                wrong += 1
                print(f"{count} rows of {columns}, quotes in one of {rarity}, {options}: not as the module writes them")
    print(f"{tried} answers, {wrong} wrong")
    return wrong != 0


if __name__ == "__main__":
    sys.exit(main(*sys.argv[1:]))
