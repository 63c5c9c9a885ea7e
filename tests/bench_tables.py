"""Makes Markdown tables of what the benchmarks of the map and of the engine print.

    bench_tables.py <OUTPUT

A line of theirs has a number of keys or rows, a shape, a work and its time, and for the map also the time of the toolchain's own map
and their ratio. A table has a line for each number and shape, and a column for each work. Other lines go to standard error.
"""
import re
import sys
from itertools import groupby

# The widths of a line's first three fields, by the title of the second one.
WIDTHS = {"hash": (9, 12, 15), "keys": (8, 13, 22)}


def read(lines):
    """Of each line the titles of its first two fields, these fields, its work, and its time or both times."""
    titles, form = (), None
    for line in lines:
        if heading := re.match(r" +(keys|rows)  (hash|keys) ", line):
            titles = heading.groups()
            number, shape, work = WIDTHS[heading[2]]
            form = re.compile(rf"(.{{{number}}})  (.{{{shape}}})  (.{{{work}}}) +(\d+\.\d)(?: +(\d+\.\d) +\d+\.\d\d)?")
        elif found := form and form.match(line):
            number, shape, work, *times = [field.strip() for field in found.groups() if field]
            yield titles, f"{int(number):,}", shape, work, " / ".join(times)
        else:
            print(line, file=sys.stderr)


def main():
    blocks = [(key, list(lines)) for key, lines in groupby(read(sys.stdin.read().splitlines()), key=lambda line: line[:3])]
    for titles, table in groupby(blocks, key=lambda block: [*block[0][0], *(line[3] for line in block[1])]):
        print(f"\n| {' | '.join(titles)} |", "|---" * len(titles) + "|", sep="\n")
        for (_, number, shape), lines in table:
            print(f"| {' | '.join([number, shape, *(time for *_, time in lines)])} |")


main()
