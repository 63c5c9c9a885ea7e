"""Groups tables with groupsh and other programs, and prints what each takes, one line for each shape of table.

    bench.py GROUPSH [--markdown] [ROWS]

A table has a row number, a key, and a number from 0 to 999. Few (a hundred), many (a tenth) or all of the keys are distinct, or a
fifth of them, for which groupsh keeps 10,000 groups at once; they are numbers, or texts of 8 to 16 letters. Each program reads the
same CSV file, computes count, sum, minimum and maximum for each key, and writes its answer in the order of the keys. "load" is
groupsh reading the file alone. The programs take turns, three rounds; the best processor time counts, with its maximum memory.
Answers are compared, and if one differs from that of groupsh, the status is 1. With --markdown the lines are a table, as in
docs/SPEED.md.
"""

import filecmp
import os
import random
import shutil
import subprocess
import sys
import tempfile

ROUNDS = 3
QUERY = "count(*), sum(x), min(x), max(x)"
# As `./groupsh` sets it.
LARGE_PAGES = ["env", "GLIBC_TUNABLES=glibc.malloc.hugetlb=1"]


def text_of(number):
    """A text of 8 to 16 letters, another for each number."""
    digits = "".join(chr(ord("a") + int(digit)) for digit in str(number))
    return digits + "y" + "stationer"[: 6 + number % 4]


def shapes(rows):
    """The name of each shape, the key of a row by its number, and how many groups groupsh keeps at once."""
    sizes = (("few", min(100, rows), None), ("many", max(1, rows // 10), None), ("fifth", max(1, rows // 5), 10_000), ("all", rows, None))
    for name, keys, budget in sizes:
        place = lambda n, keys=keys: (n * 2654435761 + 12345) % keys
        yield f"{name} numbers", "int", lambda n, place=place: str(place(n)), budget
        yield f"{name} texts", "text", lambda n, place=place: text_of(place(n)), budget


def write_rows(path, rows, key):
    """The rows of a shape as a CSV file."""
    chance = random.Random(1)
    with open(path, "w") as file:
        file.write("id,city,x\n")
        for n in range(rows):
            file.write(f"{n},{key(n)},{chance.randrange(1000)}\n")


def script_of(folder, name, kind, query):
    """A script that loads the rows, and asks the query."""
    script = os.path.join(folder, name)
    with open(script, "w") as file, open(os.path.join(folder, "rows.csv")) as table:
        file.write(f"create s (id int, city {kind}, x int)\nload s\n")
        shutil.copyfileobj(table, file)
        file.write(f"\\.\n{query}")
    return script


def groupsh(program, folder, kind, budget):
    script = script_of(folder, "script.gq", kind, f"group s by city show {QUERY}\n")
    return [*LARGE_PAGES, program, *(["--budget", str(budget)] if budget else []), script]


def load(program, folder, kind, budget):
    return [*LARGE_PAGES, program, script_of(folder, "load.gq", kind, "")]


def sqlite3(program, folder, kind, budget):
    script = os.path.join(folder, "script.sql")
    with open(script, "w") as file:
        file.write(f"create table s (id int, city {kind}, x int);\n.mode csv\n.import --skip 1 {folder}/rows.csv s\n")
        file.write(f"select city, {QUERY} from s group by city order by city;\n")
    return ["sh", "-c", f"{program} :memory: <{script}"]


def mawk(program, folder, kind, budget):
    text = (
        'NR > 1 { n = ++count[$2]; sum[$2] += $3; if (n == 1 || $3 < least[$2]) least[$2] = $3;'
        ' if (n == 1 || $3 > most[$2]) most[$2] = $3 }'
        ' END { for (k in count) printf "%s,%d,%d,%d,%d\\n", k, count[k], sum[k], least[k], most[k] }'
    )
    order = "-n" if kind == "int" else ""
    return ["sh", "-c", f"{program} -F, '{text}' {folder}/rows.csv | LC_ALL=C sort -t, -k1,1{order[1:]}"]


def keep_rows(name, output, kept):
    """Writes the rows of an answer to a file. Those of groupsh follow four lines of replies, and sqlite3 quotes texts with spaces.
    Other programs do that, since this one's memory would count as that of the programs that it starts."""
    first = 5 if name == "groupsh" else 1
    subprocess.run(["sh", "-c", f"tail -n +{first} {output} | tr -d '\\r\"' >{kept}"], check=True)


def run(command, output):
    """Processor seconds and maximum memory, in MB, of a command and all that it starts."""
    with open(output, "wb") as file:
        child = subprocess.Popen(command, stdout=file, stdin=subprocess.DEVNULL)
        _, status, usage = os.wait4(child.pid, 0)
        child.returncode = os.waitstatus_to_exitcode(status)
    if child.returncode:
        sys.exit(f"bench: {command[0]} ended with status {child.returncode}")
    return usage.ru_utime + usage.ru_stime, usage.ru_maxrss / 1024


def row_of(cells, markdown, width=14):
    """A row of the report, whose first cell takes `width` places."""
    if markdown:
        return f"| {' | '.join(cells)} |"
    return f"{cells[0]:{width}}" + "".join(f"{cell:>18}" for cell in cells[1:])


def measured(seconds, memory, markdown):
    """What a program took."""
    return f"{seconds:.2f}, {memory:.0f} MB" if markdown else f"{seconds:.2f} ({memory:5.0f})"


def main():
    options = sys.argv[2:]
    markdown = "--markdown" in options
    numbers = [option for option in options if option != "--markdown"]
    rows = int(numbers[0]) if numbers else 1_000_000
    programs = {"groupsh": (groupsh, sys.argv[1]), "load": (load, sys.argv[1])}
    for name, makes in (("sqlite3", sqlite3), ("mawk", mawk)):
        where = shutil.which(name)
        if where:
            programs[name] = (makes, where)
    print(f"{rows} rows; group by city: {QUERY}; processor seconds (and MB), the least of {ROUNDS} rounds")
    others = [name for name in programs if name not in ("groupsh", "load")]
    names = ["keys", *programs, *(f"{name}/groupsh" for name in others)]
    print(("\n" if markdown else "") + row_of(names, markdown))
    if markdown:
        print("|---" * len(names) + "|")
    differ = False
    for shape, kind, key, budget in shapes(rows):
        with tempfile.TemporaryDirectory() as folder:
            write_rows(os.path.join(folder, "rows.csv"), rows, key)
            commands = {name: makes(where, folder, kind, budget) for name, (makes, where) in programs.items()}
            least = {name: (float("inf"), 0.0) for name in programs}
            for _ in range(ROUNDS):
                for name, command in commands.items():
                    output = os.path.join(folder, "answer")
                    least[name] = min(least[name], run(command, output))
                    keep_rows(name, output, os.path.join(folder, name))
            cells = [measured(*taken, markdown) for taken in least.values()]
            ratios = [f"{least[name][0] / least['groupsh'][0]:.1f}" for name in others]
            print(row_of([shape, *cells, *ratios], markdown), flush=True)
            for name in others:
                if not filecmp.cmp(os.path.join(folder, name), os.path.join(folder, "groupsh"), shallow=False):
                    print(f"the answer of {name} differs")
                    differ = True
    sys.exit(differ)


if __name__ == "__main__":
    main()
