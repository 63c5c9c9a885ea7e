"""Tries the tables of docs/LANGUAGE.md: each mistake gets the reply of its line, and each condition keeps the rows of its line.

    language_page.py GROUPSH PAGE

The part "Mistakes by example" has a fenced script, and a table of lines, their replies and right lines. Each line is tried after
the script, and `--check` must report it exactly if its refusal needs no table. The part "Tests" has a script that makes a table
`r`, and a table of conditions and the values of `n` that they keep. The last line counts; the status is 0 if all are as the page
says.
"""
import re
import subprocess
import sys

# Refusals that need no table.
READING = {"err 1 Syntax", "err 2 LineTooLong", "err 14 Limit", "err 18 LoadOpen"}


def part_of(page, heading):
    """The text under a heading, and the lines of its first script."""
    part = re.search(rf"^### {heading}\n(.*?)^##", page, re.M | re.S).group(1)
    return part, re.search(r"^```gq\n(.*?)^```$", part, re.M | re.S).group(1)


def lines_of(words, script):
    """The lines that a process prints of a script from standard input."""
    run = subprocess.run(words, input=script.encode(), stdout=subprocess.PIPE, timeout=60, check=False)
    return run.stdout.decode().splitlines()


def mistakes(program, page):
    """How many mistakes there are, and what is wrong with them."""
    part, script = part_of(page, "Mistakes by example")
    rows = re.findall(r"^\| `(.*?)` \| `(err .*?)` \| `(.*?)` \|$", part, re.M)
    before, wrong = script.count("\n"), []
    for line, refusal, meant in rows:
        told = [before + 1] if refusal in READING else []
        for tried, reports, is_right in (
            (line, told, lambda reply, refusal=refusal: reply == refusal),
            (meant, [], lambda reply: reply.startswith("ok ")),
        ):
            text = script + tried.replace("⏎", "\n") + "\n"
            found = [int(report.split(":")[1]) for report in lines_of([program, "--check"], text)]
            if found != reports:
                wrong.append(f"{tried!r} is reported at {found}")
            reply = lines_of([program], text)[before]
            if not is_right(reply):
                wrong.append(f"{tried!r} is answered {reply!r}")
    if not rows or len(rows) != sum(line.startswith("| `") for line in part.splitlines()):
        wrong.append("a line of the table of mistakes has another form")
    return len(rows), wrong


def conditions(program, page):
    """How many conditions there are, and what is wrong with them."""
    part, script = part_of(page, "Tests")
    table = part.partition("| `where` | keeps |\n")[2].partition("\n\n")[0]
    rows = re.findall(r"^\| `(.*?)` \| (.*?) \|$", table, re.M)
    before, wrong = script.count("\n"), []
    for condition, kept in rows:
        numbers = re.findall(r"\d+", kept.partition(":")[0])
        found = lines_of([program], f"{script}distinct r on n where {condition}\n")[before:]
        if found != [f"ok {len(numbers)}", "n", *numbers]:
            wrong.append(f"{condition!r} is answered {found}")
    if not rows or len(rows) != table.count("\n"):
        wrong.append("a line of the table of conditions has another form")
    return len(rows), wrong


def main(program, path):
    with open(path, encoding="utf-8") as file:
        page = file.read()
    tried, wrong = zip(mistakes(program, page), conditions(program, page))
    wrong = sum(wrong, [])
    print(*wrong, f"{tried[0]} mistakes, {tried[1]} conditions, {len(wrong)} wrong", sep="\n")
    return 1 if wrong else 0


if __name__ == "__main__":
    sys.exit(main(*sys.argv[1:]))
