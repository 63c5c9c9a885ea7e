"""Makes right and wrong lines by the grammar in docs/LANGUAGE.md, and checks that the program agrees.

    grammar.py GROUPSH PAGE

The rules are read from the page's block `ebnf`, and lines are made by them at random, from a fixed seed. In a copy of each line one
piece is removed, doubled, exchanged or replaced. `--check` must report exactly the lines that the rules don't make or the page's
other rules don't allow. The last line counts; the status is 0 if they agree.
"""
import random
import re
import subprocess
import sys
from functools import lru_cache

LINES = 3000
NAMES = ["a", "b", "Cc", "_", '"key"', '"a b"', '"a""b"', "level", "x9"]
INTS = ["0", "-7", "+7", "9223372036854775807", "-9223372036854775808"]
PAST = ["9223372036854775808", "-9223372036854775809", "00000000000000000000000000000000000000099999999999999999999"]
STRINGS = ["''", "'Oslo'", "'it''s'", "'é, ( \" --'"]
AGGREGATES = {"count", "sum", "min", "max"}


def read_rules(text):
    """The rules of a grammar, each as nested tuples: ("any", ..), ("all", ..), ("maybe", x), ("many", x), ("word", w), ("rule", r)."""
    rules = {}
    for name, body in re.findall(r"^(\w+) *= (.*?) ;$", text, re.M | re.S):
        pieces = re.findall(r'"[^"]+"|\w+|[\[\](){}|,]', body)
        rules[name], left = read_choice(pieces)
        if left:
            sys.exit(f"the rule {name} can't be read at {left}")
    return rules


def read_choice(pieces):
    choices, (one, pieces) = [], read_row(pieces)
    choices.append(one)
    while pieces and pieces[0] == "|":
        one, pieces = read_row(pieces[1:])
        choices.append(one)
    return ("any", *choices), pieces


def read_row(pieces):
    row = []
    while pieces and pieces[0] not in "|])}":
        one, pieces = read_one(pieces)
        row.append(one)
    return ("all", *row), pieces


def read_one(pieces):
    first, rest = pieces[0], pieces[1:]
    if first in "[{(":
        within, rest = read_choice(rest)
        return ({"[": ("maybe", within), "{": ("many", within), "(": within}[first], rest[1:])
    return (("word", first[1:-1]) if first[0] == '"' else ("rule", first), rest)


def made(rules, chance, part, depth=0):
    """Pieces that a part of a rule makes, at random."""
    kind, *inner = part
    if kind == "word":
        return [inner[0]]
    if kind == "rule" and inner[0] not in rules:
        return [chance.choice({"name": NAMES, "int": INTS, "string": STRINGS}[inner[0]])]
    if kind == "rule":
        return made(rules, chance, rules[inner[0]], depth + 1)
    if kind == "any":
        return made(rules, chance, chance.choice(inner), depth + 1)
    times = {"all": 1, "maybe": chance.randrange(2), "many": chance.choice([0, 0, 1, 2])}[kind]
    return [piece for _ in range(times) for one in inner for piece in made(rules, chance, one, depth + 1)]


def altered(chance, pieces, all_words):
    """The pieces with one thing altered."""
    at, other = chance.randrange(len(pieces)), chance.randrange(len(pieces))
    new = list(pieces)
    way = chance.randrange(4)
    if way == 0:
        del new[at]
    elif way == 1:
        new.insert(other, pieces[at])
    elif way == 2:
        new[at], new[other] = new[other], new[at]
    else:
        new[at] = chance.choice([*all_words, *NAMES, *INTS, *PAST, *STRINGS])
    return new


def is_made(rules, pieces):
    """Whether the rule of commands makes these pieces."""

    @lru_cache(None)
    def ends(part, at):
        kind, *inner = part
        if kind == "word":
            return {at + 1} if at < len(pieces) and pieces[at] == inner[0] else set()
        if kind == "rule" and inner[0] not in rules:
            return {at + 1} if at < len(pieces) and kind_of(pieces[at]) == inner[0] else set()
        if kind == "rule":
            return ends(rules[inner[0]], at)
        if kind == "any":
            return set().union(*(ends(one, at) for one in inner))
        if kind == "all":
            found = {at}
            for one in inner:
                found = set().union(*(ends(one, place) for place in found))
            return found
        found, new = {at}, ends(inner[0], at)
        while kind == "many" and not new <= found:
            found |= new
            new = set().union(*(ends(inner[0], place) for place in new))
        return found | new

    return len(pieces) in ends(("rule", "command"), 0)


def kind_of(piece):
    if piece in NAMES:
        return "name"
    if piece[0] == "'":
        return "string"
    return "int" if piece.lstrip("+-").isdigit() else "word"


def between(pieces, first, *ends):
    """The pieces after the first of a word, up to the first of others."""
    if first not in pieces:
        return []
    behind = pieces[pieces.index(first) + 1 :]
    return behind[: min((behind.index(end) for end in ends if end in behind), default=len(behind))]


def keeps_rules(pieces):
    """Whether a line that the grammar makes keeps the other rules."""
    names = lambda part: [piece.strip('"') for piece in part if kind_of(piece) == "name"]
    columns = names(piece for piece, kind in zip(pieces[2:], pieces[3:]) if kind in ("int", "text")) if pieces[0] == "create" else []
    lists = [columns, names(between(pieces, "key")), names(between(pieces, "by", "show")), names(between(pieces, "on", "where"))]
    theirs, ours = [names(part) for part in (between(pieces, "exists", "=")[1:], between(between(pieces, "exists", "having"), "="))]
    return (
        all(len(set(one)) == len(one) for one in lists)
        and not AGGREGATES & set(between(pieces, "where", "exists", "having"))
        and len(theirs) == len(ours)
        and all(-(2**63) <= int(piece) < 2**63 for piece in pieces if kind_of(piece) == "int")
    )


def spelled(chance, pieces):
    """The pieces as a line: keywords in any case, blanks where they are needed, and some elsewhere."""
    words = [piece if kind_of(piece) != "word" or chance.randrange(3) else piece.upper() for piece in pieces]
    line = words[0]
    for before, word in zip(words, words[1:]):
        tight = before in "(),*" or word in "(),*"
        line += (chance.choice(["", " ", "\t"]) if tight else " ") + word
    return line


def told(program, lines):
    """The numbers of the lines that `--check` reports."""
    script, numbers, number = "", {}, 1
    for index, line in enumerate(lines):
        numbers[number] = index
        payload = re.match(r"load\b", line, re.I)
        script += line + ("\n\\.\n" if payload else "\n")
        number += 2 if payload else 1
    run = subprocess.run([program, "--check"], input=script.encode(), stdout=subprocess.PIPE, timeout=300, check=False)
    return {numbers[int(report.split(":")[1])] for report in run.stdout.decode().splitlines()}


def main(program, path):
    with open(path, encoding="utf-8") as file:
        rules = read_rules(re.search(r"^```ebnf\n(.*?)^```$", file.read(), re.M | re.S).group(1))
    chance, tried = random.Random(22), []
    words = sorted({piece for _ in range(500) for piece in made(rules, chance, ("rule", "command"))} - {*NAMES, *INTS, *STRINGS})
    for _ in range(LINES):
        right = made(rules, chance, ("rule", "command"))
        tried += [one for one in (right, altered(chance, right, words)) if one]
    lines = [spelled(chance, pieces) for pieces in tried]
    found = told(program, lines)
    wanted = {index for index, pieces in enumerate(tried) if not (is_made(rules, tuple(pieces)) and keeps_rules(pieces))}
    wrong = sorted(found ^ wanted)
    for index in wrong[:20]:
        print(f"{lines[index]!r} is {'reported' if index in found else 'not reported'}")
    print(f"{len(lines)} lines, {len(wanted)} of them not commands, {len(wrong)} wrong")
    return 1 if wrong or not rules else 0


if __name__ == "__main__":
    sys.exit(main(*sys.argv[1:]))
