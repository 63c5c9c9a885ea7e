"""Writes a script that takes each axis of a command to its maximum, or past 100,000 if that is more, and the replies that it must
get, worked out by plain lists.

    large_axes.py SCRIPT REPLIES

docs/ASSURANCE.md lists the axes. Each function below with an example covers some of them and drops its tables again, so that the
parts are made in processes of their own.
"""
import string
from concurrent.futures import ProcessPoolExecutor
from itertools import islice, product

from example import COUNT, Example, NoCase

MANY = 120_000
LONGEST_LINE = 65_536
LONGEST_TEXT = 65_535
LONGEST_NAME = 63
MOST_COLUMNS = 128
MOST_AGGREGATES = 16
MOST_TABLES = 64
GREATEST = 2**63 - 1


def fitting(front, item, back=""):
    """How often an item fits into a line between a prefix and a suffix."""
    return (LONGEST_LINE - len(front) - len(back)) // len(item)


def short_names(count):
    """Different names of at most four bytes."""
    letters = string.ascii_letters + "_"
    return ["".join(name) + "_" for name in islice(product(letters, repeat=3), count)]


def widest_lists(example):
    """Columns of a table, of a key, of `by`, of `on` and of `exists`: as many as a table has."""
    names = [f"c{i}" for i in range(MOST_COLUMNS)]
    rows = [tuple(i // 3 ** (j % 7) for j in range(MOST_COLUMNS)) for i in range(5000)]
    example.create("w", [(name, "int") for name in names], names[::-1])
    example.load("w", names, rows)
    example.load("w", names, [(*row[:-1], -1) for row in rows[:2000]])
    example.show("w")
    example.group("w", names, [("count distinct", "c0")])
    example.group("w", names[1:], [COUNT, ("sum", "c0")], match=(False, "w", names, names))
    example.group("w", names[:2], [COUNT], match=(True, "w", names, names[1:] + names[:1]))
    example.distinct("w", names[1:])
    for row in rows[:2500]:
        example.delete("w", *row[::-1])
    example.distinct("w", names)
    example.drop("w")


def longest_clauses(example):
    """Tests of `where` and of `having` and pairs of `exists`: as many as fit in a line."""
    example.create("a", [("a", "int"), ("b", "int")])
    example.load("a", ["a", "b"], [(i % 9 or None, i % 7) for i in range(100)])
    front = "group a by a show count(*) having "
    count = fitting(front, "a>0 and ")
    tests = [("a", ">", 0)] * (count // 2) + [("a", "<", 8)] * (count - count // 2)
    example.group("a", ["a"], [COUNT], where=tests)
    example.group("a", ["a"], [COUNT], where=[*tests[:-1], ("a", "<", 0)])
    example.group("a", ["a"], [COUNT], having=tests)
    example.distinct("a", ["a"], tests)
    pairs = fitting("group a by a show count(*) not exists a()=()", "a,a,a,a,") * 2
    example.group("a", [], [COUNT], match=(False, "a", ["a"] * pairs, ["b"] * pairs))
    example.group("a", ["a"], [COUNT], match=(True, "a", ["a"] * pairs, ["a", "b"] * (pairs // 2)))
    example.drop("a")


def longest_lists(example):
    """Names, values and aggregates that are refused: as many as fit in a line."""
    example.create("a", [("a", "int")])
    for front, back, reply in [
        ("group a by ", " show count(*)", "err 5 NoColumn"),
        ("distinct a on ", "", "err 5 NoColumn"),
        ("create b(a int,key(", "))", "err 5 NoColumn"),
    ]:
        names = short_names(fitting(front, "xxx_,", back))
        example.say(front + ",".join(names) + back, reply)
        example.say(front + ",".join([*names[1:], names[-1]]) + back, "err 1 Syntax")
    columns = short_names(fitting("create b()", "xxx_ int,"))
    example.say(f"create b({' int,'.join(columns)} int)", "err 14 Limit")
    values = ["7"] * fitting("upsert a()", "7,")
    example.say(f"upsert a({','.join(values)})", "err 6 TypeMismatch")
    shown = ["count(*)"] * fitting("group a show ", "count(*),")
    example.say(f"group a show {','.join(shown)}", "err 14 Limit")
    example.say("(" * LONGEST_LINE, "err 1 Syntax")
    example.say(f"upsert a({'7'.zfill(LONGEST_LINE - 10)})", "ok 1")
    example.put("a", (7,))
    example.show("a")
    example.drop("a")


def groups_and_pairs(example):
    """Rows, groups, pairs for `count(distinct ..)` and aggregates shown, each with all others."""
    columns = [("id", "int"), ("city", "text"), ("half", "int"), ("few", "int"), ("none", "int")]
    rows = [(i * 7919 % MANY, f"town {i % 50_021}", i // 2, i % 300, None) for i in range(MANY)]
    names = [name for name, _kind in columns]
    example.create("m", columns, ["id"])
    example.load("m", names, rows)
    distinct = [("count distinct", name) for name in names]
    least = [("min", name) for name in ("city", "few", "none")]
    example.group("m", ["id"], [COUNT, *distinct, ("min", "city"), ("max", "city")])
    example.group("m", ["city"], [COUNT, ("count", "none"), *distinct, ("sum", "id")])
    example.group("m", ["few"], distinct[:3] * 2 + distinct[3:])
    example.group("m", ["few"], distinct * 3 + distinct[:1], where=[("id", "<", 9000)])
    example.group("m", ["half"], [COUNT, *((word, "id") for word in ("count", "sum", "min", "max")), *least])
    example.group("m", ["half", "city"], [("sum", "few")], having=[("sum(few)", ">", 150)])
    example.group("m", [], [*distinct, COUNT, ("sum", "id"), ("max", "city")])
    example.group("m", ["none"], distinct, where=[("id", ">=", 0)] * 4)
    example.distinct("m", ["half", "few"])
    example.distinct("m", names, where=[("city", "<>", "town 7"), ("few", "is not null", None)])
    example.show("m")
    example.drop("m")


def matches(example):
    """Rows and distinct keys of the other table of an `exists`."""
    example.create("ours", [("a", "int"), ("b", "text")])
    example.create("theirs", [("x", "text"), ("y", "int"), ("z", "int")])
    ours = [(i % 11 and i, f"k{i % 70_001}" if i % 13 else None) for i in range(MANY)]
    theirs = [(f"k{i % 65_537}", i * 3, i % 7) for i in range(MANY)]
    example.load("ours", ["a", "b"], ours)
    example.load("theirs", ["x", "y", "z"], theirs)
    for negated in (False, True):
        for theirs, ours in [(["y"], ["a"]), (["x"], ["b"]), (["y", "x", "y"], ["a", "b", "a"])]:
            example.group("ours", [], [COUNT, ("sum", "a")], match=(negated, "theirs", theirs, ours))
    example.group("ours", ["a"], [COUNT], match=(True, "ours", ["b", "a"], ["b", "a"]))
    example.drop("theirs")
    example.drop("ours")


def close_keys(example):
    """Groups whose keys mostly lie close, in order: a few texts begin otherwise or are long, and a few numbers are far off."""
    names = ["path", "far", "near"]
    front = "https://example.com/items/"
    others = [None, "", front[:9], "~" * 40, front + "é", front + "0" * 30]
    example.create("k", [("path", "text"), ("far", "int"), ("near", "int")])
    paths = [front + str(i * 7919 % 60_013) if i % 997 else others[i // 997 % len(others)] for i in range(MANY)]
    far = [i % 1013 * 64 - 500 if i % 991 else (-1) ** i * (GREATEST - i % 5) for i in range(MANY)]
    example.load("k", names, [(path, number, i % 3 or None) for i, (path, number) in enumerate(zip(paths, far))])
    example.group("k", names, [COUNT])
    example.group("k", ["far", "path"], [("sum", "near")])
    example.group("k", ["near", "far"], [COUNT, ("min", "path"), ("max", "path")])
    example.group("k", ["near", "path", "far"], [("count distinct", "far")], rollup=True)
    example.distinct("k", ["path", "near"])
    example.drop("k")


def sums(example):
    """Sums that pass 64 bits many thousand times over, and one that does so in the last group."""
    example.create("s", [("g", "int"), ("n", "int")])
    halves = [GREATEST] * (MANY // 2) + [-GREATEST] * (MANY // 2)
    example.load("s", ["g", "n"], [(i % 2, n) for i, n in enumerate(halves)])
    example.group("s", ["g"], [("sum", "n"), ("min", "n"), ("max", "n")])
    example.group("s", [], [("sum", "n"), ("count distinct", "n")])
    example.load("s", ["g", "n"], [(i, i) for i in range(MANY)])
    example.group("s", ["g"], [("sum", "n")])
    example.say(f"upsert s({MANY - 1},{GREATEST})", "ok 1")
    example.say("group s by g show sum(n) having g<0", "err 13 SumRange")
    example.drop("s")


def extremes(example):
    """Texts that become the minimum and the maximum of a group, and of two groups, with each row."""
    names = ["g", "up", "down"]
    example.create("e", [("g", "int"), ("up", "text"), ("down", "text")])
    example.load("e", names, [(i % 2, f"t{i:06}", f"t{MANY - i:06}") for i in range(MANY)])
    example.group("e", [], [("max", "up"), ("min", "down"), ("min", "up"), ("max", "down")])
    example.group("e", ["g"], [("max", "up"), ("min", "down")])
    example.drop("e")


def in_case(word, bits):
    """A spelling of a word: a small letter if its bit is set, the highest bit for the first letter."""
    letters = zip(word, reversed(range(len(word))))
    return NoCase("".join(letter.lower() if bits >> i & 1 else letter.upper() for letter, i in letters))


def spellings(example):
    """Texts without case: groups by their folds, spellings of a group, columns that are shown by their minimum."""
    names = ["n", "town", "word"]
    towns = [in_case(f"town {i * 7919 % MANY // 2}", i) for i in range(MANY)]
    words = [in_case("abcdefghijklmnopq", MANY - i) for i in range(MANY)]
    rows = list(zip(range(MANY), towns, words))
    example.create("c", [("n", "int"), ("town", "text nocase"), ("word", "text nocase")], ["town", "n"])
    example.load("c", names, rows)
    example.load("c", names, [(n, NoCase(town.swapcase()), word) for n, town, word in rows[::2]])
    example.group("c", ["town"], [COUNT, ("max", "word"), ("count distinct", "word")])
    example.group("c", ["word"], [COUNT, ("max", "word"), ("count distinct", "town")])
    example.group("c", [], [("min", "word")], match=(False, "c", ["word", "town"], ["word", "town"]))
    example.distinct("c", ["word", "town"], where=[("word", "<=", "ABCDEFGHIJKLMNOPQ")])
    example.show("c")
    example.drop("c")
    wide = [f"c{i}" for i in range(MOST_COLUMNS)]
    rows = [[in_case("kind", i // 3 ** (j % 4) % 16) for j in range(MOST_COLUMNS - 1)] for i in range(500)]
    rows = [(*row, in_case(f"last {i % 50}", i // 50)) for i, row in enumerate(rows)]
    example.create("w", [(name, "text nocase") for name in wide])
    example.load("w", wide, rows)
    example.group("w", wide, [COUNT, *[("min", "c0"), ("max", wide[-1]), ("count distinct", wide[-1])] * 5])
    example.distinct("w", wide[::-1])
    example.show("w")
    example.drop("w")


def rollups(example):
    """Levels of a rollup, one more than a table has columns; rows of a level; what is shown of each."""
    names = [f"c{i}" for i in range(MOST_COLUMNS)]
    rows = [tuple(i // 3 ** (j % 5) % 3 or None for j in range(MOST_COLUMNS)) for i in range(60)]
    example.create("w", [(name, "int") for name in names])
    example.load("w", names, rows)
    example.group("w", names, [COUNT, ("sum", "c0")], rollup=True)
    example.group("w", names[::-1], [("count distinct", "c4")], having=[("c0", "is null", None)], rollup=True)
    example.drop("w")
    example.create("m", [("few", "int"), ("half", "int"), ("city", "text nocase")])
    rows = [(i * 7919 % 300, i // 2, NoCase(f"{'Tt'[i % 2]}own {i % 50_021}")) for i in range(MANY)]
    example.load("m", ["few", "half", "city"], rows)
    example.group("m", ["few", "half"], [COUNT, ("sum", "half"), ("count distinct", "city")], rollup=True)
    example.group("m", ["city"], [COUNT, ("max", "city")], having=[("count(*)", ">", 2)], rollup=True)
    shown = [("min", "half"), ("max", "city"), ("count distinct", "half"), ("sum", "half")] * (MOST_AGGREGATES // 4)
    example.group("m", ["few", "city"], shown, where=[("half", "<", 3000)], rollup=True)
    example.drop("m")


def longest_texts(example):
    """Bytes of a text, a key, a record of a run, a field and a line of an answer."""
    columns = 32
    names = [f"t{i}" for i in range(columns)]
    text, quotes = "x" * (LONGEST_TEXT - 1), '"' * LONGEST_TEXT
    rows = [(*[text + "y"] * (columns - 1), text + end) for end in "ab"]
    rows += [tuple([quotes] * columns), tuple([text] * columns)]
    example.create("l", [(name, "text") for name in names], names)
    example.load("l", names, rows)
    example.load("l", names, rows[:2])
    example.group("l", names, [COUNT])
    example.group("l", names[:2], [("min", "t31"), ("max", "t0"), ("count distinct", "t31")])
    example.distinct("l", names[1:])
    example.show("l")
    example.drop("l")
    example.create("l", [("a", "text"), ("b", "int")])
    rows = [("z" * (LONGEST_TEXT - 4) + f"{i % 40:04}", i) for i in range(160)]
    example.load("l", ["a", "b"], rows)
    example.group("l", ["a"], [("min", "b"), ("max", "a")], match=(False, "l", ["a"], ["a"]))
    example.drop("l")


def longest_names(example):
    """Bytes of a name, of a table and of columns, and of a payload's header and an answer's."""
    names = ['"' * (LONGEST_NAME - 2) + f"{i:02x}" for i in range(MOST_COLUMNS)]
    table = "é" * (LONGEST_NAME // 2) + "t"
    example.create(table, [(name, "int") for name in names], names)
    example.upsert(table, *range(MOST_COLUMNS))
    example.load(table, names, [[7] * MOST_COLUMNS])
    example.group(table, names, [("count distinct", name) for name in names[:MOST_AGGREGATES]])
    example.distinct(table, names)
    example.show(table)
    example.drop(table)
    example.create("n" * LONGEST_NAME, [("a", "int")])
    example.drop("n" * LONGEST_NAME)
    example.say(f"create {'n' * (LONGEST_NAME + 1)}(a int)", "err 14 Limit")


def payloads(example):
    """Rows put and replaced, fields, records and lines of payloads, and the numbers of faults."""
    example.create("p", [("id", "int"), ("b", "text")], ["id"])
    example.load("p", ["id", "b"], [(7, str(i)) for i in range(MANY)])
    example.load("p", ["b", "id"], [(None, i * 3) for i in range(MANY)])
    example.load("p", ["id", "b"], [(i * 2, "two") for i in range(MANY)], end="\r\n")
    example.group("p", ["b"], [COUNT, ("sum", "id")])
    blank = "\n" * MANY
    spaced = " " * 1_000_000 + "7" + " " * 1_000_000
    example.say(f"load p\nid,b\n{blank}{spaced},seven\n{'8'.zfill(1_000_000)},eight\n{blank}\\.", "ok 2")
    example.put("p", (7, "seven"))
    example.put("p", (8, "eight"))
    example.group("p", ["b"], [COUNT], where=[("id", "<", 9)])
    lines = "1,a\n" * MANY
    for fault, reply in [
        (",a", f"8 NullKey {MANY + 1}"),
        ("1,a" + ",a" * MANY, f"10 FieldCount {MANY + 1}"),
        ("x" * 1_000_000 + ",a", f"11 BadInt {MANY + 1}"),
        ("1," + "a" * (LONGEST_TEXT + 1), "14 Limit"),
    ]:
        example.say(f"load p\nid,b\n{lines}{fault}\n\\.", f"err {reply}")
    example.say(f"load p\nid{',b' * MANY}\n1,a\n\\.", "err 9 Header")
    for i in range(MANY):
        example.delete("p", i)
    example.group("p", [], [COUNT, ("sum", "id")])
    example.drop("p")


def tables_at_once(example):
    """Tables at once, each with more than 1,000 rows."""
    for i in range(MOST_TABLES):
        example.create(f"t{i}", [("a", "int"), ("b", "int")], ["a"])
        example.load(f"t{i}", ["a", "b"], [(j, i) for j in range(2000)])
    example.say("create t64(a int)", "err 14 Limit")
    for i in range(MOST_TABLES):
        example.group(f"t{i}", ["b"], [("sum", "a")], match=(False, f"t{63 - i}", ["a"], ["b"]))
    for i in range(MOST_TABLES):
        example.drop(f"t{i}")


def replies(example):
    """Replies of each kind, blank lines and comments."""
    example.say("\n" * MANY + "-- comment\n" * MANY + "--" + "-" * 1_000_000)
    for _ in range(MANY):
        example.say("create r(a int,key(a))", "ok 0")
        example.say("drop r", "ok 0")
    example.create("r", [("a", "int")], ["a"])
    for _ in range(MANY):
        example.say("upsert r(5)", "ok 1")
        example.say("group r show sum(a)", "ok 1", "sum(a)", "5")
        example.say("distinct r on a", "ok 1", "a", "5")
        example.say("show r", "ok 1", "a", "5")
        example.say("load r\na\n5\n\\.", "ok 1")
        example.say("delete r(4)", "ok 0")
        example.say("delete r", "err 1 Syntax")
    example.put("r", (5,))
    example.show("r")
    example.drop("r")


# Each part takes some of the axes.
PARTS = (
    widest_lists,
    longest_clauses,
    longest_lists,
    groups_and_pairs,
    matches,
    close_keys,
    sums,
    extremes,
    spellings,
    rollups,
    longest_texts,
    longest_names,
    payloads,
    tables_at_once,
    replies,
)


def made_by(part):
    """The example of a part, which has dropped its tables."""
    example = Example()
    part(example)
    assert not example.tables, part.__name__
    return example


def made():
    """The examples of all parts in one, made side by side."""
    whole = Example()
    with ProcessPoolExecutor() as pool:
        for example in pool.map(made_by, PARTS):
            whole.script += example.script
            whole.replies += example.replies
            whole.commands += example.commands
    return whole


if __name__ == "__main__":
    made().write()
