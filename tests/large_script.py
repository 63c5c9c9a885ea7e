"""Writes a large script and the replies that it must get, worked out by plain lists.

    large_script.py SCRIPT REPLIES

The script goes past every round number at which a program may give up: more than 1,000 blank lines
in a row, more than 65,536 commands, lists of more than 1,000 names, lines past 4,096 bytes and of
65,536, tables and groups of more than 1,000 rows, replies of more than 1,000 rows; payloads of more than
65,536 records and of more than 1,000,000 bytes, texts of 65,535 bytes among them, loads into tables
that hold rows and into those that hold none, and more than 1,000 rows deleted.
"""
from example import Example


def names(count):
    return ", ".join(f"n{i}" for i in range(count))


def made():
    example = Example()
    example.create("s", [("id", "int"), ("city", "text"), ("g", "int")], ["id"])
    example.create("l", [("a", "int"), ("b", "text")])
    example.create("t", [("a", "text")])

    # Lines that aren't commands: many blank lines and comments in a row.
    for i in range(3000):
        example.say(" \t" * (i % 5), end="\n" if i % 2 else "\r\n")
    for i in range(2000):
        example.say(f"  -- comment {i}")
    example.say("--" + "x" * 200_000)

    # More than 65,536 commands, to tables of more than 1,000 rows and groups of more than 1,000.
    cities = ["Oslo", "Rome", None, "", "it's", 'say "Rome"', "a, b", "Åre"]
    for i in range(62_000):
        example.upsert("l", i % 7, cities[i % 8])
    for i in range(4000):
        example.upsert("s", i % 1500, cities[i * i % 8], None if i % 11 == 0 else -i % 300)
    example.group("l", ["a"])
    example.group("l", ["b"])
    example.group("l", ["b", "a"])

    # Replies of more than 100 and of more than 1,000 rows.
    example.group("s", ["g"])
    example.group("s", ["id"])
    example.group("s", ["city", "g", "id"])

    # Lists of more than 1,000 names and values, each refused for its own reason.
    example.say(f"group s by {names(1200)} show count(*)", "err 5 NoColumn")
    example.say(f"group s by {names(1200)}, n7 show count(*)", "err 1 Syntax")
    example.say(f"create k (a int, key ({names(1200)}))", "err 5 NoColumn")
    example.say(f"create w ({names(1200).replace(',', ' int,')} int)", "err 14 Limit")
    example.say(f"upsert s ({', '.join(['1'] * 5000)})", "err 6 TypeMismatch")
    example.say(f"upsert s ({', '.join(['x'] * 5000)})", "err 1 Syntax")
    wide = [f"n{i}" for i in range(128)]
    example.create("w", [(name, "int") for name in wide], wide[:20])
    example.upsert("w", *range(128))
    example.group("w", wide)

    # Lines past 4,096 bytes, up to the longest that is allowed and past it.
    for size in [4000, 4085, 4096, 5000, 8192, 20_000, 65_000]:
        example.upsert("t", "y" * size)
    example.upsert("t", "it's " * 10_000)
    longest = "x" * 65_524
    example.say(f"upsert t('{longest}')", "ok 1")
    example.tables["t"][3].append((longest,))
    example.say(f"upsert t('{longest}x')", "err 2 LineTooLong")
    example.say("x" * 300_000, "err 2 LineTooLong")
    example.group("t", ["a"])

    # Payloads of more than 65,536 records, into a table without rows and into one with many, with
    # columns in another order; of one key the last record stays.
    example.create("p", [("id", "int"), ("city", "text"), ("g", "int")], ["id"])
    rows = [(cities[i % 8], -i * 7919 % 90_000, i % 5) for i in range(100_000)]
    example.load("p", ["city", "id", "g"], rows)
    rows = [(i, None if i % 3 else i, cities[i % 7]) for i in range(80_000, 150_000)]
    example.load("p", ["id", "g", "city"], rows, end="\r\n")
    example.group("p", ["city"])
    for i in range(0, 3000, 2):
        example.delete("p", i)
        example.delete("p", i + 149_000)
    example.delete("p", 0)
    example.show("p")
    example.load("l", ["b", "a"], [(cities[i % 8], i % 3) for i in range(70_000)])
    example.show("l")
    example.create("q", [("a", "int"), ("b", "text"), ("c", "int")])
    example.load("q", ["b", "c", "a"], [(cities[i % 8], i, i % 9) for i in range(70_000)])
    example.upsert("q", 7, "Oslo", None)
    example.group("q", ["a", "b"])
    example.show("q")
    example.drop("q")
    example.load("t", ["a"], [("z" * size,) for size in [4096, 5000, 65_535] * 20])
    example.say("load p\nid,city,g\n" + "7,x,1\n" * 70_000 + "x,y,1\n\\.", "err 11 BadInt 70001")
    example.say("load t\na\n" + "z" * 65_536 + "\n\\.", "err 14 Limit")
    example.say("load zz\n" + "drop p\n" * 70_000 + "\\.", "err 3 NoTable")
    example.drop("l")
    example.show("p")

    # As many tables as there may be.
    for i in range(64 - len(example.tables)):
        example.create(f"t{i}", [("a", "int")])
    example.say("create more (a int)", "err 14 Limit")
    example.upsert("t7", 1)
    example.group("t7", ["a"])
    assert example.commands > 65_536
    return example


if __name__ == "__main__":
    made().write()
