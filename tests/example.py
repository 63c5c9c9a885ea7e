"""A script and the replies that it must get, worked out by plain lists of rows."""
import csv
import operator
import sys
from io import StringIO

SIGNS = {
    "=": operator.eq,
    "<>": operator.ne,
    "<": operator.lt,
    "<=": operator.le,
    ">": operator.gt,
    ">=": operator.ge,
}

COUNT = ("count", "*")


class NoCase(str):
    """A text without case: the same as each other one with its fold, its bytes with A to Z as a to z."""

    __slots__ = ("fold",)

    def __init__(self, text):
        self.fold = text.encode().lower()

    def __eq__(self, other):
        return isinstance(other, NoCase) and self.fold == other.fold

    def __hash__(self):
        return hash(self.fold)


def cell(value):
    return "\\N" if value is None else str(value)


def literal(value):
    if value is None:
        return "null"
    if isinstance(value, int):
        return str(value)
    return "'" + value.replace("'", "''") + "'"


def order(value):
    """Null first, then numbers, then texts by their bytes, those without case by their folds."""
    if value is None:
        return (0, 0, b"")
    if type(value) is int:
        return (1, value, b"")
    return (2, 0, value.fold if type(value) is NoCase else value.encode())


def order_of_cells(row):
    """By all cells from the left, and if these are the same by the bytes of those without case."""
    spelled = [value.encode() for value in row if type(value) is NoCase]
    return [order(value) for value in row] + spelled


def order_of_spellings(text):
    return text.fold, text.encode()


def extreme(choose, values):
    """The minimum or maximum of numbers, of texts, whose characters are ordered as their bytes, or of texts without case;
    None of no values, and of nulls."""
    if not values or values[0] is None:
        return None
    return choose(values, key=order_of_spellings) if isinstance(values[0], NoCase) else choose(values)


AGGREGATES = {
    "count": len,
    "count distinct": lambda values: len(set(values)),
    "sum": lambda values: sum(values) if values else None,
    "min": lambda values: extreme(min, values),
    "max": lambda values: extreme(max, values),
}


def is_true(value, sign, other):
    """Whether a test is true: neither false nor unknown."""
    if sign in ("is null", "is not null"):
        return (value is None) == (sign == "is null")
    if value is None or other is None:
        return False
    if NoCase in (type(value), type(other)):
        value, other = NoCase(value), NoCase(other)
    return SIGNS[sign](order(value), order(other))


def passing(rows, header, tests):
    """The rows for which all tests are true: each of a name in the header, a sign and a literal."""
    placed = [(header.index(name), *rest) for name, *rest in tests]
    return [row for row in rows if all(is_true(row[i], sign, value) for i, sign, value in placed)]


def spelled(name):
    is_bare = name == "*" or name.isascii() and name.replace("_", "a").isalnum()
    return name if is_bare else '"' + name.replace('"', '""') + '"'


def listed(names):
    return ",".join(map(spelled, names))


def shown_as(word, column):
    return f"count(distinct {column})" if word == "count distinct" else f"{word}({column})"


def spelled_tests(keyword, tests):
    words = [f"{name} {sign}" if "is" in sign else f"{name}{sign}{literal(value)}" for name, sign, value in tests]
    return [f"{keyword} {' and '.join(words)}"] if tests else []


def spelled_match(match):
    if match is None:
        return []
    negated, other, theirs, ours = match
    return [f"{'not ' if negated else ''}exists {spelled(other)}({listed(theirs)})=({listed(ours)})"]


def csv_text(header, rows, end="\n"):
    text = StringIO()
    out = csv.writer(text, lineterminator=end)
    out.writerow(header)
    out.writerows([cell(value) for value in row] for row in rows)
    return text.getvalue()


class Example:
    """A script, and what plain lists of rows answer to it.

    A test is a column, or an aggregate as it is shown, then a sign and a literal. A match is whether `exists`
    has a `not`, then the other table, its columns and ours.
    """

    def __init__(self):
        self.script = bytearray()
        self.replies = bytearray()
        self.commands = 0
        self.tables = {}

    def say(self, line, *replies, end="\n"):
        self.script += line.encode() + end.encode()
        for reply in replies:
            self.replies += reply.encode() + b"\n"
        self.commands += bool(replies)

    def create(self, name, columns, key=()):
        kinds = [f"{spelled(column)} {kind}" for column, kind in columns]
        if key:
            kinds.append(f"key ({listed(key)})")
        self.say(f"create {spelled(name)} ({', '.join(kinds)})", "ok 0")
        names = [column for column, _kind in columns]
        self.tables[name] = (names, [names.index(column) for column in key], {}, [])

    def put(self, name, row):
        """Keeps a row in place of the one that has its key, or after all others."""
        _names, key, places, rows = self.tables[name]
        at = tuple(row[i] for i in key)
        if key and at in places:
            rows[places[at]] = row
        else:
            places[at] = len(rows)
            rows.append(row)

    def upsert(self, name, *row):
        self.say(f"upsert {spelled(name)} ({', '.join(map(literal, row))})", "ok 1")
        self.put(name, row)

    def load(self, name, header, rows, end="\n"):
        """Loads rows whose values are in the order of the header."""
        places = [header.index(column) for column in self.tables[name][0]]
        for row in rows:
            self.put(name, tuple(row[i] for i in places))
        self.say(f"load {spelled(name)}", f"ok {len(rows)}")
        self.script += csv_text(header, rows, end).encode() + b"\\." + end.encode()

    def delete(self, name, *values):
        _names, key, places, rows = self.tables[name]
        there = values in places and rows[places[values]] is not None
        self.say(f"delete {spelled(name)} ({', '.join(map(literal, values))})", f"ok {int(there)}")
        if there:
            rows[places.pop(values)] = None

    def drop(self, name):
        self.say(f"drop {spelled(name)}", "ok 0")
        del self.tables[name]

    def ask(self, words, header, rows):
        self.say(" ".join(words), f"ok {len(rows)}", csv_text(header, rows)[:-1])

    def rows(self, name):
        return [row for row in self.tables[name][3] if row is not None]

    def cells(self, name, rows, columns):
        """The cells of each row in some columns."""
        places = [self.tables[name][0].index(column) for column in columns]
        return [tuple(row[i] for i in places) for row in rows]

    def kept(self, name, where, match):
        """The rows for which the tests are true and the match holds."""
        rows = passing(self.rows(name), self.tables[name][0], where)
        if match is None:
            return rows
        negated, other, theirs, ours = match
        keys = set(self.cells(other, self.rows(other), theirs))
        matched = zip(rows, self.cells(name, rows, ours))
        return [row for row, key in matched if (None not in key and key in keys) != negated]

    def show(self, name):
        names, key, _places, _rows = self.tables[name]
        columns = key or range(len(names))
        rows = sorted(self.rows(name), key=lambda row: order_of_cells([row[i] for i in columns]))
        self.ask(["show", spelled(name)], names, rows)

    def aggregates(self, name, shown):
        """Each aggregate that is shown, of the rows of a group."""
        for word, column in shown:
            tell = AGGREGATES[word]
            if column == "*":
                yield tell
            else:
                place = self.tables[name][0].index(column)
                yield lambda rows, tell=tell, i=place: tell([row[i] for row in rows if row[i] is not None])

    def shown_key(self, name, key, rows, columns):
        """How the key of some rows is shown: each column of a key with a text without case by its minimum."""
        if not any(isinstance(value, NoCase) for value in key):
            return key
        return [extreme(min, values) for values in zip(*self.cells(name, rows, columns))]

    def grouped(self, name, rows, by, shown):
        """The groups of rows by some columns, in order: the key as it is shown, and what is shown."""
        groups = {} if by else {(): []}
        for row, key in zip(rows, self.cells(name, rows, by)):
            groups.setdefault(key, []).append(row)
        told = list(self.aggregates(name, shown))
        return [
            [*self.shown_key(name, key, groups[key], by), *(tell(groups[key]) for tell in told)]
            for key in sorted(groups, key=order_of_cells)
        ]

    def group(self, name, by, shown=(COUNT,), where=(), match=None, having=(), rollup=False):
        rows = self.kept(name, where, match)
        header = [*by, *(shown_as(word, column) for word, column in shown)]
        words = ["group", spelled(name)]
        words += [f"by rollup ({listed(by)})" if rollup else f"by {listed(by)}"] if by else []
        words += ["show " + ",".join(shown_as(word, spelled(column)) for word, column in shown)]
        words += spelled_tests("where", where) + spelled_match(match) + spelled_tests("having", having)
        if not rollup:
            self.ask(words, header, passing(self.grouped(name, rows, by, shown), header, having))
            return
        answer = []
        for level in range(len(by) + 1):
            nulls = [None] * (len(by) - level)
            found = [[*row[:level], *nulls, *row[level:]] for row in self.grouped(name, rows, by[:level], shown)]
            answer += [[level, *row] for row in passing(found, header, having)]
        self.ask(words, ["level", *header], answer)

    def distinct(self, name, columns, where=()):
        rows = self.grouped(name, self.kept(name, where, None), columns, [])
        words = ["distinct", spelled(name), "on", listed(columns), *spelled_tests("where", where)]
        self.ask(words, columns, rows)

    def write(self):
        """Writes the script and its replies to the files that the command line names."""
        with open(sys.argv[1], "wb") as script:
            script.write(self.script)
        with open(sys.argv[2], "wb") as replies:
            replies.write(self.replies)
