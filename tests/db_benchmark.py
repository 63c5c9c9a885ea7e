"""Answers the grouping questions of db-benchmark with groupsh and other programs, and prints a line for each question.

    db_benchmark.py GROUPSH [--markdown] [ROWS]

The table is that of https://github.com/h2oai/db-benchmark: three columns of texts and six of numbers, a hundred or ROWS / 100 of the
values distinct. v3, which has six decimals there, is a whole number here. Each program reads the same CSV file with one thread and
writes its answer as CSV. Cells are processor seconds from the start of reading to the end of writing, and maximum memory; the best of
three rounds in which the programs took turns. "load alone" writes nothing. The seconds of R and Python leave out the start of the
language. ClickHouse is a server of its own for each question: the seconds are the server's and its client's without their start, and
the memory is the server's. Answers are compared in sorted order, and if one differs from that of groupsh, the status is 1.
"""

import filecmp
import os
import random
import re
import shutil
import subprocess
import sys
import tempfile
import time
from dataclasses import dataclass

from bench import LARGE_PAGES, ROUNDS, measured, row_of, run

COLUMNS = ("id1", "id2", "id3", "id4", "id5", "id6", "v1", "v2", "v3")
TEXTS = ("id1", "id2", "id3")
DISTINCT = 100
WIDTH = 28
PORT = "19011"


@dataclass
class Question:
    """A grouping by some columns, and its aggregates: `sum` of columns, then the count if it is asked; of all rows, or of those for
    which a condition holds."""

    name: str
    by: tuple
    sums: tuple
    count: bool
    where: str = ""

    def aggregates(self, form="sum({})"):
        return ", ".join([form.format(column) for column in self.sums] + (["count(*)"] if self.count else []))

    def condition(self):
        return f" where {self.where}" if self.where else ""


LOAD = Question("load alone", (), (), False)
QUESTIONS = (
    LOAD,
    Question("id1: sum v1", ("id1",), ("v1",), False),
    Question("id1: sum v1 where v2 > 7", ("id1",), ("v1",), False, "v2 > 7"),
    Question("id1, id2: sum v1", ("id1", "id2"), ("v1",), False),
    Question("id3: sum v1, sum v3, count", ("id3",), ("v1", "v3"), True),
    Question("id6: sums of v1, v2, v3", ("id6",), ("v1", "v2", "v3"), False),
    Question("all six: sum v3, count", COLUMNS[:6], ("v3",), True),
)


def write_rows(path, rows):
    """The table as a CSV file."""
    value = random.Random(1).random
    many = max(1, rows // DISTINCT)
    with open(path, "w") as file:
        file.write(",".join(COLUMNS) + "\n")
        for _ in range(rows):
            few = [int(value() * DISTINCT) + 1 for _ in range(4)]
            names = f"id{few[0]:03},id{few[1]:03},id{int(value() * many) + 1:010}"
            numbers = f"{few[2]},{few[3]},{int(value() * many) + 1},{int(value() * 5) + 1},{int(value() * 15) + 1}"
            file.write(f"{names},{numbers},{int(value() * 100_000_000)}\n")


class Groupsh:
    def __init__(self, program):
        self.program = program

    def take(self, folder, question, answer):
        script = f"group t by {', '.join(question.by)} show {question.aggregates()}{question.condition()}" if question.by else ""
        words = ["-t", f"t={folder}/rows.csv", "-o", "csv", "-c", script]
        return run([*LARGE_PAGES, self.program, *words], answer)


class Sqlite:
    def __init__(self, program):
        self.program = program

    def take(self, folder, question, answer):
        columns = ", ".join(f"{column} {'text' if column in TEXTS else 'int'}" for column in COLUMNS)
        script = f"create table t ({columns});\n.mode csv\n.import --skip 1 {folder}/rows.csv t\n.headers on\n"
        if question.by:
            by = ", ".join(question.by)
            script += f"select {by}, {question.aggregates()} from t{question.condition()} group by {by};\n"
        with open(os.path.join(folder, "script.sql"), "w") as file:
            file.write(script)
        return run(["sh", "-c", f"{self.program} :memory: <{folder}/script.sql"], answer)


class Mawk:
    def __init__(self, program):
        self.program = program

    def take(self, folder, question, answer):
        field = {column: f"${COLUMNS.index(column) + 1}" for column in COLUMNS}
        key = ' "," '.join(field[column] for column in question.by) or '""'
        totals = [f"s{place}[k] += {field[column]}" for place, column in enumerate(question.sums)]
        shown = ", ".join(["k", *[f"s{place}[k]" for place in range(len(totals))], *(["n[k]"] if question.count else [])])
        form = ",".join(["%s"] + ["%.0f"] * shown.count(","))
        last = f'END {{ print "names"; for (k in n) printf "{form}\\n", {shown} }}' if question.by else ""
        kept = re.sub(r"\w+", lambda word: field.get(word[0], word[0]), question.where) or "1"
        text = f"NR > 1 && {kept} {{ k = {key}; n[k]++; {'; '.join(totals)} }} {last}"
        return run([self.program, "-F,", text, f"{folder}/rows.csv"], answer)


class Timed:
    """A program whose script prints the processor seconds that it took, the last line of its standard error."""

    def timed(self, command, folder, answer):
        script = os.path.join(folder, "seconds")
        _, memory = run(["sh", "-c", '"$@" 2>' + script, "sh", *command], answer)
        with open(script) as file:
            return float(file.read().split()[-1]), memory


class Pandas(Timed):
    def __init__(self, program):
        self.program = program

    def take(self, folder, question, answer):
        text = f"import pandas, sys, time\nstart = time.process_time()\nt = pandas.read_csv('{folder}/rows.csv')\n"
        if question.by:
            named = [f"{column}=('{column}', 'sum')" for column in question.sums]
            named += ["n=('v1', 'size')"] if question.count else []
            kept = f"t.query('{question.where}')" if question.where else "t"
            text += f"a = {kept}.groupby({list(question.by)}).agg({', '.join(named)})\na.to_csv(sys.stdout)\n"
        text += "print(time.process_time() - start, file=sys.stderr)\n"
        return self.timed([self.program, "-c", text], folder, answer)


class DataTable(Timed):
    def __init__(self, program):
        self.program = program

    def take(self, folder, question, answer):
        text = "suppressMessages(library(data.table)); setDTthreads(1); start <- proc.time()\n"
        text += f"t <- fread('{folder}/rows.csv', nThread=1, showProgress=FALSE)\n"
        if question.by:
            named = [f"{column}=sum({column})" for column in question.sums] + (["n=.N"] if question.count else [])
            text += f"a <- t[{question.where}, .({', '.join(named)}), keyby=.({', '.join(question.by)})]\n"
            text += f"fwrite(a, '{answer}', nThread=1, showProgress=FALSE)\n"
        text += "message(sum((proc.time() - start)[1:2]))\n"
        return self.timed([self.program, "-e", text], folder, os.path.join(folder, "nothing"))


class ClickHouse:
    CONFIG = """<yandex>
  <logger><level>none</level></logger>
  <tcp_port>{port}</tcp_port>
  <listen_host>127.0.0.1</listen_host>
  <path>{folder}/data/</path>
  <tmp_path>{folder}/tmp/</tmp_path>
  <mark_cache_size>1048576</mark_cache_size>
  <users_config>users.xml</users_config>
  <default_profile>default</default_profile>
  <default_database>default</default_database>
</yandex>
"""
    USERS = """<yandex>
  <profiles><default><max_threads>1</max_threads><max_memory_usage>0</max_memory_usage></default></profiles>
  <users><default>
    <password></password>
    <networks><ip>127.0.0.1</ip></networks>
    <profile>default</profile>
    <quota>default</quota>
  </default></users>
  <quotas><default></default></quotas>
</yandex>
"""

    def __init__(self, program):
        self.program = program

    def ask(self, query, answer="/dev/null", rows="/dev/null"):
        """Asks the server, and returns the processor seconds that the client took."""
        return run(["sh", "-c", f'exec clickhouse-client --port {PORT} --query "$0" <{rows}', query], answer)[0]

    def start(self, folder):
        """A server that answers."""
        shutil.rmtree(folder, ignore_errors=True)
        os.makedirs(folder)
        for name, text in (("config.xml", self.CONFIG), ("users.xml", self.USERS)):
            with open(os.path.join(folder, name), "w") as file:
                file.write(text.format(port=PORT, folder=folder))
        server = subprocess.Popen([self.program, f"--config-file={folder}/config.xml"], stdout=subprocess.DEVNULL, stderr=subprocess.DEVNULL)
        for _ in range(100):
            time.sleep(0.1)
            probe = ["clickhouse-client", "--port", PORT, "--query", "select 1"]
            if subprocess.run(probe, stdout=subprocess.DEVNULL, stderr=subprocess.DEVNULL).returncode == 0:
                return server
        server.kill()
        sys.exit("bench: clickhouse-server doesn't answer")

    def spent(self, server):
        """Processor seconds and maximum memory, in MB, of a server up to now."""
        with open(f"/proc/{server.pid}/stat") as file:
            cells = file.read().rsplit(")", 1)[1].split()
        with open(f"/proc/{server.pid}/status") as file:
            memory = next(int(line.split()[1]) for line in file if line.startswith("VmHWM"))
        return (int(cells[11]) + int(cells[12])) / os.sysconf("SC_CLK_TCK"), memory / 1024

    def take(self, folder, question, answer):
        server = self.start(os.path.join(folder, "clickhouse"))
        try:
            idle = self.ask("select 1")
            before, _ = self.spent(server)
            columns = ", ".join(f"{column} {'String' if column in TEXTS else 'Int64'}" for column in COLUMNS)
            self.ask(f"create table t ({columns}) engine = Memory")
            clients = self.ask("insert into t format CSVWithNames", rows=f"{folder}/rows.csv") - idle
            if question.by:
                by = ", ".join(question.by)
                query = f"select {by}, {question.aggregates()} from t{question.condition()} group by {by} order by {by} format CSVWithNames"
                clients += self.ask(query, answer) - idle
            after, memory = self.spent(server)
        finally:
            server.terminate()
            server.wait()
        return max(0.0, after - before + clients), memory


def installed():
    """The other programs that are there."""
    others = {}
    if shutil.which("clickhouse-client") and shutil.which("clickhouse-server"):
        others["ClickHouse"] = ClickHouse(shutil.which("clickhouse-server"))
    if subprocess.run(["sh", "-c", "Rscript -e 'library(data.table)'"], capture_output=True).returncode == 0:
        others["data.table"] = DataTable("Rscript")
    for name, makes in (("sqlite3", Sqlite), ("mawk", Mawk)):
        if shutil.which(name):
            others[name] = makes(shutil.which(name))
    for program in (sys.executable, "/usr/bin/python3"):
        if subprocess.run([program, "-c", "import pandas"], capture_output=True).returncode == 0:
            others["pandas"] = Pandas(program)
            break
    return others


def keep_rows(output, kept):
    """Sorts the rows of an answer into a file, without the line of names and without quotes."""
    command = f"tail -n +2 {output} | tr -d '\\r\"' | LC_ALL=C sort >{kept}"
    subprocess.run(["sh", "-c", command], check=True)


def ask(programs, folder, question):
    """The least that each program took, and which answers differ from that of groupsh."""
    least = {name: (float("inf"), 0.0) for name in programs}
    for _ in range(ROUNDS):
        for name, program in programs.items():
            answer = os.path.join(folder, "answer")
            least[name] = min(least[name], program.take(folder, question, answer))
            if question.by:
                keep_rows(answer, os.path.join(folder, name))
    if not question.by:
        return least, []
    own = os.path.join(folder, "groupsh")
    return least, [name for name in programs if not filecmp.cmp(os.path.join(folder, name), own, shallow=False)]


def main():
    options = sys.argv[2:]
    markdown = "--markdown" in options
    numbers = [option for option in options if option != "--markdown"]
    rows = int(numbers[0]) if numbers else 1_000_000
    programs = {"groupsh": Groupsh(sys.argv[1]), **installed()}
    print(f"{rows} rows of db-benchmark's table; processor seconds (and MB), the least of {ROUNDS} rounds")
    print(("\n" if markdown else "") + row_of(["question", *programs], markdown, WIDTH))
    if markdown:
        print("|---" * (len(programs) + 1) + "|")
    differ = False
    with tempfile.TemporaryDirectory() as folder:
        write_rows(os.path.join(folder, "rows.csv"), rows)
        for question in QUESTIONS:
            least, others = ask(programs, folder, question)
            cells = [measured(*taken, markdown) for taken in least.values()]
            print(row_of([question.name, *cells], markdown, WIDTH), flush=True)
            for name in others:
                print(f"the answer of {name} differs")
                differ = True
    sys.exit(differ)


if __name__ == "__main__":
    main()
