"""What shuts an office and what opens it again, row by row as docs/OPENING.md says: a part of tools/check_pages. It
is no script of its own."""
import contextlib
import os
import shutil
import sqlite3
import subprocess
import sys

from program import change, expect, prepare, sell_words, vend
from shared import FORMAT, quoted, rows_of_page, same, tables_of, wrong

COLUMNS = ("Line", "What is in the way", "What opens it again")
# What brings each row about, by what the page says of it. `name` stands for a name, here and there.
STATEMENTS = {
    "`auto_vacuum`": ("PRAGMA auto_vacuum=1; VACUUM;", "PRAGMA auto_vacuum=2; VACUUM;"),
    "a trigger on a table of the office, or on any view": (
        "CREATE TRIGGER name AFTER INSERT ON sales BEGIN SELECT 1; END;",
        *(f"{view} CREATE TRIGGER name INSTEAD OF INSERT ON other BEGIN SELECT 1; END;" for view in (
            "CREATE VIEW other AS SELECT * FROM sales;",
            "CREATE TABLE mine (word TEXT); CREATE VIEW other AS SELECT * FROM mine;"))),
    "a view with SQL that `vend` does not read, such as `OVER`, `FILTER`, `GLOB`, `ESCAPE`, `NATURAL JOIN`, "
    "`RIGHT JOIN`, `VALUES`, `MATERIALIZED`, `->>`, `json_each` or `main.sales`": tuple(f"CREATE VIEW name AS {it};" for it in (
        "SELECT number, row_number() OVER () FROM sales",
        "SELECT count(*) FILTER (WHERE price > 5) FROM sales",
        "SELECT * FROM sales WHERE ref GLOB 'A*'",
        "SELECT * FROM sales WHERE ref LIKE 'A%' ESCAPE '!'",
        "SELECT * FROM sales NATURAL JOIN last_ids",
        "SELECT * FROM sales RIGHT JOIN meters ON meters.meter = sales.meter",
        "VALUES (1)",
        "WITH some AS MATERIALIZED (SELECT * FROM sales) SELECT * FROM some",
        "SELECT '{}' ->> 'word'",
        "SELECT value FROM json_each('[1]')",
        "SELECT number FROM main.sales")),
    "a virtual table, as of FTS or R-tree": tuple(
        f"CREATE VIRTUAL TABLE name USING {it};" for it in ("fts4(word)", "fts5(word)", "rtree(id, low, high)")),
    "an index with `WHERE`, or on an expression, on a table of the office": (
        "CREATE INDEX name ON sales (meter) WHERE tender > 5;", "CREATE INDEX name ON sales (lower(ref));",
        "CREATE INDEX name ON sales (price + 1);"),
    "another index on a table of the office, of columns alone": (
        "CREATE INDEX name ON sales (meter);", "CREATE UNIQUE INDEX name ON meters (meter, tariff);",
        "CREATE INDEX name ON sales (ref COLLATE NOCASE, number DESC);"),
    "a column with a default value, added to a table of yours that had rows": (
        "CREATE TABLE mine (word TEXT); INSERT INTO mine VALUES ('a'); ALTER TABLE mine ADD COLUMN name TEXT DEFAULT 'b';",
        "CREATE TABLE mine (word TEXT) STRICT; INSERT INTO mine VALUES ('a'), ('b'); "
        "ALTER TABLE mine ADD COLUMN name INTEGER NOT NULL DEFAULT 0; VACUUM;"),
    "a row of a table of yours breaks a `CHECK` or `NOT NULL`: `PRAGMA integrity_check;` prints only lines such as "
    "`CHECK constraint failed in mine`": (
        "CREATE TABLE mine (number INTEGER CHECK (number > 0)); PRAGMA ignore_check_constraints=1; "
        "INSERT INTO mine VALUES (-1);",),
    "a column more": tuple(f"ALTER TABLE sales ADD COLUMN name {it};" for it in (
        "TEXT", "INTEGER REFERENCES shifts (number)", "INTEGER CHECK (name > 1)", "TEXT DEFAULT 'a'",
        "INTEGER NOT NULL DEFAULT 0", "INTEGER AS (price + 1)")),
    "a table of the office has another name": ("ALTER TABLE sales RENAME TO name;",),
    "a table of yours with a foreign key to one of the office's": (
        "CREATE TABLE name (sale INTEGER REFERENCES sales (number));", "CREATE TABLE name (of REFERENCES tariffs);"),
}
LEAVE_OPEN = (
    "VACUUM;", "ANALYZE;", "REINDEX;", "PRAGMA journal_mode=DELETE; PRAGMA page_size=8192; VACUUM;",
    "CREATE VIEW name AS SELECT * FROM sales;",
    "CREATE VIEW name AS SELECT sales.meter, sum(price) FROM sales JOIN meters ON meters.meter = sales.meter "
    "LEFT JOIN shifts ON shifts.number = sales.shift WHERE price > 0 GROUP BY sales.meter ORDER BY sales.meter;",
    "CREATE VIEW name AS SELECT number, CASE WHEN price < 5 THEN 0 ELSE 1 END FROM sales "
    "UNION SELECT number, 2 FROM shifts;",
    "CREATE TABLE name (word TEXT); CREATE INDEX other ON name (word);",
    "CREATE TABLE name (word TEXT); CREATE INDEX other ON name (lower(word)) WHERE word > 'a';",
    "CREATE TABLE name (id INTEGER PRIMARY KEY); CREATE TABLE other (of REFERENCES name); INSERT INTO name VALUES (7); "
    "INSERT INTO other VALUES (7);",
    "CREATE TABLE name (word TEXT); CREATE TRIGGER other AFTER INSERT ON name BEGIN SELECT 1; END;",
    "CREATE TABLE name (word TEXT CHECK (word GLOB 'a*') DEFAULT 'a', more INTEGER AS (length(word))); "
    "INSERT INTO name DEFAULT VALUES; ALTER TABLE name ADD COLUMN other TEXT;",
)
COPIES = (".backup {}", ".clone {}", "VACUUM INTO '{}';")
# A transaction that is larger than its cache, and is killed.
KILLED = """import os, sqlite3, sys
base = sqlite3.connect(sys.argv[1], isolation_level=None)
base.executescript("PRAGMA journal_mode=DELETE; PRAGMA cache_size=1; BEGIN IMMEDIATE; CREATE TABLE name (word BLOB);")
for _ in range(1000):
    base.execute("INSERT INTO name VALUES (zeroblob(1000))")
os._exit(0)"""


class Trial:
    """An office to which things are done, and what its audit says then."""

    def __init__(self, folder):
        self.whole, self.file, self.other = folder / "whole.db", folder / "office.db", folder / "other.db"
        prepare(self.whole)
        for ref in ("A-1", "A-2"):
            expect(vend(*sell_words(self.whole, ref)), 0)
        change(self.whole, "PRAGMA wal_checkpoint(TRUNCATE);")
        self.sound = self.audit(self.whole).stdout
        self.count = 0

    @staticmethod
    def audit(file):
        return vend("audit", "--wait", "0", "--file", str(file))

    def renew(self):
        for end in ("-wal", "-shm", "-journal"):
            self.file.with_name(self.file.name + end).unlink(missing_ok=True)
        shutil.copy(self.whole, self.file)

    def is_shut(self, *lines):
        """The audit says one of these lines, which this gives."""
        ran = self.audit(self.file)
        said = ran.stderr.decode().strip()
        expect(ran, 1, b"", f"{said if said in lines else lines}\n".encode())
        self.count += 1
        return said

    def is_open(self, what, file=None):
        same(self.audit(file or self.file).stdout, self.sound, f"an office after {what}")

    def made_of(self, dump):
        """A new file that is made of a dump."""
        self.other.unlink(missing_ok=True)
        subprocess.run(["sqlite3", self.other], input=dump, text=True, check=True)
        return self.other


def try_use(trial, line):
    with contextlib.closing(sqlite3.connect(trial.file, isolation_level=None)) as base:
        base.executescript("PRAGMA journal_mode=WAL;")
        base.execute("SELECT count(*) FROM sales").fetchall()
        trial.is_shut(line)
        for text in ("BEGIN; SELECT * FROM sales;", "BEGIN IMMEDIATE;"):
            base.executescript("PRAGMA journal_mode=WAL;")
            begun = [base.execute(it) for it in text.split(";") if it]
            trial.is_shut(line)
            del begun
            base.execute("ROLLBACK")
    trial.is_open("it was in use")


def try_link(trial, line):
    os.link(trial.file, trial.other)
    trial.is_shut(line)
    trial.other.unlink()
    trial.is_open("a second link")


def try_journal(trial, line, cure):
    subprocess.run([sys.executable, "-c", KILLED, trial.file], check=True)
    trial.is_shut(line)
    change(trial.file, cure)
    trial.is_open("a journal")


def try_orphan(trial, line, cure):
    change(trial.file, "CREATE TABLE name (id INTEGER PRIMARY KEY); CREATE TABLE other (of REFERENCES name); "
                       "INSERT INTO other VALUES (7);")
    trial.is_shut(line)
    with contextlib.closing(sqlite3.connect(trial.file, isolation_level=None)) as base:
        for table, row, *_ in base.execute(cure).fetchall():
            base.execute(f"DELETE FROM {table} WHERE rowid = {row}")
    trial.is_open("a row without its parent")


def is_whole(file):
    with contextlib.closing(sqlite3.connect(file)) as base, contextlib.suppress(sqlite3.DatabaseError):
        return base.execute("PRAGMA integrity_check;").fetchall() == [("ok",)]
    return False


def try_damage(trial, line):
    """Pages that the disk lost, and a file whose log was lost while it was written into the file."""
    whole = trial.file.read_bytes()
    size = 4096
    same(is_whole(trial.file), True, "the check of a whole file")
    for at in (0, size, len(whole) // 2 // size * size, len(whole) - size):
        trial.renew()
        trial.file.write_bytes(whole[:at] + bytes(size) + whole[at + size:])
        trial.is_shut(line)
        same(is_whole(trial.file), False, f"the check of a file without the page at {at}")
    trial.renew()
    with contextlib.closing(sqlite3.connect(trial.file, isolation_level=None)) as base:
        base.executescript("PRAGMA journal_mode=WAL; PRAGMA wal_autocheckpoint=0;"
                           "CREATE TABLE name (word TEXT UNIQUE);"
                           "INSERT INTO name SELECT hex(zeroblob(500)) || number FROM sales;")
        log = trial.file.with_name(trial.file.name + "-wal").read_bytes()
    trial.renew()
    # Half of the pages of its log, each behind a head of 24 bytes, are in the file.
    with open(trial.file, "r+b") as file:
        for at in range(32, len(log) // 2, 24 + size):
            file.seek((int.from_bytes(log[at:at + 4], "big") - 1) * size)
            file.write(log[at + 24:at + 24 + size])
    trial.is_shut(line)
    same(is_whole(trial.file), False, "the check of a file without its log")
    trial.file.with_name(trial.file.name + "-wal").write_bytes(log)
    trial.is_open("its log was put back")


def try_dump(trial, line):
    dump = subprocess.run(["sqlite3", trial.file, ".dump"], capture_output=True, text=True, check=True).stdout
    trial.is_open("a dump", trial.made_of(dump))
    shutil.copy(trial.made_of(dump.replace(") STRICT;", ");")), trial.file)
    trial.is_shut(line)
    dump = subprocess.run(["sqlite3", trial.file, ".dump"], capture_output=True, text=True, check=True).stdout
    lines = [it.removesuffix(";") + " STRICT;" if it.startswith("CREATE TABLE ") else it for it in dump.splitlines()]
    trial.is_open("a dump with STRICT again", trial.made_of("\n".join(lines)))


def check_shut(folder):
    """Each row of the page: the line that it names, and then, after what it names, the office as it was."""
    folder = folder / "shut"
    folder.mkdir()
    trial = Trial(folder)
    ways = {
        "a desk, a command, or a `sqlite3` that is still open has the file": try_use,
        "the file has a second hard link": try_link,
        "`office.db-journal`, which a killed `sqlite3` left": try_journal,
        "a row of a table of yours breaks a foreign key of that table": try_orphan,
        "the file was made of a dump without `STRICT`": try_dump,
        "the file is damaged, or its log is lost: `PRAGMA integrity_check;` prints neither `ok` nor only such lines": try_damage,
    }
    for line, what, cure in rows_of_page("OPENING.md", *COLUMNS):
        lines = [it for it in quoted(line) if it.startswith("open ")]
        line, said = lines[0], set()
        if what in STATEMENTS:
            unseen = [it for it in quoted(what) if what.startswith("a view") and it not in " ".join(STATEMENTS[what])]
            same(unseen, ["vend"] * len(unseen), "docs/OPENING.md: parts of SQL in views that are not tried")
            for text in STATEMENTS[what]:
                trial.renew()
                change(trial.file, text)
                said.add(trial.is_shut(*lines))
                change(trial.file, " ".join(it for it in quoted(cure) if it.endswith(";")))
                trial.is_open(text)
        elif what in ways:
            trial.renew()
            ways[what](trial, line, *([quoted(cure)[0]] if ways[what] in (try_journal, try_orphan) else []))
        elif what == "a table of the office is gone":
            for table in tables_of(FORMAT):
                trial.renew()
                change(trial.file, f"DROP TABLE {table};")
                said.add(trial.is_shut(*lines))
        elif what.startswith("the last sale has a column outside"):
            trial.renew()
            change(trial.file, "UPDATE sales SET tid = 16777216 WHERE number = 2;")
            expect(trial.audit(trial.file), 1, b"broken sales 2 value\n", b"")
            expect(vend("report", "--file", str(trial.file), "--kind", "totals"), 1, b"", f"{line}\n".encode())
            trial.count += 1
        elif what != "the user cannot write the file or its log, or cannot make the log in the folder":  # root always can
            wrong(f"docs/OPENING.md has a row that is not tried: {what}")
        same(said or {line}, set(lines), f"docs/OPENING.md: what is said where this is in the way: {what}")
    for text in LEAVE_OPEN:
        trial.renew()
        change(trial.file, text)
        trial.is_open(text)
    for text in COPIES:
        trial.renew()
        trial.other.unlink(missing_ok=True)
        subprocess.run(["sqlite3", trial.file, text.format(trial.other)], check=True, capture_output=True)
        trial.is_open(text, trial.other)
    print(f"shut offices: {trial.count} ways, each with the line and the way back of the page; "
          f"{len(LEAVE_OPEN) + len(COPIES)} things leave an office open")
