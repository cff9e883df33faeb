"""Databases that are no office, or have more than one: a part of tools/check_program. It is no script of
its own."""
import contextlib
import os
import shutil
import sqlite3
import subprocess

from program import METER, RECEIPT, change, expect, prepare, query, sell_words, vend
from shared import FORMAT, back_to, wrong

NO_OFFICE = (1, b"", b"open 1 NotAnOffice\n")
AUDIT = "CREATE TABLE audit (sale INTEGER REFERENCES sales (number));"
FAR = "UPDATE sales SET number = 5000000000;"
# Each of these alone is in a new database.
OTHERS = [
    "CREATE TABLE about (id INTEGER PRIMARY KEY, word TEXT);",
    "CREATE VIEW meters AS SELECT 1 AS one;",
    "CREATE TABLE words (word TEXT); CREATE INDEX sales ON words (word);",
    AUDIT,
]
# Rows of a sale that no office has.
FALSE_SALES = [
    *(f"UPDATE sales SET {it};" for it in (
        "price = 11", "tender = 100000001", "tid = 16777216", "tid = -1", "rnd = 16",
        "tenths = 16385", "base = 2015", "moment = 4102444800", "operator = 'ann '", "ref = ''",
        "digits = '0007205760262798169'", "digits = '0007205760262798169x'")),
    "INSERT INTO shifts VALUES (1000000001, 'ann', 1388534430, NULL); UPDATE sales SET shift ="
    " 1000000001;",
    "INSERT INTO meters VALUES ('12345678904', 2014, 'flat', '0000000000000000'); UPDATE sales SET"
    " meter = '12345678904';",
]
# What is done to an office of a format before it is opened.
SPOILED = [
    # Of the present format the last sale alone is read.
    *((number, text) for number in (1, FORMAT) for text in FALSE_SALES),
    (1, FAR), (2, FAR), (3, FAR), (4, FAR),
    (1, "UPDATE meters SET base = 2000 WHERE meter = '10000000009';"),
    (2, "UPDATE meters SET base = 2000 WHERE meter = '10000000009';"),
    # A row of another table that no office has, or that its other tables do not bear out.
    *((number, text) for number in (1, 2, 3) for text in (
        "UPDATE shifts SET opened = -1;", "UPDATE tariff_steps SET price = 0;",
        "INSERT INTO tariffs VALUES ('none');")),
    *((number, text) for number in (2, 3) for text in (
        "UPDATE last_ids SET tid = 16777216;", "UPDATE last_ids SET tid = 3;",
        "DELETE FROM month_tenths;", "UPDATE shift_totals SET cash = 77;")),
    (3, "DELETE FROM meter_bases WHERE meter = '10000000009';"),
    # A table or a column that is missing.
    (1, "DROP TABLE sales;"), (4, "DROP TABLE sales;"),
    (1, "DROP TABLE about;"), (4, "DROP TABLE about;"),
    (1, "DROP TABLE tariff_steps; CREATE TABLE tariff_steps (tariff TEXT NOT NULL REFERENCES"
        " tariffs (name), place INTEGER NOT NULL, price INTEGER NOT NULL, UNIQUE (tariff, place))"
        " STRICT;"),
    (2, "DROP TABLE month_tenths;"),
    (2, "DROP TABLE shift_totals; CREATE TABLE shift_totals (shift INTEGER PRIMARY KEY, sales INTEGER"
        " NOT NULL, tenths INTEGER NOT NULL) STRICT;"),
    (3, "DROP TABLE meter_bases;"),
    (3, "DROP TABLE meter_bases; CREATE TABLE meter_bases (meter TEXT NOT NULL REFERENCES meters"
        " (meter), UNIQUE (meter)) STRICT;"),
    (4, "DROP TABLE shift_totals;"), (4, "DROP TABLE meter_bases;"),
    (4, "DROP TABLE about; CREATE TABLE about (id INTEGER PRIMARY KEY, word TEXT) STRICT;"),
    (4, "DROP TABLE tariff_steps; CREATE TABLE tariff_steps (tariff TEXT NOT NULL, place INTEGER NOT"
        " NULL, ends INTEGER, price INTEGER NOT NULL) STRICT;"),
    # A name of a later format that is another's.
    (1, "CREATE TABLE last_ids (id INTEGER PRIMARY KEY);"),
    (1, "CREATE TABLE dated_steps (id INTEGER PRIMARY KEY); INSERT INTO dated_steps VALUES (7);"),
    (1, "CREATE VIEW meter_bases AS SELECT 1 AS one;"),
    (2, "CREATE TABLE meter_bases (id INTEGER PRIMARY KEY);"),
    (2, "CREATE TABLE other (id INTEGER PRIMARY KEY); CREATE INDEX dated_steps ON other (id);"),
    (3, "CREATE TABLE dated_steps (id INTEGER PRIMARY KEY);"),
    (1, "CREATE TABLE other (id INTEGER PRIMARY KEY REFERENCES shift_totals (shift));"),
    (4, AUDIT), (4, "CREATE INDEX stray ON sales (moment);"),
    # The number of another format, or of none.
    *((1, f"UPDATE about SET format = {number};") for number in (0, -1, 2, 5)),
    *((2, f"UPDATE about SET format = {number};") for number in (1, 2**32 + 2)),
    (3, "UPDATE about SET format = 4;"), (3, "DELETE FROM about;"),
    *((4, f"UPDATE about SET format = {number};") for number in (0, 1, 2, 3, 5, -1)),
    (4, "UPDATE about SET id = 2;"), (4, "INSERT INTO about VALUES (2, 1);"),
    (4, "DELETE FROM about;"),
]
# What may stand beside an office.
BESIDE = (
    "CREATE TABLE before (id INTEGER PRIMARY KEY, word TEXT); INSERT INTO before VALUES (7, 'a');"
    " CREATE INDEX word_of ON before (word); CREATE TABLE counted (id INTEGER PRIMARY KEY"
    " AUTOINCREMENT); CREATE VIEW seen AS SELECT 1 AS one;"
)
AFTER = "CREATE TABLE after (id INTEGER PRIMARY KEY); INSERT INTO after VALUES (8);"


def rows_of(file):
    """All that a database has, as the shell writes it."""
    ran = subprocess.run(["sqlite3", file, ".dump"], capture_output=True, text=True, check=True)
    return ran.stdout


def is_refused(file, text):
    before = rows_of(file)
    for words in (["report", "--file", str(file), "--kind", "totals"], sell_words(file, "A-1"),
                  sell_words(file, "A-2"), ["show", "--file", str(file), "last", "--meter", METER]):
        ran = vend(*words)
        if (ran.returncode, ran.stdout, ran.stderr) != NO_OFFICE:
            wrong(f"{text} {ran}\nexpected {NO_OFFICE}")
    if rows_of(file) != before:
        wrong(f"{text} has changed when it was opened")


def office_of(folder, number):
    """The file of an office of a format, with one sale."""
    file = folder / f"format-{number}.db"
    prepare(file)
    expect(vend(*sell_words(file, "A-1")), 0, RECEIPT, b"")
    change(file, back_to(number))
    change(file, "PRAGMA wal_checkpoint(TRUNCATE);")
    return file


def check_beside(folder):
    """An office is made beside tables of other names, which are as they were, and more may come."""
    file = folder / "beside.db"
    change(file, BESIDE)
    prepare(file)
    change(file, AFTER)
    expect(vend(*sell_words(file, "A-1")), 0, RECEIPT, b"")
    found = [query(file, f"SELECT * FROM {name};") for name in ("before", "after", "seen", "counted")]
    if found != [["7|a"], ["8"], ["1"], []]:
        wrong(f"beside an office are {found}")


def looks(file):
    """Each command that only looks, on this file."""
    at = ["--file", str(file)]
    yield from (["report", *at, "--kind", kind] for kind in ("shift", "receipt", "totals", "sales"))
    yield ["show", *at, "meter", "--meter", METER]
    yield ["show", *at, "last", "--meter", METER]
    yield ["show", *at, "sale", "--operator", "ann", "--ref", "A-1"]
    for what in ("tariffs", "meters", "shifts", "sales"):
        yield ["list", *at, what]
        yield ["list", *at, what, "--json"]
    yield ["offer", *at, "--meter", METER, "10"]
    yield ["quote", *at, "--meter", METER, "10"]


def bytes_in(folder):
    """The bytes of each file of a folder, its rights, and when it was written."""
    return {it.name: (it.read_bytes(), it.stat().st_mode, it.stat().st_mtime_ns)
            for it in sorted(folder.iterdir())}


LOG_HEAD = 41  # bytes of a log without a commit, as the toolchain begins one


def is_left(before, after):
    """Whether each file is as it was. Into a log that was there the toolchain's opening puts what SQLite does
    not read: the head of a log into an empty one, and behind the end of another up to eight zeros and a byte, which
    is 0 or, once in some thousand logs, 1."""
    if sorted(before) != sorted(after):
        return False
    for name, (text, mode, written) in before.items():
        now, rights, when = after[name]
        is_log = name.endswith("-wal")
        more = now[len(text):]
        if is_log and (now[:len(text)] != text or len(more) > (9 if text else LOG_HEAD)
                       or text and (any(more[:8]) or any(byte > 1 for byte in more))):
            return False
        if rights != mode or not is_log and (now, when) != (text, written):
            return False
    return True


def strangers(folder):
    """Files that have none of an office's tables, each in a folder of its own: an empty one, two of one byte,
    which SQLite takes for empty, one of them beside the beginning of a log, a database with rows, one whose last rows are in its log alone, one with an empty log, and one behind a link."""
    for name in ("empty", "byte", "begun", "rows", "log", "emptied", "link"):
        (folder / name).mkdir()
        file = folder / name / "notes.db"
        if name == "empty":
            file.touch()
        elif name in ("byte", "begun"):
            file.write_bytes(b"S")
            if name == "begun":
                (folder / name / "notes.db-wal").write_bytes(bytes(LOG_HEAD))
        elif name == "log":
            with contextlib.closing(sqlite3.connect(folder / "live.db", isolation_level=None)) as live:
                live.executescript("PRAGMA journal_mode = WAL;" + BESIDE)
                for end in ("", "-wal"):
                    shutil.copy(folder / f"live.db{end}", f"{file}{end}")
        elif name == "link":
            change(folder / name / "real.db", BESIDE)
            file.symlink_to("real.db")
        else:
            change(file, BESIDE)
            if name == "emptied":
                (folder / name / "notes.db-wal").touch()
        yield file


def check_strangers(folder):
    """What only looks answers of a file without tables of an office as of an office without sales, leaves
    every byte, and makes no file. An audit says that there is no office."""
    folder = folder / "strangers"
    folder.mkdir()
    bare = folder / "bare.db"
    expect(vend("shift", "--file", str(bare), "--operator", "ann", "close"), 1, b"", b"refused 2 NoShift\n")
    count = 0
    for file in strangers(folder):
        before = bytes_in(file.parent)
        for words, known in zip(looks(file), looks(bare)):
            ran = vend(*words)
            as_known = vend(*known)
            expect(ran, as_known.returncode, as_known.stdout, as_known.stderr)
            if not is_left(before, bytes_in(file.parent)):
                wrong(f"{words} changed {sorted(before)} to {sorted(bytes_in(file.parent))}")
            count += 1
        for words in ([], ["--transform", "demo"]):
            expect(vend("audit", "--file", str(file), *words), 1, b"no office\n", b"")
        if not is_left(before, bytes_in(file.parent)):
            wrong(f"an audit changed {sorted(before)} to {sorted(bytes_in(file.parent))}")
    for length in (2, 15):
        (folder / f"short-{length}").mkdir()
        file = folder / f"short-{length}" / "notes.db"
        file.write_bytes(b"SQLite format 3"[:length])
        before = bytes_in(file.parent)
        for words in (*looks(file), ["audit", "--file", str(file)]):
            expect(vend(*words), 1, b"", b"open 3 Store\n")
            if bytes_in(file.parent) != before:
                wrong(f"{words} changed a file of {length} bytes")
    print(f"strangers: {count} looks at files without an office, each left as it was")


def check_private(folder):
    """A file that is made is its owner's alone, whatever the umask, and one that is there keeps its rights."""
    folder = folder / "private"
    folder.mkdir()
    file = folder / "office.db"
    for mask in (0o000, 0o022, 0o077):
        file.unlink(missing_ok=True)
        (folder / "office.db-wal").unlink(missing_ok=True)
        was = os.umask(mask)
        try:
            vend("shift", "--file", str(file), "--operator", "ann", "close")
        finally:
            os.umask(was)
        for it in folder.iterdir():
            if it.stat().st_mode & 0o777 != 0o600:
                wrong(f"{it.name} has mode {it.stat().st_mode:o} under umask {mask:o}")
    file.chmod(0o640)
    vend("shift", "--file", str(file), "--operator", "ann", "close")
    if file.stat().st_mode & 0o777 != 0o640:
        wrong(f"the rights of {file.name} have changed to {file.stat().st_mode:o}")


def check_no_offices(folder):
    """What is no office is refused, and left as it was."""
    check_strangers(folder)
    check_private(folder)
    folder = folder / "none"
    folder.mkdir()
    file = folder / "office.db"
    for text in OTHERS:
        file.unlink(missing_ok=True)
        change(file, text)
        is_refused(file, text)
    files = {number: office_of(folder, number) for number in range(1, FORMAT + 1)}
    for number, text in SPOILED:
        shutil.copy(files[number], file)
        change(file, text)
        is_refused(file, f"format {number}: {text}")
    for number, whole in files.items():
        expect(vend(*sell_words(whole, "A-1")), 0, RECEIPT, b"")
    check_beside(folder)
    print(f"no offices: {len(OTHERS) + len(SPOILED)} databases, each left as it was")
