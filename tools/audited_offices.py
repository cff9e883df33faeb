"""Files that `audit` is asked about, offices and others: a part of tools/check_program. It is no script
of its own."""
import http.client
import itertools
import json
import random
import re
import shutil
import subprocess

from many_sales import meter_of
from program import METER, OTHER_METER, VEND, change, expect, vend
from shared import FORMAT, back_to, tables_of

AT = 1388534430
DAY = 86400
TARIFFS = "name,steps,from\nflat,:100,\nblock,5:90;50:100;:120,\nflat,:110,2030-01-01\n" \
    "block,10:95;:130,2031-06-01\n"
METERS = f"meter,base,tariff,key\n{METER},2014,flat,0000000000000000\n" \
    f"{OTHER_METER},1993,block,0123456789abcdef\n"
METERS_DRAWN = [meter_of(f"{30 + number:010}") for number in range(12)]
COUNTS = "tariffs 2 meters 2 shifts 3 sales 4"
PLAIN, DEMO = ("--transform", "plain"), ("--transform", "demo")
NEW_SALE = ("INSERT INTO sales VALUES (5, 1391990460, 253, 1, 'ann', 'A-3', '12345678903', 2014, 57601, 5,"
            " 2, 20, 20, '00288477766268123565');")
# The first sale, by the later steps of its tariff, if these begin on such a day.
BY_DATED_STEPS = (
    "UPDATE dated_steps SET day = {} WHERE tariff = 'flat'; UPDATE sales SET price = 11, tender = 11 WHERE"
    " number = 1; UPDATE shift_totals SET cash = 31 WHERE shift = 1;")
# What is done to the rows of the office, a table after another, and the row that is found to break
# a rule. Each column is spoilt in turn; then there is a row too many, or one too few.
SPOILT = [
    ("UPDATE tariffs SET name = 'bl ock' WHERE name = 'block'; UPDATE tariff_steps SET tariff ="
     " 'bl ock' WHERE tariff = 'block'; UPDATE dated_steps SET tariff = 'bl ock' WHERE tariff ="
     " 'block'; UPDATE meters SET tariff = 'bl ock' WHERE tariff = 'block';", "tariffs ? value"),
    ("INSERT INTO tariffs VALUES ('none');", "tariffs none steps"),
    # Steps of a tariff.
    ("UPDATE tariff_steps SET place = -1 WHERE tariff = 'flat';", "tariff_steps flat value"),
    ("UPDATE tariff_steps SET ends = -1 WHERE tariff = 'flat';", "tariff_steps flat value"),
    ("UPDATE tariff_steps SET price = 0 WHERE tariff = 'flat';", "tariff_steps flat value"),
    ("UPDATE tariff_steps SET price = 1000001 WHERE tariff = 'flat';", "tariff_steps flat value"),
    ("UPDATE tariff_steps SET place = 1 WHERE tariff = 'flat';", "tariff_steps flat 1 steps"),
    ("UPDATE tariff_steps SET place = 3 WHERE tariff = 'block' AND place = 2;",
     "tariff_steps block 3 steps"),
    ("UPDATE tariff_steps SET ends = NULL WHERE tariff = 'block' AND place = 0;",
     "tariffs block steps"),
    ("UPDATE tariff_steps SET ends = 50 WHERE tariff = 'block' AND place = 0;", "tariffs block steps"),
    ("UPDATE tariff_steps SET ends = 200 WHERE tariff = 'block' AND place = 2;",
     "tariffs block steps"),
    ("DELETE FROM tariff_steps WHERE tariff = 'flat';", "tariffs flat steps"),
    ("DELETE FROM tariff_steps WHERE tariff = 'block' AND place = 1;", "tariff_steps block 2 steps"),
    ("DELETE FROM tariff_steps WHERE tariff = 'block' AND place = 2;", "tariffs block steps"),
    ("INSERT INTO tariff_steps VALUES ('flat', 1, NULL, 50);", "tariffs flat steps"),
    ("DELETE FROM tariff_steps WHERE tariff = 'flat';" + "".join(
        f"INSERT INTO tariff_steps VALUES ('flat', {place}, {place + 1 if place < 8 else 'NULL'}, 9);"
        for place in range(9)), "tariffs flat steps"),
    # Meters.
    (f"UPDATE meters SET meter = '12345678904' WHERE meter = '{METER}'; UPDATE sales SET meter ="
     f" '12345678904' WHERE meter = '{METER}'; UPDATE meter_bases SET meter = '12345678904' WHERE"
     f" meter = '{METER}';", "meters 12345678904 value"),
    (f"UPDATE meters SET base = 2000 WHERE meter = '{METER}';", f"meters {METER} value"),
    (f"UPDATE meters SET secret = '0123456789ABCDEF' WHERE meter = '{METER}';",
     f"meters {METER} value"),
    (f"UPDATE meters SET base = 2035 WHERE meter = '{METER}';", f"meters {METER} base"),
    (f"UPDATE meters SET base = 1993 WHERE meter = '{OTHER_METER}';", f"meter_bases {OTHER_METER} 2014 base"),
    ("INSERT INTO meters VALUES ('20000000008', 2014, 'flat', '0000000000000000');",
     "meters 20000000008 base"),
    # Shifts.
    ("UPDATE shifts SET number = 4 WHERE number = 3;", "shifts 3 gap"),
    ("UPDATE shifts SET operator = 'bo b' WHERE number = 2;", "shifts 2 value"),
    ("UPDATE shifts SET opened = 725846399 WHERE number = 2;", "shifts 2 value"),
    ("UPDATE shifts SET closed = 4102444800 WHERE number = 1;", "shifts 1 value"),
    ("UPDATE shifts SET closed = NULL WHERE number = 1;", "shifts 3 open"),
    ("UPDATE shifts SET operator = 'ann' WHERE number = 2;", "shifts 3 open"),
    ("INSERT INTO shifts VALUES (5, 'eve', 1391990460, NULL);", "shifts 4 gap"),
    # Sales.
    ("UPDATE sales SET number = 6 WHERE number = 4;", "sales 4 gap"),
    ("UPDATE sales SET moment = 725846399 WHERE number = 1;", "sales 1 value"),
    ("UPDATE sales SET month = 251 WHERE number = 1;", "sales 1 month"),
    ("UPDATE sales SET moment = 1391990430 WHERE number = 1;", "sales 1 month"),
    ("UPDATE sales SET operator = 'ann ' WHERE number = 1;", "sales 1 value"),
    ("UPDATE sales SET ref = '' WHERE number = 1;", "sales 1 value"),
    ("UPDATE sales SET base = 2015 WHERE number = 1;", "sales 1 value"),
    ("UPDATE sales SET base = 2035 WHERE number = 1;", "sales 1 base"),
    ("UPDATE sales SET tid = 16777216 WHERE number = 1;", "sales 1 value"),
    ("UPDATE sales SET tid = 57601 WHERE number = 4;", f"last_ids {METER} 2014 total"),
    ("UPDATE sales SET rnd = 16 WHERE number = 1;", "sales 1 value"),
    ("UPDATE sales SET tenths = 16385 WHERE number = 1;", "sales 1 value"),
    ("UPDATE sales SET tenths = 2 WHERE number = 1;", f"month_tenths {METER} 252 total"),
    ("UPDATE sales SET price = 11 WHERE number = 1;", "sales 1 value"),
    ("UPDATE sales SET price = 9 WHERE number = 1;", "shift_totals 1 total"),
    ("UPDATE sales SET shift = 2 WHERE number = 1;", "shift_totals 1 total"),
    ("UPDATE sales SET tender = 100000001 WHERE number = 1;", "sales 1 value"),
    ("UPDATE sales SET digits = '0007205760262798169' WHERE number = 1;", "sales 1 value"),
    ("DELETE FROM sales WHERE number = 2;", "sales 2 gap"),
    ("DELETE FROM sales WHERE number = 4;", f"last_ids {METER} 2014 total"),
    (NEW_SALE, f"last_ids {METER} 2014 total"),
    # Totals.
    (f"UPDATE last_ids SET meter = '12345678904' WHERE meter = '{METER}';",
     "last_ids 12345678904 value"),
    (f"UPDATE last_ids SET base = 2015 WHERE meter = '{METER}';", f"last_ids {METER} value"),
    (f"UPDATE last_ids SET base = 2035 WHERE meter = '{METER}';", f"last_ids {METER} 2035 surplus"),
    (f"UPDATE last_ids SET tid = 16777216 WHERE meter = '{METER}';", f"last_ids {METER} value"),
    (f"UPDATE last_ids SET tid = 57599 WHERE meter = '{METER}';", f"last_ids {METER} 2014 total"),
    (f"INSERT INTO last_ids VALUES ('{METER}', 1993, 2);", f"last_ids {METER} 1993 surplus"),
    (f"DELETE FROM last_ids WHERE meter = '{METER}';", f"last_ids {METER} 2014 missing"),
    ("DELETE FROM last_ids WHERE base = 1993;", f"last_ids {OTHER_METER} 1993 missing"),
    (f"UPDATE month_tenths SET meter = '12345678904' WHERE meter = '{OTHER_METER}';",
     "month_tenths 12345678904 value"),
    (f"UPDATE month_tenths SET month = -1 WHERE meter = '{OTHER_METER}';",
     f"month_tenths {OTHER_METER} value"),
    (f"UPDATE month_tenths SET month = 254 WHERE meter = '{OTHER_METER}';",
     f"month_tenths {OTHER_METER} 254 surplus"),
    (f"UPDATE month_tenths SET tenths = -1 WHERE meter = '{OTHER_METER}';",
     f"month_tenths {OTHER_METER} value"),
    (f"UPDATE month_tenths SET tenths = 59 WHERE meter = '{OTHER_METER}';",
     f"month_tenths {OTHER_METER} 252 total"),
    (f"INSERT INTO month_tenths VALUES ('{OTHER_METER}', 253, 1);",
     f"month_tenths {OTHER_METER} 253 surplus"),
    (f"DELETE FROM month_tenths WHERE meter = '{OTHER_METER}';",
     f"month_tenths {OTHER_METER} 252 missing"),
    ("UPDATE shift_totals SET shift = 3 WHERE shift = 2;", "shift_totals 3 surplus"),
    ("UPDATE shift_totals SET shift = 0 WHERE shift = 2;", "shift_totals 0 value"),
    ("UPDATE shift_totals SET sales = 3 WHERE shift = 2;", "shift_totals 2 total"),
    ("UPDATE shift_totals SET tenths = 57 WHERE shift = 2;", "shift_totals 2 total"),
    ("UPDATE shift_totals SET cash = -1 WHERE shift = 2;", "shift_totals 2 value"),
    ("UPDATE shift_totals SET cash = 590 WHERE shift = 2;", "shift_totals 2 total"),
    ("INSERT INTO shift_totals VALUES (3, 0, 0, 0);", "shift_totals 3 surplus"),
    ("DELETE FROM shift_totals WHERE shift = 1;", "shift_totals 1 missing"),
    # Bases.
    (f"UPDATE meter_bases SET base = 2000 WHERE meter = '{METER}';", f"meter_bases {METER} value"),
    (f"UPDATE meter_bases SET base = 1993 WHERE meter = '{METER}';", f"meters {METER} base"),
    (f"INSERT INTO meter_bases VALUES ('{METER}', 2035);", f"meter_bases {METER} 2035 base"),
    (f"DELETE FROM meter_bases WHERE meter = '{METER}';", f"meters {METER} base"),
    (f"DELETE FROM meter_bases WHERE meter = '{OTHER_METER}' AND base = 1993;", "sales 2 base"),
    # Steps of later days.
    ("UPDATE dated_steps SET day = -1 WHERE tariff = 'flat';", "dated_steps flat value"),
    ("UPDATE dated_steps SET day = 39081 WHERE tariff = 'flat';", "dated_steps flat value"),
    ("UPDATE dated_steps SET day = 13515 WHERE tariff = 'block' AND place = 1;",
     "dated_steps block 13515 1 steps"),
    ("UPDATE dated_steps SET place = 1 WHERE tariff = 'flat';", "dated_steps flat 13514 1 steps"),
    ("UPDATE dated_steps SET ends = 10 WHERE tariff = 'flat';", "dated_steps flat 13514 0 steps"),
    ("UPDATE dated_steps SET price = 0 WHERE tariff = 'flat';", "dated_steps flat value"),
    ("INSERT INTO dated_steps VALUES ('flat', 13514, 1, NULL, 5);", "dated_steps flat 13514 0 steps"),
    ("DELETE FROM dated_steps WHERE tariff = 'block' AND place = 0;", "dated_steps block 14030 1 steps"),
    ("DELETE FROM dated_steps WHERE tariff = 'block' AND place = 1;", "dated_steps block 14030 0 steps"),
]
# Rows of an office that no requests lead to; in the totals nothing is wrong.
FORGED = [
    ("UPDATE shifts SET closed = NULL WHERE number = 1; UPDATE shifts SET closed = opened WHERE number = 3;",
     "shifts 3 order"),
    ("UPDATE sales SET operator = 'bob' WHERE number = 4;", "sales 4 operator"),
    ("UPDATE sales SET shift = 3 WHERE number = 1; INSERT INTO shift_totals VALUES (3, 1, 1, 10);"
     "UPDATE shift_totals SET sales = 1, tenths = 2, cash = 20 WHERE shift = 1;", "sales 4 order"),
    (f"UPDATE sales SET tid = 147600 WHERE number = 4; UPDATE last_ids SET tid = 147600 WHERE meter ="
     f" '{METER}';", "sales 4 identifier"),
    ("UPDATE sales SET tid = 0 WHERE number = 4; UPDATE sales SET tid = 57600 WHERE number = 1;"
     "UPDATE sales SET tid = 2 WHERE number = 4;", "sales 1 identifier"),
    ("UPDATE sales SET price = 8 WHERE number = 1; UPDATE shift_totals SET cash = 28 WHERE shift = 1;",
     "sales 1 price"),
    (f"UPDATE sales SET tenths = 2 WHERE number = 1; UPDATE month_tenths SET tenths = 2 WHERE meter ="
     f" '{METER}' AND month = 252; UPDATE shift_totals SET tenths = 4 WHERE shift = 1;", "sales 1 price"),
    ("UPDATE sales SET tender = 20 WHERE number = 1;", "sales 1 price"),
    ("UPDATE tariff_steps SET price = 200 WHERE tariff = 'flat';", "sales 1 price"),
    # As if nothing had been sold in the month before.
    (f"UPDATE sales SET tenths = 50, price = 495 WHERE number = 3; UPDATE month_tenths SET tenths = 60"
     f" WHERE meter = '{OTHER_METER}'; UPDATE shift_totals SET tenths = 60, cash = 590 WHERE shift = 2;",
     "sales 3 price"),
    ("UPDATE sales SET digits = '99999999999999999999' WHERE number = 1;", "sales 1 token"),
    ("UPDATE sales SET digits = '00000000000134217728' WHERE number = 4;", "sales 4 token"),
]
# One shift is stored without its last column, which SQLite reads as NULL.
CUT = (
    "CREATE TABLE cut (number INTEGER PRIMARY KEY, operator TEXT NOT NULL, opened INTEGER NOT NULL) STRICT;"
    " INSERT INTO cut SELECT number, operator, opened FROM shifts WHERE number = {0};"
    " ALTER TABLE cut ADD COLUMN closed INTEGER;"
    " INSERT INTO cut SELECT * FROM shifts WHERE number <> {0};"
    " PRAGMA writable_schema = ON; UPDATE sqlite_schema SET rootpage = (SELECT sum(rootpage) FROM"
    " sqlite_schema WHERE name IN ('cut', 'shifts')) - rootpage WHERE name IN ('cut', 'shifts');"
    " PRAGMA writable_schema = RESET; DROP TABLE cut;")
SHORT = [(CUT.format(number), f"shifts {number} value") for number in (2, 3)]
# Only the newer formats have a meter with an earlier base, and steps from a day on.
FORGED_NEWER = [
    (f"UPDATE sales SET base = 2014, tid = 2 WHERE number = 2; UPDATE sales SET base = 1993, tid = 11044803"
     f" WHERE number = 3; UPDATE last_ids SET tid = CASE base WHEN 1993 THEN 11044803 ELSE 2 END WHERE"
     f" meter = '{OTHER_METER}';", "sales 3 base"),
    (BY_DATED_STEPS.format(7671), "sales 1 price"),
]
# Breaks in the order in which they are found: of two in one file the earlier one.
IN_ORDER = [
    "tariffs ? value", "tariff_steps flat value", f"meters {METER} value", "shifts 2 value", "sales 1 month",
    f"last_ids {METER} value", f"month_tenths {OTHER_METER} value", "shift_totals 2 value",
    f"meter_bases {METER} value", "dated_steps flat value",
    "tariff_steps block 2 steps", "tariffs block steps", "dated_steps flat 13514 1 steps",
    "dated_steps flat 13514 0 steps", "meters 20000000008 base", f"meter_bases {METER} 2035 base",
    "shifts 4 gap", "shifts 3 open", "sales 4 gap", "sales 1 base",
    f"last_ids {METER} 1993 surplus", f"last_ids {METER} 2014 total", f"last_ids {OTHER_METER} 1993 missing",
    f"month_tenths {OTHER_METER} 252 total", f"month_tenths {OTHER_METER} 252 missing",
    "shift_totals 3 surplus", "shift_totals 2 total", "shift_totals 1 missing",
    "shifts 3 order", "sales 1 identifier", "sales 1 price", "sales 1 token", "sales 4 operator",
    "sales 4 order", "sales 4 identifier", "sales 4 token",
]
# Breaks of one kind, or of one row.
FIRST_OF_TWO = [
    ("UPDATE tariff_steps SET price = 0 WHERE tariff = 'block' AND place > 0;", "tariff_steps block value"),
    ("UPDATE sales SET month = month + 1 WHERE number > 1;", "sales 2 month"),
    ("UPDATE sales SET month = 251 WHERE number = 2; UPDATE sales SET ref = '' WHERE number = 3;",
     "sales 2 month"),
    ("UPDATE shifts SET number = number + 1 WHERE number = 3; UPDATE shifts SET closed = NULL;",
     "shifts 3 gap"),
    ("UPDATE sales SET number = number + 6 WHERE number > 2;", "sales 3 gap"),
    ("UPDATE sales SET operator = 'eve', digits = '99999999999999999999' WHERE number > 1;",
     "sales 2 operator"),
    ("UPDATE sales SET digits = '99999999999999999999', tender = 99999 WHERE number > 1;", "sales 2 price"),
    (CUT.format(1), "shifts 3 open"),
    (CUT.format(2) + "UPDATE sales SET digits = '00000000000134217728' WHERE number = 4;", "sales 4 token"),
]
# Digits of a token, but of another: they are found by the transform of the office.
OTHER_DIGITS = [
    ("UPDATE sales SET digits = '00000000000000000000' WHERE number = 1;", "sales 1 token"),
    ("UPDATE sales SET digits = (SELECT digits FROM sales WHERE number = 2) WHERE number = 1;", "sales 1 token"),
    ("UPDATE sales SET digits = (SELECT digits FROM sales WHERE number = 3) WHERE number > 2;", "sales 4 token"),
    ("UPDATE sales SET rnd = (rnd + 1) % 16 WHERE number = 2;", "sales 2 token"),
]
# What leaves an office: the rules ask nothing of it.
STILL_SOUND = [
    (f"UPDATE meters SET tariff = 'block' WHERE meter = '{METER}';", COUNTS),
    ("DELETE FROM shifts WHERE number = 3;", "tariffs 2 meters 2 shifts 2 sales 4"),
    ("DELETE FROM dated_steps WHERE tariff = 'block';", COUNTS),
    ("INSERT INTO dated_steps VALUES ('flat', 13600, 0, NULL, 5);", COUNTS),
    ("CREATE TABLE other (id INTEGER PRIMARY KEY); INSERT INTO other VALUES (7);", COUNTS),
    # A purchase by the steps of another tariff, and by steps that begin on the day of the sale.
    ("UPDATE sales SET price = 9 WHERE number = 1; UPDATE shift_totals SET cash = 29 WHERE shift = 1;",
     COUNTS),
    (BY_DATED_STEPS.format(7670), COUNTS),
    ("UPDATE sales SET tender = 19 WHERE number = 1;", COUNTS),
]
# What an opening refuses for every command.
REFUSED = [
    ("UPDATE about SET format = 3;", b"open 1 NotAnOffice\n"),
    ("DELETE FROM about;", b"open 1 NotAnOffice\n"),
    ("DROP TABLE meter_bases;", b"open 1 NotAnOffice\n"),
    # A row that names none of another table.
    ("UPDATE sales SET shift = 9 WHERE number = 1;", b"open 3 Store\n"),
    ("UPDATE meters SET tariff = 'none';", b"open 3 Store\n"),
    ("DELETE FROM tariffs;", b"open 3 Store\n"),
]


def done(file, *words):
    ran = vend(*words[:1], "--file", str(file), *words[1:])
    expect(ran, 0, err=b"")


def full_office(file, folder):
    """An office with a row of each kind in each table."""
    for name, text in (("tariffs", TARIFFS), ("meters", METERS)):
        (folder / f"{name}.csv").write_text(text)
        done(file, "import", "--at", str(AT), name, str(folder / f"{name}.csv"))
    later = AT + 40 * DAY
    sold = [("ann", "A-1", METER, 10, AT), ("bob", "A-1", OTHER_METER, 100, AT + 60),
            ("bob", "B-2", OTHER_METER, 500, AT + 180), ("ann", "A-2", METER, 20, later)]
    for operator in ("ann", "bob"):
        done(file, "shift", "--operator", operator, "--at", str(AT), "open")
    for operator, ref, meter, tender, at in sold:
        if ref == "B-2":
            done(file, "base", "--meter", OTHER_METER, "--base", "2014", "--at", str(AT + 120))
        done(file, "sell", "--operator", operator, "--ref", ref, "--meter", meter, "--tender",
             str(tender), "--at", str(at))
    done(file, "shift", "--operator", "ann", "--at", str(later + 60), "close")
    done(file, "shift", "--operator", "ann", "--at", str(later + DAY), "open")
    change(file, "PRAGMA wal_checkpoint(TRUNCATE);")


def is_told(file, status, out=b"", err=b"", words=()):
    """Compares what is printed of a file, which is left as it was."""
    before = file.read_bytes()
    expect(vend("audit", "--file", str(file), *words), status, out, err)
    if file.read_bytes() != before:
        raise SystemExit(f"wrong: {file} has changed when it was audited")


def is_sound_office(file, number, counts):
    """Also where its tokens are tested, by the transform that wrote them."""
    for words in ((), PLAIN):
        is_told(file, 0, f"sound format {number} {counts}\n".encode(), words=words)


def is_broken_office(file, found):
    """Tokens are tested after the rules, so that none is found, whatever the transform."""
    for words in ((), PLAIN, DEMO):
        is_told(file, 1, f"broken {found}\n".encode(), words=words)


def has_other_digits(file, found):
    """They are digits of some token, which is seen by the transform alone."""
    is_told(file, 1, f"broken {found}\n".encode(), words=PLAIN)
    is_told(file, 1, b"broken sales 1 token\n", words=DEMO)


def has_short_shift(file, found):
    """Shifts are looked at last of all."""
    for words in ((), PLAIN):
        is_told(file, 1, f"broken {found}\n".encode(), words=words)
    is_told(file, 1, b"broken sales 1 token\n", words=DEMO)


def spoil(whole, file, text):
    """A copy of an office with other rows, in a file alone."""
    shutil.copy(whole, file)
    change(file, text + "PRAGMA wal_checkpoint(TRUNCATE);")


def check_formats(whole, folder):
    """Sound and forged offices of each format."""
    file = folder / "older.db"
    for number in range(1, FORMAT + 1):
        back = back_to(number)
        if number < 3:
            # A meter has one base in them; under this one the identifier is that of the minute.
            back += "UPDATE sales SET base = 2014, tid = 2 WHERE base = 1993;"
        if number == 2:
            back += "DELETE FROM last_ids WHERE base = 1993;"
        spoil(whole, file, back)
        if number < 3:
            # Its digits are still those of the identifier that it had.
            is_told(file, 0, f"sound format {number} {COUNTS}\n".encode())
            has_other_digits(file, "sales 2 token")
        else:
            is_sound_office(file, number, COUNTS)
        for text, found in FORGED + (FORGED_NEWER if number > 2 else []):
            spoil(whole, file, text + back)
            is_broken_office(file, found)
        for text, found in SHORT:
            spoil(whole, file, text + back)
            is_told(file, 1, f"broken {found}\n".encode())
        for text, found in OTHER_DIGITS[:1]:
            spoil(whole, file, text + back)
            has_other_digits(file, found)


def check_pairs(whole, folder):
    """Two breaks in one file, of other tables: the earlier one is found. How many such files there were."""
    texts, file = {}, folder / "twice.db"
    for text, found in SPOILT + FORGED:
        texts.setdefault(found, text)
    tables = {found: {table for table in tables_of(FORMAT) if re.search(rf"\b{table}\b", texts[found])}
              for found in IN_ORDER}
    pairs = [(one, other) for one, other in itertools.combinations(IN_ORDER, 2)
             if not tables[one] & tables[other]]
    for one, other in pairs:
        spoil(whole, file, texts[one] + texts[other])
        is_told(file, 1, f"broken {one}\n".encode())
    for text, found in FIRST_OF_TWO:
        spoil(whole, file, text)
        is_told(file, 1, f"broken {found}\n".encode())
    return len(pairs) + len(FIRST_OF_TWO)


def drawn(generator, refs, moves):
    """A request of a till: its path and its body, or none, where something is withdrawn. Where bases are not moved,
    the tariff of a meter is set."""
    operator = generator.choice("abc")
    kind = generator.random()
    if kind < 0.04:
        return "/shifts", {"operator": operator}
    if kind < 0.06:
        return "/shifts/close", {"operator": operator}
    if kind < 0.08:
        name = f"t{generator.randrange(9)}"
        return "/tariffs", {"name": name, "steps": generator.choice((":9", "5:90;:120", "9:3;4:5;:6"))}
    if kind < 0.10:
        day = f"{generator.randrange(2090, 2099)}-0{generator.randrange(1, 10)}-01"
        if generator.random() < 0.3:
            return f"/tariffs/t{generator.randrange(9)}/steps/{day}", None
        return f"/tariffs/t{generator.randrange(9)}/steps", {"from": day, "steps": ":7"}
    meter = generator.choice(METERS_DRAWN)
    if kind < 0.13:
        return "/meters", {"base": generator.choice((1993, 2014)), "key": "00" * 8, "meter": meter,
                           "tariff": f"t{generator.randrange(9)}"}
    if moves and kind < 0.15:
        return f"/meters/{meter}/base", {"base": generator.choice((1993, 2014, 2035))}
    if kind < 0.155:
        return f"/meters/{meter}/key", {"key": generator.choice("0f") * 16}
    if kind < 0.17:
        return f"/meters/{meter}/tariff", {"tariff": f"t{generator.randrange(9)}"}
    ref = f"R-{generator.choice(refs) if refs and generator.random() < 0.1 else len(refs)}"
    refs.append(len(refs))
    return "/sales", {"meter": meter, "operator": operator, "ref": ref,
                      "tender": generator.randrange(1, 5000)}



def check_drawn(folder, count):
    """Requests that are drawn, asked of a desk in six lives. After each an audit counts what the desk has
    answered, also where the file is taken back to an older format: in the later lives, in which meters are
    moved to later bases, to one that has these."""
    file, older = folder / "drawn.db", folder / "older.db"
    generator, refs = random.Random(7), []
    made = {"tariffs": set(), "meters": set(), "shifts": set(), "sales": set()}
    for life in range(6):
        words = [VEND, "serve", "--file", str(file), "--listen", "127.0.0.1:0", "--connections", "1"]
        with subprocess.Popen(words, stderr=subprocess.PIPE, text=True) as desk:
            port = int(desk.stderr.readline().rpartition(":")[2])
            talk = http.client.HTTPConnection("127.0.0.1", port, timeout=30)
            for _ in range(count // 6):
                path, body = drawn(generator, refs, life >= 3)
                talk.request("POST" if body else "DELETE", path, json.dumps(body) if body else None)
                reply = talk.getresponse()
                said = json.loads(reply.read())
                if reply.status == 200 and path.strip("/") in made:
                    made[path.strip("/")].add(said.get("number") or said.get("shift") or body.get("meter")
                                              or body["name"])
            talk.close()
            if desk.wait(30):
                raise SystemExit(f"wrong: a desk ended with {desk.returncode}")
        counts = " ".join(f"{kind} {len(them)}" for kind, them in made.items())
        is_sound_office(file, FORMAT, counts)
        for number in range(1 if life < 3 else 3, FORMAT):
            spoil(file, older, back_to(number))
            is_sound_office(older, number, counts)
    if len(made["sales"]) < count // 10:
        raise SystemExit(f"only {len(made['sales'])} of {count} drawn requests sold")
    return len(made["sales"])


def check_audits(folder):
    """What is an office is sound, and what is none is broken where it was spoilt."""
    folder = folder / "audits"
    folder.mkdir()
    missing = folder / "missing.db"
    expect(vend("audit", "--file", str(missing)), 1, b"", b"file\n")
    if list(folder.iterdir()):
        raise SystemExit("wrong: an audit made a file")
    whole, file = folder / "whole.db", folder / "office.db"
    full_office(whole, folder)
    is_sound_office(whole, FORMAT, COUNTS)
    for text, found in SPOILT + FORGED + FORGED_NEWER:
        spoil(whole, file, text)
        is_broken_office(file, found)
    for text, found in SHORT:
        spoil(whole, file, text)
        has_short_shift(file, found)
    for text, found in OTHER_DIGITS:
        spoil(whole, file, text)
        is_told(file, 0, f"sound format {FORMAT} {COUNTS}\n".encode())
        has_other_digits(file, found)
    for text, counts in STILL_SOUND:
        spoil(whole, file, text)
        is_sound_office(file, FORMAT, counts)
    for text, said in REFUSED:
        spoil(whole, file, text)
        is_told(file, 1, err=said)
    check_formats(whole, folder)
    twice = check_pairs(whole, folder)
    sold = check_drawn(folder, 3000)
    print(f"audits: {len(SPOILT)} spoilt offices and {len(FORGED + FORGED_NEWER)} forged ones in each format,"
          f" {len(SHORT)} with a shift cut short, {len(OTHER_DIGITS)} with digits of other tokens,"
          f" {twice} with two breaks, each named by the first; {len(STILL_SOUND) + FORMAT} sound ones; 3000"
          f" drawn requests, {sold} of them sales, sound in each format")
