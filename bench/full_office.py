"""Offices with many sales, of any format, written by Python's sqlite3 into the tables that the
program's source defines. The program itself would sell for minutes. Their rows keep the rules of
docs/OFFICE.md, so that such a file is an office.
"""
import sqlite3

from peer_office import (BASES, DAY, day_of, in_one_line, month_of, purchase, read_source, read_texts,
                         token)

TABLES_OF = {1: 6, 2: 9, 3: 10, 4: 11}  # how many of the tables a format has
BASE = 2014
KEY = "0" * 16
PRICE = 100  # cents per kWh
TENDER = 1000
# What each format keeps beside what was kept before it.
TOTALS = (
    "INSERT INTO last_ids (meter, base, tid) "
    "SELECT meter, base, max(tid) FROM sales GROUP BY meter, base",
    "INSERT INTO month_tenths (meter, month, tenths) "
    "SELECT meter, month, sum(tenths) FROM sales GROUP BY meter, month",
    "INSERT INTO shift_totals (shift, sales, tenths, cash) "
    "SELECT shift, count(*), sum(tenths), sum(price) FROM sales GROUP BY shift",
)
MADE_BASES = ("INSERT INTO meter_bases (meter, base) SELECT meter, base FROM meters",)
KEPT = "last_ids", "month_tenths", "shift_totals", "meter_bases", "dated_steps", "about"


def meter_number(place):
    """The meter number of a place, with its Luhn check."""
    digits = f"{1000000000 + place:010d}"
    doubled = sum(sum(divmod(2 * int(digit), 10)) for digit in digits[::-2])
    return digits + str(-(doubled + sum(map(int, digits[-2::-2]))) % 10)


def read_tables():
    """The texts that make the tables, in their order."""
    [part] = [part for part in read_source() if part.startswith("TABLES:")]
    return [in_one_line(text) for text in part.split('"')[1::2]]


def minutes_until(last, count):
    """So many minutes that may be sold, up to the last one, in their order."""
    minutes = []
    while len(minutes) < count:
        if last % DAY != 1:
            minutes.append(last)
        last -= 1
    return minutes[::-1]


def sales_of(buyers, count, until):
    """The rows of so many sales, a minute after another to each buyer in turn; the last ones are at
    the moment given or before it."""
    tenths, price, code = purchase([(None, PRICE)], 0, TENDER)
    last = (until - BASES[BASE]) // 60
    number = 0
    for tid in minutes_until(last, -(-count // len(buyers))):
        moment = BASES[BASE] + 60 * tid
        month = month_of(moment)
        for meter in buyers[:count - number]:
            number += 1
            rnd = number % 16
            yield (number, moment, month, 1, "ann", f"F-{number:07d}", meter, BASE, tid, rnd,
                   tenths, price, TENDER, token(rnd, tid, code))


def fill(conn, form, meters, sales, opened):
    texts = read_texts()
    for text in read_tables()[:TABLES_OF[form]]:
        conn.execute(text)
    conn.execute("INSERT INTO about (id, format) VALUES (1, ?)", (form,))
    conn.execute(texts["NEW_TARIFF"], ("flat",))
    conn.execute(texts["NEW_STEP"], ("flat", 0, None, PRICE))
    conn.execute(texts["NEW_SHIFT"], (1, "ann", opened, None))
    conn.executemany(texts["NEW_METER"], ((meter, BASE, "flat", KEY) for meter in meters))
    conn.executemany(texts["NEW_SALE"], sales)
    for text in (TOTALS if form > 1 else ()) + (MADE_BASES if form > 2 else ()):
        conn.execute(text)


def fill_lists(conn, members, today):
    """So many tariffs more, each with three steps and further ones from two days on, of which one has
    come; and so many shifts more, each closed without a sale."""
    texts = read_texts()
    for number in range(members):
        name = f"t-{number:04d}"
        steps = [(place, 500 * (place + 1) if place < 2 else None, PRICE + place) for place in range(3)]
        conn.execute(texts["NEW_TARIFF"], (name,))
        conn.executemany(texts["NEW_STEP"], ((name, *step) for step in steps))
        conn.executemany(texts["NEW_DATED_STEP"], ((name, day, *step) for day in (today - 1, today + 30)
                                                   for step in steps))
        conn.execute(texts["NEW_SHIFT"], (2 + number, f"o{number}", BASES[BASE], BASES[BASE] + 60))


def make_office(path, form, meters, buyers, count, until, members=0):
    """A file of a format with these meters and an open shift of ann's, and with so many sales, and so
    many tariffs and shifts more."""
    conn = sqlite3.connect(path, isolation_level=None)
    for setting in ("journal_mode = WAL", "synchronous = OFF", "foreign_keys = ON"):
        conn.execute(f"PRAGMA {setting}")
    conn.execute("BEGIN")
    fill(conn, form, meters, sales_of(buyers, count, until), BASES[BASE])
    fill_lists(conn, members, day_of(until))
    conn.execute("COMMIT")
    conn.close()


def kept_rows(path):
    """What a file of the present format keeps beside the tables of format 1, and which it is."""
    conn = sqlite3.connect(path)
    rows = {name: sorted(conn.execute(f"SELECT * FROM {name}")) for name in KEPT}
    conn.close()
    return rows
