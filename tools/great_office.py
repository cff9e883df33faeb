"""An office of 131,073 sales in one shift, which is more than 2^17, all of whose rows another program wrote: a part of
tools/check_program. It is no script of its own.

Each expected line is computed here, by the rules. Two meters buy by turns, each once a minute, so that no
identifier is ahead of its moment; the last sales are of February."""
import contextlib
import itertools
import sqlite3
import subprocess
import time
from collections import defaultdict

from many_sales import ORACLE, sound
from program import METER, OTHER_METER, VEND, prepare
from shared import FORMAT, same

COUNT = 2**17 + 1
METERS = (OTHER_METER, METER)
BASE = 1388534400  # 2014-01-01, in which an identifier is a minute
LONGEST = 120  # seconds for one run: an opening checks each row, and takes some 2 s of an idle computer
DAY = 1440  # minutes


def identifiers():
    """Of one sale a minute to a meter: from the third minute on, without the second one of each day, which is never
    given."""
    return (minute for minute in itertools.count(2) if minute % DAY != 1)


def sales_of(count):
    """The columns of each sale, of one to nine tenths of a kWh at 10 cents, with up to nine cents too much."""
    free = [identifiers() for _ in METERS]
    for number in range(1, count + 1):
        tid, tenths = next(free[number % 2]), 1 + number % 9
        moment = BASE + 60 * tid + 30
        day = time.gmtime(moment)
        month = 12 * (day.tm_year - 1993) + day.tm_mon - 1
        digits = ORACLE.token_of("plain", 0, number % 16, tid, tenths)
        yield (number, moment, month, 1, "ann", f"A-{number}", METERS[number % 2], 2014, tid, number % 16, tenths,
               10 * tenths, 10 * tenths + number % 10, digits)


def write(file, sales):
    """Puts the sales, and the totals of them, into an office with a shift."""
    last, tenths = {}, defaultdict(int)
    for _, _, month, _, _, _, meter, _, tid, _, bought, *_ in sales:
        last[meter] = tid
        tenths[meter, month] += bought
    with contextlib.closing(sqlite3.connect(file, isolation_level=None)) as base:
        base.execute("BEGIN")
        base.executemany(f"INSERT INTO sales VALUES ({', '.join('?' * 14)})", sales)
        base.executemany("INSERT INTO last_ids VALUES (?, 2014, ?)", last.items())
        base.executemany("INSERT INTO month_tenths VALUES (?, ?, ?)", ((*key, it) for key, it in tenths.items()))
        base.execute("INSERT INTO shift_totals VALUES (1, ?, ?, ?)", sums(sales))
        base.execute("COMMIT")
        base.execute("PRAGMA wal_checkpoint(TRUNCATE)")


def sums(sales):
    """How many sales there are, their tenths, and their prices."""
    return len(sales), sum(sale[10] for sale in sales), sum(sale[11] for sale in sales)


def time_of(moment):
    return time.strftime("%Y-%m-%dT%H:%M:%SZ", time.gmtime(moment))


def line_of(sale):
    """Of an export, and of the list of sales."""
    number, moment, _, shift, operator, ref, meter, base, tid, _, tenths, price, tender, digits = sale
    return f"{number},{moment},{shift},{operator},{ref},{meter},{base},{tid},{tenths},{price},{tender},{tender - price},{digits}\n"


def report(sales):
    lines = ["SHIFT 1 ann", "OPENED 2014-01-01T00:00:30Z", "CLOSED -"]
    for number, *_, tenths, price, tender, _ in sales:
        lines.append(f"{number:10} {METERS[number % 2]} {tenths:8} {price:9} {tender:9} {tender - price:9}")
    lines += map(" ".join, zip(("SALES", "TENTHS", "CASH"), map(str, sums(sales))))
    return "".join(f"{line}\n" for line in lines)


def receipt(sale):
    number, moment, *_, meter, _, _, _, tenths, price, tender, digits = sale
    groups = " ".join(digits[place:place + 4] for place in range(0, 20, 4))
    return (f"SALE {number}\nMETER {meter}\nTIME {time_of(moment)}\nKWH {tenths // 10}.{tenths % 10}\nPRICE {price}\n"
            f"TENDER {tender}\nCHANGE {tender - price}\nTOKEN {groups}\n")


def next_sale(sales):
    """The sale after all to the meter of the last one, in the minute behind its last: 0.1 kWh for ten cents."""
    number, moment, month, shift, operator, _, meter, base, tid, *_ = sales[-1]
    number, tid = number + 1, next(it for it in identifiers() if it > tid)
    digits = ORACLE.token_of("plain", 0, number % 16, tid, 1)
    return number, BASE + 60 * tid + 30, month, shift, operator, "next", meter, base, tid, number % 16, 1, 10, 10, digits


def check_great(folder, count=COUNT):
    """Each command that reads many rows, a sale, and an audit at the end."""
    file, begun = folder / "great.db", time.monotonic()
    prepare(file)
    sales = [*sales_of(count)]
    write(file, sales)
    last, new = sales[-1], next_sale(sales)
    meter, month = last[6], last[2]
    bought = sum(sale[10] for sale in sales if sale[6] == meter and sale[2] == month)
    head = "number,moment,shift,operator,ref,meter,base,tid,tenths,price,tender,change,token\n"
    whole = head + "".join(map(line_of, sales))
    totals = "shift 1 sales {} tenths {} cash {}\n"
    at = ["--at", str(new[1])]
    sell = ["sell", *at, "--operator", "ann", "--ref", "next", "--meter", meter, "--tender", "10"]
    after = max(count - 250, 0)  # so that the list has three pages
    for words, printed in (
            (["report", "--kind", "totals"], totals.format(*sums(sales))),
            (["report", "--kind", "shift", "--number", "1"], report(sales)),
            (["report", "--kind", "sales"], whole),
            (["show", *at, "last", "--meter", meter], receipt(last)),
            (["show", *at, "meter", "--meter", meter],
             f"meter\tbase\ttariff\ttenths\tsale\n{meter}\t2014\tflat\t{bought}\t{count}\n"),
            (["list", *at, "--after", str(after), "sales"], head + "".join(map(line_of, sales[after:]))),
            (["audit", "--transform", "plain"], sound(FORMAT, 2, 1, count).decode()),
            (sell, receipt(new)),
            (["report", "--kind", "totals"], totals.format(*sums([*sales, new]))),
            (["audit", "--transform", "plain"], sound(FORMAT, 2, 1, count + 1).decode())):
        ran = subprocess.run([VEND, *words, "--file", file], capture_output=True, stdin=subprocess.DEVNULL, timeout=LONGEST)
        # Of megabytes no more is shown than where they part.
        same((ran.returncode, ran.stderr), (0, b""), words)
        if ran.stdout != printed.encode():
            pairs = itertools.zip_longest(ran.stdout.decode().splitlines(), printed.splitlines())
            same(*next(pair for pair in pairs if pair[0] != pair[1]), f"{words}, the first other line")
    print(f"a great office: {count} sales in one shift, under 10 commands, in {time.monotonic() - begun:.0f} s")
