"""An office of many sales and shifts, whose rows another program wrote, and one of many meters: a part of
tools/check_program. It is no script of its own."""
import shutil
from importlib.machinery import SourceFileLoader
from importlib.util import module_from_spec, spec_from_loader

from cut_outputs import Ran, limited, run
from long_work import check_told
from program import (AT, METER, OTHER_METER, RECEIPT, TOP, change, expect, is_sound, prepare, query, sell_words,
                     vend)
from shared import FORMAT, back_to, same

SALES, SHIFTS = 2001, 300
METERS = (OTHER_METER, METER)


def oracle():
    """The office of tools/oracle, which has the rules alone."""
    loader = SourceFileLoader("oracle", str(TOP / "tools" / "oracle"))
    module = module_from_spec(spec_from_loader("oracle", loader))
    loader.exec_module(module)
    return module


ORACLE = oracle()


def token(number, tid):
    """Of a sale for ten cents by the tariff flat, to a meter of the key 0."""
    return ORACLE.token_of("plain", 0, number % 16, tid, 1)


def sale(number):
    """The meter, the identifier and the token of a sale: sales are to two meters by turns."""
    tid = (number + 1) // 2 + 1
    return METERS[number % 2], tid, token(number, tid)


def rows():
    """What the tables have of the sales behind the first one, and of the shifts behind the first."""
    for number in range(2, SALES + 1):
        meter, tid, digits = sale(number)
        yield (f"INSERT INTO sales VALUES ({number}, {AT}, 252, 1, 'ann', 'A-{number}', '{meter}', "
               f"2014, {tid}, {number % 16}, 1, 10, 10, '{digits}');")
    for place, meter in enumerate(METERS):
        count = (SALES + place) // 2
        yield f"INSERT OR REPLACE INTO last_ids VALUES ('{meter}', 2014, {count + 1});"
        yield f"INSERT OR REPLACE INTO month_tenths VALUES ('{meter}', 252, {count});"
    yield f"UPDATE shift_totals SET sales = {SALES}, tenths = {SALES}, cash = {10 * SALES};"
    for number in range(2, SHIFTS + 2):
        yield f"INSERT INTO shifts VALUES ({number}, 'bob', {AT}, {AT});"


def export():
    lines = ["number,moment,shift,operator,ref,meter,base,tid,tenths,price,tender,change,token"]
    for number in range(1, SALES + 1):
        meter, tid, digits = sale(number)
        lines.append(f"{number},{AT},1,ann,A-{number},{meter},2014,{tid},1,10,10,0,{digits}")
    return "".join(f"{line}\n" for line in lines).encode()


def check_gaps(whole, file):
    """The export of a file from which sales were deleted has each of the others once, on whatever page they are."""
    shutil.copy(whole, file)
    header, *sales = export().splitlines(True)
    gone = set()
    # A page begins behind the last sale of the one before it, and not at a number that it would have.
    for numbers in ([5], [1000, 1001], [1], range(700, 1800)):
        gone.update(numbers)
        change(file, f"DELETE FROM sales WHERE number BETWEEN {numbers[0]} AND {numbers[-1]};")
        left = header + b"".join(sale for number, sale in enumerate(sales, start=1) if number not in gone)
        for words in (["report", "--kind", "sales"], ["list", "--at", AT, "sales"]):
            expect(vend(words[0], "--file", str(file), *words[1:]), 0, left, b"")


def report():
    lines = ["SHIFT 1 ann", "OPENED 2014-01-01T00:00:30Z", "CLOSED -"]
    for number in range(1, SALES + 1):
        lines.append(f"{number:10} {METERS[number % 2]}        1        10        10         0")
    lines += [f"SALES {SALES}", f"TENTHS {SALES}", f"CASH {10 * SALES}"]
    return "".join(f"{line}\n" for line in lines).encode()


def receipt(number, meter, digits):
    groups = " ".join(digits[place:place + 4] for place in range(0, 20, 4))
    return (f"SALE {number}\nMETER {meter}\nTIME 2014-01-01T00:00:30Z\nKWH 0.1\nPRICE 10\n"
            f"TENDER 10\nCHANGE 0\nTOKEN {groups}\n").encode()


def meter_of(digits):
    """The meter's number of ten digits: the last one is their check by Luhn's formula."""
    doubled = [int(digit) * (1 + place % 2) for place, digit in enumerate(reversed(digits), start=1)]
    return digits + str(-sum(it // 10 + it % 10 for it in doubled) % 10)


def check_many_meters(folder):
    """As many rows as a file may have: none is added where the last is refused, or all."""
    file, csv = folder / "meters.db", folder / "many.csv"
    prepare(file)
    bring = ["import", "--file", str(file), "--at", AT, "meters", str(csv)]
    rows = [f"{meter_of(f'{number:010}')},2014,flat,{'0' * 16}\n" for number in range(10_000)]
    header = "meter,base,tariff,key\n"
    csv.write_text(header + "".join(rows[:-1]) + rows[-1].replace("flat", "none"))
    expect(vend(*bring), 1, b"", b"refused 14 ImportRow 10000 NoTariff\n")
    if query(file, "SELECT count(*) FROM meters;") != ["2"]:
        raise SystemExit("wrong: an import that was refused has added rows")
    csv.write_text(header + "".join(rows))
    for added in (b"added 10000\n", b"added 0\n"):
        expect(vend(*bring), 0, added, b"")
    csv.write_text(header + "".join(rows) + rows[0])
    expect(vend(*bring), 1, b"", b"refused 14 ImportRow 10001 TooManyRows\n")
    is_sound(file)
    expect(vend("audit", "--file", str(file)), 0, sound(FORMAT, meters=10_002, shifts=1, sales=0), b"")


def sound(number, meters, shifts, sales):
    """What an audit prints of a file of a format with one tariff."""
    counts = f"tariffs 1 meters {meters} shifts {shifts} sales {sales}"
    return f"sound format {number} {counts}\n".encode()


def check_many(folder):
    """Papers of many sales; their export with gaps, cut in each of its pages, and from a file of each format."""
    file = folder / "many.db"
    prepare(file)
    expect(vend(*sell_words(file, "A-1")), 0, RECEIPT, b"")
    change(file, "\n".join(["BEGIN;", *rows(), "COMMIT;"]))
    of = ["report", "--file", str(file), "--kind"]
    last, whole = str(SHIFTS + 1), export()
    meter, tid, digits = sale(SALES)
    totals = f"shift 1 sales {SALES} tenths {SALES} cash {10 * SALES}\n".encode()
    papers = [
        (["totals"], totals),
        (["totals", "--number", last], f"shift {last} sales 0 tenths 0 cash 0\n".encode()),
        (["shift"], report()),
        (["receipt", "--number", str(SALES)], receipt(SALES, meter, digits)),
        (["sales"], whole),
    ]
    for words, paper in papers:
        expect(vend(*of, *words), 0, paper, b"")
    check_told([*of, "sales"], whole, SALES)
    with limited():
        for room in (40_000, 100_000, len(whole) - 1):
            same(run(folder, [*of, "sales"], room), Ran(1, whole[:room], b""), room)
    change(file, "PRAGMA wal_checkpoint(TRUNCATE);")
    check_gaps(file, folder / "gaps.db")
    audit = ["audit", "--file", str(file)]
    expect(vend(*audit), 0, sound(FORMAT, 2, SHIFTS + 1, SALES), b"")
    for number in range(1, FORMAT):
        change(file, back_to(number))
        expect(vend(*audit), 0, sound(number, 2, SHIFTS + 1, SALES), b"")
        expect(vend(*of, "sales"), 0, whole, b"")
        expect(vend(*of, "totals"), 0, totals, b"")
    # The last order again, whose meter has the next sale too.
    expect(vend(*sell_words(file, f"A-{SALES}")), 0, receipt(SALES, meter, digits), b"")
    expect(vend(*sell_words(file, "next")), 0,
           receipt(SALES + 1, meter, token(SALES + 1, tid + 1)), b"")
    is_sound(file)
    if query(file, "SELECT count(*) FROM sales;") != [str(SALES + 1)]:
        raise SystemExit("wrong: the sales after many")
    check_many_meters(folder)
    print(f"many sales: the reports of {SALES} sales and {SHIFTS + 1} shifts, and of each older format; "
          "imports of 10000 meters")
