"""A row that is no office's, under every command that may read it: a part of tools/check_program and
tools/check_at_desk. It is no script of its own.

Rows of each table but `about`, whose are in no_offices.py, are spoilt one at a time. A command that reads such a
row (`commands`, from docs/OFFICE.md: what each request and each look-up looks at), or whose change the tables do
not take beside it, is refused with 16, prints nothing and changes nothing; every other prints what it prints where
no row is spoilt. Each kind of change is made by one of the commands at least. Of the last sale it is the opening
that is refused. What changes nothing is asked of a desk too, and each change once, in turn (`changes`); its health
looks at no row. A list or an export whose second page has such a row prints the first one, and is refused behind
it."""
import http.client
import shutil

from clocked_desk import Clocked, rows_of as desk_rows, run
from many_sales import ORACLE, SALES as MANY_SALES, export, rows as many_rows
from no_offices import NO_OFFICE, rows_of
from program import (METER, OTHER_METER, RECEIPT, SPENT as MOVED_METER, WAIT, change, expect, prepare, sell_words,
                     vend)
from shared import FORMAT, luhn, same, wrong

AT = "1388534430"  # 2014-01-01
LATER = "1391126430"  # thirty days later
IN_2035 = "2051308800"  # 2035-01-02
NEW_METER, UNSOLD_METER = "20000000008", "40000000006"
KEY, OTHER_KEY = "0000000000000000", "0000000000000001"
PAGE = 100  # members of a list
EXPORT_PAGE = 1000  # sales of an export of a file; at a desk it is a list
TARIFFS = {
    # `flat` has other steps from a day on; `later` has them from a day that has not come; `plain` has them from
    # one behind all sales.
    "tariffs": "name,steps,from\nflat,:100,\nflat,:200,2014-01-15\nlater,:100,\nlater,:300,2014-03-01\n"
               "plain,:50,\nplain,:60,2036-01-01\n",
    "meters": f"meter,base,tariff,key\n{METER},2014,flat,{KEY}\n{OTHER_METER},2014,later,{KEY}\n"
              f"{MOVED_METER},2014,plain,{KEY}\n{UNSOLD_METER},2014,plain,{KEY}\n",
    "new-tariff": "name,steps,from\nfresh,:100,\n",
    "new-meter": f"meter,base,tariff,key\n{NEW_METER},2014,plain,0000000000000000\n",
    "known-meter": f"meter,base,tariff,key\n{OTHER_METER},2014,later,0000000000000000\n",
    "known-meters": f"meter,base,tariff,key\n{METER},2014,flat,0000000000000000\n"
                    f"{OTHER_METER},2014,later,0000000000000000\n",
    # Nothing is looked at behind a row that differs.
    "other-key": f"meter,base,tariff,key\n{METER},2014,flat,0000000000000001\n"
                 f"{OTHER_METER},2014,later,0000000000000000\n",
    "known-tariff": "name,steps,from\nflat,:100,\n",
    "known-steps": "name,steps,from\nflat,:200,2014-01-15\n",
    "other-tariff": "name,steps,from\nflat,:150,\nlater,:100,\nlater,:300,2014-03-01\n",
    "other-steps": "name,steps,from\nflat,:250,2014-01-15\nflat,:100,\n",
}
REFUSED = (1, b"", b"refused 16 Store\n")
DONE = (0, b"done\n", b"")
OTHER_ROW = (1, b"", b"refused 14 ImportRow 1 Differs\n")
# A row, and what makes it no office's.
SPOILT = {
    # Names that are none, before all tariffs and behind them, and a tariff of which there are no steps.
    "name-before": "INSERT INTO tariffs VALUES ('_');",
    "name-behind": "INSERT INTO tariffs VALUES ('plain_');",
    "stepless": "INSERT INTO tariffs VALUES ('stepless');",
    # No request looks at the bases that a meter has or had; a move adds one, and here it is taken.
    "had-base": f"UPDATE meter_bases SET base = 2015 WHERE meter = '{METER}';",
    "left-base": f"UPDATE meter_bases SET base = 1992 WHERE meter = '{MOVED_METER}' AND base = 2014;",
    "later-base": f"INSERT INTO meter_bases VALUES ('{METER}', 2035);",
    "meter": f"UPDATE meters SET secret = 'xyz' WHERE meter = '{METER}';",
    "other-meter": f"UPDATE meters SET base = 2015 WHERE meter = '{OTHER_METER}';",
    "flat-steps": "UPDATE tariff_steps SET price = 0 WHERE tariff = 'flat';",
    "flat-later": "UPDATE dated_steps SET price = 0 WHERE tariff = 'flat';",
    "later-steps": "UPDATE tariff_steps SET price = 0 WHERE tariff = 'later';",
    "later-later": "UPDATE dated_steps SET price = 0 WHERE tariff = 'later';",
    "plain-steps": "UPDATE tariff_steps SET price = 0 WHERE tariff = 'plain';",
    "plain-later": "UPDATE dated_steps SET price = 0 WHERE tariff = 'plain';",
    "last-id": f"UPDATE last_ids SET tid = 16777216 WHERE meter = '{METER}';",
    "month": f"UPDATE month_tenths SET tenths = -1 WHERE meter = '{METER}';",
    # Of a meter that was moved: its base that it left, and the one that it has.
    "left-id": f"UPDATE last_ids SET tid = 16777216 WHERE meter = '{MOVED_METER}' AND base = 2014;",
    "moved-id": f"UPDATE last_ids SET tid = 16777216 WHERE meter = '{MOVED_METER}' AND base = 2035;",
    "left-month": f"UPDATE month_tenths SET tenths = -1 WHERE meter = '{MOVED_METER}' AND month = 252;",
    # A sale adds to these, and looks at the sums.
    "totals": "UPDATE shift_totals SET sales = -7 WHERE shift = 1;",
    "closed-totals": "UPDATE shift_totals SET cash = -7 WHERE shift = 2;",
    "shift": "UPDATE shifts SET opened = -1 WHERE number = 1;",
    "closed-shift": "UPDATE shifts SET operator = 'b b' WHERE number = 2;",
    "sale": "UPDATE sales SET tid = 16777216 WHERE number = 1;",
    "other-sale": "UPDATE sales SET digits = 'x' WHERE number = 2;",
    "left-sale": "UPDATE sales SET rnd = 16 WHERE number = 4;",
    # An opening reads the last sale.
    "last-sale": "UPDATE sales SET rnd = 16 WHERE number = 5;",
}
SALES = {"sale", "other-sale", "left-sale"}
# What a list of tariffs meets behind the first one.
NAMES_BEHIND = {"name-behind", "stepless"}
NAMES = NAMES_BEHIND | {"name-before"}
# The steps of a day are the latest that have begun.
PLAIN = {"plain-steps", "plain-later"}
STEPS = {"flat-later", "later-steps", "later-later"} | PLAIN
# What is asked of a desk as well.
READING = {"offer", "report", "show", "list"}
# Each kind of change (`kind_of`), of which one command at least makes one.
CHANGES = {("sell",), ("import", "tariffs"), ("import", "meters"), ("shift", "open"), ("shift", "close"), ("tariff",),
           ("base",), ("withdraw",), ("key",)}


def commands(file, texts):
    """Each command, and the rows that it reads of those that may be spoilt."""
    at, now, late = (["--file", file, "--at", moment] for moment in (AT, LATER, IN_2035))
    old = ["--file", file]
    sell = ["sell", *now, "--operator", "ann", "--tender", "1000"]
    report = ["report", *old, "--kind"]
    yield [*sell, "--ref", "N-1", "--meter", METER], {"shift", "meter", "flat-later", "last-id", "month", "totals"}
    yield [*sell, "--ref", "N-1", "--meter", OTHER_METER], {"shift", "other-meter", "later-steps", "totals"}
    yield [*sell, "--ref", "N-1", "--meter", NEW_METER], {"shift"}
    # Orders that come again, the second one after its shift was closed.
    again = ["--tender", "1000", "--operator"]
    yield ["sell", *at, *again, "ann", "--ref", "A-1", "--meter", METER], {"sale"}
    yield ["sell", *now, *again, "bob", "--ref", "B-1", "--meter", OTHER_METER], {"other-sale"}
    # Of a new order whose operator has no open shift nothing else is looked at.
    yield ["sell", *now, *again, "bob", "--ref", "N-1", "--meter", METER], set()
    yield ["offer", *now, "--meter", METER, "1000"], {"meter", "flat-later", "last-id", "month"}
    yield ["offer", *now, "--meter", OTHER_METER, "1000"], {"other-meter", "later-steps"}
    yield ["offer", *late, "--meter", MOVED_METER, "1000"], {"plain-steps", "moved-id"}
    yield ["offer", *at, "--meter", MOVED_METER, "1000"], {"plain-steps", "moved-id", "left-month"}
    yield ["offer", *now, "--meter", NEW_METER, "1000"], set()
    yield ["shift", *now, "--operator", "ann", "open"], {"shift"}
    yield ["shift", *now, "--operator", "ann", "close"], {"shift"}
    yield ["shift", *now, "--operator", "bob", "open"], set()
    yield ["shift", *now, "--operator", "bob", "close"], set()
    yield ["import", *now, "tariffs", texts["new-tariff"]], set()
    yield ["import", *now, "tariffs", texts["known-steps"]], {"flat-later"}
    yield ["import", *now, "tariffs", texts["known-tariff"]], {"flat-steps"}
    yield ["import", *now, "tariffs", texts["tariffs"]], STEPS | {"flat-steps"}
    yield ["import", *now, "meters", texts["new-meter"]], set()
    yield ["import", *now, "meters", texts["known-meter"]], {"other-meter"}
    yield ["import", *now, "meters", texts["known-meters"]], {"meter", "other-meter"}
    yield ["import", *now, "meters", texts["other-key"]], {"meter"}
    yield ["import", *now, "tariffs", texts["other-tariff"]], {"flat-steps"}
    yield ["import", *now, "tariffs", texts["other-steps"]], {"flat-later"}
    yield ["tariff", *now, "--meter", METER, "--tariff", "flat"], {"meter"}
    # Of another tariff the name alone is looked at.
    yield ["tariff", *now, "--meter", METER, "--tariff", "plain"], {"meter"}
    yield ["tariff", *now, "--meter", METER, "--tariff", "none"], {"meter"}
    yield ["tariff", *now, "--meter", NEW_METER, "--tariff", "flat"], set()
    yield ["base", *now, "--meter", METER, "--base", "2014"], {"meter"}
    yield ["base", *late, "--meter", METER, "--base", "2035"], {"meter", "later-base"}
    yield ["base", *late, "--meter", UNSOLD_METER, "--base", "2035"], set()
    yield ["base", *now, "--meter", NEW_METER, "--base", "2014"], set()
    # Steps behind all sales, of a day that has none, of a day before a sale, and of no tariff.
    yield ["withdraw", *now, "--tariff", "plain", "--from", "2036-01-01"], {"plain-later"}
    yield ["withdraw", *now, "--tariff", "later", "--from", "2036-01-01"], set()
    yield ["withdraw", *now, "--tariff", "later", "--from", "2014-03-01"], {"later-later"}
    yield ["withdraw", *now, "--tariff", "none", "--from", "2014-03-01"], set()
    yield ["key", *old, "--meter", METER, "--key", OTHER_KEY], {"meter", "last-id"}
    # With the key that it has nothing changes, whatever was sold to it.
    yield ["key", *old, "--meter", METER, "--key", KEY], {"meter"}
    yield ["key", *old, "--meter", MOVED_METER, "--key", OTHER_KEY], {"left-id", "moved-id"}
    yield ["key", *old, "--meter", UNSOLD_METER, "--key", OTHER_KEY], set()
    yield ["key", *old, "--meter", NEW_METER, "--key", OTHER_KEY], set()
    yield [*report, "shift", "--number", "1"], {"shift", "sale", "left-sale"}
    yield [*report, "shift", "--number", "2"], {"closed-shift", "other-sale"}
    yield [*report, "totals", "--number", "1"], {"shift", "totals"}
    yield [*report, "shift", "--number", "3"], set()
    yield [*report, "totals", "--number", "2"], {"closed-shift", "closed-totals"}
    yield [*report, "totals", "--number", "3"], set()
    yield [*report, "receipt", "--number", "1"], {"sale"}
    yield [*report, "receipt", "--number", "2"], {"other-sale"}
    yield [*report, "receipt", "--number", "3"], set()
    yield [*report, "receipt", "--number", "4"], {"left-sale"}
    yield [*report, "receipt", "--number", "5"], set()
    yield [*report, "sales"], SALES
    yield ["show", *now, "--meter", METER, "meter"], {"meter", "month", "last-id"}
    yield ["show", *now, "--meter", OTHER_METER, "meter"], {"other-meter", "other-sale"}
    yield ["show", *late, "--meter", MOVED_METER, "meter"], {"moved-id"}
    yield ["show", *at, "--meter", MOVED_METER, "meter"], {"moved-id", "left-month"}
    yield ["show", *now, "--meter", NEW_METER, "meter"], set()
    yield ["show", *now, "--meter", METER, "last"], {"meter", "last-id"}
    yield ["show", *now, "--meter", OTHER_METER, "last"], {"other-meter", "other-sale"}
    yield ["show", *late, "--meter", MOVED_METER, "last"], {"moved-id"}
    yield ["show", *now, "--meter", NEW_METER, "last"], set()
    yield ["show", *now, "--operator", "ann", "--ref", "A-1", "sale"], {"sale"}
    yield ["show", *now, "--operator", "bob", "--ref", "A-1", "sale"], set()
    yield ["show", *now, "--operator", "ann", "--ref", "A-3", "sale"], {"left-sale"}
    yield ["list", *now, "tariffs"], STEPS | NAMES
    yield ["list", *now, "--after", "flat", "tariffs"], STEPS - {"flat-later"} | NAMES_BEHIND
    yield ["list", *now, "--after", "later", "tariffs"], PLAIN | NAMES_BEHIND
    yield ["list", *now, "--after", "plain", "tariffs"], NAMES_BEHIND
    yield ["list", *now, "--after", "stepless", "tariffs"], set()
    # The latest steps have begun by then, and no others begin later.
    yield ["list", *late, "--after", "flat", "tariffs"], {"later-later"} | PLAIN | NAMES_BEHIND
    yield ["list", *now, "meters"], {"meter", "other-meter"}
    yield ["list", *now, "--after", OTHER_METER, "meters"], {"meter"}
    yield ["list", *now, "shifts"], {"shift", "closed-shift", "totals", "closed-totals"}
    yield ["list", *now, "--after", "1", "shifts"], {"closed-shift", "closed-totals"}
    yield ["list", *now, "--after", "2", "shifts"], set()
    yield ["list", *now, "sales"], SALES
    yield ["list", *now, "--after", "1", "sales"], {"other-sale", "left-sale"}
    yield ["list", *now, "--after", "3", "sales"], {"left-sale"}
    yield ["list", *now, "--after", "4", "sales"], set()


def kind_of(words):
    """The name of a command, and what it imports or does to a shift."""
    return words[0], *(it for it in words[1:] if it in ("tariffs", "meters", "open", "close"))


def new_receipt():
    """Of ann's next sale, the sixth, thirty days later: 5 kWh at 200 cents, the minute's identifier."""
    token = ORACLE.token_of("plain", 0, 6, (int(LATER) - 1388534400) // 60, 50)
    groups = " ".join(token[place:place + 4] for place in range(0, 20, 4))
    return (f"SALE 6\nMETER {METER}\nTIME 2014-01-31T00:00:30Z\nKWH 5.0\nPRICE 1000\nTENDER 1000\nCHANGE 0\n"
            f"TOKEN {groups}\n").encode()


def changes(texts):
    """Changes that a desk is asked for one after another, each at a moment: how it ends, the rows that it reads, and
    whether it is in writing that it meets them. None alters how another one ends, whether it was refused or not."""
    sell = ["sell", "--operator", "ann", "--ref", "N-1", "--meter", METER, "--tender", "1000"]
    yield LATER, sell, (0, new_receipt(), b""), {"shift", "meter", "flat-later", "last-id", "month"}, {"totals"}
    for moment, words, ended, reads in (
            (LATER, ["import", "meters", texts["new-meter"]], (0, b"added 1\n", b""), set()),
            (LATER, ["import", "tariffs", texts["new-tariff"]], (0, b"added 1\n", b""), set()),
            (LATER, ["import", "tariffs", texts["known-steps"]], (0, b"added 0\n", b""), {"flat-later"}),
            (LATER, ["import", "tariffs", texts["other-tariff"]], OTHER_ROW, {"flat-steps"}),
            (LATER, ["tariff", "--meter", METER, "--tariff", "plain"], DONE, {"meter"}),
            (LATER, ["key", "--meter", UNSOLD_METER, "--key", OTHER_KEY], DONE, set()),
            (LATER, ["withdraw", "--tariff", "plain", "--from", "2036-01-01"], (0, b"withdrawn 1\n", b""), {"plain-later"})):
        yield moment, words, ended, reads, set()
    yield IN_2035, ["base", "--meter", METER, "--base", "2035"], DONE, {"meter"}, {"later-base"}
    yield LATER, ["shift", "--operator", "bob", "open"], (0, b"shift 3\n", b""), set(), set()
    yield LATER, ["shift", "--operator", "ann", "close"], (0, b"shift 1\n", b""), {"shift"}, set()


def office_in(folder):
    """A file with two tariffs of three that change, three meters, a shift that is open with two sales to one
    meter and two to one that was moved between them, and one that is closed with one to the third."""
    file, texts = folder / "whole.db", {}
    for name, text in TARIFFS.items():
        texts[name] = str(folder / f"{name}.csv")
        (folder / f"{name}.csv").write_text(text)
    given, late = ["--file", str(file), "--at", AT], ["--file", str(file), "--at", IN_2035]
    to_moved = ["--operator", "ann", "--meter", MOVED_METER, "--tender", "1000"]
    for words in (["import", *given, "tariffs", texts["tariffs"]], ["import", *given, "meters", texts["meters"]],
                  ["shift", *given, "--operator", "ann", "open"], ["shift", *given, "--operator", "bob", "open"],
                  *(["sell", *given, "--operator", name, "--ref", ref, "--meter", meter, "--tender", "1000"]
                    for name, ref, meter in (("ann", "A-1", METER), ("bob", "B-1", OTHER_METER), ("ann", "A-2", METER))),
                  ["shift", *given, "--operator", "bob", "close"],
                  ["sell", *given, "--ref", "A-3", *to_moved],
                  ["base", *late, "--meter", MOVED_METER, "--base", "2035"],
                  ["sell", *late, "--ref", "A-4", *to_moved]):
        expect(vend(*words), 0, None, b"")
    change(file, "PRAGMA wal_checkpoint(TRUNCATE);")
    return file, texts


def end_of(words):
    ran = vend(*words)
    return ran.returncode, ran.stdout, ran.stderr


def fill(file, texts):
    """An office whose lists have a member more than a page, of sales two more."""
    meters = sorted(luhn(1_000_000_000 + it) for it in range(PAGE + 1))
    texts["page-tariffs"].write_text("name,steps,from\n" + "".join(f"t{it:03},:100,\n" for it in range(PAGE + 1)))
    texts["page-meters"].write_text(
        "meter,base,tariff,key\n" + "".join(f"{it},2014,t000,{KEY}\n" for it in meters))
    given = ["--file", str(file), "--at", AT]
    for kind in ("tariffs", "meters"):
        expect(vend("import", *given, kind, str(texts[f"page-{kind}"])), 0, None, b"")
    for number in range(PAGE + 1):
        expect(vend("shift", *given, "--operator", f"o{number}", "open"), 0, None, b"")
    for number in range(PAGE + 2):
        expect(vend("sell", *given, "--operator", "o0", "--ref", f"R-{number}", "--meter", meters[0],
                    "--tender", "1000"), 0, None, b"")
    change(file, "PRAGMA wal_checkpoint(TRUNCATE);")
    return meters


def check_second_pages(folder):
    """Each list, of two pages, of which each has a spoilt row in turn."""
    whole, file = folder / "pages.db", folder / "page.db"
    meters = fill(whole, {f"page-{kind}": folder / f"page-{kind}.csv" for kind in ("tariffs", "meters")})
    lists = {
        "tariffs": (lambda place: f"UPDATE tariff_steps SET price = 0 WHERE tariff = 't{place:03}';", f"t{PAGE:03}"),
        "meters": (lambda place: f"UPDATE meters SET base = 2015 WHERE meter = '{meters[place]}';", meters[PAGE]),
        "shifts": (lambda place: f"UPDATE shifts SET opened = -1 WHERE number = {place + 1};", f"{PAGE + 1}"),
        "sales": (lambda place: f"UPDATE sales SET rnd = 16 WHERE number = {place + 1};", f"{PAGE + 1}"),
    }
    words = ["list", "--file", str(file), "--at", AT]
    for kind, (spoil, last) in lists.items():
        shutil.copy(whole, file)
        listed = end_of([*words, kind])[1].splitlines(True)
        behind = end_of([*words, "--after", last, kind])
        first = b"".join(listed[:PAGE + 1])  # behind the names of the columns
        for place, printed in ((PAGE, first), (PAGE - 1, b"")):
            change(file, spoil(place))
            expect(vend(*words, kind), 1, printed, b"refused 16 Store\n")
        ended = end_of([*words, "--after", last, kind])
        if ended != behind or ended[0] != 0:
            wrong(f"{kind} behind a page with a spoilt row: {ended}\nexpected {behind}")


def check_second_page_of_export(folder, library):
    """An export of a file, and of its desk, in which a sale of one page or of the next is spoilt."""
    whole, here = folder / "many.db", folder / "export"
    here.mkdir()
    file = here / "office.db"
    prepare(whole)
    expect(vend(*sell_words(whole, "A-1")), 0, RECEIPT, b"")
    change(whole, "\n".join(["BEGIN;", *many_rows(), "COMMIT;", "PRAGMA wal_checkpoint(TRUNCATE);"]))
    lines = export().splitlines(True)  # behind the names of the columns
    for number in (EXPORT_PAGE, EXPORT_PAGE + 1, MANY_SALES - 1):
        shutil.copy(whole, file)
        change(file, f"UPDATE sales SET rnd = 16 WHERE number = {number};")
        for page in (PAGE, EXPORT_PAGE):
            before = (number - 1) // page * page
            ended = (1, b"".join(lines[:before + 1]) if before else b"", b"refused 16 Store\n")
            if page == EXPORT_PAGE:
                same(end_of(["report", "--file", str(file), "--kind", "sales"]), ended, f"an export with {number} spoilt")
            elif library:
                with Clocked(here, file, library) as desk:
                    same(tuple(run(["report", "--desk", desk.address, "--kind", "sales"])), ended, f"a desk's: {number}")


def at_desk(desk, words):
    """Asks a desk what a command asks a file, at its moment."""
    name, _, _, *more = words
    if more[:1] == ["--at"]:
        desk.set(more[1])
        more = more[2:]
    return run([name, "--desk", desk.address, *more])


def has_health(desk, sales, moment, last_write):
    """The health of a desk, which looks at no row: what it knows is of its opening and of its own sales."""
    client = http.client.HTTPConnection("127.0.0.1", desk.desk.port, timeout=WAIT)
    client.request("GET", "/health")
    reply = client.getresponse()
    told = f'{{"format":{FORMAT},"last_moment":{moment},"last_write":"{last_write}","sales":{sales}}}'
    same((reply.status, reply.read()), (200, told.encode()), "the health of a desk with a spoilt row")
    client.close()


def check_changes_at_desk(desk, row, texts):
    """The changes, asked of a desk with a spoilt row, each beside the same command on a copy of the file."""
    sales, moment, last_write, refused = 5, IN_2035, "done", 0
    for at, words, ended, reads, meets in changes(texts):
        before = desk_rows(desk.copy())
        expected = REFUSED if row in reads | meets else ended
        # A change that the tables did not take, or one that was written since, is the last that was tried.
        is_written = ended[0] == 0 and ended[1] != b"added 0\n"
        if row in meets:
            last_write = "failed"
        elif is_written and expected != REFUSED:
            last_write = "done"
        same(tuple(desk.ask(int(at), *words)), expected, f"{row}: {words} at a desk")
        if expected == ended and words[0] == "sell":
            sales, moment = sales + 1, at
        if (desk_rows(desk.copy()) != before) != (is_written and expected != REFUSED):
            wrong(f"{row}: {words} at a desk, ended with {expected}, and what it changed")
        refused += expected == REFUSED
        has_health(desk, sales, moment, last_write)
    return refused


def check_spoilt_rows_at_desk(folder, library):
    """Each spoilt row under each command that changes nothing, asked of a desk, and then under the changes in turn.
    Whatever it could not read, it answers the next one."""
    folder = folder / "spoilt"
    folder.mkdir()
    whole, texts = office_in(folder)
    asked = [(words, reads, end_of(words)) for words, reads in commands(str(whole), texts) if words[0] in READING]
    refused = 0
    for row, text in SPOILT.items():
        if row == "last-sale":
            continue
        here = folder / row
        here.mkdir()
        shutil.copy(whole, here / "office.db")
        change(here / "office.db", text)
        with Clocked(here, here / "office.db", library) as desk:
            has_health(desk, 5, IN_2035, "done")
            for words, reads, sound in asked:
                expected = REFUSED if row in reads else sound
                refused += expected is REFUSED
                ended = tuple(at_desk(desk, words))
                if ended != expected:
                    wrong(f"{row}: {words} at a desk ended with {ended}\nexpected {expected}")
            # A read that failed is no write.
            has_health(desk, 5, IN_2035, "done")
            refused += check_changes_at_desk(desk, row, texts)
    check_second_page_of_export(folder, library)
    print(f"spoilt rows at a desk: {len(SPOILT) - 1} under {len(asked)} commands and {len([*changes(texts)])} changes "
          f"each, {refused} refused")


def check_spoilt_rows(folder):
    """Each spoilt row under each command."""
    folder = folder / "spoilt"
    folder.mkdir()
    whole, texts = office_in(folder)
    file, refused, spoilts, before, changed = folder / "office.db", 0, {}, {}, set()
    whole_rows = rows_of(whole)
    for row, text in SPOILT.items():
        spoilts[row] = folder / f"{row}.db"
        shutil.copy(whole, spoilts[row])
        change(spoilts[row], text)
        before[row] = rows_of(spoilts[row])
    for place, (words, reads) in enumerate(commands(str(file), texts)):
        shutil.copy(whole, file)
        sound = end_of(words)
        if rows_of(file) != whole_rows:
            changed.add(kind_of(words))
        for row, spoilt in spoilts.items():
            shutil.copy(spoilt, file)
            ended, expected = end_of(words), sound
            if row == "last-sale":
                expected = NO_OFFICE
            elif row in reads:
                expected = REFUSED
            if ended != expected:
                wrong(f"{row}: {words} ended with {ended}\nexpected {expected}")
            if expected != sound:
                refused += 1
                if rows_of(file) != before[row]:
                    wrong(f"{row}: {words} was refused, and has changed the file")
    same(changed, CHANGES, "the kinds of changes that are made where no row is spoilt")
    check_second_pages(folder)
    check_second_page_of_export(folder, None)
    print(f"spoilt rows: {len(SPOILT)} under {place + 1} commands each, {refused} refused")
