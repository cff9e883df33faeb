"""Drawn offices in files, and what is looked up in them, with the answers of tools/oracle, which has the rules alone:
what tools/check_desk and tools/check_program ask for. It is no script of its own."""
import contextlib
import json
import random
import sqlite3
import string
from datetime import date, timedelta

from many_sales import ORACLE, meter_of
from program import AT, NO_METER, expect, vend
from shared import FORMAT, same, wrong

DRAWN = 400  # requests of an office
BEFORE = 12 * 86400  # seconds within which the requests of an office come: they take some nine days
LOOKED_UP = 20  # sales of an office that are asked for by their refs
PAGE = 100  # members of a page of a list
# How many members of each kind the offices have whose lists are looked up.
SIZES = (0, 1, 99, PAGE, PAGE + 1, 2 * PAGE, 2 * PAGE + 37)
# What each look-up may be refused for; no office here is full.
REFUSALS = {"find-meter": {4}, "find-last": {4, 12}, "find-sale": {12}, "find-quote": {4, 7, 8, 9, 10},
            "find-totals": {13}}
SALE = ("number", "moment", "shift", "operator", "ref", "meter", "base", "tid", "rnd", "tenths", "price", "tender",
        "token")
TEXTS = ("operator", "ref", "meter", "token", "tariff", "name", "steps", "from")
LISTS = ("tariffs", "meters", "shifts", "sales")
# What the oracle tells of a member of each list, a tariff's later steps aside.
MEMBERS = {"tariffs": ("name", "steps"), "meters": ("meter", "base", "tariff"),
           "shifts": ("number", "operator", "opened", "closed", "sales", "tenths", "cash"), "sales": SALE}
NUMBERED = ("shifts", "sales")  # listed by number, after a number
KEYS = {"tariffs": "name", "meters": "meter", "shifts": "number", "sales": "number"}
LETTERS = string.ascii_letters + string.digits


def drawn_office(seed, starts=ORACLE.STARTS):
    """The office after drawn requests, and the moments of its sales."""
    office = ORACLE.Office()
    for line in ORACLE.Drawing(seed, True, starts).lines(DRAWN):
        office.answer(line)
    return office, [sale["moment"] for sale in office.sales]


class Growing:
    """Draws an office with so many tariffs, meters, shifts and sales, request by request."""

    def __init__(self, seed, size, start):
        self.random, self.office, self.now, self.size = random.Random(seed), ORACLE.Office(), start, size
        self.last, self.requests = start + BEFORE, 0

    def ask(self, *words):
        """What the office answers to a request, a while after the one before."""
        self.now = min(self.now + self.random.choice((0, 1, 60, 600, 7200)), self.last)
        self.requests += 1
        return self.office.answer(" ".join(map(str, [self.now, *words])))

    def name(self, letters, most):
        """Short ones are common, so that names begin as others do, and some are as long as may be."""
        length = self.random.choice((1, 2, 2, 3, 3, 4, most))
        return "".join(self.random.choices(letters, k=length))

    def is_asked_for(self, kind):
        have = len(getattr(self.office, kind))
        return have < self.size and self.random.random() < 0.5

    def steps(self):
        return self.random.choice((":100", ":7", "500:100;:250", "1:1;2:2;3:3;4:4;5:5;6:6;7:7;:1000000"))

    def day(self):
        """One soon after: most have come before the last request, and some never do."""
        after = self.random.choice((1, 1, 2, 3, 5, 9, 10, 11, 12, 13, 14, 20, 400))
        return ORACLE.day_of(self.now) + timedelta(days=after)

    def grow(self):
        """Some requests, of which many may be refused."""
        office, pick = self.office, self.random.choice
        if self.is_asked_for("tariffs"):
            self.ask("add-tariff", self.name(LETTERS + "-", 32), self.steps())
        if office.tariffs and self.random.random() < 0.2:
            self.ask("add-steps", pick([*office.tariffs]), self.day(), self.steps())
        if self.is_asked_for("meters") and office.tariffs:
            number = meter_of(f"{self.random.choice((0, 10**9, 10**10)) + self.random.randrange(10**9):010d}"[-10:])
            base = pick((1993, 2014, 2014)) if office.meters else 2014  # to one at least can be sold
            self.ask("add-meter", number, base, pick([*office.tariffs]), f"{number:0>16}")
        if self.is_asked_for("shifts"):
            self.ask("open-shift", self.name(LETTERS, 16))
        sellers = [it["operator"] for it in office.shifts if it["closed"] is None]
        if len(sellers) > 1 and self.random.random() < 0.15:
            self.ask("close-shift", pick(sellers))
        if self.is_asked_for("sales") and office.meters and sellers:
            self.ask("sell", pick(sellers), f"R-{self.requests}", pick([*office.meters]), self.random.randint(1, 60000))

    def whole(self):
        while any(len(getattr(self.office, kind)) < self.size for kind in LISTS):
            self.grow()
        return self.office


def month_of(moment):
    year, month, *_ = ORACLE.utc(moment).timetuple()
    return 12 * (year - 1993) + month - 1


def sums_of(office, parts, values):
    """The sums of the values of sales that are alike in these parts."""
    sums = {}
    for sale in office.sales:
        key = tuple(parts(sale))
        sums[key] = [one + more for one, more in zip(sums.get(key, [0] * 3), values(sale))]
    return [(*key, *found) for key, found in sums.items()]


def rows_of(office):
    """What each table has of an office."""
    tariffs, meters, sales = office.tariffs.items(), office.meters.items(), office.sales
    bases = {(number, meter.base) for number, meter in meters} | {(sale["meter"], sale["base"]) for sale in sales}
    last = {}
    for sale in sales:
        key = sale["meter"], sale["base"]
        last[key] = max(last.get(key, 0), sale["tid"])
    yield "tariffs", [(name,) for name, _ in tariffs]
    yield "tariff_steps", [(name, place, *step) for name, tariff in tariffs for place, step in enumerate(tariff.first)]
    yield "dated_steps", [(name, (day - date(1993, 1, 1)).days, place, *step) for name, tariff in tariffs
                          for day, steps in tariff.dated.items() for place, step in enumerate(steps)]
    yield "meters", [(number, meter.base, meter.tariff, f"{meter.key:016x}") for number, meter in meters]
    yield "meter_bases", sorted(bases)
    yield "shifts", [(it["number"], it["operator"], it["opened"], it["closed"]) for it in office.shifts]
    yield "sales", [(sale["number"], sale["moment"], month_of(sale["moment"]), *(sale[part] for part in SALE[2:]))
                    for sale in sales]
    yield "last_ids", [(*key, tid) for key, tid in last.items()]
    yield "month_tenths", sums_of(office, lambda it: (it["meter"], month_of(it["moment"])), lambda it: [it["tenths"]])
    yield "shift_totals", sums_of(office, lambda it: [it["shift"]], lambda it: [1, it["tenths"], it["price"]])


def keep(office, file):
    """Writes an office into a new file, whose tables the program makes, and which it then audits."""
    none = file.with_suffix(".csv")
    none.write_text("name,steps\n")
    expect(vend("import", "--file", file, "--at", AT, "tariffs", none), 0, b"added 0\n", b"")
    with contextlib.closing(sqlite3.connect(file, isolation_level=None)) as base:
        base.execute("BEGIN")
        for table, rows in rows_of(office):
            if rows:
                base.executemany(f"INSERT INTO {table} VALUES ({', '.join('?' * len(rows[0]))})", rows)
        base.execute("COMMIT")
    counts = " ".join(f"{name} {len(getattr(office, name))}" for name in ("tariffs", "meters", "shifts", "sales"))
    expect(vend("audit", "--file", file), 0, f"sound format {FORMAT} {counts}\n".encode(), b"")


def meters_of():
    """Meters of which an office may have each, and one that none has."""
    return [*ORACLE.METERS, NO_METER]


def afters(office, kind, seed):
    """What a page of a list may come after: each member, what is none, and what is before all and after all."""
    draw = random.Random(seed)
    if kind in NUMBERED:
        have = len(getattr(office, kind))
        return [*range(have + 2), have + PAGE, 10**9 - 1, 10**9]
    members = [*getattr(office, kind)]
    if kind == "meters":
        others = [meter_of(f"{draw.randrange(10**10):010d}") for _ in range(20)]
        return [*members, *others, "00000000000", meter_of("9" * 10)]
    others = [*(f"{it}-"[:32] for it in members), *(it[:-1] or "-" for it in members), "-", "0", "A", "Z", "a", "z" * 32]
    return [*members, *others]


def lists(office, seed):
    """The first page of each list, and the pages after each of what they may come after."""
    yield from (("find-tariffs",), ("find-meters",))
    for kind in LISTS:
        for after in afters(office, kind, seed):
            yield f"find-{kind}", after


def lookups(office, seed):
    """What is looked up: what the office has, and what it has not."""
    draw = random.Random(seed)
    for meter in meters_of():
        yield from (("find-meter", meter), ("find-last", meter))
        for tender in (1, 10, 163880, draw.randint(1, 60000), 100000000):
            yield "find-quote", meter, tender
    for sale in draw.sample(office.sales, min(LOOKED_UP, len(office.sales))):
        yield "find-sale", sale["operator"], sale["ref"]
        yield "find-sale", draw.choice(ORACLE.OPERATORS), sale["ref"]
    yield "find-sale", "nobody", "A-2"
    for number in {1, len(office.shifts), len(office.shifts) + 1, 10**9}:
        yield "find-totals", number


def answer(office, moment, words):
    """The rules' answer: the number and the name of its refusal and None, or the answer's word and its values."""
    word, *values = office.answer(" ".join(map(str, [moment, *words]))).split()
    if word == "refused":
        return (int(values[0]), values[1]), None
    if word in LISTS:
        return None, {word: [member_of(word, value.split(",")) for value in values]}
    names = {"health": ("sales", "last_moment"), "meter": ("meter", "base", "tariff", "tenths", "sale"),
             "quote": ("meter", "tariff", "tender", "tenths", "price"),
             "totals": ("shift", "sales", "tenths", "cash")}.get(word, SALE)
    return None, typed(names, values)


def typed(names, values):
    """Values of the oracle under their names, and a sale's or a quote's change."""
    found = {name: value if name in TEXTS else None if value == "-" else int(value)
             for name, value in zip(names, values, strict=True)}
    if "price" in found:
        found["change"] = found["tender"] - found["price"]
    return found


def member_of(kind, values):
    """A member of a list."""
    names = MEMBERS[kind]
    found = typed(names, values[:len(names)])
    found.pop("rnd", None)
    if kind == "tariffs":
        later = values[len(names):]
        found["later"] = [{"from": day, "steps": steps} for day, steps in zip(later[::2], later[1::2], strict=True)]
    return found


def pages(office, moment, kind, after=None):
    """The pages of a whole list, or of what comes after a member, up to the first one that is not full."""
    first = (after,) if after is not None else (0,) if kind in NUMBERED else ()
    while True:
        _, found = answer(office, moment, (f"find-{kind}", *first))
        yield found[kind]
        if len(found[kind]) < PAGE:
            return
        first = (found[kind][-1][KEYS[kind]],)


def in_json(found):
    """What is found as the desk writes it: compact, its members in the order of their bytes, without a sale's nibble."""
    told = {name: value for name, value in found.items() if name != "rnd"}
    return json.dumps(told, sort_keys=True, separators=(",", ":")).encode()


class Came:
    """Which refusals came of each look-up, and that each was granted too."""

    def __init__(self):
        self.found = {}

    def add(self, words, refusal):
        self.found.setdefault(words[0], set()).add(refusal and refusal[0])

    def are_all(self):
        same(self.found, {word: numbers | {None} for word, numbers in REFUSALS.items()}, "the refusals of look-ups")
        return sum(map(len, self.found.values()))
