"""The office over Python's sqlite3, for the peer: the program's own statements, read from its
source, and the rules of a sale, a reprint, an export, an import of meters and look-ups as
docs/OFFICE.md and docs/PROFILE.md have them. It takes no other requests, and makes no tables: it works
on a copy of a file that the program has made.

It imports no more than a sale needs, so that a short command of the peer is a quick one.
"""
import sqlite3
import time
from pathlib import Path

CRATES = Path(__file__).resolve().parent.parent / "crates"
SOURCE = CRATES / "book_tables" / "src" / "texts.rt"
LISTS = CRATES / "book_lists" / "src" / "texts.rt"
PAGE = 100  # members of a page of a list
BASES = {1993: 725846400, 2014: 1388534400, 2035: 2051222400}
LAST_TID = 16777215
DAY = 1440  # minutes
MANTISSA = 16383
RANGES = ((1818624, 1000), (180224, 100), (16384, 10), (0, 1))  # of amounts, from exponent 3 down
CHECKS = (0x0000, 0xCC01, 0xD801, 0x1400, 0xF001, 0x3C00, 0x2800, 0xE401,
          0xA001, 0x6C00, 0x7800, 0xB401, 0x5000, 0x9C01, 0x8801, 0x4400)
(NUMBER, MOMENT, SHIFT, OPERATOR, REF, METER, BASE, TID, RND, TENTHS, PRICE, TENDER,
 DIGITS) = range(13)


class Refused(Exception):
    """A refusal of the office, with its number and name."""

    def __init__(self, number, name):
        super().__init__(f"refused {number} {name}")
        self.number = number
        self.name = name


def read_source(source=SOURCE):
    """The parts of a source of the program's texts, each from the name of a constant on."""
    return source.read_text().split("const ")[1:]


def in_one_line(text):
    return " ".join(text.replace("\\\n", " ").split())


def read_beginnings():
    """What each macro of that source puts in front of the rest of a text."""
    parts = SOURCE.read_text().split("macro_rules! ")[1:]
    return {part.split()[0]: part.split('"')[1] for part in parts}


def read_texts():
    """The texts of the program's statements, by the names that its sources give them."""
    beginnings = read_beginnings()
    texts = {}
    for part in [*read_source(), *read_source(LISTS)]:
        name, is_text, rest = part.partition(": &str =")
        if is_text:
            macro, text = rest.split('"')[:2]
            beginning = beginnings.get(macro.strip().removesuffix("!("), "")
            texts[name] = in_one_line(beginning + text)
    return texts


def month_of(moment):
    """Months since January 1993."""
    date = time.gmtime(moment)
    return (date.tm_year - 1993) * 12 + date.tm_mon - 1


def day_of(moment):
    """Days since 1993-01-01."""
    return (moment - BASES[1993]) // 86400


def fresh_tid(base, moment, last):
    """The identifier of a sale after the last one of its meter."""
    minute = (moment - BASES[base]) // 60
    if minute < 0:
        raise Refused(7, "BeforeBase")
    tid = max(minute, 2, last + 1)
    if tid % DAY == 1:
        tid += 1
    if tid > LAST_TID:
        raise Refused(8, "IdentifiersSpent")
    if tid - minute > DAY:
        raise Refused(9, "IdentifierAhead")
    return tid


def amount_below(tenths):
    """The greatest amount that a token carries and that is not above, with its code."""
    for exponent, (first, step) in zip((3, 2, 1, 0), RANGES):
        if tenths >= first:
            mantissa = min((tenths - first) // step, MANTISSA)
            return first + step * mantissa, exponent << 14 | mantissa


def bought(steps, prior, money):
    """How many tenths the money pays for, in tenths of a cent, and what they cost."""
    tenths = cost = 0
    for ends, price in steps:
        affordable = (money - cost) // price
        room = affordable if ends is None else max(ends - prior - tenths, 0)
        taken = min(room, affordable)
        tenths += taken
        cost += taken * price
        if taken < room or ends is None:
            break
    return tenths, cost


def cost_of(steps, prior, tenths):
    """What so many tenths cost, in tenths of a cent."""
    cost = 0
    for ends, price in steps:
        taken = tenths if ends is None else min(max(ends - prior, 0), tenths)
        cost += taken * price
        prior += taken
        tenths -= taken
    return cost


def purchase(steps, prior, tender):
    """The tenths, the price and the amount's code."""
    most, _ = bought(steps, prior, tender * 10)
    if most < 1:
        raise Refused(10, "TooLittle")
    tenths, code = amount_below(most)
    return tenths, -(-cost_of(steps, prior, tenths) // 10), code


def token(rnd, tid, code):
    """The twenty digits, under the transform that leaves a block as it is."""
    fields = rnd << 40 | tid << 16 | code
    check = 0xFFFF
    for byte in fields.to_bytes(7, "big"):
        check = check >> 4 ^ CHECKS[(check ^ byte) & 15]
        check = check >> 4 ^ CHECKS[(check ^ byte >> 4) & 15]
    block = fields << 16 | check
    number = (block >> 27 & 3) << 64 | block >> 29 << 29 | block & 0x7FFFFFF
    return f"{number:020d}"


class Office:
    """An office in a file."""

    def __init__(self, file):
        self.texts = read_texts()
        self.conn = sqlite3.connect(file, isolation_level=None)
        for setting in ("journal_mode = WAL", "synchronous = FULL", "foreign_keys = ON"):
            self.conn.execute(f"PRAGMA {setting}")
        if self.rows("FORMAT") != [(1, 4)]:
            raise SystemExit("open 1 NotAnOffice")
        self.sold = (self.row("LAST_SALE_NUMBER") or (0,))[0]
        self.last_moment = self.sale(self.sold)[1] if self.sold else None

    def close(self):
        self.conn.close()

    def rows(self, name, *values):
        return self.conn.execute(self.texts[name], values).fetchall()

    def row(self, name, *values):
        return self.conn.execute(self.texts[name], values).fetchone()

    def write(self, *statements):
        """Runs statements with their values in one transaction. What they answer."""
        self.conn.execute("BEGIN")
        answers = [self.row(name, *values) for name, *values in statements]
        self.conn.execute("COMMIT")
        return answers

    def steps_on(self, tariff, day):
        """The steps of a tariff on a day."""
        begun = self.row("FIRST_DAY_UNTIL", tariff, day)
        if begun:
            return self.rows("STEPS_FROM", tariff, *begun)
        return self.rows("STEPS_OF", tariff)

    def meter(self, meter):
        """The base and the tariff of a meter."""
        there = self.row("METER_NUMBERED", meter)
        if not there:
            raise Refused(4, "NoMeter")
        return there[:2]

    def prior(self, meter, moment):
        """The tenths of a meter in the month of a moment."""
        [tenths] = self.row("MONTH_TENTHS", meter, month_of(moment)) or [0]
        return tenths

    def offer(self, meter, tender, moment):
        """What a new sale would have: base, tariff, identifier, the tenths before it, the purchase."""
        base, tariff = self.meter(meter)
        steps = self.steps_on(tariff, day_of(moment))
        [last] = self.row("LAST_ID", meter, base) or [0]
        prior = self.prior(meter, moment)
        tid = fresh_tid(base, moment, last)
        return base, tariff, tid, prior, purchase(steps, prior, tender)

    def sell(self, operator, ref, meter, tender, moment):
        there = self.row("SALE_OF_REF", operator, ref)
        if there:
            if (there[METER], there[TENDER]) != (meter, tender):
                raise Refused(1, "RefReused")
            return there
        shift = self.row("OPEN_SHIFT", operator)
        if not shift:
            raise Refused(2, "NoShift")
        base, _, tid, prior, (tenths, price, code) = self.offer(meter, tender, moment)
        month = month_of(moment)
        number = self.sold + 1
        rnd = number % 16
        digits = token(rnd, tid, code)
        _, told, all_tenths, _ = self.write(
            ("NEW_SALE", number, moment, month, shift[0], operator, ref, meter, base, tid, rnd,
             tenths, price, tender, digits),
            ("LAST_ID_SET", meter, base, tid),
            ("TENTHS_ADDED", meter, month, tenths),
            ("SALE_COUNTED", shift[0], tenths, price))
        if (told, all_tenths) != ((tid,), (prior + tenths,)):
            raise SystemExit("the totals are not those of the sales")
        self.sold, self.last_moment = number, moment
        return (number, moment, shift[0], operator, ref, meter, base, tid, rnd, tenths, price,
                tender, digits)

    def sale(self, number):
        there = self.row("SALE_NUMBERED", number)
        if not there:
            raise Refused(12, "NoSale")
        return there

    def sale_of(self, operator, ref):
        there = self.row("SALE_OF_REF", operator, ref)
        if not there:
            raise Refused(12, "NoSale")
        return there

    def last_of(self, meter):
        """The last sale to a meter, or None: under the latest base that has one."""
        for base in sorted(BASES, reverse=True):
            last = self.row("LAST_ID", meter, base)
            if last:
                return self.row("SALE_OF_TID", meter, base, *last)
        return None

    def last_sale(self, meter):
        self.meter(meter)
        there = self.last_of(meter)
        if not there:
            raise Refused(12, "NoSale")
        return there

    def totals(self, shift):
        """The sales, the tenths and the cash of a shift."""
        if not self.row("SHIFT_NUMBERED", shift):
            raise Refused(13, "NoSuchShift")
        return self.row("SHIFT_TOTALS", shift) or (0, 0, 0)

    def sales_after(self, number):
        return self.rows("SALES_AFTER", number, PAGE)

    def shifts_after(self, number):
        """A page of shifts: what is stored of each, and its totals."""
        return [(*shift, *(self.row("SHIFT_TOTALS", shift[0]) or (0, 0, 0)))
                for shift in self.rows("SHIFTS_AFTER", number, PAGE)]

    def meters_after(self, meter):
        """A page of meters: number, base, tariff."""
        return [row[:3] for row in self.rows("METERS_AFTER", meter, PAGE)]

    def tariffs_after(self, name, today):
        """A page of tariffs: the name, today's steps, and the later ones by their days."""
        return [(tariff, self.steps_on(tariff, today), dict(self.later_steps(tariff, today)))
                for [tariff] in self.rows("TARIFFS_AFTER", name, PAGE)]

    def later_steps(self, tariff, day):
        while there := self.row("FIRST_DAY_AFTER", tariff, day):
            [day] = there
            yield day, self.rows("STEPS_FROM", tariff, day)

    def pages(self):
        """All sales, a thousand at a time."""
        after = 0
        while True:
            page = self.rows("SALES_AFTER", after, 1000)
            yield page
            if len(page) < 1000:
                return
            after = page[-1][NUMBER]

    def add_meters(self, meters):
        """Adds meters, all or none; how many were new."""
        new = {}
        for row, meter in enumerate(meters, start=1):
            there = self.row("METER_NUMBERED", meter[0]) or new.get(meter[0])
            if there:
                if there != meter[1:]:
                    raise Refused(14, f"ImportRow {row} Differs")
            elif not self.row("TARIFF_NAMED", meter[2]):
                raise Refused(14, f"ImportRow {row} NoTariff")
            else:
                new[meter[0]] = meter[1:]
        if new:
            rows = [(("NEW_METER", meter, *rest), ("NEW_BASE", meter, rest[0]))
                    for meter, rest in new.items()]
            self.write(*(row for both in rows for row in both))
        return len(new)
