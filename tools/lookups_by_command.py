"""What the commands print where something is looked up in drawn offices, beside the rules: a part of tools/check_program.
It is no script of its own."""
import contextlib
import random
import sqlite3

from desk_client import receipt_of
from lookups import (LISTS, NUMBERED, PAGE, SALE, SIZES, Came, Growing, afters, answer, drawn_office, in_json, keep,
                     lookups, meters_of, pages)
from program import AT, METER, copy_of, expect, vend
from shared import same, wrong

SEEDS = (1, 2, 3)
SELLER = "look"  # who sells after each quote: none of the drawn operators
COLUMNS = [part for part in SALE if part != "rnd"]
COLUMNS.insert(-1, "change")
# What a list has of each member, a line each, a tariff's later steps on further lines. Sales are an export.
HEADS = {"tariffs": ("tariff", "from", "steps"), "meters": ("meter", "base", "tariff"),
         "shifts": ("shift", "operator", "opened", "closed", "sales", "tenths", "cash"), "sales": COLUMNS}
IN_JSON = ("find-meter", "find-sale", "find-quote")  # what is printed as the desk writes it too
FOUND = 3  # of the members of a list so many are looked up after, drawn, beside those at the ends of pages


def arguments(file, moment, words):
    """The command that looks this up."""
    word, *values = words
    at = ["--file", file, "--at", str(moment)]
    return {
        "find-meter": lambda meter: ["show", *at, "meter", "--meter", meter],
        "find-last": lambda meter: ["show", *at, "last", "--meter", meter],
        "find-sale": lambda operator, ref: ["show", *at, "sale", "--operator", operator, "--ref", ref],
        "find-quote": lambda meter, tender: ["quote", *at, "--meter", meter, str(tender)],
        "find-totals": lambda number: ["report", "--file", file, "--kind", "totals", "--number", str(number)],
    }[word](*values)


def printed(words, found):
    """What it prints of what is found."""
    if words[0] == "find-last":
        return receipt_of(found)
    if words[0] == "find-totals":
        return f"shift {found['shift']} sales {found['sales']} tenths {found['tenths']} cash {found['cash']}\n".encode()
    if words[0] == "find-quote":
        return f"{found['tenths']} {found['price']} {found['change']}\n".encode()
    parts, between = (COLUMNS, ",") if words[0] == "find-sale" else (("meter", "base", "tariff", "tenths", "sale"), "\t")
    values = ["-" if found[part] is None else str(found[part]) for part in parts]
    return f"{between.join(parts)}\n{between.join(values)}\n".encode()


def look_up(file, office, moment, words):
    """Looks something up as the rules do, and gives the number of the refusal, or None, and what is found."""
    refused, found = answer(office, moment, words)
    command = arguments(file, moment, words)
    for more in ([], ["--json"]) if words[0] in IN_JSON else ([],):
        ran = vend(*command, *more)
        if refused:
            expect(ran, 1, b"", f"refused {refused[0]} {refused[1]}\n".encode())
        else:
            expect(ran, 0, in_json(found) + b"\n" if more else printed(words, found), b"")
    return refused, found


def content(file):
    """All rows of a file, as statements."""
    with copy_of(file) as copy, contextlib.closing(sqlite3.connect(copy)) as base:
        return [*base.iterdump()]


def sell_as_quoted(file, office, moment, meter, tender):
    """A quote, and the sale after it, which has the same or is refused for the same reason. What is looked up then has
    the sale."""
    refused, quoted = look_up(file, office, moment, ("find-quote", meter, tender))
    ref = f"L-{meter}-{tender}"
    sold = office.answer(f"{moment} sell {SELLER} {ref} {meter} {tender}")
    ran = vend("sell", "--file", file, "--transform", office.transform, "--operator", SELLER, "--ref", ref,
               "--meter", meter, "--tender", str(tender), "--at", str(moment))
    if refused:
        expect(ran, 1, b"", f"{sold}\n".encode())
        same(int(sold.split()[1]), refused[0], f"a quote and its sale: {ref}")
        return False
    _, sale = look_up(file, office, moment, ("find-sale", SELLER, ref))
    expect(ran, 0, receipt_of(sale), b"")
    same([sale[part] for part in ("tenths", "price", "change")], [quoted[part] for part in ("tenths", "price", "change")],
         f"a quote and its sale: {ref}")
    same(look_up(file, office, moment, ("find-last", meter))[1], sale, "the last sale of a meter")
    same(look_up(file, office, moment, ("find-meter", meter))[1]["sale"], sale["number"], "the last sale of a meter")
    look_up(file, office, moment, ("find-totals", sale["shift"]))
    return True


def lines_of(kind, member):
    """The values of each line of a member of a list."""
    if kind == "tariffs":
        yield member["name"], "-", member["steps"]
        yield from ((member["name"], later["from"], later["steps"]) for later in member["later"])
    else:
        names = ("number", *HEADS[kind][1:]) if kind == "shifts" else HEADS[kind]
        yield ["-" if member[name] is None else member[name] for name in names]


def list_of(kind, found):
    """What is printed of the members of a list."""
    between = "," if kind == "sales" else "\t"
    lines = [HEADS[kind], *(line for page in found for member in page for line in lines_of(kind, member))]
    return "".join(f"{between.join(map(str, line))}\n" for line in lines).encode()


def asked_after(office, kind, seed):
    """What a list may come after: nothing, members at the ends of its pages and some others, and what is no member."""
    draw, members = random.Random(seed), afters(office, kind, seed)
    have = len(getattr(office, kind))
    if kind not in NUMBERED:
        members[:have] = sorted(members[:have])
    ends = {at for at in (0, PAGE - 1, PAGE, 2 * PAGE - 1, have - 2, have - 1, have) if 0 <= at < len(members)}
    return [None, *(members[at] for at in sorted(ends)), *draw.sample(members, min(FOUND, len(members))), members[-1]]


def check_lists(folder):
    """The lists of offices of several sizes, whole and after this or that, at the moment of the last request."""
    asked = 0
    for size in SIZES:
        file = folder / f"listed-{size}.db"
        growing = Growing(size, size, int(AT))
        office = growing.whole()
        keep(office, file)
        before = content(file)
        for kind in LISTS:
            for after in asked_after(office, kind, size):
                more = [] if after is None else [f"--after={after}"]  # a name may begin with a hyphen
                found = [*pages(office, growing.now, kind, after)]
                command = ["list", "--file", file, "--at", str(growing.now), *more, kind]
                expect(vend(*command), 0, list_of(kind, found), b"")
                expect(vend(*command, "--json"), 0, b"".join(in_json({kind: page}) + b"\n" for page in found), b"")
                asked += 1
        for kind in NUMBERED:  # zeros in front, as everywhere in arguments
            expect(vend("list", "--file", file, "--after", "00", kind), 0,
                   list_of(kind, pages(office, growing.now, kind)), b"")
        same(content(file), before, "what lists left")
    for kind, after in (("tariffs", "a_b"), ("tariffs", "a" * 33), ("meters", "12345678904"), ("meters", "1"),
                        ("shifts", "1000000001"), ("sales", "1000000001"), ("sales", "x"), ("sales", "")):
        expect(vend("list", "--file", file, "--after", after, kind), 2, b"", b"bad word\n")
    expect(vend(*arguments(file, growing.now, ("find-last", METER)), "--json"), 2, b"", b"bad word\n")
    sizes = ", ".join(map(str, SIZES))
    print(f"lists: {asked}, in offices with {sizes} members of each kind, as the rules have them")


def check_missing(folder):
    """A file that is not there is not made, and one of others is no office."""
    for words in (("find-meter", METER), ("find-last", METER), ("find-sale", "ann", "A-1"), ("find-quote", METER, 10)):
        file = folder / "missing.db"
        expect(vend(*arguments(file, 1388534430, words)), 1, b"", b"file\n")
        same(file.exists(), False, f"a file that {words} made")
        expect(vend(*arguments(folder, 1388534430, words)), 1, b"", b"open 3 Store\n")
    for kind in LISTS:
        file = folder / "missing.db"
        expect(vend("list", "--file", file, kind), 1, b"", b"file\n")
        same(file.exists(), False, f"a file that a list of {kind} made")
        expect(vend("list", "--file", folder, kind), 1, b"", b"open 3 Store\n")


def check_lookups(folder):
    """Each look-up of drawn offices at several moments, and after each quote its sale."""
    folder = folder / "lookups"
    folder.mkdir()
    check_missing(folder)
    check_lists(folder)
    came, asked, sales = Came(), 0, 0
    for seed in SEEDS:
        file = folder / f"{seed}.db"
        office, moments = drawn_office(seed)
        keep(office, file)
        before = content(file)
        for moment in (1388534430, moments[len(moments) // 2], moments[-1]):
            for words in lookups(office, seed):
                if words[0] in ("find-meter", "find-quote") or moment == moments[-1]:
                    came.add(words, look_up(file, office, moment, words)[0])
                    asked += 1
        same(content(file), before, "what look-ups left")
        last = moments[-1] + 60
        opened = office.answer(f"{last} open-shift {SELLER}").split()[1]
        expect(vend("shift", "--file", file, "--at", str(last), "--operator", SELLER, "open"), 0,
               f"shift {opened}\n".encode(), b"")
        for meter in meters_of():
            for tender in (1, 1000, 250000):
                sales += sell_as_quoted(file, office, last, meter, tender)
    if not sales:
        wrong("no quote was followed by a sale")
    print(f"look-ups: {asked} in {len(SEEDS)} drawn offices as the rules have them, with {came.are_all()} kinds of answers; "
          f"{sales} sales as they were quoted, each found")
