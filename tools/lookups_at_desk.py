"""What a desk answers where something is looked up in drawn offices, beside the rules: a part of tools/check_desk. It
is no script of its own."""
import json
import time
from datetime import timedelta

from desk_client import (STATUSES, Desk, Kept, dated, message, order, receipt_of, refusal, replies_in, reply, saw, talk,
                         told)
from lookups import (BEFORE, KEYS, LISTS, LOOKED_UP, NUMBERED, ORACLE, PAGE, SIZES, Growing, answer, drawn_office,
                     in_json, keep, lists, lookups, meters_of)
from program import KEY, rows_in
from shared import FORMAT, numbers, same, wrong

SEEDS = (1, 2, 3, 4)
SELLER = "look"  # who sells after each quote: none of the drawn operators


def status_of(number):
    """The status of a refusal, as docs/DESK.md has it."""
    return next(status for status, (_, said) in STATUSES.items() if number in numbers(said.partition("refusal")[2]))


def target_of(words):
    word, *values = words
    if word.removeprefix("find-") in LISTS:
        return f"/{word.removeprefix('find-')}?after={''.join(map(str, values))}"
    return {"find-health": "/health", "find-meter": "/meters/{}", "find-last": "/meters/{}/last",
            "find-quote": "/meters/{}/quote?tender={}", "find-sale": "/operators/{}/sales/{}",
            "find-totals": "/shifts/{}/totals"}[word].format(*values)


def reply_to(office, moment, words):
    """The bytes that the desk has to write."""
    refused, found = answer(office, moment, words)
    if refused:
        return reply(status_of(refused[0]), refusal(*refused))
    if words[0] == "find-last":
        return reply(200, receipt_of(found), "text/plain")
    if words[0] == "find-health":
        found |= {"format": FORMAT, "last_write": "done"}
    return reply(200, in_json(found))


def looked_up(kept, office, words):
    """The body of a look-up's reply, which is that of the rules at a moment while it was asked."""
    begun = int(time.time())
    text = kept.ask("GET", target_of(words), b"")
    wanted = [reply_to(office, moment, words) for moment in range(begun, int(time.time()) + 1)]
    if text not in wanted:
        wrong(f"{words}: found {text}\nexpected {wanted[0]}")
    return saw("GET", target_of(words), b"", text)


def sell_as_quoted(kept, office, meter, tender, ref):
    """A quote, and the sale after it: both have the same, or are refused for the same reason. What is looked up then
    has the sale."""
    begun = int(time.time())
    quoted = json.loads(looked_up(kept, office, ("find-quote", meter, tender)))
    sent = order(ref, tender, meter, SELLER)
    sold = json.loads(saw("POST", "/sales", sent, kept.ask("POST", "/sales", sent)))
    moment = sold.get("moment", int(time.time()))
    if ORACLE.day_of(begun) == ORACLE.day_of(moment):
        same(*([it.get(part) for part in ("tenths", "price", "change", "error")] for it in (quoted, sold)),
             f"a quote and its sale: {quoted} and {sold}")
    if "error" in sold:
        return False
    same(office.answer(f"{moment} sell {SELLER} {ref} {meter} {tender}").split()[0], "sold", "a sale by the rules")
    same(in_json(sold), replies_in(reply_to(office, moment, ("find-sale", SELLER, ref)))[0][2], "a sale after a quote")
    last = looked_up(kept, office, ("find-last", meter))
    same(last, replies_in(kept.ask("GET", f"/sales/{sold['number']}/receipt", b""))[0][2], "a last receipt")
    same(json.loads(looked_up(kept, office, ("find-meter", meter)))["sale"], sold["number"], "the last sale")
    for words in (("find-sale", SELLER, ref), ("find-totals", sold["shift"]), ("find-health",)):
        looked_up(kept, office, words)
    return True


def check_lists(folder):
    """Each page of the lists of offices that have as many members as a page or two, one fewer, more, or none; the whole
    lists, page by page; and, once something was added, that it is in its place."""
    asked = 0
    for size in SIZES:
        file = folder / f"listed-{size}.db"
        office = Growing(size, size, int(time.time()) - BEFORE).whole()
        keep(office, file)
        with Desk(file, 1) as desk:
            kept = Kept(desk)
            for words in lists(office, size):
                looked_up(kept, office, words)
                asked += 1
            for kind in LISTS:
                keys = [it[KEYS[kind]] for it in whole_list(kept, office, kind)]
                same((len(keys), keys), (size, sorted({*keys})), f"the pages of all {kind}")
            add_members(kept, office)
            for words in [("find-tariffs",), ("find-meters",), ("find-shifts", size), ("find-sales", size)]:
                looked_up(kept, office, words)
            kept.close()
            desk.finish()
    sizes = ", ".join(map(str, SIZES))
    print(f"lists: {asked} pages, in offices with {sizes} members of each kind, as the rules have them")


def whole_list(kept, office, kind):
    """All members of a list, each page after the last member of the one before."""
    found, after = [], (0,) if kind in NUMBERED else ()
    while True:
        page = json.loads(looked_up(kept, office, (f"find-{kind}", *after)))[kind]
        found += page
        if len(page) < PAGE:
            return found
        after = (page[-1][KEYS[kind]],)


def add_members(kept, office):
    """A tariff and steps of a later day, a meter, a shift and a sale more, at the desk and by the rules."""
    office.reopen("plain")  # the desk's transform
    tariff, day = "-----", str(ORACLE.day_of(int(time.time())) + timedelta(days=2))  # a name that is not drawn
    number = next(it for it in meters_of() if it not in office.meters)
    for target, body, request in (
            ("/tariffs", told(name=tariff, steps=":100"), f"add-tariff {tariff} :100"),
            (f"/tariffs/{tariff}/steps", dated(day), f"add-steps {tariff} {day} :200"),
            ("/meters", told(meter=number, base=2014, key=KEY, tariff=tariff), f"add-meter {number} 2014 {tariff} {KEY}"),
            ("/shifts", told(operator=SELLER), f"open-shift {SELLER}"),
            ("/sales", order("L-1", 1000, number, SELLER), f"sell {SELLER} L-1 {number} 1000")):
        (status, _, text), = replies_in(kept.ask("POST", target, body))
        moment = json.loads(text).get("moment") or int(time.time())
        same((status, office.answer(f"{moment} {request}").startswith("refused")), (200, False), f"{target}: {text}")


def check_lookups(folder):
    """Each look-up of drawn offices whose last days are those before now, and after each quote its sale."""
    asked, sales = 0, 0
    for seed in SEEDS:
        file = folder / f"looked-up-{seed}.db"
        office, _ = drawn_office(seed, [int(time.time()) - BEFORE] * len(ORACLE.STARTS))
        keep(office, file)
        rows = len(office.sales)
        with Desk(file, 2) as desk:
            kept = Kept(desk)
            for words in [("find-health",), *lookups(office, seed), *lists(office, seed)]:
                looked_up(kept, office, words)
                asked += 1
            same(rows_in(file, "SELECT count(*) FROM sales;"), [(rows,)], "the sales after look-ups")
            shift = json.loads(replies_in(kept.ask("POST", "/shifts", told(operator=SELLER)))[0][2])["shift"]
            same(office.answer(f"{int(time.time())} open-shift {SELLER}"), f"opened {shift}", "a shift")
            office.reopen("plain")  # the desk's transform
            for meter in meters_of():
                for tender in (1, 1000, 250000):
                    sales += sell_as_quoted(kept, office, meter, tender, f"L-{meter}-{tender}")
            kept.close()
            words = "find-totals", shift
            same(talk(desk, message("GET", target_of(words)) * LOOKED_UP), reply_to(office, 0, words) * LOOKED_UP,
                 "look-ups at once")
            desk.finish()
    if not sales:
        wrong("no quote was followed by a sale")
    print(f"look-ups: {asked} in {len(SEEDS)} drawn offices as the rules have them; {sales} sales as they were quoted, "
          "each found at once")
