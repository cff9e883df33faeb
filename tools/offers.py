"""The part of tools/check_page about what the cashier's page looks up: the offer while a sale is written, for which no
sale waits, and a meter's last receipt. It is no script of its own."""
import json
import time

from program import FAR_BASE, METER, NO_METER, OTHER_METER, SPENT
from servers import Plan, said, until
from shared import same

# Long enough for a look-up to have been sent after the last key: the page waits for 300 milliseconds.
QUIET = 0.8
RECORD = """
    window.offers = [];
    const offer = document.getElementById("offer");
    new MutationObserver(() => window.offers.push(offer.textContent)).observe(offer, {childList: true});"""


def check_offers(counter):
    """What a sale would have, and why it would be refused, before it is sold; a last receipt."""
    browser, relay, desk = counter.browser, counter.relay, counter.desk

    def asked():
        return [it.split()[1].decode() for it in relay.heads if it.startswith(b"GET /meters/")]

    def offers(*words):
        browser.when("words.every((it) => textOf('offer').includes(it))", f"an offer: {words}", *words)
        browser.fits(words)

    def offers_nothing(where):
        time.sleep(QUIET)
        same(browser.text("offer"), "", where)

    def held():
        relay.looks.append(Plan(waits=True))
        return relay.looks[-1]

    browser.open()
    browser.shows("sale", "the sale")
    before = len(asked())
    browser.type(meter=METER)
    found = json.loads(desk.ask("GET", f"/meters/{METER}")[1])
    offers(f"Tariff flat. This month {found['tenths'] / 10:.1f} kWh.")
    browser.type(tender="12.55")
    offers("12.5 kWh for 12.50, change 0.05. Tariff flat.")
    browser.is_usable()
    same(browser.run("return document.getElementById('offer').role"), "status", "how an offer is announced")
    # Once for the meter, and once for the money: not at each key.
    same(asked()[before:], [f"/meters/{METER}", f"/meters/{METER}/quote?tender=1255"], "look-ups")
    for meter, tender, words in ((NO_METER, "10", "no meter with this number"), (METER, "0.05", "0.1 kWh"),
                                 (FAR_BASE, "10", "has not come yet"), (SPENT, "10", "used up")):
        browser.type(meter=meter, tender=tender)
        offers(words)
    before = len(asked())
    for meter, tender in (("12345678901", "10"), ("1234567", ""), (METER, "1,000"), (METER, "0"),
                          (METER, "1000000.01"), (METER, "ten")):
        browser.type(meter=meter, tender=tender)
        offers_nothing(f"no order: {meter}, {tender}")
    same(asked()[before:], [], "look-ups of what is no order")
    # One request at a time, and an answer about what was written before is not shown.
    browser.run(RECORD)
    first = held()
    browser.type(meter=METER, tender="10")
    until(first.came.is_set, "a look-up")
    before = len(asked())
    browser.type(tender="20")
    offers_nothing("a look-up that waits")
    same(len(asked()), before, "look-ups at a time")
    first.goes.set()
    offers("20.0 kWh for 20.00, change 0.00. Tariff flat.")
    same(browser.run("return window.offers.filter((it) => it)"), ["20.0 kWh for 20.00, change 0.00. Tariff flat."],
         "what was offered")
    # A sale waits for no look-up, and none that fails is in its way or says anything.
    waiting = held()
    browser.type(tender="10")
    until(waiting.came.is_set, "a look-up")
    browser.run("document.getElementById('order-form').requestSubmit()")
    rows = browser.receipt("10.00")
    same(waiting.ended.is_set(), False, "a look-up that waits")
    counter.is_first_receipt_after(rows, "a sale beside a look-up")
    waiting.goes.set()
    until(waiting.ended.is_set, "the end of a look-up")
    browser.next()
    for plan in (Plan(answer=said(503, error="Store", refusal=16)), Plan(answer=said(404, error="NoRoute")),
                 Plan(after=lambda _: b"")):
        relay.looks.append(plan)
        browser.type(meter=METER, tender="10")
        until(plan.ended.is_set, "the end of a look-up")
        offers_nothing("a look-up that fails")
    browser.run("document.getElementById('order-form').requestSubmit()")
    rows = browser.receipt("10.00")
    counter.is_first_receipt_after(rows, "a sale after look-ups that failed")
    browser.next()
    # The last receipt, as it was printed first. What was written stays.
    browser.type(meter=METER, tender="7")
    browser.press("last")
    browser.when("textOf('title') === 'Last receipt'", "the last receipt")
    counter.is_first_receipt(browser.receipt("10.00"), "the last receipt")
    same(browser.run("return document.getElementById('print').disabled"), False, "whether it can be printed")
    browser.next()
    same(browser.run("return document.getElementById('meter').value"), METER, "the meter after its last receipt")
    for meter, words in ((OTHER_METER, "Nothing was sold"), (NO_METER, "no meter with this number"),
                         ("12345678901", "no meter number")):
        browser.fill(meter=meter)
        browser.press("last")
        browser.says("order-form", words)
        same(browser.are_shown("paper"), [], words)
    counter.has_sold(0, 0, "look-ups")
    same(relay.looks, [], "plans")
    print("offers: what a sale would have, or why not, once no key is pressed, by one request at a time; no sale waits; "
          "a meter's last receipt")
