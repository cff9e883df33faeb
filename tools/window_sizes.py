"""The pages of tools/check_page in windows of five sizes: in each state nothing is wider than the window, and what
the page says is in it. It is no script of its own."""
import json
import time

from program import KEY, METER, NO_METER, OTHER_METER, SPENT
from servers import Plan, said, until
from shared import same

# Phones, a tablet, and the screen of a desk: width and height in pixels.
SIZES = ((320, 568), (360, 640), (412, 732), (800, 600), (1280, 800))
LONGEST_NAME = "W" * 16
MOST_MONEY = "1000000.00"
# Eight steps, of which the last has no price.
STEPS = [text for end in range(1, 8) for text in (str(end), "1")] + ["", "x"]


def check_sizes(counter):
    """Every state of both pages in each of the sizes."""
    for size in SIZES:
        counter.browser.size(*size)
        counter.browser.run("localStorage.clear()")
        look_at_till(counter)
        look_at_office(counter)
    counter.browser.own_size()
    counter.browser.open()
    print(f"sizes: no page is wider than the window at {', '.join(str(wide) for wide, _ in SIZES)} px, and what it "
          "says is in the window")


def look_at_till(counter):
    """A day with the longest name, the most money and each refusal, until the shift is closed."""
    browser, desk, relay = counter.browser, counter.desk, counter.relay
    browser.open()
    browser.shows("start", "the first screen")
    browser.send("start-form", operator="a b")
    browser.says("start-form", "without spaces")
    browser.send("start-form", operator=LONGEST_NAME)
    browser.says("order-form", "is open")
    number = json.loads(browser.run("return localStorage.getItem('till.shift')"))["number"]
    browser.sell("10", "12345678901")
    browser.says("order-form", "no meter number")
    browser.sell("1,000")
    browser.says("order-form", "Write the money")
    browser.sell("10", NO_METER)
    browser.says("order-form", "no meter with this number")
    counter.has_sold(0, 1, "a refusal")
    for meter, tender, words in ((METER, "", "This month"), (METER, MOST_MONEY, "Tariff"), (SPENT, "10", "used up")):
        browser.type(meter=meter, tender=tender)
        browser.when("textOf('offer').includes(words[0])", words, words)
        browser.fits(words)
    browser.fill(meter=METER)
    browser.press("last")
    browser.when("textOf('title') === 'Last receipt' && isIdle()", "the last receipt")
    browser.is_seen("#title", "the last receipt")
    browser.fits("the last receipt")
    browser.next()
    look_at_sale(counter)
    for form, done in (("reprint", "printed again"), ("report", f"Shift {number}, {LONGEST_NAME}")):
        for wrong_number, words in (("0", "Write a number"), ("999999999", "of this number")):
            browser.send(f"{form}-form", **{form: wrong_number})
            browser.says(f"{form}-form", words)
        browser.send(f"{form}-form", **{form: counter.sold if form == "reprint" else number})
        browser.when("textOf('title').includes(words[0]) && isIdle()", done, done)
        browser.is_seen("#title", done)
        browser.fits(done)
    browser.press("close")
    browser.shows("end-form", "the question")
    for part in ("end-question", "keep", "end-now"):
        browser.is_seen(f"#{part}", "the question")
    browser.send("end-form")
    browser.says("paper", f"Shift {number} is closed.")
    same(desk.ask("POST", "/shifts/close", operator=LONGEST_NAME)[0], 409, "a closed shift")
    counter.has_sold(0, 0, "the end of a day")
    same(relay.plans, [], "plans")


def look_at_sale(counter):
    """A sale under way, in doubt, and its receipt."""
    browser, relay = counter.browser, counter.relay
    held = Plan(waits=True)
    relay.plan(held, Plan(answer=said(503, error="Store", refusal=16)), last := Plan(waits=True))
    browser.sell(MOST_MONEY)
    browser.shows("sure-form", "the question about a large sum")
    for part in ("sure-question", "unsure", "sure"):
        browser.is_seen(f"#{part}", "the question about a large sum")
    browser.is_usable()
    browser.send("sure-form")
    until(held.came.is_set, "an order")
    browser.is_seen("#why", "a sale under way")
    browser.fits("a sale under way")
    time.sleep(0.5)  # an earlier press counts as a part of a double click
    browser.press("retry")
    until(last.came.is_set, "the order again")
    same("disk failed" in browser.text("why"), True, "a sale in doubt")
    for part in ("order", "why", "retry"):
        browser.is_seen(f"#{part}", "a sale in doubt")
    browser.fits("a sale in doubt")
    held.goes.set()
    last.goes.set()
    browser.receipt(MOST_MONEY)
    browser.is_seen("#title", "a receipt")
    browser.when("textOf('recent-sales').split(/\\s+/).includes(words[0])", "the last sales", str(counter.sold + 1))
    browser.fits("a receipt")
    counter.has_sold(1, 3, "a sale")


def look_at_office(counter):
    """Each form of the manager's page: a field that is wrong, a refusal, and what was done."""
    browser = counter.browser
    browser.open("/office.html")
    for _ in range(7):
        browser.press("step")
    browser.shows("tariff-form", "eight steps")

    def answers(form, words, steps=(), **fields):
        browser.run("""document.querySelectorAll('#steps input').forEach((it, place) => {
            it.value = arguments[0][place] ?? ''; });""", steps)
        browser.send(form, **fields)
        browser.says(form, words)

    answers("tariff-form", "letters, digits or hyphens", name="a b")
    answers("tariff-form", "Write the price", steps=STEPS, name="sizes")
    answers("tariff-form", "Write the price", steps=["1", "x"] + STEPS[2:], name="sizes")
    answers("tariff-form", "left as it is", steps=("", "9.99"), name="flat")
    answers("tariff-form", "is stored", steps=("", "1.00"), name="sizes")
    browser.open("/office.html")
    answers("meter-form", "no meter number", meter="1", tariff="flat", key=KEY)
    answers("meter-form", "sixteen digits", meter=METER, tariff="flat", key="1")
    answers("meter-form", "no tariff", meter=NO_METER, tariff="none", key=KEY)
    answers("meter-form", "is stored", meter=OTHER_METER, tariff="block", key=KEY)
    answers("change-form", "no meter with this number", changed=NO_METER, new_tariff="flat")
    answers("change-form", "has the tariff flat", changed=METER, new_tariff="flat")
    answers("key-form", "sixteen digits", keyed=METER, new_key="1")
    answers("key-form", "no meter with this number", keyed=NO_METER, new_key=KEY)
    answers("key-form", "has this key", keyed=METER, new_key=KEY)
    answers("base-form", "later base date already", moved=METER, new_base="1993")
    answers("base-form", "has the base date 2014", moved=METER, new_base="2014")
    file = counter.folder / "sizes.csv"
    file.write_text(f"meter,base,tariff,key\n{METER},2014,flat,{KEY}\n")
    for kind, words in (("tariffs", "names of the columns"), ("meters", "0 rows were new")):
        browser.at("file").send_keys(str(file))
        answers("import-form", words, kind=kind)
    for kind in ("tariffs", "meters", "shifts"):
        answers(f"{kind}-form", f"100 {kind} so far")
        answers(f"{kind}-form", kind)
