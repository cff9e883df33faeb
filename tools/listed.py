"""The parts of tools/check_page about lists: the last sales of a shift at the counter, which no sale waits for, and what
they say of the office's clock; and the manager's lists of tariffs, meters and shifts. It is no script of its own."""
import json
import time

from browser import COUNT_REQUESTS
from many_sales import meter_of
from program import KEY, METER, OTHER_METER, rows_in
from servers import Plan, said, until
from shared import same, wrong

PAGE = 100  # members of a page of a list
SHOWN = 10  # sales of a shift that the counter shows
REACHED = 300  # of the last sales so many are looked through for them
DAY = 86400
QUIET = 0.8  # seconds within which a look-up that is wanted would have been sent
# Sales of another cashier: the pages that are asked for then overlap, and then they reach no further.
OTHERS = (95, 200)
ROWS = "return [...document.querySelectorAll(arguments[0])].map((row) => [...row.cells].map((it) => it.innerText.trim()))"


def moment(seconds):
    return time.strftime("%Y-%m-%d %H:%M:%S UTC", time.gmtime(seconds))


def last_sales(counter, shift):
    """What the counter has to show of a shift: its last ten sales, by the rows of the file."""
    rows = rows_in(counter.desk.file, "SELECT number, moment, meter, tenths, price, shift FROM sales ORDER BY number DESC;")
    return [[str(number), moment(seconds), meter, f"{tenths / 10:.1f} kWh", f"{price / 100:.2f}"]
            for number, seconds, meter, tenths, price, of in rows[:REACHED] if of == shift][:SHOWN]


def check_recent(counter):
    """The last sales of the shift that is open, after each sale, by look-ups that no sale waits for."""
    browser, relay, desk = counter.browser, counter.relay, counter.desk

    def asked():
        return [it.split()[1].decode() for it in relay.heads if it.startswith((b"GET /health ", b"GET /sales?"))]

    def is_listed(where):
        """The list is that of the file, as soon as its look-ups were answered."""
        found = last_sales(counter, shift)
        browser.when("by('recent').ariaBusy !== 'true'", where)
        until(lambda: browser.run(ROWS, "#recent-sales tbody tr") == found,
              lambda: f"{where}: {browser.run(ROWS, '#recent-sales tbody tr')}\nexpected {found}")
        same(browser.are_shown("recent"), ["recent"] if found else [], where)
        browser.fits(where)
        return len(found)

    def sell(tender, where):
        browser.sell(tender)
        counter.is_first_receipt_after(browser.receipt(f"{int(tender)}.00"), where)
        browser.next()

    browser.open()
    shift = browser.run("return JSON.parse(localStorage.getItem('till.shift')).number")
    is_listed("a page that is loaded")
    browser.run(COUNT_REQUESTS)
    for number in range(2):
        before = len(asked())
        sell(str(10 + number), "a sale before its list")
        is_listed("a sale")
        count = counter.sold
        until(lambda: len(asked()) == before + 2, "the look-ups after a sale")
        same(asked()[before:], ["/health", f"/sales?after={max(count - 100, 0)}"], "the look-ups after a sale")
    browser.is_usable()
    # Another cashier sells much: older pages are looked through, three at the most.
    desk.ask("POST", "/shifts", operator="bob")
    for many, pages in zip(OTHERS, (2, 3)):
        for number in range(many):
            order = {"meter": OTHER_METER, "operator": "bob", "ref": f"M-{many}-{number}", "tender": 10}
            status, text = desk.ask("POST", "/sales", **order)
            same(status, 200, text)
        counter.sold += many
        before = len(asked())
        sell("12", "a sale after many others")
        afters = [max(counter.sold - 100 * page, 0) for page in range(1, pages + 1)]
        until(lambda: len(asked()) == before + 1 + pages, "the look-ups behind the sales of others")
        few = is_listed("a sale after many others")
        same(asked()[before:], ["/health", *(f"/sales?after={after}" for after in afters)],
             "the look-ups behind the sales of others")
    if not 1 < few < SHOWN:
        wrong(f"{few} sales are within reach")
    desk.ask("POST", "/shifts/close", operator="bob")
    # A sale waits for no look-up; what it was of is asked for anew behind it, also where the sale is refused.
    for tender, is_sold in (("13", True), ("0", False)):
        waiting = Plan(waits=True)
        relay.lists.append(waiting)
        browser.run("dispatchEvent(new StorageEvent('storage'))")
        until(waiting.came.is_set, "a look-up")
        before = len(asked())
        if is_sold:
            sell(tender, "a sale beside a look-up")
        else:
            browser.sell(tender)
            browser.says("order-form", "Write the money")
        until(lambda: len(asked()) == before + 4, lambda: f"look-ups behind a sale: {asked()[before:]}")
        same(waiting.ended.is_set(), False, "a look-up that waits")
        is_listed("a sale beside a look-up")
        waiting.goes.set()
        until(waiting.ended.is_set, "the end of a look-up")
        is_listed("a look-up that was given up")
    # While a sale is on its way nothing is looked up, whatever another tab does.
    held = Plan(waits=True)
    relay.plan(held)
    browser.sell("14")
    until(held.came.is_set, "an order")
    before = len(asked())
    browser.run("dispatchEvent(new StorageEvent('storage'))")
    time.sleep(QUIET)
    same(asked()[before:], [], "look-ups beside a sale")
    held.goes.set()
    counter.is_first_receipt_after(browser.receipt("14.00"), "a sale that is looked for")
    browser.next()
    is_listed("a sale that was looked for")
    # Look-ups that fail leave the list as it was, and it is said that it may not be whole.
    rows = browser.run(ROWS, "#recent-sales tbody tr")
    for plans in ([Plan(answer=said(503, error="Store", refusal=16))], [Plan(), Plan(answer=said(404, error="NoRoute"))],
                  [Plan(after=lambda _: b"")], [Plan(), Plan(answer=said(200, other=1))]):
        relay.lists += plans
        browser.run("dispatchEvent(new StorageEvent('storage'))")
        until(plans[-1].ended.is_set, "the end of a look-up")
        time.sleep(0.1)
        same(browser.run(ROWS, "#recent-sales tbody tr"), rows, "a list after a look-up that failed")
        same(browser.run("return [...document.querySelectorAll('.answer')].map((it) => it.innerText).join('')"), "",
             "what is said of a look-up that failed")
        same("may be missing" in browser.text("lacks"), True, "what is said of the list then")
    browser.run("dispatchEvent(new StorageEvent('storage'))")
    browser.when("textOf('lacks') === ''", "a list that is whole again")
    # A number of the list shows that receipt.
    number = rows[0][0]
    browser.run("[...document.querySelectorAll('#recent-sales button')].find((it) => it.innerText === arguments[0]).click()",
                number)
    browser.when("textOf('title') === 'Receipt, printed again'", "a receipt of the list")
    same(browser.receipt("14.00")["Sale"], number, "a receipt of the list")
    browser.next()
    browser.when("window.requests === 0", "the end of all requests")
    same(browser.run("return window.most"), 1, "requests at a time")
    # It goes with the shift, and comes back with it.
    browser.press("other")
    browser.shows("start", "another cashier")
    same((browser.are_shown("recent"), browser.run(ROWS, "#recent-sales tbody tr")), ([], []), "a list without a shift")
    browser.run("localStorage.setItem('till.shift', arguments[0]); dispatchEvent(new StorageEvent('storage'))",
                f'{{"operator":"ann","number":{shift}}}')
    is_listed("a shift of another tab")
    counter.has_sold(0, 0, "lists")
    same(relay.lists, [], "plans")
    print(f"the last sales of a shift: after each sale, of {REACHED} sales at most, and no sale waits for them")


def moved(apart):
    """What moves the last sale of an office by so many seconds."""
    def move(reply):
        health = json.loads(reply.partition(b"\r\n\r\n")[2])
        health["last_moment"] += apart
        return said(200, **health)
    return move


def check_clock(counter):
    """Where the last sale is later than the office's clock, or long before it, the page asks before it sells."""
    browser = counter.browser
    for apart, words, press in ((30 * DAY, "later than", "unsure"), (-8 * DAY, "long before", "sure")):
        page = Plan()
        counter.relay.lists += [Plan(after=moved(apart)), page]
        browser.open()
        until(page.ended.is_set, "the last sales")
        browser.when("by('recent').ariaBusy !== 'true'", "a page that is loaded")
        browser.sell("15")
        browser.shows("sure-form", "a question about the clock")
        question = browser.text("sure-question")
        same((words in question, "Is it right?" in question), (True, True), question)
        browser.press(press)
        if press == "sure":
            counter.is_first_receipt_after(browser.receipt("15.00"), "a sale after a question about the clock")
            browser.next()
        else:
            browser.shows("order-form", "a sale that is not made")
            counter.has_sold(0, 0, "a question about the clock")
    # That sale is the last one, so nothing is asked.
    browser.sell("16")
    counter.is_first_receipt_after(browser.receipt("16.00"), "a sale under a clock that is right")
    browser.next()


def check_lists(counter):
    """The manager's lists: whole ones, and such as have more than a page."""
    browser, desk = counter.browser, counter.desk
    browser.open("/office.html")
    browser.is_usable()

    def shows(kind, *words):
        browser.send(f"{kind}-form")
        browser.says(f"{kind}-form", *words)
        return browser.run(ROWS, f"#{kind}-form tbody tr")

    def button(kind):
        return browser.run("return document.querySelector(`#${arguments[0]}-form > button`).innerText", kind)

    def pages(kind, wanted):
        """The list page by page, until one that is not full; then its first page again."""
        count, is_whole = 0, False
        while not is_whole:
            before, count = count, min(count + PAGE, len(wanted))
            is_whole = count - before < PAGE
            # Shifts are read downwards, so their first one ends the list.
            is_whole = is_whole or (kind == "shifts" and count == len(wanted))
            found = shows(kind, f"{count} {kind}{'' if is_whole else ' so far'}.")
            names = [row for row in found if row[1] == "today"] if kind == "tariffs" else found
            same((names, button(kind)), (wanted[:count], "Show again" if is_whole else "More"), f"the list of {kind}")

    same(shows("tariffs", "2 tariffs."),
         [["block", "today", "1.00 up to 50.0 kWh, 1.50 up to 100.5 kWh, then 2.00"],
          ["block", "2099-01-01", "1.10 up to 50.0 kWh, then 2.20 Withdraw"], ["flat", "today", "1.00"]], "the tariffs")
    # More than a page of each, and exactly two. What is added now is in its place where a list is shown again.
    numbers = [meter_of(f"{number:010}") for number in range(10**9 + 1, 10**9 + 240)]
    meters = "meter,base,tariff,key\n" + "".join(f"{number},2014,flat,{KEY}\n" for number in numbers)
    tariffs = "name,steps\n" + "".join(f"t-{number},:{number}\n" for number in range(1, 2 * PAGE - 1))
    for kind, text in (("meters", meters), ("tariffs", tariffs)):
        head = f"POST /imports/{kind} HTTP/1.0\r\nContent-Length: {len(text)}\r\n\r\n"
        same(desk.answer((head + text).encode()).split()[1], b"200", f"more {kind}")
    for number in range(PAGE):
        desk.ask("POST", "/shifts", operator=f"o{number}")
        desk.ask("POST", "/shifts/close", operator=f"o{number}")
    totals = "coalesce(sales, 0), coalesce(tenths, 0), coalesce(cash, 0)"
    rows = {
        "meters": rows_in(desk.file, "SELECT meter, tariff, CAST(base AS TEXT) FROM meters ORDER BY meter;"),
        "tariffs": rows_in(desk.file, "SELECT tariff, 'today', printf('%.2f', price / 100.0) FROM tariff_steps "
                                      "WHERE ends IS NULL ORDER BY tariff;"),
        "shifts": rows_in(desk.file, f"SELECT number, operator, opened, closed, {totals} FROM shifts "
                                     "LEFT JOIN shift_totals ON shift = number ORDER BY number DESC;")}
    rows = {kind: [*map(list, found)] for kind, found in rows.items()}
    rows["tariffs"][0][2] = "1.00 up to 50.0 kWh, 1.50 up to 100.5 kWh, then 2.00"
    rows["shifts"] = [[str(number), operator, moment(opened), moment(closed) if closed else "still open", str(sales),
                       f"{tenths / 10:.1f} kWh", f"{cash / 100:.2f}"]
                      for number, operator, opened, closed, sales, tenths, cash in rows["shifts"]]
    same((len(rows["tariffs"]), len(rows["meters"]) > 2 * PAGE, len(rows["shifts"]) > PAGE), (2 * PAGE, True, True), "lists")
    for kind, wanted in rows.items():
        pages(kind, wanted)
        pages(kind, wanted)
    browser.is_usable()
    print(f"the manager's lists: {', '.join(f'{len(it)} {kind}' for kind, it in rows.items())}, by pages of {PAGE}")
