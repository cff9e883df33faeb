"""The parts of tools/check_page about a sale whose answer is late, lost or wrong, or that two tabs send: there is one
sale, and its first receipt. It is no script of its own."""
import json
import signal
import time

from browser import COUNT_REQUESTS, WORDS
from program import METER
from servers import CASHIER, Plan, said, until
from shared import same


def check_under_way(counter):
    """While a sale is under way the page says so, within half a second; and 'Ask again now' gives the request up,
    where there is one, and sends the same order at once."""
    from selenium.webdriver.common.action_chains import ActionChains
    from selenium.webdriver.common.keys import Keys
    browser, relay, proxy = counter.browser, counter.relay, counter.proxy
    back = browser.driver.current_window_handle
    browser.driver.switch_to.new_window("tab")
    browser.before_each_page(COUNT_REQUESTS)
    browser.open()
    held = [Plan(waits=True) for _ in range(3)]
    relay.plan(*held)
    browser.fill(meter=METER, tender="10")
    text = browser.driver.execute_async_script(f"""{WORDS}
        const end = arguments[0];
        document.querySelector('#order-form button').click();
        setTimeout(() => end([textOf('why'), document.activeElement.id, answerOf('order-form')]), 500);""")
    same(("Please wait" in text[0], text[1:]), (True, ["doubt", ""]), f"a sale under way: {text}")
    browser.is_seen("#why", "a sale under way")
    browser.is_seen("progress", "a sale under way")
    same(browser.are_shown("sale", "start", "more", "paper"), [], "what can be done while a sale is under way")
    given_up = lambda: proxy.log.read_text().count("499 POST /api/sales ")
    before = given_up()
    double_click = lambda: ActionChains(browser.driver).double_click(browser.at("retry")).perform()
    for place, press in ((1, lambda: browser.keys(Keys.TAB, Keys.ENTER)), (2, double_click)):
        until(held[place - 1].came.is_set, "an order")
        time.sleep(0.5)  # an earlier press counts as a part of a double click
        press()
        # By itself the page gives a request up after twenty seconds.
        until(held[place].came.is_set, "the order again, as soon as that is asked for", 15)
        until(lambda: given_up() == before + place, "a request that was given up", 15)
        same("asked again" in browser.text("why"), True, "a sale that is asked for again")
    held[2].goes.set()
    rows = browser.receipt("10.00")
    # The requests that were given up reach the desk after all.
    for plan in held[:2]:
        plan.goes.set()
        until(plan.ended.is_set, "the end of an order")
    counter.is_first_receipt_after(rows, "a sale that is asked for again", 3)
    browser.next()
    # In the pause of five seconds before the fourth try.
    relay.plan(*(Plan(answer=said(503, error="Store", refusal=16)) for _ in range(3)), last := Plan(waits=True))
    browser.sell("10")
    until(lambda: len(relay.orders) == 3, "the third try")
    time.sleep(0.5)
    browser.press("retry")
    until(last.came.is_set, "the order again, as soon as that is asked for", 4)
    last.goes.set()
    counter.is_first_receipt_after(browser.receipt("10.00"), "a pause that is cut short", 4)
    browser.when("window.requests === 0", "the end of all requests")
    same(browser.run("return window.most"), 1, "requests at a time")
    browser.close_tab(back)
    browser.open()
    # What is no sale says at its form that it waits.
    counter.desk.process.send_signal(signal.SIGSTOP)
    browser.send("reprint-form", reprint=counter.sold)
    browser.when("answerOf('reprint-form').includes('Please wait')", "a form that waits")
    browser.is_seen("#reprint-form .answer", "a form that waits")
    counter.desk.process.send_signal(signal.SIGCONT)
    browser.receipt("10.00")
    browser.next()
    print("a sale under way: the page says so within half a second; 'Ask again now' sends the same order at once, one "
          "request at a time, and leads to one sale")


def check_lost(counter):
    """Replies that are lost in every way: always one sale, and its first receipt."""
    browser, desk, relay, proxy = counter.browser, counter.desk, counter.relay, counter.proxy
    first = desk.ask("GET", "/sales/1")[1]

    def one_sale(where, orders=None, tender="10.00"):
        counter.is_first_receipt_after(browser.receipt(tender), where, orders)
        browser.next()

    # The desk is killed between its commit and the reply.
    died = relay.plan(Plan(after=lambda _: desk.kill() or b""))
    browser.sell("10")
    until(died.ended.is_set, "the end of the desk")
    browser.when("isShown('retry') && textOf('why')", "a sale in doubt")
    browser.picture("doubt")
    desk.start()
    rows = browser.receipt("10.00")
    # Its sale is on top of the list, though the desk that was asked for it is gone.
    same(browser.run("return document.querySelector('#recent-sales button').innerText"), rows["Sale"],
         "the list after a desk that is killed")
    one_sale("a desk that is killed")
    # nginx is killed after the desk has sold.
    died = relay.plan(Plan(after=lambda _: proxy.kill() or b""))
    browser.sell("10")
    until(died.ended.is_set, "the end of nginx")
    proxy.start()
    one_sale("a proxy that is killed")
    # The reply is lost, cut, or that of another sale.
    for name, after in (("a reply that is lost", lambda _: b""), ("a reply that is cut", lambda reply: reply[:-9]),
                        ("the reply to another sale", lambda _: said(200, **json.loads(first)))):
        relay.plan(Plan(after=after))
        browser.sell("10")
        one_sale(name)
    # A reload while the order is under way.
    for selling in (False, True):
        held = relay.plan(Plan(waits=True, after=(lambda _: b"") if selling else None))
        browser.sell("10")
        until(held.came.is_set, "an order")
        if selling:
            held.goes.set()
            until(held.ended.is_set, "the end of an order")
        browser.open()
        until(lambda: len(relay.orders) > 1, "the order again")
        held.goes.set()
        one_sale("a reload")
    # A double click, and a key that is pressed again and again.
    from selenium.webdriver.common.action_chains import ActionChains
    from selenium.webdriver.common.by import By
    from selenium.webdriver.common.keys import Keys
    for slow in (False, True):
        held = relay.plan(Plan(waits=slow))
        browser.fill(meter=METER, tender="10")
        ActionChains(browser.driver).double_click(
            browser.at("order-form").find_element(By.TAG_NAME, "button")).perform()
        until(held.came.is_set, "an order")
        held.goes.set()
        one_sale("a double click", 1)
    browser.fill(meter=METER, tender="10")
    browser.keys(*[Keys.ENTER] * 4)
    one_sale("a key that is pressed again", 1)
    # A page whose address has the password in it, as a kiosk opens it, sells as any other.
    browser.open_with_password(CASHIER)
    browser.sell("10")
    one_sale("an address with a password")
    # What never left the browser is not in doubt, and nothing was sold.
    browser.run("window.RealRequest = Request; window.Request = function () { throw new TypeError('no'); };")
    browser.sell("10")
    browser.says("order-form", "did not send it, so nothing was done")
    same(browser.run("return Object.keys(localStorage).filter((it) => it.startsWith('till.pending'))"), [],
         "what is kept of an order that was never sent")
    counter.has_sold(0, 0, "an order that was never sent")
    browser.run("window.Request = window.RealRequest")
    browser.open()
    print("lost replies: desk killed after its commit, nginx killed, replies lost, cut and wrong, reloads, double "
          "clicks: one sale and its first receipt each")


def check_tabs(counter):
    """Two tabs: one of them sends, and what the one has in doubt the other one does not sell beside."""
    browser, relay = counter.browser, counter.relay
    first = browser.driver.current_window_handle
    held = relay.plan(Plan(waits=True))
    browser.sell("10")
    until(held.came.is_set, "an order")
    second = browser.new_tab()
    browser.when("isShown('doubt')", "the doubt in a second tab")
    browser.when("textOf('why').includes('Another tab')", "what the second tab says")
    same(browser.are_shown("sale", "retry"), [], "what can be done in a second tab")
    # By now a message of its own would be there.
    browser.run("return fetch('/api/sales/1', {headers: {'X-Till': '1'}}).then((it) => it.text())")
    same(len(relay.orders), 1, "orders of two tabs")
    held.goes.set()
    # It may see for a moment what the first tab has removed: then it gets the same sale once more.
    browser.when("isIdle() && !isShown('doubt')", "the end of the doubt in a second tab")
    if browser.are_shown("paper"):
        browser.next()
    browser.turn_to(first)
    counter.is_first_receipt_after(browser.receipt("10.00"), "two tabs", None)
    browser.next()
    # A tab that is open already hears of a sale, and does not ask for it beside the one that does.
    held = relay.plan(Plan(waits=True))
    browser.sell("10")
    until(held.came.is_set, "an order")
    browser.turn_to(second)
    browser.when("textOf('why').includes('no answer yet') && isShown('retry')", "a sale that a tab hears of")
    browser.press("retry")
    browser.when("textOf('why').includes('Another tab') && !isShown('retry')", "a tab that waits for another one")
    same(len(relay.orders), 1, "orders of two tabs")
    held.goes.set()
    browser.when("isIdle() && !isShown('doubt')", "the end of the doubt in a second tab")
    if browser.are_shown("paper"):
        browser.next()
    browser.turn_to(first)
    counter.is_first_receipt_after(browser.receipt("10.00"), "a tab that hears of a sale", None)
    browser.next()
    # Both tabs have a sale entered; the second one presses while the first one's is under way.
    browser.turn_to(second)
    # As a tab that has not heard of the other one yet.
    browser.before_each_page("window.addEventListener('storage', (it) => it.stopImmediatePropagation(), true);")
    browser.open()
    browser.fill(meter=METER, tender="20")
    browser.turn_to(first)
    held = relay.plan(Plan(waits=True))
    browser.sell("10")
    until(held.came.is_set, "an order")
    browser.turn_to(second)
    browser.run("document.getElementById('order-form').requestSubmit()")
    browser.says("order-form", "Another tab")
    same(len(relay.orders), 1, "orders of two tabs")
    held.goes.set()
    browser.turn_to(first)
    counter.is_first_receipt_after(browser.receipt("10.00"), "a second tab that sells", 1)
    browser.next()
    browser.turn_to(second)
    browser.when("!Object.keys(localStorage).some((it) => it.startsWith('till.pending'))", "the first tab's end")
    browser.run("document.getElementById('order-form').requestSubmit()")
    counter.is_first_receipt_after(browser.receipt("20.00"), "the second tab's own sale", 1)
    browser.close_tab(first)
    # Two tabs that are loaded again while a sale is in doubt.
    relay.plan(*(Plan(answer=said(503, error="Store", refusal=16)) for _ in range(4)))
    browser.sell("10")
    browser.shows("retry", "a sale in doubt")
    same(len(relay.orders), 4, "tries")
    second = browser.new_tab()
    browser.turn_to(first)
    browser.open()
    browser.when("isIdle() && !isShown('doubt')", "the end of the doubt")
    counter.has_sold(1, None, "two tabs that are loaded again")
    browser.turn_to(second)
    browser.when("isIdle() && !isShown('doubt')", "the end of the doubt in a second tab")
    browser.close_tab(first)
    browser.open()
    print("two tabs: one order at a time, and nothing beside a sale in doubt")


def check_limits(counter):
    """A desk that does not answer in time, and a browser that keeps nothing."""
    browser, relay = counter.browser, counter.relay
    back = browser.driver.current_window_handle
    browser.driver.switch_to.new_window("tab")
    browser.before_each_page("""
        const real = window.setTimeout.bind(window);
        window.setTimeout = (work, time, ...words) => {
          window.patience = Math.max(window.patience ?? 0, time ?? 0);
          return real(work, Math.min(time, 2000), ...words);
        };
        const keep = Storage.prototype.setItem;
        Storage.prototype.setItem = function (...words) {
          if (window.full) throw new DOMException("full", "QuotaExceededError");
          if (!window.forgets) keep.apply(this, words);
        };""")
    browser.open()
    held = relay.plan(Plan(waits=True))
    browser.sell("10")
    until(lambda: len(relay.orders) > 1, "the order again")
    held.goes.set()
    counter.is_first_receipt_after(browser.receipt("10.00"), "a desk that is silent", None)
    same(5000 <= browser.run("return window.patience") <= 60000, True, "how long the page waits")
    browser.next()
    for way in ("full", "forgets"):
        browser.run("window[arguments[0]] = true", way)
        browser.sell("10")
        browser.says("order-form", "keeps nothing", "nothing is sold")
        counter.has_sold(0, 0, f"a store that {way}")
        browser.run("window[arguments[0]] = false", way)
    browser.close_tab(back)
    print("limits: a desk that is silent is asked again; a browser that keeps nothing sells nothing")
