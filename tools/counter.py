"""A counter as tools/check_page tries it: its desk, relay, proxy and browser, and what it has sold. It is no script
of its own."""
import threading

from browser import Browser
from servers import OfficeDesk, OtherSite, Proxy, Relay
from shared import same, wrong


class Counter:
    """The desk, the relay, nginx and the browser of one check."""

    def __init__(self, folder, pictures):
        self.folder = folder
        self.desk = OfficeDesk(folder / "office.db")
        self.relay = Relay(self.desk)
        self.proxy = Proxy(folder, self.relay.port)
        self.site = OtherSite()
        self.browser = None
        self.sold = 0
        self.pictures = pictures

    def start(self):
        opening = threading.Thread(target=self.desk.start)
        opening.start()
        self.proxy.check()
        self.proxy.start()
        self.browser = Browser(self.folder, self.proxy, self.pictures)
        opening.join()
        if not self.desk.port:
            wrong("the desk did not start")

    def stop(self):
        if self.browser:
            self.browser.quit()
        self.proxy.kill()
        self.desk.kill()

    def has_sold(self, more, orders, where):
        """So many sales more stand than before, and so many orders came since; where None, any number of one
        and the same bytes."""
        self.sold += more
        sales = self.desk.sales()
        same((len(sales), len({sale[:2] for sale in sales})), (self.sold, self.sold), f"{where}: sales")
        came, self.relay.orders = self.relay.orders, []
        same(self.relay.plans, [], f"{where}: plans")
        same(len({*came}), 1 if more == 1 or orders is None else len(came), f"{where}: orders {came}")
        if orders is not None:
            same(len(came), orders, f"{where}: orders {came}")

    def is_first_receipt(self, rows, where):
        """What the screen says is what the desk prints for the last sale."""
        status, text = self.desk.ask("GET", f"/sales/{self.sold}/receipt")
        lines = dict(line.split(" ", 1) for line in text.splitlines())
        money = {name: f"{int(lines[name.upper()]) / 100:.2f}" for name in ("Price", "Tender", "Change")}
        same((status, rows), (200, {
            "Sale": lines["SALE"], "Meter": lines["METER"], "Energy": f"{lines['KWH']} kWh",
            "Time": lines["TIME"].replace("T", " ").replace("Z", " UTC"), "Price": money["Price"],
            "Paid": money["Tender"], "Change": money["Change"], "Token": lines["TOKEN"]}), where)

    def is_first_receipt_after(self, rows, where, orders=1):
        """One sale more stands, of so many orders, and its receipt is on the screen."""
        self.has_sold(1, orders, where)
        self.is_first_receipt(rows, where)
