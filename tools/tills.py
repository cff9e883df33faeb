"""Tills that sell without a pause through takeovers, for tools/check_machines: at the desk of a machine, from within
its network, or at the counter's address, through nginx. Each sends an order with the same ref until it has an answer,
so that every sale that the office has was acknowledged in the end. It is no script of its own."""
import concurrent.futures
import http.client
import json
import pwd
import random
import ssl
import threading
import time

PATIENCE = 4  # seconds for one message
PAUSE = 0.05  # between two tries, and between the sales of a counter's till: nginx takes twenty a second
PROXY = pwd.getpwnam("www-data").pw_uid  # whom the firewall lets reach a desk


class Lost(Exception):
    """No whole reply came."""


class AtDesk:
    """The desk of a machine, asked from that machine."""

    def __init__(self, member):
        self.name = member.name_in_network
        self.member = member

    def ask(self, method, target, body=None):
        try:
            return talk(self.member.connect(("127.0.0.1", 8080), PROXY, PATIENCE), method, target, body)
        except OSError as error:
            raise Lost(repr(error)) from error


class AtCounter:
    """The address of the office, asked as a browser does, by a cashier."""

    name = "counter"

    def __init__(self, network, address, host, certificate, credentials):
        self.network, self.address, self.host = network, address, host
        self.context = ssl.create_default_context(cadata=certificate)
        self.fields = {"X-Till": "1", "Authorization": f"Basic {credentials}", "Host": host}

    def ask(self, method, target, body=None):
        try:
            with self.network.connect(self.address, PATIENCE) as line:
                safe = self.context.wrap_socket(line, server_hostname=self.host)
                return talk(safe, method, f"/api{target}", body, self.fields)
        except OSError as error:
            raise Lost(repr(error)) from error


def talk(line, method, target, body, fields=None):
    """One message on a connection, which ends with its reply."""
    client = http.client.HTTPConnection("desk")
    client.sock = line
    try:
        client.request(method, target, None if body is None else json.dumps(body), fields or {})
        reply = client.getresponse()
        return reply.status, reply.read().decode()
    except http.client.HTTPException as error:
        raise Lost(repr(error)) from error
    finally:
        client.close()


def apart(act):
    """What a call gives in a thread of its own: who asks a place is on its network from then on."""
    with concurrent.futures.ThreadPoolExecutor(1) as pool:
        return pool.submit(act).result()


class Sold:
    """What a till was told of an order."""

    def __init__(self, place, asked, order, reply):
        self.place, self.asked, self.order, self.reply = place, asked, order, reply
        self.told = time.time()


class Till(threading.Thread):
    """Sells one order after another at these places, a list that may change meanwhile."""

    def __init__(self, operator, places, meters, tag, pause=0.0):
        super().__init__(daemon=True)
        self.operator, self.places, self.meters, self.tag, self.pause = operator, places, meters, tag, pause
        self.sold, self.refused, self.lost = [], [], 0
        self.halted = threading.Event()
        self.has_left = False
        self.begun = self.done = 0
        self.start()

    def run(self):
        while not self.halted.is_set():
            self.begun += 1
            order = {"operator": self.operator, "ref": f"{self.tag}-{self.begun}",
                     "meter": random.choice(self.meters), "tender": random.randrange(10, 2000)}
            while not self.is_settled(order):
                if self.has_left:
                    return
                time.sleep(PAUSE)
            self.done += 1
            time.sleep(self.pause)

    def is_settled(self, order):
        """Whether the order has an answer now, asked at each place once."""
        for place in list(self.places):
            asked = time.time()
            try:
                status, text = place.ask("POST", "/sales", order)
            except Lost:
                self.lost += 1
                continue
            if status == 200:
                self.sold.append(Sold(place.name, asked, order, json.loads(text)))
                return True
            # The desk or the proxy says that it cannot now: 429, 502, 503, 504.
            if status != 429 and status < 500:
                self.refused.append((status, text, order))
                return True
            self.lost += 1
        return False

    def leave(self):
        """Sells nothing more, even if an order that is on its way never has an answer."""
        self.has_left = True
        self.halted.set()

    def halt(self):
        """Sells nothing more, once the order that is on its way has its answer."""
        self.halted.set()
        self.join(60)
        return not self.is_alive()
