"""One takeover of an office by another machine, for tools/check_machines: the sales before it, the failure, the sales
after it, and what is found then. It is no script of its own."""
import random
import time

import machines
from joint_shop import OPERATORS, answers, say
from machines import wait_until
from shared import same, wrong
from tills import PAUSE, AtDesk

LOG = "/var/lib/vend/office.db-wal"
PAUSES = (0, 0.005, 0.02, 0.05)  # seconds between the power of one machine and of the next


class Takeover:
    """One takeover, and what it showed."""

    def __init__(self, shop, kind, is_idle=False, is_control=False):
        self.shop, self.kind, self.is_idle, self.is_control = shop, kind, is_idle, is_control
        self.a = wait_until(shop.seller, "a desk that sells")
        self.b = shop.two if self.a is shop.one else shop.one
        self.at_a, self.at_b = AtDesk(self.a), AtDesk(self.b)

    def run(self):
        shop, self.before = self.shop, len(self.shop.sold)
        stay, move = [self.at_a], [self.at_a, self.at_b]
        tills = [shop.till(OPERATORS[0], stay), shop.till(OPERATORS[1], move)]
        tills += [shop.till(it, [shop.counter], PAUSE) for it in OPERATORS[2:]]
        time.sleep(2 + 2 * random.random())
        if self.is_idle:
            shop.keep(tills)
        else:
            # Right after a sale.
            before = sum(len(it.sold) for it in tills)
            wait_until(lambda: sum(len(it.sold) for it in tills) > before, "sales", pause=0)
        # When it began to fail, when it had failed, and from when on another machine could go on.
        self.begun = self.failed = self.since = time.time()
        getattr(self, f"fail_by_{self.kind}")()
        if self.is_idle:
            tills = [shop.till(OPERATORS[1], [self.at_b])]
            tills += [shop.till(it, [shop.counter], PAUSE) for it in OPERATORS[2:]]
        self.wait_for_sales(tills)
        time.sleep(1.5)
        if self.kind == "unfenced":
            self.come_back(stay, tills)
        stay[:] = [self.at_b]
        time.sleep(1)
        shop.keep(tills)
        self.look()

    def fail_by_kill(self):
        self.a.off()
        self.failed = time.time()

    def fail_by_cut(self):
        self.a.cut()
        self.failed = time.time()

    def fail_by_unfenced(self):
        """What would stop its desk from within stands still, so that nothing but the volume is in its way."""
        self.shop.fence.lies = True
        self.a.ask("systemctl", "kill", "--signal=STOP", "corosync", "pacemaker")
        self.begun = self.since = time.time()
        self.a.cut()
        self.failed = time.time()

    def fail_by_confirmed(self):
        self.shop.fence.fails = True
        self.a.cut()
        self.failed = time.time()
        time.sleep(15)
        same(answers(self.at_b), False, "a desk though the other machine was not fenced")
        self.a.off()
        self.shop.three.ask("stonith_admin", "--confirm", self.a.name_in_network)
        self.shop.fence.fails = False
        self.since = time.time()

    def fail_by_power(self):
        machines.power_cut(random.sample(self.shop.members, 3), random.choice(PAUSES))
        self.since = time.time()
        for it in self.shop.members:
            it.start()
        self.a, self.at_a = None, None

    def fail_by_majority(self):
        # A sale may be on the disk of one of them, and not yet on that of the other.
        machines.power_cut([self.b, self.shop.three], random.choice(PAUSES))
        self.failed = time.time()
        time.sleep(1 + 8 * random.random())
        machines.power_cut([self.a])
        self.since = time.time()
        for it in (self.b, self.shop.three):
            it.start()

    def wait_for_sales(self, tills):
        """Until a till at the counter has sold again, at a machine that took over."""
        shop = self.shop
        if self.kind == "power":
            self.b = wait_until(shop.seller, "a desk after the power is back", 180)
            self.a = shop.two if self.b is shop.one else shop.one
            self.at_a, self.at_b = AtDesk(self.a), AtDesk(self.b)
        else:
            wait_until(lambda: self.b.is_on() and answers(self.at_b), "the other desk", 180)
        sold = lambda: [it.told for till in tills for it in till.sold
                        if it.place == "counter" and it.told > self.since + 0.5]
        self.seconds = min(wait_until(sold, "sales at the counter", 120, 0.01)) - self.since

    def name_of_a(self):
        return "" if self.kind == "power" else self.at_a.name

    def come_back(self, stay, tills):
        """The machine that was cut off comes back with its desk, and is asked to sell."""
        self.a.mend()
        time.sleep(6)
        if self.is_idle:
            tills.append(self.shop.till(OPERATORS[0], stay))
            time.sleep(4)
        time.sleep(2)
        said = self.a.run("journalctl", "-u", "vend", "--no-pager", "--output=cat", "-n", "6").stdout.split("\n")
        say("  the machine that came back said:", "; ".join(filter(None, said)))
        self.a.off()
        self.shop.fence.lies = False

    def look(self):
        """Compares all that was ever acknowledged, and says what was found."""
        shop = self.shop
        mine = shop.sold[self.before:]
        name = self.name_of_a()
        self.late = sum(it.place == name and it.asked > self.failed for it in mine)
        if self.is_control:
            say("  vend-compare:", self.b.run("vend-compare", "--log", LOG).stdout.strip())
            # What the file has, and not what its desk remembers. systemd starts it again a second later.
            self.b.ask("systemctl", "kill", "vend")
            time.sleep(1)
            wait_until(lambda: answers(self.at_b), "a desk that opens what the control left")
            self.found = shop.compare(self.b)
            return
        last = sorted((it for it in mine if it.told <= self.begun), key=lambda it: it.told)[-40:]
        newest = [it for it in mine if it.told > self.begun]
        shop.ask_again(self.at_b, last + random.sample(newest, min(10, len(newest))))
        self.found = shop.compare(self.b)
        self.count = len(mine)


def round_of(shop, kind, is_idle=False):
    """A takeover with all that follows: nothing may be lost, twice, or more than was told."""
    it = Takeover(shop, kind, is_idle)
    it.run()
    audit = shop.audit(it.b)
    shop.bring_back(it.a)
    say(f"{kind}{' idle' if is_idle else ''}: office-{it.a.number} to office-{it.b.number} in {it.seconds:.1f} s; "
        f"{len(shop.sold)} sales told, {it.found.lost} lost, {it.found.twice} twice, {it.found.untold} untold; "
        f"{it.late} told after the failure by the one that failed; {audit}")
    if any(it.found) or it.late or not audit.startswith("sound"):
        wrong(f"a takeover by {kind}")
    return it
