"""A shop that sells on two machines, with a third one that keeps a copy: how tools/check_machines sets it up by the
blocks of deploy/two-machines/README.md, sells, and compares what the tills were told with what the office has. It is
no script of its own."""
import base64
import collections
import concurrent.futures
import json
import os
import re
import shutil
import statistics
import subprocess
import time
from pathlib import Path

import machines
import own_machine
from machines import wait_until
from program import TOP
from shared import blocks_of, luhn, same, wrong
from tills import AtCounter, AtDesk, Lost, Till, apart

VEND = Path(os.environ.get("VEND") or TOP / "release" / "vend-x86_64-linux").resolve()
PAGE = TOP / "deploy" / "two-machines" / "README.md"
# Its blocks for the machine that sells; those before them make it.
COMES_BACK, BACK_TO_A_COPY = "A machine that comes back", "Go back to a copy"
PARTS = ("CHANGELOG.md", "deploy", "docs", "examples", "page", "release", "tools")
PACKAGES = ("--no-install-recommends", "crmsh", "glusterfs-server", "nftables", "nginx-light", "pacemaker",
            "resource-agents")
ADDRESS, HOST = "10.77.0.10", "till.example"
CASHIER = ("ann", "cashier-word")
METERS = 3000
OPERATORS = ("till1", "till2", "till3", "till4")


def say(*words):
    print(time.strftime("%H:%M:%S"), *words, flush=True)


def answers(place):
    """Whether a desk answers there."""
    try:
        return apart(lambda: place.ask("GET", "/health"))[0] == 200
    except Lost:
        return False


def answered(place, *message):
    """A reply, by as many tries as it takes."""
    def ask():
        try:
            reply = apart(lambda: place.ask(*message))
        except Lost:
            return None
        return None if reply[0] in (429, 502, 503, 504) else reply
    return wait_until(ask, f"an answer to {message}")


Found = collections.namedtuple("Found", ["lost", "twice", "untold"])


class Shop:
    """The three machines, the tills, and all that these were told. What it begins ends with the stack."""

    def __init__(self, room, stack):
        self.room = room
        self.stack = stack
        self.sold = []
        self.tills = []
        self.tag = 0
        self.meters = [luhn(1_000_000_000 + 7 * it) for it in range(METERS)]
        self.network = machines.Network()
        self.stack.callback(self.network.stop)
        self.members = []

    def begin(self):
        archives = self.room / "fetched"
        archives.mkdir()
        own_machine.Machine(archives, archives, *PACKAGES)
        package = subprocess.run([TOP / "tools" / "package", self.room], check=True, capture_output=True, text=True,
                                 env={**os.environ, "VEND": str(VEND)}).stdout.strip()
        for number in (1, 2, 3):
            stage = self.fill(self.room / f"stage{number}", package)
            self.members.append(machines.Member(self.room / f"office-{number}", stage, number, self.network, archives))
        for it in self.members:
            self.stack.callback(wait_until, it.is_free, "a disk that is let go")
            self.stack.callback(it.off)
            it.start()
        self.one, self.two, self.three = self.members
        self.fence = machines.Fence(self.network, self.members)
        for it in self.members:
            it.ask("install", "-m", "755", "tools/fence_trial.py", "/usr/sbin/fence_trial")

    def fill(self, stage, package):
        """The repository as the page has it, with the fence of this trial."""
        stage.mkdir(mode=0o755)
        for name in PARTS:
            if (TOP / name).is_dir():
                shutil.copytree(TOP / name, stage / name, ignore=shutil.ignore_patterns("out", "__pycache__"))
            else:
                shutil.copy(TOP / name, stage / name)
        shutil.copy(package, stage)
        rows = "".join(f"{it},2014,flat,{at:016x}\n" for at, it in enumerate(self.meters))
        (stage / "meters.csv").write_text(f"meter,base,tariff,key\n{rows}")
        fence = stage / "deploy" / "two-machines" / "fence.crm"
        own = re.sub(r"stonith:\w+ \\\n +params .* pcmk_host_list=(\S+)",
                     r"stonith:fence_trial params port=\1 pcmk_host_list=\1", fence.read_text())
        same(own.count("fence_trial"), 2, "fences of the page")
        fence.write_text(own)
        library = ["cc", "-shared", "-fPIC", "-O1", "-o", stage / "empty_syncs.so", TOP / "tools" / "empty_syncs.c"]
        subprocess.run(library, check=True)
        return stage

    # ---- the page

    def on_all(self, members, act):
        with concurrent.futures.ThreadPoolExecutor() as pool:
            return list(pool.map(act, members))

    def run_blocks(self, *headings):
        """Runs the blocks under these headings, each on the machines that its heading names."""
        blocks = blocks_of(PAGE)
        for heading in headings:
            found = [block for under, block in blocks if under == heading]
            if not found:
                wrong(f"{PAGE} has no block under {heading!r}")
            where = self.members if "all three" in heading else [
                it for it in self.members if it.name_in_network in heading]
            for block in found:
                self.on_all(where, lambda it, text=block: it.shell(text, wait=400))
            say(f"page: {heading}: {len(found)} blocks on {', '.join(it.name_in_network for it in where)}")

    def install_package(self):
        """What the page presupposes: the package on two, with one certificate and the same passwords."""
        def install(member):
            member.shell("apt-get install --yes --no-install-recommends ./vend_*_amd64.deb; systemctl start nginx",
                         wait=400)
            member.ask("vend-certificate", HOST)
            member.ask("vend-user", CASHIER[0], input=f"{CASHIER[1]}\n")

        self.on_all([self.one, self.two], install)
        for name in ("tls.key", "tls.crt", "cashiers", "managers"):
            self.two.give(self.one.ask("cat", f"/etc/vend/{name}"), f"/etc/vend/{name}")
        self.two.ask("systemctl", "reload", "nginx")
        credentials = base64.b64encode(":".join(CASHIER).encode()).decode()
        self.counter = AtCounter(self.network, (ADDRESS, 443), HOST, self.one.ask("cat", "/etc/vend/tls.crt"),
                                 credentials)

    def open_office(self, member):
        """Tariffs, meters and open shifts."""
        desk = ["runuser", "-u", "www-data", "--", "vend"]
        at = ["--desk", "127.0.0.1:8080"]
        wait_until(lambda: answers(AtDesk(member)), "the desk")
        for kind, file in (("tariffs", "examples/tariffs.csv"), ("meters", "meters.csv")):
            member.ask(*desk, "import", *at, kind, file)
        for operator in OPERATORS:
            member.ask(*desk, "shift", *at, "--operator", operator, "open")

    # ---- selling

    def sell(self, place, count):
        """One till's sales, and how long each took in the median, in seconds."""
        till, begun = self.till(OPERATORS[0], [place]), time.time()
        wait_until(lambda: till.done >= count or time.time() - begun > 60, "sales", 90, 0.01)
        self.keep([till])
        return statistics.median(it.told - it.asked for it in till.sold)

    def till(self, operator, places, pause=0.0):
        self.tag += 1
        self.tills.append(Till(operator, places, self.meters, f"R{self.tag}", pause))
        return self.tills[-1]

    def leave_tills(self):
        for it in self.tills:
            it.leave()
        self.tills.clear()

    def keep(self, tills):
        """Ends tills, and keeps what they were told."""
        for till in tills:
            if not till.halt():
                wrong(f"a till's order has no answer: {till.lost} lost")
            if till.refused:
                wrong(f"a till was refused: {till.refused[:3]}")
            self.sold += till.sold

    def seller(self):
        """The machine whose desk sells."""
        on = [it for it in self.members[:2] if it.is_on()]
        return next((it for it in on if answers(AtDesk(it))), None)

    def as_proxy(self, member, *words, status=0):
        return member.ask("runuser", "-u", "www-data", "--", *words, status=status)

    def compare(self, member):
        """How many sales that tills were told of the office lacks or has otherwise, how many it has or they were told
        twice, and how many it has that nobody was told of: by deploy/vend-compare, and by counting."""
        records, export = self.room / "records.json", self.room / "export.csv"
        records.write_text("".join(f"{json.dumps(it.reply)}\n" for it in self.sold))
        export.write_text(self.as_proxy(member, "vend", "report", "--desk", "127.0.0.1:8080", "--kind", "sales"))
        ran = subprocess.run([TOP / "deploy" / "vend-compare", export, records], capture_output=True, text=True)
        lines = ran.stdout.splitlines()
        if ran.returncode not in (0, 1) or not lines or ran.returncode != (len(lines) > 1):
            wrong(f"vend-compare: {ran}")
        for line in lines[:-1][:3]:
            say(f"  vend-compare: {line}")
        twice = sum(line.startswith("twice ") for line in lines)
        orders = {(it.reply["operator"], it.reply["ref"]) for it in self.sold}
        return Found(len(lines) - 1 - twice, twice, export.read_text().count("\n") - 1 - len(orders))

    def ask_again(self, place, sold):
        """Orders that were answered, sent again and looked up: the first answer has to come."""
        for it in sold:
            ref = f"/operators/{it.order['operator']}/sales/{it.order['ref']}"
            for method, target, body in (("POST", "/sales", it.order), ("GET", ref, None)):
                status, text = answered(place, method, target, body)
                same((status, json.loads(text)), (200, it.reply), f"{method} {target} once more")

    def audit(self, member):
        """What an audit of a copy finds, which vend-backup makes while the desk sells."""
        copy = member.ask("vend-backup").splitlines()[-1]
        found = member.run("vend", "audit", "--transform", "plain", "--file", copy)
        member.ask("rm", copy)
        return (found.stdout + found.stderr).strip()

    # ---- a machine that comes back

    def bring_back(self, member):
        """Starts a machine, and does on the one that sells what the page says."""
        if not member.is_on():
            member.start()
        self.run_heal()
        self.wait_for_cluster()

    def run_heal(self):
        seller = wait_until(self.seller, "a desk that sells")
        heal, = [block for under, block in blocks_of(PAGE) if under == COMES_BACK]
        seller.shell(heal, wait=300)
        wait_until(lambda: answers(AtDesk(seller)), "the desk after the copies are the same")

    def wait_for_cluster(self):
        names = " ".join(it.name_in_network for it in self.members)
        wait_until(lambda: f"Online: [ {names} ]" in self.three.run("crm_mon", "--one-shot").stdout,
                   "three machines in the cluster", 180, 0.5)
