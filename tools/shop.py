"""The installed package in a system of its own, and what the steps of tools/check_install ask of it: a part of that.
It is no script of its own."""
import re
import subprocess
import threading
import time

from program import METER
from shared import same, wrong

NAME = "till.example"
MANAGER, CASHIER = ("maya", "manager-word"), ("ann", "cashier-word")
PASSWORDS = f"{MANAGER[1]}\n{CASHIER[1]}\n"
OFFICE = "/var/lib/vend/office.db"
BACKUPS = "/var/backups/vend"
SETTINGS = ("/etc/default/vend", "/etc/vend/desk.nft", "/etc/nginx/sites-available/vend")
DECIDED = ("/etc/vend/name.conf", "/etc/vend/tls.key", "/etc/vend/tls.crt", "/etc/vend/cashiers",
           "/etc/vend/managers")


class Shop:
    """The installed system, and what the steps ask of it."""

    def __init__(self, machine):
        self.machine = machine

    def ask(self, *words, status=0, **options):
        """The standard output of a command that has to end with this status."""
        ran = self.machine.run(*words, **options)
        if ran.returncode != status:
            wrong(f"{' '.join(map(str, words))}: status {ran.returncode}\n{ran.stdout}{ran.stderr}")
        return ran.stdout

    def shell(self, text, **options):
        return self.ask("bash", "-euo", "pipefail", "-c", text, **options)

    def block(self, block):
        """Runs a block of a page as it is written, at the top of a repository."""
        return self.shell(block, input=PASSWORDS)

    def web(self, target, user, *words):
        """The status and the body of a reply of nginx, asked by the counter's name, with its certificate."""
        host = words[0] if words else NAME
        text = self.ask("curl", "--silent", "--show-error", "--max-time", "20", "--cacert", "/etc/vend/tls.crt",
                        "--resolve", f"{host}:443:127.0.0.1", "--user", ":".join(user), "--header", "X-Till: 1",
                        "--write-out", "\n%{http_code}", *words[1:], f"https://{host}{target}")
        body, _, status = text.rpartition("\n")
        return int(status), body

    def sell(self, ref, host=NAME, meter=METER):
        order = f'{{"meter":"{meter}","operator":"ann","ref":"{ref}","tender":10}}'
        status, body = self.web("/api/sales", CASHIER, host, "--data", order)
        same(status, 200, f"a sale at {host}: {body}")

    def open_office(self, host=NAME, meters="examples/meters.csv"):
        """Tariffs, meters and an open shift, through nginx."""
        for kind, file in (("tariffs", "examples/tariffs.csv"), ("meters", meters)):
            status, body = self.web(f"/api/imports/{kind}", MANAGER, host, "--data-binary", f"@{file}")
            same(status, 200, f"import of {kind}: {body}")
        same(self.web("/api/shifts", CASHIER, host, "--data", '{"operator":"ann"}')[0], 200, "a shift")

    def wait_for_desk(self, host=NAME):
        """Until the desk answers again."""
        until = time.monotonic() + 30
        while self.web("/api/sales/1", CASHIER, host)[0] == 502:
            if time.monotonic() > until:
                wrong(f"no desk answers at {host}: {self.ask('journalctl', '-u', 'vend', '--no-pager')}")
            time.sleep(0.05)

    def rows(self, file=OFFICE, program="vend"):
        """The sales of an office, asked of a copy: a report would change its format."""
        text = self.shell(f"copy=$(mktemp -d); cp {file} $copy/office.db; [ ! -e {file}-wal ] || "
                          f"cp {file}-wal $copy/office.db-wal; {program} report --file $copy/office.db --kind sales; "
                          "rm -rf $copy")
        return text.splitlines()[1:]

    def audit(self, file=OFFICE):
        return self.shell(f"copy=$(mktemp -d); cp {file} $copy/office.db; [ ! -e {file}-wal ] || "
                          f"cp {file}-wal $copy/office.db-wal; vend audit --file $copy/office.db; rm -rf $copy")

    def desk(self, unit="vend"):
        """The number of the desk's process, which the service's first one has begun."""
        first = self.ask("systemctl", "show", "--property=MainPID", "--value", unit).strip()
        return self.ask("cat", f"/proc/{first}/task/{first}/children").strip()

    def log(self, unit="vend"):
        """What the desk and what runs it said, without what systemd says of them."""
        return self.ask("journalctl", "--unit", unit, "--identifier=vend", "--no-pager", "--output=cat").splitlines()

    def status_lines(self, *words, status=None):
        """What vend-status says: for each thing its state, and why. Its exit status is that of the worst state."""
        ran = self.machine.run("vend-status", *words)
        found = dict((thing, tuple(more.split(" ", 1))) for thing, more in
                     (line.split(" ", 1) for line in ran.stdout.splitlines()))
        worst = max(("ok", "warning", "failed").index(state) for state, _ in found.values())
        same((list(found), ran.stderr), (["desk", "sale", "room", "copy", "certificate"], ""), "vend-status")
        same(ran.returncode, worst if status is None else status, f"the exit status of vend-status: {ran.stdout}")
        return found

    def is_active(self, unit="vend"):
        return self.machine.run("systemctl", "is-active", "--quiet", unit).returncode == 0

    def rights(self, *files):
        return self.ask("stat", "-c", "%U:%G %a", *files).splitlines()

    def sums(self, *files):
        return self.ask("sha256sum", *files).splitlines()

    def files(self, folder):
        return self.ask("find", folder, "-mindepth", "1", "-printf", "%f\n").split()

    def give(self, content, file):
        """Puts bytes into a file of the system."""
        self.ask("tee", file, input=content, text=False)


class Till:
    """A till that sells without a pause, and what it was told."""

    def __init__(self, shop, meters):
        self.sales, self.lost, self.refused = [], 0, None
        words = ["setpriv", "--reuid=www-data", "--regid=www-data", "--clear-groups", "/usr/bin/python3", "-I",
                 "/srv/stage/tools/steady_till.py", "8080", "till1", *meters]
        self.process = shop.machine.begin(*words, stdin=subprocess.PIPE, stdout=subprocess.PIPE, text=True)
        self.reading = threading.Thread(target=self.read)
        self.reading.start()

    def read(self):
        for line in self.process.stdout:
            kind, *words = line.split()
            if kind == "sale":
                self.sales.append(tuple(words))
            elif kind == "lost":
                self.lost += 1
            else:
                self.refused = line

    def is_selling(self):
        """Waits until it has sold once more."""
        count, until = len(self.sales), time.monotonic() + 20
        while len(self.sales) <= count:
            if self.refused or time.monotonic() > until:
                wrong(f"the till does not sell: {self.refused}")
            time.sleep(0.01)

    def stop(self):
        self.process.stdin.close()
        self.process.wait(timeout=100)
        self.reading.join()
