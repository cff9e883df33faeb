"""The parts of tools/check_install about restores: what vend-restore says over files in every state, how long the desk
waits after it, also on a second system, and that a copy that is none changes nothing. It is no script of its own."""
import time

from program import METER
from shared import same, wrong
from shop import BACKUPS, CASHIER, NAME, OFFICE

WAIT_FILE = f"{OFFICE}.wait"
DAY = 1440  # minutes that an identifier is ahead of the clock at the most
WAITS = "vend.service sells nothing before; if you know that no sale is missing: vend-restore --start --now"
# What the desk's log says besides of a wait.
WHY = ["the office was restored, and tokens that were sold after the copy could be sold again before that",
       "if no sale is missing, run vend-restore --start --now"]


def stamp(seconds):
    return time.strftime("%Y-%m-%dT%H:%M:%SZ", time.gmtime(seconds))


def safe_after(seconds):
    """The first moment at which no sale can have the identifier of one that was made until a moment."""
    return (seconds // 60 + DAY + 1) * 60


def safe_line(moment):
    return f"safe to sell from {stamp(moment)} on, a day after the end of the minute of the last sale that may be missing"


def moment_of(shop):
    """Until when the office waits, or nothing."""
    ran = shop.machine.run("head", "-n", "1", WAIT_FILE)
    return int(ran.stdout) if ran.returncode == 0 else None


def check_waiting(shop, moment):
    """The service is started, sells nothing, and says in its log until when and why."""
    same((moment_of(shop), shop.is_active()), (moment, True), "a desk that waits")
    same(shop.web("/api/sales/1", CASHIER)[0], 502, "a till at a desk that waits")
    says = f"nothing is sold before {stamp(moment)}, when the desk begins by itself"
    same(shop.log()[-3:], [says, *WHY], "the log of a desk that waits")
    same(says in shop.ask("systemctl", "status", "--no-pager", "--full", "vend"), True, "systemctl status")
    same(shop.status_lines()["desk"], ("warning", f"vend.service is active, and sells nothing before {stamp(moment)}, "
         "after a restore"), "vend-status")


def after_restore(shop):
    """The blocks have restored the newest copy, and ended the wait. The file that was there is kept. Then the other
    cases: an empty folder, a stale log, copies that are none."""
    same((shop.is_active(), moment_of(shop)), (True, None), "the desk after a restore")
    same(shop.rights(OFFICE), ["vend:vend 600"], "the restored office")
    replaced = [it for it in shop.files("/var/lib/vend") if "replaced" in it and it.endswith(".db")]
    same(len(replaced), 1, "replaced files")
    newest = shop.shell(f"ls -t {BACKUPS}/office-*.db | head -n 1").strip()
    same(shop.rows(), shop.rows(newest), "the restored sales")
    if len(shop.rows(f"/var/lib/vend/{replaced[0]}")) <= len(shop.rows()):
        wrong("the replaced file has no sale more")
    shop.sell("A-2")
    check_restored(shop, newest)
    check_put_back(shop)
    check_transform(shop, newest)
    check_quotes(shop)
    check_clock_ahead(shop)
    check_old_restore(shop)
    same(shop.ask("find", "/var/lib/vend", BACKUPS, "-type", "f", "-perm", "/077", "-not", "-name", "*.wait"), "",
         "files that others can read")
    print("restores: the newest copy, into an empty folder, over a stale log, of an older format, after a forged "
          "sale, of another transform, by settings in quotes, of a clock that was ahead and of what is no office; "
          "owner, rights, last sale and the moment of safe selling", flush=True)


def check_restored(shop, newest):
    """What vend-restore says, over files that it finds in every state."""
    last = shop.rows(newest)[-1].split(",")
    sale = f"last sale {last[0]} {stamp(int(last[1]))} meter {last[5]}"
    # Over a file that sold on: a day after its last sale.
    after = shop.rows()[-1].split(",")
    safe = safe_after(int(after[1]))
    shop.ask("systemctl", "stop", "vend")
    lines = shop.ask("vend-restore", newest).splitlines()
    same((lines[1], lines[3:]), (sale, [
        f"last sale of the replaced file {after[0]} {stamp(int(after[1]))}", safe_line(safe), WAITS,
        "start it with: systemctl start vend.service"]), "vend-restore")
    same(shop.is_active(), False, "a desk that nobody asked for")
    check_waits(shop, newest, safe)
    # Over the same office.
    shop.ask("systemctl", "stop", "vend")
    lines = shop.ask("vend-restore", newest).splitlines()
    same((lines[3], moment_of(shop)), ("safe to sell now: the replaced file has the same last sale", None),
         "vend-restore of the same")
    # Into an empty folder, and into none: nobody knows what is missing.
    for text in ("rm -rf /var/lib/vend/*", "rm -rf /var/lib/vend"):
        shop.shell(f"systemctl stop vend; {text}")
        before = int(time.time())
        lines = shop.ask("vend-restore", "--start", newest).splitlines()
        moments = {safe_line(safe_after(it)) for it in range(before, int(time.time()) + 1)}
        same((lines[1], lines[2] in moments, lines[3:]), (sale, True, [WAITS, "vend.service is started"]), str(lines))
        check_waiting(shop, moment_of(shop))
        same((shop.rights("/var/lib/vend", OFFICE), shop.rows()), (["vend:vend 700", "vend:vend 600"],
             shop.rows(newest)), "a restored office")
        same(shop.ask("vend-restore", "--now"), "vend.service waits no longer\nvend.service is started\n",
             "the end of a wait")
        shop.sell("A-3")
    # Over another office's file with its log: a log that stays would spoil the copy.
    shop.shell(f"cp {OFFICE}-wal /srv/others/log; systemctl stop vend")
    shop.shell(f"rm {OFFICE}; install -m 600 -o vend -g vend /srv/others/log {OFFICE}-wal")
    lines = shop.ask("vend-restore", "--start", "--now", newest).splitlines()
    same((lines[-2:], moment_of(shop)),
         (["vend.service does not wait for it, as --now says", "vend.service is started"], None), "vend-restore --now")
    same((shop.rows(), shop.audit().split()[0]), (shop.rows(newest), "sound"), "a restore over a stale log")
    shop.ask("vend-restore", "--now", status=1)


def check_waits(shop, newest, safe):
    """Whatever is started, nothing is sold before the moment; then the desk begins by itself."""
    same(shop.status_lines()["desk"][0], "failed", "vend-status of a desk that is to wait and is not started")
    for text in ("systemctl start vend", "systemctl restart vend", "apt-get install --reinstall ./vend_*_amd64.deb",
                 # As a restart of the computer does.
                 "systemctl isolate own.target; systemctl isolate multi-user.target"):
        shop.shell(text)
        check_waiting(shop, safe)
    # A second restore knows no less than the first, and one that fails puts the wait back.
    lines = shop.ask("vend-restore", "--start", newest).splitlines()
    same(lines[-3:], [safe_line(safe), WAITS, "vend.service is started"], "a second restore")
    shop.ask("vend-restore", "--start", "/srv/others/broken.db", status=1)
    check_waiting(shop, safe)
    # A moment that cannot be read is none that has come.
    shop.shell(f"cp -p {WAIT_FILE} /srv/others/wait; echo soon >{WAIT_FILE}")
    shop.ask("systemctl", "restart", "vend", status=1)
    same((shop.web("/api/sales/1", CASHIER)[0], shop.status_lines()["desk"]), (502, ("failed",
         f"{WAIT_FILE} says no moment")), "a wait without a moment")
    # The moment comes.
    soon = int(time.time()) + 6
    shop.shell(f"sed '1s/.*/{soon}/' /srv/others/wait >{WAIT_FILE}; systemctl restart vend")
    check_waiting(shop, soon)
    shop.wait_for_desk()
    if time.time() < soon:
        wrong(f"the desk began {soon - time.time()} seconds before its moment")
    same(shop.status_lines()["desk"][0], "ok", "vend-status after the moment")
    print("waits: a restored desk sells nothing after start, restart, upgrade, a boot, a second restore and one that "
          "fails; its log, systemctl status and vend-status say until when; then it begins by itself", flush=True)


def check_put_back(shop):
    """Where the copy is none, everything is as before: the file, its log, and the desk."""
    before = shop.rows()
    for file, said in (("broken", "broken "), ("other", "no office"), ("empty", "no office"), ("text", "")):
        out = shop.ask("vend-restore", "--start", f"/srv/others/{file}.db", status=1)
        same(out.startswith(said), True, f"vend-restore of {file}.db: {out}")
        same((shop.rows(), shop.rights(OFFICE), moment_of(shop)), (before, ["vend:vend 600"], None),
             f"the office after {file}.db")
    for words, status in ((["/srv/others/none.db"], 1), ([OFFICE], 1), ([], 2), (["--start"], 2),
                          (["--other", "x"], 2)):
        shop.ask("vend-restore", *words, status=status)
    same((shop.rows(), shop.is_active()), (before, True), "the office after all that")
    same([it for it in shop.files("/var/lib/vend") if it.startswith(".")], [], "what is left of restores")


def check_transform(shop, newest):
    """A service with another transform than the copy's gets no copy; a backup is kept, and says so."""
    before = shop.rows()
    shop.shell("sed -i 's/^VEND_TRANSFORM=plain/VEND_TRANSFORM=demo/' /etc/default/vend")
    ran = shop.machine.run("vend-restore", "--start", newest)
    same((ran.returncode, ran.stdout.split()[0], "VEND_TRANSFORM=demo" in ran.stderr, shop.rows()),
         (1, "broken", True, before), f"a copy of another transform: {ran.stderr}")
    ran = shop.machine.run("vend-backup")
    copy = ran.stdout.splitlines()[-1]
    same((ran.returncode, "VEND_TRANSFORM=demo" in ran.stderr, shop.rows(copy)), (1, True, before),
         f"a copy while the transform is another one: {ran.stderr}")
    shop.shell(f"rm {copy}; sed -i 's/^VEND_TRANSFORM=demo/VEND_TRANSFORM=plain/' /etc/default/vend; "
               "systemctl restart vend")


def check_quotes(shop):
    """Values in quotes and blanks are the same values to the commands as to systemd, which takes these away."""
    shop.shell("cp -p /etc/default/vend /srv/others/settings; "
               "sed -i 's/^\\(VEND_[A-Z]*\\)=\\(.*\\)/ \\1 = \"\\2\" \\r/' /etc/default/vend; systemctl restart vend")
    copy = shop.ask("vend-backup").splitlines()[-1]
    same(shop.status_lines()["desk"][0], "ok", "vend-status by settings in quotes")
    lines = shop.ask("vend-restore", "--start", copy).splitlines()
    same(lines[3], "safe to sell now: the replaced file has the same last sale", f"settings in quotes: {lines}")
    shop.shell(f"rm {copy}; mv /srv/others/settings /etc/default/vend; systemctl restart vend")


def check_clock_ahead(shop):
    """A copy of an office whose clock was ahead waits for a day after its own last sale."""
    at = int(time.time()) + 2 * DAY * 60
    shop.shell(f"""vend import --file /srv/others/ahead.db tariffs examples/tariffs.csv
        vend import --file /srv/others/ahead.db meters examples/meters.csv
        vend shift --file /srv/others/ahead.db --at {at} --operator ann open
        vend sell --file /srv/others/ahead.db --at {at} --operator ann --ref A-1 --meter {METER} --tender 10""")
    lines = shop.ask("vend-restore", "/srv/others/ahead.db").splitlines()
    same((lines[-3], moment_of(shop)), (safe_line(safe_after(at)), safe_after(at)), "a copy of a clock that was ahead")
    shop.ask("vend-restore", "--now")


def check_old_restore(shop):
    """A copy of an older format keeps it until the desk is started."""
    shop.ask("vend-restore", "--now", "/srv/others/format1.db")
    same(shop.audit().split()[:3], ["sound", "format", "1"], "a restored office of format 1")
    shop.shell("systemctl start vend")
    shop.sell("A-4")


def check_second(shop, copy, count):
    """On a second system, where the package is new, the copy of a lost office waits a day from now on."""
    before = int(time.time())
    lines = shop.ask("vend-restore", "--start", copy).splitlines()
    moment = moment_of(shop)
    same((lines[-3:], moment in range(safe_after(before), safe_after(int(time.time())) + 1)),
         ([safe_line(moment), WAITS, "vend.service is started"], True), f"a restore on a second system: {lines}")
    check_waiting(shop, moment)
    order = '{"meter":"12345678903","operator":"ann","ref":"Z-1","tender":10}'
    same(shop.web("/api/sales", CASHIER, NAME, "--data", order)[0], 502, "a sale before the moment")
    shop.shell("systemctl isolate own.target; systemctl isolate multi-user.target")
    check_waiting(shop, moment)
    same(len(shop.rows()), count, "sales before the moment")
    shop.ask("vend-restore", "--start", "--now")
    shop.sell("Z-1")
    same(len(shop.rows()), count + 1, "sales after --now")
    print("second system: the copy is restored there and sells nothing before its moment, after a boot neither; it "
          "sells at once with --now", flush=True)
