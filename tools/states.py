"""The parts of tools/check_install about the service and what watches it: when it is ready, its last connection, its
rights, what vend-status says in each state, and what the certificate and nginx tell others. It is no script of its
own."""
import re
import time

from program import METER
from shared import same, wrong
from shop import BACKUPS, CASHIER, NAME, OFFICE

DAY = 86400
MOST_EXPOSED = {"vend": 1.4, "vend-backup": 1.6}  # of 10, as systemd counts; the second one runs as root
AT_DESK = ("runuser", "-u", "www-data", "--", "vend", "report", "--desk", "127.0.0.1:8080", "--kind", "sales")


def check_service(shop):
    """The desk takes connections once it is started, begins again after its last one, and has few rights."""
    for _ in range(5):
        shop.ask("systemctl", "restart", "vend")
        same(shop.ask(*AT_DESK).splitlines()[1:], shop.rows(), "a report right after a start")
    check_last_connection(shop)
    for unit, most in MOST_EXPOSED.items():
        said = shop.ask("systemd-analyze", "security", "--no-pager", "--offline=yes",
                        f"/lib/systemd/system/{unit}.service")
        found = float(re.search(r"Overall exposure level for \S+: ([\d.]+)", said)[1])
        if found > most:
            wrong(f"{unit}.service is exposed: {found} and not {most}")
    before = shop.files(BACKUPS)
    shop.ask("systemctl", "start", "vend-backup.service")
    made = [it for it in shop.files(BACKUPS) if it not in before]
    same((len(made), shop.rows(f"{BACKUPS}/{made[0]}")), (1, shop.rows()), "a copy by vend-backup.service")
    same(shop.rights(f"{BACKUPS}/{made[0]}"), ["root:root 600"], "that copy")
    print("service: ready when it is started, a new desk after its last connection without a sale lost; the backup's "
          "unit needs three rights of root", flush=True)


def check_last_connection(shop):
    """A desk of a few connections begins again at once, and each order is one sale."""
    count, started = len(shop.rows()), shop.log().count("listening 127.0.0.1:8080")
    shop.shell("mkdir -p /etc/systemd/system/vend.service.d; printf '[Service]\\nEnvironment=VEND_CONNECTIONS=4\\n' "
               ">/etc/systemd/system/vend.service.d/few.conf; systemctl daemon-reload; systemctl restart vend")
    for at in range(20):
        order = f'{{"meter":"{METER}","operator":"ann","ref":"F-{at}","tender":10}}'
        until = time.monotonic() + 20
        while (reply := shop.web("/api/sales", CASHIER, NAME, "--data", order))[0] == 502:
            if time.monotonic() > until:
                wrong("no desk after the last connection")
        same(reply[0], 200, f"a sale of many desks: {reply}")
    restarts = shop.ask("systemctl", "show", "--property=NRestarts", "--value", "vend").strip()
    same((len(shop.rows()) - count, restarts), (20, "0"), "sales over five desks")
    if shop.log().count("listening 127.0.0.1:8080") < started + 5:
        wrong("the desk did not begin again")
    shop.shell("rm -r /etc/systemd/system/vend.service.d; systemctl daemon-reload; systemctl restart vend")


def check_states(shop):
    """vend-status in each state of each of its lines."""
    ran = shop.status_lines()
    newest = shop.shell(f"ls -t {BACKUPS}/office-*.db | head -n 1").strip()
    same([state for state, _ in ran.values()], ["ok"] * 5, f"a desk that is well: {ran}")
    same(ran["desk"][1], f"127.0.0.1:8080 answers, with {len(shop.rows())} sales", "the desk")
    same(ran["sale"][1].split()[0], str(len(shop.rows())), "the last sale")
    same(ran["copy"][1].split()[0], newest, "the last copy")
    check_metrics(shop, {"vend_desk_up": 1, "vend_last_write_failed": 0, "vend_sales": len(shop.rows()),
                         "vend_status": 0})
    expect = lambda thing, state, words, *more: same(
        (lambda found: (found[0], words in found[1]))(shop.status_lines(*more)[thing]), (state, True),
        f"{thing}, {state}: {words}: {shop.status_lines(*more)[thing]}")
    # Copies: too old, none.
    shop.shell(f"touch --date='30 hours ago' {BACKUPS}/*.db")
    expect("copy", "warning", "30 hours ago")
    expect("copy", "ok", "30 hours ago", "--copy", "31")
    shop.shell(f"mkdir /srv/others/put; mv {BACKUPS}/*.db /srv/others/put/")
    expect("copy", "warning", "there is none")
    shop.shell(f"mv /srv/others/put/* {BACKUPS}/; touch {newest}")
    # Room: little, none.
    expect("room", "warning", "MB for the office", "--room", "999999999")
    shop.shell(f"mount -t tmpfs -o size=512k tmpfs {BACKUPS}")
    expect("room", "failed", "0 MB for its copies")
    shop.shell(f"umount {BACKUPS}")
    # The certificate: ends soon, has ended, is not there.
    expect("certificate", "warning", "run vend-certificate", "--days", "900")
    shop.shell(f"cd /etc/vend; cp -p tls.crt /srv/others/; openssl req -new -key tls.key -subj /CN={NAME} | "
               "openssl x509 -req -signkey tls.key -days -1 -out tls.crt")
    expect("certificate", "failed", "it ended at")
    shop.shell(f"openssl req -x509 -key /etc/vend/tls.key -subj /CN={NAME} -days 800 -out /etc/vend/tls.crt")
    expect("certificate", "warning", "could sign any name")
    shop.shell("rm /etc/vend/tls.crt")
    expect("certificate", "failed", "cannot be read")
    shop.shell("cp -p /srv/others/tls.crt /etc/vend/")
    # The desk: stopped, and with a file that is no office.
    shop.shell("systemctl stop vend")
    expect("desk", "failed", "vend.service is inactive")
    expect("sale", "warning", "cannot be asked")
    check_metrics(shop, {"vend_desk_up": 0, "vend_status": 2}, 2)
    shop.shell(f"mv {OFFICE} /srv/others/put/; cp /srv/others/text.db {OFFICE}; chown vend: {OFFICE}")
    shop.ask("systemctl", "start", "vend", status=1)
    expect("desk", "failed", "said last: open 3 Store")
    shop.shell(f"systemctl stop vend; rm {OFFICE}*")
    # An office without a sale.
    shop.shell("systemctl start vend")
    expect("sale", "ok", "there is none yet")
    # A last sale that was made later than now, or long ago.
    for apart, words in ((2 * DAY, "later than now"), (-10 * DAY, "10 days ago")):
        at = int(time.time()) + apart
        shop.shell(f"""systemctl stop vend; rm {OFFICE}*
            vend import --file {OFFICE} tariffs examples/tariffs.csv
            vend import --file {OFFICE} meters examples/meters.csv
            vend shift --file {OFFICE} --at {at} --operator ann open
            vend sell --file {OFFICE} --at {at} --operator ann --ref A-1 --meter {METER} --tender 10
            chown vend: {OFFICE}*; systemctl start vend""")
        expect("sale", "warning", words)
    check_full_disk(shop, expect)
    shop.shell(f"systemctl stop vend; rm {OFFICE}*; mv /srv/others/put/office.db {OFFICE}; systemctl start vend")
    same([state for state, _ in shop.status_lines().values()], ["ok"] * 5, "a desk that is well again")
    for words in (["--other"], ["--room"], ["--room", "much"], ["--office", "none"]):
        shop.ask("vend-status", *words, status=3)
    print("vend-status: a desk that is well, is stopped, cannot open its file, waits, could not write; no sale, one "
          "that is later than now or long ago; copies that are old or none; room that is little or none; a certificate "
          "that ends soon, has ended, signs any name or is missing; as metrics", flush=True)


def check_full_disk(shop, expect):
    """A disk that is full at a sale: the desk answers, and tells that it was not written."""
    folder = OFFICE.rpartition("/")[0]
    shop.shell(f"systemctl stop vend; mount -t tmpfs -o size=700k,mode=700 tmpfs {folder}; chown vend: {folder}; "
               "systemctl start vend")
    shop.open_office()
    expect("desk", "ok", "answers, with 0 sales")
    sold = 0
    while shop.web("/api/sales", CASHIER, NAME, "--data",
                   f'{{"meter":"{METER}","operator":"ann","ref":"R-{sold}","tender":10}}')[0] == 200:
        sold += 1
    expect("desk", "warning", f"answers, with {sold} sales, but the last change was not written")
    check_metrics(shop, {"vend_desk_up": 1, "vend_last_write_failed": 1, "vend_sales": sold}, 2)
    shop.shell(f"systemctl stop vend; umount {folder}; systemctl start vend")


def check_metrics(shop, wanted, status=0):
    """The file for Prometheus has these values, each with its help and type before it."""
    shop.ask("vend-status", "--prometheus", "/srv/others/vend.prom", status=status)
    text = shop.ask("cat", "/srv/others/vend.prom")
    told, found = set(), {}
    for line in text.splitlines():
        if line.startswith("#"):
            told.add(tuple(line.split()[1:3]))
        else:
            name, value = re.fullmatch(r'(\w+)\{unit="vend\.service"(?:,of="\w+")?\} (\d+)', line).groups()
            same({("HELP", name), ("TYPE", name)} <= told, True, f"help and type of {name}")
            found[name] = int(value)
    same({name: found[name] for name in wanted}, wanted, f"metrics: {text}")


def check_outside(shop):
    """The key signs no other name, http is sent on, and no reply tells which nginx it is."""
    same("notAfter=" in shop.ask("vend-certificate", NAME), True, "when the certificate ends")
    shop.shell("""mkdir -p /srv/others/forged; cd /srv/others/forged
        sign() {
            openssl req -newkey ec -pkeyopt ec_paramgen_curve:P-256 -nodes -subj /O=other -keyout key -out request
            echo "subjectAltName=$1" >names
            openssl x509 -req -in request -CA /etc/vend/tls.crt -CAkey /etc/vend/tls.key -days 2 -extfile names \\
                -out signed
            openssl verify -CAfile /etc/vend/tls.crt -purpose sslserver signed
        }
        openssl verify -CAfile /etc/vend/tls.crt -purpose sslserver -verify_hostname till.example /etc/vend/tls.crt
        sign DNS:till.example
        for name in DNS:other.example IP:10.0.0.1; do
            if sign $name; then exit 3; fi
        done""")
    seen = shop.ask("curl", "--silent", "--include", "--resolve", f"{NAME}:80:127.0.0.1", f"http://{NAME}/office.html")
    same((seen.split()[1], re.search(r"(?m)^Location: (\S+)", seen)[1]), ("301", f"https://{NAME}/office.html"),
         "a counter by http")
    other = shop.ask("curl", "--silent", "--insecure", "--include", "--resolve", f"{NAME}:443:127.0.0.1", "--header",
                     "Host: other.example", f"https://{NAME}/")
    plain = shop.ask("curl", "--silent", "--include", f"http://{NAME}:443/", "--resolve", f"{NAME}:443:127.0.0.1")
    same((other.split()[1], plain.split()[1]), ("421", "400"), "another name, and http at the port of https")
    for text in (seen, other, plain):
        same(re.findall(r"nginx/[\d.]+", text), [], "the version of nginx")
    print("outside: the certificate's key signs no other name and no address; http is sent on to https; no version of "
          "nginx is told", flush=True)
