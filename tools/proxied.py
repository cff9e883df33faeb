"""The parts of tools/check_page about what stands in front of the desk: the files of the pages and of deploy/, what
nginx lets through, and what a page of another site reaches. It is no script of its own."""
import base64
import json
import os
import re
import shutil
import ssl
import subprocess
import sys

from program import METER, TOP
from servers import CASHIER, MANAGER, WAIT, until
from shared import same, wrong

MOST_LINES = 1500  # of HTML, CSS and JavaScript together


def check_files(counter):
    """What the pages are made of, and the unit and the rule beside the proxy's file."""
    lines = {file.name: len(file.read_text().splitlines()) for file in (TOP / "page").iterdir()
             if file.suffix in (".html", ".css", ".js")}
    if sum(lines.values()) >= MOST_LINES:
        wrong(f"page/ has {lines}")
    # Each refusal of the desk, and each cause of a row, is in words on the page.
    described = (TOP / "docs" / "openapi.yaml").read_text()
    names = re.findall(r"error: \{type: string, enum: \[(\w+)\]\}\n *refusal:", described)
    causes = re.search(r'pattern: "\^\((Header\|[^)]*)\)\$"', described)[1].split("|")
    script = (TOP / "page" / "desk.js").read_text()
    words, reasons = (set(re.findall(r"(?m)^  (\w+): \"", part)) for part in script.split("CAUSES", 1))
    same((len(names), sorted({*names} - words)), (20, []), "page/desk.js: refusals without words")
    same(sorted({cause.split()[0] for cause in causes} - reasons), [], "page/desk.js: causes without words")
    tried = ["nginx -t"]
    if shutil.which("systemd-analyze"):
        check_unit(counter.folder)
        tried.append("systemd-analyze verify")
    if os.geteuid() == 0 and all(map(shutil.which, ("ip", "nft", "setpriv", "unshare"))) and can_have_network():
        check_rule(counter.folder)
        tried.append("the rule of the desk's port")
    print(f"files: {sum(lines.values())} lines of page, words for {len(names)} refusals; {', '.join(tried)}")


def check_unit(folder):
    """The unit as it stands, with the program and the tools where they are on this computer."""
    unit = folder / "vend.service"
    text = (TOP / "deploy" / "vend.service").read_text()
    nft = shutil.which("nft") or shutil.which("true")
    for old, new in (("/usr/lib/vend/vend-desk ", TOP / "deploy" / "vend-desk"), ("/usr/sbin/nft ", nft)):
        text, many = re.subn(old, f"{new} ", text)
        if not many:
            wrong(f"deploy/vend.service has no {old}")
    unit.write_text(text)
    ran = subprocess.run(["systemd-analyze", "verify", "--man=no", unit], capture_output=True, text=True,
                         timeout=WAIT)
    about = [line for line in ran.stderr.splitlines() if "vend.service" in line]
    same((ran.returncode, about), (0, []), f"systemd-analyze verify: {ran.stderr}")


def can_have_network():
    """Whether a network of its own can be had, with nftables in it."""
    words = ["unshare", "-n", "nft", "add", "table", "inet", "tried"]
    return subprocess.run(words, capture_output=True).returncode == 0


def check_rule(folder):
    """In a network of its own: with the rule the proxy's user reaches the desk's port, others do not."""
    (folder / "rule").write_text(
        "set -e\nip link set lo up\n"
        f"nft -f {TOP}/deploy/desk.nft\nnft -f {TOP}/deploy/desk.nft\n"
        f"{sys.executable} - <<'END'\n" """
import os, socket, subprocess
server = socket.create_server(("127.0.0.1", 8080))
code = "import socket; socket.create_connection(('127.0.0.1', 8080), timeout=5)"
for user in ("www-data", "nobody", "root"):
    ran = subprocess.run(["setpriv", f"--reuid={user}", "--clear-groups", "/usr/bin/env", "python3", "-I", "-c", code],
                         capture_output=True, text=True)
    print(user, ran.returncode, "refused" if "ConnectionRefused" in ran.stderr else ran.stderr)
END
""")
    ran = subprocess.run(["unshare", "-n", "sh", folder / "rule"], capture_output=True, text=True, timeout=WAIT)
    same(ran.stdout.splitlines(), ["www-data 0 ", "nobody 1 refused", "root 1 refused"],
         f"deploy/desk.nft: {ran.stderr}")


def check_proxy(counter):
    """What nginx lets through, by programs that speak to it themselves."""
    proxy, relay = counter.proxy, counter.relay
    order = json.dumps({"meter": METER, "operator": "ann", "ref": "P-1", "tender": 10})
    before = len(relay.heads)
    for status, words, options in (
            (403, ("POST", "/api/sales", order), {"till": None}),
            (403, ("POST", "/api/sales", order), {"till": None, "user": None}),
            (403, ("POST", "/api/sales", order), {"till": "0"}),
            (403, ("GET", "/api/sales/1"), {"till": None}),
            (403, ("OPTIONS", "/api/sales"), {"till": None, "Origin": "http://other.example",
                                              "Access-Control-Request-Headers": "x-till"}),
            (401, ("POST", "/api/sales", order), {"user": None}),
            (401, ("POST", "/api/sales", order), {"user": ("ann", "other")}),
            (401, ("GET", "/"), {"user": None}),
            (401, ("GET", "/till.js"), {"user": None}),
            (413, ("POST", "/api/imports/meters", b"x" * 1048577), {"user": MANAGER}),
            (421, ("GET", "/"), {"Host": "other.example"}),
            # Tariffs and meters are for managers, however the target is written.
            *((401, ("POST", f"/api/{target}", "{}"), {}) for target in (
                "tariffs", "tariffs/flat/steps", "meters", f"meters/{METER}/base", f"meters/{METER}/key", "imports/tariffs",
                "/tariffs", "%74ariffs", "./tariffs", "sales/../tariffs", f"meters/{METER}",
                f"meters/{METER}/last")),
            (401, ("DELETE", "/api/tariffs/flat/steps/2099-01-01"), {}),
            *((401, ("GET", f"/api/{target}"), {}) for target in (
                "meters", f"meters/{METER}/base", f"meters/{METER}/last/more", f"meters/../tariffs/{METER}",
                "tariffs?after=", "meters?after=", "shifts?after=0", "shifts/?after=0", "/shifts?after=0",
                "%73hifts?after=0", "sales/../shifts?after=0", "shifts")),
            # Whoever looks something up has to sign in, and no page of another site does.
            *((status, ("GET", f"/api/{target}"), options) for target in (
                f"meters/{METER}", f"meters/{METER}/quote?tender=10", "operators/ann/sales/A-1", "health", "sales?after=0",
                "tariffs?after=")
              for status, options in ((401, {"user": None}), (403, {"till": None}))),
            *((403, ("GET", "/health"), {"source": "127.0.0.2", "user": user, "till": till})
              for user, till in ((None, None), (MANAGER, "1"))),
            (401, ("GET", "/office.html"), {})):
        same(proxy.status(*words, **options), status, f"{words[:2]} {options}")
    for name in ("other.example", "localhost"):
        try:
            proxy.connect(name)
            wrong(f"nginx shows a certificate to {name}")
        except ssl.SSLError as error:
            same("UNRECOGNIZED_NAME" in str(error), True, f"TLS to {name}: {error}")
    same(len(relay.heads), before, "messages at the desk")
    for user in (CASHIER, MANAGER):
        for target in ("/", "/till.js", "/till.css", "/icon.svg"):
            status, fields = proxy.ask("GET", target, user=user, till=None)
            same(status, 200, target)
            policy = fields["Content-Security-Policy"].split("; ")
            for part in ("default-src 'none'", "script-src 'self'", "connect-src 'self'",
                         "form-action 'none'", "frame-ancestors 'none'"):
                same(part in policy, True, f"the policy of {target}: {part}")
            same((fields["X-Content-Type-Options"], fields["Cache-Control"]), ("nosniff", "no-store"), target)
    # What comes through reaches the desk without the client's fields, one message a connection.
    same(proxy.status("GET", "/api/sales/1", Cookie="a=b", Extra="x" * 4000), 404, "a sale that is not there")
    same(sorted(relay.heads[-1].split(b"\r\n")), [b"Connection: close", b"GET /sales/1 HTTP/1.0", b"Host: desk"],
         "what the desk gets")
    same(proxy.status("POST", "/api/tariffs", "{}", user=MANAGER), 422, "a manager")
    same(proxy.status("DELETE", "/api/tariffs/none/steps/2099-01-01", user=MANAGER), 404, "a manager who withdraws steps")
    same(relay.heads[-1].split(b"\r\n")[0], b"DELETE /tariffs/none/steps/2099-01-01 HTTP/1.0", "what the desk gets")
    for target in (f"/meters/{METER}", f"/meters/{METER}/last", f"/meters/{METER}/quote?tender=10",
                   "/operators/ann/sales/A-1", "/shifts/1/totals"):
        same(proxy.status("GET", f"/api{target}"), 404, f"a cashier at {target}")
        same(relay.heads[-1].split(b"\r\n")[0], f"GET {target} HTTP/1.0".encode(), "what the desk gets")
    for user, target in ((CASHIER, "/sales?after=0"), (MANAGER, "/tariffs?after="), (MANAGER, "/meters?after="),
                         (MANAGER, "/shifts?after=0"), (MANAGER, "/sales?after=0")):
        same(proxy.status("GET", f"/api{target}", user=user), 200, f"{user[0]} at {target}")
        same(relay.heads[-1].split(b"\r\n")[0], f"GET {target} HTTP/1.0".encode(), "what the desk gets")
    same(proxy.status("GET", "/health", user=None, till=None), 200, "a monitor on this computer")
    same(relay.heads[-1].split(b"\r\n")[0], b"GET /health HTTP/1.0", "what the desk gets")
    counter.has_sold(0, 0, "programs")
    print("proxy: without the field 403, without a password 401, managers alone change and list tariffs and meters "
          "and list shifts, cashiers look up, the health for this computer alone, other names refused, long bodies 413, a strict policy")


def check_other_site(counter):
    """A page of another site, open in the cashier's browser: a form and fetches, with the cashier's password."""
    browser, site, proxy = counter.browser, counter.site, counter.proxy
    word = base64.b64encode(":".join(MANAGER).encode()).decode()
    back = browser.driver.current_window_handle
    browser.driver.switch_to.new_window("tab")
    # Whatever the browser would do of itself, here the password goes with each message.
    browser.driver.execute_cdp_cmd("Network.enable", {})
    browser.driver.execute_cdp_cmd("Network.setExtraHTTPHeaders", {"headers": {"Authorization": f"Basic {word}"}})
    order = json.dumps({"meter": METER, "operator": "ann", "ref": "E-1", "tender": 1000})
    name, _, value = order.partition("{")[2].rpartition('"tender"')
    site.page = (f"<form method=post enctype=text/plain action={browser.home}/api/sales>"
                 f"<input name='{{{name}\"x\":\"' value='\",\"tender\"{value}'></form>"
                 f"<iframe src={browser.home}/></iframe>")
    browser.driver.get(site.url)
    origin = site.url

    def refused():
        """What nginx refused to pages of the other site: the methods, in order."""
        return [line.split()[1] for line in proxy.log.read_text().splitlines()
                if re.fullmatch(rf"403 \w+ /api/sales (null|{re.escape(origin)})", line)]

    methods = []
    for words, method in (("{mode: 'no-cors'}", "POST"), ("{mode: 'no-cors', credentials: 'include'}", "POST"),
                          # This one has to ask first, and is never sent.
                          ("{headers: {'X-Till': '1'}, credentials: 'include'}", "OPTIONS")):
        browser.driver.execute_async_script(
            "const [url, body, done] = arguments;"
            f"fetch(url, {{...{words}, method: 'POST', body}}).then(() => done(), () => done())",
            f"{browser.home}/api/sales", order)
        methods.append(method)
        until(lambda: refused() == methods, lambda: f"{words}: {refused()}")
    console = []
    until(lambda: console.extend(browser.driver.get_log("browser"))
          or any("frame-ancestors" in it["message"] for it in console), "a frame that is refused")
    browser.run("document.forms[0].submit()")
    methods.append("POST")
    until(lambda: refused() == methods, lambda: f"a form: {refused()}")
    allowed = [line for line in proxy.log.read_text().splitlines()
               if line.endswith(f" {origin}") and not line.startswith("403 ")]
    same(allowed, [], "what another site reached")
    counter.has_sold(0, 0, "another site")
    browser.close_tab(back)
    print("another site: a form and fetches with the password are refused with 403, a frame stays empty, and "
          "nothing is sold")
