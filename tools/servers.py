"""What a counter consists of beside its browser, as tools/check_page tries it: a desk over a new office, a relay
that holds, loses and changes its replies, nginx with deploy/nginx.conf, and a site of another name. It is no script
of its own."""
import base64
import contextlib
import http.client
import http.server
import json
import os
import re
import signal
import socket
import ssl
import subprocess
import threading
import time

from desk_client import all_of
from program import TOP, begin_desk, rows_in
from shared import same, wrong

WAIT = 60  # seconds for one condition

NAME = "till.example"
OTHER_SITE = "other.example"
CASHIER, MANAGER = ("ann", "cashier-word"), ("maya", "manager-word")


def until(condition, what, seconds=WAIT):
    """Waits for what a condition gives, and gives it."""
    ends = time.monotonic() + seconds
    while time.monotonic() < ends:
        if found := condition():
            return found
        time.sleep(0.02)
    return wrong(f"{what() if callable(what) else what}: not within {seconds} seconds")


class OfficeDesk:
    """A desk over the office in a file, which is started and killed at will."""

    def __init__(self, file):
        self.file = file
        self.process = None
        self.port = 0

    def start(self):
        self.process, self.port = begin_desk(self.file, 100000)

    def kill(self):
        if self.process:
            self.process.kill()
            self.process.communicate()

    def answer(self, text):
        """The bytes of the reply to the bytes of a message of HTTP/1.0."""
        with socket.create_connection(("127.0.0.1", self.port), timeout=WAIT) as client:
            client.sendall(text)
            return all_of(client)

    def ask(self, method, target, **members):
        """A message behind the back of nginx and the page: the status and the body of its reply."""
        body = json.dumps(members).encode() if members else b""
        text = self.answer(f"{method} {target} HTTP/1.0\r\nContent-Length: {len(body)}\r\n\r\n".encode() + body)
        return int(text.split()[1]), text.partition(b"\r\n\r\n")[2].decode()

    def sales(self):
        """The operator, ref, meter and tender of each sale, by number."""
        return rows_in(self.file, "SELECT operator, ref, meter, tender FROM sales ORDER BY number;")


def message_from(client):
    """The bytes of one whole message, or what came of it."""
    text = b""
    with contextlib.suppress(OSError):
        while True:
            head, ended, body = text.partition(b"\r\n\r\n")
            length = re.search(rb"(?i)\r\ncontent-length: *(\d+)", head)
            if ended and len(body) >= (int(length[1]) if length else 0):
                break
            piece = client.recv(65536)
            if not piece:
                break
            text += piece
    return text


class Plan:
    """What becomes of the next order, or look-up: where it `waits`, it goes on to the desk once it may; its reply is the
    desk's, or `answer` in its place, and what `after` makes of it, b"" for none."""

    def __init__(self, waits=False, answer=None, after=None):
        self.came, self.goes, self.ended = threading.Event(), threading.Event(), threading.Event()
        self.answer = answer
        self.after = after
        if not waits:
            self.goes.set()

    def reply(self, desk, text):
        self.came.set()
        self.goes.wait()
        reply = self.answer or desk.answer(text)
        if self.after:
            reply = self.after(reply)
        return reply


class Relay:
    """Stands between nginx and the desk: passes each message on, and does with orders and look-ups as planned."""

    def __init__(self, desk):
        self.desk = desk
        self.server = socket.create_server(("127.0.0.1", 0), backlog=100)
        self.port = self.server.getsockname()[1]
        self.orders = []  # the bodies of all orders that came
        self.heads = []  # the heads of all messages
        self.plans = []
        self.looks = []  # plans for look-ups of meters
        self.lists = []  # plans for the list of sales and what comes before it
        threading.Thread(target=self.run, daemon=True).start()

    def run(self):
        while True:
            client = self.server.accept()[0]
            threading.Thread(target=self.serve, args=(client,), daemon=True).start()

    def serve(self, client):
        plan = None
        with client, contextlib.suppress(OSError):
            text = message_from(client)
            head, _, body = text.partition(b"\r\n\r\n")
            self.heads.append(head)
            if head.startswith(b"POST /sales "):
                plan = self.plans.pop(0) if self.plans else None
                self.orders.append(body)
            elif head.startswith(b"GET /meters/"):
                plan = self.looks.pop(0) if self.looks else None
            elif head.startswith((b"GET /health ", b"GET /sales?")):
                plan = self.lists.pop(0) if self.lists else None
            client.sendall(plan.reply(self.desk, text) if plan else self.desk.answer(text))
        if plan:
            plan.ended.set()

    def plan(self, *plans):
        self.plans += plans
        return plans[0]


def said(status, **members):
    """The bytes of a reply of the desk."""
    body = json.dumps(members, separators=(",", ":")).encode()
    return (f"HTTP/1.1 {status} Said\r\nContent-Type: application/json\r\nContent-Length: {len(body)}\r\n"
            "Connection: close\r\n\r\n").encode() + body


def free_port():
    with socket.create_server(("127.0.0.1", 0)) as server:
        return server.getsockname()[1]


class Proxy:
    """nginx with deploy/nginx.conf, in a folder of its own."""

    def __init__(self, folder, desk_port):
        self.folder = folder
        self.port = free_port()
        self.process = None
        self.log = folder / "access.log"
        make_secrets(folder)
        self.write(desk_port)

    def write(self, desk_port):
        """The file as it is installed, but for its ports and folders, within what Debian's nginx.conf says."""
        text = (TOP / "deploy" / "nginx.conf").read_text()
        for old, new in (("listen 443 ", f"listen 127.0.0.1:{self.port} "), ("/etc/vend/", f"{self.folder}/"),
                         (r"127\.0\.0\.1:8080/", f"127.0.0.1:{desk_port}/"), (r"root \S+;", f"root {TOP}/page;"),
                         ("listen 80;", f"listen 127.0.0.1:{free_port()};")):
            text, many = re.subn(rf"(?m)^(?! *#)(.*?){old}", rf"\g<1>{new}", text)
            if not many:
                wrong(f"deploy/nginx.conf has no {old}")
        (self.folder / "vend.conf").write_text(text)
        temporary = "".join(f"{name}_temp_path {self.folder}/{name};\n" for name in (
            "client_body", "proxy", "fastcgi", "uwsgi", "scgi"))
        user = "user root;\n" if os.geteuid() == 0 else ""
        (self.folder / "nginx.conf").write_text(
            f"{user}daemon off;\nworker_processes 1;\npid {self.folder}/nginx.pid;\n"
            f"error_log {self.folder}/error.log;\nevents {{}}\nhttp {{\n{temporary}"
            "include /etc/nginx/mime.types;\nssl_protocols TLSv1 TLSv1.1 TLSv1.2 TLSv1.3;\n"
            "log_format seen '$status $request_method $uri $http_origin';\n"
            f"access_log {self.log} seen;\ninclude {self.folder}/vend.conf;\n}}\n")

    def words(self):
        return ["nginx", "-p", str(self.folder), "-e", f"{self.folder}/error.log",
                "-c", f"{self.folder}/nginx.conf"]

    def check(self):
        ran = subprocess.run([*self.words(), "-t"], capture_output=True, text=True)
        same((ran.returncode, "warn" in ran.stderr), (0, False), f"nginx -t: {ran.stderr}")

    def start(self):
        self.process = subprocess.Popen(self.words(), stdin=subprocess.DEVNULL, start_new_session=True)
        until(self.is_there, "nginx")

    def is_there(self):
        if self.process.poll() is not None:
            wrong(f"nginx ended: {(self.folder / 'error.log').read_text()}")
        with contextlib.suppress(OSError):
            socket.create_connection(("127.0.0.1", self.port), timeout=1).close()
            return True
        return False

    def kill(self):
        """Kills the master and its worker at once."""
        if self.process:
            with contextlib.suppress(ProcessLookupError):
                os.killpg(self.process.pid, signal.SIGKILL)
            self.process.wait()

    def connect(self, name=NAME, source="127.0.0.1"):
        """A connection with TLS to a name, by the certificate that was made for it."""
        context = ssl.create_default_context(cafile=self.folder / "tls.crt")
        plain = socket.create_connection(("127.0.0.1", self.port), timeout=WAIT, source_address=(source, 0))
        try:
            return context.wrap_socket(plain, server_hostname=name)
        except BaseException:
            plain.close()
            raise

    def ask(self, method, target, body=None, user=CASHIER, till="1", source="127.0.0.1", **fields):
        """A message as a program sends it: the status and the fields of its reply."""
        client = http.client.HTTPConnection(NAME, timeout=WAIT)
        client.sock = self.connect(source=source)
        if user:
            word = base64.b64encode(":".join(user).encode()).decode()
            fields["Authorization"] = f"Basic {word}"
        if till:
            fields["X-Till"] = till
        client.request(method, target, body, fields)
        with contextlib.closing(client):
            reply = client.getresponse()
            reply.read()
            return reply.status, reply.headers

    def status(self, *words, **options):
        return self.ask(*words, **options)[0]


def make_secrets(folder):
    """The name, a certificate for it, and the names and passwords of cashiers and managers."""
    subprocess.run(["openssl", "req", "-x509", "-newkey", "ec", "-pkeyopt", "ec_paramgen_curve:P-256",
                    "-nodes", "-days", "2", "-subj", f"/CN={NAME}", "-addext",
                    f"subjectAltName=DNS:{NAME}", "-keyout", folder / "tls.key", "-out",
                    folder / "tls.crt"], check=True, capture_output=True)
    lines = [f"{name}:" + subprocess.run(["openssl", "passwd", "-6", word], check=True, text=True,
                                         capture_output=True).stdout for name, word in (CASHIER, MANAGER)]
    (folder / "cashiers").write_text("".join(lines))
    (folder / "managers").write_text(lines[1])
    (folder / "name.conf").write_text(f"server_name {NAME};\n")


class OtherSite:
    """A site of another name on this computer, whose pages try to sell at the counter."""

    def __init__(self):
        site = self
        self.page = ""

        class Handler(http.server.BaseHTTPRequestHandler):
            def do_GET(self):
                text = site.page.encode() if self.path == "/" else b""
                self.send_response(200)
                self.send_header("Content-Type", "text/html")
                self.send_header("Content-Length", str(len(text)))
                self.end_headers()
                self.wfile.write(text)

            def log_message(self, *_):
                pass

        self.server = http.server.ThreadingHTTPServer(("127.0.0.1", 0), Handler)
        self.url = f"http://{OTHER_SITE}:{self.server.server_address[1]}"
        threading.Thread(target=self.server.serve_forever, daemon=True).start()
