"""A client of `vend serve`: a desk that is started, the messages that are sent to it, and the replies that it has to
give, byte for byte. It is no script of its own."""
import contextlib
import email.utils
import errno
import http.client
import json
import re
import select
import socket
import subprocess
import time

from program import METER, WAIT, begin_desk
from shared import rows_of_page, same, wrong

PAUSE = 0.005  # seconds between two pieces of a message
REFUSED = (400, 413, 501)  # the status of a reply to a message that is refused: it has no date
HEAD = re.compile(rb"(HTTP/1\.1 (\d{3}) [^\r]+\r\nContent-Type: [^\r]+\r\nContent-Length: \d+\r\n)(?:Date: ([^\r]*)\r\n)?")
BASE_2014 = 1388534400
# What each status of a reply is called, and what it is for.
STATUSES = {int(status[:3]): (status[4:], said)
            for status, said in rows_of_page("DESK.md", "Status", "For")}

# What was asked and answered: method, target, body, status, fields of the reply, its body.
SEEN = []


class Desk:
    """A desk over the office in a file, for so many connections. It is killed in any case."""

    def __init__(self, file, connections, listen="127.0.0.1:0", more=(), **options):
        self.connections = int(connections)
        self.used = 0
        self.process, self.port = begin_desk(file, connections, listen, more, **options)

    def __enter__(self):
        return self

    def __exit__(self, *_):
        self.kill()

    def kill(self):
        self.process.kill()
        self.process.communicate()

    def connect(self):
        self.used += 1
        return socket.create_connection(("127.0.0.1", self.port), timeout=WAIT)

    def says(self):
        """The next line on its standard error."""
        if not self.has_said():
            wrong("a desk says nothing")
        return self.process.stderr.readline()

    def has_said(self, seconds=WAIT):
        """Whether there is more on its standard error, now or within that time."""
        return bool(select.select([self.process.stderr], [], [], seconds)[0])

    def finish(self, said=b""):
        """Uses the connections that are left. With the last one, and not before, the desk ends, and
        has said this since the last line that was read."""
        while self.used < self.connections:
            if self.process.poll() is not None:
                wrong(f"a desk ended after {self.used} connections, with {self.process.returncode}")
            self.connect().close()
        out, err = self.process.communicate(timeout=WAIT)
        same((self.process.returncode, out, err), (0, b"", said), "the end of a desk")


def message(method, target, body=b"", fields=""):
    """The bytes of a message of HTTP/1.1."""
    length = f"Content-Length: {len(body)}\r\n" if body else ""
    return f"{method} {target} HTTP/1.1\r\nHost: d\r\n{length}{fields}\r\n".encode() + body


def reply(status, body, media="application/json", allow=None, closes=False, date=None):
    """The bytes of a reply, with a date or without."""
    fields = [f"HTTP/1.1 {status} {STATUSES[status][0]}", f"Content-Type: {media}",
              f"Content-Length: {len(body)}"]
    fields += [f"Date: {date}"] if date else []
    fields += [f"Allow: {allow}"] if allow else []
    fields += ["Connection: close"] if closes else []
    return "".join(f"{field}\r\n" for field in [*fields, ""]).encode() + body


def undated(text, begun):
    """The replies without their dates. Each that is whole has one, between this second and now, but those to messages that
    are refused, and those that a clock outside the moments gets."""
    def check(head):
        status, date = int(head[2]), head[3]
        if date is not None:
            seconds = email.utils.parsedate_to_datetime(date.decode()).timestamp()
            same(date.decode(), email.utils.formatdate(seconds, usegmt=True), "the form of a date")
            if not int(begun) <= seconds <= time.time():
                wrong(f"a reply of now has the date {date.decode()}")
        if status in REFUSED and date is not None or status not in (*REFUSED, 503) and date is None:
            wrong(f"a reply with the status {status} has {'a' if date else 'no'} date")
        return head[1]
    return HEAD.sub(check, text)


def fault(word):
    return f'{{"error":"{word}"}}'.encode()


def refusal(number, name):
    return f'{{"error":"{name}","refusal":{number}}}'.encode()


def row_refusal(row, cause):
    return f'{{"cause":"{cause}","error":"ImportRow","refusal":14,"row":{row}}}'.encode()


def told(**members):
    """A body of JSON."""
    return json.dumps(members).encode()


def dated(day, steps=":200"):
    """The steps that a tariff is to have from a day on."""
    return told(**{"from": day, "steps": steps})


def order(ref, tender=10, meter=METER, operator="ann"):
    return told(meter=meter, operator=operator, ref=ref, tender=tender)


def replies_in(text):
    """The replies that bytes are, each with its status, fields and body."""
    replies = []
    while text:
        head, _, rest = text.partition(b"\r\n\r\n")
        lines = head.decode().split("\r\n")
        fields = dict(line.split(": ", 1) for line in lines[1:])
        length = int(fields["Content-Length"])
        replies.append((int(lines[0].split()[1]), fields, rest[:length]))
        text = rest[length:]
    return replies


def saw(method, target, sent, text):
    """Keeps one reply, and gives its body."""
    (status, fields, body), = replies_in(text)
    SEEN.append((method, target, sent, status, fields, body))
    return body


@contextlib.contextmanager
def until_reset():
    """Goes on where the system resets the connection, as it does where the desk ends it before all was
    read that was sent. What the desk wrote before can be read all the same."""
    try:
        yield
    except OSError as error:
        if error.errno not in (errno.ECONNRESET, errno.ENOTCONN, errno.EPIPE):
            raise


def all_of(client):
    """All bytes until the other side closes the connection."""
    text = b""
    with until_reset():
        while piece := client.recv(65536):
            text += piece
    return text


def talk(desk, *pieces, ends=True):
    """What the desk writes on a connection of these pieces until it closes it. The client ends its
    side first, or leaves that to the desk. The dates of its replies are looked at, and left out."""
    begun = time.time()
    with desk.connect() as client:
        client.setsockopt(socket.IPPROTO_TCP, socket.TCP_NODELAY, 1)
        with until_reset():
            for place, piece in enumerate(pieces):
                time.sleep(PAUSE if place else 0)
                client.sendall(piece)
            if ends:
                client.shutdown(socket.SHUT_WR)
        return undated(all_of(client), begun)


def by_curl(desk, method, target, body):
    """The bytes of the reply that curl has, but for its date."""
    desk.used += 1
    begun = time.time()
    words = ["curl", "--silent", "--show-error", "--include", "--max-time", str(WAIT)]
    words += ["--data-binary", "@-"] if method == "POST" else []
    ran = subprocess.run([*words, f"http://127.0.0.1:{desk.port}{target}"], input=body,
                         capture_output=True, timeout=2 * WAIT)
    same((ran.returncode, ran.stderr), (0, b""), f"curl at {target}")
    return undated(ran.stdout, begun)


class Kept:
    """A connection of http.client that is used for one message after another."""

    def __init__(self, desk):
        desk.used += 1
        self.client = http.client.HTTPConnection("127.0.0.1", desk.port, timeout=WAIT)
        self.client.connect()
        self.socket = self.client.sock

    def ask(self, method, target, body):
        """The bytes of the reply that http.client has, but for its date."""
        begun = time.time()
        self.client.request(method, target, body or None)
        got = self.client.getresponse()
        text = got.read()
        if self.client.sock is not self.socket:
            wrong(f"the connection was closed after {method} {target}")
        fields = "".join(f"{name}: {value}\r\n" for name, value in got.getheaders())
        return undated(f"HTTP/1.1 {got.status} {got.reason}\r\n{fields}\r\n".encode() + text, begun)

    def close(self):
        self.client.close()


def token_of(nibble, tid, tenths):
    """The twenty digits as docs/PROFILE.md has them, by the transform plain, below 16384 tenths."""
    check = 0xFFFF
    for byte in (nibble << 40 | tid << 16 | tenths).to_bytes(7, "big"):
        check ^= byte
        for _ in range(8):
            check = check >> 1 ^ (0xA001 if check & 1 else 0)
    block = nibble << 56 | tid << 32 | tenths << 16 | check
    return f"{(block >> 27 & 3) << 64 | block >> 29 << 29 | block % 2**27:020}"


def next_tid(moment, last):
    """The identifier of a sale after those sold to the meter."""
    tid = max((moment - BASE_2014) // 60, 2, last + 1)
    return tid + 1 if tid % 1440 == 1 else tid


def time_of(moment):
    return time.strftime("%Y-%m-%dT%H:%M:%SZ", time.gmtime(moment))


def sale_in(text, begun, number, ref, tender=10, last=0):
    """The sale that a body is: one by ann, in shift 1, by the tariff flat, sold since it began."""
    sale = json.loads(text)
    if not begun <= sale["moment"] <= time.time():
        wrong(f"a sale at another moment: {text}")
    tenths = tender // 10
    tid = next_tid(sale["moment"], last)
    expected = {"base": 2014, "change": tender - 10 * tenths, "meter": METER,
                "moment": sale["moment"], "number": number, "operator": "ann", "price": 10 * tenths,
                "ref": ref, "shift": 1, "tender": tender, "tenths": tenths, "tid": tid,
                "token": token_of(number % 16, tid, tenths)}
    same(text, json.dumps(expected, separators=(",", ":")).encode(), "a sale")
    return sale


def receipt_of(sale):
    groups = " ".join(sale["token"][place:place + 4] for place in range(0, 20, 4))
    return (f"SALE {sale['number']}\nMETER {sale['meter']}\nTIME {time_of(sale['moment'])}\n"
            f"KWH {sale['tenths'] // 10}.{sale['tenths'] % 10}\nPRICE {sale['price']}\n"
            f"TENDER {sale['tender']}\nCHANGE {sale['change']}\nTOKEN {groups}\n").encode()


def line_of(sale):
    return (f"{sale['number']:10} {sale['meter']} {sale['tenths']:8} {sale['price']:9} "
            f"{sale['tender']:9} {sale['change']:9}\n")
