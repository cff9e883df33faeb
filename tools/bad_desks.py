"""Programs in the place of a desk that send what a desk does not send, or nothing, and what a command says of them: a part
of tools/check_at_desk. It is no script of its own."""
import contextlib
import json
import os
import socket
import subprocess
import threading

from clocked_desk import Ran, run
from desk_client import STATUSES, fault, refusal, reply, row_refusal
from lookups import in_json
from many_sales import meter_of
from program import METER, RECEIPT, TOP, VEND
from servers import message_from
from shared import numbers, quoted, rows_of_page, same, wrong

NET = Ran(1, b"", b"net\n")
SALE = {"base": 2014, "change": 0, "meter": METER, "moment": 1388534430, "number": 1, "operator": "ann", "price": 10,
        "ref": "A-1", "shift": 1, "tender": 10, "tenths": 1, "tid": 2, "token": "00072057602627981690"}
ROW = (b"number,moment,shift,operator,ref,meter,base,tid,tenths,price,tender,change,token\n"
       b"1,1388534430,1,ann,A-1,12345678903,2014,2,1,10,10,0,00072057602627981690\n")
REPORT = (b"SHIFT 1 ann\nOPENED 2014-01-01T00:00:00Z\nCLOSED -\n"
          b"         1 12345678903        1        10        10         0\n"
          b"SALES 1\nTENTHS 1\nCASH 10\n")
TARIFFS = str(TOP / "examples" / "tariffs.csv")
SELL = ("sell", "--operator", "ann", "--ref", "A-1", "--meter", METER, "--tender", "10")
# Dates that other servers send, and texts in their place that HTTP has no more, or never had.
DATES = ("Sun, 06 Nov 1994 08:49:37 GMT", "Wed, 01 Jan 2014 00:00:30 GMT", "Thu, 29 Feb 2024 23:59:59 GMT",
         "Fri, 31 Dec 9999 23:59:59 GMT", "Thu, 01 Jan 1970 00:00:00 GMT")
NO_DATES = ("", "Sunday, 06-Nov-94 08:49:37 GMT", "Sun Nov  6 08:49:37 1994", "Mon, 06 Nov 1994 08:49:37 GMT",
            "Sun, 06 Nov 1994 08:49:37 UTC", "Sun, 6 Nov 1994 08:49:37 GMT", "Thu, 30 Feb 2024 23:59:59 GMT",
            "Sun, 06 Nov 1994 24:00:00 GMT", "sun, 06 nov 1994 08:49:37 GMT", "Sun, 06 Nov 1994 08:49:37 GMT ",
            "x" * 29, "x" * 5000)
TOKENS = (f"{2**66:020}", "9" * 20, f"{2**27:020}")  # too large, or of another class
MOST_BODY = 2**26  # bytes of a body, at most
MOST_MEMORY = 2**28  # bytes of memory that a command takes for it, at most
LAST_NUMBER = 10**9  # of a shift or a sale
# The refusals that an office has for each kind of command, by their numbers, and those that it may have for any.
REFUSED = {"import": {14}, "tariff": {4, 5}, "withdraw": {5, 19}, "base": {4, 7, 18}, "key": {4, 20}, "shift": {3, 11},
           "sell": {1, 2, 4, 7, 8, 9, 10, 11}, "show sale": {12}, "receipt": {12}, "totals": {13}, "report": {13},
           "show last": {4, 12}, "show meter": {4}, "quote": {4, 7, 8, 9, 10, 11}, "list": set()}
UNABLE = {15, 16, 17}
OF_A_SALE = {"sell", "show sale"}
ON_PAPER = {"receipt", "show last"}
# Their replies say no more than that it is done.
DONE = {"tariff", "base", "key"}


class Pretender:
    """What stands where a desk listens: it sends each client what it has, and closes the connection."""

    def __init__(self, answer):
        self.answer, self.asked = answer, []
        self.server = socket.create_server(("127.0.0.1", 0), backlog=100)
        self.address = f"127.0.0.1:{self.server.getsockname()[1]}"
        self.thread = threading.Thread(target=self.serve, daemon=True)
        self.thread.start()

    def __enter__(self):
        return self

    def __exit__(self, *_):
        # Closed beneath an accept that is about to begin, the socket's number could be the next one's by then.
        self.server.shutdown(socket.SHUT_RDWR)
        self.thread.join()
        self.server.close()

    def serve(self):
        with contextlib.suppress(OSError):
            while True:
                client = self.server.accept()[0]
                threading.Thread(target=self.talk, args=(client,), daemon=True).start()

    def talk(self, client):
        with client, contextlib.suppress(OSError):
            if callable(self.answer):
                self.answer(self, client)
                return
            self.asked.append(message_from(client))
            client.sendall(self.answer)


def asked_of(answer, name, *words):
    """How a command ends that asks a program which answers so."""
    with Pretender(answer) as it:
        return run([name, "--desk", it.address, *words])


def granted():
    """Each kind of command with a body that a desk sends it, its media type, and what is printed then."""
    totals = {"cash": 10, "sales": 1, "shift": 1, "tenths": 1}
    meter = {"base": 2014, "meter": METER, "sale": None, "tariff": "flat", "tenths": 0}
    quote = {"change": 5, "meter": METER, "price": 10, "tariff": "flat", "tender": 15, "tenths": 1}
    page = {"meters": [{"base": 2014, "meter": METER, "tariff": "flat"}]}
    json_type = "application/json"
    return {
        "import": (("import", "tariffs", TARIFFS), b'{"added":1}', json_type, b"added 1\n"),
        "tariff": (("tariff", "--meter", METER, "--tariff", "flat"), b'{"done":true}', json_type, b"done\n"),
        "withdraw": (("withdraw", "--tariff", "flat", "--from", "2030-01-01"), b'{"withdrawn":1}', json_type, b"withdrawn 1\n"),
        "base": (("base", "--meter", METER, "--base", "2014"), b'{"done":true}', json_type, b"done\n"),
        "key": (("key", "--meter", METER, "--key", "0" * 16), b'{"done":true}', json_type, b"done\n"),
        "shift": (("shift", "--operator", "ann", "open"), b'{"shift":1}', json_type, b"shift 1\n"),
        "sell": (SELL, in_json(SALE), json_type, RECEIPT),
        "show sale": (("show", "sale", "--operator", "ann", "--ref", "A-1"), in_json(SALE), json_type, ROW),
        "receipt": (("report", "--kind", "receipt"), RECEIPT, "text/plain", RECEIPT),
        "report": (("report", "--kind", "shift"), REPORT, "text/plain", REPORT),
        "show last": (("show", "last", "--meter", METER), RECEIPT, "text/plain", RECEIPT),
        "totals": (("report", "--kind", "totals"), in_json(totals), json_type, b"shift 1 sales 1 tenths 1 cash 10\n"),
        "show meter": (("show", "meter", "--meter", METER), in_json(meter), json_type,
                       b"meter\tbase\ttariff\ttenths\tsale\n12345678903\t2014\tflat\t0\t-\n"),
        "quote": (("quote", "--meter", METER, "15"), in_json(quote), json_type, b"1 10 5\n"),
        "list": (("list", "meters"), in_json(page), json_type, b"meter\tbase\ttariff\n12345678903\t2014\tflat\n"),
    }


def statuses_of():
    """Each refusal that a desk sends, with the status of its reply: its number and name, or a row and its cause."""
    status_of = {number: status for status, (_, said) in STATUSES.items()
                 for number in numbers(said.partition("refusal")[2])}
    lines = [line for cell, *_ in rows_of_page("COMMANDS.md", "Line", "Why", "What to do") for line in quoted(cell)]
    named = [line.split() for line in lines if line.startswith("refused ") and line.split()[1].isdigit()]
    causes = [cause for cell, _ in rows_of_page("COMMANDS.md", "Cause", "Why") for cause in quoted(cell)]
    for _, number, name, *more in named:
        if not more:
            yield status_of[int(number)], refusal(int(number), name), f"refused {number} {name}\n"
    for cause in causes:
        cause = cause.replace("Field k", "Field 2")
        row = {"Header": 0, "TooManyRows": 10001}.get(cause, 10000)
        yield status_of[14], row_refusal(row, cause), f"refused 14 ImportRow {row} {cause}\n"


def check_told():
    """What a desk grants and refuses is printed, each refusal under its status alone, and only of a command that it is had
    for; and one command's reply is no other's, but that those that tell a sale, in JSON or on paper, tell the same one, and
    that three are done."""
    kinds, count = granted(), 0
    for name, (words, _, _, printed) in kinds.items():
        for other, (_, body, media, _) in kinds.items():
            alike = name == other or any({name, other} <= those for those in (OF_A_SALE, ON_PAPER, DONE))
            same(asked_of(reply(200, body, media), *words), Ran(0, printed, b"") if alike else NET,
                 f"the reply to {other} after {name}")
        for date in DATES:
            same(asked_of(reply(200, kinds[name][1], kinds[name][2], date=date), *words), Ran(0, printed, b""),
                 f"the reply to {name} of {date}")
    refusals = [*statuses_of(), (503, fault("Clock"), "refused clock\n")]
    for status, body, line in refusals:
        number = numbers(line)[:1]
        for name, (words, *_) in kinds.items():
            had = not number or number[0] in REFUSED[name] | UNABLE
            same(asked_of(reply(status, body), *words), Ran(1, b"", line.encode()) if had else NET, f"{name}: {line}")
        for date in DATES[:2]:
            same(asked_of(reply(status, body, date=date), *SELL),
                 Ran(1, b"", line.encode()) if not number or number[0] in REFUSED["sell"] | UNABLE else NET, f"{line} of {date}")
        for other in (200, 404, 409, 422, 503):
            if other != status:
                same(asked_of(reply(other, body), *SELL), NET, f"{line} under {other}")
                count += 1
    return len(kinds), len(refusals), count


def spoilt_sales():
    """Sales that no office has made, one value after another."""
    counts = (-1, 0, LAST_NUMBER + 1, 2**32, 1.5)
    values = {
        "base": (2015, "2014", None), "change": (1, -1, 0.0, 4294967296), "meter": (METER[:-1] + "4", int(METER), ""),
        "moment": (725846399, 4102444800, "1388534430"), "number": counts, "operator": ("a" * 17, "a b", ""),
        "price": (9, 11, 2**32), "ref": ("r" * 33, "A_1", ""), "shift": counts, "tender": (0, 100000001, 9, 11),
        "tenths": (16385, 18201625), "tid": (-1, 2**24, 2**32),
        "token": ("0" * 19, "0" * 21, "0" * 19 + "x", *TOKENS),
    }
    for name, others in values.items():
        for value in others:
            yield in_json({**SALE, name: value})
        yield in_json({key: value for key, value in SALE.items() if key != name})
    text = in_json(SALE)
    yield from (b"", b"null", b"[]", b"{}", b"\0", b"\xff", text[:-1], text + b"}", b" " + text, text + b"\n")
    yield from (text.replace(b",", b", "), text.replace(b'"number":1,', b'"number":01,'), json.dumps(SALE).encode())
    yield json.dumps(dict(reversed(SALE.items())), separators=(",", ":")).encode()
    yield in_json({**SALE, "more": 1})


def other_answers():
    """Replies that a desk sends, to other commands: of each the words of the command that gets it."""
    kinds = granted()
    words = lambda name: kinds[name][0]
    other = meter_of("0000000001")
    for name, value in (("operator", "bob"), ("ref", "A-2"), ("meter", other)):
        yield words("sell"), in_json({**SALE, name: value})
    yield words("sell"), in_json({**SALE, "tender": 11, "change": 1})
    yield words("show sale"), in_json({**SALE, "operator": "bob"})
    yield words("show sale"), in_json({**SALE, "ref": "A-2"})
    yield from ((words("shift"), b'{"shift":%d}' % number) for number in (0, LAST_NUMBER + 1, 2**32 - 1))
    yield from ((words("import"), b'{"added":%d}' % count) for count in (10001, 2**32 - 1))
    yield from ((words("withdraw"), b'{"withdrawn":%d}' % count) for count in (2, 2**32 - 1))
    totals = {"cash": 10, "sales": 1, "shift": 1, "tenths": 1}
    for spoilt in ({"shift": 2}, {"shift": 0}, {"sales": 0}, {"sales": LAST_NUMBER + 1}, {"cash": 100000001},
                   {"tenths": 18201625}):
        yield words("totals"), in_json({**totals, **spoilt})
    meter = json.loads(kinds["show meter"][1])
    for spoilt in ({"meter": other}, {"sale": 0}, {"sale": LAST_NUMBER + 1}, {"tenths": 10**17 + 1}):
        yield words("show meter"), in_json({**meter, **spoilt})
    quote = json.loads(kinds["quote"][1])
    yield words("quote"), in_json({**quote, "meter": other})
    yield words("quote"), in_json({**quote, "tender": 16, "change": 6})
    page = json.loads(kinds["list"][1])["meters"]
    for members in (page + page, [{**page[0], "meter": other}], page[::-1] + [{**page[0], "meter": other}]):
        yield ("list", f"--after={METER}", "meters"), in_json({"meters": members})
    shift = {"cash": 0, "closed": None, "number": 2, "opened": 1388534430, "operator": "ann", "sales": 0, "tenths": 0}
    for numbers_of in ((2,), (4, 3), (3, 3)):
        yield ("list", "--after=2", "shifts"), in_json({"shifts": [{**shift, "number": number} for number in numbers_of]})
    for numbers_of in ((1,), (2, 1), (3, 3)):
        yield ("list", "--after=1", "sales"), in_json({"sales": [{**SALE, "number": number} for number in numbers_of]})
    for digits in TOKENS:
        for asked in (("list", "sales"), ("report", "--kind", "sales")):
            yield asked, in_json({"sales": [SALE, {**SALE, "number": 2, "token": digits}]})
    for names in (("flat",), ("home", "flat"), ("home", "home")):
        tariffs = [{"later": [], "name": name, "steps": ":100"} for name in names]
        yield ("list", "--after=flat", "tariffs"), in_json({"tariffs": tariffs})


def check_other_answers():
    """Another order's sale, another meter, another shift, or a page before what was asked for:
    nothing is printed but that no reply came."""
    pairs = [*other_answers()]
    for words, body in pairs:
        same(asked_of(reply(200, body), *words), NET, f"{words} got {body}")
    return len(pairs)


def spoilt(text, pairs):
    """The text with one piece changed, for each pair of an old piece and a new one."""
    for old, new in pairs:
        if text.count(old) != 1:
            wrong(f"{old} stands {text.count(old)} times in {text}")
        yield text.replace(old, new)


def spoilt_times(time):
    """Times that are none of an office."""
    return ((time, other) for other in (b"2014-02-29T00:00:30Z", b"2014-01-01T24:00:00Z", b"2014-01-01T00:60:30Z",
                                        b"1992-12-31T23:59:59Z", b"2100-01-01T00:00:00Z", b"2014-01-01T00:00:30",
                                        b"2014-01-01 00:00:30Z", b"", b"-\n-"))


def spoilt_reports():
    """Texts that no desk writes as the report of shift 1."""
    first = REPORT.splitlines(keepends=True)[3]
    again, second = first.replace(b" 1 ", b" 3 ", 1), first.replace(b" 1 ", b" 2 ", 1)
    head, tail = REPORT.split(first)
    sums = lambda count: b"SALES %d\nTENTHS %d\nCASH %d\n" % (count, count, 10 * count)
    same(asked_of(reply(200, head + first + second + again + sums(3), "text/plain"), "report", "--kind", "shift"),
         Ran(0, head + first + second + again + sums(3), b""), "a report of three sales")
    yield from spoilt(REPORT, (
        (b"SHIFT 1 ", b"SHIFT 2 "), (b"SHIFT 1 ", b"SHIFT 10 "), (b"SHIFT 1 ", b"SHIFT 01 "), (b"ann", b""),
        (b"ann", b"a b"), (b"ann", b"\x1b[2J"), (b"ann", b"ann\x07"), (b"ann\n", b"ann\r\n"), (b"ann\n", b"ann \n"),
        (b"OPENED", b"Opened"), (b"CLOSED -", b"CLOSED"), (b"CLOSED -", b"CLOSED 0"), (b"SALES 1", b"SALES 2"),
        (b"SALES 1", b"SALES 01"), (b"TENTHS 1", b"TENTHS 2"), (b"CASH 10\n", b"CASH 11\n"), (b"CASH 10\n", b"CASH 10"),
        (b"CASH 10\n", b"CASH 10\n\n"), (b"CASH 10\n", b"CASH 10\nCASH 10\n"), (b"CASH 10\n", b"CASH 10\nTOKEN 1\n"),
        (b"CASH 10\n", b"CASH 10\n\x1b[31m"), (b"CASH 10\n", b""), (first, first + first), (first, b""),
        (METER.encode(), b"1234567890x")))
    yield from spoilt(REPORT, spoilt_times(b"2014-01-01T00:00:00Z"))
    for old, new in ((b"         1 ", b"         0 "), (b"         1 ", b"        01 "), (b"         1 ", b"1000000001 "),
                     (b"         1 ", b"1          "), (b"3        1 ", b"3    16385 "), (b"       10 ", b"       11 "),
                     (b"0\n", b"1\n"), (b"0\n", b"0 \n"), (b"0\n", b"\x1b\n"), (b" 12345678903 ", b" 12345678903  "),
                     (b" 12345678903 ", b"\t12345678903 ")):
        yield head + first.replace(old, new, 1) + tail
    for lines, count in ((first + first, 2), (second + first, 2), (first + again + second, 3), (first + second, 1),
                         (first + second, 3), (b"", 1), (first + b"\n" + second, 2)):
        yield head + lines + sums(count)
    yield from (b"", head, first, tail, head + tail, REPORT + REPORT, b" " + REPORT, RECEIPT)


def spoilt_receipts():
    """Texts that no desk writes as the receipt of a sale."""
    token = RECEIPT.splitlines()[-1]
    groups = lambda digits: b"TOKEN " + b" ".join(digits[at:at + 4].encode() for at in range(0, 20, 4))
    yield from spoilt(RECEIPT, (
        (b"SALE 1\n", b"SALE 0\n"), (b"SALE 1\n", b"SALE 01\n"),
        (b"SALE 1\n", b"SALE 1000000001\n"), (b"SALE 1\n", b"SALE 1\x1b[2J\n"), (b"SALE 1\n", b"SALE 1\r\n"),
        (b"KWH 0.1", b"KWH 0.10"), (b"KWH 0.1", b"KWH .1"), (b"KWH 0.1", b"KWH 0,1"), (b"KWH 0.1", b"KWH 1638.5"),
        (b"KWH 0.1", b"KWH 00.1"), (b"KWH 0.1", b"KWH 1"), (b"PRICE 10", b"PRICE 11"), (b"PRICE 10", b"PRICE 9"),
        (b"TENDER 10", b"TENDER 0"), (b"TENDER 10", b"TENDER 11"), (b"CHANGE 0", b"CHANGE 1"), (b"CHANGE 0", b"CHANGE -0"),
        *((token, groups(digits)) for digits in TOKENS), (token, token.replace(b" ", b"")), (token, token + b" "),
        (token, token[:-1]), (token, token[:-1] + b"x"), (token, token + b"\nTOKEN 0000 0000 0000 0000 0000"),
        (token, token + b"\n"), (token + b"\n", token), (token + b"\n", b"")))
    yield from spoilt(RECEIPT, spoilt_times(b"2014-01-01T00:00:30Z"))
    yield from (b"", RECEIPT + RECEIPT, b" " + RECEIPT, REPORT)


def check_papers():
    """A report or a receipt that no desk writes of what was asked is not printed."""
    texts = [(("report", "--kind", "shift"), text) for text in spoilt_reports()]
    last, first = ("show", "last", "--meter", METER), ("report", "--kind", "receipt")
    texts += [(words, text) for words in (last, first) for text in spoilt_receipts()]
    texts += [(last, RECEIPT.replace(METER.encode(), meter_of("0000000001").encode())),
              (first, RECEIPT.replace(b"SALE 1\n", b"SALE 2\n"))]
    for words, text in texts:
        same(asked_of(reply(200, text, "text/plain"), *words), NET, f"{words} got {text}")
    return len(texts)


def spoilt_heads():
    """Replies to a sale whose heads no desk writes."""
    whole, body = reply(200, in_json(SALE)), in_json(SALE)
    length = b"Content-Length: %d" % len(body)
    for old, new in ((b"HTTP/1.1", b"HTTP/1.0"), (b"HTTP/1.1", b"HTTP/2"), (b"200 OK", b"200"), (b"200 OK", b"201 OK"),
                     (b"200 OK", b"500 OK"), (b"OK", b"Okay"), (b"application/json", b"text/plain"),
                     (b"Content-Type", b"content-type"), (length, b"Content-Length: 0%d" % len(body)),
                     (length, b"Content-Length: -1"), (length, b"Content-Length: "), (length, b"Content-Length: x"),
                     (length, length + b"\r\nConnection: close"), (length, length + b"\r\n" + length), (length, b"X: 1"),
                     (length, b"Transfer-Encoding: chunked"), (b"\r\n", b"\n"), (length, b"Content-Length: 0"),
                     (length, b"Content-Length: %d" % (MOST_BODY + 1)), (length, b"Content-Length: %d" % 2**63),
                     (length, b"Content-Length: %d" % (2**64 + len(body))), (length, b"Content-Length: 99999999999999999999"),
                     (length, b"Content-Length: %d" % (len(body) - 1)), (length, b"Content-Length: %d" % (len(body) + 1))):
        yield whole.replace(old, new, 1)
    dated = reply(200, body, date=DATES[0])
    line = f"Date: {DATES[0]}\r\n".encode()
    yield from (reply(200, body, date=date or " ") for date in NO_DATES)
    for new in (line + line, line.replace(b"Date", b"date"), line.replace(b": ", b":"), line.replace(b"\r\n", b"\n"),
                b"X: 1\r\n" + line, line + b"X: 1\r\n", line + b"Connection: close\r\n"):
        yield dated.replace(line, new)
    yield dated.replace(length + b"\r\n" + line, line + length + b"\r\n")
    for text in (whole, dated):
        yield from (text[:cut] for cut in range(0, len(text), 7))
    yield from (b"\r\n" + whole, b"rubbish\n", b"\x16\x03\x01\x02\x00\x01\x00\x01\xfc\x03\x03", b"x" * 100000, b"\0" * 100)
    yield from (reply(400, fault("Head"), closes=True), reply(413, fault("Body"), closes=True), reply(404, fault("NoRoute")),
                reply(405, fault("Method"), allow="POST"), reply(422, fault("Body")), reply(501, fault("Method"), closes=True))


def spoilt_refusals():
    """Refusals that no office gives."""
    for body in (refusal(1, "NoShift"), refusal(0, "RefReused"), refusal(20, "Other"), refusal(14, "ImportRow"),
                 refusal("01", "RefReused"), refusal(1, ""), refusal(1, "refReused"), fault("RefReused"),
                 refusal(1, "RefReused") + b" ", b'{"refusal":1,"error":"RefReused"}'):
        yield reply(409, body)
    for row, cause in ((1, "Other"), (1, "Field"), (1, "Field 0256"), (1, "Field 256"), (1, "Field x"), (-1, "Header"),
                       (2**32, "Header"), ("01", "Header"), (1, "Header"), (0, "Columns"), (10001, "Differs"),
                       (10000, "TooManyRows"), (1, "Field 5"), (1, "Field 0")):
        yield reply(422, row_refusal(row, cause))


def check_rubbish():
    """Replies of another form: nothing is printed but that none came."""
    texts = [*(reply(200, body) for body in spoilt_sales()), *spoilt_heads(), *spoilt_refusals()]
    for text in texts:
        same(asked_of(text, *SELL), NET, f"a reply of another form: {text[:300]}")
    return len(texts)


def endless(front, piece):
    """A program that sends for ever, as long as somebody takes it."""
    def answer(_, client):
        message_from(client)
        client.sendall(front)
        while True:
            client.sendall(piece)
    return answer


def measured(address, words):
    """How a command ends, without its output, and how much memory it took at most."""
    process = subprocess.Popen([VEND, words[0], "--desk", address, *words[1:]], stdin=subprocess.DEVNULL,
                               stdout=subprocess.PIPE, stderr=subprocess.PIPE)
    size = 0
    while piece := process.stdout.read(1 << 20):
        size += len(piece)
    err = process.stderr.read()
    _, status, used = os.wait4(process.pid, 0)
    process.returncode = os.waitstatus_to_exitcode(status)
    process.stdout.close()
    process.stderr.close()
    return process.returncode, size, err, used.ru_maxrss * 1024


def check_endless():
    """What never ends is not read for ever, nor kept whole."""
    head = lambda length, media="application/json": reply(200, b"", media).replace(b"Length: 0", b"Length: %d" % length)
    report = ("report", "--kind", "shift")
    rows = (
        (b"", b"x" * 65536, SELL, (1, 0, b"net\n")),
        (b"HTTP/1.1 200 OK\r\nX: ", b"x" * 65536, SELL, (1, 0, b"net\n")),
        (head(2**63 - 1), b"x" * 65536, SELL, (1, 0, b"net\n")),
        (head(MOST_BODY + 1, "text/plain"), b"x" * 65536, report, (1, 0, b"net\n")),
        (head(MOST_BODY), b"x" * 65536, SELL, (1, 0, b"net\n")),
        (head(MOST_BODY, "text/plain") + b"SHIFT 1 ", b"x" * 65536, report, (1, 0, b"net\n")))
    for front, piece, words, wanted in rows:
        with Pretender(endless(front, piece)) as it:
            *found, memory = measured(it.address, words)
        same(tuple(found), wanted, f"a desk that sends for ever behind {front}")
        if memory > MOST_MEMORY:
            wrong(f"behind {front} a command took {memory} bytes of memory")
    return len(rows)


def waiting_behind(front):
    """A program that sends so much, and then waits until its client has gone."""
    def answer(_, client):
        message_from(client)
        client.sendall(front)
        client.recv(1)
    return answer


def check_strangers():
    """Other servers that send some bytes and then wait for more of the client: it does not wait for them."""
    tells = lambda length: reply(200, b"").replace(b"Length: 0", b"Length: %d" % length)
    fronts = (b"SSH-2.0-OpenSSH_9.2p1\r\n", b"220 mail ESMTP\r\n", b"\0", b"\r\n", b"http", b"HTTP/1.0 200 OK\r\n",
              b"HTTP/1.1 400 Bad Request\r\n", b"HTTP/1.1 200 OK\r\nServer: x\r\n", tells(MOST_BODY + 1), tells(2**64 - 1))
    for front in fronts:
        same(asked_of(waiting_behind(front), *SELL), NET, f"a program that waits behind {front[:300]}")
    return len(fronts)


def meters_page(first, count=100):
    """A page of meters, and the lines that are printed of it."""
    names = [meter_of(f"{number:010}") for number in range(first, first + count)]
    page = {"meters": [{"base": 2014, "meter": name, "tariff": "flat"} for name in names]}
    return reply(200, in_json(page)), "".join(f"{name}\t2014\tflat\n" for name in names).encode()


def check_pages_of_rubbish():
    """A list whose pages are those of a desk for a while: what came is printed, and then that no more did."""
    whole = [meters_page(100 * number) for number in range(200)]
    head = b"meter\tbase\ttariff\n"
    few, _ = meters_page(0, 3)
    spoilt = (b"", b"rubbish", few[:-1], few.replace(b"2014", b"2015", 1), few.replace(b'"flat"', b'"fl at"', 1),
              few.replace(b"meters", b"shifts"), few.replace(b"}]", b"},]"), few.replace(b"},{", b"} {"),
              meters_page(0, 101)[0], reply(503, refusal(1, "RefReused")), reply(404, refusal(4, "NoMeter")),
              reply(200, in_json({"meters": json.loads(few.partition(b"\r\n\r\n")[2])["meters"][::-1]})))
    rows = [(pages, end, b"net\n") for pages in (0, 1, 2) for end in spoilt]
    rows += [(200, b"rubbish", b"net\n"), (1, reply(503, refusal(17, "Stopped")), b"refused 17 Stopped\n"),
             (2, reply(503, fault("Clock")), b"refused clock\n")]
    rows += [(pages, whole[pages - 1][0], b"net\n") for pages in (1, 2)]  # the same page for ever
    for pages, end, err in rows:
        def answer(it, client):
            for text in [text for text, _ in whole[:pages]] + [end]:
                it.asked.append(message_from(client))
                client.sendall(text)
        with Pretender(answer) as it:
            ran = run(["list", "--desk", it.address, "meters"])
            lines = b"".join(printed for _, printed in whole[:pages])
            same(ran, Ran(1, head * bool(pages) + lines, err), f"{pages} pages, and then {end[:200]}")
            afters = [text.split()[1].partition(b"=")[2].decode() for text in it.asked]
            same(len(set(afters)), pages + 1, f"what is asked for: {afters}")
    return len(rows)


def check_bad_desks():
    """Programs that are no desk."""
    with socket.create_server(("127.0.0.1", 0)) as server:
        nobody = f"127.0.0.1:{server.getsockname()[1]}"
    for words, *_ in granted().values():
        same(run([words[0], "--desk", nobody, *words[1:]]), NET, "nobody listens")
    kinds, refusals, _ = check_told()
    others, rubbish, ends, pages = check_other_answers(), check_rubbish(), check_endless(), check_pages_of_rubbish()
    papers, strangers = check_papers(), check_strangers()
    print(f"replies: of {kinds} kinds each is printed, {refusals} refusals too, each under its status alone and of a command "
          f"that has it; {others} to other commands, {rubbish} of another form, {papers} reports and receipts that no desk "
          f"writes, {ends} without an end and {pages} lists that break end with `net`, and so do {strangers} programs that "
          "send no beginning of a reply and wait, before their time is over")
