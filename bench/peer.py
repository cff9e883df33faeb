#!/usr/bin/env python3
"""The program's peer in Python: it takes the same words as the program for what is measured, over
http.server and sqlite3. It is honest, not hardened: it trusts its options.

    peer.py serve --file F --listen ADDR --connections N
    peer.py sell --file F --operator O --ref R --meter M --tender C [--at S]
    peer.py report --file F --kind receipt|sales [--number N]
    peer.py import --file F meters CSV
    peer.py show --file F [--at S] meter|last --meter M
    peer.py quote --file F [--at S] --meter M TENDER
    peer.py list --file F meters
"""
import sys
import time

from peer_office import (BASE, DIGITS, METER, MOMENT, NUMBER, OPERATOR, PRICE, REF, SHIFT, TENDER,
                         TENTHS, TID, Office, Refused, day_of)


def receipt(sale):
    when = time.strftime("%Y-%m-%dT%H:%M:%SZ", time.gmtime(sale[MOMENT]))
    digits = sale[DIGITS]
    groups = " ".join(digits[at:at + 4] for at in range(0, 20, 4))
    return (f"SALE {sale[NUMBER]}\nMETER {sale[METER]}\nTIME {when}\n"
            f"KWH {sale[TENTHS] // 10}.{sale[TENTHS] % 10}\nPRICE {sale[PRICE]}\n"
            f"TENDER {sale[TENDER]}\nCHANGE {sale[TENDER] - sale[PRICE]}\nTOKEN {groups}\n")


def sell(office, options, _):
    moment = int(options.get("at", time.time()))
    tender = int(options["tender"])
    sys.stdout.write(receipt(office.sell(options["operator"], options["ref"], options["meter"],
                                         tender, moment)))


def report(office, options, _):
    if options["kind"] == "receipt":
        sys.stdout.write(receipt(office.sale(int(options["number"]))))
        return
    import csv
    writer = csv.writer(sys.stdout, lineterminator="\n")
    writer.writerow(("number moment shift operator ref meter base tid tenths price tender change "
                     "token").split())
    for page in office.pages():
        writer.writerows((*sale[:TID + 1], *sale[TENTHS:DIGITS], sale[TENDER] - sale[PRICE],
                          sale[DIGITS]) for sale in page)


def show(office, options, words):
    moment, number = int(options.get("at", time.time())), options["meter"]
    if words == ["last"]:
        sys.stdout.write(receipt(office.last_sale(number)))
        return
    base, tariff = office.meter(number)
    last = office.last_of(number)
    sale = last[NUMBER] if last else "-"
    print("meter\tbase\ttariff\ttenths\tsale")
    print(number, base, tariff, office.prior(number, moment), sale, sep="\t")


def quote(office, options, words):
    moment, tender = int(options.get("at", time.time())), int(words[0])
    tenths, price, _ = office.offer(options["meter"], tender, moment)[-1]
    print(tenths, price, tender - price)


def list_meters(office, *_):
    print("meter\tbase\ttariff")
    after = ""
    while page := office.meters_after(after):
        for row in page:
            print(*row, sep="\t")
        after = page[-1][0]


def is_meter_number(text):
    if len(text) != 11 or not text.isdigit():
        return False
    doubled = (sum(divmod(2 * int(digit), 10)) for digit in text[-2::-2])
    return (sum(doubled) + sum(map(int, text[::-2]))) % 10 == 0


def is_key(text):
    return len(text) == 16 and set(text) <= set("0123456789abcdef")


def read_meters(file):
    import csv
    with open(file, newline="") as lines:
        records = csv.reader(lines)
        if next(records, None) != ["meter", "base", "tariff", "key"]:
            raise Refused(14, "ImportRow 0 Header")
        for row, record in enumerate(records, start=1):
            if len(record) != 4:
                raise Refused(14, f"ImportRow {row} Columns")
            meter, base, tariff, key = record
            are_good = (is_meter_number(meter), base in ("1993", "2014", "2035"),
                        0 < len(tariff) <= 32 and tariff.replace("-", "a").isalnum(), is_key(key))
            if not all(are_good):
                raise Refused(14, f"ImportRow {row} Field {are_good.index(False) + 1}")
            yield meter, int(base), tariff, key


def add(office, _, words):
    print(f"added {office.add_meters(list(read_meters(words[1])))}")


def serve(office, options, _):
    import json
    import socketserver
    from datetime import date, timedelta
    from http.server import BaseHTTPRequestHandler

    FIRST_DAY = date(1993, 1, 1)

    def members(sale):
        return {"base": sale[BASE], "change": sale[TENDER] - sale[PRICE], "meter": sale[METER],
                "moment": sale[MOMENT], "number": sale[NUMBER], "operator": sale[OPERATOR],
                "price": sale[PRICE], "ref": sale[REF], "shift": sale[SHIFT],
                "tender": sale[TENDER], "tenths": sale[TENTHS], "tid": sale[TID],
                "token": sale[DIGITS]}

    def found_meter(number):
        base, tariff = office.meter(number)
        last = office.last_of(number)
        return {"base": base, "meter": number, "sale": last[NUMBER] if last else None, "tariff": tariff,
                "tenths": office.prior(number, int(time.time()))}

    def quoted(number, query):
        tender = int(query.removeprefix("tender="))
        _, tariff, _, _, (tenths, price, _) = office.offer(number, tender, int(time.time()))
        return {"change": tender - price, "meter": number, "price": price, "tariff": tariff,
                "tender": tender, "tenths": tenths}

    def totals(number):
        sales, tenths, cash = office.totals(number)
        return {"cash": cash, "sales": sales, "shift": number, "tenths": tenths}

    def steps_text(steps):
        return ";".join(f"{'' if ends is None else ends}:{price}" for ends, price in steps)

    def later_of(later):
        return [{"from": str(FIRST_DAY + timedelta(days=day)), "steps": steps_text(steps)}
                for day, steps in later.items()]

    def tariffs_after(name):
        page = office.tariffs_after(name, day_of(int(time.time())))
        return {"tariffs": [{"later": later_of(later), "name": tariff, "steps": steps_text(steps)}
                            for tariff, steps, later in page]}

    def meters_after(number):
        return {"meters": [{"base": base, "meter": meter, "tariff": tariff}
                           for meter, base, tariff in office.meters_after(number)]}

    def shifts_after(number):
        return {"shifts": [{"cash": cash, "closed": closed, "number": shift, "opened": opened,
                            "operator": operator, "sales": sales, "tenths": tenths}
                           for shift, operator, opened, closed, sales, tenths, cash
                           in office.shifts_after(number)]}

    def found_at(target):
        """What a target asks for: the members of its reply, or its text."""
        path, _, query = target.partition("?")
        match path[1:].split("/"):
            case ["tariffs"]:
                return tariffs_after(query.removeprefix("after="))
            case ["meters"]:
                return meters_after(query.removeprefix("after="))
            case ["shifts"]:
                return shifts_after(int(query.removeprefix("after=")))
            case ["sales"]:
                return {"sales": [*map(members, office.sales_after(int(query.removeprefix("after="))))]}
            case ["sales", number]:
                return members(office.sale(int(number)))
            case ["health"]:
                return {"format": 4, "last_moment": office.last_moment, "last_write": "done", "sales": office.sold}
            case ["meters", number]:
                return found_meter(number)
            case ["meters", number, "last"]:
                return receipt(office.last_sale(number))
            case ["meters", number, "quote"]:
                return quoted(number, query)
            case ["operators", operator, "sales", ref]:
                return members(office.sale_of(operator, ref))
            case ["shifts", number, "totals"]:
                return totals(int(number))

    class Handler(BaseHTTPRequestHandler):
        protocol_version = "HTTP/1.1"
        disable_nagle_algorithm = True
        wbufsize = 65536  # one write a reply; it is flushed after each

        def log_message(self, *_):
            pass

        def answer(self, ask):
            try:
                status, body = 200, ask()
            except Refused as refusal:
                status = 422 if refusal.number == 10 else 404 if refusal.number in (4, 12, 13) else 409
                body = {"error": refusal.name, "refusal": refusal.number}
            is_text = isinstance(body, str)
            text = (body if is_text else json.dumps(body, separators=(",", ":"))).encode()
            self.send_response_only(status)
            self.send_header("Content-Type", "text/plain" if is_text else "application/json")
            self.send_header("Content-Length", str(len(text)))
            self.end_headers()
            self.wfile.write(text)

        def do_GET(self):
            self.answer(lambda: found_at(self.path))

        def do_POST(self):
            order = json.loads(self.rfile.read(int(self.headers["Content-Length"])))
            self.answer(lambda: members(office.sell(
                order["operator"], order["ref"], order["meter"], order["tender"], int(time.time()))))

    host, _, port = options["listen"].partition(":")
    with socketserver.TCPServer((host, int(port)), Handler) as server:
        print(f"listening {host}:{server.server_address[1]}", file=sys.stderr, flush=True)
        for _ in range(int(options["connections"])):
            server.handle_request()


COMMANDS = {"serve": serve, "sell": sell, "report": report, "import": add, "show": show, "quote": quote,
            "list": list_meters}


def main():
    options, words = {}, []
    given = iter(sys.argv[2:])
    for word in given:
        if word.startswith("--"):
            options[word[2:]] = next(given)
        else:
            words.append(word)
    office = Office(options["file"])
    try:
        COMMANDS[sys.argv[1]](office, options, words)
    except Refused as refusal:
        sys.exit(str(refusal))
    finally:
        office.close()


main()
