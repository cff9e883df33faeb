#!/usr/bin/env python3
"""Sells once at a desk whose connection breaks, and prints the receipt.

    examples/client.py 127.0.0.1:8080 ann 12345678903 10 A-1

The arguments are the desk, the operator, the meter, the tender in cents, and the ref of the order.
The first connection is closed before its reply is read, so that nobody here knows whether the sale
was made. The same message with the same ref is then sent on a new connection: there is one sale,
and this is its token.

Status 0: sold, and here is the receipt. Status 1: sold, but the receipt did not come; or refused; or still not
known; or the arguments are wrong. Standard error says which.
"""
import http.client
import json
import sys
import time

# Seconds for each wait, while others may be served before this client. All tries together take some 46 s. Another
# client may hold the desk for 60 to 90 (docs/DESK.md): in a shop with several tills take 90.
TIMEOUT = 10
PAUSES = [0.2, 1, 5]  # seconds before the second and each further try
PAGE = 100  # members of a page of a list; a shorter one is the last
# How a desk names what is wrong with a message as it is written. The same message gets the same word again.
WRONG = ("Head", "Method", "Host", "Coding", "Length", "Body", "NoRoute")


class Refused(Exception):
    """The message was refused. If it is a sale, no earlier try of it sold anything either. Any other message may
    have been done by an earlier try, if somebody has changed the tariff or the meter since. Sending it again
    changes nothing before its cause is mended."""


class Unknown(Exception):
    """It may have been done or not. Send the same message later, a sale with the same ref."""


def ask(desk, method, target, body=None):
    """One message on a connection of its own: the status and the body of its reply.

    The connection is closed at once, since the desk serves one after another.
    """
    connection = http.client.HTTPConnection(desk, timeout=TIMEOUT)
    try:
        connection.request(method, target, body)
        reply = connection.getresponse()
        return reply.status, reply.read()
    finally:
        connection.close()


def may_be_done(status):
    """Whether a reply of this status leaves open what was done: a desk has 503 for what may pass, and 501 for
    a method or a coding that it does not know; each other one of 500 and more is of a proxy before it."""
    return status >= 500 and status != 501


def told(text, read):
    """What `read` finds in the body of a good reply. A body in which it finds nothing is of no desk, but
    of a proxy or another server: then nothing is known."""
    try:
        return read(text)
    except (ValueError, LookupError, TypeError) as error:
        raise Unknown(f"200 {text.decode(errors='replace')}") from error


def ask_until_known(desk, method, target, body=None, read=bytes, is_first=True):
    """What `read` finds in the body of the good reply, by up to four tries (PAUSES).

    A message may come twice where the same one again changes nothing: a sale with its ref, all that is
    asked by GET, and, unless somebody has changed it meanwhile, a tariff or its dated steps, a meter, its
    tariff, base date or key, an import, and steps that are taken back.

    Once an earlier try may have been done, which the caller says of those before by `is_first`, only a
    refusal of the office or of the desk settles it: that of a proxy says nothing of the earlier one.
    """
    for pause in [*PAUSES, None]:
        try:
            status, text = ask(desk, method, target, body)
            if status == 200:
                return told(text, read)
            why = f"{status} {text.decode(errors='replace')}"
            if not may_be_done(status) and (is_first or settles(text)):
                raise Refused(why)
            # out of memory, a failed disk, a wrong clock, a proxy that got no reply: it may pass
        except (OSError, http.client.HTTPException) as error:
            why = repr(error)  # no connection, or no whole reply
        is_first = False
        if pause is not None:
            time.sleep(pause)
    raise Unknown(why)


def add_steps(desk, tariff, day, steps):
    """Gives a tariff further steps, such as "500:110;:220", from a later day such as 2099-01-01 on."""
    body = json.dumps({"from": day, "steps": steps})
    ask_until_known(desk, "POST", f"/tariffs/{tariff}/steps", body, member("done"))


def withdraw_steps(desk, tariff, day):
    """Takes back the steps that a tariff was to have from a later day on. Whether there were any: False
    also after a first message whose reply was lost."""
    target = f"/tariffs/{tariff}/steps/{day}"
    return ask_until_known(desk, "DELETE", target, read=member("withdrawn")) == 1


def set_key(desk, meter, key):
    """Gives a meter to which nothing was sold another key, of sixteen hexadecimal digits in small letters."""
    ask_until_known(desk, "POST", f"/meters/{meter}/key", json.dumps({"key": key}), member("done"))


def move_base(desk, meter, year):
    """Has a meter's next identifiers count from a later base date: 2014 or 2035."""
    ask_until_known(desk, "POST", f"/meters/{meter}/base", json.dumps({"base": year}), member("done"))


def quote(desk, meter, tender):
    """What a tender would buy for a meter now: `tenths`, `price`, `change`, `tariff`. Nothing is sold."""
    return ask_until_known(desk, "GET", f"/meters/{meter}/quote?tender={tender}", read=json.loads)


def member(name):
    """Reads the member of this name."""
    return lambda text: json.loads(text)[name]


def sale_in(text):
    """Reads a sale, by the members that are used here."""
    sale = json.loads(text)
    sale["number"], sale["token"]
    return sale


def receipt_in(text):
    """Reads a receipt: its first line is SALE and the number."""
    if not text.startswith(b"SALE "):
        raise ValueError("no receipt")
    return text.decode()


def found_in(text, name):
    """The member of this name, or None: a body that a proxy sends need not be JSON."""
    try:
        return json.loads(text)[name]
    except (ValueError, LookupError, TypeError):
        return None


def settles(text):
    """Whether it is the refusal of an office, {"error":"TooLittle","refusal":10}, or of a desk, {"error":"Body"}."""
    return found_in(text, "refusal") or found_in(text, "error") in WRONG


def sale_of(desk, operator, ref):
    """The sale under a ref, or None. None does not settle an order whose message may still be on its way:
    send it again."""
    status, text = ask(desk, "GET", f"/operators/{operator}/sales/{ref}")
    if status == 200:
        return told(text, sale_in)
    if status == 404 and found_in(text, "error") == "NoSale":
        return None
    raise (Unknown if may_be_done(status) else Refused)(f"{status} {text.decode(errors='replace')}")


def listed(desk, kind, key, after):
    """The members of a list in order, each page asked for after the last member of the one before."""
    while True:
        page = ask_until_known(desk, "GET", f"/{kind}?after={after}", read=member(kind))
        yield from page
        if len(page) < PAGE:
            return
        after = page[-1][key]


def tariffs(desk, after=""):
    """The tariffs after a name, or all: `name`, `steps` of today, and `later` ones with their `from`."""
    return listed(desk, "tariffs", "name", after)


def meters(desk, after=""):
    """The meters after a number, or all: `meter`, `base`, `tariff`."""
    return listed(desk, "meters", "meter", after)


def shifts(desk, after=0):
    """The shifts after a number: `number`, `operator`, `opened`, `closed` or None, and its totals."""
    return listed(desk, "shifts", "number", after)


def sales(desk, after=0):
    """The sales after a number. Keep the last number that you have: after it come those made since."""
    return listed(desk, "sales", "number", after)


def lose_the_reply(desk, method, target, body):
    """Sends a message, and closes the connection before the reply is read."""
    connection = http.client.HTTPConnection(desk, timeout=TIMEOUT)
    try:
        connection.request(method, target, body)
    finally:
        connection.close()


def main(desk, operator, meter, tender, ref):
    order = {"operator": operator, "ref": ref, "meter": meter, "tender": int(tender)}
    message = ("POST", "/sales", json.dumps(order))
    try:
        lose_the_reply(desk, *message)
        sale = ask_until_known(desk, *message, read=sale_in, is_first=False)
    except (http.client.InvalidURL, UnicodeError):
        sys.exit(f"no desk is named so: {desk}")
    except Refused as refusal:
        sys.exit(f"refused: {refusal}")
    except (OSError, Unknown) as error:
        sys.exit(f"not known, ask again for {ref}: {error}")
    try:
        again = ask_until_known(desk, *message, read=sale_in)
        if again["token"] != sale["token"]:
            raise Unknown(f"two tokens for {ref}")
        receipt = ask_until_known(desk, "GET", f"/sales/{sale['number']}/receipt", read=receipt_in)
    except (Refused, Unknown) as error:
        sys.exit(f"sold as {sale['number']}, with the token {sale['token']}; its receipt did not come: {error}")
    sys.stdout.write(receipt)


if __name__ == "__main__":
    if len(sys.argv) != 6 or not sys.argv[4].isdecimal():
        sys.exit(__doc__)
    main(*sys.argv[1:])
