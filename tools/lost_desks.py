"""Desks that are killed, frozen, slow or silent while a command asks them, and replies that are lost: the same command
again leads to one sale and its first receipt. A part of tools/check_at_desk. It is no script of its own."""
import contextlib
import random
import socket
import subprocess
import threading
import time

from bad_desks import NET, SALE, SELL, Pretender, meters_page
from clocked_desk import Ran, frozen, run
from desk_client import Desk, all_of, message, order, reply, talk
from lookups import in_json
from program import METER, RECEIPT, VEND, WAIT, at_terminal, prepare, rows_in
from servers import message_from
from shared import same, wrong

KILLED = 60  # desks
CAUGHT = 8  # desks that are frozen while they sell
CONNECTING, WHOLE = 10, 120  # seconds of a command: for the connection, and for all that it does at a desk
QUIET = 2  # seconds of a wait of which nothing is said at a terminal
WAITING = b"waiting for the desk\n"
EARLY, LATE = 0.5, 6  # seconds before and after these between which a command has said so
MIB = 2**20


def sell(ref, tender="10"):
    return ["sell", "--operator", "ann", "--ref", ref, "--meter", METER, "--tender", tender]


def begun(address, words):
    """A command that asks the desk at an address."""
    return subprocess.Popen([VEND, words[0], "--desk", address, *words[1:]], stdin=subprocess.DEVNULL,
                            stdout=subprocess.PIPE, stderr=subprocess.PIPE)


def ended(process):
    out, err = process.communicate(timeout=WHOLE + WAIT)
    return Ran(process.returncode, out, err)


def asked(desk, words):
    return run([words[0], "--desk", f"127.0.0.1:{desk.port}", *words[1:]])


def is_receipt_or_none(ran, where):
    """A command at a desk that was lost prints a whole receipt, or that no reply came."""
    if ran != NET and (ran.status or ran.err or not ran.out.startswith(b"SALE ")):
        wrong(f"{where}: {ran}")
    return ran == NET


def is_first(ran, again, where):
    """The same words again print a receipt: that which was printed, if one was."""
    if again.status or again.err or not again.out.startswith(b"SALE ") or ran not in (NET, again):
        wrong(f"{where}: {ran}, and then {again}")


def sold_once(file, refs, where):
    """Each of these refs has one sale in the file, and there are no others."""
    rows = rows_in(file, "SELECT count(*), count(DISTINCT ref), count(DISTINCT tid) FROM sales;")
    same(rows, [(len(refs),) * 3], where)
    same({ref for ref, in rows_in(file, "SELECT ref FROM sales;")}, set(refs), where)


def check_kills(folder):
    """Desks that are killed at any moment while a command sells."""
    file = folder / "kills.db"
    prepare(file, None)
    draw = random.Random(1)
    with Desk(file, 9) as desk:
        since = time.monotonic()
        same(asked(desk, sell("first")).status, 0, "a sale")
        whole = time.monotonic() - since
    refs, lost, after = ["first"], 0, 0
    for number in range(KILLED):
        ref = f"K-{number}"
        refs.append(ref)
        with Desk(file, 9) as desk:
            command = begun(f"127.0.0.1:{desk.port}", sell(ref))
            time.sleep(draw.uniform(0, whole * 1.2))
            desk.process.kill()
            ran = ended(command)
        lost += is_receipt_or_none(ran, "a desk that is killed")
        with Desk(file, 9) as desk:
            before = [number for number, in rows_in(file, f"SELECT number FROM sales WHERE ref = '{ref}';")]
            after += bool(before) and ran == NET
            is_first(ran, asked(desk, sell(ref)), "a desk that is started again")
            same(asked(desk, sell(ref, "20")), Ran(1, b"", b"refused 1 RefReused\n"), "another order under its ref")
    sold_once(file, refs, "the sales of desks that were killed")
    if not lost:
        wrong("no desk was killed while it sold")
    print(f"kills: of {KILLED} desks {lost} were killed before the command had a reply, {after} of them behind the sale; "
          "the same command again prints its receipt, and each ref has one sale")


def passes_on(desk, ways):
    """A program between a command and its desk that does with each reply what the next of these ways does, if any."""
    def answer(_, client):
        text = message_from(client)
        with socket.create_connection(("127.0.0.1", desk.port), timeout=WAIT) as other:
            other.sendall(text)
            other.shutdown(socket.SHUT_WR)
            whole = all_of(other)
        client.sendall(ways.pop(0)(whole) if ways else whole)
    return answer


def check_lost(folder):
    """A reply that is cut at each of its bytes, or that another one replaces: the same command again prints the receipt."""
    file = folder / "lost.db"
    prepare(file, None)
    with Desk(file, 1000000) as desk:
        size = len(talk(desk, message("POST", "/sales", order("R-1"))))
        all_ways = [lambda text, cut=cut: text[:cut] for cut in range(size)]
        all_ways += [lambda text: text.replace(b'"change":0', b'"change":1'), lambda text: b"\0" + text,
                     lambda text: text.replace(b"200 OK", b"409 Conflict"), lambda text: text.replace(b"OK", b"KO")]
        refs = ["R-1", *(f"R-{number}" for number in range(2, len(all_ways) + 2))]
        for number, (ref, way) in enumerate(zip(refs[1:], all_ways), 2):
            with Pretender(passes_on(desk, [way])) as between:
                words = ["sell", "--desk", between.address, *sell(ref)[1:]]
                same(run(words), NET, f"a reply that is lost: {ref}")
                again = run(words)
            is_first(NET, again, ref)
            same(again.out.split()[1], b"%d" % number, "the number of a sale whose reply was lost")
    sold_once(file, refs, "the sales whose replies were lost")
    print(f"lost replies: {len(all_ways)}, cut at each byte or spoilt: the same command again prints the receipt of its one "
          "sale")


class Side:
    """What runs beside the others, in a thread; what is wrong there is told in the end."""

    def __init__(self, work, *words):
        self.work, self.words, self.failed, self.found = work, words, None, None
        self.thread = threading.Thread(target=self.run, daemon=True)
        self.thread.start()

    def run(self):
        try:
            self.found = self.work(*self.words)
        except BaseException as failed:
            self.failed = failed

    def end(self):
        self.thread.join(2 * WHOLE + WAIT)
        if self.failed or self.thread.is_alive():
            raise self.failed or SystemExit("wrong: what waits for a desk has not ended")
        return self.found


def is_given_up(address, words, out=b"", most=WHOLE):
    """A command gives a desk up once its time is over, however much of it came."""
    since = time.monotonic()
    same(ended(begun(address, words)), Ran(1, out, b"net\n"), f"a desk that is silent: {words}")
    waited = time.monotonic() - since
    if not most - EARLY <= waited < most + LATE:
        wrong(f"a command that asks a silent desk has waited {waited} seconds: {words}")


def frozen_desk(folder):
    """A desk that is stopped for longer than a command waits: what it was asked it does once it goes on."""
    file, csv = folder / "frozen.db", folder / "long.csv"
    prepare(file, None)
    csv.write_text("name,steps\n" + "flat,:100\n" * ((MIB - 11) // 10))
    asks = [sell("F-1"), sell("F-2"), ["quote", "--meter", METER, "10"], ["show", "meter", "--meter", METER],
            ["report", "--kind", "shift"], ["import", "tariffs", str(csv)], ["shift", "--operator", "bob", "open"],
            ["base", "--meter", METER, "--base", "2014"], ["tariff", "--meter", METER, "--tariff", "flat"]]
    with Desk(file, 1000) as desk:
        with frozen(desk.process):
            address = f"127.0.0.1:{desk.port}"
            for it in [Side(is_given_up, address, words) for words in asks]:
                it.end()
        for ref in ("F-1", "F-2"):
            is_first(NET, asked(desk, sell(ref)), "a desk that goes on")
        same(asked(desk, asks[6]), Ran(1, b"", b"refused 3 ShiftOpen\n"), "a shift that a desk opened after all")
    sold_once(file, ["F-1", "F-2"], "the sales of a frozen desk")


def caught_desk(folder, place):
    """A desk that is stopped at any moment while a command sells, for longer than the command waits."""
    file, ref = folder / f"caught-{place}.db", f"C-{place}"
    prepare(file, None)
    with Desk(file, 1000) as desk:
        command = begun(f"127.0.0.1:{desk.port}", sell(ref))
        time.sleep(random.Random(place).uniform(0, 0.006))
        with frozen(desk.process):
            ran = ended(command)
        lost = is_receipt_or_none(ran, "a desk that is caught")
        is_first(ran, asked(desk, sell(ref)), "a desk that was caught and goes on")
    sold_once(file, [ref], "the sale of a desk that was caught")
    return lost


def full_queue():
    """Nobody takes the connection: the queue of those that wait is full."""
    with socket.create_server(("127.0.0.1", 0), backlog=0) as server, contextlib.ExitStack() as stack:
        at = server.getsockname()
        for _ in range(8):
            client = stack.enter_context(socket.socket())
            client.setblocking(False)
            client.connect_ex(at)
        time.sleep(0.2)
        is_given_up(f"127.0.0.1:{at[1]}", sell("Q-1"), most=CONNECTING)


def silent(text):
    """A program that sends so much, and then nothing for long."""
    def answer(_, client):
        message_from(client)
        client.sendall(text)
        time.sleep(2 * WHOLE)
    return answer


def given_up_behind(text, words, out=b""):
    with Pretender(silent(text)) as it:
        is_given_up(it.address, words, out)


def reads_nothing(folder):
    """A program that takes nothing of a long message, and nothing of a short one."""
    csv = folder / "unread.csv"
    csv.write_text("name,steps\n" + "flat,:100\n" * ((MIB - 11) // 10))
    with socket.socket() as server:
        server.setsockopt(socket.SOL_SOCKET, socket.SO_RCVBUF, 4096)
        server.bind(("127.0.0.1", 0))
        server.listen(8)
        address = f"127.0.0.1:{server.getsockname()[1]}"
        for it in [Side(is_given_up, address, words) for words in (["import", "tariffs", str(csv)], sell("N-1"))]:
            it.end()


def slow(pieces, pause):
    """A program that sends pieces, each a while after the one before."""
    def answer(_, client):
        client.setsockopt(socket.IPPROTO_TCP, socket.TCP_NODELAY, 1)
        message_from(client)
        for piece in pieces:
            time.sleep(pause)
            client.sendall(piece)
    return answer


def taken_slowly(pieces, pause, words, out):
    """However slowly a reply comes, it is a reply, as long as it is whole in time."""
    with Pretender(slow(pieces, pause)) as it:
        since = time.monotonic()
        same(ended(begun(it.address, words)), Ran(0, out, b""), f"a slow desk: {words}")
        if time.monotonic() - since < pause * len(pieces) - 0.1:
            wrong(f"a slow desk was quick: {words}")


def never_whole(pieces, pause, words, out):
    """A reply, or a list of them, that never ends is given up, though some of it always comes."""
    with Pretender(slow(pieces, pause)) as it:
        is_given_up(it.address, words, out)


def pages_late(pages, pause, out):
    """The pages of a list have one time together."""
    def answer(_, client):
        for page in pages:
            message_from(client)
            time.sleep(pause)
            client.sendall(page)
    with Pretender(answer) as it:
        is_given_up(it.address, ["list", "meters"], out)


def is_told(pieces, pause, status, out, told):
    """At a terminal a command says once that it waits, and elsewhere nothing."""
    with Pretender(slow(pieces, pause)) as it:
        words = [SELL[0], "--desk", it.address, *SELL[1:]]
        found = at_terminal(words, WHOLE + WAIT)
        same((found[0], found[1], found[2][:len(told) or None]), (status, out, told), f"told after {pause} seconds each")
        same(found[2].count(WAITING), told.count(WAITING), "how often it is told")


def begin_waits(folder):
    """Desks that are frozen, silent or slow, side by side and beside what comes next."""
    sale, paper = reply(200, in_json(SALE)), reply(200, RECEIPT, "text/plain")
    pages, lines = zip(*(meters_page(100 * number) for number in range(3)))
    listed, receipt = ["list", "meters"], ["report", "--kind", "receipt"]
    head = b"meter\tbase\ttariff\n"
    third = len(sale) // 3
    thirds = [sale[:third], sale[third:-1], sale[-1:]]
    sides = [
        Side(frozen_desk, folder), Side(full_queue), Side(reads_nothing, folder),
        *(Side(given_up_behind, sale[:cut], SELL) for cut in (0, 1, 40, len(sale) - 1)),
        Side(given_up_behind, paper[:-1], receipt), Side(given_up_behind, paper[:-1], ["show", "last", "--meter", METER]),
        Side(given_up_behind, pages[0], listed, head + lines[0]),
        Side(given_up_behind, pages[0] + pages[0][:99], listed, head + lines[0]), Side(given_up_behind, b"", listed),
        Side(pages_late, pages, 0.45 * WHOLE, head + lines[0] + lines[1]),
        Side(never_whole, [bytes([it]) for it in sale[:60]], WHOLE / 50, SELL, b""),
        Side(taken_slowly, thirds, 0.3 * WHOLE, SELL, RECEIPT),
        Side(taken_slowly, [bytes([it]) for it in sale], 0.03, SELL, RECEIPT),
        Side(is_told, [sale], QUIET / 2, 0, RECEIPT, b""), Side(is_told, thirds, 2 * QUIET, 0, RECEIPT, WAITING),
        Side(is_told, [b""], 2 * WHOLE, 1, b"", WAITING + b"net\n")]
    return sides, [Side(caught_desk, folder, place) for place in range(CAUGHT)]


def end_waits(sides, caught):
    """What is wrong at the desks that were frozen, silent or slow."""
    for it in sides:
        it.end()
    lost = sum(it.end() for it in caught)
    print(f"frozen desks: each command gives up after {WHOLE} seconds, and again prints the receipt of its one sale, at "
          f"{CAUGHT} desks too that were frozen while they sold, {lost} of them before a reply; {len(sides) - 3} silent or "
          "slow ones, a queue that is full, and one that reads nothing; a terminal is told of a wait")


def check_lost_desks(folder):
    check_kills(folder)
    check_lost(folder)
