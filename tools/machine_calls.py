"""What the program asks of the system: which files it opens and how often, that it removes and renames none,
when it has to do with sockets and at which addresses, when it pauses, how often it syncs, and which salt it
gives the log of a file: a part of tools/check_program. It is no script of its own. tools/watch_calls.c
watches; cc builds it."""
import fcntl
import http.client
import os
import socket
import subprocess
import time
from collections import Counter
from pathlib import Path

from desk_client import Desk, order
from file_names import program
from program import AT, KEY, METER, TOP, WAIT, expect, no_growth, prepare, sell_words

DRAWN = bytes(range(16))
# The toolchain draws a key of its own first, when it opens a file.
FIRST_SALT = 1
# How often the toolchain makes a salt of the number that it was given, at the most: when it opens a
# file, when it copies a log into the database, and when it closes the file.
SALTS = 8
IN_64_BITS = 2**64 - 1
HAS = ["socket", "bind 127.0.0.1:0", "listen"]
# The port is the one that the system chose.
SELFCHECK = HAS + ["socket", "connect 127.0.0.1", "accept"]
# How often the toolchain opens each file of an office, and their folder, by their names.
OPENS, OPENS_FOLDER = 2, 1
TOKEN = "00072057602627981690"
# More than the pieces after which the desk pauses for a client that sends little at a time.
MANY = 600
APART = 0.0005  # seconds between two bytes
SYNCED = 6  # sales of which the syncs are counted
# How often a command that waits for its file pauses, in a second that it may wait.
PAUSES = 100
# The bytes of a database file that SQLite locks: where they begin, and how many.
LOCKED = (1 << 30, 512)


class Watcher:
    """Runs of the program that is watched, in a folder."""

    def __init__(self, folder):
        self.folder, self.told = folder, folder / "told"
        self.library = folder / "watch_calls.so"
        subprocess.run(["cc", "-Wall", "-Wextra", "-Werror", "-O2", "-shared", "-fPIC", "-o",
                        self.library, TOP / "tools" / "watch_calls.c", "-ldl"], check=True)

    def options(self):
        self.told.write_bytes(b"")
        return {"cwd": self.folder, "stdin": subprocess.DEVNULL,
                "env": {**os.environ, "LC_ALL": "C", "LD_PRELOAD": str(self.library),
                        "CALLS_TOLD": str(self.told), "CALLS_DRAWN": DRAWN.hex()}}

    def run(self, words):
        return subprocess.run([program(), *words], capture_output=True, timeout=WAIT, **self.options())

    def calls(self):
        """How often the last run opened each file, how often it drew random bytes, and what else it did:
        with sockets, and its pauses, and whatever it removed or renamed, among that."""
        lines = self.told.read_text().splitlines()
        opened = Counter(os.path.realpath(self.folder / line.removeprefix("open ")) for line in lines
                         if line.startswith("open "))
        others = [line for line in lines if line != "sync" and not line.startswith("open ")]
        return opened, others.count("draw"), [line for line in others if line != "draw"]


    def syncs(self):
        """How often it has synced a file by now."""
        return self.told.read_text().splitlines().count("sync")


def files_of(file):
    """What is opened of an office, once: its two files, and their folder."""
    opened = {file: OPENS, f"{file}-wal": OPENS, file.parent: OPENS_FOLDER}
    return Counter({os.path.realpath(it): count for it, count in opened.items()})


def one_file(path):
    """What is opened of a file that is read once."""
    return Counter([os.path.realpath(path)])


def without_port(call):
    """The call without the port at which a connection was made."""
    return call.rpartition(":")[0] if call.startswith("connect ") else call


def sip_hash(low, high, data):
    """SipHash-1-3 of some bytes, under a key of two halves."""
    def turned(number, places):
        return (number << places | number >> 64 - places) & IN_64_BITS

    def mix(a, b, c, d):
        a = a + b & IN_64_BITS
        b, a = turned(b, 13) ^ a, turned(a, 32)
        c = c + d & IN_64_BITS
        d = turned(d, 16) ^ c
        a = a + d & IN_64_BITS
        d = turned(d, 21) ^ a
        c = c + b & IN_64_BITS
        return a, turned(b, 17) ^ c, turned(c, 32), d

    a, b = low ^ 0x736F6D6570736575, high ^ 0x646F72616E646F6D
    c, d = low ^ 0x6C7967656E657261, high ^ 0x7465646279746573
    data = data + bytes(-(len(data) + 1) % 8) + bytes([len(data) % 256])
    for place in range(0, len(data), 8):
        word = int.from_bytes(data[place:place + 8], "little")
        a, b, c, d = mix(a, b, c, d ^ word)
        a ^= word
    c ^= 0xFF
    for _ in range(3):
        a, b, c, d = mix(a, b, c, d)
    return a ^ b ^ c ^ d


def salts_of(draw):
    """The second halves of the salts that the toolchain makes, one after another, where the program
    gives it the number of this draw: the hash of a byte under the key that was drawn."""
    drawn = bytes([DRAWN[0] + draw]) + DRAWN[1:]
    given = sip_hash(*(int.from_bytes(drawn[at:at + 8], "little") for at in (0, 8)), b"\0")
    seed = max(1, sip_hash(0, 0, given.to_bytes(8, "little") + b"salt"))
    for _ in range(SALTS):
        seed = seed * 0x5851F42D4C957F2D + 0x14057B7EF767814F & IN_64_BITS
        yield seed.to_bytes(8, "little")[4:]


def salt_in(file):
    """The second half of the salt that the head of a file's log has. The first counts."""
    return Path(f"{file}-wal").read_bytes()[20:24]


def expect_salt(file, draw, what):
    if salt_in(file) not in list(salts_of(draw)):
        raise SystemExit(f"wrong: {what} gave its log the salt {salt_in(file).hex()}, which is not of the "
                         f"number that was drawn: {[it.hex() for it in salts_of(draw)]}")


def check_salts(folder, watcher):
    """The log of a file has the salt of the number that was drawn for it, with each command and each time
    that it is opened again; where nothing is put in place of what is drawn it is another each time."""
    file = folder / "salts.db"
    shift = ["shift", "--file", str(file), "--operator", "ann", "--at", AT]
    for state in ("open", "close", "open"):
        expect(watcher.run([*shift, state]), 0, err=b"")
        expect_salt(file, FIRST_SALT, f"shift {state}")
    expect(watcher.run(["report", "--file", str(file), "--kind", "sales"]), 0, err=b"")
    expect_salt(file, FIRST_SALT, "a report")
    found = set()
    for _ in range(8):
        expect(subprocess.run([program(), *shift, "open"], capture_output=True), 1, b"",
               b"refused 3 ShiftOpen\n")
        found.add(salt_in(file))
    if len(found) != 8:
        raise SystemExit(f"wrong: of eight commands some gave the log the same salt: {found}")


def check_calls(folder, watcher):
    """A command opens its own file, once, and `import` its file of rows, once, and nothing else; what needs
    no office opens none. None removes or renames a file. Only `serve` listens, at the address that it is
    given, only `selfcheck` connects too, and each takes the connections that it was asked for."""
    file = folder / "calls.db"
    office, rows, nothing = files_of(file), str(TOP / "examples" / "tariffs.csv"), Counter()
    prepare(file)
    given = ["--file", str(file), "--at", AT]
    for words, status, opened, sockets in (
            (sell_words(file, "A-1"), 0, office, []),
            (sell_words(file, "A-1", "20"), 1, office, []),
            (["shift", *given, "--operator", "bob", "open"], 0, office, []),
            (["tariff", *given, "--meter", METER, "--tariff", "flat"], 0, office, []),
            (["base", *given, "--meter", METER, "--base", "2014"], 0, office, []),
            (["report", "--file", str(file), "--kind", "sales"], 0, office, []),
            (["audit", "--file", str(file)], 0, office, []),
            (["show", *given, "meter", "--meter", METER], 0, office, []),
            (["show", *given, "sale", "--operator", "ann", "--ref", "A-1"], 0, office, []),
            (["quote", *given, "--meter", METER, "10"], 0, office, []),
            (["quote", *given, "--meter", METER, "9"], 1, office, []),
            *((["list", *given, kind], 0, office, []) for kind in ("tariffs", "meters", "shifts", "sales")),
            (["import", *given, "tariffs", rows], 0, office + one_file(rows), []),
            (["import", *given, "meters", rows], 1, one_file(rows), []),
            (["import", *given, "tariffs", "none.csv"], 1, one_file(watcher.folder / "none.csv"), []),
            (["trial", "--key", KEY, "--base", "2014", "--at", AT, "1"], 0, nothing, []),
            (["meter", "--key", KEY, TOKEN], 0, nothing, []),
            (["quote", ":100", "0", "10"], 0, nothing, []),
            (["quote", ":0", "0", "10"], 2, nothing, []),
            (["sell", *given], 2, nothing, []), (["--help"], 0, nothing, []), ([], 2, nothing, []),
            (["selfcheck"], 0, nothing, SELFCHECK)):
        ran = watcher.run(words)
        expect(ran, status)
        opens, drawn, others = watcher.calls()
        found = opens, drawn, [without_port(call) for call in others]
        if found != (opened, FIRST_SALT + 1 if opened & office else 0, sockets):
            raise SystemExit(f"wrong: {words} asked of the system {found}\nexpected {opened}, {sockets}")
    check_asking(file, watcher, rows)
    with Served(watcher, file, 3) as served:
        for _ in range(3):
            served.ask("GET", "/sales/1")
        served.finish()
    found = watcher.calls()
    if found != (office, FIRST_SALT + 1, HAS + ["accept"] * 3):
        raise SystemExit(f"wrong: serve asked of the system {found}")
    address = f"127.0.0.1:{free_port()}"
    with Served(watcher, file, 1, listen=address) as served:
        served.ask("GET", "/sales/1")
        served.finish()
    if watcher.calls()[2] != ["socket", f"bind {address}", "listen", "accept"]:
        raise SystemExit(f"wrong: serve at {address} asked of the system {watcher.calls()[2]}")


def check_asking(file, watcher, rows):
    """A command that asks a desk has one connection, and opens no file but `import` its file of rows."""
    commands = (
        ("sell", "--operator", "ann", "--ref", "D-1", "--meter", METER, "--tender", "10"),
        ("shift", "--operator", "cat", "open"), ("base", "--meter", METER, "--base", "2014"),
        ("tariff", "--meter", METER, "--tariff", "flat"),
        ("report", "--kind", "sales"), ("report", "--kind", "shift"), ("show", "last", "--meter", METER),
        ("quote", "--meter", METER, "10"), ("list", "meters"), ("import", "tariffs", rows))
    with Desk(file, len(commands)) as desk:
        for name, *words in commands:
            expect(watcher.run([name, "--desk", f"127.0.0.1:{desk.port}", *words]), 0, err=b"")
            found = watcher.calls()
            opened = one_file(rows) if rows in words else Counter()
            if found != (opened, 0, ["socket", f"connect 127.0.0.1:{desk.port}"]):
                raise SystemExit(f"wrong: {name} --desk asked of the system {found}")
        desk.used = len(commands)
        desk.finish()
    expect(watcher.run(["import", "--desk", "127.0.0.1:1", "tariffs", "none.csv"]), 1, b"", b"file\n")
    if watcher.calls() != (one_file(watcher.folder / "none.csv"), 0, []):
        raise SystemExit(f"wrong: without rows a command asked of the system {watcher.calls()}")


def check_pauses(folder, watcher):
    """`serve` pauses for a client that sends single bytes, and for none that sends whole messages,
    however many."""
    file = folder / "pauses.db"
    prepare(file)
    with Served(watcher, file, 1) as served:
        client = served.client()
        for _ in range(MANY):
            asked(client, "GET", "/sales/1")
        client.close()
        served.finish()
    found = watcher.calls()[2]
    if found != HAS + ["accept"]:
        raise SystemExit(f"wrong: for whole messages serve asked of the system {found}")
    with Served(watcher, file, 1) as served:
        client = served.client()
        client.connect()
        for byte in f"GET /sales/1 HTTP/1.1\r\nHost: d\r\nX: {'x' * MANY}\r\n\r\n".encode():
            client.sock.send(bytes([byte]))
            time.sleep(APART)
        reply = client.sock.recv(4096)
        client.close()
        served.finish()
    if not reply.startswith(b"HTTP/1.1 404 ") or "sleep" not in watcher.calls()[2]:
        raise SystemExit(f"wrong: to single bytes serve answered {reply}, or it did not pause")


def check_waits(folder, watcher):
    """While another program has the file, a command pauses as often as it may, and then fails. It opens
    nothing else, and with no time to wait it does not pause."""
    file = folder / "waits.db"
    prepare(file)
    rows, given = str(TOP / "examples" / "tariffs.csv"), ["--file", str(file)]
    commands = (
        ["import", *given, "--at", AT, "tariffs", rows], sell_words(file, "A-1"),
        ["shift", *given, "--operator", "bob", "open"], ["audit", *given],
        ["base", *given, "--meter", METER, "--base", "2014"], ["tariff", *given, "--meter", METER, "--tariff", "flat"],
        *(["report", *given, "--kind", kind] for kind in ("shift", "receipt", "totals", "sales")),
        ["show", *given, "last", "--meter", METER], ["quote", *given, "--meter", METER, "10"],
        ["list", *given, "meters"], ["list", *given, "sales"],
        ["serve", *given, "--listen", "127.0.0.1:0", "--connections", "1"])
    with open(file, "r+b") as held:
        fcntl.lockf(held, fcntl.LOCK_EX | fcntl.LOCK_NB, LOCKED[1], LOCKED[0])
        for words in commands:
            for wait in (0, 1):
                expect(watcher.run([*words, "--wait", str(wait)]), 1, b"", b"open 3 Store\n")
                found = watcher.calls()
                opened = Counter({os.path.realpath(file): OPENS * (PAUSES * wait + 1)})
                opened.update(one_file(rows) if rows in words else ())
                if found != (opened, 0, ["sleep"] * PAUSES * wait):
                    raise SystemExit(f"wrong: {words} --wait {wait} asked of the system {found}")
        expect(watcher.run(commands[1]), 1, b"", b"open 3 Store\n")
        if watcher.calls()[2] != ["sleep"] * PAUSES * 5:
            raise SystemExit("wrong: a command that is not told how long to wait waits for five seconds")
        # What else is wrong with a file is told at once.
        expect(watcher.run(["report", "--file", str(folder), "--kind", "sales"]), 1, b"", b"open 3 Store\n")
        for words in (["report", "--file", "none.db", "--kind", "sales"],
                      ["show", "--file", "none.db", "last", "--meter", METER],
                      ["list", "--file", "none.db", "tariffs"],
                      ["quote", "--file", "none.db", "--meter", METER, "10"]):
            expect(watcher.run(words), 1, b"", b"file\n")
            if watcher.calls() != (Counter(), 0, []):
                raise SystemExit(f"wrong: for a file that is not there {words} asked {watcher.calls()}")


def free_port():
    """A port of this machine that no program has."""
    with socket.socket() as listener:
        listener.bind(("127.0.0.1", 0))
        return listener.getsockname()[1]


class Served(Desk):
    """`serve` for so many connections, watched."""

    def __init__(self, watcher, file, connections, **options):
        super().__init__(file, connections, program=program(), **watcher.options(), **options)

    def client(self):
        """A connection of http.client."""
        self.used += 1
        return http.client.HTTPConnection("127.0.0.1", self.port, timeout=WAIT)

    def ask(self, method, target, body=None):
        """The status and the text of the reply, on a connection of its own."""
        client = self.client()
        found = asked(client, method, target, body)
        client.close()
        return found


def asked(client, method, target, body=None):
    client.request(method, target, body)
    reply = client.getresponse()
    return reply.status, reply.read()


def check_opened_again(folder, watcher):
    """The office in a file that cannot grow is opened again for the next connection, with a salt that is drawn
    anew. That opens no file by its name: it is the one that `serve` has."""
    file = folder / "again.db"
    prepare(file)
    with Served(watcher, file, 2, preexec_fn=no_growth(file, 400000)) as served:
        client = served.client()
        for number in range(1000):
            status, text = asked(client, "POST", "/sales", order(f"S-{number}"))
            if status != 200:
                break
        if status != 503 or b'"refusal":16' not in text:
            raise SystemExit(f"wrong: a file that cannot grow: {status} {text}")
        client.close()
        if served.ask("GET", "/sales/1")[0] != 200:
            raise SystemExit("wrong: a file that was opened again")
        served.finish(said=b"stopped 16 Store\n")
    found = watcher.calls()
    if found != (files_of(file), FIRST_SALT + 2, HAS + ["accept"] * 2):
        raise SystemExit(f"wrong: a file that was opened again: {found}")
    expect_salt(file, FIRST_SALT + 1, "a file that was opened again")


def check_syncs(folder, watcher):
    """Each sale at a desk is synced twice before its reply, or once where this is asked for, after the first
    one, which begins a log; a reprint is not."""
    for way, each in (("", 2), ("twice", 2), ("full", 1)):
        file = folder / f"syncs{way}.db"
        prepare(file)
        with Served(watcher, file, 1, more=["--sync", way] if way else []) as served:
            client = served.client()
            asked(client, "POST", "/sales", order("S-0"))
            for number in range(1, SYNCED):
                before = watcher.syncs()
                sold = asked(client, "POST", "/sales", order(f"S-{number}"))[0]
                between = watcher.syncs()
                printed = asked(client, "GET", f"/sales/{number}")[0]
                found = sold, between - before, printed, watcher.syncs() - between
                if found != (200, each, 200, 0):
                    raise SystemExit(f"wrong: a sale and a reprint at a desk, each with its syncs: {found}")
            client.close()
            served.finish()


def check_machine_calls(folder):
    """Files, sockets, pauses, salts and syncs."""
    folder = folder / "machine"
    folder.mkdir()
    watcher = Watcher(folder)
    check_salts(folder, watcher)
    check_calls(folder, watcher)
    check_pauses(folder, watcher)
    check_waits(folder, watcher)
    check_opened_again(folder, watcher)
    check_syncs(folder, watcher)
    print("calls of the system: no file, socket, address or salt but those of the words, each file opened "
          "once and none removed or renamed, a pause for single bytes, and for a file that is in use, alone, "
          "and two syncs of each sale at a desk, or the one that was asked for")
