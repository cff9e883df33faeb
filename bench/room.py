"""A folder in which a measurement works: its files, the commands and servers that it starts, and
what it has found."""
import contextlib
import json
import shutil
import signal
import subprocess
import tempfile
import time
from pathlib import Path

from client import Client, reprint
from servers import Server, memory_of
from tables import how_busy, machine, put_into, put_parts

CHANGING = "moment", "tid", "token"  # of a sale, from one moment to the next


class Room:
    """Where a measurement of a program works, and what it prints."""

    def __init__(self, program, folder, rounds):
        self.program = [str(Path(program).resolve())]
        self.folder = folder
        self.rounds = rounds
        self.made = 0
        self.refs = 0
        self.parts = []

    def say(self, *texts):
        """Prints a part of the answer, and keeps it for the page."""
        self.parts.append("\n".join(texts))
        print(self.parts[-1], flush=True)

    def new_path(self, end):
        self.made += 1
        return self.folder / f"{self.made}{end}"

    def copy(self, office):
        """A copy of an office, with its log."""
        path = self.new_path(".db")
        for end in ("", "-wal"):
            if Path(f"{office}{end}").exists():
                shutil.copy(f"{office}{end}", f"{path}{end}")
        return path

    def remove(self, office):
        for end in ("", "-wal", "-shm"):
            Path(f"{office}{end}").unlink(missing_ok=True)

    def command(self, side, *words, out=subprocess.PIPE):
        """Runs a command of a side; the seconds that it took, and what it printed."""
        begun = time.perf_counter()
        ran = subprocess.run([*side, *map(str, words)], stdout=out, stderr=subprocess.PIPE,
                             stdin=subprocess.DEVNULL, timeout=300)
        taken = time.perf_counter() - begun
        if ran.returncode != 0 or ran.stderr:
            raise SystemExit(f"wrong: {ran}")
        return taken, ran.stdout

    def most_memory(self, side, *words):
        """Runs a command of a side; the most memory that it held, in KiB, as the system told it last, a
        millisecond or two before its end. (What `wait` tells begins with the memory of this script.)"""
        held = ()
        with subprocess.Popen([*side, *map(str, words)], stdin=subprocess.DEVNULL,
                              stdout=subprocess.DEVNULL) as running:
            while running.poll() is None:
                held = memory_of(running.pid) or held
                time.sleep(0.001)
        if running.returncode != 0:
            raise SystemExit(f"wrong: {running.args} ended with {running.returncode}")
        return held[1]

    def serve(self, side, office, connections=1):
        return Server([*side, "serve", "--file", str(office), "--listen", "127.0.0.1:0",
                       "--connections", str(connections)])

    @contextlib.contextmanager
    def clients(self, *servers):
        """A kept connection to each server; all end with it."""
        with contextlib.ExitStack() as stack:
            for server in servers:
                stack.enter_context(server)
            yield [stack.enter_context(Client(server)) for server in servers]

    def check_alike(self, number, message, ours, *others):
        """All clients have to reprint a sale in the same bytes, and to write the same receipt for a
        new sale, but for what its moment changes."""
        if number:
            own, *replies = (client.ask(reprint(number)) for client in (ours, *others))
            for reply in replies:
                if reply != own:
                    raise SystemExit(f"{own} is not {reply}")
        mine, *replies = (json.loads(client.ask(message).partition(b"\r\n\r\n")[2])
                          for client in (ours, *others))
        for other in replies:
            if abs(mine["moment"] - other["moment"]) > 2:
                raise SystemExit(f"{mine} and {other} are at different moments")
            if [mine[name] for name in mine if name not in CHANGING] != [
                    other[name] for name in other if name not in CHANGING]:
                raise SystemExit(f"{mine} is not {other}")

    def ref(self):
        self.refs += 1
        return f"R-{self.refs:07d}"

    def in_turn(self, cases, measure):
        """Measures each case once a round, in an order that turns from round to round."""
        found = {case: [] for case in cases}
        cases = list(cases)
        for _ in range(self.rounds):
            for case in cases:
                found[case].append(measure(case))
            cases = cases[1:] + cases[:1]
        return found


def give_up(*_):
    raise SystemExit("bench: took longer than its limit")


def measure_in(options, marks, make_room):
    """Measures all of a room in a new folder and within the limit, says how the machine was, and
    puts what was printed into a page, between its marks, where one is named. Gives the room."""
    signal.signal(signal.SIGALRM, give_up)
    signal.signal(signal.SIGTERM, give_up)
    signal.alarm(options.limit)
    begun = time.monotonic()
    with tempfile.TemporaryDirectory(dir=options.folder) as name:
        folder = Path(name)
        room = make_room(folder)
        today = time.strftime("%Y-%m-%d", time.gmtime())
        room.say(f"{today}. {machine()} Before: {how_busy(folder)}.\n")
        room.measure_all()
        room.say(f"At the end: {how_busy(folder)}. The run took "
                 f"{time.monotonic() - begun:.0f} seconds.\n")
    if options.page:
        put = put_parts if getattr(options, "part", None) else put_into
        put(options.page, marks, "\n".join(room.parts))
    return room
