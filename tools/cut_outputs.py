"""Outputs of the built program that fail after each of their bytes in turn: a part of
tools/check_program. It is no script of its own."""
import contextlib
import os
import resource
import signal
import subprocess
from collections import namedtuple
from pathlib import Path

from program import (AT, FAR_BASE, KEY, METER, RECEIPT, SPENT, VEND, WAIT, change, prepare, query,
                     sell_words)
from shared import FORMAT, back_to, same, wrong

# No file grows beyond so many bytes here. An output that is to take some bytes begins that far below.
LIMIT = 1 << 30
# An output is cut after each of its bytes, or at so many places where it is longer.
PLACES = 120
# The words of a trial, up to its amounts.
TRIAL = ["trial", "--base", "2014", "--key", KEY, "--at", AT]
TOKEN = "00072057602627981690"
# Words that need no office: what they print is cut, and what they tell on the error output.
PRINTED = [[*TRIAL, "1", "1"], [*TRIAL, "1", "16385"], ["meter", "--key", KEY, TOKEN, TOKEN, "x"],
           ["quote", ":1", "0", "100000000"], ["quote", "--help"], ["help", "base"], ["selfcheck"]]
TOLD = [[*TRIAL, "1", "16385"], ["quote", ":100", "0", "9"], ["quote", ":100", "0", "0"],
        ["quote", ":100"]]

# How a run ended, and what it left on its output and its error output.
Ran = namedtuple("Ran", "status output errors")


@contextlib.contextmanager
def limited():
    """Files grow up to the limit, and a write beyond it fails."""
    before, most = resource.getrlimit(resource.RLIMIT_FSIZE)
    ignored = signal.signal(signal.SIGXFSZ, signal.SIG_IGN)
    resource.setrlimit(resource.RLIMIT_FSIZE, (LIMIT, most))
    try:
        yield
    finally:
        resource.setrlimit(resource.RLIMIT_FSIZE, (before, most))
        signal.signal(signal.SIGXFSZ, ignored)


def run(folder, words, room=LIMIT, errors_room=LIMIT):
    """A run whose output takes so many bytes, and whose error output so many."""
    starts = [LIMIT - room, LIMIT - errors_room]
    files = [os.open(folder / name, os.O_RDWR | os.O_CREAT | os.O_TRUNC) for name in ("out", "err")]
    try:
        for file, start in zip(files, starts):
            os.ftruncate(file, start)
            os.lseek(file, start, os.SEEK_SET)
        # The signal of a file that is too large stays ignored.
        ended = subprocess.run([VEND, *words], stdin=subprocess.DEVNULL, stdout=files[0],
                               stderr=files[1], cwd=folder, restore_signals=False, timeout=WAIT)
        return Ran(ended.returncode, *(os.pread(file, 1 << 20, start)
                                       for file, start in zip(files, starts)))
    finally:
        for file in files:
            os.close(file)


def places_of(text):
    """How many bytes of a text are taken: each number of them, or some where it is long."""
    return range(0, len(text), 1 + len(text) // (PLACES + 1))


def cut_output(folder, words):
    """The output is cut after each of its bytes: a beginning comes, all errors, and the status 1."""
    whole = run(folder, words)
    if not whole.output:
        wrong(f"{words} print nothing")
    places = places_of(whole.output)
    for room in places:
        same(run(folder, words, room), Ran(1, whole.output[:room], whole.errors), words)
    return len(places)


def cut_errors(folder, words, errors=None):
    """The error output is cut after each of its bytes: the rest is as before."""
    whole = run(folder, words)
    if not whole.errors or errors not in (None, whole.errors):
        wrong(f"{words}: {whole}\nexpected the errors {errors}")
    for room in (places := places_of(whole.errors)):
        same(run(folder, words, errors_room=room), whole._replace(errors=whole.errors[:room]), words)
    return len(places)


def cut_reports(folder):
    """The receipt and the reports of an office with a sale, and what is told of words that are refused."""
    file = folder / "papers.db"
    prepare(file)
    same(run(folder, sell_words(file, "A-1")), Ran(0, RECEIPT, b""), "the sale")
    at = ["--at", AT, "--file", str(file)]
    report = ["report", "--file", str(file), "--kind"]
    count = sum(cut_output(folder, [*report, kind]) for kind in ("receipt", "shift", "sales", "totals"))
    shown = [["meter", "--meter", METER], ["last", "--meter", METER], ["sale", "--operator", "ann", "--ref", "A-1"]]
    count += sum(cut_output(folder, ["show", *at, *words]) for words in shown)
    quote = ["quote", "--file", str(file), "--at", AT, "--meter", METER]
    listed = ["list", *at]
    count += sum(cut_output(folder, [*listed, kind]) for kind in ("tariffs", "meters", "shifts", "sales"))
    printed = [[*quote, "15"], [*quote, "15", "--json"], [*listed, "--json", "meters"]]
    count += sum(cut_output(folder, words) for words in printed)
    (folder / "wrong.csv").write_bytes(b"name,steps\nflat,:100\nhome,100\n")
    refused = [
        (["import", *at, "tariffs", "wrong.csv"], b"refused 14 ImportRow 2 Field 2\n"),
        (["import", *at, "meters", "missing.csv"], b"file\n"),
        (["shift", *at, "--operator", "ann", "open"], b"refused 3 ShiftOpen\n"),
        (["shift", *at, "--operator", "bob", "close"], b"refused 2 NoShift\n"),
        (["tariff", *at, "--meter", METER, "--tariff", "none"], b"refused 5 NoTariff\n"),
        (["withdraw", *at, "--tariff", "none", "--from", "2030-01-01"], b"refused 5 NoTariff\n"),
        (["base", *at, "--meter", METER, "--base", "1993"], b"refused 18 NotLater\n"),
        (["key", *at, "--meter", METER, "--key", "0123456789abcdef"], b"refused 20 HasSales\n"),
        (sell_words(file, "A-1", "20"), b"refused 1 RefReused\n"),
        ([*report, "totals", "--number", "2"], b"refused 13 NoSuchShift\n"),
        (["show", *at, "sale", "--operator", "ann", "--ref", "A-2"], b"refused 12 NoSale\n"),
        (["show", "--file", "none.db", "last", "--meter", METER], b"file\n"),
        ([*quote, "9"], b"refused 10 TooLittle\n"),
        (["list", "--file", "none.db", "meters"], b"file\n"),
        ([*listed, "--after", "1", "meters"], b"bad word\n"),
        (["report", "--file", ".", "--kind", "sales"], b"open 3 Store\n"),
        (["base", *at, "--meter", "1", "--base", "2014"], b"bad word\n"),
    ]
    count += sum(cut_errors(folder, words, errors) for words, errors in refused)
    same(run(folder, sell_words(file, "A-1")), Ran(0, RECEIPT, b""), "the sale after all")
    return count


def cut_once(folder, words, printed, room):
    """What stands by then is done, whether its answer is taken or not."""
    same(run(folder, words, room), Ran(1, printed[:room], b""), words)


def cut_sales(folder):
    """Each sale stands, and the same words again print its receipt, whose beginning was taken."""
    file = folder / "sales.db"
    prepare(file)
    for room in range(len(RECEIPT)):
        words = sell_words(file, f"B-{room}")
        cut = run(folder, words, room)
        whole = run(folder, words)
        head = f"SALE {room + 1}\nMETER {METER}\nTIME 2014-01-01T00:00:30Z\nKWH 0.1\n".encode()
        if whole.status or whole.errors or not whole.output.startswith(head):
            wrong(f"{words}: {whole}")
        same(cut, Ran(1, whole.output[:room], b""), words)
    count = len(RECEIPT)
    totals = f"shift 1 sales {count} tenths {count} cash {10 * count}\n".encode()
    same(run(folder, ["report", "--file", str(file), "--kind", "totals"]), Ran(0, totals, b""), "the totals")
    return count


def cut_answers(folder):
    """A shift, an import, another tariff and a later base date stand where their answers are cut."""
    file = folder / "answers.db"
    prepare(file)
    at = ["--at", AT, "--file", str(file)]
    shift = ["shift", *at, "--operator", "bob"]
    for room in range(8):
        printed = f"shift {room + 2}\n".encode()
        cut_once(folder, [*shift, "open"], printed, room)
        same(run(folder, [*shift, "open"]), Ran(1, b"", b"refused 3 ShiftOpen\n"), "open")
        cut_once(folder, [*shift, "close"], printed, room)
        same(run(folder, [*shift, "close"]), Ran(1, b"", b"refused 2 NoShift\n"), "close")
        (folder / "next.csv").write_text(f"name,steps\nt{room},:100\n")
        cut_once(folder, ["import", *at, "tariffs", "next.csv"], b"added 1\n", room)
        same(run(folder, ["import", *at, "tariffs", "next.csv"]), Ran(0, b"added 0\n", b""), "import")
        tariff, meter = f"t{room}", ["--meter", METER]
        cut_once(folder, ["tariff", *at, *meter, "--tariff", tariff], b"done\n", min(room, 4))
        shown = run(folder, ["show", *at, "meter", *meter]).output
        same(shown.split(b"\n")[1].split(b"\t")[2], tariff.encode(), "tariff")
    meters = ["00000000000", FAR_BASE, SPENT, "79927398713", "10000000017"]
    rows = "".join(f"{meter},1993,flat,{KEY}\n" for meter in meters)
    (folder / "old.csv").write_text(f"meter,base,tariff,key\n{rows}")
    same(run(folder, ["import", *at, "meters", "old.csv"]), Ran(0, b"added 5\n", b""), "meters")
    for room, meter in enumerate(meters):
        move = ["base", *at, "--meter", meter, "--base"]
        cut_once(folder, [*move, "2014"], b"done\n", room)
        same(run(folder, [*move, "1993"]), Ran(1, b"", b"refused 18 NotLater\n"), move)
    return 8 * 4 + len(meters)


def cut_listening(folder):
    """Nobody is waited for where the error output does not take the line that says where."""
    file = folder / "serve.db"
    prepare(file)
    words = ["serve", "--file", str(file), "--listen", "127.0.0.1:0", "--connections", "1"]
    told = b"listening 127.0.0.1:"
    for room in range(len(told) + 1):
        change(file, back_to(FORMAT - 1))
        same(run(folder, words, errors_room=room), Ran(1, b"", told[:room]), words)
        # The file alone is the office, which was brought to the format of today.
        Path(f"{file}-wal").unlink(missing_ok=True)
        same(query(file, "SELECT format FROM about;"), [str(FORMAT)], "the format")
    return len(told) + 1


def check_cuts(folder):
    """Outputs that take a beginning: a beginning is what comes, with the status 1, and what was asked
    stands."""
    folder = folder / "cuts"
    folder.mkdir()
    with limited():
        count = sum(cut_output(folder, words) for words in PRINTED)
        count += sum(cut_errors(folder, words) for words in TOLD)
        count += sum(part(folder) for part in (cut_reports, cut_sales, cut_answers, cut_listening))
    print(f"outputs that end after some bytes: {count} of them, each with a beginning and its status")
