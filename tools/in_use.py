"""Commands whose file another program has: a part of tools/check_program. It is no script of its own."""
import subprocess
import time

from desk_client import Desk
from long_work import check_opened
from program import METER, VEND, WAIT, expect, is_sound, prepare, query, sell_words, vend
from shared import FORMAT

TOGETHER = 20
BRIEFLY = 0.5  # seconds, after which a command that waits has not ended


def begun(words):
    return subprocess.Popen([VEND, *words], stdin=subprocess.DEVNULL, stdout=subprocess.PIPE,
                            stderr=subprocess.PIPE)


def ended(process):
    out, err = process.communicate(timeout=WAIT)
    return subprocess.CompletedProcess(process.args, process.returncode, out, err)


def check_together(folder):
    """Sales that are begun at the same time all sell, each once."""
    file = folder / "together.db"
    prepare(file)
    refs = [f"T-{number}" for number in range(TOGETHER)]
    sales = {ref: begun(sell_words(file, ref)) for ref in refs}
    receipts = {}
    for ref, sale in sales.items():
        ran = ended(sale)
        expect(ran, 0, err=b"")
        receipts[ref] = ran.stdout
    if len(set(receipts.values())) != TOGETHER:
        raise SystemExit(f"wrong: of {TOGETHER} sales two have the same receipt: {receipts}")
    for ref, receipt in receipts.items():
        expect(vend(*sell_words(file, ref)), 0, receipt, b"")
    is_sound(file)
    counts = f"tariffs 1 meters 2 shifts 1 sales {TOGETHER}"
    expect(vend("audit", "--file", str(file)), 0, f"sound format {FORMAT} {counts}\n".encode(), b"")
    if query(file, "SELECT count(*), count(DISTINCT ref), count(DISTINCT tid) FROM sales;") != [
            "|".join([str(TOGETHER)] * 3)]:
        raise SystemExit("wrong: sales at the same time")


def check_first(folder):
    """So it is where the file is not there yet: one of them makes it."""
    file = folder / "first.db"
    words = ["shift", "--file", str(file), "--at", "1388534430", "open", "--operator"]
    shifts = [begun([*words, f"ann{number}"]) for number in range(TOGETHER)]
    told = []
    for shift in shifts:
        ran = ended(shift)
        expect(ran, 0, err=b"")
        told.append(ran.stdout)
    if sorted(told) != sorted(f"shift {number + 1}\n".encode() for number in range(TOGETHER)):
        raise SystemExit(f"wrong: shifts that are opened at the same time: {told}")


def check_held(folder):
    """While a desk has the file, a command waits, and goes on once the desk has ended or was killed."""
    file = folder / "held.db"
    prepare(file)
    report = ["report", "--file", str(file), "--kind", "totals"]
    for number, is_killed in enumerate((False, True), start=1):
        with Desk(file, 1) as desk:
            for words in (sell_words(file, f"H-{number}"), report, ["audit", "--file", str(file)],
                          ["show", "--file", str(file), "meter", "--meter", METER],
                          ["list", "--file", str(file), "shifts"],
                          ["quote", "--file", str(file), "--meter", METER, "10"]):
                expect(vend(*words, "--wait", "0"), 1, b"", b"open 3 Store\n")
            sale = begun([*sell_words(file, f"H-{number}"), "--wait", "600"])
            time.sleep(BRIEFLY)
            if sale.poll() is not None:
                raise SystemExit(f"wrong: a sale does not wait for its file: {ended(sale)}")
            if is_killed:
                desk.process.kill()
            else:
                desk.finish()
            expect(ended(sale), 0, err=b"")
        totals = f"shift 1 sales {number} tenths {number} cash {10 * number}\n"
        expect(vend(*report), 0, totals.encode(), b"")
    with Desk(file, 1) as desk:
        counts = f"sound format {FORMAT} tariffs 1 meters 2 shifts 1 sales 2\n"
        check_opened(desk, ["audit", "--file", str(file)], counts.encode())
    is_sound(file)


def check_given_up(folder):
    """A command gives up after as many seconds as it was told, and has changed nothing."""
    file = folder / "given_up.db"
    prepare(file)
    with Desk(file, 1) as desk:
        before = file.read_bytes()
        for wait in (1, 3):
            start = time.monotonic()
            expect(vend(*sell_words(file, "G-1"), "--wait", str(wait)), 1, b"", b"open 3 Store\n")
            waited = time.monotonic() - start
            if not wait <= waited < wait + WAIT / 2:
                raise SystemExit(f"wrong: for {wait} seconds a sale waited {waited}")
        if file.read_bytes() != before:
            raise SystemExit("wrong: a sale that gave up has changed the file")
        desk.finish()
    if query(file, "SELECT count(*) FROM sales;") != ["0"]:
        raise SystemExit("wrong: a sale that gave up has sold")


def check_in_use(folder):
    """Files that another program has."""
    folder = folder / "in_use"
    folder.mkdir()
    check_together(folder)
    check_first(folder)
    check_held(folder)
    check_given_up(folder)
    print(f"files in use: {TOGETHER} sales at the same time all sell; a command waits for a desk, and "
          "gives up after the seconds of --wait")
