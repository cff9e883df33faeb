"""What a measurement prints: Markdown tables of ratios with the numbers behind them, and the
machine that they come from."""
import os
import re
import sqlite3
import statistics
import sys
import time


def ratio_of(ours, others):
    """The median of the ratios of each round, and the middle half of them: what disturbs a round
    disturbs both sides."""
    ratios = [our / other for our, other in zip(ours, others)]
    low, middle, high = statistics.quantiles(ratios, n=4, method="inclusive")
    places = 2 if middle >= 0.1 else 3
    return f"**{middle:.{places}f}** ({low:.{places}f} to {high:.{places}f})"


def table(head, rows):
    lines = [f"| {' | '.join(map(str, row))} |" for row in [head, ["---"] * len(head), *rows]]
    return "\n".join(lines) + "\n"


def sync_time(folder):
    """Microseconds that a small write takes to be on the disk: the median of a hundred."""
    taken = []
    with open(folder / "sync", "wb", buffering=0) as file:
        for _ in range(100):
            file.write(bytes(4096))
            begun = time.perf_counter()
            os.fdatasync(file.fileno())
            taken.append(time.perf_counter() - begun)
    return 1e6 * statistics.median(taken)


def machine():
    system = os.uname()
    model = next(line.partition(":")[2].strip() for line in open("/proc/cpuinfo")
                 if line.startswith("model name"))
    return (f"{os.cpu_count()} cores ({model}), {system.sysname} {system.release}, Python "
            f"{sys.version.split()[0]} with SQLite {sqlite3.sqlite_version}.")


def how_busy(folder):
    return (f"load {os.getloadavg()[0]:.1f}, a write of 4 KiB on the disk after "
            f"{sync_time(folder):.0f} µs")


def put_into(page, marks, text):
    """Puts the tables into a page, between two marks of it."""
    before, first, rest = page.read_text().partition(marks[0])
    _, last, after = rest.partition(marks[1])
    if not last:
        raise SystemExit(f"{page} has no place for the tables, between {' and '.join(marks)}")
    page.write_text(f"{before}{first}\n\n{text}\n{last}{after}")


def put_parts(page, marks, text):
    """Puts tables into a page in the place of those with their titles, each with what is said of the run."""
    before, first, rest = page.read_text().partition(marks[0])
    held, last, after = rest.partition(marks[1])
    begun, *parts = re.split(r"^(?=### )", text, flags=re.MULTILINE)
    parts[-1], _, end = parts[-1].partition("At the end: ")
    for part in parts:
        title = re.escape(part.partition("\n")[0])
        said = f"{part.rstrip()}\n\nA run of its own, {begun.strip()} At the end: {end.strip()}\n\n"
        held, count = re.subn(rf"^{title}\n.*?(?=^### |^At the end: )", lambda _: said, held,
                              flags=re.MULTILINE | re.DOTALL)
        if count != 1:
            raise SystemExit(f"{page} has no place for {title}")
    page.write_text(f"{before}{first}{held}{last}{after}")
