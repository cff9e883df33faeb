"""What the scripts beside this file share: how they compare and end, the crates of the repository, copies
of them in which the kit works, the tables of an office's file and of the pages, and what a machine has to
have installed. It is no script of its own."""
import importlib.util
import os
import re
import shutil
import signal
import subprocess
import sys

TOP = os.path.dirname(os.path.dirname(os.path.abspath(__file__)))
# A check of a crate takes 1 to 5 GB, and that of tests up to 9 (docs/DEVELOPING.md, "What it costs").
GB_OF_A_CHECK = 5
# Debian's packages of the commands that the scripts call, and of the modules that they import.
COMMANDS = {"cc": "gcc and libc6-dev", "chromedriver": "chromium-driver", "chromium": "chromium",
            "curl": "curl", "nginx": "nginx-light", "openssl": "openssl", "sqlite3": "sqlite3"}
MODULES = {"selenium": "python3-selenium", "yaml": "python3-yaml"}
# What each format of an office's file has beside the tables of those before it.
NEW_TABLES = {
    1: ("about", "tariffs", "tariff_steps", "meters", "shifts", "sales"),
    2: ("last_ids", "month_tenths", "shift_totals"),
    3: ("meter_bases",),
    4: ("dated_steps",),
}
FORMAT = max(NEW_TABLES)


def tables_of(number):
    """The tables that a file of a format has."""
    return [table for since, tables in NEW_TABLES.items() if since <= number for table in tables]


def back_to(number):
    """The statements that take the tables of a file back to a format."""
    newer = tables_of(FORMAT)[len(tables_of(number)):]
    return " ".join([*(f"DROP TABLE {table};" for table in reversed(newer)),
                     f"UPDATE about SET format = {number};"])


def wrong(why):
    raise SystemExit(f"wrong: {why}")


def same(found, expected, where):
    if found != expected:
        wrong(f"{where}: found {found}\nexpected {expected}")


def end_by_signals(seconds=0):
    """Has a signal end the script as an error does, so that what it began is ended too. Where it sets
    itself an alarm, it says after how many seconds."""
    def give_up(number, _):
        late = f", after {seconds} seconds" if number == signal.SIGALRM else ""
        wrong(f"ended by signal {number}{late}")

    for number in (signal.SIGALRM, signal.SIGTERM, signal.SIGHUP):
        signal.signal(number, give_up)
    # A job in the background has it ignored, and so would all that it begins.
    signal.signal(signal.SIGINT, signal.default_int_handler)


def rows_of_page(page, *columns):
    """The rows of the tables of a page that have these columns, each as its cells."""
    found = []
    with open(f"{TOP}/docs/{page}", encoding="utf-8") as file:
        tables = re.findall(r"(?:^\|.*\n)+", file.read(), re.MULTILINE)
    for table in tables:
        lines = [[cell.strip() for cell in re.split(r"(?<!\\)\|", line)[1:-1]]
                 for line in table.splitlines()]
        found += lines[2:] if lines[0] == [*columns] else []
    return found or wrong(f"docs/{page} has no table {columns}")


def blocks_of(page):
    """The blocks of commands of a page, each with the heading that it stands under."""
    heading, block, found = "", None, []
    for line in page.read_text().splitlines():
        if block is None and line.startswith("#"):
            heading = line.lstrip("# ")
        elif block is None and line.strip() == "```sh":
            indent, block = len(line) - len(line.lstrip()), []
        elif block is not None and line.strip() == "```":
            found.append((heading, "\n".join(block)))
            block = None
        elif block is not None:
            block.append(line[indent:])
    return found


def luhn(number):
    """A meter's number: ten digits and their check."""
    digits = [int(it) for it in f"{number:010}"]
    total = sum(sum(divmod(2 * it, 10)) if at % 2 else it for at, it in enumerate(digits))
    return f"{number:010}{-total % 10}"


def quoted(cell):
    return re.findall(r"`([^`]*)`", cell)


def numbers(text):
    return [int(number) for number in re.findall(r"\d+", text)]


def lacking(*names):
    """A sentence for each of these commands and modules that this machine lacks."""
    found = lambda name: importlib.util.find_spec(name) if name in MODULES else shutil.which(name)
    packages = {**COMMANDS, **MODULES}
    missing = [f"{name} is missing: install Debian's {packages[name]}" for name in names
               if not found(name)]
    if "cc" in names and found("cc") and not has_headers():
        missing.append("cc finds no stdlib.h, the C library's: install Debian's libc6-dev")
    return missing


def has_headers():
    """Whether the C compiler finds the C library's headers, which another package has."""
    words = ["cc", "-E", "-x", "c", "-o", os.devnull, "-"]
    return subprocess.run(words, input=b"#include <stdlib.h>\n", capture_output=True).returncode == 0


def stop_without(*names):
    """Tells which of these commands and modules this machine lacks, and ends the script if any."""
    missing = lacking(*names)
    if missing:
        print("\n".join(missing), flush=True)
        sys.exit(1)


def lines_of_crates():
    """The lines of crates.txt by the names of their crates, in its order."""
    lines = {}
    with open(f"{TOP}/crates.txt", encoding="utf-8") as file:
        for line in file:
            if line.partition("#")[0].strip():
                lines[line.partition(":")[0].split()[0]] = line
    return lines


def names_in(line):
    """The libraries that a line of crates.txt names."""
    return line.partition("#")[0].partition(":")[2].split()


def with_those_below(names, lines):
    """These crates and those of the repository that they are made of, lowest first."""
    found, unread = {*names}, [*names]
    while unread:
        new = [it for it in names_in(lines[unread.pop()]) if it in lines and it not in found]
        found.update(new)
        unread += new
    return [name for name in lines if name in found]


def newest_source(name, lines):
    """When a file that a crate is made of was last changed, or the list of the crates."""
    files = [f"{TOP}/crates.txt"]
    for crate in with_those_below([name], lines):
        for part in ("src", "specs", "proofs"):
            for at, _, found in os.walk(f"{TOP}/crates/{crate}/{part}"):
                files += [f"{at}/{it}" for it in found]
    return max(os.path.getmtime(file) for file in files)


def copy_to(room, names, lines):
    """Copies what the proof and the run of these crates read, without their wrong bodies."""
    # rt takes a folder for the top of a repository where git's folder stands.
    os.makedirs(f"{room}/.git")
    shutil.copyfile(f"{TOP}/HANDLES", f"{room}/HANDLES")
    with open(f"{room}/crates.txt", "w", encoding="utf-8") as file:
        file.writelines(lines[name] for name in names)
    left_out = shutil.ignore_patterns("out", "must-fail", "attacks")
    for name in names:
        shutil.copytree(f"{TOP}/crates/{name}", f"{room}/crates/{name}", ignore=left_out)


def at_once():
    """How many checks may run at a time: one a processor, as many as memory holds."""
    with open("/proc/meminfo", encoding="utf-8") as file:
        kilobytes = int(re.search(r"MemAvailable:\s+(\d+)", file.read())[1])
    return max(1, min(len(os.sched_getaffinity(0)), (kilobytes >> 20) // GB_OF_A_CHECK))


def most_at_once():
    """What RT_JOBS says, or else how many checks may run at a time."""
    given = os.environ.get("RT_JOBS", "")
    return int(given) if given.isdigit() and int(given) else at_once()
